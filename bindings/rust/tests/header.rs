//! The header's constants and the crate's are the same.

use leafmesh::{
    columns, ffi, limits, Cell, Channel, Contact, Edge, Node, Side, Via, NO_CELL, SLOT, SLOTS,
};
use std::fs;
use std::mem::size_of;
use std::path::Path;

/// The number behind a name that the header defines.
fn defined(header: &str, name: &str) -> String {
    let start = format!("#define LEAFMESH_{name} ");
    let line = header.lines().find(|line| line.starts_with(&start));
    let value = line.unwrap_or_else(|| panic!("no {name}"))[start.len()..]
        .split(' ')
        .next();
    value
        .expect("a value")
        .trim_end_matches(['U', 'L'])
        .to_string()
}

#[test]
fn the_headers_constants_are_the_crates() {
    let file = Path::new(env!("CARGO_MANIFEST_DIR")).join("../../include/leafmesh.h");
    let header = fs::read_to_string(file).expect("the header");
    for (name, number) in [
        ("COORDINATE", limits::COORDINATE as usize),
        ("MAX_LEVEL", limits::MAX_LEVEL as usize),
        ("MEANS_DEFAULT", limits::MEANS_DEFAULT as usize),
        ("DEFAULT_LEVEL", limits::DEFAULT_LEVEL as usize),
        ("CAP", limits::CAP as usize),
        ("CELL", limits::CELL as usize),
        ("HALF", limits::HALF as usize),
        ("LAYER_ENTRIES", limits::LAYER_ENTRIES),
        ("POLYGONS", limits::POLYGONS),
        ("RING_POINTS", limits::RING_POINTS),
        ("SPLITS", limits::SPLITS),
        ("SLOTS", SLOTS),
        ("SLOT", SLOT),
        ("NO_CELL", NO_CELL as usize),
        ("NODES_A_LEAF", limits::NODES_A_LEAF),
        ("EDGES_A_LEAF", limits::EDGES_A_LEAF),
        ("CELLS_A_LEAF", limits::CELLS_A_LEAF),
        ("WORK_A_LEAF", limits::WORK_A_LEAF),
        ("CHECK_WORK_A_NODE", limits::CHECK_WORK_A_NODE),
        ("CHECK_WORK_AN_EDGE", limits::CHECK_WORK_AN_EDGE),
        ("CHECK_NODES", limits::CHECK_NODES),
    ] {
        assert_eq!(defined(&header, name), number.to_string(), "{name}");
    }
    for (name, size) in [
        ("node", size_of::<Node>()),
        ("edge", size_of::<Edge>()),
        ("cell", size_of::<Cell>()),
        ("contact_pair", size_of::<Contact>()),
        ("via", size_of::<Via>()),
        ("channel", size_of::<Channel>()),
    ] {
        assert!(header.contains(&format!(
            "LEAFMESH_ASSERT(sizeof(leafmesh_{name}) == {size}"
        )));
    }
    let sides = [Side::South, Side::East, Side::North, Side::West];
    let names = sides.map(|side| format!("LEAFMESH_{side:?}").to_uppercase());
    assert!(header.contains(&format!("enum {{ {} }};", names.join(", "))));
    assert_eq!(columns::POLYGON + 1, SLOT);
    assert_eq!(limits::check_work(10, 4), 102);
    assert_eq!(limits::check_work(limits::CHECK_NODES + 1, 4), 0);
}

/// A call's parameters by the header, and by the crate's raw declarations.
fn parameters<'a>(text: &'a str, start: &str) -> Vec<&'a str> {
    let from = text.find(start).unwrap_or_else(|| panic!("no {start}")) + start.len();
    let list = &text[from..from + text[from..].find(')').expect("an end")];
    let last = |word: &'a str| word.rsplit([' ', '*']).next().expect("a word");
    list.split(',')
        .map(|one| one.trim().trim_end_matches(','))
        .filter(|one| !one.is_empty())
        .map(|one| one.split_once(':').map_or(last(one), |(name, _)| name))
        .collect()
}

/// Every call has the same parameters in the same order, and one that takes a table takes its head behind it.
#[test]
fn the_headers_calls_are_the_crates() {
    let root = Path::new(env!("CARGO_MANIFEST_DIR"));
    let header = fs::read_to_string(root.join("../../include/leafmesh.h")).expect("the header");
    let raw = fs::read_to_string(root.join("src/ffi.rs")).expect("the declarations");
    let mut calls = 0;
    for part in raw.split("pub fn leafmesh_").skip(1) {
        let name = part.split('(').next().expect("a name");
        let own = parameters(&raw, &format!("pub fn leafmesh_{name}("));
        // The header's first call of this name is its declaration.
        assert_eq!(own, parameters(&header, &format!(" leafmesh_{name}(")));
        if let Some(at) = own.iter().position(|&word| word == "table_length") {
            let head = ["count", "leaves", "max_level"];
            assert!(name == "build" || own[at + 1..at + 4] == head, "{name}");
        }
        calls += 1;
    }
    assert_eq!(calls, 16);
}

/// What the calls answer.
#[test]
fn the_headers_outcomes_are_the_crates() {
    let file = Path::new(env!("CARGO_MANIFEST_DIR")).join("../../include/leafmesh.h");
    let header = fs::read_to_string(file).expect("the header");
    for (name, size) in [
        ("outcome", size_of::<ffi::Outcome>()),
        ("border_outcome", size_of::<ffi::BorderOutcome>()),
        ("table_outcome", size_of::<ffi::TableOutcome>()),
        ("read_outcome", size_of::<ffi::ReadOutcome>()),
        ("net_outcome", size_of::<ffi::NetOutcome>()),
        ("check_outcome", size_of::<ffi::CheckOutcome>()),
    ] {
        let end = header
            .find(&format!("}} leafmesh_{name};"))
            .expect("a struct");
        let fields = header[..end].rsplit("typedef struct {").next();
        let fields = fields.expect("fields").matches("uint64_t").count();
        assert_eq!(8 * fields, size, "{name}");
    }
}
