//! The tools, run: what they make, and that they end with 1 and say why wherever they can't.

mod programs;

use leafmesh::{printed, text, Mesh};
use programs::{made, refused, run, sample, sample_name, text_made, Folder, BOARD, DRAW, RELAX};
use std::fs;
use std::path::Path;
use std::process::Command;

/// A current from the bottom to the top of layer 1, component 0.
const UP: [&str; 4] = [
    "--terminal",
    "in 10 A end 1 0 south",
    "--terminal",
    "out 0 V end 1 0 north",
];

fn net_of(name: &str) -> Vec<u8> {
    made(BOARD, &["net"], &fs::read(sample(name)).expect("a sample"))
}

#[test]
fn text_to_record_and_back() {
    let text = fs::read(sample("shunt.txt")).expect("a sample");
    let record = made(BOARD, &["pack"], &text);
    assert_eq!(record, fs::read(sample("shunt.record")).expect("a sample"));
    let shown = made(BOARD, &["unpack"], &record);
    assert_eq!(made(BOARD, &["pack"], &shown), record);
    for cut in 0..record.len() {
        if cut % 37 == 0 {
            let said = refused(BOARD, &["unpack"], &record[..cut]);
            let named = if cut < 5 {
                "length of what follows"
            } else {
                "bytes follow: "
            };
            assert!(cut == 0 || said.contains(named), "{said}");
        }
    }
}

#[test]
fn half_a_text_is_told() {
    let net = net_of("neck.txt");
    for share in 0..8 {
        let half = &net[..net.len() * share / 8];
        for tool in [DRAW, RELAX] {
            let said = refused(tool, &[], half);
            assert!(said.contains("leafnet"), "{said}");
        }
    }
    for tool in [DRAW, RELAX] {
        let said = refused(tool, &[], b"refused 4 0\n");
        assert_eq!(said, "leafnet answered: refused 4 0\n");
        refused(tool, &[], b"\xff\xfe");
    }
}

#[test]
fn another_boards_record_or_potentials_are_told() {
    let net = net_of("neck.txt");
    for other in [
        "comb.record",
        "two_layers.record",
        "across.txt",
        "deep.record",
    ] {
        let file = sample(other);
        let said = refused(DRAW, &["--record", file.to_str().expect("a name")], &net);
        assert_eq!(said, "the text is of another board than the record\n");
    }
    let record = sample("neck.record");
    let record = record.to_str().expect("a name");
    let folder = Folder::new("potentials");
    let volts = folder.put("volts", b"0\n1 2 3\n4\n");
    let words = ["--record", record, "--potentials", &volts];
    let refused_by = |content: &str| {
        folder.put("volts", content.as_bytes());
        refused(DRAW, &words, &net)
    };
    assert_eq!(
        refused_by("0\n1 2 3\n4\n"),
        format!("{volts}: 5 potentials for 66 nodes\n")
    );
    for (content, wrong) in [
        ("0\nzero\n", "zero"),
        ("0\n1 NaN\n", "NaN"),
        ("\n1e7", "1e7"),
    ] {
        assert_eq!(
            refused_by(content),
            format!(
                "{volts}: line 2: {wrong} is no potential: a number from -1048576 to 1048576\n"
            )
        );
    }
    folder.put("volts", &made(RELAX, &UP, &net));
    let picture = text_made(DRAW, &words, &net);
    assert!(picture.contains("power density in W/mm2, logarithmic"));
    assert!(!picture.contains("borders"));
    refused(DRAW, &["--record", "/no/such/file"], &net);
}

#[test]
fn draw_sh_says_its_usage_and_leaves_no_empty_file() {
    let script = Path::new(env!("CARGO_MANIFEST_DIR")).join("draw.sh");
    let output = Command::new(&script).output().expect("the script");
    assert_eq!(output.status.code(), Some(2));
    assert_eq!(
        String::from_utf8_lossy(&output.stderr),
        "usage: draw.sh BOARD [OUT]\n"
    );

    let folder = Folder::new("draw");
    let bad = folder.put("bad.record", b"\x01\0\0\0\0");
    let drawn = |board: &str, name: &str| {
        let mut script = Command::new(&script);
        let script = script.arg(board).arg(folder.name(name));
        let output = script.output().expect("the script");
        (output.status.code(), folder.count())
    };
    assert_eq!(drawn(&bad, "bad"), (Some(1), 1));
    // Without terminals there is no power to be drawn.
    assert_eq!(drawn(&sample_name("comb.txt"), "comb"), (Some(0), 3));
    assert_eq!(drawn(&sample_name("across.txt"), "across"), (Some(0), 6));
}

/// A board whose lower strip is so many pitches long, its upper strip ten.
fn of_pitches(long: u32) -> String {
    let east = f64::from(long) * 0.25;
    format!("level 3\npitch 0.25\npolygon 1 0 0.0005\n0 0\n{east} 0\n{east} 2.5\n2.5 2.5\n2.5 7.5\n0 7.5\n")
}

/// Every tool that makes a net or a picture.
fn refused_by_all(board: &str, words: &str) {
    // Tests run side by side.
    let folder = Folder::new(&format!("long-{:p}", board));
    let name = &*folder.put("board.txt", board.as_bytes());
    for command in ["net", "vtk", "msh", "csv", "solve"] {
        assert_eq!(
            refused(BOARD, &[command], board.as_bytes()),
            format!("{words}\n")
        );
        assert_eq!(
            refused(BOARD, &[command, name], b""),
            format!("{name}: {words}\n")
        );
    }
    for tool in [
        vec![name],
        vec!["--board", name],
        vec!["--board", name, "--power"],
        vec!["--record", name],
    ] {
        assert_eq!(
            refused(DRAW, &tool, b"cells 0 leaves 0 nodes 0 edges 0 splits 0\n"),
            format!("{name}: {words}\n")
        );
    }
    // A record is a record; but it is said, behind what is written.
    let output = run(BOARD, &["pack"], board.as_bytes());
    assert!(output.status.success() && !output.stdout.is_empty());
    assert_eq!(
        String::from_utf8_lossy(&output.stderr),
        format!("warning: {words}\n")
    );
    // Of a record there are no lines to name.
    assert!(!refused(BOARD, &["net"], &output.stdout).contains("line"));
}

/// 300 pitches make uneven cells, which the library refuses; 768 make cells of three pitches, whose corners don't meet
/// those of the other band, and which it takes; 512 make cells of two pitches, at whose middles the others stand.
#[test]
fn a_strip_that_is_too_long_is_told_by_its_line() {
    for (count, fitting) in [(300, "0.5"), (768, "0.75")] {
        let words = format!(
            "line 4: {count} pitches long; at most 256 base cells: give layer 1 a larger cell (layer 1 {fitting}), \
             take a larger pitch ({fitting} mm), or draw two polygons that touch"
        );
        refused_by_all(&of_pitches(count), &words);
    }
    let in_ticks = "cap 4\nlevel 0\ntarget 2\n# a shorter cap\npolygon 1 0 1\n8 2\n2 2\n2 0\n14 0\n14 4\n8 4\n";
    refused_by_all(
        in_ticks,
        "line 7: 6 base cells long; at most 4 base cells: give layer 1 a larger cell (layer 1 4), take a larger target \
         (4 ticks), or draw two polygons that touch",
    );
    for good in [256, 512] {
        made(BOARD, &["net"], of_pitches(good).as_bytes());
    }
}

/// A ring of docs/RULES.md, "The checks", as a board.
fn in_bands(target: u64, points: &str) -> String {
    format!("level 0\ntarget {target}\npolygon 1 0 1\n{points}\n")
}

/// Bands of unequal cells, though no strip is too long; and a finer polygon beside another one.
#[test]
fn bands_that_do_not_meet_are_told_by_their_polygon() {
    let bands = &in_bands(6, "0 0\n6 0\n6 2\n4 2\n4 4\n0 4");
    let so = |from: &str| {
        format!(
            "stands inside a leaf's side, from {from} to (0, 2), and isn't joined along it: make all coordinates \
             multiples of the base cell, and draw copper once"
        )
    };
    refused_by_all(bands, &format!("line 3: a node at (4, 2) {}", so("(6, 2)")));
    let first = in_bands(12, "0 0\n12 0\n12 2\n8 2\n8 4\n4 4\n4 2\n0 2");
    refused_by_all(
        &first,
        &format!("line 3: a node at (8, 2) {}", so("(12, 2)")),
    );
    // Here the upper cells' edges join the nodes along the lower cell's side.
    let joined = in_bands(6, "0 0\n6 0\n6 2\n8 2\n8 4\n0 4");
    let printed = made(BOARD, &["net"], joined.as_bytes());
    made(DRAW, &[], &printed);
    made(RELAX, &UP, &printed);
    let text = text::parse(bands).expect("a board");
    let mesh = Mesh::unjudged(&text).expect("a mesh");
    let made = mesh.unjudged_net().expect("a net");
    let printed = printed::show_mesh(&text, &mesh, &made);
    for tool in [DRAW, RELAX] {
        let said = refused(tool, &[], printed.as_bytes());
        assert!(
            said.starts_with("node 4 stands inside a side of leaf 0, between nodes 2 and 3, and isn't joined along it"),
            "{said}"
        );
    }
    let in_millimetres =
        "level 1\npitch 0.5\nlayer 1 1.5\npolygon 1 0 1\n0 0\n1.5 0\n1.5 1\n4 1\n4 3\n0 3\n";
    let said = refused(BOARD, &["net"], in_millimetres.as_bytes());
    assert!(said.starts_with("line 4: a node at ("), "{said}");
    assert!(said.contains(" mm)"), "{said}");
}

/// Two squares over each other, in millimetres; lines from 13 on are links.
const TWO_LAYERS: &str =
    "level 1\npitch 0.5\npolygon 1 0 0.001\n0 0\n2 0\n2 2\n0 2\npolygon 2 0 0.001\n0 0\n2 0\n2 2\n0 2\n";

#[test]
fn links_of_a_text_are_in_its_net_and_its_pictures() {
    let board = format!("{TWO_LAYERS}via 1 2 0 1 1 0.6 0.6 0.01\ncontact 0 1\n");
    let net = made(BOARD, &["net"], board.as_bytes());
    let printed = printed::read(&String::from_utf8(net.clone()).expect("text")).expect("a net");
    // Nine nodes of each layer are inside the via.
    assert_eq!((printed.links, printed.links().len()), (82, 82));
    assert_eq!(printed.links()[0].conductance, 1.0);
    assert!(String::from_utf8_lossy(&net)
        .lines()
        .next()
        .expect("totals")
        .ends_with(" links 82"));

    let folder = Folder::new("links");
    let name = &*folder.put("board.txt", board.as_bytes());
    let through = [
        "--terminal",
        "in 1 A end 1 0 west",
        "--terminal",
        "out 0 V end 2 0 east",
    ];
    let volts = &*folder.put("volts", &made(RELAX, &through, &net));
    for (words, input) in [
        (vec!["--board", name], &b""[..]),
        ([&["--board", name, "--power"], &through[..]].concat(), b""),
        (vec!["--record", name], &net),
        (vec!["--record", name, "--potentials", volts], &net),
        (vec![], &net),
    ] {
        let picture = String::from_utf8(made(DRAW, &words, input)).expect("text");
        assert!(picture.contains("32 leaves, 82 links"), "{words:?}");
        // 24 borders on each layer; across them each of these twice, and none of a cell and the one above it.
        let words = [&words[..], &["--borders"]].concat();
        let picture = String::from_utf8(made(DRAW, &words, input)).expect("text");
        let all = "32 leaves, 96 borders, 48 of them across layers, 82 links";
        assert!(picture.contains(all), "{words:?}");
        let lines = picture.matches("<title>leaves ").count();
        assert_eq!(lines, 48 + 2 * 48, "{words:?}");
    }
    // The same board without its links has another net.
    folder.put("board.txt", TWO_LAYERS.as_bytes());
    let said = refused(DRAW, &["--record", name], &net);
    assert_eq!(said, "the text is of another board than the record\n");
    let vtk = String::from_utf8(made(BOARD, &["vtk"], board.as_bytes())).expect("text");
    assert!(vtk.contains("SCALARS siemens double 1"));
}
