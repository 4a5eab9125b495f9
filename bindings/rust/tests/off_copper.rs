//! Links that end where there is no copper, which the library joins to the nearest node.

mod programs;

use leafmesh::{text, Astray, Link, Mesh, SameLayer, Unmeshed};
use programs::{made, refused, BOARD};

/// Two plates of 10 by 5 mm, and a bar of another component beside the upper one.
const PLATES: &str = "level 1\npitch 0.5\npolygon 1 0 0.0005\n0 0\n10 0\n10 5\n0 5\n\
    polygon 2 0 0.0005\n0 0\n10 0\n10 5\n0 5\npolygon 2 1 0.0005\n12 0\n14 0\n14 5\n12 5\nchannels 2\n\
    terminal in 1 A end 1 0 west\nterminal out 0 V end 2 1 east\nchannel 0 10 2.5 1 12 2.5 0.001\n";

fn with(line: &str) -> String {
    format!("{PLATES}{line}\n")
}

/// A via typed at (50, 25) for (5, 2.5) went to the corner 44.7 mm away.
#[test]
fn a_link_off_the_copper_is_refused_with_the_nearest() {
    for (line, words) in [
        (
            "via 1 2 0 50 25 0 0 0.001",
            "no copper of layer 1, component 0 lies at its via, (50 mm, 25 mm): the nearest is at (10 mm, 5 mm), \
             44.7214 mm away",
        ),
        (
            "via 1 2 0 50 25 0.6 0.6 0.001",
            "no copper of layer 1, component 0 lies at its footprint, (50 mm, 25 mm): the nearest is at (10 mm, 5 mm), \
             44.7214 mm away",
        ),
        (
            "channel 0 10.5 2.5 1 12 2.5 1",
            "no copper of layer 2, component 0 lies at its drain, (10.5 mm, 2.5 mm): the nearest is at (10 mm, 2.5 \
             mm), 0.5 mm away",
        ),
        (
            "channel 0 10 2.5 1 12 -3 1",
            "no copper of layer 2, component 1 lies at its source, (12 mm, -3 mm): the nearest is at (12 mm, 0 mm), 3 \
             mm away",
        ),
        ("via 1 1 0 5 2.5 0 0 0.001", "joins layer 1 to itself: a via has two layers"),
    ] {
        for command in ["solve", "net", "vtk"] {
            let said = refused(BOARD, &[command], with(line).as_bytes());
            assert_eq!(said, format!("line 22: {words}\n"));
        }
    }
    // By its component alone it was told before.
    let said = refused(
        BOARD,
        &["solve"],
        with("via 1 3 0 5 2.5 0 0 0.001").as_bytes(),
    );
    assert!(said.starts_with("line 22: joins nothing: "), "{said}");
}

/// A side is copper, and so is what a footprint reaches by a part of it.
#[test]
fn a_link_on_the_copper_or_its_side_is_taken() {
    for line in [
        "via 1 2 0 5 2.5 0 0 0.001",
        "via 1 2 0 10 5 0 0 0.001",
        "via 1 2 0 5.13 2.6 0.01 0.01 0.001",
        "via 1 2 0 10.5 2.5 0.6 0.6 0.001",
        "via 1 2 0 10.5 2.5 0.5 0.5 0.001",
        "channel 0 10 0 1 14 5 1",
        "contact 0 2",
    ] {
        let joined = format!("{line}\nvia 1 2 0 5 2.5 0 0 0.001");
        made(BOARD, &["solve"], with(&joined).as_bytes());
    }
    let beside = with("via 1 2 0 10.5 2.5 0.49 0.49 0.001");
    assert!(refused(BOARD, &["solve"], beside.as_bytes()).contains("no copper of layer 1"));
    // Its copper of one layer isn't enough.
    let short = PLATES.replace(
        "polygon 2 0 0.0005\n0 0\n10 0\n10 5\n0 5",
        "polygon 2 0 0.0005\n2 0\n10 0\n10 5\n2 5",
    );
    let said = refused(
        BOARD,
        &["solve"],
        format!("{short}via 1 2 0 1 1 0 0 0.001\n").as_bytes(),
    );
    let words = "no copper of layer 2, component 0 lies at its via, (1 mm, 1 mm): the nearest is at (2 mm, 1 mm), 1 mm \
                 away";
    assert_eq!(said, format!("line 22: {words}\n"));
}

/// A footprint counts by its area and not by its middle; where it only touches, its copper isn't there.
#[test]
fn a_channels_footprint_and_a_barrel_need_an_area_of_copper() {
    let joined = |line: &str| with(&format!("{line}\nvia 1 2 0 5 2.5 0 0 0.001"));
    for line in [
        "channel 0 at 10.2 2.5 0.5 0.5 1 at 12.5 2.5 0.5 0.5 1",
        "via 1 2 0 10.2 2.5 0.5 0.5 0.001 barrel",
    ] {
        made(BOARD, &["solve"], joined(line).as_bytes());
    }
    for (line, whose) in [
        (
            "channel 0 at 10.5 2.5 0.5 0.5 1 at 12.5 2.5 0.5 0.5 1",
            "layer 2, component 0 lies at its drain's footprint, (10.5 mm, 2.5 mm)",
        ),
        (
            "channel 0 at 9 2.5 0.5 0.5 1 at 15 2.5 0.5 0.5 1",
            "layer 2, component 1 lies at its source's footprint, (15 mm, 2.5 mm)",
        ),
        (
            "via 1 2 0 10.5 2.5 0.5 0.5 0.001 barrel",
            "layer 1, component 0 lies at its footprint, (10.5 mm, 2.5 mm)",
        ),
    ] {
        let said = refused(BOARD, &["solve"], joined(line).as_bytes());
        assert!(
            said.starts_with(&format!(
                "line 22: no copper of {whose}: the nearest is at (1"
            )),
            "{said}"
        );
    }
}

#[test]
fn a_mesh_tells_which_end_and_how_far() {
    let whole = text::parse_whole(&with("via 1 2 0 50 25 0 0 0.001")).expect("a board");
    let mesh = Mesh::unjudged(&whole.board).expect("a mesh");
    let step = mesh.settings().target as i64;
    let wanted = Astray {
        link: Link::Via(0),
        end: 0,
        layer: 1,
        component: 0,
        place: [100 * step, 50 * step],
        has_area: false,
        nearest: [20 * step, 10 * step],
    };
    assert_eq!(
        mesh.linked_net(whole.links.rows()),
        Err(Unmeshed::Astray(wanted))
    );
    let distance = 40.0 * (5.0_f64).sqrt() * step as f64;
    assert!((wanted.distance() / distance - 1.0).abs() < 1e-12);
    assert!(wanted
        .to_string()
        .starts_with("via 0: no copper of layer 1, component 0 lies at its via, ("));

    let whole = text::parse_whole(&with("via 2 2 0 5 2.5 0 0 0.001")).expect("a board");
    let same = Err(Unmeshed::SameLayer(SameLayer { via: 0, layer: 2 }));
    assert_eq!(mesh.linked_net(whole.links.rows()), same);
    // By the rules both are links.
    assert!(mesh.unjudged_linked_net(whole.links.rows()).is_ok());
}
