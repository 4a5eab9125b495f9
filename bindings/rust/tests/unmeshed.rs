//! Boards and meshes whose net would be wrong, by the crate's own calls.

use leafmesh::solving::System;
use leafmesh::{text, Loose, Mesh, Polygons, Reason, Settings, TooLong, Unmeshed};

const SETTINGS: Settings = Settings {
    max_level: 2,
    cap: 4,
    target: 8,
};

/// An upper strip of 16 by 8 on a lower one that is `wide`.
fn two_strips(wide: i64) -> Polygons {
    let mut polygons = Polygons::default();
    polygons.push(
        1,
        0,
        1.0,
        &[[0, 16], [0, 0], [wide, 0], [wide, 8], [16, 8], [16, 16]],
    );
    polygons
}

#[test]
fn a_strip_of_more_than_cap_base_cells_is_named() {
    let long = |wide: i64, cells: u64| {
        Unmeshed::TooLong(TooLong {
            polygon: 0,
            point: 0,
            strip: [0, 0, wide, 8],
            cells,
            cap: 4,
            cell: 8,
        })
    };
    // Cells of 10 ticks, which the library refuses.
    let why = Mesh::new(SETTINGS, &[], two_strips(40)).expect_err("uneven cells");
    assert_eq!(why, long(40, 5));
    assert_eq!(
        why.to_string(),
        "polygon 0, point 0: 5 base cells long; at most 4: give its layer a larger cell, take a larger target, or draw two \
         polygons that touch"
    );
    // Cells of 24 ticks, which it takes.
    let mesh = Mesh::new(SETTINGS, &[], two_strips(96)).expect("even cells");
    assert_eq!(mesh.net().expect_err("bands that don't meet"), long(96, 12));
    assert!(mesh.unjudged_net().is_ok());
    // As many as there may be.
    assert!(Mesh::new(SETTINGS, &[], two_strips(32))
        .expect("even cells")
        .net()
        .is_ok());
}

/// A layer has cells of its own, and another component's strips have no part in it.
#[test]
fn the_strip_is_one_of_the_same_copper() {
    let mut polygons = two_strips(32);
    polygons.push(1, 1, 1.0, &[[0, 32], [96, 32], [96, 40], [0, 40]]);
    let mesh = Mesh::new(SETTINGS, &[], polygons.clone()).expect("even cells");
    assert!(mesh.net().is_ok());
    // Squares of 16, out of step by 2 with the first polygon's cells.
    polygons.push(1, 0, 1.0, &[[32, 2], [48, 2], [48, 10], [32, 10]]);
    let mesh = Mesh::new(SETTINGS, &[], polygons).expect("even cells");
    let loose = mesh.net().expect_err("out of step");
    assert!(
        matches!(
            loose,
            Unmeshed::Loose(Loose {
                polygon: 0,
                place: [32, 2],
                ..
            })
        ),
        "{loose:?}"
    );
    let own = [[1, 16]];
    let mesh = Mesh::new(SETTINGS, &own, two_strips(64)).expect("even cells");
    assert!(mesh.net().is_ok());
}

/// Every node is joined along the coarse leaf's side; but its cells are no elements.
#[test]
fn leaves_two_levels_apart_have_a_net_and_no_elements() {
    let mut mesh = Mesh::new(SETTINGS, &[], two_strips(32)).expect("even cells");
    mesh.refine(0).expect("a leaf");
    mesh.refine(7).expect("its south-eastern quarter");
    let net = mesh.net().expect("joined sides");
    let why = System::of_cells(&net).expect_err("no fit");
    assert!(why.to_string().contains("balance the table"), "{why}");
    mesh.balance().expect("room");
    let net = mesh.net().expect("balanced");
    assert_eq!(mesh.check_by_layer(net.rows()), Ok(None));
    assert!(System::of_cells(&net).is_ok());
    // No edge at all: the first node inside a side is named.
    let without = leafmesh::NetRows {
        edges: &[],
        ..net.rows()
    };
    assert!(mesh.check_by_layer(without).expect("sound rows").is_some());
}

#[test]
fn refusals_of_the_library_stay() {
    let board = text::parse("level 1\ntarget 8\npolygon 1 0 1\n0 0\n8 0\n9 8\n0 8\n");
    let board = board.expect("a board");
    match Mesh::of_board(&board) {
        Err(Unmeshed::Refused(refusal)) => assert_eq!(refusal.reason, Reason::Slanted),
        other => panic!("{other:?}"),
    }
}
