//! Refusals in the order of docs/RULES.md: two faults at once, and the earlier one is answered.

mod common;

use calls::build::{build, Outlines, Settings};
use calls::checks::{check_by_layer, check_network_conforming};
use calls::contact::{contact, Border, Side};
use calls::even::{balance, conform};
use calls::net::{Cell, Edge, Net};
use calls::network::{network, NetRoom};
use calls::power::cell_power;
use calls::record::Board;
use calls::sheets::Sheets;
use calls::strips::strips;
use calls::table::{leaf_order, leaves, refine, Head, WIDTH};
use common::{board, mesh, net_of, p2, refused, square, Table};

const LIMIT: i64 = 1 << 36;

type Ring = Vec<[i64; 2]>;

#[test]
fn contact_refuses_3() {
    let sound = [0, 0, 4, 4];
    for bad in
        [[0, 0, 0, 4], [0, 0, 4, 0], [4, 0, 0, 4], [0, 0, LIMIT + 1, 4], [0, -LIMIT - 1, 4, 4]]
    {
        assert_eq!(contact(bad, sound), refused(3, 0));
        assert_eq!(contact(sound, bad), refused(3, 0));
    }
    let halves = contact([-LIMIT, -LIMIT, 0, LIMIT], [0, -LIMIT, LIMIT, LIMIT]);
    assert_eq!(halves, Ok(Some(Border { side: Side::East, length: 1 << 37 })));
}

#[test]
fn leaf_lists_refuse_7_then_6() {
    let mut table = p2(10);
    for list in [leaves, leaf_order] {
        let mut out = [7; 9];
        assert_eq!(list(&table.row, table.head, &mut out[..7]), refused(6, 0));
        assert_eq!(out, [7; 9]);
        assert_eq!(list(&table.row, table.head, &mut out), Ok(8));
        assert_eq!(out, [1, 2, 4, 5, 6, 7, 8, 9, 7]);
    }
    table.row[0] = 1;
    assert_eq!(leaves(&table.row, table.head, &mut []), refused(7, 0));
    assert_eq!(leaf_order(&table.row, table.head, &mut []), refused(7, 0));
}

#[test]
fn refine_refuses_7_8_9_10_6() {
    let mut table = p2(10);
    assert_eq!(refine(&mut table.row, table.head, 1), refused(6, 0));
    assert_eq!(refine(&mut table.row, table.head, 6), refused(10, 6));
    assert_eq!(refine(&mut table.row, table.head, 3), refused(9, 3));
    assert_eq!(refine(&mut table.row, table.head, 10), refused(8, 10));
    assert_eq!(refine(&mut table.row, table.head, usize::MAX), refused(8, u64::MAX));
    for leaves in [0, 7, 9, 10, usize::MAX] {
        let stale = Head { leaves, ..table.head };
        for id in [0, 1, 3, 6, 10] {
            assert_eq!(refine(&mut table.row, stale, id), refused(7, 0));
        }
    }
    table.row[0] = 1;
    assert_eq!(refine(&mut table.row, table.head, 10), refused(7, 0));
}

#[test]
fn balance_and_conform_refuse_7_then_6() {
    for even in [balance, conform] {
        let mut table = p2(10);
        assert_eq!(even(&mut table.row, table.head), refused(6, 0));
        table.row[7] = 256;
        let before = table.row.clone();
        assert_eq!(even(&mut table.row, table.head), refused(7, 0));
        assert_eq!(table.row, before);
    }
}

#[test]
fn strips_refuse_3_4_6_with_place_0() {
    let far_and_slanted = [[0, 0], [4, 4], [LIMIT + 1, 0]];
    assert_eq!(strips(&far_and_slanted, &mut []), refused(3, 0));
    assert_eq!(strips(&[[0, 0], [4, 4], [4, 0]], &mut []), refused(4, 0));
    assert_eq!(strips(&square(0, 0, 4), &mut []), refused(6, 0));
    // A slanted pair makes no strips and is still 4; straight ones make none.
    assert_eq!(strips(&[[0, 0], [4, 4]], &mut []), refused(4, 0));
    for straight in [&[][..], &[[3, 4]], &[[0, 0], [4, 0]]] {
        assert_eq!(strips(straight, &mut []), Ok(0));
    }
    // The last point to the first.
    assert_eq!(strips(&[[0, 0], [4, 0], [4, 4]], &mut []), refused(4, 0));
    let long = |points| vec![[0, 0]; points];
    assert_eq!(strips(&long(1_024), &mut []), Ok(0));
    assert_eq!(strips(&long(1_025), &mut []), refused(3, 0));
}

/// A slanted ring, an uneven one (side 6 at max_level 1), and one out of range.
fn slanted() -> Ring {
    vec![[0, 0], [4, 0], [4, 4]]
}
fn uneven() -> Ring {
    vec![[0, 0], [6, 0], [6, 4], [0, 4]]
}
fn far() -> Ring {
    vec![[0, 0], [LIMIT + 1, 4], [0, 4]]
}

fn board_of(rings: &[Ring]) -> Board {
    let mut board = board(1, 8);
    for ring in rings {
        board.push_polygon(1, 0, 1.0, ring);
    }
    board
}

fn build_in(board: &Board, length: usize) -> calls::Answer<u64> {
    let mut row = vec![7; length];
    let answer = build(&board.settings(), &board.outlines(), &mut row);
    if answer.is_err() {
        assert_eq!(row, vec![7; length], "a refused build writes nothing");
    }
    answer.map(|Head { count, leaves, .. }| {
        assert_eq!(count, leaves, "roots are leaves");
        count as u64
    })
}

#[test]
fn build_judges_every_polygon_before_an_uneven_side_and_that_before_the_room() {
    let good = || square(0, 0, 8);
    let cases: [(&[Ring], calls::Answer<u64>); 8] = [
        (&[good(), good()], Ok(2)),
        (&[good(), good(), good()], refused(6, 0)),
        (&[uneven(), slanted()], refused(4, 1)),
        (&[slanted(), far()], refused(4, 0)),
        (&[far(), slanted()], refused(3, 0)),
        (&[good(), uneven(), uneven()], refused(5, 1)),
        (&[square(0, 0, 64), uneven()], refused(5, 1)),
        (&[good(), good(), far()], refused(3, 2)),
    ];
    for (rings, answer) in cases {
        assert_eq!(build_in(&board_of(rings), 2 * WIDTH), answer, "{rings:?}");
    }
}

#[test]
fn build_judges_the_shape_before_the_settings_and_those_before_the_polygons() {
    let mut board = board_of(&[slanted()]);
    board.cap = 0;
    assert_eq!(build_in(&board, 2 * WIDTH + 1), refused(7, 0));
    assert_eq!(build_in(&board, 16_385 * WIDTH), refused(7, 0));
    assert_eq!(build_in(&board, 2 * WIDTH), refused(3, 0));
    board.cap = 1;
    assert_eq!(build_in(&board, 2 * WIDTH), refused(4, 0));
    board.points.push([0, 0]);
    assert_eq!(build_in(&board, 2 * WIDTH), refused(7, 0));
    board.point_count[0] += 1;
    board.r_sheet.push(1.0);
    assert_eq!(build_in(&board, 2 * WIDTH), refused(7, 0));
}

#[test]
fn build_judges_each_setting() {
    let sound = board_of(&[square(0, 0, 8)]);
    let with = |change: fn(&mut Board)| {
        let mut board = sound.clone();
        change(&mut board);
        build_in(&board, WIDTH)
    };
    assert_eq!(with(|_| ()), Ok(1));
    assert_eq!(with(|b| b.max_level = 13), refused(3, 0));
    assert_eq!(with(|b| b.max_level = 255), refused(3, 0));
    assert_eq!(with(|b| b.cap = 257), refused(3, 0));
    assert_eq!(with(|b| b.target = 0), refused(3, 0));
    assert_eq!(with(|b| b.target = LIMIT), Ok(1));
    assert_eq!(with(|b| b.target = LIMIT + 1), refused(3, 0));
    assert_eq!(with(|b| b.layers = vec![(1, 0), (2, LIMIT)]), Ok(1));
    assert_eq!(with(|b| b.layers = vec![(1, -1)]), refused(3, 0));
    assert_eq!(with(|b| b.layers = vec![(1, LIMIT + 1)]), refused(3, 0));
    assert_eq!(with(|b| b.layers = vec![(2, 0), (2, 0)]), refused(3, 0));
    assert_eq!(with(|b| b.layers = vec![(2, 0), (1, 0)]), refused(3, 0));
    assert_eq!(with(|b| b.layers = (0..64).map(|n| (n, 0)).collect()), Ok(1));
    assert_eq!(with(|b| b.layers = (0..65).map(|n| (n, 0)).collect()), refused(3, 0));
}

#[test]
fn build_takes_256_polygons_and_judges_r_sheet() {
    let none = vec![Vec::new(); 257];
    assert_eq!(build_in(&board_of(&none[..256]), 0), Ok(0));
    assert_eq!(build_in(&board_of(&none), 0), refused(3, 0));
    let mut board = board_of(&none[..3]);
    for (ohms, answer) in [
        ((-40f64).exp2(), Ok(0)),
        (40f64.exp2(), Ok(0)),
        ((-40f64).exp2() / 2.0, refused(3, 1)),
        (40f64.exp2() * 2.0, refused(3, 1)),
        (f64::NAN, refused(3, 1)),
        (-1.0, refused(3, 1)),
        (f64::INFINITY, refused(3, 1)),
    ] {
        board.r_sheet[1] = ohms;
        assert_eq!(build_in(&board, 0), answer, "{ohms}");
    }
}

#[test]
fn build_counts_its_roots_in_64_bits() {
    // 256 by 256 roots in each of 256 polygons.
    let mut board = board(0, 1);
    for _ in 0..256 {
        board.push_polygon(1, 0, 1.0, &square(0, 0, 512));
    }
    assert_eq!(build_in(&board, 16_384 * WIDTH), refused(6, 0));
}

#[test]
fn a_layers_own_cell_counts_unless_it_is_0() {
    let mut board = board_of(&[square(0, 0, 16)]);
    assert_eq!(build_in(&board, 16 * WIDTH), Ok(4));
    for (cell, roots) in [(4, 16), (16, 1), (0, 4)] {
        board.layers = vec![(1, cell)];
        assert_eq!(build_in(&board, 16 * WIDTH), Ok(roots));
    }
    board.layers = vec![(2, 4)];
    assert_eq!(build_in(&board, 16 * WIDTH), Ok(4));
}

fn two_polygons() -> (Board, Table) {
    let board = board_of(&[square(0, 0, 8), square(8, 0, 8)]);
    let table = mesh(&board, 2);
    (board, table)
}

fn network_with(table: &Table, sheets: &Sheets, room: &NetRoom) -> calls::Answer<Net> {
    network(&table.row, table.head, sheets, room)
}

#[test]
fn network_refuses_7_3_6() {
    let (mut board, mut table) = two_polygons();
    let enough = NetRoom::for_leaves(2);
    let none = NetRoom::for_leaves(0);
    assert!(network_with(&table, &board.sheets(), &enough).is_ok());
    let short = [
        NetRoom { nodes: 7, ..enough },
        NetRoom { edges: 15, ..enough },
        NetRoom { cells: 1, ..enough },
        NetRoom { work: 127, ..enough },
    ];
    for room in short {
        assert_eq!(network_with(&table, &board.sheets(), &room), refused(6, 0));
    }
    board.r_sheet = vec![0.0, f64::NAN];
    assert_eq!(network_with(&table, &board.sheets(), &none), refused(3, 0));
    board.r_sheet[0] = 1.0;
    assert_eq!(network_with(&table, &board.sheets(), &none), refused(3, 1));
    let one = Sheets { layer: &[1], component: &[0], r_sheet: &[0.0] };
    assert_eq!(network_with(&table, &one, &none), refused(7, 0));
    let unequal = Sheets { component: &[0], ..board.sheets() };
    assert_eq!(network_with(&table, &unequal, &none), refused(7, 0));
    table.row[0] = 1;
    assert_eq!(network_with(&table, &board.sheets(), &none), refused(7, 0));
}

#[test]
fn network_refuses_the_polygon_count_before_a_sheet_resistance() {
    let table = Table::new(0, 0, &[], &[]);
    let many = |polygons: usize, ohms: f64| {
        let (layer, component) = (vec![1; polygons], vec![0; polygons]);
        let mut r_sheet = vec![1.0; polygons];
        r_sheet[200] = ohms;
        let sheets = Sheets { layer: &layer, component: &component, r_sheet: &r_sheet };
        network_with(&table, &sheets, &NetRoom::for_leaves(0))
    };
    assert_eq!(many(256, 1.0), Ok(Net::default()));
    assert_eq!(many(256, 0.0), refused(3, 200));
    assert_eq!(many(257, 0.0), refused(3, 0));
}

/// A sound net of two cells.
fn sound_net() -> (Board, Table, Net) {
    let (board, table) = two_polygons();
    let net = net_of(&board, &table);
    (board, table, net)
}

/// All ways to spoil a net that docs/RULES.md lists.
fn spoiled() -> Vec<Net> {
    let (_, _, net) = sound_net();
    let changes: [fn(&mut Net); 10] = [
        |net| net.nodes.truncate(5),
        |net| net.edges.push(Edge { from: 6, ..Edge::default() }),
        |net| net.cells.push(Cell::default()),
        |net| net.nodes[0].x = -LIMIT - 1,
        |net| net.nodes[5].y = LIMIT + 1,
        |net| net.edges[1].to = 6,
        |net| net.cells[1].corners[3] = 6,
        |net| net.cells[0].corners.swap(1, 3),
        |net| net.nodes[0].x = 1,
        |net| net.nodes[2].y = 0,
    ];
    let spoil = |change: &fn(&mut Net)| {
        let mut copy = net.clone();
        change(&mut copy);
        copy
    };
    changes.iter().map(spoil).collect()
}

#[test]
fn power_and_the_checks_refuse_a_bad_net() {
    let (board, table, net) = sound_net();
    assert_eq!(net.nodes.len(), 6);
    let ask = |net: &Net| {
        let (row, head) = (&table.row, table.head);
        (
            cell_power(net, &[0.0; 6], &mut [0.0; 3]),
            check_network_conforming(row, head, net),
            check_by_layer(row, head, &board.sheets(), net),
        )
    };
    assert_eq!(ask(&net), (Ok(2), Ok(None), Ok(None)));
    for bad in spoiled() {
        assert_eq!(ask(&bad), (refused(7, 0), refused(7, 0), refused(7, 0)), "{bad:?}");
    }
}

#[test]
fn the_checks_refuse_a_bad_table_and_by_layer_an_unknown_polygon() {
    let (board, mut table, net) = sound_net();
    let one = Sheets { layer: &[1], component: &[0], r_sheet: &[1.0] };
    let unequal = Sheets { r_sheet: &[1.0], ..board.sheets() };
    for sheets in [one, unequal] {
        assert_eq!(check_by_layer(&table.row, table.head, &sheets, &net), refused(7, 0));
    }
    table.row[0] = 1;
    assert_eq!(check_network_conforming(&table.row, table.head, &net), refused(7, 0));
    assert_eq!(check_by_layer(&table.row, table.head, &board.sheets(), &net), refused(7, 0));
}

#[test]
fn power_refuses_7_3_6() {
    let (_, _, mut net) = sound_net();
    let zeros = [0.0; 6];
    let limit = 1_048_576.0;
    let ask = |net: &Net, potentials: &[f64], answers: usize| {
        let mut out = vec![7.0; answers];
        let answer = cell_power(net, potentials, &mut out);
        assert!(answer.is_ok() || out.iter().all(|&watts| watts == 7.0));
        answer
    };
    assert_eq!(ask(&net, &[limit, -limit, 0.0, -0.0, 5e-324, 1.0], 2), Ok(2));
    assert_eq!(ask(&net, &zeros, 1), refused(6, 0));
    assert_eq!(ask(&net, &zeros[1..], 1), refused(3, 0));
    for volts in [f64::NAN, f64::INFINITY, limit + 0.5, -limit - 0.5] {
        assert_eq!(ask(&net, &[0.0, 0.0, 0.0, 0.0, 0.0, volts], 1), refused(3, 0));
    }
    net.cells[1].r_sheet = 0.0;
    assert_eq!(ask(&net, &zeros, 1), refused(3, 0));
    net.cells[0].corners[0] = 6;
    assert_eq!(ask(&net, &zeros[1..], 1), refused(7, 0));
}

/// Settings alone, so that a board without polygons is seen to build.
#[test]
fn an_empty_board_has_no_roots() {
    let settings = Settings { max_level: 12, cap: 1, target: 1, layers: &[] };
    let sheets = Sheets { layer: &[], component: &[], r_sheet: &[] };
    let outlines = Outlines { sheets, point_count: &[], points: &[] };
    let mut row = vec![7; 16];
    let head = Head { count: 0, leaves: 0, max_level: 12 };
    assert_eq!(build(&settings, &outlines, &mut row), Ok(head));
    assert_eq!(row, vec![0; 16]);
}
