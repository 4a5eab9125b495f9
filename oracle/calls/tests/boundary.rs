//! The boundary cases P1 to P8 of docs/RULES.md, asked of the original.

mod common;

use calls::build::cells_along;
use calls::contact::{contact, Border, Side};
use calls::even::{balance, conform, Evening};
use calls::power::cell_power;
use calls::strips::{strips, strips_by_the_words};
use calls::table::{leaves, Head};
use common::{board, mesh, net_of, p2, refused, square, Table};
use original::adaptive::AdaptiveGrid;
use original::sheet::SheetPolygon;
use std::collections::BTreeMap;

#[test]
fn p1_balance_of_an_empty_table_answers_0() {
    for slots in [0, 1, 16_384] {
        let mut table = Table::new(3, slots, &[], &[]);
        let head = table.head;
        assert_eq!(balance(&mut table.row, head), Ok(Evening { splits: 0, head }));
        assert!(table.row.iter().all(|&number| number == 0));
    }
}

#[test]
fn p2_balance_splits_only_1() {
    let mut table = p2(20);
    assert_eq!((table.head.count, table.head.leaves), (10, 8));
    let before = table.clone();
    let head = Head { count: 14, leaves: 11, max_level: 2 };
    assert_eq!(balance(&mut table.row, table.head), Ok(Evening { splits: 1, head }));
    assert_eq!(leaves(&table.row, head, &mut [0; 11]), Ok(11));
    assert_eq!(table.slot(1).first, 10);
    let others = (0..10).filter(|&id| id != 1);
    assert!(others.into_iter().all(|id| table.slot(id) == before.slot(id)));
    let quarters: Vec<[i64; 4]> = (10..14).map(|id| table.slot(id).rect()).collect();
    assert_eq!(quarters, [[8, 0, 12, 4], [12, 0, 16, 4], [8, 4, 12, 8], [12, 4, 16, 8]]);
}

#[test]
fn p3_conform_makes_8_splits() {
    let mut table = p2(42);
    let head = Head { count: 42, leaves: 32, max_level: 2 };
    assert_eq!(conform(&mut table.row, table.head), Ok(Evening { splits: 8, head }));
    assert_eq!(leaves(&table.row, head, &mut [0; 32]), Ok(32));
    let mut short = p2(41);
    assert_eq!(conform(&mut short.row, short.head), refused(6, 0));
}

#[test]
fn p4_13_slots_are_too_few_and_14_are_enough() {
    let mut short = p2(13);
    let before = short.row.clone();
    assert_eq!(balance(&mut short.row, short.head), refused(6, 0));
    assert_eq!(short.row, before);
    let mut exact = p2(14);
    assert_eq!(balance(&mut exact.row, exact.head).map(|even| even.splits), Ok(1));
}

/// The corner and one tick of border, both ways round; then a rectangle on each side, and what isn't beside.
#[test]
fn p5_a_corner_is_no_contact() {
    let a = [0, 0, 4, 4];
    let on = |side: Side, length: u64| Ok(Some(Border { side, length }));
    assert_eq!(contact(a, [4, 4, 8, 8]), Ok(None));
    assert_eq!(contact([4, 4, 8, 8], a), Ok(None));
    assert_eq!(contact(a, [4, 3, 8, 8]), on(Side::East, 1));
    assert_eq!(contact([4, 3, 8, 8], a), on(Side::West, 1));

    assert_eq!(contact(a, [0, 4, 8, 8]), on(Side::North, 4));
    assert_eq!(contact(a, [-2, -4, 9, 0]), on(Side::South, 4));
    assert_eq!(contact(a, [-3, 1, 0, 9]), on(Side::West, 3));
    assert_eq!(contact(a, [4, 2, 8, 6]), on(Side::East, 2));
    assert_eq!(contact(a, [1, 4, 2, 5]), on(Side::North, 1));
    for apart in [[5, 0, 8, 4], [3, 0, 8, 4], [2, 2, 6, 6], [1, 1, 4, 3], a] {
        assert_eq!(contact(a, apart), Ok(None), "{apart:?}");
    }
}

/// How many roots the original makes of a square in x alone; it goes on where build refuses 5.
fn roots_along(width: i64, cell: i64, cap: usize) -> usize {
    let points = calls::strips::to_points(&[[0, 0], [width, 0], [width, 1], [0, 1]]);
    let polygon = SheetPolygon { physical: "1".to_string(), points, component: 0, r_sheet: 1.0 };
    let target = calls::ticks::metres(cell);
    AdaptiveGrid::from_polygons(&[polygon], target, cap, &BTreeMap::new()).cells.len()
}

#[test]
fn p6_cells_along_a_side() {
    for (width, cell, cap, cells) in [(8, 4, 256, 2), (9, 4, 256, 3), (9, 4, 1, 1), (8, 4, 1, 1)] {
        assert_eq!(roots_along(width, cell, cap), cells);
        assert_eq!(cells_along(width, cell, cap as u64), cells as u64);
    }
}

#[test]
fn p7_strips_of_an_l() {
    let ring = [[0, 0], [8, 0], [8, 4], [4, 4], [4, 8], [0, 8]];
    let mut out = [[7; 4]; 3];
    assert_eq!(strips(&ring, &mut out), Ok(2));
    assert_eq!(out, [[0, 0, 8, 4], [0, 4, 4, 8], [7; 4]]);
    assert_eq!(strips_by_the_words(&ring), out[..2]);
}

#[test]
fn p8_power_of_one_cell() {
    let mut board = board(1, 4);
    board.push_polygon(1, 0, 1.0, &square(0, 0, 4));
    let net = net_of(&board, &mesh(&board, 1));
    let mut out = [7.0; 2];
    assert_eq!(cell_power(&net, &[0.0, 1.0, 1.0, 0.0], &mut out), Ok(1));
    assert_eq!(out, [1.0, 7.0]);
}
