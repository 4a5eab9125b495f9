//! Records for `leafnet` at each limit and one past it, each by its name.

use crate::default_levels::default_levels;
use crate::long_rings::pad;
use crate::plan_faults::bad_sheets;
use crate::random::Random;
use crate::whole_boards::worked_board;
use calls::limits::{
    CAP, CELL, COORDINATE, LAYER_ENTRIES, POLYGONS, RING_POINTS, R_SHEET, WIDEST_LEVEL,
};
use calls::record::{write_record, Board};

/// Where the worked board's record has its fields.
const LENGTH_AT: usize = 1;
const POLYGONS_AT: usize = 18;
const POINTS_AT: usize = 34;
/// As many points as a record has that is read.
const READ_POINTS: usize = 1_021;

type Named = (String, Vec<u8>);

pub fn limit_records() -> Vec<Named> {
    let mut list = settings();
    list.extend(levels());
    list.extend(default_levels());
    list.extend(layer_lists());
    list.extend(polygons());
    list.extend(coordinates());
    list.extend(lengths());
    list.extend(counts());
    list
}

fn named(what: impl Into<String>, board: Board) -> Named {
    (what.into(), write_record(&board))
}

fn settings() -> Vec<Named> {
    let worked = worked_board();
    let mut list = Vec::new();
    for cap in [0, 1, CAP, CAP + 1] {
        list.push(named(format!("cap {cap}"), Board { cap, ..worked.clone() }));
    }
    for target in [0, 1, CELL, CELL + 1] {
        list.push(named(format!("target {target}"), Board { target, ..worked.clone() }));
    }
    list
}

/// One root whose sides are 2^(level + 1), and half of that.
fn levels() -> Vec<Named> {
    let board = |max_level: u64, side: i64| {
        let mut board = Board { max_level, cap: CAP, target: CELL, ..Board::default() };
        board.push_polygon(1, 0, 1.0, &[[0, 0], [side, 0], [side, side], [0, side]]);
        board
    };
    let mut list = Vec::new();
    for level in [0, 1, WIDEST_LEVEL, WIDEST_LEVEL + 1] {
        let side = 1 << (level + 1);
        list.push(named(format!("level {level}"), board(level, side)));
        list.push(named(format!("level {level}, half a side"), board(level, side / 2)));
    }
    list.push(named("level 254", board(254, 16)));
    list
}

fn layer_lists() -> Vec<Named> {
    let listed = |layers: Vec<(u16, i64)>| Board { layers, ..worked_board() };
    let entries = |count: usize| listed((0..count as u16).map(|layer| (layer, 4)).collect());
    vec![
        named("64 layer entries", entries(LAYER_ENTRIES)),
        named("65 layer entries", entries(LAYER_ENTRIES + 1)),
        named("layers 0 and 65,535", listed(vec![(0, 0), (65_535, 0)])),
        named("layers that rise by one", listed(vec![(1, 4), (2, 2)])),
        named("equal layers", listed(vec![(1, 4), (1, 4)])),
        named("equal layers 0", listed(vec![(0, 4), (0, 4)])),
        named("falling layers", listed(vec![(2, 4), (1, 4)])),
        named("a layer's cell of 0", listed(vec![(1, 0)])),
        named("a layer's cell of 2^36", listed(vec![(1, CELL)])),
        named("a layer's cell past 2^36", listed(vec![(1, CELL + 1)])),
    ]
}

fn polygons() -> Vec<Named> {
    let square = [[0, 0], [4, 0], [4, 4], [0, 4]];
    let sheet = |ohms: f64| {
        let mut board = Board { max_level: 1, cap: CAP, target: 4, ..Board::default() };
        board.push_polygon(1, 0, ohms, &square);
        board
    };
    let mut list =
        vec![named("r_sheet 2^40", sheet(R_SHEET)), named("r_sheet 2^-40", sheet(1.0 / R_SHEET))];
    for ohms in bad_sheets() {
        list.push(named(format!("r_sheet of bits {:016x}", ohms.to_bits()), sheet(ohms)));
    }
    for count in [POLYGONS, POLYGONS + 1] {
        let mut board = worked_board();
        (1..count).for_each(|_| board.push_polygon(2, 0, 1.0, &[]));
        list.push(named(format!("{count} polygons"), board));
    }
    let mut ring = square.to_vec();
    pad(&mut ring, READ_POINTS, &mut Random::new(1));
    let mut board = Board { max_level: 1, cap: CAP, target: 4, ..Board::default() };
    board.push_polygon(1, 0, 1.0, &ring);
    list.push(named("1,021 points, the most that are read", board));
    list
}

/// The worked board's square in each corner of the field, and one tick past it.
fn coordinates() -> Vec<Named> {
    let far = COORDINATE - 4;
    let mut list = Vec::new();
    for [x, y] in [[-COORDINATE, far], [far, -COORDINATE]] {
        for [off_x, off_y] in [[0, 0], [x.signum(), 0], [0, y.signum()]] {
            let (x, y) = (x + off_x, y + off_y);
            let mut board = Board { max_level: 1, cap: CAP, target: 4, ..Board::default() };
            board.push_polygon(1, 0, 1.0, &[[x, y], [x + 4, y], [x + 4, y + 4], [x, y + 4]]);
            list.push(named(format!("a square at {x} {y}"), board));
        }
    }
    list
}

/// The version, the length and the end.
fn lengths() -> Vec<Named> {
    let worked = write_record(&worked_board());
    let mut list = Vec::new();
    for version in [0, 2] {
        let mut record = worked.clone();
        record[0] = version;
        list.push((format!("version {version}"), record));
    }
    let length = (worked.len() - LENGTH_AT - 4) as u32;
    for other in [length - 1, length + 1] {
        let mut record = worked.clone();
        record[LENGTH_AT..LENGTH_AT + 4].copy_from_slice(&other.to_be_bytes());
        list.push((format!("length {other} for {length}"), record));
    }
    let mut behind = worked;
    behind.push(0);
    behind[LENGTH_AT..LENGTH_AT + 4].copy_from_slice(&(length + 1).to_be_bytes());
    list.push(("a byte behind the end".to_string(), behind));
    list
}

/// Counts at their limits and one past them without all that they count: 2 and 3.
fn counts() -> Vec<Named> {
    let mut list = Vec::new();
    for (what, at, limit) in
        [("polygons", POLYGONS_AT, POLYGONS), ("points", POINTS_AT, RING_POINTS)]
    {
        for count in [limit, limit + 1] {
            let mut record = write_record(&worked_board());
            record[at..at + 2].copy_from_slice(&(count as u16).to_be_bytes());
            list.push((format!("a count of {count} {what}"), record));
        }
    }
    list
}
