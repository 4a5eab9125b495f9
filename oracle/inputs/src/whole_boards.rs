//! Records for the program `leafnet`: boards that it can mesh in its 64 slots, with splits that leave
//! hanging nodes, and boards and bytes that it refuses.

use crate::boards::{random_board, random_mesh};
use crate::long_rings::pad;
use crate::plan_faults::{bad_sheets, make_uneven};
use crate::plans::{Plan, Polygon};
use crate::random::Random;
use crate::records::{damage_record, every_cut, every_length, random_record};
use crate::ring_faults::{put_out_of_range, slant, some_place};
use crate::tables::Table;
use calls::coarsest::coarsest;
use calls::even::Allowed;
use calls::leafnet::{LONGEST_INPUT, SLOTS};
use calls::limits::{CAP, CELL, WIDEST_LEVEL};
use calls::record::{write_record, Board, DEFAULT_LEVEL, MEANS_DEFAULT};

/// Splits that a record may name before the program's row is too short.
const SPLITS: usize = 256;

/// A record: two in three of boards that can mostly be meshed, the rest with a fault of the board or of
/// its bytes.
pub fn random_whole_record(random: &mut Random) -> Vec<u8> {
    let mut board = random_split_board(random);
    let what = random.below(15);
    match what {
        0..=2 => put_board_fault(&mut board, random),
        3 => return random_record(random),
        _ => {}
    }
    if board.max_level == DEFAULT_LEVEL && random.one_in(2) {
        board.max_level = MEANS_DEFAULT;
    }
    let mut record = write_record(&board);
    if what == 4 {
        damage_record(&mut record, random);
    }
    record
}

/// A board with roots that fit, and splits of its leaves whose balance mostly fits, too.
pub fn random_split_board(random: &mut Random) -> Board {
    loop {
        let mut board = if random.one_in(4) { random_board(random) } else { small_board(random) };
        match random_mesh(&board, random, SLOTS, 0) {
            Some(table) if table.count > 0 || random.one_in(20) => {
                add_splits(&mut board, table, random);
                return board;
            }
            _ => {}
        }
    }
}

/// A few rectangles of one to three cells a side that touch, overlap or lie apart.
fn small_board(random: &mut Random) -> Board {
    let max_level = random.pick(&[0, 1, 2, 2, 3, 3, 4, 4, 6, 9, WIDEST_LEVEL]);
    let unit = 1i64 << (max_level + 1);
    let cell = unit << random.below(8);
    let mut board = Board { max_level, cap: CAP, target: cell, ..Board::default() };
    if random.one_in(3) {
        board.layers = vec![(1, random.pick(&[0, 2 * cell])), (65_535, 2 * cell)];
    }
    let corner = [random.pick(&[0, -2 * cell]), random.pick(&[0, -5 * cell])];
    for _ in 0..random.pick(&[1, 1, 2, 2, 3, 4, 6]) {
        let [x, y] = corner.map(|from| from + cell * random.within(0, 3));
        let [w, h] = [0, 0].map(|_: i64| cell * random.within(1, 3));
        let off = if random.one_in(6) { random.within(-3, 3) } else { 0 };
        let ring = [[x, y], [x + w, y], [x + w, y + h], [x, y + h]].map(|[x, y]| [x + off, y]);
        let layer = random.pick(&[1, 1, 1, 2, 65_535]);
        let component = random.pick(&[0, 0, 1, u32::MAX]);
        board.push_polygon(layer, component, random.pick(&[1.0, 0.5, 3.0, 1e-3]), &ring);
    }
    board
}

/// Up to so many splits of leaves. One that balance has no room for is mostly taken back.
fn add_splits(board: &mut Board, mut table: Table, random: &mut Random) {
    for _ in 0..random.below(9) {
        let Some(id) = table.leaf_to_split(random) else {
            return;
        };
        let before = table.clone();
        table.split(id);
        if !balance_fits(&table) && !random.one_in(8) {
            table = before;
        } else {
            board.splits.push(id as u32);
        }
    }
}

fn balance_fits(table: &Table) -> bool {
    coarsest(&table.row, table.count, Allowed::One.levels(), SLOTS).is_some()
}

/// The table of a board with its splits made, as far as they can be.
fn split_table(board: &Board, random: &mut Random) -> Option<Table> {
    let mut table = random_mesh(board, random, SLOTS, 0)?;
    for &id in &board.splits {
        if (id as usize) < table.count && table.can_split(id as usize) {
            table.split(id as usize);
        }
    }
    Some(table)
}

/// One fault, in a split mostly, in a polygon, in the settings, or in how much there is.
fn put_board_fault(board: &mut Board, random: &mut Random) {
    match random.below(12) {
        0..=1 => spoil_polygon(board, random),
        2 => spoil_settings(board, random),
        3 => crowd(board, random),
        _ => spoil_splits(board, random),
    }
}

/// A cell that isn't there, one that is split already, one at the last level, or no room.
fn spoil_splits(board: &mut Board, random: &mut Random) {
    let Some(mut table) = split_table(board, random) else {
        return;
    };
    let count = table.count as u32;
    match random.below(4) {
        0 => board.splits.push(random.pick(&[count, count, count + 1, 64, 65, 1 << 31, u32::MAX])),
        1 => split_again(board, &table, random),
        2 => split_below_the_last(board, &mut table, random),
        _ => {
            while let Some(id) = table.leaf_to_split(random) {
                board.splits.push(id as u32);
                if table.count + 4 > SLOTS {
                    return;
                }
                table.split(id);
            }
        }
    }
}

/// A cell that was split before, or the same leaf twice.
fn split_again(board: &mut Board, table: &Table, random: &mut Random) {
    if board.splits.is_empty() {
        board.splits.extend(table.leaf_to_split(random).map(|id| id as u32));
    }
    if !board.splits.is_empty() {
        let id = random.pick(&board.splits);
        board.splits.push(id);
    }
}

/// Down from any leaf to the last level and once more.
fn split_below_the_last(board: &mut Board, table: &mut Table, random: &mut Random) {
    let leaves: Vec<usize> = (0..table.count).filter(|&id| table.slot(id).is_leaf()).collect();
    if leaves.is_empty() {
        return;
    }
    let mut id = random.pick(&leaves);
    while table.can_split(id) && table.count + 4 <= SLOTS {
        board.splits.push(id as u32);
        table.split(id);
        id = table.slot(id).first as usize + random.index(4);
    }
    board.splits.push(id as u32);
}

/// A slanted or uneven ring, a coordinate or a sheet resistance out of range.
fn spoil_polygon(board: &mut Board, random: &mut Random) {
    let mut polygons = Plan::of_board(board).polygons();
    if polygons.is_empty() {
        return spoil_settings(board, random);
    }
    let at = some_place(random, polygons.len());
    let Polygon { sheet, ring, .. } = &mut polygons[at];
    match random.below(6) {
        0 => *sheet = random.pick(&bad_sheets()),
        1 => put_out_of_range(ring, random),
        2..=3 => slant(ring, random),
        _ => make_uneven(ring, random),
    }
    set_polygons(board, &polygons);
}

fn set_polygons(board: &mut Board, polygons: &[Polygon]) {
    let Board { max_level, cap, target, .. } = *board;
    let layers = std::mem::take(&mut board.layers);
    let splits = std::mem::take(&mut board.splits);
    *board = Board { max_level, cap, target, layers, splits, ..Board::default() };
    for Polygon { layer, component, sheet, ring } in polygons {
        board.push_polygon(*layer, *component, *sheet, ring);
    }
}

fn spoil_settings(board: &mut Board, random: &mut Random) {
    match random.below(5) {
        0 => board.max_level = random.pick(&[13, 254]),
        1 => board.cap = random.pick(&[0, 257, 65_535]),
        2 => board.target = random.pick(&[0, CELL + 1, -1]),
        3 => board.layers = vec![(2, 0), (2, 0)],
        _ => board.layers = vec![(7, CELL + 1)],
    }
}

/// More roots than slots, or more splits than the row takes.
fn crowd(board: &mut Board, random: &mut Random) {
    if random.one_in(3) {
        board.splits.resize(random.pick(&[SPLITS, SPLITS + 1, 300]), 0);
        return;
    }
    let side = board.target * random.pick(&[8, 9, 20]);
    board.push_polygon(9, 0, 1.0, &[[0, 0], [side, 0], [side, side], [0, side]]);
}

/// The worked board of docs/RULES.md.
pub fn worked_board() -> Board {
    let mut board = Board { max_level: 1, cap: 256, target: 4, ..Board::default() };
    board.push_polygon(1, 0, 1.0, &[[0, 0], [4, 0], [4, 4], [0, 4]]);
    board
}

/// Two roots side by side, the first split towards the second, so that balance splits that one.
fn pair() -> Board {
    let mut board = Board { max_level: 2, cap: 256, target: 8, ..Board::default() };
    board.push_polygon(1, 0, 1.0, &[[0, 0], [16, 0], [16, 8], [0, 8]]);
    board.splits = vec![0, 3];
    board
}

/// So many roots in two rows.
fn roots(count: i64) -> Board {
    let mut board = Board { max_level: 0, cap: 256, target: 2, ..Board::default() };
    board.push_polygon(1, 0, 1.0, &[[0, 0], [count, 0], [count, 4], [0, 4]]);
    board
}

/// The worked board with points given twice, empty polygons and a layer entry, until its record has
/// exactly as many bytes as are read.
pub fn longest_board() -> Board {
    let mut ring = vec![[0, 0], [4, 0], [4, 4], [0, 4]];
    pad(&mut ring, 1_000, &mut Random::new(1));
    let mut board = Board { max_level: 1, cap: 256, target: 4, ..Board::default() };
    board.layers.push((1, 4));
    board.push_polygon(1, 0, 1.0, &ring);
    (0..21).for_each(|_| board.push_polygon(2, 7, 1.0, &[]));
    board
}

/// Records that show one thing each, and all that comes of cutting the worked board's.
pub fn boundary_records() -> Vec<Vec<u8>> {
    let bare = Board { max_level: MEANS_DEFAULT, cap: 1, target: 1, ..Board::default() };
    let longest = longest_board();
    let mut too_long = longest.clone();
    too_long.splits.push(0);
    let mut most_splits = roots(2);
    most_splits.splits = vec![9; SPLITS];
    let mut too_many_splits = roots(2);
    too_many_splits.splits = vec![9; SPLITS + 1];
    let boards =
        [worked_board(), pair(), bare, roots(64), roots(66), longest, too_long, most_splits];
    let mut list: Vec<Vec<u8>> = boards.iter().map(write_record).collect();
    list.push(write_record(&too_many_splits));
    list.extend((0..=9).map(|id| write_record(&Board { splits: vec![0, 3, id], ..pair() })));
    list.extend(input_lengths());
    let worked = write_record(&worked_board());
    list.extend(every_cut(&worked));
    list.extend(every_length(&worked));
    list
}

/// Input about as long as is read, and longer than a pipe holds: records with bytes behind their end,
/// and bytes that are no record.
fn input_lengths() -> Vec<Vec<u8>> {
    let lengths = [0, 1, LONGEST_INPUT - 1, LONGEST_INPUT, LONGEST_INPUT + 1, 20_000, 200_000];
    let mut list = Vec::new();
    for length in lengths {
        for board in [worked_board(), longest_board()] {
            let mut record = write_record(&board);
            record.resize(length, 0);
            list.push(record);
        }
        list.push(vec![2; length]);
    }
    list
}
