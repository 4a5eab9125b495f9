//! Records with 255 for their level, beside those with the levels next to what it means: rectangles
//! whose base cells one level allows and the next one doesn't.

use crate::limit_plans::rectangle;
use calls::limits::CAP;
use calls::record::{write_record, Board, DEFAULT_LEVEL, MEANS_DEFAULT};

type Named = (String, Vec<u8>);

/// What 255 meant once, what it means, one more; and 255.
const LEVELS: [u64; 4] = [DEFAULT_LEVEL - 1, DEFAULT_LEVEL, DEFAULT_LEVEL + 1, MEANS_DEFAULT];
/// Of a base cell: what level 3 allows, what level 4 does, and what level 3 does and level 4 doesn't.
const CELLS: [i64; 3] = [16, 32, 48];
const SIDES: [i64; 5] = [16, 32, 48, 64, 96];
/// A leaf is split, then the first of its quarters, and so on, in a table of one root.
const DOWN: [u32; 7] = [0, 1, 5, 9, 13, 17, 21];

/// One base cell of each size at each level, and 255 split as deep as its level is, and deeper.
pub fn default_levels() -> Vec<Named> {
    let mut list = Vec::new();
    for cell in CELLS {
        for level in LEVELS {
            let record = in_cells(level, cell, [cell, cell], 0);
            list.push((format!("level {level}, cell {cell}"), record));
        }
    }
    for depth in DEFAULT_LEVEL - 1..=DEFAULT_LEVEL + 1 {
        let record = in_cells(MEANS_DEFAULT, 32, [32, 32], depth as usize);
        list.push((format!("level 255, {depth} splits down"), record));
    }
    list
}

/// Every rectangle of such sides at each level: one cell, split as deep as it goes and deeper; and in
/// cells of every target, with one split and without.
pub fn default_rectangles() -> Vec<Vec<u8>> {
    let mut list = Vec::new();
    for sides in SIDES.iter().flat_map(|&x| SIDES.map(|y| [x, y])) {
        for level in LEVELS {
            list.extend((0..=DOWN.len()).map(|depth| one_cell(level, sides, depth)));
            for target in SIDES {
                list.extend([0, 1].map(|depth| in_cells(level, target, sides, depth)));
            }
        }
    }
    list
}

fn one_cell(max_level: u64, sides: [i64; 2], depth: usize) -> Vec<u8> {
    let [x, y] = sides;
    board(Board { max_level, cap: 1, target: x.max(y), ..Board::default() }, sides, depth)
}

fn in_cells(max_level: u64, target: i64, sides: [i64; 2], depth: usize) -> Vec<u8> {
    board(Board { max_level, cap: CAP, target, ..Board::default() }, sides, depth)
}

/// A rectangle with such settings. It is the sides of its cells that have to fit, not its places.
fn board(mut board: Board, [width, height]: [i64; 2], depth: usize) -> Vec<u8> {
    let [x, y] = [-7, 5];
    board.push_polygon(1, 0, 1.0, &rectangle(x, y, x + width, y + height));
    board.splits = DOWN[..depth].to_vec();
    write_record(&board)
}
