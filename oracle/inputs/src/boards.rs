//! Boards: polygons on a few layers and components, with settings, and splits of their tables.

use crate::random::Random;
use crate::rings::random_ring;
use crate::tables::Table;
use calls::build::build;
use calls::record::Board;
use calls::table::WIDTH;

const R_SHEET: [f64; 6] = [1.0, 1.0, 0.5, 3.0, 0.1, 1e-3];

/// A board in range. Its sides aren't always even, so build may still refuse it with 5.
pub fn random_board(random: &mut Random) -> Board {
    let max_level = random.below(4);
    let unit = 1i64 << (max_level + 1);
    let target = unit * random.within(1, 3);
    let mut board = Board {
        max_level,
        cap: random.pick(&[1, 2, 3, 256, 256, 256]),
        target,
        ..Board::default()
    };
    if random.one_in(3) {
        board.layers = vec![(1, random.pick(&[0, unit, 2 * target]))];
    }
    let pitch = random.pick(&[target, target, 2 * target, unit / 2]);
    for _ in 0..random.below(5) {
        push_polygon(&mut board, random, pitch);
    }
    board
}

fn push_polygon(board: &mut Board, random: &mut Random, pitch: i64) {
    let mut ring = random_ring(random, pitch);
    if random.one_in(4) {
        // Off the raster, so that gaps between polygons are odd.
        let [dx, dy] = [random.within(-3, 3), random.within(-3, 3)];
        ring.iter_mut().for_each(|[x, y]| (*x, *y) = (*x + dx, *y + dy));
    }
    let layer = 1 + random.below(2) as u16;
    let component = random.below(2) as u32;
    board.push_polygon(layer, component, random.pick(&R_SHEET), &ring);
}

/// The board's table with up to `splits` random splits, or none where build refuses it in so many
/// slots.
pub fn random_mesh(board: &Board, random: &mut Random, slots: usize, splits: u64) -> Option<Table> {
    let mut row = vec![0; slots * WIDTH];
    let head = build(&board.settings(), &board.outlines(), &mut row).ok()?;
    row.truncate(head.count * WIDTH);
    let mut table = Table::of(row, head);
    for _ in 0..random.below(splits + 1) {
        if let Some(id) = table.leaf_to_split(random) {
            table.split(id);
        }
    }
    Some(table)
}
