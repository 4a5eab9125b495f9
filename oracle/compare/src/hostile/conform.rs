//! Boards for conform. It splits what hangs together by edges down to the finest leaf of it.

use super::{drill, point_below, raster, side_of, square, Kind};
use calls::table::Slot;
use inputs::tables::Table;
use inputs::Random;

pub const CONFORM: &[Kind] = &[
    Kind { name: "a wide board, one mark", make: one_mark },
    Kind { name: "islands of 1 to 9 roots", make: islands },
    Kind { name: "one root, random marks", make: one_root },
    Kind { name: "roots at two places", make: stacked },
    Kind { name: "a falling chain of roots", make: falling_chain },
    Kind { name: "a row of roots, the first split", make: row },
];

/// The mark is in a corner of the board, three levels down.
fn one_mark(_: &mut Random, amount: usize) -> Table {
    let columns = side_of(amount / 85, 1);
    let mut table = raster(3, columns, columns, 16);
    drill(&mut table, 0, [15, 15], 3);
    table
}

/// Squares of roots with gaps between; half of them are split, each at one root.
fn islands(random: &mut Random, amount: usize) -> Table {
    let side = 1 << 10;
    let mut table = Table::new(4);
    let (mut west, mut marked) = (0, Vec::new());
    while table.count < amount / 4 {
        let wide = random.within(1, 3);
        marked.push(table.count + (wide * wide / 2) as usize);
        for place in 0..wide * wide {
            let rect = square(west + place % wide, place / wide, side);
            table.push(Slot::root(rect, 0));
        }
        west += wide + 1;
    }
    for (id, level) in marked.into_iter().zip([0, 1, 0, 2, 0, 3, 1, 0].into_iter().cycle()) {
        let Slot { x0, y0, .. } = table.slot(id);
        drill(&mut table, id, [x0, y0], level);
    }
    table
}

/// Forty marks, the finest as fine as fits.
fn one_root(random: &mut Random, amount: usize) -> Table {
    let side = 1 << 20;
    let mut table = raster(6, 1, 1, side);
    let finest = ((amount as f64).log2() / 2.0) as i64;
    for _ in 0..40 {
        let at = point_below(random, side);
        drill(&mut table, 0, at, random.within(1, finest.clamp(1, 6)));
    }
    table
}

/// Every root shares an edge with half of the others; one is split.
fn stacked(_: &mut Random, amount: usize) -> Table {
    let side = 1 << 8;
    let mut table = Table::new(2);
    for n in 0..(amount / 21).max(2) as i64 {
        table.push(Slot::root(square(n % 2, 0, side), n % 256));
    }
    drill(&mut table, 0, [side - 1, 0], 2);
    table
}

/// From west to east ids fall, and the west end is split: each pass splits one root.
fn falling_chain(_: &mut Random, amount: usize) -> Table {
    let roots = (amount / 5).max(1) as i64;
    let mut table = Table::new(1);
    for n in (0..roots).rev() {
        table.push(Slot::root(square(n, 0, 4), 0));
    }
    table.split(table.count - 1);
    table
}

/// The same with rising ids.
fn row(_: &mut Random, amount: usize) -> Table {
    let roots = (amount / 5).max(1) as i64;
    let mut table = raster(1, roots, 1, 4);
    table.split(0);
    table
}
