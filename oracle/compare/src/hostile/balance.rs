//! Boards for balance.

use super::{
    drill, drill_raster, evened, mark_up_to, point_below, raster, shuffle, side_of, square, Kind,
};
use crate::bench::boards::board_with_eight_corners;
use calls::even::Allowed;
use calls::limits::SLOTS;
use calls::table::Slot;
use inputs::tables::Table;
use inputs::Random;
use std::collections::VecDeque;

pub const BALANCE: &[Kind] = &[
    Kind { name: "eight corners", make: eight_corners },
    Kind { name: "one root and a corner to level 12", make: one_root },
    Kind { name: "16 roots, random points", make: sixteen_roots },
    Kind { name: "necks of level 4 to 12", make: necks },
    Kind { name: "chains beside a fine root", make: chains },
    Kind { name: "all leaves fine", make: all_fine },
    Kind { name: "random marks", make: random_marks },
    Kind { name: "marks along a trace", make: trace },
    Kind { name: "balanced, then ten marks", make: balanced_and_ten_marks },
    Kind { name: "shuffled roots", make: shuffled_roots },
    Kind { name: "four layers over each other", make: four_layers },
    Kind { name: "roots at two places", make: stacked },
    Kind { name: "islands to level 12", make: islands },
];

fn eight_corners(_: &mut Random, amount: usize) -> Table {
    board_with_eight_corners(side_of(amount, 4))
}

/// One root, split evenly, then one corner of its middle.
fn one_root(_: &mut Random, amount: usize) -> Table {
    let mut table = raster(12, 1, 1, 1 << 30);
    let mut leaves = VecDeque::from([0]);
    while table.count + 4 <= amount {
        let id = leaves.pop_front().expect("a split leaves four");
        leaves.extend(table.count..table.count + 4);
        table.split(id);
    }
    drill(&mut table, 0, [(1 << 29) - 1; 2], 12);
    table
}

fn sixteen_roots(random: &mut Random, amount: usize) -> Table {
    let side = 1 << 12;
    let mut table = raster(7, 4, 4, side);
    while table.count + 4 <= amount {
        let at = point_below(random, 4 * side);
        let level = random.within(2, 7);
        drill_raster(&mut table, 4, side, at, level);
    }
    table
}

/// Few roots, split deep at random points.
fn necks(random: &mut Random, amount: usize) -> Table {
    let (columns, side) = (side_of(amount / 36, 2), 1 << 20);
    let mut table = raster(12, columns, columns, side);
    while table.count + 4 <= amount {
        let at = point_below(random, columns * side);
        let level = random.within(4, 12);
        drill_raster(&mut table, columns, side, at, level);
    }
    table
}

/// Rows of twelve roots, with gaps between rows; the first of each is fine at its east side.
fn chains(_: &mut Random, amount: usize) -> Table {
    const ROOTS: usize = 12;
    let side = 1 << 13;
    let mut table = Table::new(12);
    for row in 0..(amount / 60).max(1) as i64 {
        let first = table.count;
        for column in 0..ROOTS as i64 {
            table.push(Slot::root(square(column, 2 * row, side), 0));
        }
        let at = [side - 1, 2 * row * side + side / 2];
        drill(&mut table, first, at, 12);
    }
    table
}

/// All leaves of level 2, and one in sixty a few levels finer.
fn all_fine(random: &mut Random, amount: usize) -> Table {
    let columns = side_of(amount / 21, 1);
    let mut table = raster(6, columns, columns, 1 << 10);
    let roots = table.count;
    (0..5 * roots).for_each(|id| table.split(id));
    let fine = 5 * roots..table.count;
    for _ in 0..fine.len() / 60 {
        let id = fine.start + random.index(fine.len());
        let levels = random.within(4, 5);
        let [x, y] = [table.slot(id).x0, table.slot(id).y0];
        let corner = [x + random.within(0, 255), y + random.within(0, 255)];
        drill(&mut table, id, corner, levels);
    }
    table
}

fn random_marks(random: &mut Random, amount: usize) -> Table {
    let columns = side_of(amount / 5, 1);
    let mut table = raster(4, columns, columns, 1 << 8);
    mark_up_to(&mut table, random, amount);
    table
}

/// Fine along a curve from west to east.
fn trace(_: &mut Random, amount: usize) -> Table {
    let (columns, side) = (side_of(amount / 12, 2), 1 << 10);
    let mut table = raster(5, columns, columns, side);
    let (wide, points) = (columns * side, amount as i64 / 16);
    for n in 0..points {
        let x = n * wide / points;
        let high = (9.0 * x as f64 / wide as f64).sin() * 0.4 + 0.5;
        drill_raster(&mut table, columns, side, [x, (high * wide as f64) as i64], 5);
    }
    table
}

/// What a round of marks and balance leaves, with ten marks for the next.
fn balanced_and_ten_marks(random: &mut Random, amount: usize) -> Table {
    let before = trace(random, amount);
    let Some(mut table) = evened(&before, Allowed::One, SLOTS) else { return before };
    let mut marks = 0;
    while marks < 10 {
        let id = random.index(table.count);
        if table.can_split(id) {
            table.split(id);
            marks += 1;
        }
    }
    table
}

fn shuffled_roots(random: &mut Random, amount: usize) -> Table {
    let columns = side_of(amount / 5, 1);
    let places = (0..columns * columns).map(|n| square(n % columns, n / columns, 1 << 8));
    let mut roots: Vec<Slot> = places.map(|place| Slot::root(place, 0)).collect();
    shuffle(&mut roots, random);
    let mut table = Table::new(4);
    roots.into_iter().for_each(|root| table.push(root));
    mark_up_to(&mut table, random, amount);
    table
}

/// Two layers at one place, one half a root off and one at odd ticks.
fn four_layers(random: &mut Random, amount: usize) -> Table {
    let (columns, side) = (side_of(amount / 20, 1), 1 << 8);
    let mut table = Table::new(4);
    for (polygon, [dx, dy]) in (0..).zip([[0, 0], [0, 0], [128, 64], [37, 91]]) {
        for n in 0..columns * columns {
            let [x0, y0, x1, y1] = square(n % columns, n / columns, side);
            table.push(Slot::root([x0 + dx, y0 + dy, x1 + dx, y1 + dy], polygon));
        }
    }
    mark_up_to(&mut table, random, amount);
    table
}

/// Every root shares an edge with half of the others; two are split towards it.
fn stacked(random: &mut Random, amount: usize) -> Table {
    let side = 1 << 8;
    let mut table = Table::new(3);
    for n in 0..(amount / 5).max(2) as i64 {
        table.push(Slot::root(square(n % 2, 0, side), n % 256));
    }
    for level in [2, 3] {
        let at_the_west = 2 * random.index(table.count / 2);
        drill(&mut table, at_the_west, [side - 1, 0], level);
    }
    table
}

/// One root each, split deep at its middle.
fn islands(_: &mut Random, amount: usize) -> Table {
    let (columns, side) = (1 + (amount / 49) as i64, 1 << 20);
    let mut table = Table::new(12);
    for n in 0..columns {
        table.push(Slot::root(square(2 * n, 0, side), 0));
    }
    for n in 0..columns {
        let middle = [2 * n * side + side / 2 - 1, side / 2 - 1];
        drill(&mut table, n as usize, middle, 12);
    }
    table
}
