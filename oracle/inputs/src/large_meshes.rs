//! Meshes of thousands of leaves.

use crate::meshes::{polygons_for, split_towards, Mesh};
use crate::random::Random;
use crate::tables::{random_table, Table};
use calls::limits::SLOTS;
use calls::table::Slot;
use std::ops::RangeInclusive;

/// How many leaves a large mesh has.
pub const LARGE: RangeInclusive<usize> = 2_000..=10_000;
/// Cells of a random table that is drawn for one.
const CELLS: usize = 13_000;

/// In turn a raster of roots with a few corners split deep, the same balanced, and a random table.
pub fn large_mesh(random: &mut Random, turn: usize) -> Mesh {
    loop {
        let mut mesh = match turn % 3 {
            0 | 1 => polygons_for(raster_with_corners(random), random),
            _ => polygons_for(random_table(random, CELLS), random),
        };
        if turn % 3 == 1 {
            mesh.balance_within(SLOTS);
        }
        if LARGE.contains(&mesh.leaves()) {
            return mesh;
        }
    }
}

/// Forty to a hundred roots a side, in up to five polygons; corners of some are split deep.
fn raster_with_corners(random: &mut Random) -> Table {
    let max_level = random.pick(&[2, 3, 5, 12]);
    let side = 1i64 << (max_level + 1);
    let (columns, rows) = (random.within(40, 98), random.within(40, 98));
    let (polygons, bend) = (random.within(1, 5), random.within(1, 9));
    let [dx, dy] = [random.within(-9, 9), random.within(-9, 9)];
    let mut table = Table::new(max_level);
    for n in 0..columns * rows {
        let (column, row) = (n % columns, n / columns);
        let (x, y) = (column * side + dx, row * side + dy);
        // Bands that lean, so that polygons meet along steps.
        let polygon = (column + row / bend) / 16 % polygons;
        table.push(Slot::root([x, y, x + side, y + side], polygon));
    }
    for _ in 0..random.within(4, 24) {
        let root = random.index((columns * rows) as usize);
        split_towards(&mut table, root, random.index(4), max_level);
    }
    table
}
