//! A well-formed table, clause by clause as docs/RULES.md has it.

use crate::limits::{coordinate_in_range, POLYGONS, SLOTS, WIDEST_LEVEL};
use crate::table::{Head, Slot, NO_CELL, WIDTH};

pub fn well_formed(table: &[i64], head: Head) -> bool {
    let Head { count, leaves, max_level } = head;
    max_level <= WIDEST_LEVEL
        && sound_shape(table)
        && count <= table.len() / WIDTH
        && table[count * WIDTH..].iter().all(|&number| number == 0)
        && (0..count).all(|id| sound_cell(table, count, max_level, id))
        && childless(table, count) == leaves
}

/// How many of the first slots name no child.
pub fn childless(table: &[i64], count: usize) -> usize {
    let slots = table.chunks_exact(WIDTH).take(count);
    slots.filter(|numbers| numbers[6] == NO_CELL).count()
}

/// Length a multiple of 8 and slots in range: all that build asks of its room.
pub fn sound_shape(table: &[i64]) -> bool {
    table.len() % WIDTH == 0 && table.len() / WIDTH <= SLOTS
}

fn sound_cell(table: &[i64], count: usize, max_level: u64, id: usize) -> bool {
    let cell = Slot::load(table, id);
    (0..POLYGONS as i64).contains(&cell.polygon)
        && (0..=max_level as i64).contains(&cell.level)
        && sound_origin(table, count, max_level, id, &cell)
        && (cell.first == NO_CELL || sound_split(table, count, id, &cell))
}

fn sound_origin(table: &[i64], count: usize, max_level: u64, id: usize, cell: &Slot) -> bool {
    if cell.parent == NO_CELL {
        sound_root(max_level, cell)
    } else {
        is_one_of_its_parents_four(table, count, id, cell)
    }
}

fn sound_root(max_level: u64, cell: &Slot) -> bool {
    let [x0, y0, x1, y1] = cell.rect();
    cell.level == 0
        && cell.rect().into_iter().all(coordinate_in_range)
        && sound_side(x0, x1, max_level)
        && sound_side(y0, y1, max_level)
}

/// A positive multiple of 2^(max_level+1).
fn sound_side(low: i64, high: i64, max_level: u64) -> bool {
    low < high && (high - low) % (1 << (max_level + 1)) == 0
}

fn is_one_of_its_parents_four(table: &[i64], count: usize, id: usize, cell: &Slot) -> bool {
    if !(0..count as i64).contains(&cell.parent) {
        return false;
    }
    let first = Slot::load(table, cell.parent as usize).first;
    first != NO_CELL && first <= id as i64 && id as i64 - 3 <= first
}

/// Four children with consecutive ids, above the cell's own and below the count.
fn sound_split(table: &[i64], count: usize, id: usize, cell: &Slot) -> bool {
    (id as i64) < cell.first
        && cell.first <= count as i64 - 4
        && (0..4).all(|k| {
            let child = Slot::load(table, cell.first as usize + k);
            sound_child(id, cell, k, &child)
        })
}

fn sound_child(id: usize, cell: &Slot, quadrant: usize, child: &Slot) -> bool {
    child.parent == id as i64
        && child.level == cell.level + 1
        && child.polygon == cell.polygon
        && is_quadrant(cell.rect(), quadrant, child.rect())
}

/// In order SW, SE, NW, NE. Doubled, so that an odd side has no midpoint; wide, so that nothing
/// overflows.
fn is_quadrant(outer: [i64; 4], quadrant: usize, inner: [i64; 4]) -> bool {
    let [x0, y0, x1, y1] = outer.map(|number| 2 * number as i128);
    let (mx, my) = ((x0 + x1) / 2, (y0 + y1) / 2);
    let (west, south) = (quadrant % 2 == 0, quadrant < 2);
    let (from_x, to_x) = if west { (x0, mx) } else { (mx, x1) };
    let (from_y, to_y) = if south { (y0, my) } else { (my, y1) };
    inner.map(|number| 2 * number as i128) == [from_x, from_y, to_x, to_y]
}
