//! Boards on which balance and conform have much to do, or little to skip: by kind and number of slots,
//! each of the largest amount of its kind at which the evened table fits the slots.

mod balance;
mod conform;
mod loose;

pub use balance::BALANCE;
pub use conform::CONFORM;
pub use loose::LOOSE;

use crate::indexed::even;
use calls::contact::Rect;
use calls::even::Allowed;
use calls::table::{Slot, NO_CELL};
use inputs::tables::Table;
use inputs::Random;
use std::ops::Range;

/// A kind of board. An amount is about as many cells as the evened table is to have.
pub struct Kind {
    pub name: &'static str,
    make: fn(&mut Random, usize) -> Table,
}

/// A board of one kind, and how many cells it has when it is evened.
pub struct Fitted {
    pub table: Table,
    pub cells: usize,
}

impl Kind {
    /// The board of so many slots. The amount is found by halving, nearly to the last, unless as much
    /// as there are slots fits.
    pub fn fitted(&self, allowed: Allowed, slots: usize, seed: u64) -> Fitted {
        let make = |amount: usize| {
            let table = (self.make)(&mut Random::new(seed), amount);
            Some(Fitted { cells: evened(&table, allowed, slots)?.count, table })
        };
        let mut best = make(slots);
        let (mut fits, mut too_much) = (if best.is_some() { slots } else { 0 }, slots);
        while too_much - fits > 1 + slots / 256 {
            let amount = (fits + too_much) / 2;
            match make(amount) {
                Some(board) => (fits, best) = (amount, Some(board)),
                None => too_much = amount,
            }
        }
        let mut board = best.unwrap_or_else(|| panic!("{}: none fits {slots} slots", self.name));
        board.table.set_slots(slots);
        board
    }
}

/// The evened table, if it fits.
pub fn evened(table: &Table, allowed: Allowed, slots: usize) -> Option<Table> {
    if table.count > slots {
        return None;
    }
    let mut after = table.clone();
    after.set_slots(slots);
    let head = after.head();
    let evening = even(&mut after.row, head, allowed).ok()?;
    after.set_head(evening.head);
    Some(after)
}

/// The side of the largest square of at most so many cells, and at least `least`.
fn side_of(cells: usize, least: i64) -> i64 {
    ((cells as f64).sqrt() as i64).max(least)
}

/// The square of one place of a raster.
fn square(x: i64, y: i64, side: i64) -> Rect {
    [x * side, y * side, (x + 1) * side, (y + 1) * side]
}

/// Roots of one polygon, row by row from the bottom.
fn raster(max_level: u64, columns: i64, rows: i64, side: i64) -> Table {
    let places = (0..columns * rows).map(|n| square(n % columns, n / columns, side));
    Table::with(max_level, &places.collect::<Vec<Rect>>(), &[])
}

/// Splits the leaf at a point of a root until it is of the level; the point lies in the root, on its
/// west or south side where it lies on one.
fn drill(table: &mut Table, root: usize, [x, y]: [i64; 2], level: i64) {
    let mut id = root;
    while table.slot(id).level < level {
        if table.slot(id).is_leaf() {
            table.split(id);
        }
        let first = table.slot(id).first as usize;
        let south_west = table.slot(first);
        id = first + usize::from(x >= south_west.x1) + 2 * usize::from(y >= south_west.y1);
    }
}

/// The same in a raster that was made with these columns and side.
fn drill_raster(table: &mut Table, columns: i64, side: i64, at: [i64; 2], level: i64) {
    let root = at[1] / side * columns + at[0] / side;
    drill(table, root as usize, at, level);
}

/// A point of a square field.
fn point_below(random: &mut Random, bound: i64) -> [i64; 2] {
    [random.within(0, bound - 1), random.within(0, bound - 1)]
}

/// Splits leaves until there are so many cells: one time in three one of the last four.
fn mark_up_to(table: &mut Table, random: &mut Random, cells: usize) {
    while table.count + 4 <= cells {
        let near_the_end = table.count >= 4 && random.one_in(3);
        let from = if near_the_end { table.count - 4 } else { 0 };
        let id = from + random.index(table.count - from);
        if table.can_split(id) {
            table.split(id);
        }
    }
}

fn shuffle(roots: &mut [Slot], random: &mut Random) {
    for n in (1..roots.len()).rev() {
        roots.swap(n, random.index(n + 1));
    }
}

/// The same cells with other ids: roots and fours of children in any order in which a cell stands
/// before its children.
pub fn reordered(table: &Table, random: &mut Random) -> Table {
    let is_root = |id: &usize| table.slot(*id).parent == NO_CELL;
    let mut open: Vec<Range<usize>> =
        (0..table.count).filter(is_root).map(|id| id..id + 1).collect();
    let (mut order, mut new_ids) = (Vec::new(), vec![0; table.count]);
    while !open.is_empty() {
        for id in open.swap_remove(random.index(open.len())) {
            new_ids[id] = order.len() as i64;
            order.push(id);
            let cell = table.slot(id);
            if !cell.is_leaf() {
                open.push(cell.first as usize..cell.first as usize + 4);
            }
        }
    }
    let new_id = |id: i64| if id == NO_CELL { NO_CELL } else { new_ids[id as usize] };
    let mut after = Table::new(table.max_level);
    for cell in order.into_iter().map(|id| table.slot(id)) {
        let (parent, first) = (new_id(cell.parent), new_id(cell.first));
        after.push(Slot { parent, first, ..cell });
    }
    after
}
