//! The lent table and its head: leaf count, leaf lists, refine.

use crate::outcome::{require, Answer};
use crate::ticks::{metres, ticks};
use crate::well_formed::well_formed;
use original::adaptive::{AdaptiveGrid, QuadCell};

/// Numbers a slot: x0, y0, x1, y1, level, parent, first child, polygon.
pub const WIDTH: usize = 8;
/// Marks no parent and no child.
pub const NO_CELL: i64 = 4_294_967_295;

/// The eight numbers of one slot.
#[derive(Clone, Copy, Debug, PartialEq, Eq)]
pub struct Slot {
    pub x0: i64,
    pub y0: i64,
    pub x1: i64,
    pub y1: i64,
    pub level: i64,
    pub parent: i64,
    pub first: i64,
    pub polygon: i64,
}

impl Slot {
    pub fn root([x0, y0, x1, y1]: [i64; 4], polygon: i64) -> Self {
        Slot { x0, y0, x1, y1, level: 0, parent: NO_CELL, first: NO_CELL, polygon }
    }

    pub fn load(table: &[i64], id: usize) -> Self {
        let n = &table[id * WIDTH..(id + 1) * WIDTH];
        Slot {
            x0: n[0],
            y0: n[1],
            x1: n[2],
            y1: n[3],
            level: n[4],
            parent: n[5],
            first: n[6],
            polygon: n[7],
        }
    }

    pub fn store(&self, table: &mut [i64], id: usize) {
        table[id * WIDTH..(id + 1) * WIDTH].copy_from_slice(&[
            self.x0,
            self.y0,
            self.x1,
            self.y1,
            self.level,
            self.parent,
            self.first,
            self.polygon,
        ]);
    }

    pub fn rect(&self) -> [i64; 4] {
        [self.x0, self.y0, self.x1, self.y1]
    }

    pub fn is_leaf(&self) -> bool {
        self.first == NO_CELL
    }
}

/// What stands beside a table's row: how many cells, how many of them are leaves, and the deepest level.
#[derive(Clone, Copy, Debug, Default, PartialEq, Eq)]
pub struct Head {
    pub count: usize,
    pub leaves: usize,
    pub max_level: u64,
}

impl Head {
    /// Of the original's cells: the leaves are as many as it says.
    pub fn of_grid(grid: &AdaptiveGrid, max_level: u64) -> Self {
        Head { count: grid.cells.len(), leaves: grid.leaf_count(), max_level }
    }
}

/// The number that the head has, whatever it is: no table is looked at, and nothing is refused.
pub fn leaf_count(head: Head) -> u64 {
    head.leaves as u64
}

/// Leaves by id into `out`; the answer is how many. Refuses 7, 6.
pub fn leaves(table: &[i64], head: Head, out: &mut [u64]) -> Answer<u64> {
    leaf_list(table, head, out, AdaptiveGrid::leaves)
}

/// Leaves by polygon, then by id. Refuses 7, 6.
pub fn leaf_order(table: &[i64], head: Head, out: &mut [u64]) -> Answer<u64> {
    leaf_list(table, head, out, AdaptiveGrid::leaf_order)
}

fn leaf_list(
    table: &[i64],
    head: Head,
    out: &mut [u64],
    list: fn(&AdaptiveGrid) -> Vec<u32>,
) -> Answer<u64> {
    require(well_formed(table, head), 7, 0)?;
    let ids = list(&to_grid(table, head));
    require(ids.len() <= out.len(), 6, 0)?;
    for (place, id) in out.iter_mut().zip(&ids) {
        *place = u64::from(*id);
    }
    Ok(ids.len() as u64)
}

/// Splits one leaf; the answer is the new head. Refuses 7, 8, 9, 10, 6.
pub fn refine(table: &mut [i64], head: Head, id: usize) -> Answer<Head> {
    require(well_formed(table, head), 7, 0)?;
    require(id < head.count, 8, id as u64)?;
    let cell = Slot::load(table, id);
    require(cell.is_leaf(), 9, id as u64)?;
    require(cell.level < head.max_level as i64, 10, id as u64)?;
    require(table.len() / WIDTH - head.count >= 4, 6, 0)?;

    let mut grid = to_grid(table, head);
    assert!(grid.refine(id as u32), "the original splits {id} too");
    store_grid(&grid, table);
    Ok(Head::of_grid(&grid, head.max_level))
}

/// A well-formed table as the original holds it.
pub fn to_grid(table: &[i64], head: Head) -> AdaptiveGrid {
    let Head { count, max_level, .. } = head;
    let cells: Vec<QuadCell> = (0..count).map(|id| to_cell(&Slot::load(table, id))).collect();
    let no_cell = original::adaptive::NO_CELL;
    let roots = (0..count as u32).filter(|&id| cells[id as usize].parent == no_cell);
    AdaptiveGrid {
        roots: roots.collect(),
        cells,
        // The taken calls don't ask for the nominal size.
        base_cell: 0.0,
        max_level: max_level as u8,
    }
}

fn to_cell(slot: &Slot) -> QuadCell {
    let first = slot.first as u32;
    let children = if slot.is_leaf() {
        [original::adaptive::NO_CELL; 4]
    } else {
        [first, first + 1, first + 2, first + 3]
    };
    QuadCell {
        x0: metres(slot.x0),
        y0: metres(slot.y0),
        x1: metres(slot.x1),
        y1: metres(slot.y1),
        level: slot.level as u8,
        parent: slot.parent as u32,
        children,
        poly: slot.polygon as u32,
    }
}

/// Writes the original's cells over the first slots and leaves the rest alone.
pub fn store_grid(grid: &AdaptiveGrid, table: &mut [i64]) {
    for (id, cell) in grid.cells.iter().enumerate() {
        to_slot(cell).store(table, id);
    }
}

fn to_slot(cell: &QuadCell) -> Slot {
    let first = cell.children[0];
    if !cell.is_leaf() {
        let four = [first, first + 1, first + 2, first + 3];
        assert_eq!(cell.children, four, "children have consecutive ids");
    }
    Slot {
        x0: ticks(cell.x0),
        y0: ticks(cell.y0),
        x1: ticks(cell.x1),
        y1: ticks(cell.y1),
        level: i64::from(cell.level),
        parent: i64::from(cell.parent),
        first: i64::from(first),
        polygon: i64::from(cell.poly),
    }
}
