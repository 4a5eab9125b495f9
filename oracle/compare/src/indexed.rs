//! Balance and conform by an index, for tables too large to be evened by the original. The splits are
//! those of the passes, in their order, so that rows are equal number by number; but a leaf's row of
//! the pass is found by walking down from the roots near it, and only leaves in whose row something can
//! be due are asked, and of leaves at one place only the first. The group `large` holds it to the
//! original on small tables.

use calls::contact::Rect;
use calls::even::{Allowed, Evening};
use calls::limits::WIDEST_LEVEL;
use calls::outcome::{require, Answer};
use calls::table::{Head, Slot, NO_CELL, WIDTH};
use calls::well_formed::well_formed;
use std::collections::HashSet;
use std::mem::take;
use std::ops::Range;

/// The leaves are counted anew. Refuses 7, 6.
pub fn even(table: &mut [i64], head: Head, allowed: Allowed) -> Answer<Evening> {
    require(well_formed(table, head), 7, 0)?;
    let cells: Vec<Slot> = (0..head.count).map(|id| Slot::load(table, id)).collect();
    let mut passes = Passes::over(cells, table.len() / WIDTH, head.max_level, allowed);
    while passes.pass()? {}
    for (id, cell) in passes.cells.iter().enumerate() {
        cell.store(table, id);
    }
    let count = passes.cells.len();
    let leaves = passes.cells.iter().filter(|cell| cell.is_leaf()).count();
    let splits = (count - head.count) as u64 / 4;
    Ok(Evening { splits, head: Head { count, leaves, ..head } })
}

struct Passes {
    cells: Vec<Slot>,
    slots: usize,
    max_level: i64,
    allowed: Allowed,
    roots: Roots,
    /// The leaves in whose row of the next pass something can be due, by id.
    asked: Vec<usize>,
}

impl Passes {
    fn over(cells: Vec<Slot>, slots: usize, max_level: u64, allowed: Allowed) -> Self {
        let (roots, max_level) = (Roots::of(&cells), max_level as i64);
        let mut passes = Passes { cells, slots, max_level, allowed, roots, asked: Vec::new() };
        passes.asked = (0..passes.cells.len()).filter(|&id| passes.can_ask(id)).collect();
        passes
    }

    /// One pass; whether it split a cell.
    fn pass(&mut self) -> Answer<bool> {
        let stop = self.cells.len();
        // Where nothing is due, or all that was is split, nothing is due later in the pass.
        let mut done = HashSet::new();
        for id in take(&mut self.asked) {
            let place = self.place(id);
            if done.contains(&place) || !self.cells[id].is_leaf() {
                continue;
            }
            let due = self.due(id, stop);
            if due != [id] {
                done.insert(place);
            }
            due.into_iter().try_for_each(|id| self.split(id))?;
        }
        let mut done = HashSet::new();
        for id in stop..self.cells.len() {
            if self.can_ask(id) {
                self.asked.push(id);
            }
            if done.insert(self.place(id)) {
                self.ask_beside(id);
            }
        }
        self.asked.sort_unstable();
        self.asked.dedup();
        Ok(stop < self.cells.len())
    }

    /// Leaves of one place share edges with the same leaves.
    fn place(&self, id: usize) -> (Rect, i64) {
        (self.cells[id].rect(), self.cells[id].level)
    }

    /// Whether there are levels at which another leaf makes a pair with this one.
    fn can_ask(&self, id: usize) -> bool {
        let cell = &self.cells[id];
        cell.is_leaf()
            && match self.allowed {
                Allowed::One => cell.level > 1,
                Allowed::None => cell.level < self.max_level,
            }
    }

    /// What the row of one leaf splits, in the pass over the cells below `stop`.
    fn due(&self, id: usize, stop: usize) -> Vec<usize> {
        let cell = &self.cells[id];
        match self.allowed {
            Allowed::One => self.touching(cell, 0..cell.level - 1, stop, usize::MAX),
            Allowed::None => {
                let finer = self.touching(cell, cell.level + 1..ALL_LEVELS, stop, 1);
                finer.into_iter().map(|_| id).collect()
            }
        }
    }

    /// The leaves that make pairs with a new one.
    fn ask_beside(&mut self, id: usize) {
        let cell = &self.cells[id];
        let levels = match self.allowed {
            Allowed::One => cell.level + 2..ALL_LEVELS,
            Allowed::None => 0..cell.level,
        };
        let beside = self.touching(cell, levels, self.cells.len(), usize::MAX);
        self.asked.extend(beside);
    }

    /// The leaves of these levels and below `stop` that share an edge with the cell, by id; no more
    /// than are enough.
    fn touching(&self, cell: &Slot, levels: Range<i64>, stop: usize, enough: usize) -> Vec<usize> {
        let (cells, of) = (&self.cells[..], cell.rect());
        let mut search = Search { cells, of, levels, stop, enough, found: Vec::new() };
        for &root in self.roots.beside(&of) {
            search.under(root);
        }
        search.found.sort_unstable();
        search.found
    }

    fn split(&mut self, id: usize) -> Answer<()> {
        require(self.slots - self.cells.len() >= 4, 6, 0)?;
        let parent = self.cells[id];
        let Slot { x0, y0, x1, y1, polygon, .. } = parent;
        let (mx, my) = (x0 + (x1 - x0) / 2, y0 + (y1 - y0) / 2);
        self.cells[id].first = self.cells.len() as i64;
        for rect in [[x0, y0, mx, my], [mx, y0, x1, my], [x0, my, mx, y1], [mx, my, x1, y1]] {
            let level = parent.level + 1;
            self.cells.push(Slot { level, parent: id as i64, ..Slot::root(rect, polygon) });
        }
        Ok(())
    }
}

const ALL_LEVELS: i64 = WIDEST_LEVEL as i64 + 1;

/// Walks down from a root to the leaves that share an edge with a rectangle.
struct Search<'a> {
    cells: &'a [Slot],
    of: Rect,
    levels: Range<i64>,
    stop: usize,
    enough: usize,
    found: Vec<usize>,
}

impl Search<'_> {
    fn under(&mut self, id: usize) {
        let cell = &self.cells[id];
        let skip = cell.level >= self.levels.end || apart(&self.of, &cell.rect());
        if skip || self.found.len() == self.enough {
            return;
        }
        if !cell.is_leaf() {
            (0..4).for_each(|quadrant| self.under(cell.first as usize + quadrant));
        } else if id < self.stop
            && self.levels.contains(&cell.level)
            && share_an_edge(&self.of, &cell.rect())
        {
            self.found.push(id);
        }
    }
}

/// The roots by their west sides.
struct Roots {
    ids: Vec<usize>,
    west: Vec<i64>,
    widest: i64,
}

impl Roots {
    fn of(cells: &[Slot]) -> Self {
        let mut ids: Vec<usize> =
            (0..cells.len()).filter(|&id| cells[id].parent == NO_CELL).collect();
        ids.sort_by_key(|&id| cells[id].x0);
        let west = ids.iter().map(|&id| cells[id].x0).collect();
        let widest = ids.iter().map(|&id| cells[id].x1 - cells[id].x0).max().unwrap_or(0);
        Roots { ids, west, widest }
    }

    /// All roots whose columns can meet the rectangle's.
    fn beside(&self, &[x0, _, x1, _]: &Rect) -> &[usize] {
        let from = self.west.partition_point(|&west| west < x0 - self.widest);
        let to = self.west.partition_point(|&west| west <= x1);
        &self.ids[from..to]
    }
}

/// Whether two rectangles have no point in common, borders included.
fn apart(a: &Rect, b: &Rect) -> bool {
    a[2] < b[0] || b[2] < a[0] || a[3] < b[1] || b[3] < a[1]
}

/// A side of one lies on a side of the other, along a positive length.
fn share_an_edge(a: &Rect, b: &Rect) -> bool {
    let overlap = |axis: usize| a[axis].max(b[axis]) < a[axis + 2].min(b[axis + 2]);
    let meet = |axis: usize| a[axis + 2] == b[axis] || b[axis + 2] == a[axis];
    meet(0) && overlap(1) || meet(1) && overlap(0)
}
