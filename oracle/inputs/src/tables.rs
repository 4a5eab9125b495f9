//! Tables by random histories: roots that touch, overlap and differ in size, some of them behind
//! split cells, and splits that run deep or spread wide.

use crate::random::Random;
use calls::coarsest::Splitting;
use calls::contact::Rect;
use calls::limits::{COORDINATE, WIDEST_LEVEL};
use calls::table::{Head, Slot, WIDTH};
use calls::well_formed::childless;

/// A lent table with its head.
#[derive(Clone, Debug, PartialEq, Eq)]
pub struct Table {
    pub row: Vec<i64>,
    pub count: usize,
    pub leaves: usize,
    pub max_level: u64,
}

impl Table {
    pub fn new(max_level: u64) -> Self {
        Table { row: Vec::new(), count: 0, leaves: 0, max_level }
    }

    /// A row with its head.
    pub fn of(row: Vec<i64>, head: Head) -> Self {
        let Head { count, leaves, max_level } = head;
        Table { row, count, leaves, max_level }
    }

    pub fn head(&self) -> Head {
        Head { count: self.count, leaves: self.leaves, max_level: self.max_level }
    }

    /// After a call that was accepted.
    pub fn set_head(&mut self, head: Head) {
        Head { count: self.count, leaves: self.leaves, max_level: self.max_level } = head;
    }

    /// The same table by a head with another number of leaves.
    pub fn with_leaves(&self, leaves: usize) -> Self {
        Table { leaves, ..self.clone() }
    }

    /// As many leaves as the row has, after it was written over.
    pub fn recount(&mut self) {
        self.leaves = childless(&self.row, self.count);
    }

    /// Roots of polygon 0, then the splits in order.
    pub fn with(max_level: u64, roots: &[Rect], splits: &[usize]) -> Self {
        let mut table = Table::new(max_level);
        roots.iter().for_each(|&rect| table.push(Slot::root(rect, 0)));
        splits.iter().for_each(|&id| table.split(id));
        table
    }

    pub fn slots(&self) -> usize {
        self.row.len() / WIDTH
    }

    pub fn slot(&self, id: usize) -> Slot {
        Slot::load(&self.row, id)
    }

    pub fn set_slots(&mut self, slots: usize) {
        self.row.resize(slots * WIDTH, 0);
    }

    pub fn push(&mut self, slot: Slot) {
        if self.slots() == self.count {
            self.set_slots(self.count + 1);
        }
        slot.store(&mut self.row, self.count);
        self.count += 1;
        self.leaves += usize::from(slot.is_leaf());
    }

    /// Splits a leaf, in ticks and without the original.
    pub fn split(&mut self, id: usize) {
        let parent = self.slot(id);
        let Slot { x0, y0, x1, y1, .. } = parent;
        let (mx, my) = (x0 + (x1 - x0) / 2, y0 + (y1 - y0) / 2);
        let first = self.count as i64;
        for rect in [[x0, y0, mx, my], [mx, y0, x1, my], [x0, my, mx, y1], [mx, my, x1, y1]] {
            self.push(Slot {
                level: parent.level + 1,
                parent: id as i64,
                ..Slot::root(rect, parent.polygon)
            });
        }
        Slot { first, ..parent }.store(&mut self.row, id);
        self.leaves -= 1;
    }

    pub fn can_split(&self, id: usize) -> bool {
        let cell = self.slot(id);
        cell.is_leaf() && cell.level < self.max_level as i64
    }

    /// A leaf that can be split; often one of the last four cells, so that histories run deep.
    pub fn leaf_to_split(&self, random: &mut Random) -> Option<usize> {
        if self.count >= 4 && random.one_in(2) {
            let last = self.count - 4 + random.index(4);
            if self.can_split(last) {
                return Some(last);
            }
        }
        let choice: Vec<usize> = (0..self.count).filter(|&id| self.can_split(id)).collect();
        (!choice.is_empty()).then(|| random.pick(&choice))
    }
}

/// Numbers that aren't a table's leaves: beside the right one, far off, and what a narrower number would hide.
pub fn wrong_leaves(table: &Table) -> Vec<usize> {
    let (count, leaves) = (table.count, table.leaves);
    let far = [u32::MAX as usize, 1 << 32 | leaves, 1 << 63, usize::MAX];
    let mut list = vec![leaves.wrapping_sub(1), leaves.wrapping_add(1), 0, count];
    list.extend(far);
    list.retain(|&other| other != leaves);
    list.sort_unstable();
    list.dedup();
    list
}

/// How the roots of one table lie.
#[derive(Clone, Copy)]
enum Layout {
    /// On a raster, side by side or one over the other.
    Raster,
    /// Sizes of one to four units, on a raster of half units.
    Mixed,
    /// Sizes of one to four units, at any tick.
    Loose,
    /// One of two rectangles again and again.
    Stacked,
}

/// Where and how large the roots of one table are.
struct Ground {
    layout: Layout,
    /// 2^(max_level+1), of which root sides are multiples.
    unit: i64,
    /// South-west corner of the field, which is twelve units wide.
    corner: [i64; 2],
    polygons: i64,
}

impl Ground {
    fn random(random: &mut Random, max_level: u64) -> Self {
        let unit = 1 << (max_level + 1);
        let layouts =
            [Layout::Raster, Layout::Mixed, Layout::Mixed, Layout::Loose, Layout::Stacked];
        let far = COORDINATE - 12 * unit;
        let places = [0, 0, 0, -3 * unit, random.within(-99, 99), far, -COORDINATE];
        Ground {
            layout: random.pick(&layouts),
            unit,
            corner: [random.pick(&places), random.pick(&places)],
            polygons: random.pick(&[1, 2, 3, 256]),
        }
    }

    fn root(&self, random: &mut Random) -> Slot {
        let [x0, x1] = self.span(random, self.corner[0]);
        let [y0, y1] = self.span(random, self.corner[1]);
        Slot::root([x0, y0, x1, y1], random.within(0, self.polygons - 1))
    }

    fn span(&self, random: &mut Random, corner: i64) -> [i64; 2] {
        let unit = self.unit;
        let (offset, length) = match self.layout {
            Layout::Raster => (2 * unit * random.within(0, 2), 2 * unit),
            Layout::Mixed => (unit / 2 * random.within(0, 8), unit * random.within(1, 4)),
            Layout::Loose => (random.within(0, 8 * unit), unit * random.within(1, 4)),
            Layout::Stacked => (2 * unit * random.within(0, 1), 4 * unit),
        };
        [corner + offset, corner + offset + length]
    }
}

fn random_level(random: &mut Random) -> u64 {
    match random.below(10) {
        0 => 0,
        1 => WIDEST_LEVEL,
        2 => random.below(WIDEST_LEVEL + 1),
        _ => 1 + random.below(4),
    }
}

/// A well-formed table of at most `most` cells, without spare slots.
pub fn random_table(random: &mut Random, most: usize) -> Table {
    let mut table = Table::new(random_level(random));
    let ground = Ground::random(random, table.max_level);
    let cells = random.index(most + 1);
    let first_roots = 1 + random.index(6);
    for _ in 0..first_roots.min(cells) {
        table.push(ground.root(random));
    }
    grow(&mut table, &ground, random, cells);
    table
}

/// Splits, and now and then one more root, up to so many cells.
fn grow(table: &mut Table, ground: &Ground, random: &mut Random, cells: usize) {
    while table.count < cells {
        let leaf = table.leaf_to_split(random);
        match leaf {
            Some(id) if table.count + 4 <= cells && !random.one_in(8) => table.split(id),
            _ => table.push(ground.root(random)),
        }
    }
}

/// The same with a few slots to spare.
pub fn random_roomy_table(random: &mut Random, most: usize) -> Table {
    let mut table = random_table(random, most);
    let spare = random.pick(&[0, 1, 3, 4, 5, 8, 11]);
    table.set_slots(table.count + spare);
    table
}

/// A table that balance has to split, if one of a few draws is.
pub fn random_unbalanced_table(random: &mut Random, most: usize) -> Table {
    let mut table = random_table(random, most);
    for _ in 0..8 {
        if !Splitting::of_table(&table.row, table.count).is_even(1) {
            break;
        }
        table = random_table(random, most);
    }
    table
}

/// For balance and conform: three in four tables are ones that balance has to split, if one of a few draws is.
pub fn random_table_to_even(random: &mut Random, most: usize) -> Table {
    if random.one_in(4) {
        random_table(random, most)
    } else {
        random_unbalanced_table(random, most)
    }
}
