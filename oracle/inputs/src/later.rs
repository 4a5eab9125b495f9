//! What is split later, or in another order: tables with more splits than another, and lists of names that are split
//! in turn.

use crate::meshes::split_towards;
use crate::random::Random;
use crate::tables::{random_table, random_table_to_even, Table};
use calls::coarsest::{id_of, names, Name, Splitting};
use calls::table::{Slot, NO_CELL};
use std::iter::successors;

/// Most names of a list.
const LONGEST_LIST: usize = 12;
/// Most further splits of a table that has more than another: some mostly, now and then many.
const SOME_SPLITS: usize = 6;
const MANY_SPLITS: usize = 24;
const MANY_ONE_IN: u64 = 8;
const OF_ITS_OWN_ONE_IN: u64 = 16;
const TOWARDS_A_CORNER_ONE_IN: u64 = 4;
/// The least levels of a steep table.
const STEEP: u64 = 4;
/// How often a list's name is one that can't be split in its turn.
const IMPOSSIBLE_ONE_IN: u64 = 96;

/// A table of at most `most` cells; in one of four a leaf is then split towards a corner.
pub fn table_to_even(most: usize, random: &mut Random) -> Table {
    let mut table = random_table_to_even(random, most);
    if random.one_in(TOWARDS_A_CORNER_ONE_IN) {
        if let Some(id) = table.leaf_to_split(random) {
            let times = 1 + random.below(table.max_level);
            split_towards(&mut table, id, random.index(4), times);
        }
    }
    table
}

/// One root or two, the first of them split towards a corner, four levels at least.
pub fn steep_table(random: &mut Random) -> Table {
    loop {
        let mut table = random_table(random, 2);
        if table.count > 0 && table.max_level >= STEEP {
            let times = STEEP + random.below(table.max_level - STEEP + 1);
            split_towards(&mut table, 0, random.index(4), times);
            return table;
        }
    }
}

/// The same roots, in front, with all splits of the few and mostly some more, in another order; now and then with
/// splits of its own in their place.
pub struct MoreSplits {
    pub table: Table,
    pub of_its_own: bool,
}

impl MoreSplits {
    pub fn than(few: &Table, random: &mut Random) -> Self {
        let of_its_own = random.one_in(OF_ITS_OWN_ONE_IN);
        let start = if of_its_own { roots_of(few) } else { few.clone() };
        let most = if random.one_in(MANY_ONE_IN) { MANY_SPLITS } else { SOME_SPLITS };
        let more = with_splits(start, random.index(most + 1), random);
        MoreSplits { table: in_another_order(&more, random), of_its_own }
    }
}

fn roots_of(table: &Table) -> Table {
    let mut roots = Table::new(table.max_level);
    let cells = (0..table.count).map(|id| table.slot(id));
    cells
        .filter(|cell| cell.parent == NO_CELL)
        .for_each(|root| roots.push(Slot::root(root.rect(), root.polygon)));
    roots
}

fn with_splits(mut table: Table, splits: usize, random: &mut Random) -> Table {
    for _ in 0..splits {
        let Some(id) = table.leaf_to_split(random) else { break };
        table.split(id);
    }
    table
}

/// The same cells, roots in front, the splits in any order.
fn in_another_order(table: &Table, random: &mut Random) -> Table {
    let splitting = Splitting::of_table(&table.row, table.count);
    let mut other = roots_of(table);
    let mut waiting: Vec<(Name, usize)> = (0..other.count).map(|id| (Name::root(id), id)).collect();
    while !waiting.is_empty() {
        let (name, id) = waiting.swap_remove(random.index(waiting.len()));
        if splitting.splits(name) {
            let first = other.count;
            other.split(id);
            waiting.extend((0..4).map(|quadrant| (name.child(quadrant as u32), first + quadrant)));
        }
    }
    other
}

/// Names that are split in turn, and the table when they are.
pub struct SplitList {
    pub names: Vec<Name>,
    pub after: Table,
}

impl SplitList {
    /// Drawn from a table that is split along. Half of the names are of cells that the first evening, which ends in
    /// `evened`, splits or makes. Names can be of cells that are split already, come twice, and now and then have no
    /// cell, or one at the last level.
    pub fn random(table: &Table, evened: &Splitting, random: &mut Random) -> Self {
        let start = Splitting::of_table(&table.row, table.count);
        let made_first = |name: Name| {
            let mut upwards = successors(Some(name), |name| name.parent());
            upwards.any(|name| evened.splits(name) && !start.splits(name))
        };
        let mut list = SplitList { names: Vec::new(), after: table.clone() };
        for _ in 0..random.index(LONGEST_LIST + 1) {
            let name = if random.one_in(IMPOSSIBLE_ONE_IN) {
                list.impossible(random)
            } else {
                match random.below(8) {
                    0 => list.given_before(random),
                    1 => list.split_already(random),
                    2..=5 => list.possible(made_first, random),
                    _ => list.possible(|_| true, random),
                }
            };
            list.names.extend(name);
        }
        list
    }

    fn given_before(&self, random: &mut Random) -> Option<Name> {
        any_of(&self.names, random)
    }

    fn split_already(&self, random: &mut Random) -> Option<Name> {
        any_of(&self.named(|_, cell| !cell.is_leaf()), random)
    }

    /// A leaf above the last level, which is split.
    fn possible(&mut self, wanted: impl Fn(Name) -> bool, random: &mut Random) -> Option<Name> {
        let last = self.after.max_level as i64;
        let choice = self.named(|name, cell| cell.is_leaf() && cell.level < last && wanted(name));
        let name = any_of(&choice, random)?;
        let id = id_of(&self.after.row, self.after.count, name).expect("its name was found");
        self.after.split(id);
        Some(name)
    }

    /// A leaf at the last level, a leaf's child, or a root past the last.
    fn impossible(&self, random: &mut Random) -> Option<Name> {
        let last = self.after.max_level as i64;
        match random.below(4) {
            0 => Some(Name::root(self.after.count)),
            1 => any_of(&self.named(|_, cell| cell.is_leaf() && cell.level == last), random),
            _ => {
                let above =
                    any_of(&self.named(|_, cell| cell.is_leaf() && cell.level < last), random);
                above.map(|leaf| leaf.child(random.below(4) as u32))
            }
        }
    }

    /// The names of all cells that are wanted.
    fn named(&self, wanted: impl Fn(Name, &Slot) -> bool) -> Vec<Name> {
        let names = names(&self.after.row, self.after.count).into_iter().enumerate();
        names
            .filter(|&(id, name)| wanted(name, &self.after.slot(id)))
            .map(|(_, name)| name)
            .collect()
    }
}

fn any_of(names: &[Name], random: &mut Random) -> Option<Name> {
    (!names.is_empty()).then(|| random.pick(names))
}
