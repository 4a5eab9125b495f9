//! The coarsest splitting, found without the original and without its order of work.
//!
//! A cell is named by its root and the quadrants that lead to it. A splitting is a set of names. It
//! is repaired until nothing is due: of two leaves that share an edge and lie too far apart in
//! level the coarser is split. Every splitting that has the table's splits and keeps the allowed
//! difference must make each of these splits, so what is left at the end is the coarsest of them.

use crate::contact::Rect;
use crate::table::{Slot, NO_CELL};
use std::collections::{BTreeMap, BTreeSet};

/// The root's place among the table's roots, and the quadrants from it down, two bits each.
#[derive(Clone, Copy, Debug, PartialEq, Eq, PartialOrd, Ord)]
pub struct Name {
    root: u32,
    depth: u8,
    path: u32,
}

impl Name {
    /// The root that stands at this place among the table's roots.
    pub fn root(place: usize) -> Self {
        Name { root: place as u32, depth: 0, path: 0 }
    }

    /// Quadrants are numbered SW, SE, NW, NE.
    pub fn child(self, quadrant: u32) -> Self {
        Name { root: self.root, depth: self.depth + 1, path: self.path * 4 + quadrant }
    }

    pub fn parent(self) -> Option<Self> {
        let depth = self.depth.checked_sub(1)?;
        Some(Name { root: self.root, depth, path: self.path / 4 })
    }

    /// The level of the cell.
    pub fn depth(self) -> u8 {
        self.depth
    }

    /// From the root down.
    fn quadrants(self) -> impl Iterator<Item = usize> {
        (0..self.depth).rev().map(move |below| (self.path >> (2 * below)) as usize % 4)
    }
}

/// A leaf as it stands in a table, but for its id.
#[derive(Clone, Copy, Debug, PartialEq, Eq, PartialOrd, Ord)]
pub struct NamedLeaf {
    pub name: Name,
    pub rect: Rect,
    pub polygon: i64,
}

/// The name of each cell of a well-formed table, by id.
pub fn names(table: &[i64], count: usize) -> Vec<Name> {
    let mut names: Vec<Name> = Vec::with_capacity(count);
    let mut roots = 0;
    // A parent stands before its children, so its name is known when theirs are asked for.
    for id in 0..count {
        let cell = Slot::load(table, id);
        names.push(if cell.parent == NO_CELL {
            roots += 1;
            Name::root(roots - 1)
        } else {
            let parent = Slot::load(table, cell.parent as usize);
            names[cell.parent as usize].child((id as i64 - parent.first) as u32)
        });
    }
    names
}

/// The id of the cell of that name, if a well-formed table has it. Found by walking down from the root.
pub fn id_of(table: &[i64], count: usize, name: Name) -> Option<usize> {
    let mut roots = (0..count).filter(|&id| Slot::load(table, id).parent == NO_CELL);
    let root = roots.nth(name.root as usize)?;
    name.quadrants().try_fold(root, |id, quadrant| {
        let cell = Slot::load(table, id);
        (!cell.is_leaf()).then(|| cell.first as usize + quadrant)
    })
}

/// The leaves of a well-formed table, by name.
pub fn leaves_by_name(table: &[i64], count: usize) -> BTreeSet<NamedLeaf> {
    let cells = (0..count).map(|id| Slot::load(table, id));
    let named = cells.zip(names(table, count)).filter(|(cell, _)| cell.is_leaf());
    named.map(|(cell, name)| NamedLeaf { name, rect: cell.rect(), polygon: cell.polygon }).collect()
}

/// The roots of a table and the names of its split cells.
#[derive(Clone, Debug, PartialEq, Eq)]
pub struct Splitting {
    roots: Vec<Rect>,
    split: BTreeSet<Name>,
}

struct Leaf {
    name: Name,
    rect: Rect,
}

impl Splitting {
    /// The splitting of a well-formed table.
    pub fn of_table(table: &[i64], count: usize) -> Self {
        let mut found = Splitting { roots: Vec::new(), split: BTreeSet::new() };
        for (id, name) in names(table, count).into_iter().enumerate() {
            let cell = Slot::load(table, id);
            if cell.parent == NO_CELL {
                found.roots.push(cell.rect());
            }
            if !cell.is_leaf() {
                found.split.insert(name);
            }
        }
        found
    }

    pub fn cells(&self) -> usize {
        self.roots.len() + 4 * self.split.len()
    }

    /// Whether the cell of that name is split.
    pub fn splits(&self, name: Name) -> bool {
        self.split.contains(&name)
    }

    /// Whether two roots have an area in common.
    pub fn roots_overlap(&self) -> bool {
        let both = |a: Rect, b: Rect| overlap(a, b, 0) && overlap(a, b, 1);
        let mut later = self.roots.iter().enumerate();
        later.any(|(n, &a)| self.roots[..n].iter().any(|&b| both(a, b)))
    }

    fn leaves(&self) -> Vec<Leaf> {
        let mut leaves = Vec::new();
        for (root, &rect) in self.roots.iter().enumerate() {
            self.gather(Name::root(root), rect, &mut leaves);
        }
        leaves
    }

    fn gather(&self, name: Name, rect: Rect, leaves: &mut Vec<Leaf>) {
        if !self.split.contains(&name) {
            leaves.push(Leaf { name, rect });
            return;
        }
        for (quadrant, part) in (0..).zip(quadrants(rect)) {
            self.gather(name.child(quadrant), part, leaves);
        }
    }

    /// Leaves that share an edge with one more than `allowed` levels finer.
    fn due(&self, allowed: u8) -> BTreeSet<Name> {
        let leaves = self.leaves();
        let mut due = BTreeSet::new();
        let mut judge = |a: &Leaf, b: &Leaf| {
            let (coarse, fine) = if a.name.depth < b.name.depth { (a, b) } else { (b, a) };
            if fine.name.depth > coarse.name.depth + allowed {
                due.insert(coarse.name);
            }
        };
        for axis in [0, 1] {
            // Leaves by their lower side on this axis, to be met by the upper side of others.
            let mut by_side: BTreeMap<i64, Vec<&Leaf>> = BTreeMap::new();
            for leaf in &leaves {
                by_side.entry(leaf.rect[axis]).or_default().push(leaf);
            }
            for a in &leaves {
                for b in by_side.get(&a.rect[axis + 2]).into_iter().flatten() {
                    if overlap(a.rect, b.rect, 1 - axis) {
                        judge(a, b);
                    }
                }
            }
        }
        due
    }
}

impl Splitting {
    /// Whether no two leaves that share an edge lie further apart than `allowed` levels.
    pub fn is_even(&self, allowed: u8) -> bool {
        self.due(allowed).is_empty()
    }

    /// Whether the roots are the same and every cell that `other` splits is split here too.
    pub fn contains(&self, other: &Splitting) -> bool {
        self.roots == other.roots && self.split.is_superset(&other.split)
    }
}

/// SW, SE, NW, NE.
fn quadrants([x0, y0, x1, y1]: Rect) -> [Rect; 4] {
    let (mx, my) = (x0 + (x1 - x0) / 2, y0 + (y1 - y0) / 2);
    [[x0, y0, mx, my], [mx, y0, x1, my], [x0, my, mx, y1], [mx, my, x1, y1]]
}

/// Whether the two overlap by a positive length on an axis, 0 for x and 1 for y.
fn overlap(a: Rect, b: Rect, axis: usize) -> bool {
    a[axis].max(b[axis]) < a[axis + 2].min(b[axis + 2])
}

/// The coarsest splitting of a well-formed table, or none if it has more than `room` cells. The set
/// only grows, so the repair can stop as soon as it is past the room.
pub fn coarsest(table: &[i64], count: usize, allowed: u8, room: usize) -> Option<Splitting> {
    let mut splitting = Splitting::of_table(table, count);
    while splitting.cells() <= room {
        let due = splitting.due(allowed);
        if due.is_empty() {
            return Some(splitting);
        }
        splitting.split.extend(due);
    }
    None
}
