//! What of a system is known and what is sought, where terminals are held.

use super::matrix::Matrix;
use super::{Drive, Held, System, Unsolved};

/// What the potential of a node comes from.
#[derive(Clone, Copy, Debug, PartialEq)]
enum Source {
    /// It is held.
    Known(f64),
    /// It is sought, by this number: a terminal with a current has one for all its nodes.
    Sought(usize),
    /// It follows from the ends of the side that it hangs on.
    Tied,
}

/// The sources of all nodes, and how many numbers are sought. Potentials count from a level of the copper that a node
/// is on, so that what flows far from 0 V isn't lost in rounding.
pub(super) struct Unknowns {
    sources: Vec<Source>,
    /// Of each node; those that hang have none of their own.
    levels: Vec<f64>,
    /// The current into each sought number.
    currents: Vec<f64>,
}

impl Unknowns {
    /// # Errors
    ///
    /// The first terminal that can't be held, or has a current that could come from any potential.
    pub fn of(system: &System, held: &[Held]) -> Result<Self, Unsolved> {
        let owners = owners_of(system, held)?;
        let levels = levels_of(system, held, &owners)?;
        let mut currents = Vec::new();
        let mut seek = |current: f64| {
            currents.push(current);
            Source::Sought(currents.len() - 1)
        };
        let driven: Vec<Source> = held
            .iter()
            .map(|one| match one.drive {
                Drive::Volts(volts) => Source::Known(volts),
                Drive::Amperes(amperes) => seek(amperes),
            })
            .collect();
        let source = |(node, owner): (usize, &Option<usize>)| match owner {
            Some(terminal) => match driven[*terminal] {
                Source::Known(volts) => Source::Known(volts - levels[node]),
                sought => sought,
            },
            None if system.is_tied(node) => Source::Tied,
            None => seek(0.0),
        };
        let sources = owners.iter().enumerate().map(source).collect();
        Ok(Unknowns {
            sources,
            levels,
            currents,
        })
    }

    /// What flows into each sought number from the known ones and from outside.
    pub fn right(&self, matrix: &Matrix) -> Vec<f64> {
        let none = vec![0.0; self.currents.len()];
        let out = self.gathered(&matrix.times(&self.potentials(&none)));
        self.currents
            .iter()
            .zip(out)
            .map(|(own, out)| own - out)
            .collect()
    }

    /// The matrix of the sought numbers.
    pub fn matrix(&self, of: &Matrix) -> Matrix {
        let sought = |node: usize| match self.sources[node] {
            Source::Sought(number) => Some(number),
            _ => None,
        };
        let rows = (0..self.sources.len()).filter_map(|row| Some((row, sought(row)?)));
        let entries = rows.flat_map(|(row, number)| {
            let entry =
                move |&(column, value): &(usize, f64)| Some((number, sought(column)?, value));
            of.row(row).iter().filter_map(entry)
        });
        Matrix::of_entries(self.currents.len(), entries.collect())
    }

    /// The level that the potentials of each node count from.
    pub fn levels(&self) -> &[f64] {
        &self.levels
    }

    /// The largest potential that is held, above or below its level.
    pub fn largest_held(&self) -> f64 {
        let held = self.sources.iter().map(|source| match source {
            Source::Known(volts) => volts.abs(),
            _ => 0.0,
        });
        held.fold(0.0, f64::max)
    }

    /// The potentials of the nodes that don't hang, above their levels; 0 of the others.
    pub fn potentials(&self, found: &[f64]) -> Vec<f64> {
        let volts = |source: &Source| match *source {
            Source::Known(volts) => volts,
            Source::Sought(number) => found[number],
            Source::Tied => 0.0,
        };
        self.sources.iter().map(volts).collect()
    }

    /// The sums of a column over the nodes of each sought number.
    fn gathered(&self, column: &[f64]) -> Vec<f64> {
        let mut sums = vec![0.0; self.currents.len()];
        for (source, value) in self.sources.iter().zip(column) {
            if let Source::Sought(number) = source {
                sums[*number] += value;
            }
        }
        sums
    }
}

/// The terminal that each node belongs to.
fn owners_of(system: &System, held: &[Held]) -> Result<Vec<Option<usize>>, Unsolved> {
    if held.is_empty() {
        return Err(Unsolved::NoTerminal);
    }
    let mut owners: Vec<Option<usize>> = vec![None; system.count()];
    for (number, one) in held.iter().enumerate() {
        let terminal = || one.terminal.clone();
        if !one.drive.is_in_range() {
            return Err(Unsolved::OutOfRange {
                terminal: terminal(),
            });
        }
        let mut count = 0;
        for &node in &one.nodes {
            if node >= system.node_count() {
                return Err(Unsolved::NoSuchNode {
                    terminal: terminal(),
                    node,
                });
            }
            let Some(own) = system.own(node) else {
                continue;
            };
            let owner = &mut owners[own];
            match *owner {
                Some(other) if other != number => {
                    let terminals = [held[other].terminal.clone(), terminal()];
                    return Err(Unsolved::Shared { node, terminals });
                }
                _ => *owner = Some(number),
            }
            count += 1;
        }
        if count == 0 {
            return Err(Unsolved::NoNode {
                terminal: terminal(),
            });
        }
    }
    Ok(owners)
}

/// The level of each node: what the first terminal with a potential that it is joined to is held at, or 0.
///
/// # Errors
///
/// The first terminal with a current that is joined to none.
fn levels_of(
    system: &System,
    held: &[Held],
    owners: &[Option<usize>],
) -> Result<Vec<f64>, Unsolved> {
    let mut pieces = Pieces::of(&system.matrix, system.count());
    let mut firsts: Vec<Option<usize>> = vec![None; held.len()];
    for (node, owner) in owners.iter().enumerate() {
        if let Some(terminal) = *owner {
            pieces.join(*firsts[terminal].get_or_insert(node), node);
        }
    }
    let mut levels: Vec<Option<f64>> = vec![None; system.count()];
    for (one, first) in held.iter().zip(&firsts) {
        if let (Drive::Volts(volts), Some(node)) = (one.drive, first) {
            levels[pieces.root(*node)].get_or_insert(volts);
        }
    }
    for (one, first) in held.iter().zip(&firsts) {
        let level = first.and_then(|node| levels[pieces.root(node)]);
        if let (Drive::Amperes(_), None) = (one.drive, level) {
            let terminal = one.terminal.clone();
            return Err(Unsolved::NoPotential { terminal });
        }
    }
    let level = |node: usize| levels[pieces.root(node)].unwrap_or(0.0);
    Ok((0..system.count()).map(level).collect())
}

/// Which nodes are joined, by one that stands for all of a piece.
struct Pieces {
    next: Vec<usize>,
}

impl Pieces {
    fn of(matrix: &Matrix, nodes: usize) -> Self {
        let mut pieces = Pieces {
            next: (0..nodes).collect(),
        };
        for row in 0..nodes {
            for &(column, value) in matrix.row(row) {
                if value != 0.0 {
                    pieces.join(row, column);
                }
            }
        }
        pieces
    }

    fn root(&mut self, mut at: usize) -> usize {
        while self.next[at] != at {
            self.next[at] = self.next[self.next[at]];
            at = self.next[at];
        }
        at
    }

    fn join(&mut self, a: usize, b: usize) {
        let (a, b) = (self.root(a), self.root(b));
        self.next[a.max(b)] = a.min(b);
    }
}
