//! Why a net or its terminals have no solution.

use crate::Refusal;
use std::error::Error;
use std::fmt;

/// Why there is no system of a net, or no solution of a system.
#[derive(Clone, Debug, PartialEq)]
#[non_exhaustive]
pub enum Unsolved {
    /// The net isn't sound: the library's own refusal.
    Refused(Refusal),
    /// A conductance that is below 0 or no number.
    BadConductance {
        /// By its place.
        edge: usize,
    },
    /// A node that stands inside a cell's side and isn't held by its ends.
    NoFit {
        /// The first such node.
        node: usize,
    },
    /// A net that doesn't say of each of its links what it conducts as it was given.
    NoJoints {
        /// How many of its edges are links.
        links: usize,
        /// Of how many it says so.
        joints: usize,
    },
    /// Footprints of links cut the cells into too many pieces.
    Crowded {
        /// The cell at which they get too many, by its place.
        cell: usize,
    },
    /// There is no terminal.
    NoTerminal,
    /// What a terminal is held at is no number, or a potential that is out of range.
    OutOfRange {
        /// Its name.
        terminal: String,
    },
    /// A terminal names a node that isn't there.
    NoSuchNode {
        /// Its name.
        terminal: String,
        /// The number that it names.
        node: usize,
    },
    /// A terminal takes no node, or only such as hang.
    NoNode {
        /// Its name.
        terminal: String,
    },
    /// A node of two terminals.
    Shared {
        /// The first such node.
        node: usize,
        /// Their names.
        terminals: [String; 2],
    },
    /// A terminal with a current, on copper that no terminal with a potential is joined to: its potential could be any.
    NoPotential {
        /// Its name.
        terminal: String,
    },
    /// The iteration didn't come to its end.
    NoEnd {
        /// The residual as a share of its start.
        share: f64,
    },
    /// The currents at the terminals don't come out: they don't add up to none, or one isn't what is driven. Links
    /// with resistances many orders above or below the copper's do that.
    Imprecise {
        /// By how much they are off, as a share of the largest.
        share: f64,
    },
}

impl From<Refusal> for Unsolved {
    fn from(refusal: Refusal) -> Self {
        Unsolved::Refused(refusal)
    }
}

impl Unsolved {
    /// The terminal to blame, the later one of two.
    pub fn terminal(&self) -> Option<&str> {
        match self {
            Unsolved::OutOfRange { terminal }
            | Unsolved::NoSuchNode { terminal, .. }
            | Unsolved::NoNode { terminal }
            | Unsolved::NoPotential { terminal } => Some(terminal),
            Unsolved::Shared { terminals, .. } => Some(&terminals[1]),
            _ => None,
        }
    }
}

impl fmt::Display for Unsolved {
    fn fmt(&self, f: &mut fmt::Formatter<'_>) -> fmt::Result {
        match self {
            Unsolved::Refused(refusal) => refusal.fmt(f),
            Unsolved::BadConductance { edge } => {
                write!(f, "the conductance of edge {edge} is below 0 or no number")
            }
            Unsolved::NoFit { node } => write!(
                f,
                "node {node} stands inside a cell's side, not at its middle: balance the table, make all coordinates \
                 multiples of the base cell, and no strip longer than cap of them"
            ),
            Unsolved::NoJoints { links, joints } => write!(
                f,
                "the net has {links} links and says of {joints} what they conduct: make it by a mesh or a table"
            ),
            Unsolved::Crowded { cell } => write!(
                f,
                "footprints of links cut the cells into more than 1,000,000 pieces, the last of them cell {cell}: so many \
                 crowd in large cells; refine them, or draw one footprint for such as touch"
            ),
            Unsolved::NoTerminal => write!(f, "there is no terminal"),
            Unsolved::OutOfRange { terminal } => {
                write!(f, "terminal {terminal}: its potential or current is out of range")
            }
            Unsolved::NoSuchNode { terminal, node } => {
                write!(f, "terminal {terminal}: there is no node {node}")
            }
            Unsolved::NoNode { terminal } => write!(
                f,
                "terminal {terminal}: no corner of a leaf of its copper lies in it, but for such as hang at the middle of \
                 another's side"
            ),
            Unsolved::Shared {
                node,
                terminals: [a, b],
            } => write!(f, "terminals {a} and {b} share node {node}"),
            Unsolved::NoPotential { terminal } => write!(
                f,
                "terminal {terminal}: a current into copper that no terminal with a potential is joined to"
            ),
            Unsolved::NoEnd { share } => {
                write!(
                    f,
                    "no solution: the iteration comes to no end ({share:.0e} of what it began with is left), as where links \
                     or copper have resistances too far from each other"
                )
            }
            Unsolved::Imprecise { share } => write!(
                f,
                "no solution: currents at terminals are off by {share:.1e} of the largest, as where a link has far \
                 more or far less resistance than the copper"
            ),
        }
    }
}

impl Error for Unsolved {}
