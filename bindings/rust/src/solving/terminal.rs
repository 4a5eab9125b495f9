//! Terminals: where a current enters a board and where it leaves.

use crate::limits::{CURRENT, POTENTIAL};
use crate::{Mesh, Net, Node, Rect, Side};
use std::fmt;

/// A place where current enters a board or leaves it. All of it is at one potential, as under a soldered lug.
#[derive(Clone, Debug, PartialEq)]
pub struct Terminal {
    /// What pictures and refusals call it.
    pub name: String,
    /// Where it is.
    pub spot: Spot,
    /// What it is held at.
    pub drive: Drive,
}

/// What a terminal is held at.
#[derive(Clone, Copy, Debug, PartialEq)]
pub enum Drive {
    /// A potential.
    Volts(f64),
    /// A current into the board; below 0 it comes out.
    Amperes(f64),
}

/// The nodes that a terminal takes: those of a net that hang on no side's ends.
#[derive(Clone, Copy, Debug, PartialEq, Eq)]
pub enum Spot {
    /// The end of a component on one layer: its nodes that lie farthest to a side.
    End {
        /// Of the nodes.
        layer: u16,
        /// Of the nodes.
        component: u32,
        /// That they lie farthest to.
        side: Side,
    },
    /// The nodes of a component on one layer that lie in a rectangle or on its sides. It may be as thin as an edge.
    Rect {
        /// Of the nodes.
        layer: u16,
        /// Of the nodes.
        component: u32,
        /// In ticks, x0 ≤ x1 and y0 ≤ y1.
        rect: Rect,
    },
    /// A pad: the corners of all leaves of a polygon.
    Pad {
        /// By its index.
        polygon: usize,
    },
}

/// The nodes of a net that a terminal takes, and what they are held at.
#[derive(Clone, Debug, PartialEq)]
pub struct Held {
    /// The terminal's name.
    pub terminal: String,
    /// Each once. Those that hang are passed over.
    pub nodes: Vec<usize>,
    /// What they are held at.
    pub drive: Drive,
}

impl Terminal {
    /// By name, place and drive.
    pub fn new(name: &str, spot: Spot, drive: Drive) -> Self {
        Terminal {
            name: name.to_string(),
            spot,
            drive,
        }
    }

    /// The nodes among these that it takes. None of a pad, which only a mesh tells: [`Mesh::held`].
    pub fn held_among(&self, nodes: &[Node]) -> Option<Held> {
        let is_pad = matches!(self.spot, Spot::Pad { .. });
        (!is_pad).then(|| self.held(nodes, |_| Vec::new()))
    }

    /// `pad` has the corners of a polygon's leaves.
    fn held(&self, nodes: &[Node], pad: impl Fn(usize) -> Vec<usize>) -> Held {
        Held {
            terminal: self.name.clone(),
            nodes: self.spot.nodes(nodes, pad),
            drive: self.drive,
        }
    }
}

impl Drive {
    /// Whether it is a number in range: a potential that [`power`](crate::power) takes, or a current of at most
    /// [`CURRENT`].
    pub fn is_in_range(self) -> bool {
        match self {
            Drive::Volts(volts) => volts.abs() <= POTENTIAL,
            Drive::Amperes(amperes) => amperes.abs() <= CURRENT,
        }
    }
}

impl fmt::Display for Drive {
    fn fmt(&self, f: &mut fmt::Formatter<'_>) -> fmt::Result {
        match self {
            Drive::Volts(volts) => write!(f, "{volts} V"),
            Drive::Amperes(amperes) => write!(f, "{amperes} A"),
        }
    }
}

impl Spot {
    /// The nodes of a net that lie here, rising. `pad` has the corners of a polygon's leaves.
    fn nodes(&self, nodes: &[Node], pad: impl Fn(usize) -> Vec<usize>) -> Vec<usize> {
        let all = || nodes.iter().enumerate();
        match *self {
            Spot::Pad { polygon } => pad(polygon),
            Spot::Rect {
                layer,
                component,
                rect: [x0, y0, x1, y1],
            } => {
                let is_in = |node: &Node| {
                    (node.layer, node.component) == (layer, component)
                        && (x0..=x1).contains(&node.x)
                        && (y0..=y1).contains(&node.y)
                };
                let own = all().filter(|(_, node)| is_in(node));
                own.map(|(at, _)| at).collect()
            }
            Spot::End {
                layer,
                component,
                side,
            } => {
                let is_own = |node: &Node| (node.layer, node.component) == (layer, component);
                let out = |node: &Node| match side {
                    Side::South => -node.y,
                    Side::East => node.x,
                    Side::North => node.y,
                    Side::West => -node.x,
                };
                let most = nodes.iter().filter(|node| is_own(node)).map(out).max();
                let own = all().filter(|(_, node)| is_own(node) && Some(out(node)) == most);
                own.map(|(at, _)| at).collect()
            }
        }
    }
}

impl Mesh {
    /// The nodes of the mesh's net that each terminal takes; none where there is no copper of its.
    pub fn held(&self, net: &Net, terminals: &[Terminal]) -> Vec<Held> {
        let corners = |polygon: usize| {
            let cells = self.leaves().zip(&net.cells);
            let own = cells.filter(|(leaf, _)| leaf.polygon == polygon);
            let mut all: Vec<usize> = own.flat_map(|(_, cell)| cell.corners).collect();
            all.sort_unstable();
            all.dedup();
            all
        };
        let held = |terminal: &Terminal| terminal.held(&net.nodes, corners);
        terminals.iter().map(held).collect()
    }
}
