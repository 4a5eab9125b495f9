//! The rows of a net, as the library has them in memory.

use crate::{limits, power, Link, Pad, Refusal};
use std::mem::size_of;

/// A node: layer, component, and where it stands, in ticks.
#[repr(C)]
#[derive(Clone, Copy, Debug, Default, PartialEq, Eq, PartialOrd, Ord, Hash)]
pub struct Node {
    /// Of the cells that it is a corner of.
    pub layer: u16,
    /// As the layer.
    pub component: u32,
    /// In ticks.
    pub x: i64,
    /// In ticks.
    pub y: i64,
}

/// An edge: its two nodes, and its conductance in siemens, which is not the copper's everywhere
/// (docs/CONDUCTANCES.md).
#[repr(C)]
#[derive(Clone, Copy, Debug, Default, PartialEq)]
pub struct Edge {
    /// The place of a node in the nodes' row.
    pub from: usize,
    /// As `from`.
    pub to: usize,
    /// In siemens.
    pub conductance: f64,
}

/// A cell: its nodes SW, SE, NE, NW ([`columns`](crate::columns) names these places), and its sheet resistance in
/// ohms a square.
#[repr(C)]
#[derive(Clone, Copy, Debug, Default, PartialEq)]
pub struct Cell {
    /// SW, SE, NE, NW.
    pub corners: [usize; 4],
    /// In ohms a square.
    pub sheet: f64,
}

// The header says the same.
const _: () =
    assert!(size_of::<Node>() == 24 && size_of::<Edge>() == 24 && size_of::<Cell>() == 40);

/// What a link's edge is by the link as it was given, wherever it lies: the net's own conductance of an edge along a
/// cell's side is a weight (docs/RULES.md, "Weights").
#[derive(Clone, Copy, Debug, PartialEq)]
pub struct Joint {
    /// The link that makes the edge.
    pub link: Link,
    /// One over the link's resistance, of a via its share of that, and 1 of a contact.
    pub siemens: f64,
}

/// A net with rows of its own. Its last edges are links.
#[derive(Clone, Debug, Default, PartialEq)]
pub struct Net {
    /// Each is named by its place in this row.
    pub nodes: Vec<Node>,
    /// By polygon, as docs/RULES.md has their order; then the links.
    pub edges: Vec<Edge>,
    /// Cell i is [`Table::leaf_order`](crate::Table::leaf_order)'s i-th leaf.
    pub cells: Vec<Cell>,
    /// How many of the edges are links.
    pub links: usize,
    /// Of each edge that is a link, in their order. A net of other hands may have none: then nobody knows what its
    /// links conduct, and [`System::of_cells`](crate::solving::System::of_cells) refuses it.
    pub joints: Vec<Joint>,
    /// The ends of its links that have an area. The edges know nothing of them.
    pub pads: Vec<Pad>,
}

impl Net {
    /// The net as the calls take it.
    pub fn rows(&self) -> NetRows<'_> {
        NetRows {
            nodes: &self.nodes,
            edges: &self.edges,
            cells: &self.cells,
        }
    }

    /// The edges that contacts, vias and channels make, in this order.
    pub fn links(&self) -> &[Edge] {
        &self.edges[self.edges.len().saturating_sub(self.links)..]
    }

    /// The same edges, each with what it conducts as its link was given, where the net says so.
    pub(crate) fn links_as_given(&self) -> Vec<Edge> {
        let mut links = self.links().to_vec();
        if self.joints.len() == links.len() {
            let each = links.iter_mut().zip(&self.joints);
            each.for_each(|(edge, joint)| edge.conductance = joint.siemens);
        }
        links
    }
}

/// A net by its rows.
#[derive(Clone, Copy, Debug, Default, PartialEq)]
pub struct NetRows<'a> {
    /// As in [`Net`].
    pub nodes: &'a [Node],
    /// As in [`Net`].
    pub edges: &'a [Edge],
    /// As in [`Net`].
    pub cells: &'a [Cell],
}

impl NetRows<'_> {
    /// Whether the net is sound: every cell and edge names nodes that are there, and every cell's corners are those of
    /// a rectangle.
    ///
    /// # Errors
    ///
    /// [`Reason::BadTable`](crate::Reason::BadTable) where it isn't, and
    /// [`Reason::OutOfRange`](crate::Reason::OutOfRange) for a sheet resistance.
    pub fn judge(self) -> Result<(), Refusal> {
        // Power judges all rows before it works anything out.
        power(
            self,
            &vec![0.0; self.nodes.len()],
            &mut vec![0.0; self.cells.len()],
        )
    }

    /// Enough work room for a check of this net.
    pub(crate) fn check_work(self) -> Vec<u64> {
        vec![0; limits::check_work(self.nodes.len(), self.edges.len())]
    }
}

/// Rows that are lent for a net, and the work room for making it. For each leaf it needs what
/// [`limits`](crate::limits) says.
#[derive(Debug)]
pub struct NetRoom<'a> {
    /// [`NODES_A_LEAF`](limits::NODES_A_LEAF) for each leaf.
    pub nodes: &'a mut [Node],
    /// [`EDGES_A_LEAF`](limits::EDGES_A_LEAF) for each leaf, and one for each link:
    /// [`Table::edge_rows`](crate::Table::edge_rows).
    pub edges: &'a mut [Edge],
    /// [`CELLS_A_LEAF`](limits::CELLS_A_LEAF) for each leaf.
    pub cells: &'a mut [Cell],
    /// [`WORK_A_LEAF`](limits::WORK_A_LEAF) for each leaf.
    pub work: &'a mut [u64],
}

/// How many nodes, edges and cells a net has, and how many of the edges are links.
#[derive(Clone, Copy, Debug, PartialEq, Eq)]
pub struct Counts {
    /// In front of the nodes' row.
    pub nodes: usize,
    /// In front of the edges' row.
    pub edges: usize,
    /// In front of the cells' row.
    pub cells: usize,
    /// The last of the edges.
    pub links: usize,
}
