//! What is asked of a row and a head, whoever holds them. Each call of the library judges the head against the row, but
//! [`Lent::leaf_count`]; what looks at single slots doesn't.

use crate::columns::{FIRST_CHILD, PARENT, X0, X1, Y0, Y1};
use crate::refusal::{judged, judged_check, judged_net};
use crate::{
    borders, ffi, limits, Cell, CellName, Counts, Edge, Hanging, Head, Joint, LeafBorder, Link,
    Links, Net, NetRoom, NetRows, Node, Outlines, Quadrant, Reason, Rect, Refusal, NO_CELL, SLOT,
};
use std::iter::repeat;

/// A row and the head of the table in it.
#[derive(Clone, Copy)]
pub struct Lent<'a> {
    pub row: &'a [i64],
    pub head: Head,
}

// SAFETY, of every call below: each pointer comes with the length of the slice that it was taken from;
// the slices outlive the call, and those that are written are borrowed mutably, so none overlaps another.

impl<'a> Lent<'a> {
    /// Whether row and head are a table.
    pub fn judge(self) -> Result<(), Refusal> {
        match self.leaves(&mut []) {
            Err(refusal) if refusal.reason == Reason::BadTable => Err(refusal),
            _ => Ok(()),
        }
    }

    pub fn leaf_count(self) -> usize {
        let Head {
            count,
            leaves,
            max_level,
        } = self.head;
        unsafe { ffi::leafmesh_leaf_count(count, leaves, max_level) }
    }

    pub fn leaves(self, out: &mut [u64]) -> Result<usize, Refusal> {
        let outcome = unsafe {
            ffi::leafmesh_leaves(
                self.row.as_ptr(),
                self.row.len(),
                self.head.count,
                self.head.leaves,
                self.head.max_level,
                out.as_mut_ptr(),
                out.len(),
            )
        };
        Ok(judged(outcome)? as usize)
    }

    pub fn leaf_order(self, out: &mut [u64]) -> Result<usize, Refusal> {
        let outcome = unsafe {
            ffi::leafmesh_leaf_order(
                self.row.as_ptr(),
                self.row.len(),
                self.head.count,
                self.head.leaves,
                self.head.max_level,
                out.as_mut_ptr(),
                out.len(),
            )
        };
        Ok(judged(outcome)? as usize)
    }

    pub fn borders(self) -> Result<Vec<LeafBorder>, Refusal> {
        // Only then has the row as many slots as the head says.
        self.judge()?;
        let mut ids = vec![0; self.leaf_count()];
        self.leaves(&mut ids)?;
        let leaves: Vec<_> = ids
            .iter()
            .map(|&id| (id as usize, self.rect(id as usize)))
            .collect();
        borders(&leaves)
    }

    /// The eight numbers of a cell; panics where the row has no such slot.
    pub fn slot(self, id: usize) -> &'a [i64] {
        &self.row[SLOT * id..SLOT * (id + 1)]
    }

    /// Where a cell lies.
    pub fn rect(self, id: usize) -> Rect {
        let slot = self.slot(id);
        [X0, Y0, X1, Y1].map(|column| slot[column])
    }

    /// The cell that another one is a quarter of. It stands before its quarters, so that a way up ends in any row.
    fn parent(self, id: usize) -> Option<usize> {
        self.cell_in(id, PARENT).filter(|&parent| parent < id)
    }

    /// The first quarter of a cell that is split.
    pub fn first_child(self, id: usize) -> Option<usize> {
        self.cell_in(id, FIRST_CHILD)
    }

    /// The cell that a slot names in this column.
    fn cell_in(self, id: usize, column: usize) -> Option<usize> {
        let cell = self.slot(id)[column];
        (cell != NO_CELL).then_some(cell as usize)
    }

    pub fn name(self, id: usize) -> Option<CellName> {
        if id >= self.head.count {
            return None;
        }
        let (mut root, mut route) = (id, Vec::new());
        while let Some(parent) = self.parent(root) {
            route.push(Quadrant::ALL[root - self.first_child(parent)?]);
            root = parent;
        }
        route.reverse();
        Some(CellName { root, route })
    }

    pub fn id_of(self, name: &CellName) -> Option<usize> {
        let is_root = |&id: &usize| id < self.head.count && self.parent(id).is_none();
        let root = Some(name.root).filter(is_root)?;
        let down = |id, &quadrant| Some(self.first_child(id)? + quadrant as usize);
        name.route.iter().try_fold(root, down)
    }

    pub fn edge_rows(self, outlines: Outlines, links: Links) -> Result<usize, Refusal> {
        let outcome = unsafe {
            ffi::leafmesh_edge_rows(
                self.row.as_ptr(),
                self.row.len(),
                self.head.count,
                self.head.leaves,
                self.head.max_level,
                outlines.layers.as_ptr(),
                outlines.layers.len(),
                outlines.components.as_ptr(),
                outlines.components.len(),
                outlines.sheets.as_ptr(),
                outlines.sheets.len(),
                links.contacts.as_ptr(),
                links.contacts.len(),
                links.vias.as_ptr(),
                links.vias.len(),
                links.channel_layer,
                links.channels.as_ptr(),
                links.channels.len(),
            )
        };
        Ok(judged(outcome)? as usize)
    }

    pub fn linked_network(self, outlines: Outlines, links: Links) -> Result<Net, Refusal> {
        // This judges the head; only then do rows get a length by its leaves.
        let edge_rows = self.edge_rows(outlines, links)?;
        let leaves = self.leaf_count();
        let mut net = Net {
            nodes: vec![Node::default(); limits::NODES_A_LEAF * leaves],
            edges: edges_lent(edge_rows)?,
            cells: vec![Cell::default(); limits::CELLS_A_LEAF * leaves],
            ..Net::default()
        };
        let room = NetRoom {
            nodes: &mut net.nodes,
            edges: &mut net.edges,
            cells: &mut net.cells,
            work: &mut vec![0; limits::WORK_A_LEAF * leaves],
        };
        let counts = self.network_with(outlines, links, room)?;
        net.nodes.truncate(counts.nodes);
        net.edges.truncate(counts.edges);
        net.cells.truncate(counts.cells);
        net.links = counts.links;
        net.joints = self.joints(outlines, links)?;
        net.pads = links.pads()?;
        Ok(net)
    }

    /// How many edges each link makes, in the order of [`Links::each`].
    pub fn edges_of_links(self, outlines: Outlines, links: Links) -> Result<Vec<usize>, Refusal> {
        if links.is_empty() {
            return Ok(Vec::new());
        }
        let own = self.edge_rows(outlines, Links::default())?;
        let count = |(_, one)| Ok(self.edge_rows(outlines, one)? - own);
        links.each().map(count).collect()
    }

    /// Of each edge of the links what it is by its link.
    fn joints(self, outlines: Outlines, links: Links) -> Result<Vec<Joint>, Refusal> {
        let counts = self.edges_of_links(outlines, links)?;
        let joints = |((link, _), edges): ((Link, Links), usize)| {
            let all = link.siemens(links).expect("a link of these");
            let siemens = all / edges as f64;
            repeat(Joint { link, siemens }).take(edges)
        };
        Ok(links.each().zip(counts).flat_map(joints).collect())
    }

    pub fn network_with(
        self,
        outlines: Outlines,
        links: Links,
        room: NetRoom,
    ) -> Result<Counts, Refusal> {
        let outcome = unsafe {
            ffi::leafmesh_network(
                self.row.as_ptr(),
                self.row.len(),
                self.head.count,
                self.head.leaves,
                self.head.max_level,
                outlines.layers.as_ptr(),
                outlines.layers.len(),
                outlines.components.as_ptr(),
                outlines.components.len(),
                outlines.sheets.as_ptr(),
                outlines.sheets.len(),
                links.contacts.as_ptr(),
                links.contacts.len(),
                links.vias.as_ptr(),
                links.vias.len(),
                links.channel_layer,
                links.channels.as_ptr(),
                links.channels.len(),
                room.nodes.as_mut_ptr(),
                room.nodes.len(),
                room.edges.as_mut_ptr(),
                room.edges.len(),
                room.cells.as_mut_ptr(),
                room.cells.len(),
                room.work.as_mut_ptr(),
                room.work.len(),
            )
        };
        judged_net(outcome)
    }

    pub fn check_network_conforming(
        self,
        net: NetRows,
        work: &mut [u64],
    ) -> Result<Option<Hanging>, Refusal> {
        let outcome = unsafe {
            ffi::leafmesh_check_network_conforming(
                self.row.as_ptr(),
                self.row.len(),
                self.head.count,
                self.head.leaves,
                self.head.max_level,
                net.nodes.as_ptr(),
                net.nodes.len(),
                net.edges.as_ptr(),
                net.edges.len(),
                net.cells.as_ptr(),
                net.cells.len(),
                work.as_mut_ptr(),
                work.len(),
            )
        };
        judged_check(outcome)
    }

    pub fn check_by_layer(
        self,
        net: NetRows,
        outlines: Outlines,
        work: &mut [u64],
    ) -> Result<Option<Hanging>, Refusal> {
        let outcome = unsafe {
            ffi::leafmesh_check_by_layer(
                self.row.as_ptr(),
                self.row.len(),
                self.head.count,
                self.head.leaves,
                self.head.max_level,
                net.nodes.as_ptr(),
                net.nodes.len(),
                net.edges.as_ptr(),
                net.edges.len(),
                net.cells.as_ptr(),
                net.cells.len(),
                outlines.layers.as_ptr(),
                outlines.layers.len(),
                outlines.components.as_ptr(),
                outlines.components.len(),
                work.as_mut_ptr(),
                work.len(),
            )
        };
        judged_check(outcome)
    }
}

/// So many edges from the heap, if it has them.
fn edges_lent(rows: usize) -> Result<Vec<Edge>, Refusal> {
    let no_room = Refusal {
        reason: Reason::NoRoom,
        place: 0,
    };
    let mut edges = Vec::new();
    edges.try_reserve_exact(rows).map_err(|_| no_room)?;
    edges.resize(rows, Edge::default());
    Ok(edges)
}
