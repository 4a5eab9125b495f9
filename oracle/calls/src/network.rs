//! The network: nodes, edges and cells of a table's leaves.

use crate::limits::{r_sheet_in_range, POLYGONS};
use crate::link_words::Reading;
use crate::links::Links;
use crate::net::{Edge, Net};
use crate::outcome::{require, Answer};
use crate::sheets::{LayerNames, Sheets};
use crate::table::{leaf_count, to_grid, Head, Slot};
use crate::well_formed::well_formed;
use original::adaptive::build_network;
use original::sheet::SheetPolygon;

/// How many nodes, edges and cells are lent, and work numbers of 64 bits.
#[derive(Clone, Copy, Debug, PartialEq, Eq)]
pub struct NetRoom {
    pub nodes: usize,
    pub edges: usize,
    pub cells: usize,
    pub work: usize,
}

impl NetRoom {
    /// Exactly the room that docs/RULES.md asks for so many leaves.
    pub fn for_leaves(leaves: usize) -> Self {
        NetRoom { nodes: 4 * leaves, edges: 8 * leaves, cells: leaves, work: 64 * leaves }
    }

    /// The same with one edge row for each link.
    pub fn with_links(self, links: usize) -> Self {
        NetRoom { edges: self.edges + links, ..self }
    }

    pub fn holds_links(&self, leaves: usize, links: usize) -> bool {
        self.holds(leaves) && self.edges >= NetRoom::for_leaves(leaves).with_links(links).edges
    }

    fn holds(&self, leaves: usize) -> bool {
        let need = NetRoom::for_leaves(leaves);
        self.nodes >= need.nodes
            && self.edges >= need.edges
            && self.cells >= need.cells
            && self.work >= need.work
    }
}

/// Refuses 7, 3 (the polygon count, then r_sheet, lowest polygon first), 6.
pub fn network(table: &[i64], head: Head, sheets: &Sheets, room: &NetRoom) -> Answer<Net> {
    linked_network(table, head, sheets, &Links::default(), room).map(|made| made.net)
}

/// A net, of whose edges the last ones are links.
#[derive(Clone, Debug, PartialEq)]
pub struct Linked {
    pub net: Net,
    pub links: usize,
}

/// Refuses 7, 3 (as `network`, then a link's value, place 0), 6.
pub fn linked_network(
    table: &[i64],
    head: Head,
    sheets: &Sheets,
    links: &Links,
    room: &NetRoom,
) -> Answer<Linked> {
    let leaves = judged(table, head, sheets, links)?;
    require(room.holds(leaves), 6, 0)?;
    let made = made(table, head, sheets, links);
    require(room.holds_links(leaves, made.links), 6, 0)?;
    Ok(made)
}

/// The same in any room.
pub fn roomy_network(table: &[i64], head: Head, sheets: &Sheets, links: &Links) -> Answer<Linked> {
    judged(table, head, sheets, links)?;
    Ok(made(table, head, sheets, links))
}

/// How many edge rows the network asks for, read by the words of docs/RULES.md alone: no link is made.
pub fn edge_rows(table: &[i64], head: Head, sheets: &Sheets, links: &Links) -> Answer<u64> {
    let leaves = judged(table, head, sheets, links)?;
    let net = made(table, head, sheets, &Links::default()).net;
    let corners: Vec<_> = net.cells.iter().map(|cell| cell.corners).collect();
    let by_polygon = leaves_by_polygon(table, head.count, sheets.len());
    let number = Reading::new(&net, &corners, &by_polygon).count(links);
    Ok((8 * leaves as u128 + number).min(u128::from(u64::MAX)) as u64)
}

/// Refuses all but 6; the number of leaves.
fn judged(table: &[i64], head: Head, sheets: &Sheets, links: &Links) -> Answer<usize> {
    require(well_formed(table, head), 7, 0)?;
    require(sheets.rows_are_equal(), 7, 0)?;
    require(polygons_are_known(table, head.count, sheets), 7, 0)?;
    require(sheets.len() <= POLYGONS, 3, 0)?;
    for (polygon, &ohms) in sheets.r_sheet.iter().enumerate() {
        require(r_sheet_in_range(ohms), 3, polygon as u64)?;
    }
    require(links.in_range(), 3, 0)?;
    Ok(leaf_count(head) as usize)
}

/// The original's net of what was judged. Its links must be those that the words of docs/RULES.md make.
fn made(table: &[i64], head: Head, sheets: &Sheets, links: &Links) -> Linked {
    let names = match links.is_empty() {
        true => LayerNames::default(),
        false => LayerNames::with_channels_on(links.channel_layer),
    };
    let polygons: Vec<SheetPolygon> =
        (0..sheets.len()).map(|polygon| sheets.named(polygon, &[], names)).collect();
    let grid = to_grid(table, head);
    let net = build_network(
        &grid,
        &polygons,
        &links.contacts_to_original(),
        &links.vias_to_original(names),
        &links.channels_to_original(),
    );
    let net = Net::of_named(&net, names);
    assert!(net.is_sound(), "the original's net is sound");
    if links.is_empty() {
        return Linked { net, links: 0 };
    }
    let corners: Vec<_> = net.cells.iter().map(|cell| cell.corners).collect();
    let by_polygon = leaves_by_polygon(table, head.count, sheets.len());
    let read = Reading::new(&net, &corners, &by_polygon).links(links);
    let mesh = net.edges.len() - read.len();
    let same = |(a, b): (&Edge, &Edge)| {
        a.ends() == b.ends() && a.conductance.to_bits() == b.conductance.to_bits()
    };
    assert!(net.edges[mesh..].iter().zip(&read).all(same), "links by the words of the rules");
    Linked { links: read.len(), net }
}

/// How many leaves each polygon has.
fn leaves_by_polygon(table: &[i64], count: usize, polygons: usize) -> Vec<usize> {
    let mut leaves = vec![0; polygons];
    let slots = (0..count).map(|id| Slot::load(table, id));
    slots.filter(Slot::is_leaf).for_each(|leaf| leaves[leaf.polygon as usize] += 1);
    leaves
}

/// No cell of a well-formed table has a polygon index at or past the polygon count.
pub fn polygons_are_known(table: &[i64], count: usize, sheets: &Sheets) -> bool {
    (0..count).all(|id| Slot::load(table, id).polygon < sheets.len() as i64)
}
