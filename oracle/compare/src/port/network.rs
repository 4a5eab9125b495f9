//! The network of a table's leaves, with links and without.

use calls::links::{self as own, Links};
use calls::network::NetRoom;
use calls::sheets::Sheets;
use inputs::tables::Table;
use leafmesh::ffi::{self, NetOutcome, Outcome};
use leafmesh::{Cell, Channel, ChannelEnd, Contact, Edge, Footprint, Node, Via};

/// The rows lent for a net, and the work room.
#[derive(Clone, Debug)]
pub struct Rows {
    pub nodes: Vec<Node>,
    pub edges: Vec<Edge>,
    pub cells: Vec<Cell>,
    pub work: Vec<u64>,
}

impl Rows {
    pub fn room(&self) -> NetRoom {
        NetRoom {
            nodes: self.nodes.len(),
            edges: self.edges.len(),
            cells: self.cells.len(),
            work: self.work.len(),
        }
    }
}

/// Links as the port is lent them.
#[derive(Default)]
pub struct LentLinks {
    contacts: Vec<Contact>,
    vias: Vec<Via>,
    channel_layer: u16,
    channels: Vec<Channel>,
}

impl LentLinks {
    pub fn of(links: &Links) -> Self {
        let contact = |&own::Contact { from, to }: &own::Contact| Contact { from, to };
        let via = |via: &own::Via| {
            let own::Footprint { x, y, half_width, half_height } = via.footprint;
            Via {
                bottom: via.bottom,
                top: via.top,
                component: via.component,
                footprint: Footprint { x, y, half_width, half_height },
                resistance: via.resistance,
            }
        };
        let end = |own::Terminal { component, x, y }: own::Terminal| ChannelEnd { component, x, y };
        let channel = |channel: &own::Channel| Channel {
            drain: end(channel.drain),
            source: end(channel.source),
            resistance: channel.resistance,
        };
        LentLinks {
            contacts: links.contacts.iter().map(contact).collect(),
            vias: links.vias.iter().map(via).collect(),
            channel_layer: links.channel_layer,
            channels: links.channels.iter().map(channel).collect(),
        }
    }
}

pub fn network(table: &Table, polygons: &Sheets, rows: &mut Rows) -> NetOutcome {
    linked_network(table, polygons, &LentLinks::default(), rows)
}

pub fn linked_network(
    table: &Table,
    polygons: &Sheets,
    links: &LentLinks,
    rows: &mut Rows,
) -> NetOutcome {
    // SAFETY: each pointer comes with the length of its slice, which outlives the call.
    unsafe {
        ffi::leafmesh_network(
            table.row.as_ptr(),
            table.row.len(),
            table.count,
            table.leaves,
            table.max_level,
            polygons.layer.as_ptr(),
            polygons.layer.len(),
            polygons.component.as_ptr(),
            polygons.component.len(),
            polygons.r_sheet.as_ptr(),
            polygons.r_sheet.len(),
            links.contacts.as_ptr(),
            links.contacts.len(),
            links.vias.as_ptr(),
            links.vias.len(),
            links.channel_layer,
            links.channels.as_ptr(),
            links.channels.len(),
            rows.nodes.as_mut_ptr(),
            rows.nodes.len(),
            rows.edges.as_mut_ptr(),
            rows.edges.len(),
            rows.cells.as_mut_ptr(),
            rows.cells.len(),
            rows.work.as_mut_ptr(),
            rows.work.len(),
        )
    }
}

pub fn edge_rows(table: &Table, polygons: &Sheets, links: &LentLinks) -> Outcome {
    // SAFETY: each pointer comes with the length of its slice, which outlives the call.
    unsafe {
        ffi::leafmesh_edge_rows(
            table.row.as_ptr(),
            table.row.len(),
            table.count,
            table.leaves,
            table.max_level,
            polygons.layer.as_ptr(),
            polygons.layer.len(),
            polygons.component.as_ptr(),
            polygons.component.len(),
            polygons.r_sheet.as_ptr(),
            polygons.r_sheet.len(),
            links.contacts.as_ptr(),
            links.contacts.len(),
            links.vias.as_ptr(),
            links.vias.len(),
            links.channel_layer,
            links.channels.as_ptr(),
            links.channels.len(),
        )
    }
}
