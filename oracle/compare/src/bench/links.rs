//! The network of two layers over each other, without links, with edge rows to spare and with exactly those that it
//! needs.

use super::network::{empty_rows, net_bits, net_of_rows, Bits};
use super::{best, compare, timed, Best};
use crate::port::lent;
use crate::port::network::{linked_network, LentLinks};
use calls::links::{Channel, Contact, Footprint, Links, Terminal, Via};
use calls::net::Net;
use calls::network::{edge_rows, NetRoom};
use calls::sheets::LayerNames;
use calls::table::{to_grid, Slot};
use inputs::meshes::Mesh;
use inputs::tables::Table;
use original::adaptive::build_network;
use original::sheet::{SheetNetwork, SheetPolygon};

/// Base cells of a layer, and how many of them are split.
const COLUMNS: i64 = 69;
const ROWS: i64 = 71;
const SPLITS: i64 = 65;
const SIDE: i64 = 16;
/// Polygons of a layer, one above the other.
const POLYGONS: i64 = 10;
/// Contacts, vias and channels.
const EACH: i64 = 100;
/// Layer 2 has component 1 from this column on, and component 0 before it; layer 1 has component 0 alone.
const MIDDLE: i64 = 40;

/// True if both made the same net each time.
pub fn run() -> bool {
    let mesh = two_layers();
    let leaves = mesh.leaves();
    let mesh_rows = NetRoom::for_leaves(leaves).edges;
    let kinds = [
        ("", Links::default(), false),
        (", twice the edge rows", links(), true),
        (", exact edge rows", links(), false),
        (" of one wide via, exact edge rows", wide_via(), false),
    ];
    let mut same = true;
    for (words, links, spare) in kinds {
        let table = &mesh.table;
        let rows = edge_rows(&table.row, table.head(), &mesh.polygons(), &links);
        let exact = rows.expect("they are sound") as usize;
        let count = exact - mesh_rows;
        let mut room = NetRoom::for_leaves(leaves).with_links(count);
        room.edges += if spare { exact } else { 0 };
        let many = if count == 0 { "no".to_string() } else { count.to_string() };
        let name = format!("network of two layers, {leaves} leaves, {many} links{words}");
        same &= compare(&name, time_port(&mesh, &links, &room), time_original(&mesh, &links));
    }
    same
}

fn time_original(mesh: &Mesh, links: &Links) -> Best<Bits> {
    let table = &mesh.table;
    let grid = to_grid(&table.row, table.head());
    let names = LayerNames::with_channels_on(links.channel_layer);
    let sheets = mesh.polygons();
    let polygons: Vec<SheetPolygon> =
        (0..sheets.len()).map(|polygon| sheets.named(polygon, &[], names)).collect();
    let (contacts, vias) = (links.contacts_to_original(), links.vias_to_original(names));
    let channels = links.channels_to_original();
    best(|| {
        let mut net = SheetNetwork::default();
        let time = timed(|| net = build_network(&grid, &polygons, &contacts, &vias, &channels));
        (time, net_bits(lent(&Net::of_named(&net, names))))
    })
}

fn time_port(mesh: &Mesh, links: &Links, room: &NetRoom) -> Best<Bits> {
    let (polygons, links) = (mesh.polygons(), LentLinks::of(links));
    best(|| {
        let mut rows = empty_rows(room);
        let mut outcome = None;
        let time =
            timed(|| outcome = Some(linked_network(&mesh.table, &polygons, &links, &mut rows)));
        let outcome = outcome.expect("it was called");
        assert_eq!(outcome.number, 0, "there is room");
        let counts = [outcome.nodes, outcome.edges, outcome.cells].map(|count| count as usize);
        (time, net_bits(net_of_rows(rows, counts)))
    })
}

/// The same raster on layers 1 and 2, in bands of polygons; cells spread over both are split once.
fn two_layers() -> Mesh {
    let mut mesh = Mesh::of_table(Table::new(2));
    for layer in [1, 2] {
        for n in 0..COLUMNS * ROWS {
            let (column, row) = (n % COLUMNS, n / COLUMNS);
            let half = i64::from(layer == 2 && column >= MIDDLE);
            let polygon = (2 * (layer - 1) + half) * POLYGONS + row * POLYGONS / ROWS;
            let (x, y) = (column * SIDE, row * SIDE);
            mesh.table.push(Slot::root([x, y, x + SIDE, y + SIDE], polygon));
        }
    }
    for split in 0..SPLITS {
        mesh.table.split((split * 2 * COLUMNS * ROWS / SPLITS) as usize);
    }
    // Layer 1's second half stays empty.
    for (layer, component) in [(1, 0), (1, 1), (2, 0), (2, 1)] {
        (0..POLYGONS).for_each(|_| mesh.push_polygon(layer, component, 1.5));
    }
    mesh
}

/// A via over three rows of cells: more of them than the port lists while it counts nodes.
fn wide_via() -> Links {
    let footprint = Footprint {
        x: COLUMNS * SIDE / 2,
        y: ROWS * SIDE / 2,
        half_width: COLUMNS * SIDE,
        half_height: 2 * SIDE,
    };
    let via = Via { bottom: 1, top: 2, component: 0, footprint, resistance: 0.01 };
    Links { vias: vec![via], ..Links::default() }
}

/// Vias of three by three nodes on each layer, spread over what both have of component 0; contacts of bands that
/// touch; channels over the line between layer 2's components.
fn links() -> Links {
    let via = |n: i64| {
        let (column, row) = (2 + n % 10 * 3, 3 + n / 10 * 7);
        let footprint =
            Footprint { x: column * SIDE, y: row * SIDE, half_width: SIDE, half_height: SIDE };
        Via { bottom: 1, top: 2, component: 0, footprint, resistance: 0.01 }
    };
    let contact = |n: i64| {
        let layer = if n % 2 == 0 { 0 } else { 2 * POLYGONS };
        let from = (layer + n / 2 % (POLYGONS - 1)) as usize;
        Contact { from, to: from + 1 }
    };
    let channel = |n: i64| {
        let y = n * ROWS / EACH * SIDE;
        let drain = Terminal { component: 0, x: (MIDDLE - 1) * SIDE, y };
        let source = Terminal { component: 1, x: (MIDDLE + 1) * SIDE, y };
        Channel { drain, source, resistance: 50.0 }
    };
    Links {
        contacts: (0..EACH).map(contact).collect(),
        vias: (0..EACH).map(via).collect(),
        channel_layer: 2,
        channels: (0..EACH).map(channel).collect(),
    }
}
