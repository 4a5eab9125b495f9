//! The network of square boards of about 1,000, 4,000 and 10,000 leaves.

use super::boards::balanced_board;
use super::{best, compare, timed, Best};
use crate::port::lent;
use crate::port::network::{network, Rows};
use crate::rows::{cell_bits, edge_bits};
use calls::net;
use calls::network::NetRoom;
use calls::sheets::Sheets;
use calls::table::to_grid;
use inputs::meshes::Mesh;
use leafmesh::{Cell, Edge, Net, Node};
use original::adaptive::build_network;
use original::sheet::{SheetNetwork, SheetPolygon};
use std::time::Duration;

/// Base cells a side.
const SIDES: [i64; 3] = [30, 62, 99];

/// Leaves, and the times of port and original.
struct Times {
    leaves: usize,
    port: Duration,
    original: Duration,
}

/// A net with its fractions as bits.
pub type Bits = (Vec<Node>, Vec<(usize, usize, u64)>, Vec<([usize; 4], u64)>);

/// True if both made the same net at each size.
pub fn run() -> bool {
    let mut same = true;
    let times = SIDES.map(|cells| {
        let mesh = balanced_board(cells);
        let (port, original) = (time_port(&mesh), time_original(&mesh));
        let times = Times { leaves: mesh.leaves(), port: port.0.time, original: original.0.time };
        same &= compare(&format!("network, {} leaves", times.leaves), port, original);
        times
    });
    if cfg!(not(feature = "heap")) {
        print_growth(&times[1], &times[2]);
    }
    same
}

fn time_original(mesh: &Mesh) -> Best<Bits> {
    let table = &mesh.table;
    let grid = to_grid(&table.row, table.head());
    let polygons: [SheetPolygon; 1] = [mesh.polygons().to_original(0, &[])];
    best(|| {
        let mut net = SheetNetwork::default();
        let time = timed(|| net = build_network(&grid, &polygons, &[], &[], &[]));
        (time, net_bits(lent(&net::Net::of_original(&net))))
    })
}

fn time_port(mesh: &Mesh) -> Best<Bits> {
    let room = NetRoom::for_leaves(mesh.leaves());
    let polygons: Sheets = mesh.polygons();
    best(|| {
        let mut rows = empty_rows(&room);
        let mut outcome = None;
        let time = timed(|| outcome = Some(network(&mesh.table, &polygons, &mut rows)));
        let outcome = outcome.expect("it was called");
        assert_eq!(outcome.number, 0, "there is room");
        let counts = [outcome.nodes, outcome.edges, outcome.cells].map(|count| count as usize);
        (time, net_bits(net_of_rows(rows, counts)))
    })
}

pub fn empty_rows(room: &NetRoom) -> Rows {
    Rows {
        nodes: vec![Node::default(); room.nodes],
        edges: vec![Edge::default(); room.edges],
        cells: vec![Cell::default(); room.cells],
        work: vec![0; room.work],
    }
}

/// The used part of the rows.
pub fn net_of_rows(mut rows: Rows, [nodes, edges, cells]: [usize; 3]) -> Net {
    rows.nodes.truncate(nodes);
    rows.edges.truncate(edges);
    rows.cells.truncate(cells);
    Net { nodes: rows.nodes, edges: rows.edges, cells: rows.cells, ..Net::default() }
}

pub fn net_bits(net: Net) -> Bits {
    let (edges, cells) = (edge_bits(&net.edges), cell_bits(&net.cells));
    (net.nodes, edges, cells)
}

fn print_growth(few: &Times, many: &Times) {
    let growth = |few: Duration, many: Duration| many.as_secs_f64() / few.as_secs_f64();
    println!(
        "network, growth from {} to {} leaves ({:.2} times as many): port {:.2}, original {:.2}",
        few.leaves,
        many.leaves,
        many.leaves as f64 / few.leaves as f64,
        growth(few.port, many.port),
        growth(few.original, many.original)
    );
}
