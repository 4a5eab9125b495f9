//! The network: nodes, edges, cells and conductances of a table's leaves.

use crate::port::network::{self as port, Rows};
use crate::port::{lent, outcome_of};
use crate::report::Report;
use crate::rows::{cell_bits, difference, edge_bits, put, shown, unused};
use calls::net::Net;
use calls::network::{network, NetRoom};
use calls::Answer;
use inputs::large_meshes::{large_mesh, LARGE};
use inputs::mesh_faults::put_fault;
use inputs::meshes::{any_mesh, boundary_meshes, Mesh};
use inputs::Random;
use leafmesh::ffi::NetOutcome;
use leafmesh::{Cell, Edge, Node};

/// Meshes of thousands of leaves, beside those that are asked for.
const LARGE_MESHES: usize = 20;
const FAULTY_ONE_IN: u64 = 3;
/// How often a boundary mesh is run with a fault.
const FAULTS: usize = 200;

/// What was run, and how many of the nets had hanging nodes.
struct Tally {
    report: Report,
    nets: u64,
    hanging: u64,
    large: usize,
}

/// Boundary meshes in all rooms and with faults, then `count` random ones, each in a room that fits
/// and every third also with a fault or in too little room; then the large ones.
pub fn compare(count: u64, seed: u64) -> bool {
    let mut random = Random::new(seed);
    let mut tally = Tally { report: Report::new("network"), nets: 0, hanging: 0, large: 0 };
    for mesh in boundary_meshes() {
        tally.run_in_rooms(&mesh);
        (0..FAULTS).for_each(|_| tally.run_faulty(mesh.clone(), &mut random));
    }
    for _ in 0..count {
        let mesh = any_mesh(&mut random);
        tally.run(&mesh, &any_room(mesh.leaves(), &mut random));
        if random.one_in(FAULTY_ONE_IN) {
            tally.run_faulty(mesh, &mut random);
        }
    }
    for turn in 0..LARGE_MESHES {
        tally.run_large(&large_mesh(&mut random, turn));
    }
    tally.print()
}

/// Exactly what so many leaves ask for, or more of some.
pub fn any_room(leaves: usize, random: &mut Random) -> NetRoom {
    let mut room = NetRoom::for_leaves(leaves);
    if random.one_in(3) {
        room.nodes += random.index(4);
        room.edges += random.index(4);
        room.cells += random.index(4);
        room.work += random.index(99);
    }
    room
}

/// One node, edge, cell or work number short, or all of them.
pub fn short_rooms(leaves: usize) -> [NetRoom; 5] {
    let room = NetRoom::for_leaves(leaves);
    [
        NetRoom { nodes: room.nodes.saturating_sub(1), ..room },
        NetRoom { edges: room.edges.saturating_sub(1), ..room },
        NetRoom { cells: room.cells.saturating_sub(1), ..room },
        NetRoom { work: room.work.saturating_sub(1), ..room },
        NetRoom::for_leaves(0),
    ]
}

/// Each row by itself, and all of them, a few entries shorter or longer.
fn uneven_rooms(leaves: usize) -> Vec<NetRoom> {
    let changed = |step: isize| {
        let room = NetRoom::for_leaves(leaves);
        let moved = |length: usize| (length as isize + step).max(0) as usize;
        let [nodes, edges, cells, work] =
            [room.nodes, room.edges, room.cells, room.work].map(moved);
        [
            NetRoom { nodes, ..room },
            NetRoom { edges, ..room },
            NetRoom { cells, ..room },
            NetRoom { work, ..room },
            NetRoom { nodes, edges, cells, work },
        ]
    };
    [-4, -1, 1, 2, 4].into_iter().flat_map(changed).collect()
}

/// The original's answer, and what it leaves in the rows.
fn original(mesh: &Mesh, rows: &mut Rows) -> Answer<Net> {
    let table = &mesh.table;
    let net = network(&table.row, table.head(), &mesh.polygons(), &rows.room())?;
    let made = lent(&net);
    put(&mut rows.nodes, &made.nodes);
    put(&mut rows.edges, &made.edges);
    put(&mut rows.cells, &made.cells);
    rows.work.fill(0);
    Ok(net)
}

pub fn expected_outcome(answer: &Answer<&Net>) -> NetOutcome {
    match answer {
        Ok(net) => NetOutcome {
            nodes: net.nodes.len() as u64,
            edges: net.edges.len() as u64,
            cells: net.cells.len() as u64,
            ..NetOutcome::default()
        },
        Err(refusal) => {
            NetOutcome { number: refusal.number, place: refusal.place, ..NetOutcome::default() }
        }
    }
}

/// Rows with numbers of their own at each place.
pub fn unused_rows(room: &NetRoom) -> Rows {
    let node = |n: u64| Node { layer: n as u16, component: n as u32, x: n as i64, y: -(n as i64) };
    let edge = |n: u64| Edge { from: n as usize, to: !n as usize, conductance: n as f64 };
    let cell = |n: u64| Cell { corners: [n as usize; 4], sheet: -(n as f64) };
    Rows {
        nodes: unused(room.nodes, node),
        edges: unused(room.edges, edge),
        cells: unused(room.cells, cell),
        work: unused(room.work, |number| number),
    }
}

/// Where rows differ first, empty if nowhere.
pub fn differences(rows: &Rows, port_rows: &Rows) -> String {
    [
        difference("node", &rows.nodes, &port_rows.nodes),
        difference("edge, with bits,", &edge_bits(&rows.edges), &edge_bits(&port_rows.edges)),
        difference("cell, with bits,", &cell_bits(&rows.cells), &cell_bits(&port_rows.cells)),
        difference("work number", &rows.work, &port_rows.work),
    ]
    .concat()
}

impl Tally {
    fn run(&mut self, mesh: &Mesh, room: &NetRoom) {
        let mut rows = unused_rows(room);
        let mut port_rows = rows.clone();
        let answer = original(mesh, &mut rows);
        let expected = expected_outcome(&answer.as_ref().map_err(|why| *why));
        let got = port::network(&mesh.table, &mesh.polygons(), &mut port_rows);
        let differ = differences(&rows, &port_rows);
        let outcome = outcome_of(answer.as_ref().map(|_| expected.cells).map_err(|why| *why));
        self.report.ran(outcome, got == expected && differ.is_empty(), || {
            let words = format!(
                "{}, {room:?}; {differ}original {expected:?}, port {got:?}",
                mesh_words(mesh)
            );
            ((mesh.table.row.len() + mesh.layers.len()) as u128, words)
        });
        if let Ok(net) = answer {
            self.nets += 1;
            self.hanging += u64::from(net.has_hanging_nodes());
        }
    }

    fn run_in_rooms(&mut self, mesh: &Mesh) {
        let leaves = mesh.leaves();
        self.run(mesh, &NetRoom::for_leaves(leaves));
        let rooms = short_rooms(leaves).into_iter().chain(uneven_rooms(leaves));
        rooms.for_each(|room| self.run(mesh, &room));
    }

    /// With a fault or two, in too little room, in rows of other lengths, or several of these.
    fn run_faulty(&mut self, mut mesh: Mesh, random: &mut Random) {
        let leaves = mesh.leaves();
        let short = random.pick(&short_rooms(leaves));
        let uneven = random.pick(&uneven_rooms(leaves));
        let fits = any_room(leaves, random);
        let room = match random.below(8) {
            0..=1 => return self.run(&mesh, &short),
            2 => return self.run(&mesh, &uneven),
            3 => short,
            4 => uneven,
            _ => fits,
        };
        for _ in 0..random.pick(&[1, 1, 2]) {
            put_fault(&mut mesh, random);
        }
        self.run(&mesh, &room);
    }

    fn run_large(&mut self, mesh: &Mesh) {
        self.large += usize::from(LARGE.contains(&mesh.leaves()));
        self.run(mesh, &NetRoom::for_leaves(mesh.leaves()));
    }

    /// Says what was run; true if nothing differed.
    fn print(&self) -> bool {
        println!(
            "network: {} nets, {} of them ({:.1} in 100) with hanging nodes, {} of {} to {} leaves",
            self.nets,
            self.hanging,
            self.hanging as f64 * 100.0 / self.nets.max(1) as f64,
            self.large,
            LARGE.start(),
            LARGE.end()
        );
        self.report.print()
    }
}

pub fn mesh_words(mesh: &Mesh) -> String {
    format!(
        "max_level {}, count {}, leaves {}, table {}, layers {}, components {}, sheets {}",
        mesh.table.max_level,
        mesh.table.count,
        mesh.table.leaves,
        shown(&mesh.table.row),
        shown(&mesh.layers),
        shown(&mesh.components),
        shown(&mesh.sheets)
    )
}
