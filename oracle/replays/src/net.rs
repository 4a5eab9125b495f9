//! Power, the two checks and network, on nets of at most 64 nodes or so; and the network with links.

use crate::limit_nets::{limit_nets, NetCase};
use crate::links;
use crate::loose::{NetLengths, Rows};
use crate::replay::{class, head_numbers, Case, Replay};
use calls::checks::{check_by_layer, check_network_conforming, Hanging};
use calls::net::Net;
use calls::network::network;
use calls::power::cell_power;
use calls::sheets::Sheets;
use calls::Answer;
use inputs::damage::damage;
use inputs::mesh_faults::{add_too_many, drop_polygons, spoil_rows};
use inputs::meshes::{any_mesh, boundary_meshes, Mesh};
use inputs::net_changes::change_softly;
use inputs::nets::{random_net, random_potentials, spoil_potentials};
use inputs::stepped_meshes::{ring_mesh, RINGS};
use inputs::Random;

const POWER: u64 = 1;
const NETWORK_CONFORMING: u64 = 2;
const BY_LAYER: u64 = 3;
const NETWORK: u64 = 4;

/// The longest rows of the program.
const NODES: usize = 272;
const ENDS: usize = 272;
const EDGES: usize = 136;
const CORNERS: usize = 272;
const CELLS: usize = 72;
const TABLE: usize = 520;
const POLYGONS: usize = 320;
/// How many numbers an ordinary net has at most; one in so many may have more.
const SMALL: usize = 100;
const LARGE_ONE_IN: u64 = 600;
/// How many are drawn for each case of a class.
const DRAWS: u64 = 2_000;
/// What a row holds before the call, its own number at each place.
pub const SENTINEL: u64 = 900;
/// What the port's quick walk asks for: so many numbers a node and an edge.
const WORK_A_NODE: usize = 9;
const WORK_AN_EDGE: usize = 3;

pub fn replay(count: u64, random: &mut Random) -> Replay {
    let mut replay = Replay::new("replay_net", count);
    for case in limit_nets() {
        replay.name(&case.name);
        run_network(&case, &mut replay);
    }
    replay.name("a mesh that shows one thing");
    for mesh in boundary_meshes() {
        let net = mesh.net().expect("a sound mesh has a net");
        run_power(&net, random, &mut replay);
        run_checks(&mesh, &Rows::of(&net), random, &mut replay);
    }
    run_rings(&mut replay);
    replay.draw();
    for _ in 0..DRAWS * count {
        let net = random_net(random);
        if is_small(numbers(&Rows::of(&net)), random) {
            run_power(&net, random, &mut replay);
        }
        run_mesh(any_mesh(random), random, &mut replay);
    }
    links::offer(&mut replay);
    replay
}

/// The three rings of docs/RULES.md, "The checks", by layer: the first by both walks, without work room
/// and in just enough, the others by one each, since the stream is nearly full.
fn run_rings(replay: &mut Replay) {
    let walks: [&[bool]; 3] = [&[false, true], &[false], &[true]];
    for ((target, ring), walks) in RINGS.into_iter().zip(walks) {
        replay.name(&format!("a ring out of step, target {target}"));
        let mesh = ring_mesh(target, ring);
        let rows = Rows::of(&mesh.net().expect("a sound mesh has a net"));
        for &quick in walks {
            let room = if quick { work_needed(&rows) } else { 0 };
            run_by_layer(&mesh, &rows, room, replay);
        }
    }
}

/// Each row holds its own number at each place; an accepted call writes the front and zeroes the
/// work room.
fn run_network(lent: &NetCase, replay: &mut Replay) {
    let NetCase { mesh, lengths, .. } = lent;
    assert!(lengths.nodes <= NODES && lengths.ends <= ENDS && lengths.corners <= CORNERS);
    let table = &mesh.table;
    let mut rows = unused(lengths);
    let mut work: Vec<u64> = (0..lengths.work as u64).map(|place| SENTINEL + place).collect();

    let mut case = Case::of_kind(NETWORK);
    lend_table(&mut case, mesh);
    lend_polygons(&mut case, mesh);
    case.fraction_row(&mesh.sheets);
    lend_net(&mut case, &rows);
    case.row(&work);
    let answer =
        lengths.room().and_then(|room| network(&table.row, table.head(), &mesh.polygons(), &room));
    if let Ok(net) = &answer {
        rows.put(net);
        work.fill(0);
    }
    let counts =
        |net: Net| [net.nodes.len(), net.edges.len(), net.cells.len()].map(|n| n as u64).to_vec();
    let number = answer.as_ref().err().map_or(0, |why| why.number);
    case.answer("network", answer.map(counts));
    rows.print(&mut case);
    case.print_filled(&work);
    replay.offer(("network", number, 0), case);
}

pub fn unused(lengths: &NetLengths) -> Rows {
    let place = |at: usize| SENTINEL + at as u64;
    Rows {
        nodes: (0..lengths.nodes).map(|at| place(at) as i64).collect(),
        ends: (0..lengths.ends).map(place).collect(),
        conductances: (0..lengths.conductances).map(|at| place(at) as f64).collect(),
        corners: (0..lengths.corners).map(place).collect(),
        sheets: (0..lengths.sheets).map(|at| place(at) as f64).collect(),
    }
}

/// Few numbers, but for one in so many.
fn is_small(numbers: usize, random: &mut Random) -> bool {
    numbers <= SMALL || random.one_in(LARGE_ONE_IN)
}

fn numbers(rows: &Rows) -> usize {
    rows.nodes.len() + rows.ends.len() + rows.corners.len()
}

/// Whether the program has room for the rows.
fn fits(rows: &Rows) -> bool {
    rows.nodes.len() <= NODES
        && rows.ends.len() <= ENDS
        && rows.conductances.len() <= EDGES
        && rows.corners.len() <= CORNERS
        && rows.sheets.len() < CELLS
}

fn lent(kind: u64, rows: &Rows) -> Case {
    let mut case = Case::of_kind(kind);
    lend_net(&mut case, rows);
    case
}

pub fn lend_net(case: &mut Case, rows: &Rows) {
    case.signed_row(&rows.nodes);
    case.row(&rows.ends);
    case.fraction_row(&rows.conductances);
    case.row(&rows.corners);
    case.fraction_row(&rows.sheets);
}

pub fn lend_polygons(case: &mut Case, mesh: &Mesh) {
    case.row(&mesh.layers.iter().map(|&layer| u64::from(layer)).collect::<Vec<_>>());
    case.row(&mesh.components.iter().map(|&number| u64::from(number)).collect::<Vec<_>>());
}

/// Sound, with a damaged net, with bad potentials, in too little room; what was done to it is part
/// of the class.
fn run_power(net: &Net, random: &mut Random, replay: &mut Replay) {
    let mut rows = Rows::of(net);
    let mut potentials = random_potentials(random, net.nodes.len());
    let fault = random.below(4);
    match fault {
        0 => rows.damage(random),
        1 => spoil_potentials(&mut potentials, random),
        _ => {}
    }
    if !fits(&rows) {
        return;
    }
    let cells = rows.sheets.len();
    let room = random.pick(&[cells, cells, cells + 2, cells.saturating_sub(1)]).min(CELLS);
    let mut answers: Vec<f64> = (0..room as u64).map(|place| (SENTINEL + place) as f64).collect();

    let mut case = lent(POWER, &rows);
    case.fraction_row(&potentials);
    case.fraction_row(&answers);
    let answer = rows.net().and_then(|net| cell_power(&net, &potentials, &mut answers));
    case.answer("power", answer.map(|_| Vec::new()));
    case.print_fractions(&answers);
    let (call, number, value) = class("power", &answer, |&cells| cells.min(2));
    replay.offer((call, number, 10 * fault.min(2) + value), case);
}

/// The mesh with its own net, with a changed one, and with a fault of its own.
fn run_mesh(mut mesh: Mesh, random: &mut Random, replay: &mut Replay) {
    let mut net = mesh.net().expect("a sound mesh has a net");
    let mut rows = Rows::of(&net);
    if !is_small(numbers(&rows).max(mesh.table.row.len()), random) {
        return;
    }
    match random.below(8) {
        0 => {}
        1 => damage(&mut mesh.table, random),
        2 => spoil_rows(&mut mesh, random),
        3 => drop_polygons(&mut mesh),
        4 if random.one_in(8) => add_too_many(&mut mesh, random),
        _ if change_softly(&mut net, random) => rows = Rows::of(&net),
        _ => rows.damage(random),
    }
    run_checks(&mesh, &rows, random, replay);
}

/// Both checks. A work room that is long enough and one that isn't are two classes.
fn run_checks(mesh: &Mesh, rows: &Rows, random: &mut Random, replay: &mut Replay) {
    let polygons = mesh.layers.len().max(mesh.components.len());
    if !fits(rows) || mesh.table.row.len() > TABLE || polygons > POLYGONS {
        return;
    }
    let need = work_needed(rows);
    let room = random.pick(&[0, need.saturating_sub(1).min(40), need, need, need + 5]);
    run_by_place(mesh, rows, room, replay);
    run_by_layer(mesh, rows, room, replay);
}

fn work_needed(rows: &Rows) -> usize {
    WORK_A_NODE * (rows.nodes.len() / 4) + WORK_AN_EDGE * (rows.ends.len() / 2)
}

fn run_by_place(mesh: &Mesh, rows: &Rows, room: usize, replay: &mut Replay) {
    let table = &mesh.table;
    let mut case = lent(NETWORK_CONFORMING, rows);
    lend_table(&mut case, mesh);
    let answer =
        rows.net().and_then(|net| check_network_conforming(&table.row, table.head(), &net));
    finish("check_network_conforming", case, answer, room, work_needed(rows), replay);
}

fn run_by_layer(mesh: &Mesh, rows: &Rows, room: usize, replay: &mut Replay) {
    let table = &mesh.table;
    let mut case = lent(BY_LAYER, rows);
    lend_table(&mut case, mesh);
    lend_polygons(&mut case, mesh);
    let r_sheet = vec![1.0; mesh.layers.len()];
    let sheets = Sheets { layer: &mesh.layers, component: &mesh.components, r_sheet: &r_sheet };
    let answer = rows.net().and_then(|net| check_by_layer(&table.row, table.head(), &sheets, &net));
    finish("check_by_layer", case, answer, room, work_needed(rows), replay);
}

pub fn lend_table(case: &mut Case, mesh: &Mesh) {
    case.numbers(head_numbers(mesh.table.head()));
    case.signed_row(&mesh.table.row);
}

/// The work room comes last. After an accepted call it is zero if it was long enough; a shorter one
/// is left alone, as after a refusal.
fn finish(
    call: &'static str,
    mut case: Case,
    answer: Answer<Option<Hanging>>,
    room: usize,
    need: usize,
    replay: &mut Replay,
) {
    let mut work: Vec<u64> = (0..room as u64).map(|place| SENTINEL + place).collect();
    case.row(&work);
    if answer.is_ok() && room >= need {
        work.fill(0);
    }
    let named =
        |found: Hanging| [found.node, found.from, found.to].map(|node| node as u64).to_vec();
    case.answer(call, answer.map(|found| found.map_or(Vec::new(), named)));
    case.print_filled(&work);
    let (call, number, broken) = class(call, &answer, |found| u64::from(found.is_some()));
    replay.offer((call, number, 2 * broken + u64::from(room >= need)), case);
}
