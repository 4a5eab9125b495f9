//! The two checks: the original's, and the by-layer check against this folder's own reading of
//! docs/RULES.md.

use crate::port::{checks as port, lent, outcome_of};
use crate::report::Report;
use crate::rows::{difference, shown, unused};
use calls::checks::{check_by_layer, check_middles_by_layer, check_network_conforming, Hanging};
use calls::net::Net;
use calls::sheets::Sheets;
use calls::Answer;
use inputs::chains::chain;
use inputs::damage::damage;
use inputs::large_meshes::large_mesh;
use inputs::mesh_faults::{add_too_many, drop_polygons, spoil_rows};
use inputs::meshes::{any_mesh, boundary_meshes, Mesh};
use inputs::net_changes::change_net;
use inputs::stepped_meshes::{ring_mesh, stepped_mesh, RINGS};
use inputs::Random;
use leafmesh::ffi::CheckOutcome;

/// What the port's quick walk asks for: so many numbers a node and an edge.
const WORK_A_NODE: usize = 9;
const WORK_AN_EDGE: usize = 3;
/// More than any walk asks for, a cell of the table and a node or edge of the net.
const PLENTY_A_CELL: usize = 200;
const PLENTY_A_NODE: usize = 64;
const PLENTY_AN_EDGE: usize = 32;
const LARGE_MESHES: usize = 6;
const FAULTY_ONE_IN: u64 = 8;
/// How often a boundary net is changed.
const CHANGES: usize = 300;
/// How often a net of chains is changed besides.
const CHANGED_ONE_IN: u64 = 8;

struct Reports {
    network: Report,
    by_layer: Report,
    /// Accepted calls that left a work room of zeros, and those that left it alone.
    cleared: u64,
    kept: u64,
    /// Answers by layer that aren't those of middles alone, and those that name a node off the middle.
    otherwise: u64,
    off_middle: u64,
}

/// Boundary meshes, `count` random ones, half as many out of step and a few large ones, each with its
/// own net, with a changed net, with one of chains along its sides, and now and then with a net of
/// another table or a fault of its own.
pub fn compare(count: u64, seed: u64) -> bool {
    let mut random = Random::new(seed);
    let mut reports = Reports {
        network: Report::new("check_network_conforming"),
        by_layer: Report::new("check_by_layer"),
        cleared: 0,
        kept: 0,
        otherwise: 0,
        off_middle: 0,
    };
    let rings = RINGS.map(|(target, ring)| ring_mesh(target, ring));
    for mesh in boundary_meshes().into_iter().chain(rings) {
        let net = net_of(&mesh);
        reports.run_in_rooms(&mesh, &net);
        (0..CHANGES).for_each(|_| reports.run_changed(&mesh, &net, &mut random));
        (0..CHANGES).for_each(|_| reports.run_chained(&mesh, &net, &mut random));
    }
    for turn in 0..count {
        reports.run_mesh(any_mesh(&mut random), &mut random);
        if turn % 2 == 0 {
            reports.run_mesh(stepped_mesh(&mut random), &mut random);
        }
    }
    for turn in 0..LARGE_MESHES {
        let mesh = large_mesh(&mut random, turn);
        reports.run_large(&mesh, &mut random);
    }
    reports.print()
}

fn net_of(mesh: &Mesh) -> Net {
    mesh.net().expect("a sound mesh has a net")
}

/// None, one short of what the port asks for, exactly that, a few more, plenty.
fn rooms(mesh: &Mesh, net: &Net) -> [usize; 5] {
    let need = WORK_A_NODE * net.nodes.len() + WORK_AN_EDGE * net.edges.len();
    [0, need.saturating_sub(1), need, need + 5, plenty(mesh, net)]
}

fn plenty(mesh: &Mesh, net: &Net) -> usize {
    PLENTY_A_CELL * mesh.table.slots()
        + PLENTY_A_NODE * net.nodes.len()
        + PLENTY_AN_EDGE * net.edges.len()
}

/// The answer by layer, and that of middles alone. Polygons are as the check is lent them: it takes
/// no sheet resistances.
fn by_layer(mesh: &Mesh, net: &Net) -> [Answer<Option<Hanging>>; 2] {
    let table = &mesh.table;
    let r_sheet = vec![1.0; mesh.layers.len()];
    let sheets = Sheets { layer: &mesh.layers, component: &mesh.components, r_sheet: &r_sheet };
    [check_by_layer, check_middles_by_layer]
        .map(|check| check(&table.row, table.head(), &sheets, net))
}

/// Whether the node isn't halfway between the ends.
fn is_off_middle(net: &Net, found: Hanging) -> bool {
    let [node, from, to] = [found.node, found.from, found.to].map(|node| net.nodes[node].place());
    (0..2).any(|axis| 2 * node[axis] != from[axis] + to[axis])
}

fn expected_outcome(answer: Answer<Option<Hanging>>) -> CheckOutcome {
    let none = CheckOutcome::default();
    match answer {
        Ok(Some(Hanging { node, from, to })) => {
            let [node, from, to] = [node, from, to].map(|node| node as u64);
            CheckOutcome { broken: 1, node, from, to, ..none }
        }
        Ok(None) => none,
        Err(refusal) => CheckOutcome { number: refusal.number, place: refusal.place, ..none },
    }
}

/// A work room before and after a call.
struct Work {
    before: Vec<u64>,
    after: Vec<u64>,
}

impl Work {
    fn of_length(room: usize) -> Self {
        let before = unused(room, |number| number);
        Work { after: before.clone(), before }
    }

    fn is_zero(&self) -> bool {
        self.after.iter().all(|&number| number == 0)
    }

    fn is_kept(&self) -> bool {
        self.after == self.before
    }

    /// As it was after a refused call. After an accepted one zero, or as it was if it wasn't plenty.
    fn is_right(&self, accepted: bool, plenty: usize) -> bool {
        match accepted {
            true => self.is_zero() || self.is_kept() && self.after.len() < plenty,
            false => self.is_kept(),
        }
    }
}

impl Reports {
    /// The mesh with its own net, with a changed one, with chains, and with a net or polygons that
    /// don't fit it.
    fn run_mesh(&mut self, mesh: Mesh, random: &mut Random) {
        let net = net_of(&mesh);
        let room = random.pick(&rooms(&mesh, &net));
        self.run(&mesh, &net, room);
        self.run_changed(&mesh, &net, random);
        self.run_chained(&mesh, &net, random);
        if random.one_in(FAULTY_ONE_IN) {
            self.run_faulty(mesh, net, random);
        }
    }

    fn run_in_rooms(&mut self, mesh: &Mesh, net: &Net) {
        rooms(mesh, net).into_iter().for_each(|room| self.run(mesh, net, room));
    }

    /// In enough room, since the walk without it is slow.
    fn run_large(&mut self, mesh: &Mesh, random: &mut Random) {
        let mut net = net_of(mesh);
        self.run(mesh, &net, plenty(mesh, &net));
        change_net(&mut net, random);
        self.run(mesh, &net, plenty(mesh, &net));
    }

    /// One change of the net, now and then two; one table in four is split further or balanced, so
    /// that the net is another table's.
    fn run_changed(&mut self, mesh: &Mesh, net: &Net, random: &mut Random) {
        let (mut mesh, mut net) = (mesh.clone(), net.clone());
        if random.one_in(4) {
            split_on(&mut mesh, random);
        }
        for _ in 0..random.pick(&[1, 1, 2]) {
            change_net(&mut net, random);
        }
        let room = random.pick(&rooms(&mesh, &net));
        self.run(&mesh, &net, room);
    }

    /// Chains along the sides, now and then with a change of any kind.
    fn run_chained(&mut self, mesh: &Mesh, net: &Net, random: &mut Random) {
        let mut net = net.clone();
        chain(&mut net, mesh, random);
        if random.one_in(CHANGED_ONE_IN) {
            change_net(&mut net, random);
        }
        let room = random.pick(&rooms(mesh, &net));
        self.run(mesh, &net, room);
    }

    /// A damaged table, polygon rows of unequal length, too few or too many of them.
    fn run_faulty(&mut self, mut mesh: Mesh, mut net: Net, random: &mut Random) {
        match random.below(4) {
            0 => damage(&mut mesh.table, random),
            1 => spoil_rows(&mut mesh, random),
            2 => drop_polygons(&mut mesh),
            _ => add_too_many(&mut mesh, random),
        }
        if random.one_in(4) {
            change_net(&mut net, random);
        }
        let room = random.pick(&rooms(&mesh, &net));
        self.run(&mesh, &net, room);
    }

    /// Both checks in a work room of this length.
    fn run(&mut self, mesh: &Mesh, net: &Net, room: usize) {
        let (table, lent) = (&mesh.table, lent(net));
        let mut work = Work::of_length(room);
        let answer = check_network_conforming(&table.row, table.head(), net);
        let got = port::check_network_conforming(table, lent.rows(), &mut work.after);
        self.count_work(answer.is_ok(), &work);
        judge(&mut self.network, (mesh, net), answer, got, &work);

        let mut work = Work::of_length(room);
        let [answer, middles] = by_layer(mesh, net);
        self.count_finds(net, answer, middles);
        let (layers, components) = (&mesh.layers, &mesh.components);
        let got = port::check_by_layer(table, lent.rows(), layers, components, &mut work.after);
        self.count_work(answer.is_ok(), &work);
        judge(&mut self.by_layer, (mesh, net), answer, got, &work);
    }

    fn count_work(&mut self, accepted: bool, work: &Work) {
        if accepted && !work.after.is_empty() {
            self.cleared += u64::from(work.is_zero());
            self.kept += u64::from(work.is_kept());
        }
    }

    fn count_finds(
        &mut self,
        net: &Net,
        answer: Answer<Option<Hanging>>,
        middles: Answer<Option<Hanging>>,
    ) {
        self.otherwise += u64::from(answer != middles);
        let off = matches!(answer, Ok(Some(found)) if is_off_middle(net, found));
        self.off_middle += u64::from(off);
    }

    /// Says what was run; true if nothing differed.
    fn print(&self) -> bool {
        println!(
            "checks: by layer {} answers aren't those of middles alone, {} name a node off the middle",
            self.otherwise, self.off_middle
        );
        println!(
            "checks: work rooms of accepted calls: {} cleared, {} kept",
            self.cleared, self.kept
        );
        let network = self.network.print();
        self.by_layer.print() && network
    }
}

fn judge(
    report: &mut Report,
    (mesh, net): (&Mesh, &Net),
    answer: Answer<Option<Hanging>>,
    got: CheckOutcome,
    work: &Work,
) {
    let expected = expected_outcome(answer);
    let work_is_right = work.is_right(answer.is_ok(), plenty(mesh, net));
    let outcome = outcome_of(answer.map(|found| u64::from(found.is_some())));
    report.ran(outcome, got == expected && work_is_right, || {
        let about = match work_is_right {
            true => String::new(),
            false => difference("before the call work number", &work.before, &work.after),
        };
        let (words, room) = (input_words(mesh, net), work.after.len());
        let words = format!("{words}, room {room}; {about}original {expected:?}, port {got:?}");
        ((mesh.table.row.len() + net.nodes.len() + net.edges.len()) as u128, words)
    });
}

/// A few more splits, or balance.
fn split_on(mesh: &mut Mesh, random: &mut Random) {
    if random.one_in(3) {
        return mesh.balance_within(2 * mesh.table.count);
    }
    mesh.table.set_slots(mesh.table.count);
    for _ in 0..1 + random.index(3) {
        if let Some(id) = mesh.table.leaf_to_split(random) {
            mesh.table.split(id);
        }
    }
}

fn input_words(mesh: &Mesh, net: &Net) -> String {
    format!(
        "max_level {}, count {}, leaves {}, table {}, layers {}, components {}, nodes {}, edges {}, cells {}",
        mesh.table.max_level,
        mesh.table.count,
        mesh.table.leaves,
        shown(&mesh.table.row),
        shown(&mesh.layers),
        shown(&mesh.components),
        shown(&net.nodes),
        shown(&net.edges),
        shown(&net.cells)
    )
}
