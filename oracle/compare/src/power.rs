//! The power of a net's cells.

use crate::port::{lent, outcome_of, power as port};
use crate::report::Report;
use crate::rows::{bits, difference, shown, unused};
use calls::limits::{COORDINATE, POTENTIAL};
use calls::net::{Cell, Edge, Net, Node};
use calls::power::cell_power;
use inputs::nets::{damage_net, every_damage, random_net, random_potentials, spoil_potentials};
use inputs::Random;

/// Boundary nets with every number damaged, then `count` random nets: each as it is, with potentials
/// of two kinds and in two rooms, and damaged.
pub fn compare(count: u64, seed: u64) -> bool {
    let mut random = Random::new(seed);
    let mut report = Report::new("power");
    for net in boundary_nets() {
        run_sound(&net, &mut random, &mut report);
        for damaged in every_damage(&net) {
            let potentials = random_potentials(&mut random, damaged.nodes.len());
            run(&damaged, &potentials, damaged.cells.len(), &mut report);
        }
    }
    run_corners(&mut report);
    for _ in 0..count {
        let net = random_net(&mut random);
        run_sound(&net, &mut random, &mut report);
        run_spoiled(net, &mut random, &mut report);
    }
    report.print()
}

/// P8's cell, two cells side by side, the widest cell with the smallest in it, no cell, nothing.
fn boundary_nets() -> Vec<Net> {
    let far = COORDINATE;
    let p8 = net_of(&[[0, 0, 4, 4]]);
    let mut pair = net_of(&[[0, 0, 4, 4]]);
    pair.nodes.extend([node(8, 0), node(8, 4)]);
    pair.cells.push(Cell { corners: [1, 4, 5, 2], r_sheet: 3.0 });
    let no_cell = Net { cells: Vec::new(), ..p8.clone() };
    let wide = net_of(&[[-far, -far, far, far], [0, 0, 1, 1], [far - 1, -far, far, far]]);
    vec![p8, pair, wide, no_cell, Net::default()]
}

/// Of layer 1 and component 0.
fn node(x: i64, y: i64) -> Node {
    Node { layer: 1, component: 0, x, y }
}

/// Each cell with nodes and two edges of its own.
fn net_of(cells: &[[i64; 4]]) -> Net {
    let mut net = Net::default();
    for &[x0, y0, x1, y1] in cells {
        let corners = [0, 1, 2, 3].map(|corner| net.nodes.len() + corner);
        let [sw, se, ne, nw] = corners;
        net.nodes.extend([node(x0, y0), node(x1, y0), node(x1, y1), node(x0, y1)]);
        net.edges.push(Edge { from: sw, to: se, conductance: 0.5 });
        net.edges.push(Edge { from: nw, to: ne, conductance: 0.5 });
        net.cells.push(Cell { corners, r_sheet: 1.0 });
    }
    net
}

/// All ways to put a few potentials at the corners of P8's cell, and one out of range.
fn run_corners(report: &mut Report) {
    let net = net_of(&[[0, 0, 4, 4]]);
    let past = f64::from_bits(POTENTIAL.to_bits() + 1);
    let volts = [0.0, -0.0, 1.0, POTENTIAL, -POTENTIAL, 5e-324, 1.5e-154, past, f64::NAN];
    let count = volts.len();
    for n in 0..count.pow(4) {
        let choice = [n, n / count, n / count.pow(2), n / count.pow(3)];
        let potentials = choice.map(|n| volts[n % count]);
        run(&net, &potentials, 1, report);
    }
}

/// With potentials of two kinds, in rows for exactly its cells and in others.
fn run_sound(net: &Net, random: &mut Random, report: &mut Report) {
    let (nodes, cells) = (net.nodes.len(), net.cells.len());
    for room in [cells, random.pick(&[cells + 2, cells, cells.saturating_sub(1), 0])] {
        let potentials = random_potentials(random, nodes);
        run(net, &potentials, room, report);
    }
}

/// Damage to the net, the potentials or both; the room may be short besides.
fn run_spoiled(mut net: Net, random: &mut Random, report: &mut Report) {
    let mut potentials = random_potentials(random, net.nodes.len());
    let what = random.below(8);
    if what < 6 {
        damage_net(&mut net, random);
    }
    if what >= 5 {
        spoil_potentials(&mut potentials, random);
    }
    let cells = net.cells.len();
    let room = random.pick(&[cells, cells, cells + 1, cells.saturating_sub(1)]);
    run(&net, &potentials, room, report);
}

/// The port answers no number of its own; what is counted as a value is whether there are cells.
fn run(net: &Net, potentials: &[f64], room: usize, report: &mut Report) {
    let mut answers = unused(room, |number| number as f64);
    let mut port_answers = answers.clone();
    let answer = cell_power(net, potentials, &mut answers);
    let expected = outcome_of(answer.map(|_| 0));
    let got = port::power(lent(net).rows(), potentials, &mut port_answers);
    let (row, port_row) = (bits(&answers), bits(&port_answers));
    report.ran(outcome_of(answer), got == expected && port_row == row, || {
        let differ = difference("answer's bits", &row, &port_row);
        let words = format!(
            "{}, potentials {}, room {room}; {differ}original {expected:?}, port {got:?}",
            net_words(net),
            shown(potentials)
        );
        ((net.nodes.len() + potentials.len() + room) as u128, words)
    });
}

fn net_words(net: &Net) -> String {
    format!("nodes {}, edges {}, cells {}", shown(&net.nodes), shown(&net.edges), shown(&net.cells))
}
