//! Changes of a net that mostly leave it sound, so that the checks have something to find.

use crate::nets::damage_net;
use crate::random::Random;
use crate::ring_faults::some_place;
use calls::net::{Edge, Net, Node};

/// One change, sound or not.
pub fn change_net(net: &mut Net, random: &mut Random) {
    if !change_softly(net, random) {
        damage_net(net, random);
    }
}

/// One change that mostly leaves the net sound; three times in sixteen none, and false.
pub fn change_softly(net: &mut Net, random: &mut Random) -> bool {
    match random.below(16) {
        0..=3 => take_out_edges(net, random),
        4..=6 => move_end(net, random),
        7..=9 => append_twins(net, random),
        10 => rename(net, random),
        11 => turn_round(net, random),
        12 => move_a_node(net, random),
        _ => return false,
    }
    true
}

/// One edge, mostly.
fn take_out_edges(net: &mut Net, random: &mut Random) {
    for _ in 0..random.pick(&[1, 1, 1, 3]) {
        if net.edges.is_empty() {
            return;
        }
        net.edges.remove(some_place(random, net.edges.len()));
    }
}

/// One end of an edge becomes another node, or the edge's other end.
fn move_end(net: &mut Net, random: &mut Random) {
    if net.edges.is_empty() || net.nodes.is_empty() {
        return;
    }
    let end = some_place(random, 2 * net.edges.len());
    let Edge { from, to, .. } = &mut net.edges[end / 2];
    let (moved, other) = if end % 2 == 0 { (from, to) } else { (to, from) };
    let any = random.index(net.nodes.len());
    *moved = random.pick(&[any, any, *other, net.nodes.len() - 1]);
}

/// More nodes at places that have one, of the same layer and component or of others.
fn append_twins(net: &mut Net, random: &mut Random) {
    for _ in 0..random.pick(&[1, 1, 2, 5]) {
        if net.nodes.is_empty() {
            return;
        }
        let node = net.nodes[some_place(random, net.nodes.len())];
        net.nodes.push(random.pick(&[
            node,
            node,
            Node { layer: node.layer ^ 1, ..node },
            Node { component: node.component ^ 1, ..node },
        ]));
    }
}

/// One node, or all from one on, move to another layer or component.
fn rename(net: &mut Net, random: &mut Random) {
    if net.nodes.is_empty() {
        return;
    }
    let (first, number) = (some_place(random, net.nodes.len()), random.index(2));
    let last = random.pick(&[first + 1, net.nodes.len()]);
    for node in &mut net.nodes[first..last] {
        match number {
            0 => node.layer ^= 1,
            _ => node.component ^= 1,
        }
    }
}

/// Edges from end to end, all of them in another order, or one of them twice.
fn turn_round(net: &mut Net, random: &mut Random) {
    if net.edges.is_empty() {
        return;
    }
    let turned: Vec<[usize; 2]> = net.edges.iter().map(|edge| [edge.to, edge.from]).collect();
    let put = |edge: &mut Edge, [from, to]: [usize; 2]| *edge = Edge { from, to, ..*edge };
    match random.below(3) {
        0 => net.edges.iter_mut().zip(turned).for_each(|(edge, ends)| put(edge, ends)),
        // Each conductance stays where it is.
        1 => net.edges.iter_mut().rev().zip(turned).for_each(|(edge, ends)| put(edge, ends)),
        _ => {
            let edge = net.edges[some_place(random, net.edges.len())];
            net.edges.push(Edge { conductance: f64::NAN, ..edge });
        }
    }
}

/// Without cells a net stays sound wherever its nodes lie.
fn move_a_node(net: &mut Net, random: &mut Random) {
    net.cells.clear();
    if net.nodes.is_empty() {
        return;
    }
    let (to, from) = (some_place(random, net.nodes.len()), some_place(random, net.nodes.len()));
    let Node { x, y, .. } = net.nodes[from];
    let off = random.pick(&[0, 0, 1, -1]);
    net.nodes[to] = Node { x: x.saturating_add(off), y, ..net.nodes[to] };
}
