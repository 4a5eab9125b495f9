//! Nodes between the ends of leaves' sides, and the edges that join them along the sides.

use crate::meshes::Mesh;
use crate::random::Random;
use calls::net::{Edge, Net, Node};
use calls::table::Slot;
use std::collections::BTreeMap;

/// A leaf's side: its two ends, anticlockwise, with its polygon's layer and component.
type Side = [Node; 2];

/// Puts nodes between the ends of some sides, joins the nodes along all of them or not, and then
/// takes edges out, turns them round or adds some. A net keeps its cells, and stays sound.
pub fn chain(net: &mut Net, mesh: &Mesh, random: &mut Random) {
    let sides = sides_of(mesh);
    if sides.is_empty() {
        return;
    }
    for _ in 0..random.below(4) {
        put_between(net, random.pick(&sides), random);
    }
    if !random.one_in(5) {
        sides.iter().for_each(|&side| join(net, side));
    }
    for _ in 0..random.pick(&[0, 1, 1, 2, 3]) {
        change(net, &sides, random);
    }
}

fn sides_of(mesh: &Mesh) -> Vec<Side> {
    let leaves = (0..mesh.table.count).map(|id| mesh.table.slot(id)).filter(Slot::is_leaf);
    let all = leaves.flat_map(|leaf| {
        let [x0, y0, x1, y1] = leaf.rect();
        let layer = mesh.layers[leaf.polygon as usize];
        let component = mesh.components[leaf.polygon as usize];
        let node = |[x, y]: [i64; 2]| Node { layer, component, x, y };
        let corners = [[x0, y0], [x1, y0], [x1, y1], [x0, y1]].map(node);
        [0, 1, 2, 3].map(|side| [corners[side], corners[(side + 1) % 4]])
    });
    all.collect()
}

fn length([from, to]: Side) -> i64 {
    (from.x - to.x).abs() + (from.y - to.y).abs()
}

/// So many ticks along a side.
fn at([from, to]: Side, ticks: i64) -> Node {
    let step = |from: i64, to: i64| from + (to - from).signum() * ticks;
    Node { x: step(from.x, to.x), y: step(from.y, to.y), ..from }
}

/// The last node at each place of a side, its ends included, from its beginning on.
fn points(net: &Net, side: Side) -> Vec<usize> {
    let [from, to] = side;
    let mut found = BTreeMap::new();
    for (number, &node) in net.nodes.iter().enumerate() {
        let ticks = (node.x - from.x).abs() + (node.y - from.y).abs();
        if ticks <= length([from, to]) && node == at(side, ticks) {
            found.insert(ticks, number);
        }
    }
    found.into_values().collect()
}

fn joined(net: &Net, a: usize, b: usize) -> bool {
    net.edges.iter().any(|edge| edge.ends() == [a, b] || edge.ends() == [b, a])
}

fn push(net: &mut Net, from: usize, to: usize) {
    net.edges.push(Edge { from, to, conductance: 1.0 });
}

/// Joins the neighbours among the points of a side that are not joined yet.
fn join(net: &mut Net, side: Side) {
    for pair in points(net, side).windows(2) {
        if !joined(net, pair[0], pair[1]) {
            push(net, pair[0], pair[1]);
        }
    }
}

/// One node or a few, at the middle, at thirds or quarters, beside an end, or anywhere.
fn put_between(net: &mut Net, side: Side, random: &mut Random) {
    let long = length(side);
    for _ in 0..random.pick(&[1, 1, 2, 3, 6]) {
        let any = random.within(1, (long - 1).max(1));
        let ticks = random.pick(&[long / 2, long / 3, 2 * long / 3, long / 4, 1, long - 1, any]);
        if 0 < ticks && ticks < long {
            net.nodes.push(at(side, ticks));
        }
    }
}

/// One change, of a side that has nodes between its ends wherever some side has.
fn change(net: &mut Net, sides: &[Side], random: &mut Random) {
    let mut side = random.pick(sides);
    let mut on_it = points(net, side);
    for _ in 0..8 {
        if on_it.len() > 2 {
            break;
        }
        side = random.pick(sides);
        on_it = points(net, side);
    }
    if on_it.len() < 2 {
        return;
    }
    let last = on_it.len() - 1;
    let pair = random.index(last);
    match random.below(9) {
        0..=2 => part(net, on_it[pair], on_it[pair + 1]),
        3 => turn(net, on_it[pair], on_it[pair + 1]),
        4 => push(net, on_it[0], on_it[last]),
        5 => leap(net, &on_it, random),
        6 => push_again(net, on_it[random.index(last + 1)], random),
        7 => put_strangers(net, side, random),
        _ => put_between(net, side, random),
    }
}

/// Takes out all edges between two nodes.
fn part(net: &mut Net, a: usize, b: usize) {
    net.edges.retain(|edge| edge.ends() != [a, b] && edge.ends() != [b, a]);
}

/// Turns all edges between two nodes round, and the rest of the edges stays.
fn turn(net: &mut Net, a: usize, b: usize) {
    for edge in &mut net.edges {
        if edge.ends() == [a, b] || edge.ends() == [b, a] {
            (edge.from, edge.to) = (edge.to, edge.from);
        }
    }
}

/// Edges from the ends to a node between, whatever stands on the way, in place of its own.
fn leap(net: &mut Net, on_it: &[usize], random: &mut Random) {
    let (first, last) = (on_it[0], on_it[on_it.len() - 1]);
    let node = random.pick(on_it);
    on_it.windows(2).for_each(|pair| part(net, pair[0], pair[1]));
    push(net, first, node);
    push(net, node, last);
}

/// The same node once more, joined to one neighbour of the first, to all of them, or to none.
fn push_again(net: &mut Net, node: usize, random: &mut Random) {
    let again = net.nodes.len();
    net.nodes.push(net.nodes[node]);
    let beside = net.edges.iter().filter(|edge| edge.ends().contains(&node));
    let beside: Vec<usize> =
        beside.map(|edge| if edge.from == node { edge.to } else { edge.from }).collect();
    let most = random.pick(&[0, 1, beside.len(), beside.len()]);
    beside.into_iter().take(most).for_each(|other| push(net, again, other));
}

/// Nodes of another layer or component between the ends.
fn put_strangers(net: &mut Net, side: Side, random: &mut Random) {
    let before = net.nodes.len();
    put_between(net, side, random);
    let other_layer = random.one_in(2);
    for node in &mut net.nodes[before..] {
        if other_layer {
            node.layer ^= 1;
        } else {
            node.component ^= 1;
        }
    }
}
