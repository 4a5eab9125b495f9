//! The by-layer check on rings out of step and on sides with chains of nodes, by hand.

use calls::checks::{check_by_layer, check_middles_by_layer, Hanging};
use calls::net::{Edge, Net, Node};
use inputs::chains::chain;
use inputs::meshes::Mesh;
use inputs::stepped_meshes::{ring_mesh, stepped_mesh, RINGS};
use inputs::Random;

fn net_of(mesh: &Mesh) -> Net {
    mesh.net().expect("a sound mesh has a net")
}

fn checked(mesh: &Mesh, net: &Net) -> Option<Hanging> {
    let table = &mesh.table;
    check_by_layer(&table.row, table.head(), &mesh.polygons(), net).expect("sound")
}

fn middles(mesh: &Mesh, net: &Net) -> Option<Hanging> {
    let table = &mesh.table;
    check_middles_by_layer(&table.row, table.head(), &mesh.polygons(), net).expect("sound")
}

fn named(node: usize, from: usize, to: usize) -> Option<Hanging> {
    Some(Hanging { node, from, to })
}

/// Of docs/RULES.md, "The checks". No node stands at a middle.
#[test]
fn the_three_rings_are_answered_as_the_rules_say() {
    let meshes = RINGS.map(|(target, ring)| ring_mesh(target, ring));
    let answers = meshes.each_ref().map(|mesh| checked(mesh, &net_of(mesh)));
    assert_eq!(answers, [named(4, 2, 3), None, named(5, 2, 3)]);
    assert!(meshes.iter().all(|mesh| middles(mesh, &net_of(mesh)).is_none()));
    let place = |mesh: usize, node: usize| net_of(&meshes[mesh]).nodes[node].place();
    assert_eq!([4, 2, 3].map(|node| place(0, node)), [[4, 2], [6, 2], [0, 2]]);
    assert_eq!([5, 2, 3].map(|node| place(2, node)), [[8, 2], [12, 2], [0, 2]]);
}

/// A square of 12 ticks, whose south side is the first that is looked at, with more nodes on it: of
/// its corners 0 to 3 the ends are 0 and 1.
fn with_nodes(between: &[Node], edges: &[[usize; 2]]) -> Option<Hanging> {
    let mesh = ring_mesh(12, &[[0, 0], [12, 0], [12, 12], [0, 12]]);
    let mut net = net_of(&mesh);
    net.nodes.extend(between);
    net.edges.clear();
    net.edges.extend(edges.iter().map(|&[from, to]| Edge { from, to, conductance: 1.0 }));
    checked(&mesh, &net)
}

fn at(x: i64) -> Node {
    Node { layer: 1, component: 0, x, y: 0 }
}

#[test]
fn every_node_between_needs_an_edge_both_ways_along_the_side() {
    let nodes = [at(8), at(4)];
    assert_eq!(with_nodes(&nodes, &[[0, 5], [5, 4], [4, 1]]), None);
    assert_eq!(with_nodes(&nodes, &[[5, 0], [4, 5], [1, 4]]), None);
    for (edges, node) in [
        ([[5, 4], [4, 1]], 5),
        ([[0, 5], [4, 1]], 5),
        ([[0, 5], [5, 4]], 4),
        // Halves and whole edges that leap over a node don't help.
        ([[0, 1], [4, 1]], 5),
        ([[0, 4], [4, 1]], 5),
    ] {
        assert_eq!(with_nodes(&nodes, &edges), named(node, 0, 1), "{edges:?}");
    }
}

#[test]
fn a_half_past_another_node_is_no_edge_of_the_chain() {
    assert_eq!(with_nodes(&[at(6)], &[[0, 4], [4, 1]]), None);
    assert_eq!(with_nodes(&[at(6), at(3)], &[[0, 4], [4, 1]]), named(5, 0, 1));
    assert_eq!(with_nodes(&[at(6), at(3)], &[[0, 1], [0, 5], [5, 4], [4, 1]]), None);
}

#[test]
fn the_last_node_of_a_place_counts_and_others_copper_does_not() {
    assert_eq!(with_nodes(&[at(4), at(4)], &[[0, 5], [5, 1]]), None);
    assert_eq!(with_nodes(&[at(4), at(4)], &[[0, 4], [4, 1]]), named(5, 0, 1));
    assert_eq!(
        with_nodes(&[Node { layer: 2, ..at(4) }, Node { component: 1, ..at(8) }], &[]),
        None
    );
    assert_eq!(with_nodes(&[Node { y: 1, ..at(4) }, at(13), at(-1)], &[]), None);
}

/// Of nets out of step and of chains a good part differs from what middles alone say, and a good part
/// is passed.
#[test]
fn chains_tell_the_rule_from_middles_alone() {
    const NETS: usize = 3_000;
    let mut random = Random::new(45);
    let (mut otherwise, mut passed, mut own) = (0, 0, 0);
    for _ in 0..NETS {
        let mesh = stepped_mesh(&mut random);
        let mut net = net_of(&mesh);
        own += usize::from(checked(&mesh, &net) != middles(&mesh, &net));
        chain(&mut net, &mesh, &mut random);
        otherwise += usize::from(checked(&mesh, &net) != middles(&mesh, &net));
        passed += usize::from(checked(&mesh, &net).is_none() && middles(&mesh, &net).is_some());
    }
    assert!(
        otherwise > NETS / 5 && own > NETS / 5 && passed > NETS / 50,
        "{otherwise} {own} {passed}"
    );
}
