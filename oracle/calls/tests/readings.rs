//! What is easy to miss in docs/RULES.md, shown of the original.

mod common;

use calls::checks::{check_by_layer, check_network_conforming};
use calls::even::{balance, Evening};
use calls::net::{Edge, Net, Node};
use calls::strips::{strips, strips_by_the_words};
use calls::table::{leaf_order, refine, Head, Slot};
use common::{board, mesh, net_of, square, Table};

/// Roots may overlap: a cell is split because of a leaf that its own root never touched.
#[test]
fn overlapping_roots_ask_for_splits_across_roots() {
    let roots = [[0, 0, 16, 32], [0, 0, 16, 16]];
    let mut table = Table::new(3, 40, &roots, &[1, 4, 8]);
    assert_eq!(balance(&mut table.row, table.head).map(|even| even.splits), Ok(0));

    table.split(0);
    let child = (14..18).find(|&id| table.slot(id).rect() == [0, 16, 8, 32]);
    assert_eq!(child, Some(16));
    let Head { count, leaves, max_level } = table.head;
    let head = Head { count: count + 4, leaves: leaves + 3, max_level };
    assert_eq!(balance(&mut table.row, table.head), Ok(Evening { splits: 1, head }));
    assert_eq!(table.slot(16).first, count as i64);
}

/// Roots in any order of polygons, also behind split cells.
#[test]
fn leaf_order_is_a_sort() {
    let mut table = Table::new(1, 10, &[[0, 0, 4, 4]], &[]);
    Slot::root([0, 0, 4, 4], 9).store(&mut table.row, 0);
    table.split(0);
    for (id, polygon) in [(5, 3), (6, 9), (7, 0)] {
        Slot::root([0, 0, 4, 8], polygon).store(&mut table.row, id);
    }
    let mut out = [0; 7];
    let head = Head { count: 8, leaves: 7, max_level: 1 };
    assert_eq!(leaf_order(&table.row, head, &mut out), Ok(7));
    assert_eq!(out, [7, 5, 1, 2, 3, 4, 6]);
}

/// Two squares of one layer and component, one tick apart in height.
fn odd_squares() -> (calls::record::Board, Net) {
    let mut board = board(0, 2);
    board.push_polygon(1, 0, 1.0, &square(0, 0, 2));
    board.push_polygon(1, 0, 1.0, &[[0, 1], [2, 1], [2, 3], [0, 3]]);
    let net = net_of(&board, &mesh(&board, 2));
    (board, net)
}

fn conductance_of(net: &Net, from: usize, to: usize) -> Vec<f64> {
    let edges = net.edges.iter().filter(|edge| edge.ends() == [from, to]);
    edges.map(|edge| edge.conductance).collect()
}

/// A node of layer 1 and component 0.
fn node(x: i64, y: i64) -> Node {
    Node { layer: 1, component: 0, x, y }
}

#[test]
fn extents_are_whole_numbers_of_half_ticks() {
    let (_, net) = odd_squares();
    assert_eq!(net.nodes.len(), 8);
    assert_eq!(net.edges[0], Edge { from: 0, to: 1, conductance: 0.25 });
}

/// Node 4 stands at (0, 1), the middle of the first square's west edge, but comes later.
#[test]
fn a_later_polygons_node_leaves_an_earlier_edge_whole() {
    let (_, net) = odd_squares();
    assert_eq!(net.nodes[4], node(0, 1));
    assert_eq!(conductance_of(&net, 0, 3).len(), 1);
    assert!(conductance_of(&net, 0, 4).is_empty());
}

/// The second square's west edge is cut at node 3; its halves are no cell's side.
#[test]
fn a_half_that_is_no_cells_side_keeps_its_first_conductance() {
    let (_, net) = odd_squares();
    assert_eq!(net.nodes[3], node(0, 2));
    assert_eq!(conductance_of(&net, 4, 3), [1.0 / 0.5]);
    assert_eq!(conductance_of(&net, 3, 7), [1.0 / 0.5]);
}

/// Two polygons that share a side make two edges, both by the first cell's sheet resistance.
#[test]
fn a_pair_shared_by_two_polygons_is_emitted_twice() {
    let mut board = board(0, 4);
    board.push_polygon(1, 0, 1.0, &square(0, 0, 4));
    board.push_polygon(1, 0, 8.0, &square(4, 0, 4));
    let net = net_of(&board, &mesh(&board, 2));
    assert_eq!(conductance_of(&net, 1, 2), [1.0, 1.0]);
}

/// Two nodes at one place have no gap between them. In a column the one with the lower number has
/// its extent up taken away, the other its extent down; in a row likewise. Where no face is left an
/// edge keeps 1/r.
#[test]
fn two_components_at_one_place_take_extents_from_each_other() {
    let mut board = board(0, 2);
    board.push_polygon(1, 0, 1.0, &square(0, 0, 2));
    board.push_polygon(1, 1, 1.0, &square(0, 0, 2));
    let net = net_of(&board, &mesh(&board, 2));
    let ends = [[0, 1], [3, 2], [0, 3], [1, 2], [4, 5], [7, 6], [4, 7], [5, 6]];
    assert!(net.edges.iter().map(Edge::ends).eq(ends));
    let conductances = [1.0, 0.5, 1.0, 0.5, 0.5, 1.0, 0.5, 1.0];
    assert!(net.edges.iter().map(|edge| edge.conductance).eq(conductances));
}

/// The same, with a third square that has the first one's nodes: a pair emitted twice has the first
/// cell's sheet resistance where there is a face, and each edge its own where there is none.
#[test]
fn a_shared_pair_without_a_face_keeps_its_own_resistance() {
    let mut board = board(0, 2);
    board.push_polygon(1, 0, 1.0, &square(0, 0, 2));
    board.push_polygon(1, 0, 8.0, &square(0, 0, 2));
    board.push_polygon(1, 1, 1.0, &square(0, 0, 2));
    let net = net_of(&board, &mesh(&board, 3));
    assert_eq!(conductance_of(&net, 0, 1), [1.0, 0.125]);
    assert_eq!(conductance_of(&net, 3, 2), [0.5, 0.5]);
}

/// The largest component is an ordinary one.
#[test]
fn components_reach_to_32_bits() {
    let mut board = board(0, 4);
    board.push_polygon(65_535, u32::MAX, 1.0, &square(0, 0, 4));
    let net = net_of(&board, &mesh(&board, 1));
    assert_eq!(net.nodes[0], Node { layer: 65_535, component: u32::MAX, x: 0, y: 0 });
}

/// A split square under a whole one of another layer: the net is sound, yet the original names an
/// edge of it.
#[test]
fn the_originals_check_mixes_layers_and_the_by_layer_check_does_not() {
    let mut board = board(1, 4);
    board.push_polygon(1, 0, 1.0, &square(0, 0, 4));
    board.push_polygon(2, 0, 1.0, &square(0, 0, 4));
    board.splits.push(0);
    let table = mesh(&board, 6);
    let net = net_of(&board, &table);
    let (row, head) = (&table.row, table.head);
    let named = check_network_conforming(row, head, &net).expect("sound");
    assert!(named.is_some());
    assert_eq!(check_by_layer(row, head, &board.sheets(), &net), Ok(None));
}

/// A ring whose one band has the given crossings, in pairs of up and down strokes.
fn comb(crossings: &[i64]) -> Vec<[i64; 2]> {
    crossings.chunks(2).flat_map(|c| [[c[0], 0], [c[0], 4], [c[1], 4], [c[1], 0]]).collect()
}

#[test]
fn equal_crossings_are_kept_in_pairs() {
    let cases: [(&[i64], &[[i64; 4]]); 2] =
        [(&[0, 4, 4, 8], &[[0, 0, 4, 4], [4, 0, 8, 4]]), (&[0, 0, 4, 8], &[[4, 0, 8, 4]])];
    for (crossings, expected) in cases {
        let ring = comb(crossings);
        let mut out = [[0; 4]; 2];
        assert_eq!(strips(&ring, &mut out), Ok(expected.len() as u64));
        assert_eq!(&out[..expected.len()], expected);
        assert_eq!(strips_by_the_words(&ring), expected);
    }
}

/// Rings of the most points: one with 1,023 bands, one with 1,024 crossings in one band, and a
/// comb.
#[test]
fn rings_of_1024_points_are_taken() {
    let line: Vec<[i64; 2]> = (0..1_024).map(|n| [5, n]).collect();
    let stroke: Vec<[i64; 2]> = (0..1_024).map(|n| [5, n % 2]).collect();
    assert_eq!(strips(&line, &mut []), Ok(0));
    assert_eq!(strips(&stroke, &mut []), Ok(0));

    let crossings: Vec<i64> = (0..512).collect();
    let mut out = [[0; 4]; 256];
    assert_eq!(comb(&crossings).len(), 1_024);
    assert_eq!(strips(&comb(&crossings), &mut out[..255]), common::refused(6, 0));
    assert_eq!(strips(&comb(&crossings), &mut out), Ok(256));
    assert_eq!((out[0], out[255]), ([0, 0, 1, 4], [510, 0, 511, 4]));
}

/// In order of crossing the ring's strokes interleave; even and odd decide.
#[test]
fn a_ring_that_crosses_itself_goes_by_even_and_odd() {
    let ring = comb(&[0, 8, 4, 12]);
    let mut out = [[0; 4]; 2];
    assert_eq!(strips(&ring, &mut out), Ok(2));
    assert_eq!(out, [[0, 0, 4, 4], [8, 0, 12, 4]]);
}

/// A refine with no room at all still answers 8, 9 and 10 first.
#[test]
fn refine_judges_the_id_before_the_room() {
    let mut table = Table::new(1, 5, &[[0, 0, 4, 4]], &[0]);
    let before = table.row.clone();
    assert_eq!(refine(&mut table.row, table.head, 5), common::refused(8, 5));
    assert_eq!(refine(&mut table.row, table.head, 0), common::refused(9, 0));
    assert_eq!(refine(&mut table.row, table.head, 4), common::refused(10, 4));
    assert_eq!(table.row, before);
}
