//! The worked board of docs/RULES.md, from its 102 bytes to the printed text.

mod common;

use calls::leafnet::leafnet;
use calls::net::{Cell, Edge, Node};
use calls::record::{read_record, write_record};
use common::{mesh, net_of, wide_room, worked_board};

/// Byte for byte by the field list of docs/RULES.md, written out here and not by the writer.
fn record() -> Vec<u8> {
    let mut bytes = vec![1, 0, 0, 0, 97];
    bytes.push(1);
    bytes.extend([1, 0]);
    bytes.extend([0, 0, 0, 0, 0, 0, 0, 4]);
    bytes.extend([0, 0]);
    bytes.extend([0, 1]);
    bytes.extend([0, 1]);
    bytes.extend([0, 0, 0, 0]);
    bytes.extend([0x3f, 0xf0, 0, 0, 0, 0, 0, 0]);
    bytes.extend([0, 4]);
    for number in [0, 0, 4, 0, 4, 4, 0, 4] {
        bytes.extend([0, 0, 0, 0, 0, 0, 0, number]);
    }
    bytes.extend([0, 0]);
    bytes
}

const PRINTED: &str = "\
cells 1 leaves 1 nodes 4 edges 4 splits 0
leaf 0 0 0 0 0 4 4
node 0 1 0 0 0
node 1 1 0 4 0
node 2 1 0 4 4
node 3 1 0 0 4
edge 0 1 3fe0000000000000
edge 3 2 3fe0000000000000
edge 0 3 3fe0000000000000
edge 1 2 3fe0000000000000
";

#[test]
fn the_record_decodes_to_the_board_and_back() {
    assert_eq!(record().len(), 5 + 97);
    assert_eq!(read_record(&record(), &wide_room()), Ok(worked_board()));
    assert_eq!(write_record(&worked_board()), record());
}

#[test]
fn its_table_is_one_root() {
    let table = mesh(&worked_board(), 2);
    let root = [0, 0, 4, 4, 0, 4_294_967_295, 4_294_967_295, 0];
    assert_eq!((table.head.count, &table.row[..8], &table.row[8..]), (1, &root[..], &[0; 8][..]));
}

#[test]
fn its_net_has_the_printed_nodes_edges_and_bits() {
    let board = worked_board();
    let net = net_of(&board, &mesh(&board, 1));
    let node = |[x, y]: [i64; 2]| Node { layer: 1, component: 0, x, y };
    assert_eq!(net.nodes, [[0, 0], [4, 0], [4, 4], [0, 4]].map(node));
    let edge = |[from, to]: [usize; 2]| Edge { from, to, conductance: 0.5 };
    assert_eq!(net.edges, [[0, 1], [3, 2], [0, 3], [1, 2]].map(edge));
    assert_eq!(net.cells, [Cell { corners: [0, 1, 2, 3], r_sheet: 1.0 }]);
}

#[test]
fn leafnet_prints_the_text() {
    assert_eq!(leafnet(&record()), PRINTED);
}
