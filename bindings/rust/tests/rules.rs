//! The examples of docs/RULES.md, run.

use leafmesh::*;

fn refused(number: u64, place: usize) -> (u64, usize) {
    (number, place)
}

fn number_of(refusal: Refusal) -> (u64, usize) {
    (refusal.reason.number(), refusal.place)
}

/// One square of 4 by 4 ticks.
fn worked_record() -> Vec<u8> {
    let board = text::parse("level 1\ncap 256\ntarget 4\npolygon 1 0 1\n0 0\n4 0\n4 4\n0 4\n");
    let board = board.expect("a board");
    let mut record = vec![0; record_length(&board)];
    write(&board, &mut record).expect("room");
    record
}

#[test]
fn records() {
    let worked = worked_record();
    assert_eq!(worked.len(), 102);
    let mut shorter = worked[..101].to_vec();
    let of = |bytes: &[u8]| number_of(read(bytes).expect_err("a refusal"));
    assert_eq!(of(&shorter), refused(2, 1));
    shorter[4] = 0x60;
    assert_eq!(of(&shorter), refused(2, 100));
    let mut no_target = worked.clone();
    no_target[15] = 0;
    assert_eq!(of(&no_target), refused(3, 8));
    assert_eq!(of(&worked[..4]), refused(2, 1));
    assert_eq!(of(&[]), refused(2, 0));
    assert_eq!(of(&[2]), refused(1, 0));
    // Two entries of layer 3.
    let mut entries = worked[..16].to_vec();
    entries.extend([
        0, 2, 0, 3, 0, 0, 0, 0, 0, 0, 0, 8, 0, 3, 0, 0, 0, 0, 0, 0, 0, 8,
    ]);
    entries.extend([0, 0, 0, 0]);
    entries[4] = entries.len() as u8 - 5;
    assert_eq!(of(&entries), refused(3, 28));
}

fn strips_of(ring: &[Point]) -> Vec<Rect> {
    let mut out = [[0; 4]; 16];
    let count = strips(ring, &mut out).expect("a ring");
    out[..count].to_vec()
}

#[test]
fn rings() {
    let bracket = [
        [0, 0],
        [12, 0],
        [12, 4],
        [4, 4],
        [4, 8],
        [12, 8],
        [12, 12],
        [0, 12],
    ];
    assert_eq!(
        strips_of(&bracket),
        [[0, 0, 12, 4], [0, 4, 4, 8], [0, 8, 12, 12]]
    );
    // Crossings 0, 4, 4, 8, and 0, 0, 4, 8.
    let touching = [[0, 0], [4, 0], [4, 4], [4, 0], [8, 0], [8, 4], [0, 4]];
    assert_eq!(strips_of(&touching), [[0, 0, 4, 4], [4, 0, 8, 4]]);
    let folded = [
        [4, 0],
        [8, 0],
        [8, 4],
        [4, 4],
        [4, 0],
        [0, 0],
        [0, 4],
        [0, 0],
    ];
    assert_eq!(strips_of(&folded), [[4, 0, 8, 4]]);
    let crossing = [
        [0, 0],
        [8, 0],
        [8, 8],
        [4, 8],
        [4, 4],
        [12, 4],
        [12, 12],
        [0, 12],
    ];
    let between: Vec<Rect> = strips_of(&crossing)
        .into_iter()
        .filter(|strip| strip[1] == 4)
        .collect();
    assert_eq!(between, [[0, 4, 4, 8], [8, 4, 12, 8]]);
    assert_eq!(
        number_of(strips(&[[0, 0], [1, 1]], &mut []).expect_err("slanted")),
        refused(4, 0)
    );
}

/// How many base cells a strip of this width has in one row of a board of level 0, or the refusal.
fn across(wide: i64, target: u64, cap: u64) -> Result<usize, (u64, usize)> {
    let outlines = Outlines {
        layers: &[1],
        components: &[0],
        sheets: &[1.0],
        counts: &[4],
        points: &[[0, 0], [wide, 0], [wide, 2], [0, 2]],
    };
    let settings = Settings {
        max_level: 0,
        cap,
        target,
    };
    let mut row = [0; 8 * SLOT];
    let table = Table::build(settings, &[], outlines, &mut row).map_err(number_of)?;
    Ok(table.head().count)
}

#[test]
fn base_cells() {
    assert_eq!(across(24, 10, 256), Ok(3));
    assert_eq!(across(24, 10, 2), Ok(2));
    assert_eq!(across(20, 10, 256), Ok(2));
    assert_eq!(across(20, 9, 256), Err(refused(5, 0)));
}

#[test]
fn contacts() {
    let cell = [0, 0, 4, 4];
    let border = |side, length| Some(Border { side, length });
    for (other, shared) in [
        ([4, 2, 8, 6], border(Side::East, 2)),
        ([1, 4, 2, 5], border(Side::North, 1)),
        ([-2, -4, 9, 0], border(Side::South, 4)),
        ([4, 4, 8, 8], None),
        ([4, 3, 8, 8], border(Side::East, 1)),
        ([5, 0, 8, 4], None),
        ([2, 2, 6, 6], None),
        ([0, 0, 4, 4], None),
    ] {
        assert_eq!(contact(cell, other), Ok(shared), "{other:?}");
        let turned = shared.and_then(|one| border(one.side.opposite(), one.length));
        assert_eq!(contact(other, cell), Ok(turned), "{other:?}");
    }
    assert_eq!(contact([4, 2, 8, 6], cell), Ok(border(Side::West, 2)));
}

/// A table of these roots, split and balanced: the splits that balance made, and the table.
fn balanced(roots: &[Rect], splits: &[usize]) -> (usize, Vec<i64>, Head) {
    let mut row = vec![0; 64 * SLOT];
    for (slot, root) in row.chunks_exact_mut(SLOT).zip(roots) {
        slot[..4].copy_from_slice(root);
        slot[columns::PARENT] = NO_CELL;
        slot[columns::FIRST_CHILD] = NO_CELL;
    }
    let head = Head {
        count: roots.len(),
        leaves: roots.len(),
        max_level: 3,
    };
    let mut table = Table::of(&mut row, head).expect("roots");
    for &id in splits {
        table.refine(id).expect("a leaf");
    }
    let made = table.balance().expect("room");
    let head = table.head();
    (made, row, head)
}

#[test]
fn balance_in_a_row_and_over_one_another() {
    let row = [[0, 0, 16, 16], [16, 0, 32, 16], [32, 0, 48, 16]];
    let (made, table, head) = balanced(&row, &[0, 4, 8]);
    assert_eq!((made, head.count, head.leaves), (2, 23, 18));
    let first_child = |id: usize| table[SLOT * id + columns::FIRST_CHILD];
    assert_eq!(
        [first_child(1), first_child(15), first_child(2)],
        [15, 19, NO_CELL]
    );

    let over = [[0, 0, 16, 32], [0, 0, 16, 16]];
    assert_eq!(balanced(&over, &[1, 4, 8]).0, 0);
    let (made, table, _) = balanced(&over, &[1, 4, 8, 0]);
    assert_eq!(made, 1);
    assert_eq!(table[SLOT * 16..][..4], [0, 16, 8, 32]);
    assert_ne!(table[SLOT * 16 + columns::FIRST_CHILD], NO_CELL);
}

/// The mesh of a board's text, and its net.
fn meshed(text: &str) -> (Mesh, Net) {
    let board = text::parse(text).expect("a board");
    let mesh = Mesh::unjudged(&board).expect("a mesh");
    let net = mesh.unjudged_net().expect("a net");
    (mesh, net)
}

/// The two nodes of an edge, and its conductance.
fn parts(edge: &Edge) -> ([usize; 2], f64) {
    ([edge.from, edge.to], edge.conductance)
}

#[test]
fn a_split_square_and_its_weights() {
    let (mesh, net) = meshed("level 1\ntarget 8\npolygon 1 0 1\n0 0\n8 0\n8 16\n0 16\nsplit 0\n");
    assert_eq!(mesh.order(), [1, 2, 3, 4, 5]);
    let places: Vec<[i64; 2]> = net.nodes.iter().map(|node| [node.x, node.y]).collect();
    let expected = [
        [0, 8],
        [8, 8],
        [8, 16],
        [0, 16],
        [0, 0],
        [4, 0],
        [4, 4],
        [0, 4],
        [8, 0],
        [8, 4],
        [4, 8],
    ];
    assert_eq!(places, expected);
    let edges: Vec<_> = net.edges.iter().map(parts).collect();
    assert_eq!(edges.len(), 15);
    assert_eq!(edges[0], ([0, 10], 1.5));
    assert_eq!(edges[1].0, [10, 1]);
    assert_eq!(
        [edges[2].0, edges[3].0, edges[4].0],
        [[3, 2], [0, 3], [1, 2]]
    );
    assert_eq!(edges[3].1, 0.25);
}

#[test]
fn two_squares_out_of_step() {
    let (_, net) = meshed(
        "level 0\ntarget 2\npolygon 1 0 1\n0 0\n2 0\n2 2\n0 2\npolygon 1 0 1\n0 1\n2 1\n2 3\n0 3\n",
    );
    let expected = [
        ([0, 1], 0.25),
        ([3, 2], 0.5),
        ([0, 3], 0.5),
        ([1, 2], 0.5),
        ([4, 5], 0.5),
        ([7, 6], 0.25),
        ([4, 3], 2.0),
        ([3, 7], 2.0),
        ([5, 2], 2.0),
        ([2, 6], 2.0),
    ];
    assert!(net.edges.iter().map(parts).eq(expected));
}

/// Layers 1 and 2 with the same square of 4 by 4 ticks.
const TWO_SQUARES: &str =
    "level 1\ntarget 4\npolygon 1 0 1\n0 0\n4 0\n4 4\n0 4\npolygon 2 0 1\n0 0\n4 0\n4 4\n0 4\n";

/// The links that the two squares have, in rows of just enough length; in one less they are refused.
fn links_of(links: Links) -> Vec<([usize; 2], f64)> {
    let mesh = meshed(TWO_SQUARES).0;
    let outlines = mesh.polygons().outlines();
    let mut row = mesh.row().to_vec();
    let table = Table::of(&mut row, mesh.head()).expect("a table");
    let rows = table.edge_rows(outlines, links).expect("in range");
    let mut net = Net {
        nodes: vec![Node::default(); 8],
        edges: vec![Edge::default(); rows],
        cells: vec![Cell::default(); 2],
        ..Net::default()
    };
    let (mut short, mut work) = (net.edges[1..].to_vec(), vec![7; 128]);
    let mut call = |edges: &mut [Edge], work: &mut [u64]| {
        let (nodes, cells) = (&mut net.nodes[..], &mut net.cells[..]);
        let room = NetRoom {
            nodes,
            edges,
            cells,
            work,
        };
        table.network_with(outlines, links, room).map_err(number_of)
    };
    assert_eq!(call(&mut short, &mut work), Err(refused(6, 0)));
    assert!(work.iter().all(|&w| w == 7));
    let counts = call(&mut net.edges, &mut work).expect("room");
    assert_eq!(
        (counts.nodes, counts.edges, counts.links),
        (8, rows - 8, rows - 16)
    );
    assert!(net.edges[..8].iter().all(|edge| edge.conductance == 0.5));
    net.edges[8..counts.edges].iter().map(parts).collect()
}

#[test]
fn vias_of_two_squares() {
    let of = |[bottom, top]: [u16; 2], [x, y]: Point, half: [i64; 2], resistance| {
        let footprint = Footprint {
            x,
            y,
            half_width: half[0],
            half_height: half[1],
        };
        let vias = [Via {
            bottom,
            top,
            component: 0,
            footprint,
            resistance,
        }];
        links_of(Links {
            vias: &vias,
            ..Links::default()
        })
    };
    assert_eq!(of([1, 2], [0, 0], [0, 0], 2.0), [([0, 4], 0.5)]);
    assert_eq!(of([1, 2], [4, 2], [0, 2], 1.0), [([1, 5], 1.0)]);
    let four = [[1, 5], [1, 6], [2, 5], [2, 6]].map(|ends| (ends, 0.25));
    assert_eq!(of([1, 2], [4, 2], [1, 2], 1.0), four);
    assert_eq!(of([1, 2], [2, 2], [1, 1], 3.0), [([0, 4], 1.0 / 3.0)]);
    let within = [([0, 0], 0.25), ([0, 1], 0.5), ([1, 0], 0.5), ([1, 1], 0.25)];
    assert_eq!(of([1, 1], [2, 0], [2, 1], 1.0), within);
    assert_eq!(of([1, 3], [0, 0], [0, 0], 1.0), []);
}

#[test]
fn contacts_and_channels_of_two_squares() {
    for (from, to, expected) in [
        (0, 1, vec![([0, 4], 1.0)]),
        (1, 0, vec![([4, 0], 1.0)]),
        (0, 0, vec![([0, 0], 1.0)]),
        (0, 2, vec![]),
    ] {
        let contacts = [Contact { from, to }];
        let links = Links {
            contacts: &contacts,
            ..Links::default()
        };
        assert_eq!(links_of(links), expected);
    }
    for (source, expected) in [([4, 4], ([0, 2], 0.25)), ([4, 0], ([0, 1], 0.5))] {
        let at = |[x, y]: Point| ChannelEnd { component: 0, x, y };
        let channels = [Channel {
            drain: at([0, 0]),
            source: at(source),
            resistance: 4.0,
        }];
        let links = Links {
            channel_layer: 1,
            channels: &channels,
            ..Links::default()
        };
        assert_eq!(links_of(links), [expected]);
        let elsewhere = Links {
            channel_layer: 3,
            ..links
        };
        assert_eq!(links_of(elsewhere), []);
    }
}

/// Where exact squares would choose another node.
#[test]
fn the_nearest_goes_by_rounded_squares() {
    let a = (1 << 28) + 1;
    let roots = [
        ([0, 0, 2, 2], 0),
        ([a, 2, a + 2, 4], 1),
        ([a, 0, a + 2, 2], 1),
    ];
    let mut row = vec![0; 3 * SLOT];
    for (slot, (root, polygon)) in row.chunks_exact_mut(SLOT).zip(roots) {
        slot[..4].copy_from_slice(&root);
        slot[columns::PARENT] = NO_CELL;
        slot[columns::FIRST_CHILD] = NO_CELL;
        slot[columns::POLYGON] = polygon;
    }
    let head = Head {
        count: 3,
        leaves: 3,
        max_level: 0,
    };
    let outlines = Outlines {
        layers: &[1, 1],
        components: &[0, 0],
        sheets: &[1.0, 1.0],
        counts: &[],
        points: &[],
    };
    let links = Links {
        contacts: &[Contact { from: 0, to: 1 }],
        ..Links::default()
    };
    let table = Table::of(&mut row, head).expect("roots");
    let net = table.linked_network(outlines, links).expect("a net");
    assert_eq!(
        net.links().iter().map(parts).collect::<Vec<_>>(),
        [([0, 4], 1.0)]
    );
    let place = |node: usize| [net.nodes[node].x, net.nodes[node].y];
    assert_eq!([place(0), place(4)], [[0, 0], [a, 2]]);
    let nearer = |x: i64, y: i64| x * x + y * y;
    assert_eq!(nearer(a, 2) - nearer(a, 0), 4);
}

#[test]
fn powers() {
    for (wide, high, sheet, volts, expected) in [
        (4, 4, 1.0, [0.0, 1.0, 1.0, 0.0], 1.0),
        (8, 4, 1.0, [0.0, 1.0, 1.0, 0.0], 0.5),
        (4, 8, 2.0, [0.0, 1.0, 1.0, 0.0], 1.0),
        (4, 4, 1.0, [0.0, 1.0, 0.0, 1.0], 0.0),
    ] {
        let node = |[x, y]: [i64; 2]| Node {
            layer: 1,
            component: 0,
            x,
            y,
        };
        let cell = Cell {
            corners: [0, 1, 2, 3],
            sheet,
        };
        let net = NetRows {
            nodes: &[[0, 0], [wide, 0], [wide, high], [0, high]].map(node),
            edges: &[],
            cells: &[cell],
        };
        let mut watts = [-1.0];
        power(net, &volts, &mut watts).expect("in range");
        assert_eq!(watts, [expected]);
    }
}

#[test]
fn layers_over_each_other() {
    let square = "0 0\n8 0\n8 8\n0 8\n";
    let text =
        format!("level 1\ntarget 8\npolygon 1 0 1\n{square}polygon 2 0 1\n{square}split 0\n");
    let (mesh, net) = meshed(&text);
    let mut row = mesh.row().to_vec();
    let table = Table::of(&mut row, mesh.head()).expect("a table");
    let named = table.check_network_conforming(net.rows());
    assert_eq!(
        named,
        Ok(Some(Hanging {
            node: 1,
            from: 9,
            to: 10
        }))
    );
    let named = Node {
        layer: 1,
        component: 0,
        x: 4,
        y: 0,
    };
    assert_eq!(net.nodes[1], named);
    assert_eq!(mesh.check_by_layer(net.rows()), Ok(None));
}

#[test]
fn leafnets_text() {
    let board = read(&worked_record()).expect("a board");
    let expected = "cells 1 leaves 1 nodes 4 edges 4 splits 0\n\
        leaf 0 0 0 0 0 4 4\n\
        node 0 1 0 0 0\nnode 1 1 0 4 0\nnode 2 1 0 4 4\nnode 3 1 0 0 4\n\
        edge 0 1 3fe0000000000000\nedge 3 2 3fe0000000000000\n\
        edge 0 3 3fe0000000000000\nedge 1 2 3fe0000000000000\n";
    assert_eq!(printed::show(&board).expect("a net"), expected);
}

#[test]
fn just_past_a_limit() {
    let of_zeros = |slots: usize, max_level| {
        let head = Head {
            max_level,
            ..Head::default()
        };
        let mut row = vec![0; SLOT * slots];
        let table = Table::of(&mut row, head).map_err(number_of)?;
        Ok(table.leaf_count())
    };
    assert_eq!(of_zeros(SLOTS, 12), Ok(0));
    assert_eq!(of_zeros(SLOTS + 1, 12), Err(refused(7, 0)));
    assert_eq!(of_zeros(0, 13), Err(refused(7, 0)));
    assert!(strips(&vec![[0, 0]; limits::RING_POINTS], &mut []).is_ok());
    let bad = strips(&vec![[0, 0]; limits::RING_POINTS + 1], &mut []).expect_err("too many points");
    assert_eq!(number_of(bad), refused(3, 0));
    for max_level in [13, 255] {
        let settings = Settings {
            max_level,
            cap: 1,
            target: 1,
        };
        let none = Polygons::default();
        let bad = Table::build(settings, &[], none.outlines(), &mut []).expect_err("too deep");
        assert_eq!(number_of(bad), refused(3, 0));
    }
}
