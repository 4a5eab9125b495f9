//! The calls through the bindings: the boundary cases of docs/RULES.md, refusals, and that a refused call changes
//! nothing.

use leafmesh::*;

const RING: [Point; 4] = [[0, 0], [16, 0], [16, 8], [0, 8]];

fn outlines() -> Outlines<'static> {
    Outlines {
        layers: &[1],
        components: &[0],
        sheets: &[1.0],
        counts: &[4],
        points: &RING,
    }
}

const SETTINGS: Settings = Settings {
    max_level: 2,
    cap: 256,
    target: 8,
};

/// Roots (0,0,8,8) and (8,0,16,8), max_level 2; 0 split, then 3.
fn two_roots(row: &mut [i64]) -> Table<'_> {
    let mut table = Table::build(SETTINGS, &[], outlines(), row).expect("two roots");
    table.refine(0).expect("a leaf");
    table.refine(3).expect("a leaf");
    table
}

fn row(slots: usize) -> Vec<i64> {
    vec![0; SLOT * slots]
}

/// Count and leaves.
fn sizes(table: &Table) -> (usize, usize) {
    let head = table.head();
    assert_eq!(table.leaf_count(), head.leaves);
    let listed = table.leaves(&mut vec![0; head.leaves]);
    assert_eq!(listed, Ok(head.leaves));
    (head.count, head.leaves)
}

/// Every call keeps the head, and a refused one leaves it.
#[test]
fn leaves_are_kept_beside_the_count() {
    let mut row = row(64);
    let mut table = Table::build(SETTINGS, &[], outlines(), &mut row).expect("two roots");
    assert_eq!(sizes(&table), (2, 2));
    table.refine(0).expect("a leaf");
    assert_eq!(sizes(&table), (6, 5));
    table.refine(3).expect("a leaf");
    assert_eq!(sizes(&table), (10, 8));
    assert!(table.refine(3).is_err() && table.refine(10).is_err());
    assert_eq!(sizes(&table), (10, 8));
    assert_eq!(table.balance(), Ok(1));
    assert_eq!(sizes(&table), (14, 11));
    assert_eq!(table.conform(), Ok(7));
    assert_eq!(sizes(&table), (42, 32));
    assert_eq!(table.conform(), Ok(0));
    assert_eq!(sizes(&table), (42, 32));
}

#[test]
fn balance_splits_what_it_must() {
    let mut row = row(64);
    let mut table = two_roots(&mut row);
    assert_eq!(table.balance(), Ok(1));
    assert_eq!(sizes(&table), (14, 11));
}

#[test]
fn conform_splits_more() {
    let mut row = row(64);
    let mut table = two_roots(&mut row);
    assert_eq!(table.conform(), Ok(8));
    assert_eq!(sizes(&table), (42, 32));
}

#[test]
fn no_room_leaves_the_table() {
    let mut row = row(64);
    let table = two_roots(&mut row);
    let (head, row) = (table.head(), table.row().to_vec());
    let mut short = row[..SLOT * 13].to_vec();
    let before = short.clone();
    let mut table = Table::of(&mut short, head).expect("the same table");
    assert_eq!(
        table.balance(),
        Err(Refusal {
            reason: Reason::NoRoom,
            place: 0
        })
    );
    assert_eq!((table.head(), table.row()), (head, &before[..]));
    let mut enough = row[..SLOT * 14].to_vec();
    let mut table = Table::of(&mut enough, head).expect("the same table");
    assert!(table.balance().is_ok());
}

#[test]
fn refusals_have_words() {
    let mut row = row(64);
    let mut table = two_roots(&mut row);
    let refusal = table.refine(99).expect_err("no such cell");
    assert_eq!(
        refusal,
        Refusal {
            reason: Reason::NoSuchCell,
            place: 99
        }
    );
    assert_eq!(
        refusal.to_string(),
        "refused 8 99: there is no cell with this id"
    );
    assert_eq!(
        table.refine(0).map_err(|r| r.reason),
        Err(Reason::AlreadySplit)
    );
    let head = table.head();
    row[0] += 1;
    assert_eq!(
        Table::of(&mut row, head).expect_err("a bad table").reason,
        Reason::BadTable
    );
}

#[test]
fn empty_rows_are_no_trouble() {
    let nothing = Outlines {
        layers: &[],
        components: &[],
        sheets: &[],
        counts: &[],
        points: &[],
    };
    let settings = Settings {
        max_level: 0,
        cap: 1,
        target: 1,
    };
    let mut table = Table::build(settings, &[], nothing, &mut []).expect("an empty board");
    assert_eq!(sizes(&table), (0, 0));
    assert_eq!(table.balance(), Ok(0));
    assert_eq!(sizes(&table), (0, 0));
    let net = table.network(nothing).expect("an empty net");
    assert_eq!(net, Net::default());
    assert_eq!(power(net.rows(), &[], &mut []), Ok(()));
}

#[test]
fn net_and_checks_agree() {
    let mut row = row(64);
    let mut table = two_roots(&mut row);
    table.balance().expect("room");
    let made = table.network(outlines()).expect("a net");
    assert_eq!(made.cells.len(), 11);
    let net = made.rows();
    for room in [0, 4096] {
        let mut work = vec![0; room];
        assert_eq!(
            table.check_network_conforming_with(net, &mut work),
            Ok(None)
        );
        assert_eq!(
            table.check_by_layer_with(net, outlines(), &mut work),
            Ok(None)
        );
        assert!(work.iter().all(|&w| w == 0));
    }
    assert_eq!(table.check_network_conforming(net), Ok(None));
}

/// The net lies in front of rows that are long enough, what is behind it stays, and the work room is zero.
#[test]
fn a_net_in_lent_rows_is_the_same() {
    let mut row = row(64);
    let table = two_roots(&mut row);
    let net = table.network(outlines()).expect("a net");
    let lent = |leaves: usize| {
        let mut nodes = vec![
            Node {
                layer: 7,
                ..Node::default()
            };
            limits::NODES_A_LEAF * leaves
        ];
        let mut edges = vec![
            Edge {
                from: 7,
                ..Edge::default()
            };
            limits::EDGES_A_LEAF * leaves
        ];
        let mut cells = vec![
            Cell {
                sheet: 7.0,
                ..Cell::default()
            };
            limits::CELLS_A_LEAF * leaves
        ];
        let mut work = vec![7; limits::WORK_A_LEAF * leaves];
        let room = NetRoom {
            nodes: &mut nodes,
            edges: &mut edges,
            cells: &mut cells,
            work: &mut work,
        };
        let counts = table.network_with(outlines(), Links::default(), room);
        (
            counts,
            Net {
                nodes,
                edges,
                cells,
                ..Net::default()
            },
            work,
        )
    };
    let (counts, rows, work) = lent(8);
    let Counts {
        nodes,
        edges,
        cells,
        links: 0,
    } = counts.expect("room")
    else {
        panic!("links of no rows");
    };
    assert_eq!(rows.nodes[..nodes], net.nodes);
    assert_eq!(rows.edges[..edges], net.edges);
    assert_eq!(rows.cells[..cells], net.cells);
    assert!(rows.nodes[nodes..].iter().all(|node| node.layer == 7));
    assert!(rows.edges[edges..].iter().all(|edge| edge.from == 7));
    assert!(work.iter().all(|&w| w == 0));
    let (counts, rows, work) = lent(7);
    assert_eq!(counts.map_err(|why| why.reason), Err(Reason::NoRoom));
    assert!(rows.cells.iter().all(|cell| cell.sheet == 7.0));
    assert!(work.iter().all(|&w| w == 7));
}

/// With exactly the work room that a check asks for it is used, and with one number less it isn't.
#[test]
fn a_checks_work_room_is_as_long_as_it_says() {
    let mut row = row(64);
    let table = two_roots(&mut row);
    let net = table.network(outlines()).expect("a net");
    let enough = limits::check_work(net.nodes.len(), net.edges.len());
    for (length, left) in [(enough, 0), (enough - 1, 7)] {
        let mut work = vec![7; length];
        table
            .check_by_layer_with(net.rows(), outlines(), &mut work)
            .expect("sound");
        assert!(work.iter().all(|&w| w == left));
    }
}

#[test]
fn a_net_without_an_edge_is_found_out() {
    let mut row = row(64);
    let table = two_roots(&mut row);
    let net = table.network(outlines()).expect("a net");
    let quick = |net: NetRows| {
        let quick = table.check_by_layer(net, outlines()).expect("sound");
        assert_eq!(
            quick,
            table
                .check_by_layer_with(net, outlines(), &mut [])
                .expect("sound")
        );
        quick
    };
    assert_eq!(quick(net.rows()), None);
    let broken = (0..net.edges.len()).filter(|&edge| {
        let mut without = net.clone();
        without.edges.remove(edge);
        quick(without.rows()).is_some()
    });
    assert!(broken.count() > 0);
}

#[test]
fn one_cell_of_one_ohm() {
    let ring = [[0, 0], [4, 0], [4, 4], [0, 4]];
    let square = Outlines {
        layers: &[1],
        components: &[0],
        sheets: &[1.0],
        counts: &[4],
        points: &ring,
    };
    let settings = Settings {
        max_level: 1,
        cap: 256,
        target: 4,
    };
    let mut row = row(1);
    let table = Table::build(settings, &[], square, &mut row).expect("one root");
    let net = table.network(square).expect("a net");
    let mut watts = [0.0];
    power(net.rows(), &[0.0, 1.0, 1.0, 0.0], &mut watts).expect("in range");
    assert_eq!(watts, [1.0]);
    assert!(net.edges.iter().all(|edge| edge.conductance == 0.5));
}

/// As the header says.
#[test]
fn calls_need_little_stack() {
    let ring = [[0, 0], [512, 0], [512, 512], [0, 512]];
    let square = Outlines {
        points: &ring,
        ..outlines()
    };
    let settings = Settings {
        max_level: 3,
        cap: 256,
        target: 16,
    };
    let mut row = row(SLOTS);
    let mut order = vec![0; 1_100];
    let (mut work, mut strips_room) = (vec![0; 1 << 16], [[0; 4]; 1]);
    let mut calls = || -> Result<(), Refusal> {
        strips(square.points, &mut strips_room)?;
        let mut table = Table::build(settings, &[], square, &mut row)?;
        table.refine(500)?;
        table.refine(table.head().count - 1)?;
        table.balance()?;
        table.leaf_order(&mut order)?;
        let net = table.network(square)?;
        assert_eq!(
            table.check_network_conforming_with(net.rows(), &mut work)?,
            None
        );
        assert_eq!(
            table.check_by_layer_with(net.rows(), square, &mut work)?,
            None
        );
        Ok(())
    };
    std::thread::scope(|scope| {
        let small = std::thread::Builder::new().stack_size(64 << 10);
        small
            .spawn_scoped(scope, || calls().expect("accepted"))
            .expect("a thread");
    });
}

/// Numbers of leaves that a table of `leaves` hasn't.
fn wrong(leaves: usize) -> impl Iterator<Item = usize> {
    let huge = [u32::MAX as usize, 1 << 63, usize::MAX, usize::MAX / 64, 0];
    [leaves - 1, leaves + 1]
        .into_iter()
        .chain(huge)
        .filter(move |&other| other != leaves)
}

/// Every raw call refuses such a head and writes nothing, but for leaf_count, which looks at no table.
#[test]
fn another_number_of_leaves_is_refused_by_every_call() {
    let mut own = row(64);
    let table = two_roots(&mut own);
    let net = table.network(outlines()).expect("a net");
    let Head {
        count,
        leaves,
        max_level,
    } = table.head();
    let before = table.row().to_vec();
    for wrong in wrong(leaves) {
        let mut row = before.clone();
        let (at, length) = (row.as_mut_ptr(), row.len());
        let mut ids = [7; 64];
        let (out, room) = (ids.as_mut_ptr(), ids.len());
        let (nodes, edges, cells) = (&net.nodes[..], &net.edges[..], &net.cells[..]);
        let bare = ffi::Outcome {
            number: 7,
            ..ffi::Outcome::default()
        };
        let unchanged = ffi::TableOutcome {
            number: 7,
            ..ffi::TableOutcome::default()
        };
        let unchecked = ffi::CheckOutcome {
            number: 7,
            ..ffi::CheckOutcome::default()
        };
        // SAFETY: each pointer comes with the length of its row, or is null before a length of 0.
        unsafe {
            assert_eq!(ffi::leafmesh_leaf_count(count, wrong, max_level), wrong);
            let listed = ffi::leafmesh_leaves(at, length, count, wrong, max_level, out, room);
            assert_eq!(listed, bare);
            let listed = ffi::leafmesh_leaf_order(at, length, count, wrong, max_level, out, room);
            assert_eq!(listed, bare);
            for id in [1, 0, 99] {
                let split = ffi::leafmesh_refine(at, length, count, wrong, max_level, id);
                assert_eq!(split, unchanged);
            }
            let even = ffi::leafmesh_balance(at, length, count, wrong, max_level);
            assert_eq!(even, unchanged);
            let even = ffi::leafmesh_conform(at, length, count, wrong, max_level);
            assert_eq!(even, unchanged);
            let found = ffi::leafmesh_check_network_conforming(
                at,
                length,
                count,
                wrong,
                max_level,
                nodes.as_ptr(),
                nodes.len(),
                edges.as_ptr(),
                edges.len(),
                cells.as_ptr(),
                cells.len(),
                std::ptr::null_mut(),
                0,
            );
            assert_eq!(found, unchecked);
        }
        assert_eq!((row, ids), (before.clone(), [7; 64]));
        let head = Head {
            count,
            leaves: wrong,
            max_level,
        };
        let mut row = before.clone();
        let refused = Table::of(&mut row, head).expect_err("another number of leaves");
        assert_eq!((refused.reason, refused.place), (Reason::BadTable, 0));
    }
}
