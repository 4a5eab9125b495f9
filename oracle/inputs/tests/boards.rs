//! Strips, build, nets, power and the two checks, on random boards.

use calls::build::{build, cells_along};
use calls::checks::{check_middles_by_layer, check_network_conforming};
use calls::even::balance;
use calls::net::Net;
use calls::network::{network, NetRoom};
use calls::power::cell_power;
use calls::record::{read_record, write_record, Board, RecordRoom};
use calls::strips::{is_rectilinear, strips, strips_by_the_words};
use calls::table::{leaf_order, Head, Slot, WIDTH};
use calls::ticks::metres;
use inputs::boards::{random_board, random_mesh};
use inputs::rings::random_ring;
use inputs::tables::Table;
use inputs::Random;

#[test]
fn the_originals_strips_are_those_of_the_words() {
    let mut random = Random::new(21);
    let mut empty = 0;
    for _ in 0..20_000 {
        let ring = random_ring(&mut random, 1);
        assert!(is_rectilinear(&ring), "{ring:?}");
        let mut out = [[0; 4]; 200];
        let count = strips(&ring, &mut out).expect("it is in range") as usize;
        assert_eq!(out[..count], strips_by_the_words(&ring), "{ring:?}");
        empty += usize::from(count == 0);
    }
    assert!((500..5_000).contains(&empty), "{empty}");
}

/// The quotient's ceiling in binary64 is the whole numbers' ceiling, on the whole domain; widths at
/// and next to multiples are where it could err.
#[test]
fn the_originals_ceiling_never_errs() {
    let mut random = Random::new(29);
    for _ in 0..200_000 {
        let bits = random.within(0, 36);
        let cell = random.within(1, 1 << bits);
        let most = (1 << 37) / cell;
        let most = most.min(1 << random.within(0, 37));
        let near = cell * random.within(1, most);
        let width = (near + random.within(-1, 1)).clamp(1, 1 << 37);
        let quotient = (metres(width) / metres(cell)).ceil() as i64;
        assert_eq!(quotient, (width + cell - 1) / cell, "{width} {cell}");
    }
}

/// Roots by docs/RULES.md: strips in order, rows from the bottom, left to right.
fn roots_by_the_words(board: &Board) -> Vec<Slot> {
    let mut points = board.points.iter().copied();
    let mut roots = Vec::new();
    for polygon in 0..board.layer.len() {
        let ring: Vec<[i64; 2]> =
            points.by_ref().take(board.point_count[polygon] as usize).collect();
        let own = board.layers.iter().find(|entry| entry.0 == board.layer[polygon]);
        let own = own.map_or(0, |entry| entry.1);
        let cell = if own == 0 { board.target } else { own };
        for [x0, y0, x1, y1] in strips_by_the_words(&ring) {
            let nx = cells_along(x1 - x0, cell, board.cap) as i64;
            let ny = cells_along(y1 - y0, cell, board.cap) as i64;
            let (dx, dy) = ((x1 - x0) / nx, (y1 - y0) / ny);
            for j in 0..ny {
                for i in 0..nx {
                    let (x, y) = (x0 + i * dx, y0 + j * dy);
                    roots.push(Slot::root([x, y, x + dx, y + dy], polygon as i64));
                }
            }
        }
    }
    roots
}

#[test]
fn the_originals_roots_are_those_of_the_words() {
    let mut random = Random::new(22);
    let mut answers = [0; 11];
    for _ in 0..5_000 {
        let board = random_board(&mut random);
        let mut row = vec![7; random.pick(&[4, 40, 2_000]) * WIDTH];
        let slots = row.len() / WIDTH;
        match build(&board.settings(), &board.outlines(), &mut row) {
            Ok(Head { count, leaves, max_level }) => {
                let roots = roots_by_the_words(&board);
                assert_eq!((count, leaves, max_level), (roots.len(), count, board.max_level));
                assert!((0..roots.len()).all(|id| Slot::load(&row, id) == roots[id]));
                assert!(row[roots.len() * WIDTH..].iter().all(|&number| number == 0));
                answers[0] += 1;
            }
            Err(refusal) => {
                assert!(refusal.number != 6 || roots_by_the_words(&board).len() > slots);
                assert!(row.iter().all(|&number| number == 7));
                answers[refusal.number as usize] += 1;
            }
        }
    }
    assert!(answers[0] > 1_000 && answers[5] > 500 && answers[6] > 200, "{answers:?}");
}

#[test]
fn boards_survive_their_records() {
    let mut random = Random::new(23);
    let room = RecordRoom { layers: 64, polygons: 256, points: 4_000, splits: 256 };
    for _ in 0..2_000 {
        let mut board = random_board(&mut random);
        board.splits = (0..random.below(5)).map(|_| random.bits() as u32).collect();
        assert_eq!(read_record(&write_record(&board), &room), Ok(board));
    }
}

/// Meshed boards: every other one is balanced.
fn meshes(seed: u64, wanted: usize) -> Vec<(Board, Table, Net)> {
    let mut random = Random::new(seed);
    let mut found = Vec::new();
    while found.len() < wanted {
        let board = random_board(&mut random);
        let Some(mut table) = random_mesh(&board, &mut random, 150, 8) else {
            continue;
        };
        if found.len() % 2 == 0 {
            table.set_slots(1_500);
            let head = table.head();
            let even = balance(&mut table.row, head).expect("it has room");
            table.set_head(even.head);
        }
        let room = NetRoom::for_leaves(table.count);
        let net = network(&table.row, table.head(), &board.sheets(), &room);
        found.push((board, table, net.expect("a sound table has a net")));
    }
    found
}

#[test]
fn nets_keep_their_bounds() {
    let mut hanging = 0;
    for (_, table, net) in meshes(24, 2_000) {
        let leaves = net.cells.len();
        assert!(net.nodes.len() <= 4 * leaves && net.edges.len() <= 8 * leaves);
        let mut conductances = net.edges.iter().map(|edge| edge.conductance);
        assert!(conductances.all(|g| g.is_finite() && g > 0.0));
        let mut order = vec![0; leaves];
        let listed = leaf_order(&table.row, table.head(), &mut order);
        assert_eq!(listed, Ok(leaves as u64));
        for (id, cell) in order.iter().zip(&net.cells) {
            let [x0, y0, x1, y1] = table.slot(*id as usize).rect();
            let places = cell.corners.map(|node| net.nodes[node].place());
            assert_eq!(places, [[x0, y0], [x1, y0], [x1, y1], [x0, y1]]);
        }
        hanging += usize::from(has_level_steps(&table));
    }
    assert!(hanging > 600, "{hanging}");
}

fn has_level_steps(table: &Table) -> bool {
    let leaves = (0..table.count).map(|id| table.slot(id)).filter(Slot::is_leaf);
    let levels: Vec<i64> = leaves.map(|leaf| leaf.level).collect();
    levels.iter().min() != levels.iter().max()
}

/// Of one polygon the walk by layer that asks for middles alone must agree with the original's, on sound
/// nets and on nets with an edge taken out.
#[test]
fn the_walks_agree_on_middles_where_there_is_one_polygon() {
    let mut random = Random::new(25);
    let (mut none, mut some) = (0, 0);
    for (board, table, net) in meshes(26, 3_000) {
        if board.layer.len() != 1 {
            continue;
        }
        let mut damaged = net.clone();
        if let edges @ 1.. = damaged.edges.len() {
            damaged.edges.remove(random.index(edges));
        }
        for net in [&net, &damaged] {
            let (row, head) = (&table.row, table.head());
            let by_layer = check_middles_by_layer(row, head, &board.sheets(), net);
            assert_eq!(check_network_conforming(row, head, net), by_layer);
            match by_layer.expect("both are sound") {
                None => none += 1,
                Some(_) => some += 1,
            }
        }
        let (row, head) = (&table.row, table.head());
        let whole = check_middles_by_layer(row, head, &board.sheets(), &net);
        assert_eq!(whole, Ok(None));
    }
    assert!(none > 500 && some > 50, "{none} {some}");
}

/// Power by the formula of docs/RULES.md, in its order of operations.
#[test]
fn powers_are_those_of_the_formula() {
    let mut random = Random::new(27);
    let mut cells = 0;
    for (_, _, net) in meshes(28, 500) {
        let potentials: Vec<f64> = (0..net.nodes.len())
            .map(|_| random.within(-1_000_000, 1_000_000) as f64 / random.within(1, 999) as f64)
            .map(|volts| volts.clamp(-1e6, 1e6))
            .collect();
        let mut out = vec![0.0; net.cells.len()];
        assert_eq!(cell_power(&net, &potentials, &mut out), Ok(out.len() as u64));
        for (cell, power) in net.cells.iter().zip(&out) {
            let u = |corner: usize| potentials[cell.corners[corner]];
            let [sw, se, _, nw] = cell.corners.map(|node| net.nodes[node]);
            let (dx, dy) = (metres(se.x - sw.x), metres(nw.y - sw.y));
            let gx = ((u(1) + u(2)) - (u(0) + u(3))) / (2.0 * dx);
            let gy = ((u(2) + u(3)) - (u(0) + u(1))) / (2.0 * dy);
            let expected = (((gx * gx + gy * gy) * dx) * dy) / cell.r_sheet;
            assert_eq!(power.to_bits(), expected.to_bits());
            cells += 1;
        }
    }
    assert!(cells > 5_000, "{cells}");
}
