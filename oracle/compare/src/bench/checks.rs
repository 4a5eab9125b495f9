//! Both checks on the net of a square board of 10,000 leaves, with work room and without.

use super::boards::balanced_board;
use super::{best, compare, timed, Best};
use crate::port::checks::{check_by_layer, check_network_conforming};
use crate::port::lent;
use calls::net::Net;
use calls::table::to_grid;
use inputs::meshes::Mesh;
use leafmesh::ffi::CheckOutcome;
use leafmesh::limits;

/// Base cells a side.
const CELLS: i64 = 99;
/// So many times the work room that the port asks for.
const TIMES: usize = 2;

/// True if all found nothing to name, as the net is sound.
pub fn run() -> bool {
    let mesh = balanced_board(CELLS);
    let net = mesh.net().expect("a sound mesh has a net");
    let original = time_original(&mesh, &net);
    let lent = lent(&net);
    let enough = limits::check_work(net.nodes.len(), net.edges.len());
    let mut same = true;
    for (work, room) in [(TIMES * enough, ""), (0, ", no work room")] {
        let words = format!("{} leaves{room}", mesh.leaves());
        let by_place =
            time_port(work, |work| check_network_conforming(&mesh.table, lent.rows(), work));
        same &= compare(&format!("check_network_conforming, {words}"), by_place, original);
        // The original has no by-layer check, so this one stands beside its other check.
        let by_layer = time_port(work, |work| {
            check_by_layer(&mesh.table, lent.rows(), &mesh.layers, &mesh.components, work)
        });
        let words = format!("check_by_layer, {words}, beside the original's check");
        same &= compare(&words, by_layer, original);
    }
    same
}

/// The time, and whether nothing was named.
fn time_original(mesh: &Mesh, net: &Net) -> Best<bool> {
    let table = &mesh.table;
    let grid = to_grid(&table.row, table.head());
    let original_net = net.to_original();
    best(|| {
        let mut clear = false;
        let call = || clear = grid.check_network_conforming(&original_net).is_ok();
        (timed(call), clear)
    })
}

/// With so many numbers of work room.
fn time_port(work: usize, check: impl Fn(&mut [u64]) -> CheckOutcome) -> Best<bool> {
    best(|| {
        let mut work = vec![1; work];
        let mut outcome = None;
        let time = timed(|| outcome = Some(check(&mut work)));
        assert!(work.iter().all(|&number| number == 0), "work room is enough or none, and zero");
        (time, outcome == Some(CheckOutcome::default()))
    })
}
