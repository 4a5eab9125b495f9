//! Balance and conform.

use super::boards::board_with_eight_corners;
use super::{best, compare, timed};
use crate::port;
use calls::even::Allowed;
use calls::limits::SLOTS;
use calls::table::{store_grid, to_grid, WIDTH};
use original::adaptive::AdaptiveGrid;

/// True if both ended in the same table at each size.
pub fn run() -> bool {
    let mut same = true;
    for cells in [16, 32, 64, 100] {
        same &= measure("balance", cells, Allowed::One, AdaptiveGrid::balance);
    }
    same &= measure("conform", 8, Allowed::None, AdaptiveGrid::conform);
    same
}

fn measure(call: &str, cells: i64, allowed: Allowed, engine: fn(&mut AdaptiveGrid)) -> bool {
    let table = board_with_eight_corners(cells);
    let original = best(|| {
        let mut grid = to_grid(&table.row, table.head());
        let time = timed(|| engine(&mut grid));
        let mut row = vec![0; SLOTS * WIDTH];
        store_grid(&grid, &mut row);
        (time, row)
    });
    let port = best(|| {
        let mut row = table.row.clone();
        let mut outcome = None;
        let head = table.head();
        let time = timed(|| outcome = Some(port::even::even(&mut row, head, allowed)));
        assert_eq!(outcome.map(|outcome| outcome.number), Some(0), "there is room");
        (time, row)
    });
    compare(&format!("{call} {cells} a side"), port, original)
}
