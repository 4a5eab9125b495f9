//! Balance and conform.

use crate::coarsest::coarsest;
use crate::outcome::{require, Answer, Refusal};
use crate::table::{store_grid, to_grid, Head, WIDTH};
use crate::well_formed::well_formed;
use original::adaptive::AdaptiveGrid;

/// How far the levels of two leaves that share an edge may lie apart.
#[derive(Clone, Copy, Debug, PartialEq, Eq)]
pub enum Allowed {
    /// Balance: one level.
    One,
    /// Conform: none.
    None,
}

impl Allowed {
    pub fn levels(self) -> u8 {
        match self {
            Allowed::One => 1,
            Allowed::None => 0,
        }
    }

    fn engine(self) -> fn(&mut AdaptiveGrid) {
        match self {
            Allowed::One => AdaptiveGrid::balance,
            Allowed::None => AdaptiveGrid::conform,
        }
    }
}

/// What balance and conform answer: how many splits they made, and the new head.
#[derive(Clone, Copy, Debug, PartialEq, Eq)]
pub struct Evening {
    pub splits: u64,
    pub head: Head,
}

/// Refuses 7, 6.
pub fn balance(table: &mut [i64], head: Head) -> Answer<Evening> {
    even(table, head, Allowed::One)
}

/// Refuses 7, 6.
pub fn conform(table: &mut [i64], head: Head) -> Answer<Evening> {
    even(table, head, Allowed::None)
}

/// The room is judged by the coarsest splitting, as in docs/RULES.md: the original has no bound
/// and might never come back. Where both can be had their sizes must agree.
pub fn even(table: &mut [i64], head: Head, allowed: Allowed) -> Answer<Evening> {
    require(well_formed(table, head), 7, 0)?;
    let no_room = Refusal { number: 6, place: 0 };
    let slots = table.len() / WIDTH;
    let cells = coarsest(table, head.count, allowed.levels(), slots).ok_or(no_room)?.cells();

    let mut grid = to_grid(table, head);
    allowed.engine()(&mut grid);
    assert_eq!(grid.cells.len(), cells, "the original ends in the coarsest splitting");
    store_grid(&grid, table);
    let splits = (cells - head.count) as u64 / 4;
    Ok(Evening { splits, head: Head::of_grid(&grid, head.max_level) })
}
