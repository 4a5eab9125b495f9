//! Refine, mark by mark; the leaf count, which looks at no table; and the test of well-formedness, which
//! every other call on a table makes first.

use super::{best, compare, timed};
use crate::hostile::{evened, BALANCE};
use crate::port::table::{leaf_count, leaves, refine};
use calls::contact::Rect;
use calls::even::Allowed;
use calls::limits::SLOTS;
use calls::table::{store_grid, to_grid, Head, WIDTH};
use inputs::tables::Table;

/// Roots a side, of 16 ticks each, and how many of them are marked.
const CELLS: i64 = 64;
const SIDE: i64 = 16;
const MARKS: usize = 2_000;
/// The shapes of the test: these boards when they are balanced.
const SHAPES: [&str; 5] = [
    "eight corners",
    "one root and a corner to level 12",
    "random marks",
    "shuffled roots",
    "islands to level 12",
];

/// Roots of the tables whose leaves are asked for, and how often in a row: one call is too short to be timed.
const ASKED: [i64; 5] = [1, 64, 1_024, 4_096, SLOTS as i64];
const TIMES: u32 = 100_000;

/// True if both ended in the same table.
pub fn run() -> bool {
    let same = refine_one_by_one();
    if cfg!(not(feature = "heap")) {
        for roots in ASKED {
            time_leaf_count(&Table::with(3, &squares(roots), &[]));
        }
        let roots = squares(SLOTS as i64 / 2);
        time_test("roots alone, half of the slots free", &Table::with(3, &roots, &[]));
        time_test("roots alone", &Table::with(3, &squares(SLOTS as i64), &[]));
        for kind in BALANCE.iter().filter(|kind| SHAPES.contains(&kind.name)) {
            let board = kind.fitted(Allowed::One, SLOTS, 1).table;
            let balanced = evened(&board, Allowed::One, SLOTS).expect("it fits");
            time_test(&format!("{}, balanced", kind.name), &balanced);
        }
    }
    same
}

/// Row by row from the bottom.
fn squares(cells: i64) -> Vec<Rect> {
    let place = |n: i64| (n % CELLS * SIDE, n / CELLS * SIDE);
    (0..cells).map(place).map(|(x, y)| [x, y, x + SIDE, y + SIDE]).collect()
}

/// Every other root is split, by one call each.
fn refine_one_by_one() -> bool {
    let mut table = Table::with(3, &squares(CELLS * CELLS), &[]);
    table.set_slots(SLOTS);
    let original = best(|| {
        let mut grid = to_grid(&table.row, table.head());
        let time = timed(|| {
            for mark in 0..MARKS {
                grid.refine(2 * mark as u32);
            }
        });
        let mut row = vec![0; SLOTS * WIDTH];
        store_grid(&grid, &mut row);
        (time, row)
    });
    let port = best(|| {
        let mut row = table.row.clone();
        let time = timed(|| {
            for mark in 0..MARKS {
                let (count, leaves) = (table.count + 4 * mark, table.leaves + 3 * mark);
                refine(&mut row, Head { count, leaves, ..table.head() }, 2 * mark);
            }
        });
        (time, row)
    });
    compare(&format!("refine, {MARKS} marks one by one on {} roots", CELLS * CELLS), port, original)
}

/// Whatever the table: it isn't lent.
fn time_leaf_count(table: &Table) {
    let (cost, sum) = best(|| {
        let mut sum = 0;
        let asked = || (0..TIMES).for_each(|_| sum += leaf_count(table.head()));
        (timed(asked), sum)
    });
    assert_eq!(sum, TIMES as usize * table.leaves, "the table's leaves");
    let nanoseconds = cost.time.as_secs_f64() * 1e9 / f64::from(TIMES);
    println!("leaf count, {} cells: {nanoseconds:.1} ns", table.count);
}

/// By the leaves, which is the test and one walk over the cells.
fn time_test(shape: &str, table: &Table) {
    let mut table = table.clone();
    table.set_slots(SLOTS);
    let mut ids = vec![0; table.leaves];
    let (cost, outcome) = best(|| {
        let mut outcome = None;
        let call = || outcome = Some(leaves(&table.row, table.head(), &mut ids));
        (timed(call), outcome)
    });
    assert_eq!(outcome.map(|outcome| outcome.number), Some(0), "the table is well formed");
    let nanoseconds = cost.time.as_secs_f64() * 1e9 / table.count as f64;
    println!("leaves, {shape}, {} cells: {nanoseconds:.1} ns a cell", table.count);
}
