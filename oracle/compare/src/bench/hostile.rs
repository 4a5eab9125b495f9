//! Balance and conform on hostile boards of four sizes, and how their times grow.

use super::{best_within, timed, Best};
use crate::hostile::{Fitted, Kind, BALANCE, CONFORM};
use crate::{indexed, port};
use calls::even::Allowed;
use calls::table::{store_grid, to_grid};
use original::adaptive::AdaptiveGrid;
use std::time::Duration;

/// Slots of the boards. Times grow from one of GROWTH to the next.
const SIZES: [usize; 4] = [1_024, 4_096, 10_240, 16_384];
const GROWTH: [usize; 3] = [1_024, 4_096, 16_384];
const SEED: u64 = 1;
/// Rounds of one board are repeated until so much time has gone by.
const ENOUGH: Duration = Duration::from_millis(400);
/// A side that would take longer on a board isn't run on it.
const LONGEST: Duration = Duration::from_secs(60);
/// By which power of the cells a time is taken to grow at most, where only one is known.
const STEEPEST: f64 = 3.0;

/// The boards that a side was run on: slots, cells of the evened table, seconds.
#[derive(Default)]
struct Side {
    runs: Vec<(usize, usize, f64)>,
}

/// True if both sides ended in the indexed form's table wherever they were run.
pub fn run() -> bool {
    // The heap that a table takes is counted on the friendly boards.
    if cfg!(feature = "heap") {
        return true;
    }
    let mut same = true;
    for (call, allowed, kinds) in
        [("balance", Allowed::One, BALANCE), ("conform", Allowed::None, CONFORM)]
    {
        for kind in kinds {
            same &= measure(call, allowed, kind);
        }
    }
    same
}

fn measure(call: &str, allowed: Allowed, kind: &Kind) -> bool {
    let (mut port, mut original) = (Side::default(), Side::default());
    let mut same = true;
    for slots in SIZES {
        let board = kind.fitted(allowed, slots, SEED);
        same &= port.run(&board, allowed, time_port);
        same &= original.run(&board, allowed, time_original);
        println!(
            "{call}, {}, {slots} slots, {} to {} cells: port {}, original {}, ratio {}",
            kind.name,
            board.table.count,
            board.cells,
            port.shown(slots),
            original.shown(slots),
            ratio(port.seconds(slots), original.seconds(slots))
        );
    }
    println!(
        "{call}, {}, exponents: port {}, original {}",
        kind.name,
        port.exponents(),
        original.exponents()
    );
    if !same {
        println!("{call}, {}: ANSWERS DIFFER", kind.name);
    }
    same
}

impl Side {
    /// Runs the board unless that is expected to take too long; true unless the answer is wrong.
    fn run(
        &mut self,
        board: &Fitted,
        allowed: Allowed,
        time: fn(&Fitted, Allowed) -> Best<Vec<i64>>,
    ) -> bool {
        if self.expected(board.cells) > LONGEST.as_secs_f64() {
            return true;
        }
        let (cost, row) = time(board, allowed);
        self.runs.push((board.table.slots(), board.cells, cost.time.as_secs_f64()));
        let mut right = board.table.clone();
        let head = right.head();
        indexed::even(&mut right.row, head, allowed).expect("it fits");
        row == right.row
    }

    /// By the growth from the last board but one to the last.
    fn expected(&self, cells: usize) -> f64 {
        let grown = |last: &(usize, usize, f64), power: f64| {
            last.2 * (cells as f64 / last.1 as f64).powf(power)
        };
        match self.runs.as_slice() {
            [] => 0.0,
            [last] => grown(last, STEEPEST),
            [.., before, last] => grown(last, exponent(before, last)),
        }
    }

    fn of(&self, slots: usize) -> Option<&(usize, usize, f64)> {
        self.runs.iter().find(|run| run.0 == slots)
    }

    fn seconds(&self, slots: usize) -> Option<f64> {
        self.of(slots).map(|run| run.2)
    }

    fn shown(&self, slots: usize) -> String {
        self.seconds(slots).map_or("not run".to_string(), milliseconds)
    }

    /// From each size of the growth to the next.
    fn exponents(&self) -> String {
        let step = |sizes: &[usize]| match (self.of(sizes[0]), self.of(sizes[1])) {
            (Some(few), Some(many)) => format!("{:.2}", exponent(few, many)),
            _ => "-".to_string(),
        };
        GROWTH.windows(2).map(step).collect::<Vec<String>>().join(" then ")
    }
}

fn milliseconds(seconds: f64) -> String {
    let number = seconds * 1e3;
    let digits = match number {
        n if n < 10.0 => 3,
        n if n < 100.0 => 1,
        _ => 0,
    };
    format!("{number:.digits$} ms")
}

/// By which power of the cells the time has grown.
fn exponent(few: &(usize, usize, f64), many: &(usize, usize, f64)) -> f64 {
    (many.2 / few.2).ln() / (many.1 as f64 / few.1 as f64).ln()
}

fn ratio(port: Option<f64>, original: Option<f64>) -> String {
    match (port, original) {
        (Some(port), Some(original)) if port < 0.1 * original => format!("{:.5}", port / original),
        (Some(port), Some(original)) => format!("{:.3}", port / original),
        _ => "-".to_string(),
    }
}

fn time_port(board: &Fitted, allowed: Allowed) -> Best<Vec<i64>> {
    let table = &board.table;
    best_within(ENOUGH, || {
        let mut row = table.row.clone();
        let time = timed(|| {
            port::even::even(&mut row, table.head(), allowed);
        });
        (time, row)
    })
}

fn time_original(board: &Fitted, allowed: Allowed) -> Best<Vec<i64>> {
    let table = &board.table;
    let engine = match allowed {
        Allowed::One => AdaptiveGrid::balance,
        Allowed::None => AdaptiveGrid::conform,
    };
    best_within(ENOUGH, || {
        let mut grid = to_grid(&table.row, table.head());
        let time = timed(|| engine(&mut grid));
        let mut row = vec![0; table.row.len()];
        store_grid(&grid, &mut row);
        (time, row)
    })
}
