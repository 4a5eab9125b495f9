//! Balance and conform on tables of 4,000 to 16,384 slots, which take the original too long: against the
//! indexed form of the passes, number by number. That form is itself held to the original here, on
//! small tables, among them small boards of the same kinds.

use crate::even::any_lent;
use crate::hostile::{reordered, Kind, BALANCE, CONFORM, LOOSE};
use crate::indexed;
use crate::port::{self, counted, evening_outcome_of};
use crate::report::Report;
use crate::table::{difference, first_difference};
use calls::even::{even, Allowed};
use calls::limits::SLOTS;
use calls::table::Head;
use inputs::tables::Table;
use inputs::Random;
use leafmesh::ffi::TableOutcome;

/// Slots of large tables and of the small boards of their kinds.
const LARGE: (usize, usize) = (4_000, SLOTS);
const SMALL: (usize, usize) = (400, 1_000);
/// Random small tables for each large one.
const SMALL_A_LARGE: u64 = 50;

/// An engine on a lent table.
type Engine = fn(&mut [i64], Head, Allowed) -> TableOutcome;

/// Two engines side by side.
struct Pair {
    right: Engine,
    judged: Engine,
    balance: Report,
    conform: Report,
    /// Least and most cells of the evened tables.
    cells: (usize, usize),
}

/// `count` tables each for balance and for conform; before them many small ones for the indexed form.
pub fn compare(count: u64, seed: u64) -> bool {
    let mut random = Random::new(seed);
    let mut small = Pair::new(
        [original, by_index],
        "balance, indexed form against the original, small tables",
        "conform, indexed form against the original, small tables",
    );
    for _ in 0..count * SMALL_A_LARGE {
        for (lent, allowed) in any_lent(&mut random) {
            small.run(&lent, allowed, "random table");
        }
    }
    small.boards(count, SMALL, &mut random);

    let mut large = Pair::new(
        [by_index, port::even::even],
        "balance, port against the indexed form, large tables",
        "conform, port against the indexed form, large tables",
    );
    large.boards(count, LARGE, &mut random);
    let same = small.print();
    let (least, most) = large.cells;
    println!("large: large tables have {least} to {most} cells when they are evened");
    large.print() && same
}

fn original(row: &mut [i64], head: Head, allowed: Allowed) -> TableOutcome {
    evening_outcome_of(even(row, head, allowed))
}

fn by_index(row: &mut [i64], head: Head, allowed: Allowed) -> TableOutcome {
    evening_outcome_of(indexed::even(row, head, allowed))
}

impl Pair {
    fn new([right, judged]: [Engine; 2], balance: &'static str, conform: &'static str) -> Self {
        let (balance, conform) = (Report::new(balance), Report::new(conform));
        Pair { right, judged, balance, conform, cells: (usize::MAX, 0) }
    }

    /// Boards of all kinds in turn, so many each for balance and for conform; half of them with their
    /// ids in another order, and one in four with too little room.
    fn boards(&mut self, count: u64, (least, most): (usize, usize), random: &mut Random) {
        for turn in 0..count as usize {
            for (allowed, kinds) in [(Allowed::One, BALANCE), (Allowed::None, CONFORM)] {
                let slots = least + random.index(most - least + 1);
                let kind = in_turn(kinds, turn);
                let lent = any_board(kind, allowed, slots, random);
                self.run(&lent, allowed, kind.name);
            }
        }
    }

    fn run(&mut self, table: &Table, allowed: Allowed, name: &str) {
        let (mut row, mut judged_row) = (table.row.clone(), table.row.clone());
        let expected = (self.right)(&mut row, table.head(), allowed);
        let got = (self.judged)(&mut judged_row, table.head(), allowed);
        let report = match allowed {
            Allowed::One => &mut self.balance,
            Allowed::None => &mut self.conform,
        };
        let same = got == expected && judged_row == row;
        report.ran(counted(expected, expected.splits), same, || {
            let more = format!("{name}; {}", first_difference(&row, &judged_row));
            difference(table, expected, got, &more)
        });
        if expected.number == 0 {
            let cells = expected.count as usize;
            self.cells = (self.cells.0.min(cells), self.cells.1.max(cells));
        }
    }

    fn print(&self) -> bool {
        let balance = self.balance.print();
        self.conform.print() && balance
    }
}

fn in_turn(kinds: &'static [Kind], turn: usize) -> &'static Kind {
    let turn = turn % (kinds.len() + LOOSE.len());
    kinds.get(turn).unwrap_or_else(|| &LOOSE[turn - kinds.len()])
}

fn any_board(kind: &Kind, allowed: Allowed, slots: usize, random: &mut Random) -> Table {
    let board = kind.fitted(allowed, slots, random.bits());
    let mut table = if random.one_in(2) { reordered(&board.table, random) } else { board.table };
    let room = match random.below(8) {
        0 => board.cells,
        1 => board.cells - 1,
        2 => table.count + random.index(board.cells - table.count + 1),
        _ => slots,
    };
    table.set_slots(room.max(table.count));
    table
}
