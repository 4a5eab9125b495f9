//! Balance and conform: against the original, number by number, and against the coarsest splitting,
//! by names.

use crate::port::{self, counted, evening_outcome_of};
use crate::report::Report;
use crate::table::{difference, first_difference};
use calls::coarsest::{coarsest, Splitting};
use calls::even::{even, Allowed};
use calls::limits::SLOTS;
use calls::table::{Head, Slot};
use calls::well_formed::well_formed;
use inputs::damage::damage;
use inputs::tables::{random_table_to_even, Table};
use inputs::Random;

const CELLS: usize = 40;
/// The coarsest splitting is looked for up to so many cells; past them a table gets less room.
const WIDEST: usize = 500;
const LARGE: usize = 600;
const LARGE_ONE_IN: u64 = 4_000;
const DAMAGED_ONE_IN: u64 = 16;
const HISTORY_ONE_IN: u64 = 8;

struct Reports {
    balance: Report,
    conform: Report,
}

/// Boundary cases, then `count` random tables, each by balance and by conform; one in eight lives
/// through a history of refine, balance and conform.
pub fn compare(count: u64, seed: u64) -> bool {
    let mut random = Random::new(seed);
    let mut reports = Reports { balance: Report::new("balance"), conform: Report::new("conform") };
    for (table, allowed) in boundary_tables() {
        reports.run(&table, allowed);
    }
    for _ in 0..count {
        let table = any_table(&mut random);
        for (lent, allowed) in lent_for_both(&table, &mut random) {
            reports.run(&lent, allowed);
        }
        if random.one_in(HISTORY_ONE_IN) {
            reports.history(table, &mut random);
        }
    }
    let balance = reports.balance.print();
    reports.conform.print() && balance
}

/// P1 to P4, and a table that fills all 16,384 slots or asks for four more.
fn boundary_tables() -> Vec<(Table, Allowed)> {
    let p2 = |slots: usize| {
        let mut table = Table::with(2, &[[0, 0, 8, 8], [8, 0, 16, 8]], &[0, 3]);
        table.set_slots(slots);
        table
    };
    let full = |roots_more: usize| {
        let mut table = p2(SLOTS);
        for n in 0..(SLOTS - 14 + roots_more) as i64 {
            table.push(Slot::root([32 * n, 64, 32 * n + 8, 72], 1));
        }
        table
    };
    let mut list: Vec<(Table, Allowed)> =
        [10, 13, 14, 15, 18].map(|slots| (p2(slots), Allowed::One)).to_vec();
    list.extend([10, 38, 41, 42, 43, 46].map(|slots| (p2(slots), Allowed::None)));
    list.extend([Allowed::One, Allowed::None].map(|allowed| (Table::new(3), allowed)));
    list.extend([0, 1, 4].map(|more| (full(more), Allowed::One)));
    list
}

/// One table with room of its own for each call, now and then damaged.
fn lent_for_both(table: &Table, random: &mut Random) -> [(Table, Allowed); 2] {
    [Allowed::One, Allowed::None].map(|allowed| {
        let mut lent = table.clone();
        lent.set_slots(any_room(table, allowed, random));
        if random.one_in(DAMAGED_ONE_IN) {
            damage(&mut lent, random);
        }
        (lent, allowed)
    })
}

/// A random table as this group draws them.
pub fn any_lent(random: &mut Random) -> [(Table, Allowed); 2] {
    let table = any_table(random);
    lent_for_both(&table, random)
}

fn any_table(random: &mut Random) -> Table {
    let most = if random.one_in(LARGE_ONE_IN) { LARGE } else { CELLS };
    random_table_to_even(random, most)
}

/// Exactly what the coarsest splitting needs, less, or more.
fn any_room(table: &Table, allowed: Allowed, random: &mut Random) -> usize {
    let least = coarsest(&table.row, table.count, allowed.levels(), WIDEST);
    let Some(need) = least.map(|splitting| splitting.cells()) else {
        return table.count + random.index(200);
    };
    let less = need - table.count;
    let room = match random.below(8) {
        0..=2 => need,
        3 => need.saturating_sub(1),
        4 => need.saturating_sub(4),
        5 => need - random.index(less + 1),
        _ => need + random.index(12),
    };
    room.max(table.count)
}

impl Reports {
    /// Runs both sides and hands back the original's table, where it was accepted.
    fn run(&mut self, table: &Table, allowed: Allowed) -> Option<Table> {
        let (mut row, mut port_row) = (table.row.clone(), table.row.clone());
        let answer = even(&mut row, table.head(), allowed);
        let expected = evening_outcome_of(answer);
        let got = port::even::even(&mut port_row, table.head(), allowed);
        let same = got == expected
            && port_row == row
            && (answer.is_err() || ends_in_the_coarsest(table, &port_row, allowed));
        let report = match allowed {
            Allowed::One => &mut self.balance,
            Allowed::None => &mut self.conform,
        };
        report.ran(counted(expected, expected.splits), same, || {
            difference(table, expected, got, &first_difference(&row, &port_row))
        });
        Some(Table::of(row, answer.ok()?.head))
    }

    /// A few splits, balances and conforms of one table in one room.
    fn history(&mut self, mut table: Table, random: &mut Random) {
        table.set_slots(table.count + random.index(300));
        for _ in 0..3 + random.index(6) {
            match random.below(4) {
                0 => self.step(&mut table, Allowed::One),
                1 => self.step(&mut table, Allowed::None),
                _ => split_if_it_fits(&mut table, random),
            }
        }
        self.step(&mut table, Allowed::One);
    }

    fn step(&mut self, table: &mut Table, allowed: Allowed) {
        if let Some(after) = self.run(table, allowed) {
            *table = after;
        }
    }
}

fn split_if_it_fits(table: &mut Table, random: &mut Random) {
    if table.slots() - table.count < 4 {
        return;
    }
    if let Some(id) = table.leaf_to_split(random) {
        table.split(id);
    }
}

/// The port's table, read by names, against a computation that knows nothing of passes.
fn ends_in_the_coarsest(before: &Table, port_row: &[i64], allowed: Allowed) -> bool {
    let slots = before.slots();
    let least = coarsest(&before.row, before.count, allowed.levels(), slots);
    let least = least.expect("an accepted call has room for it");
    let splits = (least.cells() - before.count) / 4;
    let head = Head {
        count: before.count + 4 * splits,
        leaves: before.leaves + 3 * splits,
        max_level: before.max_level,
    };
    well_formed(port_row, head) && Splitting::of_table(port_row, least.cells()) == least
}
