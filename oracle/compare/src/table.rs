//! Leaf count, leaves, leaf order and refine on lent tables, half of them damaged; and every call with a head
//! that has another number of leaves than the table.

use crate::port::network::{edge_rows, network, LentLinks, Rows};
use crate::port::{checks, counted, even as port_even, head_outcome_of, outcome_of, table as port};
use crate::report::Report;
use calls::even::Allowed;
use calls::limits::SLOTS;
use calls::sheets::Sheets;
use calls::table::{leaf_count, leaf_order, leaves, refine, Head, Slot, WIDTH};
use calls::well_formed::well_formed;
use calls::Answer;
use inputs::damage::{damage, every_number};
use inputs::tables::{random_roomy_table, random_table, wrong_leaves, Table};
use inputs::Random;
use leafmesh::ffi::{CheckOutcome, NetOutcome, Outcome, TableOutcome};
use leafmesh::NetRows;
use std::fmt::Debug;

/// Most cells of an ordinary random table.
const CELLS: usize = 40;
/// One table in so many has all 16,384 slots.
const LARGE_ONE_IN: u64 = 1_000;
/// What an answer's row holds before the call, its own number at each place.
const SENTINEL: u64 = 0xdead_0000_0000;

type List = fn(&[i64], Head, &mut [u64]) -> Answer<u64>;
type PortList = fn(&[i64], Head, &mut [u64]) -> Outcome;

struct Reports {
    leaf_count: Report,
    leaves: Report,
    leaf_order: Report,
    refine: Report,
    /// Every call but the leaf count, with another number of leaves.
    wrong_leaves: Report,
}

/// Tables damaged in every number, then `count` random ones, every other damaged.
pub fn compare(count: u64, seed: u64) -> bool {
    let mut random = Random::new(seed);
    let mut reports = Reports {
        leaf_count: Report::new("leaf_count"),
        leaves: Report::new("leaves"),
        leaf_order: Report::new("leaf_order"),
        refine: Report::new("refine"),
        wrong_leaves: Report::new("every other call, with another number of leaves"),
    };
    let (mut tables, mut damaged) = (count, count / 2);
    for sound in small_tables() {
        reports.run(&sound, &mut random);
        tables += 1;
        for table in every_number(&sound) {
            reports.run(&table, &mut random);
            tables += 1;
            damaged += 1;
        }
    }
    for n in 0..count {
        let mut table = any_table(&mut random);
        if n % 2 == 1 {
            damage(&mut table, &mut random);
        }
        reports.run(&table, &mut random);
    }
    println!("table: {tables} tables, {damaged} of them damaged");
    reports.print()
}

/// Tables small enough to damage each number in each way.
fn small_tables() -> Vec<Table> {
    let p2 = Table::with(2, &[[0, 0, 8, 8], [8, 0, 16, 8]], &[0, 3]);
    let mut behind = Table::with(1, &[[0, 0, 4, 4]], &[0]);
    behind.push(Slot::root([4, 0, 8, 4], 255));
    behind.split(5);
    let mut turned = Table::new(0);
    for polygon in [9, 0, 255, 9] {
        turned.push(Slot::root([-1, 1, 3, 7], polygon));
    }
    let deep = Table::with(12, &[[-8192, 0, 0, 8192]], &[0, 4, 5, 12]);
    let twins = Table::with(1, &[[0, 0, 4, 4], [0, 0, 4, 4]], &[0]);
    let mut small = vec![p2, behind, turned, deep, twins];
    small.iter_mut().for_each(|table| table.set_slots(table.count + 5));
    small.push(Table::new(3));
    small
}

fn any_table(random: &mut Random) -> Table {
    if !random.one_in(LARGE_ONE_IN) {
        return random_roomy_table(random, CELLS);
    }
    let mut table = random_table(random, 1_500);
    if random.one_in(4) {
        fill_with_roots(&mut table, random.index(6));
    }
    table.set_slots(SLOTS);
    table
}

/// Roots up to the last slot but a few.
fn fill_with_roots(table: &mut Table, spare: usize) {
    table.set_slots(SLOTS);
    let side = 1 << (table.max_level + 1);
    while table.count < SLOTS - spare {
        let polygon = table.count as i64 * 7 % 256;
        table.push(Slot::root([0, 0, side, side], polygon));
    }
}

impl Reports {
    fn run(&mut self, table: &Table, random: &mut Random) {
        self.leaf_count(table);
        let sound = well_formed(&table.row, table.head());
        let exact = if sound { table.leaves } else { random.index(20) };
        for room in [exact, other_room(exact, random)] {
            run_list(table, room, leaves, port::leaves, &mut self.leaves);
            run_list(table, room, leaf_order, port::leaf_order, &mut self.leaf_order);
        }
        for _ in 0..2 {
            self.refine(table, any_id(table, random));
        }
        let mut right = table.clone();
        right.recount();
        for leaves in wrong_leaves(&right) {
            let wrong = table.with_leaves(leaves);
            self.leaf_count(&wrong);
            self.refuses_all(&wrong, any_id(table, random), random);
        }
    }

    /// The head's own number, whatever it is.
    fn leaf_count(&mut self, table: &Table) {
        let value = leaf_count(table.head());
        let expected = Outcome { number: 0, place: 0, value };
        let got = Outcome { value: port::leaf_count(table.head()) as u64, ..expected };
        self.leaf_count.ran(expected, got == expected, || difference(table, expected, got, ""));
    }

    /// Every call refuses the table by 7, before it looks at anything else, and writes nothing.
    fn refuses_all(&mut self, table: &Table, id: usize, random: &mut Random) {
        assert!(!well_formed(&table.row, table.head()), "another number of leaves");
        let expected = Outcome { number: 7, place: 0, value: 0 };
        let bad = TableOutcome { number: 7, ..TableOutcome::default() };
        let mut after = table.clone();
        let mut out: Vec<u64> = (0..8).map(|place| SENTINEL + place).collect();
        let before = out.clone();
        let length = random.pick(&[0, 8]);
        let (head, row) = (table.head(), &mut after.row);
        let on_the_table = [
            port::leaves(row, head, &mut out[..length]) == expected,
            port::leaf_order(row, head, &mut out[..length]) == expected,
            port::refine(row, head, id) == bad,
            port_even::even(row, head, Allowed::One) == bad,
            port_even::even(row, head, Allowed::None) == bad,
        ];
        let unread = NetRows { nodes: &[], edges: &[], cells: &[] };
        let unknown = Sheets { layer: &[], component: &[], r_sheet: &[] };
        let broken = CheckOutcome { number: 7, ..CheckOutcome::default() };
        let of_nets = [
            edge_rows(&after, &unknown, &LentLinks::default()) == expected,
            checks::check_network_conforming(&after, unread, &mut out[..length]) == broken,
            checks::check_by_layer(&after, unread, &[], &[], &mut out[..length]) == broken,
        ];
        let work = out[..length].to_vec();
        let mut rows = Rows { nodes: vec![], edges: vec![], cells: vec![], work };
        let net = network(&after, &unknown, &mut rows);
        let no_net = net == NetOutcome { number: 7, ..NetOutcome::default() };
        let kept = after.row == table.row && out == before && rows.work == before[..length];
        for same in on_the_table.into_iter().chain(of_nets).chain([no_net]) {
            self.wrong_leaves.ran(expected, same && kept, || {
                let words = format!("another number of leaves; {}", table_words(table));
                (table.row.len() as u128, words)
            });
        }
    }

    fn refine(&mut self, table: &Table, id: usize) {
        let (mut row, mut port_row) = (table.row.clone(), table.row.clone());
        let expected = head_outcome_of(refine(&mut row, table.head(), id));
        let got = port::refine(&mut port_row, table.head(), id);
        let same = got == expected && port_row == row;
        let detail = || {
            let more = format!("refine {id}; {}", first_difference(&row, &port_row));
            difference(table, expected, got, &more)
        };
        self.refine.ran(counted(expected, expected.count), same, detail);
    }

    fn print(&self) -> bool {
        let mut same = true;
        let each = [&self.leaf_count, &self.leaves, &self.leaf_order, &self.refine];
        for report in each.into_iter().chain([&self.wrong_leaves]) {
            same &= report.print();
        }
        same
    }
}

fn run_list(table: &Table, room: usize, list: List, port_list: PortList, report: &mut Report) {
    let mut out: Vec<u64> = (0..room as u64).map(|place| SENTINEL + place).collect();
    let mut port_out = out.clone();
    let expected = outcome_of(list(&table.row, table.head(), &mut out));
    let got = port_list(&table.row, table.head(), &mut port_out);
    let same = got == expected && port_out == out;
    report.ran(expected, same, || {
        let more = format!("row of {room}; {}", first_difference(&out, &port_out));
        difference(table, expected, got, &more)
    });
}

fn other_room(exact: usize, random: &mut Random) -> usize {
    random.pick(&[0, exact.saturating_sub(1), exact + 1, exact + 5, exact / 2])
}

/// Ids below the count mostly; also the first past it and what a narrower number would hide.
fn any_id(table: &Table, random: &mut Random) -> usize {
    let count = table.count.min(SLOTS);
    match random.below(8) {
        0 => random.pick(&[count, count + 1, count + 3, usize::MAX, 4_294_967_295]),
        1 if count > 0 => random.index(count) | 1 << 32,
        _ if count > 0 => random.index(count),
        _ => 0,
    }
}

/// Size and words of an input that differs.
pub fn difference<T: Debug>(table: &Table, expected: T, got: T, more: &str) -> (u128, String) {
    let words = format!("{}; {more}; original {expected:?}, port {got:?}", table_words(table));
    (table.row.len() as u128, words)
}

/// A table's head and first slots.
pub fn table_words(table: &Table) -> String {
    let shown = 40 * WIDTH;
    let slots: Vec<&[i64]> = table.row[..table.row.len().min(shown)].chunks(WIDTH).collect();
    let cut = if table.row.len() > shown { " and more" } else { "" };
    let (length, Head { count, leaves, max_level }) = (table.row.len(), table.head());
    format!(
        "max_level {max_level}, count {count}, leaves {leaves}, length {length}, slots {slots:?}{cut}"
    )
}

pub fn first_difference<T: PartialEq + Debug>(row: &[T], port_row: &[T]) -> String {
    match (0..row.len()).find(|&at| row[at] != port_row[at]) {
        Some(at) => format!("number {at} is {:?}, port {:?}", row[at], port_row[at]),
        None => "rows are equal".to_string(),
    }
}
