//! Contact, and the calls on a table of at most 64 slots.

use crate::replay::{class, head_numbers, Case, Replay};
use calls::contact::{contact, Border};
use calls::even::{even, Allowed, Evening};
use calls::table::{leaf_count, leaf_order, leaves, refine, Head, Slot, WIDTH};
use calls::well_formed::{childless, well_formed};
use inputs::damage::damage;
use inputs::limit_pairs::limit_pairs;
use inputs::limit_tables::{limit_heads, limit_parts, limit_tables, limit_zero_rows, ZeroRow};
use inputs::rectangles::{near_miss, random_neighbours, random_pair, Pair};
use inputs::tables::{
    random_roomy_table, random_table, random_unbalanced_table, wrong_leaves, Table,
};
use inputs::Random;

const CONTACT: u64 = 1;
const LEAF_COUNT: u64 = 2;
const LEAVES: u64 = 3;
const LEAF_ORDER: u64 = 4;
const REFINE: u64 = 5;
const BALANCE: u64 = 6;
const CONFORM: u64 = 7;
const LEAVES_OF_ZEROS: u64 = 8;
const LEAVES_OF_PART: u64 = 9;

/// The longest table and the longest answer row of the program.
const LONGEST: usize = 520;
const ANSWERS: usize = 80;
const SLOTS: usize = 64;
/// How many are drawn for each case of a class.
const DRAWS: u64 = 200;
/// What an answer row holds before the call, its own number at each place.
const SENTINEL: u64 = 900;

pub fn replay(count: u64, random: &mut Random) -> Replay {
    let mut replay = Replay::new("replay_table", count);
    for (name, pair) in limit_pairs() {
        replay.name(&name);
        run_contact(pair, &mut replay);
    }
    for (name, row) in limit_zero_rows() {
        replay.name(&name);
        run_zeros(row, &mut replay);
    }
    for (name, table, slots) in limit_parts() {
        replay.name(&name);
        run_part(&table, slots, &mut replay);
    }
    for (name, table) in limit_tables() {
        assert!(table.row.len() <= LONGEST, "the program reads no more");
        replay.name(&name);
        run_leaves(&table, childless(&table.row, table.count), &mut replay);
    }
    for (name, table) in limit_heads() {
        for (call, run) in CALLS {
            replay.name(&format!("{name}, {call}"));
            run(&table, &mut replay);
        }
    }
    for (name, table, allowed) in splits_to_make() {
        replay.name(name);
        match allowed {
            Some(allowed) => run_even(&table, allowed, &mut replay),
            None => run_refine(&table, 1, &mut replay),
        }
    }
    replay.name("a table that shows one thing");
    for table in boundary_tables() {
        run_table(&table, random, &mut replay);
    }
    replay.draw();
    for _ in 0..DRAWS * count {
        run_contact(random_pair(random), &mut replay);
        let mut table = any_table(random);
        if random.one_in(3) {
            damage(&mut table, random);
        }
        if random.one_in(12) {
            table.leaves = random.pick(&wrong_leaves(&table));
        }
        if table.row.len() <= LONGEST {
            run_table(&table, random, &mut replay);
        }
    }
    for _ in 0..DRAWS * count {
        run_contact(random_neighbours(random), &mut replay);
    }
    replay
}

/// P1 to P4, two squares over each other, roots behind split cells, a full table of 64 slots.
fn boundary_tables() -> Vec<Table> {
    let mut list = vec![Table::new(3), Table::new(12)];
    for slots in [10, 13, 14, 18, 41, 42, 64] {
        let mut table = Table::with(2, &[[0, 0, 8, 8], [8, 0, 16, 8]], &[0, 3]);
        table.set_slots(slots);
        list.push(table);
    }
    for splits in [&[1, 2, 6][..], &[1, 2, 6, 0]] {
        let mut table = Table::with(3, &[[0, 0, 16, 32], [0, 0, 16, 16]], splits);
        table.set_slots(table.count + 16);
        list.push(table);
    }
    let mut behind = Table::with(1, &[[0, 0, 4, 4]], &[0]);
    behind.push(Slot::root([4, 0, 8, 4], 255));
    behind.split(5);
    list.push(behind);
    let mut full = Table::new(0);
    (0..SLOTS as i64).for_each(|n| full.push(Slot::root([2 * n, 0, 2 * n + 2, 2], 63 - n)));
    list.push(full);
    list
}

/// Small tables mostly, so that the data stays small.
fn any_table(random: &mut Random) -> Table {
    let most = random.pick(&[4, 8, 8, 12, 12, 16, 48]);
    let mut table = match random.below(3) {
        0 => random_roomy_table(random, most),
        1 => random_table(random, most),
        _ => random_unbalanced_table(random, most.max(12)),
    };
    let spare = random.pick(&[0, 1, 3, 4, 5, 8, 12, 20]);
    table.set_slots((table.count + spare).min(SLOTS).max(table.count));
    table
}

fn run_contact(pair: Pair, replay: &mut Replay) {
    let answer = contact(pair.0, pair.1);
    let mut case = Case::of_kind(CONTACT);
    case.numbers(pair.0.iter().chain(&pair.1).map(|&number| number as u64));
    let numbers = |Border { side, length }| vec![side.number(), length];
    case.answer("contact", answer.map(|border| border.map_or(Vec::new(), numbers)));
    replay.offer(class("contact", &answer, |&border| contact_class(pair, border)), case);
}

/// 0 to 3 where there is no border: a near miss of each kind, or none. 10 and more of the south side, 20 and more of the
/// east side, and so on: a border of one tick, of more than 2^32, or of another length.
fn contact_class(pair: Pair, border: Option<Border>) -> u64 {
    let Some(Border { side, length }) = border else {
        return near_miss(pair).map_or(0, |miss| 1 + miss as u64);
    };
    let kind = match length {
        1 => 1,
        _ if length > 1 << 32 => 2,
        _ => 0,
    };
    10 * (1 + side.number()) + kind
}

fn lent(kind: u64, table: &Table) -> Case {
    let mut case = Case::of_kind(kind);
    case.numbers(head_numbers(table.head()));
    case.signed_row(&table.row);
    case
}

/// A stored case of one call.
type Run = fn(&Table, &mut Replay);

/// Every call on a table. Each stored case has a name of its own.
const CALLS: [(&str, Run); 8] = [
    ("leaf count", run_leaf_count),
    ("leaves", |table, replay| run_leaves(table, table.leaves.min(9), replay)),
    ("leaf order", |table, replay| run_leaf_order(table, table.leaves.min(9), replay)),
    ("refine 0", |table, replay| run_refine(table, 0, replay)),
    ("refine 1", |table, replay| run_refine(table, 1, replay)),
    ("refine past the count", |table, replay| run_refine(table, table.count, replay)),
    ("balance", |table, replay| run_even(table, Allowed::One, replay)),
    ("conform", |table, replay| run_even(table, Allowed::None, replay)),
];

/// Tables of which a leaf is split, or whose leaves are evened, by name.
fn splits_to_make() -> Vec<(&'static str, Table, Option<Allowed>)> {
    let with_slots = |slots: usize, splits: &[usize]| {
        let mut table = Table::with(2, &[[0, 0, 8, 8], [8, 0, 16, 8]], splits);
        table.set_slots(slots);
        table
    };
    vec![
        ("a split: four cells and three leaves more", with_slots(6, &[]), None),
        ("a second split", with_slots(10, &[0]), None),
        ("balance, one split", with_slots(14, &[0, 3]), Some(Allowed::One)),
        ("conform, one split", with_slots(10, &[0]), Some(Allowed::None)),
        ("conform, eight splits", with_slots(42, &[0, 3]), Some(Allowed::None)),
        ("balance of a balanced table", with_slots(10, &[0]), Some(Allowed::One)),
    ]
}

/// The row is made of zeros by the program, and there is no room for an id.
fn run_zeros((head, length): ZeroRow, replay: &mut Replay) {
    let mut case = Case::of_kind(LEAVES_OF_ZEROS);
    case.numbers(head_numbers(head));
    case.number(length as u64);
    finish_leaves(case, &vec![0; length], head, &mut [], replay);
}

/// The whole row is in the stream, and its first slots are lent; no room for an id either.
fn run_part(table: &Table, slots: usize, replay: &mut Replay) {
    let length = slots * WIDTH;
    let mut case = Case::of_kind(LEAVES_OF_PART);
    case.numbers(head_numbers(table.head()));
    case.number(length as u64);
    case.signed_row(&table.row);
    finish_leaves(case, &table.row[..length], table.head(), &mut [], replay);
}

/// The head's number, whatever the table.
fn run_leaf_count(table: &Table, replay: &mut Replay) {
    let sound = well_formed(&table.row, table.head());
    let mut case = lent(LEAF_COUNT, table);
    let answer = Ok(leaf_count(table.head()));
    case.answer("leaf_count", answer.map(|leaves| vec![leaves]));
    replay.offer(class("leaf_count", &answer, |_| u64::from(sound)), case);
}

/// Each call once.
fn run_table(table: &Table, random: &mut Random, replay: &mut Replay) {
    run_leaf_count(table, replay);
    let sound = well_formed(&table.row, table.head());
    let exact = if sound { table.leaves } else { random.index(12) };
    let rooms = [exact, exact, exact.saturating_sub(1), exact + 3, 0];
    run_leaves(table, random.pick(&rooms).min(ANSWERS), replay);
    run_leaf_order(table, random.pick(&rooms).min(ANSWERS), replay);
    run_refine(table, any_id(table, random), replay);
    run_even(table, Allowed::One, replay);
    run_even(table, Allowed::None, replay);
}

fn run_leaves(table: &Table, room: usize, replay: &mut Replay) {
    let mut out: Vec<u64> = (0..room as u64).map(|place| SENTINEL + place).collect();
    let mut case = lent(LEAVES, table);
    case.row(&out);
    finish_leaves(case, &table.row, table.head(), &mut out, replay);
}

fn finish_leaves(mut case: Case, row: &[i64], head: Head, out: &mut [u64], replay: &mut Replay) {
    let answer = leaves(row, head, out);
    case.answer("leaves", answer.map(|leaves| vec![leaves]));
    case.print(out.iter());
    replay.offer(class("leaves", &answer, |&leaves| u64::from(leaves < out.len() as u64)), case);
}

/// Tables that name several polygons are a class of their own.
fn run_leaf_order(table: &Table, room: usize, replay: &mut Replay) {
    let mut out: Vec<u64> = (0..room as u64).map(|place| SENTINEL + place).collect();
    let mut case = lent(LEAF_ORDER, table);
    case.row(&out);
    let answer = leaf_order(&table.row, table.head(), &mut out);
    case.answer("leaf_order", answer.map(|leaves| vec![leaves]));
    case.print(&out);
    let sorted = |&leaves: &u64| {
        let ids = &out[..leaves as usize];
        u64::from(ids.windows(2).any(|pair| pair[0] > pair[1]))
    };
    replay.offer(class("leaf_order", &answer, sorted), case);
}

fn run_refine(table: &Table, id: usize, replay: &mut Replay) {
    let mut row = table.row.clone();
    let mut case = lent(REFINE, table);
    case.number(id as u64);
    let answer = refine(&mut row, table.head(), id);
    case.answer("refine", answer.map(|head| head_numbers(head).to_vec()));
    case.print(&row);
    replay.offer(class("refine", &answer, |_| 0), case);
}

/// Nothing to split and something to split are two classes.
fn run_even(table: &Table, allowed: Allowed, replay: &mut Replay) {
    let (kind, call) = match allowed {
        Allowed::One => (BALANCE, "balance"),
        Allowed::None => (CONFORM, "conform"),
    };
    let mut row = table.row.clone();
    let mut case = lent(kind, table);
    let answer = even(&mut row, table.head(), allowed);
    let numbers = |even: Evening| [&[even.splits], &head_numbers(even.head)[..]].concat();
    case.answer(call, answer.map(numbers));
    case.print(&row);
    replay.offer(class(call, &answer, |even| even.splits.min(3)), case);
}

fn any_id(table: &Table, random: &mut Random) -> usize {
    let count = table.count.min(table.row.len() / WIDTH);
    match random.below(8) {
        0 => random.pick(&[count, count + 1, count + 3, usize::MAX, 4_294_967_295]),
        1 if count > 0 => random.index(count) | 1 << 32,
        _ if count > 0 => random.index(count),
        _ => 0,
    }
}
