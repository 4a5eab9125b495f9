//! Tables at the limits of "Well-formed table", and one damaged table a clause, each by its name. Every
//! damaged one is well formed but for its clause: its leaves are those that its row has.

use crate::tables::Table;
use calls::contact::Rect;
use calls::limits::{COORDINATE, SLOTS, WIDEST_LEVEL};
use calls::table::{Head, Slot, NO_CELL, WIDTH};

/// Two levels, so that root sides are multiples of 8.
const LEVEL: u64 = 2;
const SIDE: i64 = 8;
const FIELDS: [&str; WIDTH] = ["x0", "y0", "x1", "y1", "level", "parent", "first child", "polygon"];

type Named = (String, Table);

/// The head of a row of zeros, and how many.
pub type ZeroRow = (Head, usize);

pub fn limit_tables() -> Vec<Named> {
    let mut list = levels_and_counts();
    list.extend(spare_slots());
    list.extend(roots());
    list.extend(children());
    list.extend(families());
    list.iter_mut().for_each(|(_, table)| table.recount());
    list
}

/// Sound tables, and the same with a head that has another number of leaves.
pub fn limit_heads() -> Vec<Named> {
    let beside = Table::with(LEVEL, &[[0, 0, SIDE, SIDE], [SIDE, 0, 2 * SIDE, SIDE]], &[0]);
    let with = |what: &str, leaves: usize| named(what, beside.with_leaves(leaves));
    let mut spare = beside.clone();
    spare.set_slots(spare.count + 4);
    let empty = Table::new(LEVEL);
    vec![
        named("two roots, one of them split: five leaves", beside.clone()),
        with("one leaf less than there are", 4),
        with("one leaf more than there are", 6),
        with("a leaf for each cell and one more", 7),
        with("no leaf", 0),
        with("2^32 leaves more", 1 << 32 | 5),
        with("2^32 - 1 leaves", u32::MAX as usize),
        with("2^63 leaves", 1 << 63),
        with("2^64 - 1 leaves", usize::MAX),
        named("spare slots are no leaves", spare.clone()),
        named("a leaf for a spare slot", spare.with_leaves(9)),
        named("no leaf of no cell", empty.clone()),
        named("a leaf of no cell", empty.with_leaves(1)),
    ]
}

/// The slots at the limit and one past it; their rows are too long to be stored.
pub fn limit_zero_rows() -> Vec<(String, ZeroRow)> {
    let row = |what: &str, max_level, slots| {
        (what.to_string(), (Head { max_level, ..Head::default() }, slots * WIDTH))
    };
    vec![
        row("all slots", 0, SLOTS),
        row("one slot too many", 0, SLOTS + 1),
        row("level 12 of no cell", WIDEST_LEVEL, 1),
        row("level 13 of no cell", WIDEST_LEVEL + 1, 1),
    ]
}

/// Tables of which so many slots are lent. What stands behind these would pass for a part of them.
pub fn limit_parts() -> Vec<(String, Table, usize)> {
    let part = |what: &str, table: Table, count: usize, slots: usize| {
        let mut table = Table { count, ..table };
        table.recount();
        (what.to_string(), table, slots)
    };
    let beside = Table::with(LEVEL, &[[0, 0, SIDE, SIDE], [SIDE, 0, 2 * SIDE, SIDE]], &[]);
    vec![
        part("a count past the lent slots", beside, 2, 1),
        part("two children of four, lent", split_root(), 3, 3),
        part("four children without their parent, lent", children_first(), 4, 4),
    ]
}

fn named(what: &str, table: Table) -> Named {
    (what.to_string(), table)
}

fn one_root(max_level: u64, rect: [i64; 4]) -> Table {
    Table::with(max_level, &[rect], &[])
}

/// One root with four children.
fn split_root() -> Table {
    Table::with(LEVEL, &[[0, 0, SIDE, SIDE]], &[0])
}

fn with_number(table: &Table, id: usize, field: usize, number: i64) -> Table {
    let mut changed = table.clone();
    changed.row[id * WIDTH + field] = number;
    changed
}

fn levels_and_counts() -> Vec<Named> {
    let side = |level: u64| 1i64 << (level + 1);
    let square = |level: u64, side: i64| one_root(level, [0, 0, side, side]);
    let mut list = Vec::new();
    for level in [0, 1, WIDEST_LEVEL, WIDEST_LEVEL + 1] {
        list.push((format!("level {level}"), square(level, side(level))));
        list.push((format!("level {level}, half a side"), square(level, side(level) / 2)));
    }
    let mut ragged = split_root();
    ragged.row.push(0);
    list.push(named("a length that is no multiple of 8", ragged));
    let mut past = split_root();
    past.count += 1;
    list.push(named("a count past the slots", past));
    list
}

/// Each number of a spare slot.
fn spare_slots() -> Vec<Named> {
    let mut table = split_root();
    table.set_slots(table.count + 2);
    let spare = |field: usize| with_number(&table, table.count + field % 2, field, 1);
    (0..WIDTH).map(|field| (format!("a spare slot's {}", FIELDS[field]), spare(field))).collect()
}

fn roots() -> Vec<Named> {
    let root = |rect| one_root(LEVEL, rect);
    let (low, high) = (-COORDINATE, COORDINATE);
    let mut list = vec![
        named("a root over the whole field", root([low, low, high, high])),
        named("x0 past the range", root([low - SIDE, 0, low + SIDE, SIDE])),
        named("y0 past the range", root([0, low - SIDE, SIDE, low + SIDE])),
        named("x1 past the range", root([high - SIDE, 0, high + SIDE, SIDE])),
        named("y1 past the range", root([0, high - SIDE, SIDE, high + SIDE])),
        named("a root of no width", root([0, 0, 0, SIDE])),
        named("a root of no height", root([0, 0, SIDE, 0])),
        named("a root turned in x", root([SIDE, 0, 0, SIDE])),
        named("a root turned in y", root([0, SIDE, SIDE, 0])),
        named("an uneven width", root([0, 0, SIDE + SIDE / 2, SIDE])),
        named("an uneven height", root([0, 0, SIDE, SIDE + SIDE / 2])),
    ];
    let whole = root([0, 0, SIDE, SIDE]);
    for (what, field, number) in [
        ("a root of level 1", 4, 1),
        ("a negative level", 4, -1),
        ("a root that is its own parent", 5, 0),
        ("a negative parent", 5, -1),
        ("a parent past the count", 5, 1),
        ("a root that is its own child", 6, 0),
        ("a child past the count", 6, 1),
        ("a negative child", 6, -1),
        ("polygon 255", 7, 255),
        ("polygon 256", 7, 256),
        ("a negative polygon", 7, -1),
    ] {
        list.push(named(what, with_number(&whole, 0, field, number)));
    }
    list
}

/// Every number of each of four children, one more than it was.
fn children() -> Vec<Named> {
    let table = split_root();
    let mut list = vec![named("four children", table.clone())];
    for child in 1..5 {
        for (field, name) in FIELDS.iter().enumerate() {
            let number =
                if *name == "first child" { 1 } else { table.row[child * WIDTH + field] + 1 };
            let changed = with_number(&table, child, field, number);
            list.push((format!("child {child}'s {name}"), changed));
        }
    }
    list
}

/// Nothing is wrong with it but the order.
fn children_first() -> Table {
    let mut table = split_root();
    table.row.rotate_left(WIDTH);
    (0..4).for_each(|id| table.row[id * WIDTH + 5] = 4);
    table.row[4 * WIDTH + 6] = 0;
    table
}

/// What a cell and its children say of each other.
fn families() -> Vec<Named> {
    let beside = |splits: &[usize]| Table::with(LEVEL, &[[0, 0, 8, 8], [8, 0, 16, 8]], splits);
    let mut fourfold = beside(&[0]);
    Slot { first: 2, ..fourfold.slot(1) }.store(&mut fourfold.row, 1);

    let mut twice = split_root();
    (1..5).for_each(|id| twice.push(twice.slot(id)));

    let mut cut = split_root();
    cut.set_slots(3);
    cut.count = 3;

    let mut childless = split_root();
    childless.row[6] = NO_CELL;

    let mut too_fine = beside(&[0, 2]);
    too_fine.max_level = 1;
    // As many as would be children, if they weren't roots.
    let row: Vec<Rect> = (0..9).map(|n| [n * SIDE, 0, (n + 1) * SIDE, SIDE]).collect();
    vec![
        named("nine roots", Table::with(LEVEL, &row, &[])),
        named("nine roots, three of them split", Table::with(LEVEL, &row, &[8, 0, 4])),
        named("two levels of children", beside(&[0, 2])),
        named("a level past the table's", too_fine),
        named("two cells with the same four children", fourfold),
        named("a cell with two fours", twice),
        named("two children of four", cut),
        named("children before their parent", children_first()),
        named("children of a leaf", childless),
    ]
}

#[cfg(test)]
mod tests {
    use super::*;
    use calls::well_formed::well_formed;

    fn sound(tables: Vec<Named>) -> Vec<String> {
        let is_sound = |(_, table): &Named| well_formed(&table.row, table.head());
        tables.into_iter().filter(is_sound).map(|(name, _)| name).collect()
    }

    /// Those that are well formed; every other one is refused by 7.
    #[test]
    fn the_limits_are_accepted_and_all_else_is_refused() {
        let expected = [
            "level 0",
            "level 1",
            "level 12",
            "a root over the whole field",
            "polygon 255",
            "four children",
            "nine roots",
            "nine roots, three of them split",
            "two levels of children",
        ];
        assert_eq!(sound(limit_tables()), expected);
    }

    #[test]
    fn heads_with_another_number_of_leaves_are_refused() {
        let expected = [
            "two roots, one of them split: five leaves",
            "spare slots are no leaves",
            "no leaf of no cell",
        ];
        assert_eq!(sound(limit_heads()), expected);
    }
}
