//! Damage to a table, one thing at a time: any number, the count, the leaves, the level, the length,
//! or an order. The leaves are counted anew, so that nothing else is wrong where they aren't.

use crate::random::Random;
use crate::tables::{wrong_leaves, Table};
use calls::limits::{COORDINATE, SLOTS};
use calls::table::{NO_CELL, WIDTH};

/// What one number is replaced by: neighbours, marks, limits, and what a narrower number would
/// hide.
pub fn replacements(number: i64, table: &Table) -> Vec<i64> {
    let unit = 1i64.checked_shl(table.max_level as u32 + 1).unwrap_or(2);
    let hidden = 1i64 << 32;
    let mut list: Vec<i64> = [-1, 1, -2, 2, -4, 4, unit, -unit, hidden, -hidden, i64::MIN]
        .iter()
        .map(|&off| number.wrapping_add(off))
        .collect();
    list.extend([0, 1, -1, number.wrapping_neg(), table.count as i64, table.count as i64 - 4]);
    list.extend([NO_CELL, NO_CELL - 1, NO_CELL + 1, 12, 13, 255, 256]);
    list.extend([COORDINATE, COORDINATE + 1, -COORDINATE, -COORDINATE - 1, i64::MIN, i64::MAX]);
    list.retain(|&other| other != number);
    list.sort_unstable();
    list.dedup();
    list
}

/// The table with each of its numbers replaced in each way, one at a time.
pub fn every_number(table: &Table) -> impl Iterator<Item = Table> + '_ {
    (0..table.row.len()).flat_map(move |at| {
        replacements(table.row[at], table).into_iter().map(move |number| {
            let mut damaged = table.clone();
            damaged.row[at] = number;
            damaged.recount();
            damaged
        })
    })
}

/// One random damage. Now and then it leaves a well-formed table.
pub fn damage(table: &mut Table, random: &mut Random) {
    match random.below(16) {
        0 => damage_level(table, random),
        1 => damage_count(table, random),
        2 => damage_length(table, random),
        3 => damage_spare_slot(table, random),
        4 => exchange_siblings(table, random),
        5 => copy_a_field(table, random),
        6 => copy_a_slot(table, random),
        7 => share_children(table, random),
        8 => children_before_their_parent(table, random),
        9 => return damage_leaves(table, random),
        _ => damage_number(table, random),
    }
    table.recount();
}

fn damage_leaves(table: &mut Table, random: &mut Random) {
    table.leaves = random.pick(&wrong_leaves(table));
}

fn damage_level(table: &mut Table, random: &mut Random) {
    let level = table.max_level;
    let wrong = [13, 14, 63, 64, 255, 256 + level, 1 << 32 | level, 1 << 63, u64::MAX];
    table.max_level = match random.below(3) {
        0 => random.below(13),
        1 => level.wrapping_add(random.pick(&[1, u64::MAX])),
        _ => random.pick(&wrong),
    };
}

fn damage_count(table: &mut Table, random: &mut Random) {
    let (count, slots) = (table.count, table.slots());
    let wrong = [slots + 1, slots + 4, SLOTS, count | 1 << 32, usize::MAX / WIDTH + 1, usize::MAX];
    let near = [0, 1, slots, count + 1, count + 4, count.wrapping_sub(1), count.saturating_sub(4)];
    table.count = if random.one_in(2) { random.pick(&near) } else { random.pick(&wrong) };
}

fn damage_length(table: &mut Table, random: &mut Random) {
    let length = table.row.len();
    let other = match random.below(20) {
        0 => (SLOTS + 1) * WIDTH,
        1..=9 => length + 1 + random.index(7),
        10..=14 => length.saturating_sub(1 + random.index(7)),
        _ => length.saturating_sub(WIDTH * (1 + random.index(4))),
    };
    table.row.resize(other, 0);
}

fn damage_spare_slot(table: &mut Table, random: &mut Random) {
    if table.slots() == table.count {
        table.set_slots(table.count + 1 + random.index(3));
    }
    let spare = table.row.len() - table.count * WIDTH;
    let at = table.count * WIDTH + random.index(spare);
    table.row[at] = random.pick(&[1, -1, NO_CELL, i64::MIN, 1 << 40]);
}

/// Two neighbouring slots change places, whole or their rectangles alone.
fn exchange_siblings(table: &mut Table, random: &mut Random) {
    if table.count < 2 {
        return damage_number(table, random);
    }
    let at = random.index(table.count - 1) * WIDTH;
    let width = random.pick(&[4, WIDTH]);
    for k in 0..width {
        table.row.swap(at + k, at + WIDTH + k);
    }
}

/// One cell takes a field of another.
fn copy_a_field(table: &mut Table, random: &mut Random) {
    if table.count == 0 {
        return damage_count(table, random);
    }
    let field = random.index(WIDTH);
    let (from, to) = (random.index(table.count), random.index(table.count));
    table.row[to * WIDTH + field] = table.row[from * WIDTH + field];
}

/// One cell becomes another's double, children and all.
fn copy_a_slot(table: &mut Table, random: &mut Random) {
    if table.count == 0 {
        return damage_count(table, random);
    }
    let (from, to) = (random.index(table.count), random.index(table.count));
    table.slot(from).store(&mut table.row, to);
}

/// A leaf beside a split root becomes its double, so that two cells claim the same four children
/// and only what those name as their parent tells.
fn share_children(table: &mut Table, random: &mut Random) {
    let is_root = |id: &usize| table.slot(*id).parent == NO_CELL;
    let roots: Vec<usize> = (0..table.count).filter(is_root).collect();
    let (split, whole): (Vec<usize>, Vec<usize>) =
        roots.into_iter().partition(|&id| !table.slot(id).is_leaf());
    if split.is_empty() || whole.is_empty() {
        return copy_a_slot(table, random);
    }
    let (from, to) = (random.pick(&split), random.pick(&whole));
    table.slot(from).store(&mut table.row, to);
}

/// Four children move to the slots before their parent and all ids follow, so that nothing is wrong
/// but the order.
fn children_before_their_parent(table: &mut Table, random: &mut Random) {
    let split: Vec<usize> = (0..table.count).filter(|&id| !table.slot(id).is_leaf()).collect();
    if split.is_empty() {
        return damage_number(table, random);
    }
    let parent = random.pick(&split);
    let first = table.slot(parent).first as usize;
    let mut order: Vec<usize> = (0..table.count).collect();
    order[parent..first + 4].rotate_right(4);

    let before = table.clone();
    let moved = |id: i64| match order.iter().position(|&old| old as i64 == id) {
        Some(new) => new as i64,
        None => id,
    };
    for (new, &old) in order.iter().enumerate() {
        let mut slot = before.slot(old);
        slot.parent = moved(slot.parent);
        slot.first = moved(slot.first);
        slot.store(&mut table.row, new);
    }
}

fn damage_number(table: &mut Table, random: &mut Random) {
    if table.row.is_empty() {
        return damage_level(table, random);
    }
    let at = random.index(table.row.len());
    let choice = replacements(table.row[at], table);
    table.row[at] = random.pick(&choice);
}
