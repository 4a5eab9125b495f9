//! Every clause of "Well-formed table": one change to a sound table that breaks it.

mod common;

use calls::table::{leaf_count, leaves, Slot, NO_CELL, WIDTH};
use calls::well_formed::well_formed;
use calls::Refusal;
use common::{p2, Table};

fn is_well_formed(table: &Table) -> bool {
    let by_definition = well_formed(&table.row, table.head);
    let by_call = leaves(&table.row, table.head, &mut [0; 16]);
    assert_eq!(by_definition, by_call != Err(Refusal { number: 7, place: 0 }));
    assert_eq!(leaf_count(table.head), table.head.leaves as u64);
    by_definition
}

/// P2 with two slots to spare, one change made.
fn changed(change: impl Fn(&mut Table)) -> bool {
    let mut table = p2(12);
    assert!(is_well_formed(&table));
    change(&mut table);
    // So that nothing but the change can break it.
    table.recount();
    is_well_formed(&table)
}

/// P2 with one slot changed.
fn with_slot(id: usize, change: impl Fn(&mut Slot)) -> bool {
    changed(|table| {
        let mut slot = table.slot(id);
        change(&mut slot);
        slot.store(&mut table.row, id);
    })
}

#[test]
fn max_level_is_in_range() {
    for level in [13, 255, 256 + 2, 1 << 32 | 2, 1 << 63, u64::MAX] {
        assert!(!changed(|table| table.head.max_level = level), "{level}");
    }
    let empty = |max_level| Table::new(max_level, 0, &[], &[]);
    assert!(is_well_formed(&empty(0)) && is_well_formed(&empty(12)));
    assert!(!is_well_formed(&empty(13)));
}

#[test]
fn length_is_a_multiple_of_8_and_slots_are_in_range() {
    for extra in 1..8 {
        assert!(!changed(|table| table.row.extend(vec![0; extra])));
        assert!(!changed(|table| table.row.truncate(12 * WIDTH - extra)));
    }
    let empty = |slots| Table::new(1, slots, &[], &[]);
    assert!(is_well_formed(&empty(16_384)));
    assert!(!is_well_formed(&empty(16_385)));
}

#[test]
fn count_is_at_most_the_slots() {
    for count in [13, 1 << 32, usize::MAX / 8 + 1, usize::MAX] {
        assert!(!changed(|table| table.head.count = count), "{count}");
    }
    assert!(is_well_formed(&p2(10)));
}

#[test]
fn slots_past_the_count_are_zero() {
    for at in 10 * WIDTH..12 * WIDTH {
        for number in [1, -1, i64::MIN, NO_CELL] {
            assert!(!changed(|table| table.row[at] = number), "{at} {number}");
        }
    }
}

#[test]
fn a_slot_of_zeros_is_no_cell() {
    assert!(!changed(|table| table.head.count = 11));
}

#[test]
fn a_root_has_level_0() {
    assert!(!with_slot(1, |root| root.level = 1));
    assert!(!with_slot(1, |root| root.level = -1));
}

#[test]
fn a_roots_coordinates_are_in_range() {
    let at = |x0: i64, x1: i64| with_slot(1, |root| (root.x0, root.x1) = (x0, x1));
    let limit = 1 << 36;
    assert!(at(limit - 8, limit) && at(-limit, 8 - limit) && at(-limit, limit));
    assert!(!at(limit - 7, limit + 1) && !at(-limit - 1, 7 - limit));
    assert!(!at(i64::MAX - 7, i64::MAX) && !at(i64::MIN, i64::MIN + 8));
    assert!(!at(i64::MIN, i64::MAX));
    let up = |y0: i64, y1: i64| with_slot(1, |root| (root.y0, root.y1) = (y0, y1));
    assert!(up(limit - 8, limit) && !up(limit - 7, limit + 1) && !up(-limit - 1, 7 - limit));
}

#[test]
fn a_roots_sides_are_positive_multiples() {
    for width in [8, 16, 24, 8 << 20] {
        assert!(with_slot(1, |root| root.x1 = root.x0 + width), "{width}");
        assert!(with_slot(1, |root| root.y1 = root.y0 + width), "{width}");
    }
    for width in [-8, 0, 1, 4, 7, 9, 12] {
        assert!(!with_slot(1, |root| root.x1 = root.x0 + width), "{width}");
        assert!(!with_slot(1, |root| root.y1 = root.y0 + width), "{width}");
    }
    // The coordinates themselves may be odd.
    assert!(with_slot(1, |root| (root.x0, root.x1) = (3, 11)));
}

#[test]
fn no_level_is_above_max_level() {
    assert!(!changed(|table| table.head.max_level = 1));
    assert!(changed(|table| table.head.max_level = 2));
    // A higher max_level asks for wider roots.
    assert!(!changed(|table| table.head.max_level = 3));
}

#[test]
fn children_stand_above_their_parent_and_below_the_count() {
    // 0 has the children 2 to 5, 3 has the children 6 to 9.
    for first in [-1, 0, 1, 3, 5, 6, 7, 9, 10, 1 << 32 | 2, i64::MIN, i64::MAX] {
        assert!(!with_slot(0, |cell| cell.first = first), "{first}");
    }
    for first in [0, 1, 2, 3, 4, 6, 10, 14, NO_CELL - 1, NO_CELL + 1] {
        assert!(!with_slot(1, |cell| cell.first = first), "{first}");
    }
    assert!(!changed(|table| table.head.count = 9));
}

#[test]
fn children_name_their_parent() {
    for parent in [1, 2, 3, -1, 10, NO_CELL, i64::MAX] {
        assert!(!with_slot(4, |cell| cell.parent = parent), "{parent}");
    }
    assert!(!with_slot(1, |cell| cell.parent = 0));
}

#[test]
fn children_are_one_level_finer_and_of_the_same_polygon() {
    assert!(!with_slot(2, |cell| cell.level = 0));
    assert!(!with_slot(2, |cell| cell.level = 2));
    assert!(!with_slot(6, |cell| cell.level = 1));
    assert!(!with_slot(2, |cell| cell.polygon = 1));
    assert!(!with_slot(0, |cell| cell.polygon = 1));
}

#[test]
fn children_stand_in_order_and_are_cut_at_the_midpoints() {
    for (a, b) in [(2, 4), (2, 5), (4, 5), (6, 7), (7, 8)] {
        let swapped = changed(|table| {
            let (first, second) = (table.slot(a).rect(), table.slot(b).rect());
            for (id, [x0, y0, x1, y1]) in [(a, second), (b, first)] {
                let slot = Slot { x0, y0, x1, y1, ..table.slot(id) };
                slot.store(&mut table.row, id);
            }
        });
        assert!(!swapped, "{a} {b}");
    }
    for id in 2..10 {
        for at in 0..4 {
            for off in [-1, 1, 1 << 40, i64::MIN] {
                let moved = changed(|table| {
                    let number = &mut table.row[id * WIDTH + at];
                    *number = number.wrapping_add(off);
                });
                assert!(!moved, "{id} {at} {off}");
            }
        }
    }
}

#[test]
fn each_cell_that_is_no_root_is_one_of_its_parents_four() {
    // 10 says that 0, and then that 3, is its parent, but it isn't among their four.
    for parent in [0, 3] {
        let orphan = changed(|table| {
            let slot = Slot { parent, ..table.slot(2) };
            slot.store(&mut table.row, 10);
            table.head.count = 11;
        });
        assert!(!orphan, "{parent}");
    }
    // The children of a cell that says it has none.
    assert!(!with_slot(3, |cell| cell.first = NO_CELL));
}

#[test]
fn polygon_indices_are_below_256() {
    assert!(with_slot(1, |root| root.polygon = 255));
    for polygon in [256, -1, NO_CELL, i64::MIN, i64::MAX] {
        assert!(!with_slot(1, |root| root.polygon = polygon), "{polygon}");
    }
}

#[test]
fn roots_need_not_stand_first() {
    assert!(changed(|table| {
        Slot::root([1, 1, 9, 9], 3).store(&mut table.row, 10);
        table.head.count = 11;
    }));
}

/// The number of leaves is that of the cells without a child, and every other is refused.
#[test]
fn leaves_are_as_many_as_cells_without_a_child() {
    let roots = [[0, 0, 8, 8], [8, 0, 16, 8]];
    for (table, leaves) in [
        (Table::new(2, 0, &[], &[]), 0),
        (Table::new(2, 16, &[], &[]), 0),
        (Table::new(2, 2, &roots, &[]), 2),
        (Table::new(2, 6, &roots, &[0]), 5),
        (p2(10), 8),
        (p2(16), 8),
    ] {
        let far = [u32::MAX as usize, 1 << 32 | leaves, 1 << 63, usize::MAX];
        let near = [leaves.wrapping_sub(1), leaves, leaves + 1, leaves + 3, table.head.count];
        for other in near.into_iter().chain(far).chain(0..16) {
            let mut with = table.clone();
            with.head.leaves = other;
            assert_eq!(is_well_formed(&with), other == leaves, "{other}");
        }
    }
}

/// Four times the leaves is three times the cells and the roots, whatever was split.
#[test]
fn a_split_is_four_cells_and_three_leaves_more() {
    let mut table = p2(42);
    assert_eq!((table.head.count, table.head.leaves), (10, 8));
    for id in [1, 2, 4, 5, 10, 11, 12, 13] {
        assert_eq!(4 * table.head.leaves, 3 * table.head.count + 2);
        table.split(id);
    }
    assert_eq!((table.head.count, table.head.leaves), (42, 32));
}
