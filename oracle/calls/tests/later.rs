//! Splits made before and after the first evening, shown of the original on one board.

mod common;

use calls::coarsest::{id_of, leaves_by_name, names, Name, Splitting};
use calls::even::{even, Allowed};
use calls::table::{refine, Head};
use common::{refused, Table};

const SOUTH_EAST: u32 = 1;
const SLOTS: usize = 80;

/// Four squares, three of them in a row and one apart. The first is split, then its south-eastern quadrant.
fn board() -> Table {
    let roots = [[0, 0, 8, 8], [8, 0, 16, 8], [16, 0, 24, 8], [32, 0, 40, 8]];
    Table::new(2, SLOTS, &roots, &[0, 5])
}

/// The second square, its south-eastern quadrant, and the square apart.
fn list() -> [Name; 3] {
    [Name::root(1), Name::root(1).child(SOUTH_EAST), Name::root(3)]
}

fn head(count: usize, leaves: usize) -> Head {
    Head { count, leaves, max_level: 2 }
}

fn evened(mut table: Table, allowed: Allowed) -> Table {
    table.head = even(&mut table.row, table.head, allowed).expect("it has room").head;
    table
}

/// Splits the list in turn, and says which of its names weren't split already.
fn split_in_turn(mut table: Table) -> (Table, [bool; 3]) {
    let split = list().map(|name| {
        let id = id_of(&table.row, table.head.count, name).expect("the cell is there");
        let answer = refine(&mut table.row, table.head, id);
        if answer == refused(9, id as u64) {
            return false;
        }
        table.head = answer.expect("it can be split");
        true
    });
    (table, split)
}

fn same_leaves(one: &Table, other: &Table) -> bool {
    let leaves = |table: &Table| leaves_by_name(&table.row, table.head.count);
    leaves(one) == leaves(other)
}

#[test]
fn balance_splits_one_of_the_list_first() {
    let board = board();
    assert_eq!(board.head, head(12, 10));
    let first = evened(board.clone(), Allowed::One);
    assert_eq!(first.head, head(16, 13));
    assert!(!first.slot(1).is_leaf());
    let (parts, split) = split_in_turn(first);
    assert_eq!((parts.head, split), (head(24, 19), [false, true, true]));
    assert!(parts.slot(2).is_leaf());
    let parts = evened(parts, Allowed::One);
    assert_eq!(parts.head, head(28, 22));
    assert!(!parts.slot(2).is_leaf());

    let (all, split) = split_in_turn(board);
    assert_eq!((all.head, split), (head(24, 19), [true; 3]));
    let all = evened(all, Allowed::One);
    assert_eq!(all.head, head(28, 22));
    assert!(same_leaves(&parts, &all));
}

#[test]
fn conform_splits_all_but_one_of_the_list_first() {
    let first = evened(board(), Allowed::None);
    assert_eq!(first.head, head(64, 49));
    let (split_later, split) = split_in_turn(first);
    assert_eq!((split_later.head, split), (head(68, 52), [false, false, true]));
    let parts = evened(split_later.clone(), Allowed::None);
    assert_eq!(parts.row, split_later.row);

    let (all, split) = split_in_turn(board());
    assert_eq!((all.head, split), (head(24, 19), [true; 3]));
    let all = evened(all, Allowed::None);
    assert_eq!(all.head, head(68, 52));
    // The same cells, in another order.
    assert!(same_leaves(&parts, &all) && parts.row != all.row);
}

/// With four slots less than both need, the last call that splits is refused in either order.
#[test]
fn the_parts_need_the_room_that_all_at_once_needs() {
    for (allowed, cells) in [(Allowed::One, 28), (Allowed::None, 68)] {
        for slots in [cells - 4, cells] {
            let short = board().with_slots(slots);
            let (mut all, _) = split_in_turn(short.clone());
            let at_once = even(&mut all.row, all.head, allowed).map(|made| made.head.count);
            assert_eq!(at_once, if slots < cells { refused(6, 0) } else { Ok(cells) });
        }
    }
    let (mut parts, _) = split_in_turn(evened(board().with_slots(24), Allowed::One));
    assert_eq!(even(&mut parts.row, parts.head, Allowed::One), refused(6, 0));
    let mut parts = evened(board().with_slots(64), Allowed::None);
    assert_eq!(refine(&mut parts.row, parts.head, 3), refused(6, 0));
}

/// More splits, finer mesh: the board with the list split holds the board, and so do their evened forms.
#[test]
fn the_list_makes_the_mesh_finer() {
    for allowed in [Allowed::One, Allowed::None] {
        let few = evened(board(), allowed);
        let more = evened(split_in_turn(board()).0, allowed);
        let [few, more] =
            [few, more].map(|table| Splitting::of_table(&table.row, table.head.count));
        assert!(more.contains(&few) && !few.contains(&more));
    }
}

/// Names and ids lead to each other; what has no cell has no id.
#[test]
fn each_cell_is_found_by_its_name() {
    let table = evened(split_in_turn(board()).0, Allowed::None);
    let (row, count) = (&table.row, table.head.count);
    for (id, name) in names(row, count).into_iter().enumerate() {
        assert_eq!(id_of(row, count, name), Some(id));
        assert_eq!(i64::from(name.depth()), table.slot(id).level);
        if table.slot(id).is_leaf() {
            assert_eq!(id_of(row, count, name.child(SOUTH_EAST)), None);
        }
    }
    assert_eq!(id_of(row, count, Name::root(4)), None);
}
