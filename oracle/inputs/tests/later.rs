//! What is drawn for the comparison of splits that come later, and the names that it goes by.

use calls::coarsest::{coarsest, id_of, leaves_by_name, names, Name, Splitting};
use calls::even::Allowed;
use calls::well_formed::well_formed;
use inputs::later::{steep_table, table_to_even, MoreSplits, SplitList};
use inputs::tables::{random_table, Table};
use inputs::Random;
use std::collections::BTreeSet;

const CELLS: usize = 32;
const WIDEST: usize = 200;

fn splitting_of(table: &Table) -> Splitting {
    Splitting::of_table(&table.row, table.count)
}

fn names_of(table: &Table) -> Vec<Name> {
    names(&table.row, table.count)
}

fn evened(table: &Table, allowed: Allowed) -> Option<Splitting> {
    coarsest(&table.row, table.count, allowed.levels(), WIDEST)
}

/// Names and ids lead to each other, and the leaves are those of the table.
#[test]
fn each_cell_has_one_name() {
    let mut random = Random::new(31);
    for _ in 0..2_000 {
        let table = random_table(&mut random, 60);
        let found: Vec<usize> = names_of(&table)
            .into_iter()
            .map(|name| id_of(&table.row, table.count, name).expect("it is there"))
            .collect();
        assert!(found.into_iter().eq(0..table.count));
        let leaves = leaves_by_name(&table.row, table.count);
        assert_eq!(leaves.len(), table.leaves);
        for leaf in leaves {
            let id = id_of(&table.row, table.count, leaf.name).expect("it is there");
            let slot = table.slot(id);
            let expected = (leaf.rect, leaf.polygon, i64::from(leaf.name.depth()));
            assert_eq!((slot.rect(), slot.polygon, slot.level), expected);
        }
    }
}

#[test]
fn roots_overlap_by_an_area() {
    let first = [0, 0, 8, 8];
    let cases = [
        ([8, 0, 16, 8], false),
        ([8, 8, 16, 16], false),
        ([16, 0, 24, 8], false),
        ([0, -8, 8, 0], false),
        ([0, 0, 8, 8], true),
        ([7, 7, 15, 15], true),
        ([-8, 2, 16, 6], true),
        ([2, 2, 6, 6], true),
    ];
    for (second, overlap) in cases {
        for roots in [[first, second], [second, first]] {
            let table = Table::with(0, &roots, &[]);
            assert_eq!(splitting_of(&table).roots_overlap(), overlap, "{roots:?}");
        }
    }
    assert!(!splitting_of(&Table::with(0, &[first], &[])).roots_overlap());
}

#[test]
fn steep_tables_are_well_formed_and_deep() {
    let mut random = Random::new(34);
    let mut of_two_roots = 0;
    for _ in 0..500 {
        let table = steep_table(&mut random);
        assert!(well_formed(&table.row, table.head()));
        let deepest = (0..table.count).map(|id| table.slot(id).level).max();
        assert!(deepest >= Some(4), "{table:?}");
        of_two_roots += usize::from(table.slot(1).level == 0);
    }
    assert!((100..400).contains(&of_two_roots), "{of_two_roots}");
}

/// More splits are all of the few and some more, of the same roots, with other ids. Beside those there are tables
/// whose evened form isn't finer.
#[test]
fn more_splits_hold_the_few() {
    let mut random = Random::new(32);
    let [mut same, mut many, mut other_ids, mut coarser] = [0; 4];
    for _ in 0..4_000 {
        let few = table_to_even(CELLS, &mut random);
        let MoreSplits { table: more, of_its_own } = MoreSplits::than(&few, &mut random);
        assert!(well_formed(&more.row, more.head()) && more.max_level == few.max_level);
        if of_its_own {
            let [few, more] = [few, more].map(|table| evened(&table, Allowed::One));
            coarser += usize::from(few.zip(more).map_or(false, |(few, more)| !more.contains(&few)));
            continue;
        }
        assert!(splitting_of(&more).contains(&splitting_of(&few)));
        let further = (more.count - few.count) / 4;
        same += usize::from(further == 0);
        many += usize::from(further > 8);
        other_ids += usize::from(!names_of(&more).starts_with(&names_of(&few)));
    }
    assert!((400..2_000).contains(&same), "no more splits: {same}");
    assert!(many > 100, "many more: {many}");
    assert!(other_ids > 2_000, "other ids: {other_ids}");
    assert!(coarser > 50, "no pair, and not finer: {coarser}");
}

/// What lists of names are like.
#[derive(Debug, Default)]
struct Seen {
    lists: usize,
    empty: usize,
    full: usize,
    overlapping: usize,
    passed_over_later: usize,
    below_those: usize,
    split_already: usize,
    given_twice: usize,
    evened_again: usize,
    without_cell: usize,
    at_the_last_level: usize,
}

impl Seen {
    fn look(&mut self, table: &Table, first: &Splitting, list: &SplitList, allowed: Allowed) {
        self.lists += 1;
        self.empty += usize::from(list.names.is_empty());
        self.full += usize::from(list.names.len() == 12);
        self.overlapping += usize::from(splitting_of(table).roots_overlap());
        let given: BTreeSet<Name> = list.names.iter().copied().collect();
        self.given_twice += usize::from(given.len() < list.names.len());

        let (start, after) = (splitting_of(table), splitting_of(&list.after));
        let any =
            |wanted: &dyn Fn(Name) -> bool| usize::from(list.names.iter().any(|&n| wanted(n)));
        let split_by_list = |name| after.splits(name) && !start.splits(name);
        self.split_already += any(&|name| start.splits(name));
        self.passed_over_later += any(&|name| split_by_list(name) && first.splits(name));
        self.below_those += any(&|name| {
            let of_the_first = |above| first.splits(above) && !start.splits(above);
            split_by_list(name) && !first.splits(name) && name.parent().map_or(false, of_the_first)
        });
        let id = |name| id_of(&list.after.row, list.after.count, name);
        self.without_cell += any(&|name| id(name).is_none());
        self.at_the_last_level +=
            any(&|name| id(name).is_some() && u64::from(name.depth()) == table.max_level);
        if let Some(all) = evened(&list.after, allowed) {
            // What is split neither by the first evening nor by the list.
            self.evened_again += usize::from(all.cells() > both_split(first, &list.after));
        }
    }
}

/// How many cells there are once a splitting has the splits of a table, too.
fn both_split(first: &Splitting, table: &Table) -> usize {
    let split = splitting_of(table);
    let names = names_of(table).into_iter().filter(|&name| split.splits(name));
    first.cells() + 4 * names.filter(|&name| !first.splits(name)).count()
}

#[test]
fn lists_meet_each_case() {
    for allowed in [Allowed::One, Allowed::None] {
        let mut random = Random::new(33);
        let mut seen = Seen::default();
        while seen.lists < 2_000 {
            let table = table_to_even(CELLS, &mut random);
            if let Some(first) = evened(&table, allowed) {
                let list = SplitList::random(&table, &first, &mut random);
                assert!(well_formed(&list.after.row, list.after.head()));
                seen.look(&table, &first, &list, allowed);
            }
        }
        let often =
            [seen.overlapping, seen.passed_over_later, seen.split_already, seen.given_twice];
        assert!(often.into_iter().all(|lists| lists > 600), "{seen:?}");
        let now_and_then = [seen.empty, seen.full, seen.below_those, seen.evened_again];
        assert!(now_and_then.into_iter().all(|lists| lists > 60), "{seen:?}");
        let rarely = [seen.without_cell, seen.at_the_last_level];
        assert!(rarely.into_iter().all(|lists| (10..200).contains(&lists)), "{seen:?}");
    }
}
