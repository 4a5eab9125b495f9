//! What the generators claim, and the original against the coarsest splitting on what they make.

use calls::coarsest::{coarsest, Splitting};
use calls::contact::contact;
use calls::even::{even, Allowed};
use calls::table::{leaf_count, to_grid, Head};
use calls::well_formed::well_formed;
use inputs::damage::{damage, every_number};
use inputs::tables::{random_roomy_table, random_table, wrong_leaves, Table};
use inputs::Random;

fn is_well_formed(table: &Table) -> bool {
    well_formed(&table.row, table.head())
}

#[test]
fn random_tables_are_well_formed() {
    let mut random = Random::new(11);
    let mut behind = 0;
    for _ in 0..20_000 {
        let table = random_roomy_table(&mut random, 60);
        assert!(is_well_formed(&table), "{table:?}");
        let roots = (1..table.count).filter(|&id| table.slot(id).level == 0);
        behind += usize::from(roots.into_iter().any(|id| table.slot(id - 1).level > 0));
    }
    assert!(behind > 5_000, "roots behind split cells: {behind}");
}

#[test]
fn damage_mostly_breaks_a_table() {
    let mut random = Random::new(12);
    let mut broken = 0;
    for _ in 0..20_000 {
        let mut table = random_roomy_table(&mut random, 40);
        damage(&mut table, &mut random);
        broken += usize::from(!is_well_formed(&table));
    }
    assert!((14_000..20_000).contains(&broken), "{broken}");
}

#[test]
fn every_number_reaches_every_number() {
    let mut table = Table::with(2, &[[0, 0, 8, 8]], &[0]);
    table.set_slots(6);
    let mut reached = vec![false; table.row.len()];
    for damaged in every_number(&table) {
        let changed: Vec<usize> =
            (0..table.row.len()).filter(|&at| damaged.row[at] != table.row[at]).collect();
        assert_eq!(changed.len(), 1);
        reached[changed[0]] = true;
    }
    assert!(reached.into_iter().all(|seen| seen));
}

/// The original's table, read by names, is the coarsest splitting that the repair finds.
#[test]
fn the_original_ends_in_the_coarsest_splitting() {
    let mut random = Random::new(13);
    let mut split = [0, 0];
    for _ in 0..4_000 {
        let table = random_table(&mut random, 40);
        for (kind, allowed) in [Allowed::One, Allowed::None].into_iter().enumerate() {
            let Some(least) = coarsest(&table.row, table.count, allowed.levels(), 600) else {
                continue;
            };
            let mut full = table.clone();
            full.set_slots(least.cells());
            let made = even(&mut full.row, table.head(), allowed).expect("the room is exact");
            let splits = made.splits as usize;
            let (count, leaves) = (table.count + 4 * splits, table.leaves + 3 * splits);
            assert_eq!(made.head, Head { count, leaves, ..table.head() });
            assert_eq!(count, least.cells());
            assert_eq!(Splitting::of_table(&full.row, least.cells()), least);
            split[kind] += usize::from(splits > 0);
        }
    }
    assert!(split[0] > 1_333 && split[1] > 1_333, "{split:?}");
}

/// All splittings of two roots, two levels deep, as tables.
fn all_tables(roots: &[[i64; 4]; 2]) -> Vec<Table> {
    // One of 17 ways a root: whole, or split with any of its quarters split.
    let mut tables = Vec::new();
    for first in 0..17u32 {
        for second in 0..17u32 {
            let mut table = Table::with(2, roots, &[]);
            for (root, way) in [(0, first), (1, second)] {
                split_in_a_way(&mut table, root, way);
            }
            tables.push(table);
        }
    }
    tables
}

fn split_in_a_way(table: &mut Table, root: usize, way: u32) {
    if way == 0 {
        return;
    }
    table.split(root);
    let quarter = table.slot(root).first as usize;
    (0..4).filter(|k| (way - 1) >> k & 1 == 1).for_each(|k| table.split(quarter + k));
}

/// By brute force over all splittings: what the repair finds is even, keeps the table's splits, and
/// is contained in every other splitting that does both.
#[test]
fn the_repair_finds_the_coarsest_of_all() {
    let beside = [[0, 0, 8, 8], [8, 0, 16, 8]];
    let larger = [[0, 0, 8, 8], [8, 0, 24, 16]];
    let shifted = [[0, 0, 8, 8], [4, 8, 12, 16]];
    let inside = [[0, 0, 16, 16], [0, 0, 8, 8]];
    let apart = [[0, 0, 8, 8], [8, 8, 16, 16]];
    for roots in [beside, larger, shifted, inside, apart] {
        let tables = all_tables(&roots);
        let all: Vec<Splitting> =
            tables.iter().map(|table| Splitting::of_table(&table.row, table.count)).collect();
        for allowed in [0, 1] {
            let even: Vec<&Splitting> = all.iter().filter(|s| s.is_even(allowed)).collect();
            for (table, start) in tables.iter().zip(&all) {
                let least = coarsest(&table.row, table.count, allowed, 42).expect("two full roots");
                assert!(even.contains(&&least) && least.contains(start));
                let mut others = even.iter().filter(|other| other.contains(start));
                assert!(others.all(|other| other.contains(&least)));
            }
        }
    }
}

/// Evenness itself, by comparing all pairs of leaves with the original's contact.
#[test]
fn even_means_what_contact_says() {
    let mut random = Random::new(16);
    let mut uneven = [0, 0];
    for _ in 0..2_000 {
        let table = random_table(&mut random, 40);
        let leaves: Vec<_> =
            (0..table.count).map(|id| table.slot(id)).filter(|cell| cell.is_leaf()).collect();
        let apart = |allowed: i64| {
            leaves.iter().any(|a| {
                leaves.iter().any(|b| {
                    a.level > b.level + allowed
                        && matches!(contact(a.rect(), b.rect()), Ok(Some(_)))
                })
            })
        };
        let splitting = Splitting::of_table(&table.row, table.count);
        for allowed in [0, 1] {
            assert_eq!(splitting.is_even(allowed), !apart(i64::from(allowed)));
            uneven[allowed as usize] += usize::from(!splitting.is_even(allowed));
        }
    }
    assert!(uneven.into_iter().all(|tables| (400..1_900).contains(&tables)), "{uneven:?}");
}

/// The head's number is what the original counts, and four times the leaves is three times the cells and
/// the roots.
#[test]
fn the_original_counts_as_many_leaves() {
    let mut random = Random::new(17);
    for _ in 0..4_000 {
        let table = random_roomy_table(&mut random, 60);
        let counted = to_grid(&table.row, table.head()).leaf_count();
        assert_eq!((leaf_count(table.head()), table.leaves), (counted as u64, counted));
        let roots = (0..table.count).filter(|&id| table.slot(id).level == 0).count();
        assert_eq!(4 * counted, 3 * table.count + roots);
        for wrong in wrong_leaves(&table) {
            assert!(!is_well_formed(&table.with_leaves(wrong)), "{wrong}");
        }
    }
}
