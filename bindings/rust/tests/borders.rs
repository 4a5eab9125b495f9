//! Borders: of two rectangles by hand, and of many against `contact` of every pair.

mod shared;

use leafmesh::*;
use shared::{rect_of, rooted, sample, Dice};

type Leaf = (usize, Rect);

fn border(side: Side, length: u64) -> Border {
    Border { side, length }
}

fn found(first: usize, second: usize, side: Side, length: u64) -> LeafBorder {
    LeafBorder {
        first,
        second,
        border: border(side, length),
    }
}

/// What `contact` says of every pair, in the order of the ids, which rise.
fn of_all_pairs(leaves: &[Leaf]) -> Vec<LeafBorder> {
    let mut all = Vec::new();
    for (at, &(first, a)) in leaves.iter().enumerate() {
        for &(second, b) in &leaves[at + 1..] {
            let border = contact(a, b).expect("leaves");
            all.extend(border.map(|border| LeafBorder {
                first,
                second,
                border,
            }));
        }
    }
    all
}

fn assert_in_order(all: &[LeafBorder]) {
    let ids = |one: &LeafBorder| (one.first, one.second);
    assert!(all.iter().all(|one| one.first < one.second));
    assert!(all.windows(2).all(|two| ids(&two[0]) < ids(&two[1])));
}

fn leaves_of(table: &Table) -> Vec<Leaf> {
    let mut ids = vec![0; table.leaf_count()];
    table.leaves(&mut ids).expect("room");
    let leaf = |id: u64| (id as usize, rect_of(table.row(), id as usize));
    ids.into_iter().map(leaf).collect()
}

/// The borders of a table, which are those of all its pairs.
fn of_table(table: &Table) -> Vec<LeafBorder> {
    let leaves = leaves_of(table);
    let all = table.borders().expect("a table");
    assert_in_order(&all);
    assert!(all == of_all_pairs(&leaves), "{} leaves", leaves.len());
    all
}

#[test]
fn two_rectangles_by_hand() {
    let a = [0, 0, 4, 4];
    for (b, side, length) in [
        ([4, 3, 8, 8], Side::East, 1),
        ([0, 4, 8, 8], Side::North, 4),
        ([-2, -4, 9, 0], Side::South, 4),
        ([-6, 2, 0, 40], Side::West, 2),
        ([4, 1, 5, 2], Side::East, 1),
    ] {
        assert_eq!(contact(a, b), Ok(Some(border(side, length))), "{b:?}");
        assert_eq!(
            contact(b, a),
            Ok(Some(border(side.opposite(), length))),
            "{b:?}"
        );
    }
    for b in [[4, 4, 8, 8], [5, 0, 9, 4], [-4, -4, 0, 0], [1, 1, 2, 2], a] {
        assert_eq!(
            (contact(a, b), contact(b, a)),
            (Ok(None), Ok(None)),
            "{b:?}"
        );
    }
    // The longest border that there is.
    let most = COORDINATE;
    let halves = [[-most, -most, 0, most], [0, -most, most, most]];
    assert_eq!(
        contact(halves[0], halves[1]),
        Ok(Some(border(Side::East, 1 << 37)))
    );
}

#[test]
fn sides_across() {
    for (side, across) in [(Side::South, Side::North), (Side::East, Side::West)] {
        assert_eq!((side.opposite(), across.opposite()), (across, side));
    }
}

#[test]
fn what_is_no_rectangle_is_refused() {
    let refused = Err(Refusal {
        reason: Reason::OutOfRange,
        place: 0,
    });
    let good = [0, 0, 4, 4];
    let past = COORDINATE + 1;
    for bad in [
        [4, 0, 4, 4],
        [0, 4, 4, 4],
        [5, 0, 4, 4],
        [0, 5, 4, 4],
        [-past, 0, 4, 4],
        [0, -past, 4, 4],
        [0, 0, past, 4],
        [0, 0, 4, past],
        [i64::MIN, 0, 4, 4],
        [0, 0, 4, i64::MAX],
    ] {
        assert_eq!(contact(good, bad), refused, "{bad:?}");
        assert_eq!(contact(bad, good), refused, "{bad:?}");
        // With a leaf that it touches nowhere, and alone.
        let of_list = Err(Refusal {
            reason: Reason::OutOfRange,
            place: 9,
        });
        assert_eq!(borders(&[(3, [7, 7, 8, 8]), (9, bad), (1, bad)]), of_list);
        assert_eq!(borders(&[(9, bad)]), of_list);
    }
    assert_eq!(borders(&[]), Ok(vec![]));
    assert_eq!(borders(&[(3, good)]), Ok(vec![]));
}

/// Two squares side by side, of 8 by 8 ticks: 0 split into 2 to 5, then 3 into 6 to 9.
#[test]
fn a_small_table_by_hand() {
    let (mut row, head) = rooted(&[[0, 0, 8, 8], [8, 0, 16, 8]], 2, 64);
    let mut table = Table::of(&mut row, head).expect("two roots");
    assert_eq!(table.borders(), Ok(vec![found(0, 1, Side::East, 8)]));
    table.refine(0).expect("a leaf");
    table.refine(3).expect("a leaf");
    let by_hand = [
        found(1, 5, Side::West, 4),
        found(1, 7, Side::West, 2),
        found(1, 9, Side::West, 2),
        found(2, 4, Side::North, 4),
        found(2, 6, Side::East, 2),
        found(2, 8, Side::East, 2),
        found(4, 5, Side::East, 4),
        found(5, 8, Side::South, 2),
        found(5, 9, Side::South, 2),
        found(6, 7, Side::East, 2),
        found(6, 8, Side::North, 2),
        found(7, 9, Side::North, 2),
        found(8, 9, Side::East, 2),
    ];
    assert_eq!(of_table(&table), by_hand);
}

/// Equal roots touch at no side, and each touches what lies beside both.
#[test]
fn leaves_over_each_other_by_hand() {
    let (mut row, head) = rooted(&[[0, 0, 4, 4], [4, 0, 8, 4], [0, 0, 4, 4]], 0, 3);
    let table = Table::of(&mut row, head).expect("three roots");
    let by_hand = [found(0, 1, Side::East, 4), found(1, 2, Side::West, 4)];
    assert_eq!(of_table(&table), by_hand);

    let lying = |at: usize, x0: i64| (at, [x0, 0, x0 + 4, 4]);
    let piles: Vec<Leaf> = (0..200).map(|at| lying(at, 4 * (at as i64 % 2))).collect();
    let all = borders(&piles).expect("leaves");
    assert_eq!((all.len(), &all), (100 * 100, &of_all_pairs(&piles)));
}

/// Ids need not rise along the list.
#[test]
fn a_list_is_told_by_its_ids() {
    let leaves = [
        (7, [0, 0, 4, 4]),
        (usize::MAX, [4, 0, 8, 2]),
        (2, [-2, -4, 9, 0]),
    ];
    let by_hand = [
        found(2, 7, Side::North, 4),
        found(2, usize::MAX, Side::North, 4),
        found(7, usize::MAX, Side::East, 2),
    ];
    assert_eq!(borders(&leaves), Ok(by_hand.to_vec()));
}

#[test]
fn rectangles_by_chance() {
    let mut dice = Dice(34);
    let mut seen = 0;
    for round in 0..400 {
        let most = 4 + round / 20;
        let leaves: Vec<Leaf> = (0..60)
            .map(|id| {
                let [x0, y0] = [0, 0].map(|_| dice.between(-4, most));
                let [w, h] = [0, 0].map(|_| dice.between(1, 5));
                (id, [x0, y0, x0 + w, y0 + h])
            })
            .collect();
        let all = borders(&leaves).expect("leaves");
        assert_in_order(&all);
        assert_eq!(all, of_all_pairs(&leaves));
        seen += all.len();
    }
    assert!(seen > 30_000, "{seen}");
}

/// Roots that lie beside and over each other, some at the same place, split by chance: before balance and after.
#[test]
fn tables_by_chance() {
    let mut dice = Dice(7);
    let mut seen = 0;
    for _ in 0..60 {
        let (mut row, head) = rooted(&dice.roots(), 3, 8_000);
        let mut table = Table::of(&mut row, head).expect("roots");
        let cells = dice.below(20);
        dice.split(&mut table, cells);
        seen += of_table(&table).len();
        table.balance().expect("room");
        seen += of_table(&table).len();
    }
    assert!(seen > 5_000, "{seen}");
}

/// Balanced boards of several polygons, layers and levels: by the mesh, by its table, by leafnet's text.
#[test]
fn sample_boards() {
    for (name, least) in [
        ("neck.txt", 50),
        ("comb.txt", 20),
        ("two_layers.txt", 5),
        ("overlap.txt", 5),
        ("deep.txt", 100),
        ("shunt.txt", 4_000),
        ("vias.txt", 6_000),
    ] {
        let board = text::parse_whole(&sample(name)).expect("a board").board;
        let mesh = Mesh::unjudged(&board).expect("a mesh");
        let all = mesh.borders();
        assert!(all.len() >= least, "{name}: {}", all.len());
        let net = mesh.unjudged_net().expect("a net");
        let printed = printed::show_mesh(&board, &mesh, &net);
        let printed = printed::read(&printed).expect("leafnet's text");
        assert_eq!(printed.borders(), Ok(all.clone()), "{name}");
        let mut row = mesh.row().to_vec();
        let table = Table::of(&mut row, mesh.head()).expect("a table");
        assert_eq!(of_table(&table), all, "{name}");
    }
}

/// The largest room, nearly full: two layers with cells of unequal size over each other, split by chance, balanced.
#[test]
fn more_than_ten_thousand_leaves() {
    let mut dice = Dice(10_000);
    let mut polygons = Polygons::default();
    let square = |side: i64| [[0, 0], [side, 0], [side, side], [0, side]];
    polygons.push(1, 0, 1.0, &square(56 * 64));
    polygons.push(2, 0, 1.0, &square(40 * 64));
    polygons.push(2, 1, 1.0, &square(40 * 64));
    let settings = Settings {
        max_level: 4,
        cap: 256,
        target: 64,
    };
    let mut mesh = Mesh::new(settings, &[[2, 128]], polygons).expect("base cells");
    while mesh.head().leaves < 10_400 {
        let before = mesh.head().leaves;
        for _ in 0..100 {
            // Of a split cell and at the deepest level it is refused.
            let _ = mesh.refine(dice.below(mesh.head().count as u64) as usize);
        }
        assert!(mesh.head().leaves > before);
        mesh.balance().expect("room");
    }
    let mut row = mesh.row().to_vec();
    let table = Table::of(&mut row, mesh.head()).expect("a table");
    let all = of_table(&table);
    assert!(all.len() > 20_000, "{}", all.len());
    let lengths: std::collections::BTreeSet<u64> =
        all.iter().map(|one| one.border.length).collect();
    assert!(lengths.len() >= 4, "{lengths:?}");
}

/// Too many for a look at all pairs: a grid whose borders are counted by its rows and columns.
#[test]
fn a_hundred_thousand_leaves() {
    let (wide, high) = (400, 250);
    let cell = |at: usize| {
        let (x, y) = (8 * (at % wide) as i64, 2 * (at / wide) as i64);
        (at, [x, y, x + 8, y + 2])
    };
    let leaves: Vec<Leaf> = (0..wide * high).map(cell).collect();
    let all = borders(&leaves).expect("leaves");
    assert_in_order(&all);
    let of_side = |side: Side, length: u64| {
        let is_one = |one: &&LeafBorder| one.border == border(side, length);
        all.iter().filter(is_one).count()
    };
    let beside = of_side(Side::East, 2);
    let above = of_side(Side::North, 8);
    assert_eq!((beside, above), ((wide - 1) * high, wide * (high - 1)));
    assert_eq!(all.len(), beside + above);
    assert_eq!(all[0], found(0, 1, Side::East, 2));
    assert_eq!(all[1], found(0, wide, Side::North, 8));
}

#[test]
fn what_is_no_table_has_no_borders() {
    let refused = Refusal {
        reason: Reason::BadTable,
        place: 0,
    };
    let board = text::parse(&sample("neck.txt")).expect("a board");
    let mesh = Mesh::of_board(&board).expect("a mesh");
    assert!(!mesh.borders().is_empty());
    let with = |change: &dyn Fn(&mut Vec<i64>, &mut Head)| {
        let (mut row, mut head) = (mesh.row().to_vec(), mesh.head());
        change(&mut row, &mut head);
        let table = Table::of(&mut row, head);
        assert_eq!(table.expect_err("no table"), refused);
    };
    with(&|row, _| row[columns::X1] += 1);
    with(&|row, _| row[columns::X0] = row[columns::X1]);
    with(&|row, _| row.truncate(SLOT));
    with(&|row, _| row.clear());
    with(&|_, head| head.leaves += 1);
    with(&|_, head| head.count += 1);
    with(&|_, head| head.count = usize::MAX);
    with(&|_, head| (head.count, head.leaves) = (usize::MAX, usize::MAX));
    with(&|_, head| head.max_level = 13);
}
