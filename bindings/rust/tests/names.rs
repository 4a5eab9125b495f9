//! Cells by name: there and back on whole tables, and what is proved of balance and conform by name.

mod shared;

use leafmesh::*;
use shared::{rect_of, rooted, sample, samples, Dice};
use std::collections::BTreeSet;
use std::fs;
use std::iter::repeat_with;
use std::ops::Range;
use std::slice::from_ref;

fn named(text: &str) -> CellName {
    text.parse().expect("a name")
}

fn below(name: &CellName, quadrant: Quadrant) -> CellName {
    let mut name = name.clone();
    name.route.push(quadrant);
    name
}

fn quarter([x0, y0, x1, y1]: Rect, quadrant: Quadrant) -> Rect {
    let (x, y) = ((x0 + x1) / 2, (y0 + y1) / 2);
    match quadrant {
        Quadrant::SouthWest => [x0, y0, x, y],
        Quadrant::SouthEast => [x, y0, x1, y],
        Quadrant::NorthWest => [x0, y, x, y1],
        Quadrant::NorthEast => [x, y, x1, y1],
    }
}

fn number(table: &Table, id: usize, column: usize) -> i64 {
    table.row()[SLOT * id + column]
}

/// Every cell's name leads to it and tells where it lies; what no cell has for a name leads nowhere. Answers the length
/// of the longest route.
fn hold_names(table: &Table) -> usize {
    let count = table.head().count;
    let mut longest = 0;
    for id in 0..count {
        let name = table.name(id).expect("a cell");
        assert_eq!(table.id_of(&name), Some(id), "{name}");
        assert_eq!(name.to_string().parse(), Ok(name.clone()));
        let root = rect_of(table.row(), name.root);
        let place = name.route.iter().copied().fold(root, quarter);
        assert_eq!(place, rect_of(table.row(), id), "{name}");
        assert_eq!(name.route.len() as i64, number(table, id, columns::LEVEL));
        let is_root = number(table, id, columns::PARENT) == NO_CELL;
        assert_eq!(table.id_of(&named(&id.to_string())).is_some(), is_root);
        let is_split = number(table, id, columns::FIRST_CHILD) != NO_CELL;
        for quadrant in Quadrant::ALL {
            let child = table.id_of(&below(&name, quadrant));
            assert_eq!(child.is_some(), is_split, "{name}");
        }
        longest = longest.max(name.route.len());
    }
    for id in [count, count + 1, NO_CELL as usize, usize::MAX] {
        assert_eq!(table.name(id), None);
        assert_eq!(table.id_of(&named(&id.to_string())), None);
    }
    longest
}

#[test]
fn sample_boards() {
    let (mut boards, mut longest) = (0, 0);
    for entry in fs::read_dir(samples()).expect("boards") {
        let path = entry.expect("an entry").path();
        if path.extension().is_some_and(|kind| kind == "txt") {
            let words = fs::read_to_string(&path).expect("text");
            let board = text::parse_whole(&words).expect("a board").board;
            let mesh = Mesh::unjudged(&board).expect("a mesh");
            let names: Vec<_> = (0..=mesh.head().count).map(|id| mesh.name(id)).collect();
            for (id, name) in names.iter().enumerate() {
                let found = name.as_ref().and_then(|name| mesh.id_of(name));
                assert_eq!(found, (id < mesh.head().count).then_some(id));
            }
            let mut row = mesh.row().to_vec();
            let table = Table::of(&mut row, mesh.head()).expect("a table");
            longest = longest.max(hold_names(&table));
            let of_table = (0..names.len()).map(|id| table.name(id));
            assert!(of_table.eq(names));
            boards += 1;
        }
    }
    assert!(boards >= 8, "{boards}");
    assert_eq!(longest as u64, MAX_LEVEL);
}

#[test]
fn roots_over_each_other() {
    let mut dice = Dice(9);
    let mut longest = 0;
    for _ in 0..60 {
        let (mut row, head) = rooted(&dice.roots(), 3, 8_000);
        let mut table = Table::of(&mut row, head).expect("roots");
        dice.split(&mut table, 20);
        hold_names(&table);
        table.balance().expect("room");
        longest = longest.max(hold_names(&table));
    }
    assert_eq!(longest, 3);
}

/// A root may stand behind split cells, and is named by its id.
#[test]
fn a_root_behind_another_ones_quarters() {
    let (mut row, head) = rooted(&[[0, 0, 8, 8]], 2, 16);
    let root = row[..SLOT].to_vec();
    let mut table = Table::of(&mut row, head).expect("a root");
    table.refine(0).expect("a leaf");
    let Head { count, leaves, .. } = table.head();
    row[SLOT * count..SLOT * (count + 1)].copy_from_slice(&root);
    let head = Head {
        count: count + 1,
        leaves: leaves + 1,
        ..head
    };
    let mut table = Table::of(&mut row, head).expect("two roots");
    table.refine(5).expect("a leaf");
    assert_eq!(table.id_of(&named("5 NE")), Some(9));
    assert_eq!(hold_names(&table), 1);
}

#[test]
fn names_by_hand() {
    let (mut row, head) = rooted(&[[0, 0, 8, 8], [8, 0, 16, 8]], 2, 16);
    let mut table = Table::of(&mut row, head).expect("two roots");
    for id in [0, 1, 7] {
        table.refine(id).expect("a leaf");
    }
    let in_order = [
        (0, "0"),
        (2, "0 SW"),
        (3, "0 SE"),
        (4, "0 NW"),
        (5, "0 NE"),
        (1, "1"),
        (6, "1 SW"),
        (7, "1 SE"),
        (10, "1 SE SW"),
        (11, "1 SE SE"),
        (12, "1 SE NW"),
        (13, "1 SE NE"),
        (8, "1 NW"),
        (9, "1 NE"),
    ];
    for (id, text) in in_order {
        assert_eq!(table.name(id), Some(named(text)));
        assert_eq!(table.id_of(&named(text)), Some(id));
    }
    assert!(in_order
        .windows(2)
        .all(|two| named(two[0].1) < named(two[1].1)));
    let name = CellName {
        root: 1,
        route: vec![Quadrant::SouthEast, Quadrant::NorthWest],
    };
    assert_eq!(name.to_string(), "1 SE NW");
    for none in [
        "0 SW SW",
        "1 NE SW",
        "1 SE SE SE",
        "2",
        "7",
        "7 SE",
        "14",
        "16",
    ] {
        assert_eq!(table.id_of(&named(none)), None, "{none}");
    }
}

#[test]
fn what_is_no_name() {
    for text in ["", " ", "SW", "-1", "0.5", "1 sw", "1 S", "1 SW 2", "1,SW"] {
        let why = text.parse::<CellName>().expect_err("no name");
        assert_eq!(why.text, text);
        assert_eq!(why.to_string(), format!("no name of a cell: {text:?}"));
    }
}

fn leaf_names(table: &Table) -> BTreeSet<CellName> {
    let mut ids = vec![0; table.leaf_count()];
    table.leaves(&mut ids).expect("room");
    let names: BTreeSet<_> = ids
        .iter()
        .filter_map(|&id| table.name(id as usize))
        .collect();
    assert_eq!(names.len(), ids.len());
    names
}

/// Splits the cells of these names in turn. Answers how many were split already.
fn split(table: &mut Table, marks: &[CellName]) -> usize {
    let mut split_already = 0;
    for name in marks {
        let id = table.id_of(name).expect("a cell of this name");
        match table.refine(id) {
            Ok(()) => {}
            Err(why) if why.reason == Reason::AlreadySplit => split_already += 1,
            Err(why) => panic!("{name}: {why}"),
        }
    }
    split_already
}

/// The names of a cell and of all above it, from the root down.
fn way_to(name: &CellName) -> impl Iterator<Item = CellName> + '_ {
    let root = name.root;
    (0..=name.route.len()).map(move |length| CellName {
        root,
        route: name.route[..length].to_vec(),
    })
}

/// Base cells, what evens them out, and the roots that are marked.
struct Case {
    bare: Mesh,
    even_out: fn(&mut Table) -> Result<usize, Refusal>,
    roots: Range<usize>,
}

impl Case {
    /// A board of real size, balanced; the neck of its first layer is marked.
    fn balanced() -> Self {
        let board = text::parse(&sample("shunt.txt")).expect("a board");
        let polygons = board.polygons().expect("polygons");
        let bare = Mesh::new(board.settings(), &board.layers, polygons).expect("base cells");
        assert!(bare.head().leaves > 1_500);
        Case {
            bare,
            even_out: |table| table.balance(),
            roots: 384..432,
        }
    }

    /// Six squares with gaps between them, of four cells each, so that not all get the same level when they are
    /// conformed; on the first lies another layer's, half a cell off.
    fn conformed() -> Self {
        let mut polygons = Polygons::default();
        let square = |x: i64| [[x, 0], [x + 32, 0], [x + 32, 32], [x, 32]];
        for at in 0..6 {
            polygons.push(1, at, 1.0, &square(40 * i64::from(at)));
        }
        polygons.push(2, 0, 1.0, &[[8, 8], [24, 8], [24, 24], [8, 24]]);
        let settings = Settings {
            max_level: 3,
            cap: 256,
            target: 16,
        };
        let bare = Mesh::new(settings, &[], polygons).expect("base cells");
        Case {
            roots: 0..bare.head().count,
            even_out: |table| table.conform(),
            bare,
        }
    }

    fn bare_table<'a>(&self, row: &'a mut Vec<i64>) -> Table<'a> {
        row.clear();
        row.extend_from_slice(self.bare.row());
        Table::of(row, self.bare.head()).expect("base cells")
    }

    fn even_out(&self, table: &mut Table) -> usize {
        (self.even_out)(table).expect("room")
    }

    /// A leaf that can be split, by chance.
    fn any_leaf(&self, dice: &mut Dice, table: &Table) -> CellName {
        let cells = table.head().count as u64;
        let can_be_split = |name: &CellName| {
            let id = table.id_of(name).expect("a cell");
            let is_leaf = number(table, id, columns::FIRST_CHILD) == NO_CELL;
            let is_finest = name.route.len() as u64 == table.head().max_level;
            is_leaf && !is_finest && self.roots.contains(&name.root)
        };
        repeat_with(|| table.name(dice.below(cells) as usize).expect("a cell"))
            .find(can_be_split)
            .expect("no end")
    }

    /// Marks that are made ahead: each is a leaf where only those before it are split, and nothing is evened out.
    fn marks_made_ahead(&self, count: usize) -> Vec<CellName> {
        let (mut dice, mut row) = (Dice(1), Vec::new());
        let mut plain = self.bare_table(&mut row);
        let next = || {
            let name = self.any_leaf(&mut dice, &plain);
            split(&mut plain, from_ref(&name));
            name
        };
        repeat_with(next).take(count).collect()
    }

    /// After each week's marks the table that is kept, split and evened out every week, has the head and the leaves of
    /// one that is split by all marks so far and evened out once, and no leaf of last week's has become coarser.
    /// Answers how many marks the evening out had split by their week.
    fn hold_weeks(
        &self,
        weeks: usize,
        mut marks_of_week: impl FnMut(&Table) -> Vec<CellName>,
    ) -> usize {
        let (mut kept_row, mut fresh_row) = (Vec::new(), Vec::new());
        let mut kept = self.bare_table(&mut kept_row);
        let (mut marks, mut passed_over, mut split_by_then, mut evened) = (Vec::new(), 0, 0, 0);
        for _ in 0..weeks {
            let last_leaves = leaf_names(&kept);
            let new_marks = marks_of_week(&kept);
            passed_over += split(&mut kept, &new_marks);
            evened += self.even_out(&mut kept);
            marks.extend(new_marks);

            let mut fresh = self.bare_table(&mut fresh_row);
            split_by_then = passed_over - split(&mut fresh, &marks);
            self.even_out(&mut fresh);
            assert_eq!(fresh.head(), kept.head());
            assert_eq!(leaf_names(&fresh), leaf_names(&kept));
            assert!(last_leaves.iter().all(|name| fresh.id_of(name).is_some()));
        }
        assert!(evened > 0);
        assert!(fresh_row != kept_row, "ids would do");
        split_by_then
    }

    fn hold_weeks_of(&self, marks: &[CellName], weeks: usize) -> usize {
        let mut parts = marks.chunks(marks.len() / weeks);
        self.hold_weeks(weeks, |_| parts.next().expect("a week").to_vec())
    }

    /// Marks off the table that is kept, where cells stand that no mark made: each behind all that lies above it.
    fn hold_weeks_of_leaves(&self, weeks: usize, marks: usize) -> usize {
        let mut dice = Dice(2);
        self.hold_weeks(weeks, |kept| {
            let leaves: Vec<_> = repeat_with(|| self.any_leaf(&mut dice, kept))
                .take(marks)
                .collect();
            leaves.iter().flat_map(way_to).collect()
        })
    }

    /// Every third mark is split in one table, and all of them, in another order, in a second: all cells of the first
    /// stand in the second when both are evened out.
    fn hold_more_marks(&self, marks: &[CellName]) {
        let few: Vec<_> = marks.iter().step_by(3).flat_map(way_to).collect();
        let many: Vec<_> = marks.iter().rev().flat_map(way_to).collect();
        let (mut coarse_row, mut fine_row) = (Vec::new(), Vec::new());
        let mut coarse = self.bare_table(&mut coarse_row);
        let mut fine = self.bare_table(&mut fine_row);
        for (table, marks) in [(&mut coarse, few), (&mut fine, many)] {
            split(table, &marks);
            assert!(self.even_out(table) > 0);
        }
        assert!(coarse.leaf_count() < fine.leaf_count());
        let all = 0..coarse.head().count;
        let in_fine = |id| fine.id_of(&coarse.name(id).expect("a cell"));
        assert!(all.clone().all(|id| in_fine(id).is_some()));
        assert!(
            all.clone().any(|id| in_fine(id) != Some(id)),
            "ids would do"
        );
    }
}

#[test]
fn marks_made_ahead() {
    let case = Case::balanced();
    let split_by_then = case.hold_weeks_of(&case.marks_made_ahead(160), 5);
    assert!(split_by_then >= 10, "{split_by_then}");
    let case = Case::conformed();
    let split_by_then = case.hold_weeks_of(&case.marks_made_ahead(24), 4);
    assert!(split_by_then >= 5, "{split_by_then}");
}

#[test]
fn marks_off_the_map() {
    let split_by_then = Case::balanced().hold_weeks_of_leaves(6, 20);
    assert!(split_by_then >= 10, "{split_by_then}");
    let split_by_then = Case::conformed().hold_weeks_of_leaves(5, 3);
    assert!(split_by_then >= 5, "{split_by_then}");
}

#[test]
fn more_marks_finer_map() {
    let case = Case::balanced();
    case.hold_more_marks(&case.marks_made_ahead(160));
    let case = Case::conformed();
    case.hold_more_marks(&case.marks_made_ahead(24));
}
