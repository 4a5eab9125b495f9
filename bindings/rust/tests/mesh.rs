//! A mesh with a row of its own: marks by place and by heat, what comes back, and who lies beside whom.

#[allow(dead_code)]
mod shared;

use leafmesh::{
    contact, printed, text, write, Board, Leaf, LeafBorder, Mesh, Reason, Region, Side, MAX_LEVEL,
    SLOT, SLOTS,
};

fn sample(name: &str) -> Board {
    text::parse_whole(&shared::sample(name))
        .expect("a board")
        .board
}

fn meshed(board: &str) -> Mesh {
    Mesh::of_board(&text::parse(board).expect("a board")).expect("a mesh")
}

/// Sixteen base cells of 16 on layer 1, four of 32 on layer 2 over them.
const TWO: &str = "level 3\ntarget 16\nlayer 2 32\npolygon 1 0 1\n0 0\n64 0\n64 64\n0 64\n\
    polygon 2 1 2\n0 0\n64 0\n64 64\n0 64\n";

fn region(rect: [i64; 4], level: u64) -> Region {
    Region {
        rect,
        level,
        layer: None,
    }
}

struct Dice(u64);

impl Dice {
    fn below(&mut self, most: usize) -> usize {
        self.0 = self
            .0
            .wrapping_mul(6_364_136_223_846_793_005)
            .wrapping_add(1_442_695_040_888_963_407);
        (self.0 >> 33) as usize % most
    }
}

/// Every leaf with an area in the region is as fine as it says, and no other leaf was split for it.
#[test]
fn a_region_is_refined_and_nothing_else() {
    let mut mesh = meshed(TWO);
    // Of layer 1 a cell and a sliver of the next one: 2 splits, and of their quarters 4 and 2. Of layer 2 parts of two
    // cells: 2, and 1 and 1.
    assert_eq!(mesh.refine_region(region([17, 17, 33, 32], 2)), Ok(12));
    for leaf in mesh.leaves() {
        let [x0, y0, x1, y1] = leaf.rect;
        let is_in = x0 < 33 && x1 > 17 && y0 < 32 && y1 > 17;
        assert!(!is_in || leaf.level == 2, "{leaf:?}");
        // A base cell that has no part of it stays whole.
        let side = if leaf.layer == 1 { 16 } else { 32 };
        let corner = |at: i64| at.div_euclid(side) * side;
        let is_near =
            corner(x0) < 33 && corner(x0) + side > 17 && corner(y0) < 32 && corner(y0) + side > 17;
        assert!(is_near || leaf.level == 0, "{leaf:?}");
    }
    // What is fine enough isn't split again.
    assert_eq!(mesh.refine_region(region([17, 17, 33, 32], 2)), Ok(0));
    assert_eq!(mesh.refine_region(region([17, 17, 33, 32], 1)), Ok(0));
    // A layer of its own; a side alone has no area; nothing lies out there.
    let mut mesh = meshed(TWO);
    let upper = Region {
        layer: Some(2),
        ..region([0, 0, 8, 8], 1)
    };
    assert_eq!(mesh.refine_region(upper), Ok(1));
    assert_eq!(mesh.refine_region(region([64, 0, 99, 64], 3)), Ok(0));
    assert_eq!(mesh.refine_region(region([64, 0, 99, 64], u64::MAX)), Ok(0));
}

#[test]
fn what_has_no_room_leaves_the_mesh_as_it_was() {
    let mut mesh = meshed(TWO);
    let before = mesh.clone();
    let deep = mesh
        .refine_region(region([0, 0, 1, 1], 4))
        .expect_err("too deep");
    assert_eq!((deep.reason, &mesh), (Reason::FinestLevel, &before));
    // 64 by 64 base cells, twice split: 4,096 · 21 cells.
    let mut large = meshed("level 4\ntarget 64\npolygon 1 0 1\n0 0\n4096 0\n4096 4096\n0 4096\n");
    let before = large.clone();
    let full = large
        .refine_region(region([0, 0, 4096, 4096], 2))
        .expect_err("no room");
    assert_eq!((full.reason, &large), (Reason::NoRoom, &before));
    assert_eq!(large.row().len(), SLOT * SLOTS);
    // Room for the splits, and not for what balance asks: a corner of every fourth cell, four levels down.
    let watts = vec![1.0; 4096];
    let none = large.refine_hottest(&watts, 1.0).expect_err("no room");
    assert_eq!((none.reason, &large), (Reason::NoRoom, &before));
    let short = large.refine_hottest(&watts[1..], 0.5).expect_err("too few");
    assert_eq!((short.reason, &large), (Reason::OutOfRange, &before));
    let many = large.refine_many([7, 8, 7]).expect_err("twice");
    assert_eq!(
        (many.reason, many.place, &large),
        (Reason::AlreadySplit, 7, &before)
    );
    assert_eq!(large.refine_many([]), Ok(()));
    assert_eq!(large, before);
}

/// Rounds by heat until a round has no room: the mesh is that of the round before, still balanced.
#[test]
fn rounds_by_heat_end_before_they_have_no_room() {
    let mut mesh = Mesh::of_board(&sample("shunt.txt")).expect("a mesh");
    let heat = |mesh: &Mesh| -> Vec<f64> {
        let near = |leaf: Leaf| 1.0 / (1.0 + (leaf.rect[0].abs() + leaf.rect[1].abs()) as f64);
        mesh.leaves().map(near).collect()
    };
    let mut rounds = 0;
    let last = loop {
        let before = mesh.clone();
        match mesh.refine_hottest(&heat(&mesh), 0.1) {
            Ok(splits) => {
                assert_eq!(mesh.head().count, before.head().count + 4 * splits);
                assert_eq!(mesh.balance(), Ok(0));
                rounds += 1;
                if splits == 0 {
                    break before;
                }
            }
            Err(why) => {
                assert_eq!(why.reason, Reason::NoRoom);
                break before;
            }
        }
    };
    assert_eq!(mesh, last);
    assert!(
        rounds > 1 && mesh.head().leaves > 4_000,
        "{rounds} {:?}",
        mesh.head()
    );
}

/// The hottest share is split, the finest leaves are passed over, and the rest is balance's.
#[test]
fn the_hottest_share_is_split() {
    let mut mesh = meshed(TWO);
    let leaves: Vec<Leaf> = mesh.leaves().collect();
    let watts: Vec<f64> = (0..leaves.len()).map(|at| ((7 * at) % 20) as f64).collect();
    assert_eq!(mesh.refine_hottest(&watts, 0.25), Ok(5));
    for (leaf, watts) in leaves.iter().zip(&watts) {
        assert_eq!(mesh.leaf(leaf.id).is_none(), *watts >= 15.0, "{leaf:?}");
    }
    let mut finest = meshed("level 0\ntarget 16\npolygon 1 0 1\n0 0\n64 0\n64 64\n0 64\n");
    assert_eq!(finest.refine_hottest(&[1.0; 16], 1.0), Ok(0));
    for share in [0.0, -1.0, f64::NAN] {
        assert_eq!(finest.refine_hottest(&[1.0; 16], share), Ok(0));
    }
}

/// The share is one of the leaves that can be split: where the hottest are at the finest level it goes on with others.
#[test]
fn a_share_is_of_the_leaves_that_can_be_split() {
    let mut mesh =
        meshed("level 1\ntarget 16\npolygon 1 0 1\n0 0\n256 0\n256 16\n0 16\nsplit 0-7\n");
    let leaves: Vec<Leaf> = mesh.leaves().collect();
    // 32 fine ones, all hotter than the eight coarse ones.
    let heat = |leaf: &Leaf| 1000.0 * leaf.level as f64 + leaf.id as f64;
    let watts: Vec<f64> = leaves.iter().map(heat).collect();
    assert_eq!(leaves.len(), 40);
    assert_eq!(mesh.refine_hottest(&watts, 0.25), Ok(2));
    let split: Vec<usize> = leaves
        .iter()
        .map(|leaf| leaf.id)
        .filter(|&id| mesh.leaf(id).is_none())
        .collect();
    assert_eq!(split, [14, 15]);
}

/// A mesh by rectangles: refined one after another and balanced they make the same leaves.
#[test]
fn regions_make_the_same_leaves() {
    let places = |mesh: &Mesh| {
        let place = |leaf: Leaf| (leaf.layer, leaf.component, leaf.rect);
        let mut all: Vec<_> = mesh.leaves().map(place).collect();
        all.sort_unstable();
        all
    };
    let mut dice = Dice(11);
    for name in [
        "shunt.txt",
        "across.txt",
        "two_layers.txt",
        "drive.txt",
        "comb.txt",
        "deep.txt",
    ] {
        let words = shared::sample(name);
        let board = text::parse_whole(&words).expect("a board").board;
        let first = Mesh::of_board(&board).expect("a mesh");
        for count in [0, 1, 10, 60] {
            let mut fine = first.clone();
            for _ in 0..count {
                let id = dice.below(fine.head().count);
                let _ = fine.refine(id);
            }
            fine.balance().expect("room");
            let regions = first.regions_to(&fine).expect("regions");
            assert_eq!(regions.is_empty(), fine == first);
            let mut again = first.clone();
            for &region in &regions {
                again.refine_region(region).expect("room");
            }
            again.balance().expect("room");
            assert_eq!(places(&again), places(&fine), "{name}");
            // By a text, too, in its own unit.
            let whole = text::parse_whole(&words).expect("a board");
            let more = text::with_regions(&words, &regions, whole.lines.pitch);
            let by_text = text::parse_whole(&more).expect("a board").board;
            assert_eq!(
                places(&Mesh::of_board(&by_text).expect("a mesh")),
                places(&fine),
                "{name}"
            );
        }
        // A block of cells is one rectangle.
        if name == "across.txt" {
            let mut fine = first.clone();
            let all: Vec<usize> = first
                .leaves()
                .filter(|leaf| leaf.level == 0)
                .map(|leaf| leaf.id)
                .collect();
            fine.refine_many(all).expect("room");
            fine.balance().expect("room");
            let regions = first.regions_to(&fine).expect("regions");
            assert!(regions.len() < 12, "{}", regions.len());
        }
    }
    // Splits that the other one lacks.
    let coarse = meshed(TWO);
    let mut fine = coarse.clone();
    fine.refine(0).expect("a leaf");
    assert_eq!(fine.regions_to(&coarse), None);
}

/// Split by chance, balanced, conformed and split on: the board that it is now has the same table, number by number, by
/// its text and by its record.
#[test]
fn a_mesh_comes_back() {
    let mut dice = Dice(11);
    for name in [
        "neck.txt",
        "two_layers.txt",
        "overlap.txt",
        "shunt.txt",
        "deep.txt",
        "vias.txt",
    ] {
        let board = sample(name);
        let mut mesh = Mesh::unjudged(&board).expect("a mesh");
        assert_eq!(mesh.board().splits[..board.splits.len()], board.splits);
        for turn in 0..30 {
            // Refused where it is split already, or as deep as it goes.
            let _ = mesh.refine(dice.below(mesh.head().count));
            if turn % 10 == 9 {
                mesh.balance().expect("room");
            }
        }
        if name == "neck.txt" {
            mesh.conform().expect("room");
        }
        let kept = mesh.board();
        assert!(kept.splits.len() > board.splits.len());
        assert_eq!(Mesh::unjudged(&kept).expect("a mesh"), mesh, "{name}");
        let parsed = text::parse(&text::show(&kept)).expect("a text");
        assert_eq!(Mesh::unjudged(&parsed).expect("a mesh"), mesh, "{name}");
        let mut record = vec![0; leafmesh::record_length(&kept)];
        assert_eq!(write(&kept, &mut record), Ok(record.len()));
        let read = leafmesh::read(&record).expect("a record");
        assert_eq!(Mesh::unjudged(&read).expect("a mesh"), mesh, "{name}");
        // Nothing of it is left to balance.
        let shown = printed::show(&read).or_else(|_| printed::show(&board));
        assert!(
            shown.is_err()
                || shown.is_ok_and(|text| text.contains(" splits 0") || name == "overlap.txt")
        );
    }
}

#[test]
fn the_leaf_at_a_place() {
    let mut mesh = meshed(TWO);
    mesh.refine(0).expect("a leaf");
    mesh.balance().expect("room");
    for x in 0..=64 {
        for y in 0..=64 {
            for layer in [1, 2] {
                let leaf = mesh.leaf_at(layer, [x, y]).expect("copper");
                assert!(leaf.layer == layer && leaf.has([x, y]));
                let first = mesh
                    .leaves()
                    .find(|other| other.layer == layer && other.has([x, y]));
                assert_eq!(first, Some(leaf));
            }
        }
    }
    for none in [[-1, 0], [65, 3], [3, 65], [3, -1], [i64::MIN, i64::MAX]] {
        assert_eq!(mesh.leaf_at(1, none), None);
    }
    assert_eq!(mesh.leaf_at(3, [8, 8]), None);
}

/// A leaf's neighbours are the pairs of the borders that it is in.
#[test]
fn neighbours_are_the_borders_of_a_leaf() {
    for name in ["neck.txt", "shunt.txt"] {
        let mesh = Mesh::unjudged(&sample(name)).expect("a mesh");
        let borders = mesh.borders();
        let mut sides = [0; 4];
        for leaf in mesh.leaves().step_by(7) {
            let own = mesh.neighbours(leaf.id);
            for (other, border) in &own {
                assert_eq!(contact(leaf.rect, other.rect), Ok(Some(*border)));
                sides[border.side as usize] += 1;
            }
            let found: Vec<usize> = own.iter().map(|(other, _)| other.id).collect();
            let beside = |one: &LeafBorder| match leaf.id {
                id if id == one.first => Some(one.second),
                id if id == one.second => Some(one.first),
                _ => None,
            };
            let mut expected: Vec<usize> = borders.iter().filter_map(beside).collect();
            expected.sort_unstable();
            assert_eq!(found, expected);
        }
        assert!(sides.iter().all(|&count| count > 0), "{sides:?}");
        assert!(mesh.neighbours(usize::MAX).is_empty());
        let split = (0..mesh.head().count)
            .find(|&id| !mesh.is_leaf(id))
            .expect("a split cell");
        assert!(mesh.neighbours(split).is_empty() && mesh.leaf(split).is_none());
    }
    assert_eq!(Side::South as usize, 0);
}

#[test]
fn leaves_say_what_they_are() {
    let mut mesh = meshed(TWO);
    mesh.refine(17).expect("a leaf of layer 2");
    mesh.balance().expect("room");
    let net = mesh.net().expect("a net");
    let leaves: Vec<Leaf> = mesh.leaves().collect();
    assert_eq!(leaves.len(), net.cells.len());
    for (leaf, cell) in leaves.iter().zip(&net.cells) {
        let [sw, ne] = [0, 2].map(|corner| net.nodes[cell.corners[corner]]);
        assert_eq!(leaf.rect, [sw.x, sw.y, ne.x, ne.y]);
        assert_eq!(
            (leaf.layer, leaf.component, leaf.sheet),
            (sw.layer, sw.component, cell.sheet)
        );
        assert_eq!(
            (leaf.level, leaf.polygon),
            (mesh.level(leaf.id), mesh.polygon(leaf.id))
        );
        assert_eq!(mesh.leaf(leaf.id), Some(*leaf));
        let tick = leafmesh::TICK;
        let side = (leaf.rect[2] - leaf.rect[0]) as f64;
        assert!((leaf.area() / (side * side * tick * tick) - 1.0).abs() < 1e-12);
        // 4 W over its area at its ohms a square.
        let current = leaf.sheet_current(4.0, leaf.sheet);
        assert!((current * current * leaf.area() * leaf.sheet - 4.0).abs() < 1e-9);
    }
    assert_eq!(mesh.check_by_layer(net.rows()), Ok(None));
    // The nodes of both layers stand at the same places: by place alone a finer layer's hang on the coarser one's.
    assert!(mesh.check_network_conforming(net.rows()).is_ok());
    assert_eq!(
        mesh.power(net.rows(), &vec![1.0; net.nodes.len()]),
        Ok(vec![0.0; leaves.len()])
    );
    assert!(mesh.power(net.rows(), &[1.0]).is_err());
    assert_eq!(mesh.conform().expect("room"), mesh.splits().count() - 1);
    assert!(mesh.leaves().all(|leaf| leaf.level <= MAX_LEVEL));
}
