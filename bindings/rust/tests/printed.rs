//! leafnet's text, read back: damaged in every line and every word, it is refused or drawn, and nothing panics.

use leafmesh::drawing::Picture;
use leafmesh::printed::{loose, read, show, show_mesh, Copper};
use leafmesh::solving::{Drive, Held, System};
use leafmesh::{text, Board, Mesh, NetRows};

const BOARD: &str = "level 2\ntarget 8\npolygon 1 0 1\n0 0\n8 0\n8 16\n0 16\nsplit 0\n\
    polygon 2 1 1\n0 0\n8 0\n8 8\n0 8\n";

/// What draw and relax do with a text.
fn used(text: &str) -> bool {
    let Ok(printed) = read(text) else {
        return false;
    };
    let Ok(picture) = Picture::of_printed("any", &printed, None) else {
        return false;
    };
    assert!(picture.svg().ends_with("</svg>\n"));
    let net = NetRows {
        nodes: &printed.nodes,
        edges: &printed.edges,
        cells: &[],
    };
    let held = Held {
        terminal: "first".to_string(),
        nodes: vec![0],
        drive: Drive::Volts(1.0),
    };
    let _ = System::of_net(net).and_then(|system| system.solve(&[held]));
    let board = text::parse(BOARD).expect("a board");
    Picture::of_printed("any", &printed, Some(&board)).is_ok()
}

#[test]
fn damaged_texts_are_refused_or_drawn() {
    let whole = show(&text::parse(BOARD).expect("a board")).expect("a mesh");
    assert!(used(&whole));
    let lines: Vec<&str> = whole.lines().collect();
    for at in 0..lines.len() {
        let mut gone = lines.clone();
        gone.remove(at);
        assert!(!used(&gone.join("\n")), "without line {at}");
        let words: Vec<&str> = lines[at].split(' ').collect();
        for word in 0..words.len() {
            for put in [
                "",
                "-1",
                "9",
                "70000",
                "9223372036854775807",
                "-9223372036854775808",
                "7ff8000000000000",
                "x",
            ] {
                let mut words = words.clone();
                words[word] = put;
                let changed = words.join(" ");
                let mut other = lines.clone();
                other[at] = &changed;
                // Cells and splits of the first line stand nowhere else.
                let same = changed == lines[at] || (at == 0 && [1, 9].contains(&word));
                assert!(!used(&other.join("\n")) || same, "line {at}: {changed}");
            }
        }
    }
    for cut in 0..whole.len() - 1 {
        assert!(!used(&whole[..cut]), "cut at {cut}");
    }
}

/// Numbers that look like chance, the same in every run.
struct Dice(u64);

impl Dice {
    fn below(&mut self, most: u64) -> u64 {
        self.0 = self
            .0
            .wrapping_mul(6_364_136_223_846_793_005)
            .wrapping_add(1_442_695_040_888_963_407);
        (self.0 >> 33) % most
    }
}

/// Squares of 16, 32 or 48 on two layers and of two components, beside and over each other, some cells split.
fn board_by_chance(dice: &mut Dice) -> Board {
    let mut board = Board {
        max_level: 2,
        cap: 256,
        target: 16,
        ..Board::default()
    };
    for _ in 0..1 + dice.below(6) {
        let [x0, y0] = [0, 0].map(|_| 16 * dice.below(4) as i64);
        let [w, h] = [0, 0].map(|_| 16 * (1 + dice.below(3)) as i64);
        board.polygons.push([dice.below(2), dice.below(2), 4]);
        board.sheets.push(1.0);
        let (x1, y1) = (x0 + w, y0 + h);
        board
            .points
            .extend([[x0, y0], [x1, y0], [x1, y1], [x0, y1]]);
    }
    let mut mesh = Mesh::unjudged(&board).expect("a mesh");
    for _ in 0..dice.below(6) {
        let id = dice.below(mesh.head().count as u64) as usize;
        let _ = mesh.refine(id);
    }
    board.splits = mesh.splits().map(|id| id as u64).collect();
    board
}

/// The layers and components that a text tells are those of its board, or of another board with the same text.
#[test]
fn a_text_tells_layers_and_components() {
    let mut dice = Dice(11);
    let (mut alike, mut apart) = (0, 0);
    for _ in 0..1_500 {
        let board = board_by_chance(&mut dice);
        let mesh = Mesh::unjudged(&board).expect("a mesh");
        let net = mesh.unjudged_net().expect("a net");
        let text = show_mesh(&board, &mesh, &net);
        let printed = read(&text).expect("a text");
        let corners = printed.corners().expect("leafnet's order");
        let coppers = printed.coppers().expect("leafnet's order");
        if net.cells.iter().map(|cell| cell.corners).eq(corners) {
            let own = mesh.leaves().map(|leaf| (leaf.layer, leaf.component));
            assert!(own.eq(coppers.iter().map(|one| (one.layer, one.component))));
            alike += 1;
            continue;
        }
        let mut other = board.clone();
        for (leaf, copper) in mesh.leaves().zip(coppers) {
            let Copper { layer, component } = copper;
            other.polygons[leaf.polygon] = [layer.into(), component.into(), 4];
        }
        assert_ne!(other, board);
        let mesh = Mesh::unjudged(&other).expect("a mesh");
        let net = mesh.unjudged_net().expect("a net");
        assert_eq!(nodes_of(&show_mesh(&other, &mesh, &net)), nodes_of(&text));
        apart += 1;
    }
    assert!(alike > 1_000 && apart > 10, "{alike} and {apart}");
}

/// The lines of leaves and nodes.
fn nodes_of(text: &str) -> Vec<&str> {
    let lines = text.lines();
    lines
        .filter(|line| line.starts_with("leaf ") || line.starts_with("node "))
        .collect()
}

/// The same square on two layers, the upper one loose: seen, though the lower one has the same corners.
#[test]
fn a_loose_node_is_seen_on_its_own_layer() {
    // On layer 2 the lower band's cells are 6 wide, and the upper one's 4: the node between stands on a side. Layer 1
    // has the same cells out of step nowhere, since it has base cells of 2.
    let ring = "0 0\n6 0\n6 2\n4 2\n4 4\n0 4\n";
    let board = format!("level 0\ntarget 6\nlayer 1 2\npolygon 1 0 1\n{ring}polygon 2 0 1\n{ring}");
    let board = text::parse(&board).expect("a board");
    let mesh = Mesh::unjudged(&board).expect("a mesh");
    let net = mesh.unjudged_net().expect("a net");
    let printed = read(&show_mesh(&board, &mesh, &net)).expect("a text");
    let (leaf, hanging) = loose(&printed)
        .expect("leafnet's text")
        .expect("a loose node");
    assert_eq!(mesh.leaf(leaf).expect("a leaf").layer, 2);
    assert_eq!(net.nodes[hanging.node].layer, 2);
}

/// Texts whose numbers fit and whose order is another one.
#[test]
fn texts_out_of_order_are_not_leafnets() {
    let whole = show(&text::parse(BOARD).expect("a board")).expect("a mesh");
    let printed = read(&whole).expect("a text");
    assert!(printed.corners().is_ok());
    let refused = |change: &dyn Fn(&mut leafmesh::printed::Printed)| {
        let mut other = printed.clone();
        change(&mut other);
        other.corners().expect_err("another order")
    };
    for why in [
        refused(&|printed| printed.leaves.swap(0, 1)),
        refused(&|printed| printed.leaves.rotate_right(1)),
        refused(&|printed| printed.leaves[0].id = 99),
        refused(&|printed| {
            for leaf in &mut printed.leaves {
                leaf.polygon = 1 - leaf.polygon;
            }
        }),
        refused(&|printed| printed.nodes.swap(4, 5)),
        refused(&|printed| printed.nodes[3].layer = 2),
        refused(&|printed| printed.nodes.extend(printed.nodes.clone())),
        refused(&|printed| printed.nodes.truncate(7)),
        refused(&|printed| printed.leaves.clear()),
    ] {
        assert!(why.starts_with("not leafnet's text: "), "{why}");
    }
}
