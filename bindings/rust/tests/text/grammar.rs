//! What the lines mean.

use crate::{SQUARE, TWO_LAYERS};
use leafmesh::solving::{Drive, Spot, Terminal};
use leafmesh::text::{self, Whole};
use leafmesh::{Mesh, Pitch, Side};

fn whole(text: &str) -> Whole {
    text::parse_whole(text).unwrap_or_else(|why| panic!("{why}: {text}"))
}

#[test]
fn terminals_are_at_the_nearest_tick() {
    let pitch = Pitch::new(0.5, 1).expect("a pitch");
    let tick = |mm: f64| pitch.nearest_tick(mm).expect("in range");
    let rect = |rect| Spot::Rect {
        layer: 2,
        component: 0,
        rect,
    };
    let end = |side| Spot::End {
        layer: 1,
        component: 3,
        side,
    };
    let (volts, amperes) = (Drive::Volts, Drive::Amperes);
    let cases = [
        ("in 10 A end 1 3 west", "in", amperes(10.0), end(Side::West)),
        ("x -2.5 V end 1 3 east", "x", volts(-2.5), end(Side::East)),
        ("- 0 V end 1 3 south", "-", volts(0.0), end(Side::South)),
        (
            "é -1e3 A end 1 3 north",
            "é",
            amperes(-1e3),
            end(Side::North),
        ),
        (
            "edge 1048576 V edge 2 0 1.3 0.1 0.2 0.1",
            "edge",
            volts(1_048_576.0),
            rect([tick(0.2), tick(0.1), tick(1.3), tick(0.1)]),
        ),
        (
            "a 0 A rect 2 0 1.3 0.1 0.2 1.7",
            "a",
            amperes(0.0),
            rect([tick(0.2), tick(0.1), tick(1.3), tick(1.7)]),
        ),
        ("b 1 V pad 1", "b", volts(1.0), Spot::Pad { polygon: 1 }),
    ];
    for (words, name, drive, spot) in cases {
        let name = name.to_string();
        let terminal = Terminal { name, spot, drive };
        let read = whole(&format!("{TWO_LAYERS}terminal {words} # so\n"));
        assert_eq!(read.terminals.last(), Some(&terminal));
        assert_eq!(read.lines.terminals, [13]);
        assert_eq!(text::terminal(words, Some(pitch)), Ok(terminal));
    }
    let in_ticks = text::terminal("a 0 V rect 2 0 4 1 0 3", None);
    assert_eq!(in_ticks.expect("a terminal").spot, rect([0, 1, 4, 3]));
}

#[test]
fn ids_stand_in_ranges_with_both_ends() {
    let read = whole(&format!("{SQUARE}split 0 1-3\nsplit 4-4 7\nsplit 5\n"));
    assert_eq!(read.board.splits, [0, 1, 2, 3, 4, 7, 5]);
    assert_eq!(read.lines.splits, [8, 8, 8, 8, 9, 9, 10]);
}

/// Three base cells in a row on layer 1, and their like on layer 2.
const ROWS: &str = "level 3\ntarget 16\npolygon 1 0 1\n0 0\n48 0\n48 16\n0 16\n\
                    polygon 2 0 1\n0 0\n48 0\n48 16\n0 16\n";

#[test]
fn a_rectangle_is_refined_until_its_leaves_are_of_its_level() {
    // By either pair of its corners; a side in common is none of its area.
    for rectangle in ["16 0 20 4", "20 4 16 0", "16 4 20 0", "17 1 18 2"] {
        let read = whole(&format!("{ROWS}refine {rectangle} 2 1\n"));
        assert_eq!(read.board.splits, [1, 6], "{rectangle}");
        assert_eq!(read.lines.splits, [13, 13]);
    }
    let on_both = whole(&format!("{ROWS}refine 17 1 18 2 2\n"));
    assert_eq!(on_both.board.splits, [1, 4, 6, 10]);
    // Nothing is coarser than that.
    assert_eq!(
        whole(&format!("{ROWS}refine 17 1 18 2 0\n")).board.splits,
        []
    );
    let mesh = Mesh::of_board(&on_both.board).expect("a mesh");
    for layer in [1, 2] {
        assert_eq!(mesh.leaf_at(layer, [17, 1]).map(|leaf| leaf.level), Some(2));
    }
}

/// A `split` behind a `refine` may name what that one made, and `refine` passes over what is fine enough.
#[test]
fn splits_and_rectangles_are_done_in_the_texts_order() {
    let behind = whole(&format!(
        "{ROWS}refine 17 1 18 2 1 1\nsplit 6 10\nrefine 17 1 18 2 2 1\n"
    ));
    assert_eq!(behind.board.splits, [1, 6, 10]);
    assert_eq!(behind.lines.splits, [13, 14, 14]);
    let before = whole(&format!(
        "{ROWS}split 1\nrefine 17 1 18 2 2 1\nrefine 17 1 18 2 2 1\n"
    ));
    assert_eq!(before.board.splits, [1, 6]);
    assert_eq!(before.lines.splits, [13, 14]);
    // Where the line stands among the polygons is nothing to it.
    let first = whole(&format!(
        "level 3\ntarget 16\nrefine 17 1 18 2 2\n{}",
        &ROWS[18..]
    ));
    assert_eq!(first.board.splits, [1, 4, 6, 10]);
}

#[test]
fn a_rectangle_in_millimetres_need_not_be_on_the_pitch() {
    let read = whole(&format!("{TWO_LAYERS}refine 0.6 0.6 0.9 1.1 1 2\n"));
    // Of the sixteen cells of the second layer, by their rows: one in the second row, one in the third.
    assert_eq!(read.board.splits, [21, 25]);
}

#[test]
fn a_byte_order_mark_and_other_ends_of_lines_are_no_matter() {
    let plain = whole(SQUARE);
    for text in [
        format!("\u{feff}{SQUARE}"),
        SQUARE.replace('\n', "\r\n"),
        SQUARE.trim_end().to_string(),
        SQUARE.replace(' ', " \t "),
    ] {
        assert_eq!(whole(&text), plain);
    }
}

/// In a text, as in a record, 255 stands for the default.
#[test]
fn the_default_level_has_a_number() {
    let named = whole(&SQUARE.replace("level 2", "level 255"));
    let unnamed = whole(&SQUARE.replace("level 2", ""));
    assert_eq!(named.board, unnamed.board);
    assert_eq!((named.lines.level, unnamed.lines.level), (Some(1), None));
}
