//! Copper that is drawn twice: refused by every tool that makes a net, and drawn once by `board merge`.

mod programs;
// Other tests take more of it.
#[allow(dead_code)]
mod shared;

use leafmesh::merging::Overlap;
use leafmesh::{printed, text, Mesh, Unmeshed};
use programs::{made, refused, run, sample_name, text_made, Folder, BOARD, DRAW, RELAX};
use shared::Dice;

/// 4 by 2 mm, and the same 2 mm to the right: 6 by 2 mm of 0.5 milliohms a square.
const TWO: &str = "pitch 1\npolygon 1 0 0.0005\n0 0\n4 0\n4 2\n0 2\n\
    polygon 1 0 0.0005 # the second\n2 0\n6 0\n6 2\n2 2\n\
    terminal in 1 A end 1 0 west\nterminal out 0 V end 1 0 east\n";

/// A square, drawn so many times.
fn squares(count: usize) -> String {
    let square = "polygon 1 0 0.0005\n0 0\n4 0\n4 4\n0 4\n";
    let terminals = "terminal in 1 A end 1 0 west\nterminal out 0 V end 1 0 east\n";
    format!("pitch 0.5\n{}{terminals}", square.repeat(count))
}

/// The resistance that `board solve` prints.
fn ohms(text: &str) -> f64 {
    let solved = text_made(BOARD, &["solve"], text.as_bytes());
    let line = solved.lines().find(|line| line.starts_with("V / A"));
    let word = line.and_then(|line| line.split_whitespace().nth(3));
    word.and_then(|word| word.parse().ok())
        .expect("a resistance")
}

/// The text that `board merge` makes, and what it says.
fn merged(text: &str) -> (String, String) {
    let output = run(BOARD, &["merge"], text.as_bytes());
    assert!(output.status.success(), "{output:?}");
    let [made, said] =
        [output.stdout, output.stderr].map(|bytes| String::from_utf8(bytes).expect("text"));
    (made, said)
}

/// It solved to 1.25 milliohms for 1.5.
#[test]
fn two_that_overlap_are_refused_with_both_lines_and_the_place() {
    let words = "line 7: overlaps the polygon of line 2 from (2 mm, 0 mm) on: copper of one layer and component is \
                 drawn once; `board merge` unites the two\n";
    for command in ["net", "vtk", "msh", "csv", "solve"] {
        assert_eq!(refused(BOARD, &[command], TWO.as_bytes()), words);
    }
    assert_eq!(
        refused(BOARD, &["refine", "--rounds", "1"], TWO.as_bytes()),
        words
    );
    assert_eq!(refused(DRAW, &["-"], TWO.as_bytes()), words);
    // A record can hold it; it is warned of, and refused where a net is made of it.
    let output = run(BOARD, &["pack"], TWO.as_bytes());
    let said = String::from_utf8(output.stderr).expect("words");
    assert!(
        output.status.success() && said.contains(&format!("warning: {words}")),
        "{said}"
    );
    let said = refused(BOARD, &["net"], &output.stdout);
    assert!(
        said.starts_with("polygon 1: overlaps polygon 0 from ("),
        "{said}"
    );
}

#[test]
fn the_copper_of_the_merged_text_is_solved() {
    let (text, said) = merged(TWO);
    assert_eq!(
        said,
        "united: lines 2 and 7: one ring of 4 points on layer 1, component 0\n"
    );
    assert_eq!(
        text,
        "pitch 1\npolygon 1 0 0.0005\n0 0\n6 0\n6 2\n0 2\n\
         terminal in 1 A end 1 0 west\nterminal out 0 V end 1 0 east\n"
    );
    assert!((ohms(&text) / 1.5e-3 - 1.0).abs() < 1e-5, "{}", ohms(&text));
    // A square drawn twice had half its resistance.
    let once = ohms(&squares(1));
    for count in [2, 9, 256] {
        assert!(
            refused(BOARD, &["solve"], squares(count).as_bytes()).starts_with("line 7: overlaps")
        );
        assert_eq!(ohms(&merged(&squares(count)).0), once);
    }
    assert!((once / 0.5e-3 - 1.0).abs() < 1e-5);
}

#[test]
fn a_mesh_has_no_net_where_copper_is_drawn_twice() {
    let board = text::parse_whole(TWO).expect("a board").board;
    let mesh = Mesh::unjudged(&board).expect("cells");
    let tick = 2 * mesh.settings().target as i64;
    let overlap = Overlap {
        polygons: [0, 1],
        place: [tick, 0],
    };
    assert_eq!(mesh.net(), Err(Unmeshed::Overlap(overlap)));
    assert_eq!(Mesh::of_board(&board), Err(Unmeshed::Overlap(overlap)));
    // As it is made by the rules there is one.
    assert!(mesh.unjudged_net().is_ok());
}

#[test]
fn squares_that_only_touch_are_taken() {
    for place in [[4, 0], [4, 2], [0, 4], [4, 4], [-4, -4]] {
        let [x, y] = place;
        let square = |[x, y]: [i64; 2]| {
            format!(
                "polygon 1 0 0.001\n{x} {y}\n{} {y}\n{} {}\n{x} {}\n",
                x + 4,
                x + 4,
                y + 4,
                y + 4
            )
        };
        let text = format!("pitch 1\n{}{}", square([0, 0]), square([x, y]));
        made(BOARD, &["net"], text.as_bytes());
    }
    // A tick of the pitch more, and they overlap.
    let near = "pitch 1\npolygon 1 0 1\n0 0\n4 0\n4 4\n0 4\npolygon 1 0 1\n3 3\n7 3\n7 7\n3 7\n";
    assert!(refused(BOARD, &["net"], near.as_bytes()).contains("from (3 mm, 3 mm) on"));
}

/// Copper of another sheet resistance can't be united.
#[test]
fn copper_of_two_sheet_resistances_is_refused_with_both_lines() {
    let text = TWO.replace("0.0005 # the second", "0.001");
    let words = "line 7: overlaps the polygon of line 2 from (2 mm, 0 mm) on: copper of one layer and component is \
                 drawn once; take it out of one of the two, whose sheet resistances differ\n";
    for command in ["solve", "merge"] {
        assert_eq!(refused(BOARD, &[command], text.as_bytes()), words);
    }
    // Also where one of them is united with a third: the lines are those of the polygons that lie there.
    let three = format!("{text}polygon 1 0 0.001\n5 0\n9 0\n9 2\n5 2\n");
    assert_eq!(refused(BOARD, &["merge"], three.as_bytes()), words);
    // Where they only touch they stay as they are.
    let beside = text.replace("2 0\n6 0\n6 2\n2 2\n", "4 0\n6 0\n6 2\n4 2\n");
    assert_eq!(merged(&beside), (beside.clone(), String::new()));
}

#[test]
fn a_text_without_double_copper_stays_as_it_is() {
    for name in [
        "neck.txt",
        "drive.txt",
        "vias.txt",
        "across.txt",
        "comb.txt",
        "shunt.txt",
    ] {
        let text = shared::sample(name);
        assert_eq!(merged(&text), (text.clone(), String::new()), "{name}");
    }
    let (text, said) = merged(&shared::sample("overlap.txt"));
    assert!(
        said.contains("united: lines 6 and 11: one ring of 8 points"),
        "{said}"
    );
    assert!(
        said.contains("warning: line 16: left out: cells have other ids once copper is united"),
        "{said}"
    );
    assert!(text.contains("# left out: split 1\n"), "{text}");
    // Its coordinates are multiples of 4 ticks, and no longer of a cell from where a strip begins.
    let words = refused(BOARD, &["net"], text.as_bytes());
    let way_out = "no multiple of the target, 8 ticks: the nearest is 32 ticks, and 4 ticks fit all sides of the \
                   ring\n";
    assert!(words.ends_with(way_out), "{words}");
    made(
        BOARD,
        &["net"],
        text.replace("target 8", "target 4").as_bytes(),
    );
    let record = sample_name("overlap.record");
    assert!(refused(BOARD, &["merge", &record], b"")
        .contains("this is a record: `board unpack` makes the text"));
    let text = text_made(BOARD, &["unpack", &record], b"");
    assert!(merged(&text).1.contains("united: "));
}

/// Polygons 0 and 1 overlap, 2 lies apart from them, and 3 on another layer.
const LINKED: &str = "level 2\npitch 0.5\npolygon 1 0 0.001\n0 0\n4 0\n4 2\n0 2\npolygon 1 0 0.001\n3 0\n8 0\n8 2\n3 \
    2\n polygon 1 1 0.001\n0 3\n8 3\n8 5\n0 5\npolygon 2 0 0.001\n0 0\n8 0\n8 2\n0 2\n";

#[test]
fn what_names_polygons_names_the_new_ones() {
    let rest = "contact 0 1 # of the two\ncontact 0 2\ncontact 2 3\nvia 1 2 0 7 1 0.5 0.5 0.001\n\
        refine 3 0 4 2 1 1\nterminal in 1 A pad 0 # a rectangle\nterminal out 0 V pad 3\nterminal mid 0 A pad 2\n";
    let (text, said) = merged(&format!("{LINKED}{rest}"));
    let lines = "# left out: contact 0 1 # of the two\ncontact 0 1\ncontact 1 2\nvia 1 2 0 7 1 0.5 0.5 0.001\n\
        refine 3 0 4 2 1 1\nterminal in 1 A rect 1 0 0 0 4 2 # a rectangle\nterminal out 0 V pad 2\n\
        terminal mid 0 A pad 1\n";
    assert!(text.ends_with(lines), "{text}");
    assert!(
        said.contains("warning: line 23: left out: the two polygons of the contact are one now"),
        "{said}"
    );
    made(BOARD, &["solve"], text.as_bytes());
}

#[test]
fn what_would_mean_something_else_is_refused_by_its_line() {
    let apart = "contact 0 1\npolygon 1 0 0.001\n0 2\n0 4\n2 4\n2 2\n20 2\n20 4\n22 4\n22 2\n";
    assert!(merged(&format!("{LINKED}{apart}"))
        .0
        .contains("# left out: contact 0 1"));
    // The contact goes to the node of polygon 1 that is nearest to the first one of 2; united it would be polygon 0's.
    let said = refused(
        BOARD,
        &["merge"],
        format!("{LINKED}contact 2 1\n").as_bytes(),
    );
    assert!(
        said.starts_with("line 23: the contact would begin or end elsewhere"),
        "{said}"
    );
    let bracket = LINKED.replace("0 0\n4 0\n4 2\n0 2\n", "0 0\n4 0\n4 1\n3 1\n3 2\n0 2\n");
    let said = refused(
        BOARD,
        &["merge"],
        format!("{bracket}terminal in 1 A pad 0\n").as_bytes(),
    );
    assert!(
        said.starts_with("line 25: polygon 0 is a part of a larger one"),
        "{said}"
    );
    let slanted = LINKED.replace("4 2\n0 2\n", "4 2\n1 1\n");
    assert!(
        refused(BOARD, &["merge"], slanted.as_bytes()).starts_with("line 7: (1 mm, 1 mm) differs")
    );
}

/// A frame of four bars, and an island in its hole.
const FRAME: &str = "level 1\npitch 1\npolygon 1 0 0.001\n0 0\n12 0\n12 2\n0 2\npolygon 1 0 0.001\n0 10\n12 10\n12 \
    12\n0 12\n polygon 1 0 0.001\n0 0\n2 0\n2 12\n0 12\npolygon 1 0 0.001\n10 0\n12 0\n12 12\n10 12\n\
    polygon 1 0 0.001\n5 5\n7 5\n7 7\n5 7\nterminal in 1 A rect 1 0 0 0 2 2\nterminal out 0 V rect 1 0 10 10 12 12\n";

#[test]
fn a_hole_is_one_and_no_ring_is_warned_of() {
    let (text, said) = merged(FRAME);
    assert_eq!(
        said,
        "united: lines 3, 8, 13 and 18: one ring of 11 points on layer 1, component 0\n"
    );
    let whole = text::parse_whole(&text).expect("a board");
    assert!(whole.warnings.is_empty(), "{:?}", whole.warnings);
    let mesh = Mesh::of_board(&whole.board).expect("a mesh");
    assert_eq!(mesh.head().leaves, 144 - 64 + 4);
    // The same drawn once by hand, in four bars that only touch.
    let apart = FRAME.replace("0 0\n2 0\n2 12\n0 12", "0 2\n2 2\n2 10\n0 10");
    let apart = apart.replace("10 0\n12 0\n12 12\n10 12", "10 2\n12 2\n12 10\n10 10");
    assert!((ohms(&text) / ohms(&apart) - 1.0).abs() < 1e-6);
}

/// Two bars of 200 cells that overlap: together they are longer than a strip may be.
#[test]
fn a_strip_that_gets_too_long_is_cut() {
    let text = "level 1\npitch 0.1\npolygon 1 0 0.001\n0 0\n20 0\n20 0.4\n0 0.4\npolygon 1 0 0.001\n18 0\n38 0\n38 \
        0.4\n 18 0.4\nterminal in 1 A end 1 0 west\nterminal out 0 V end 1 0 east\n";
    let (made, said) = merged(text);
    assert!(said.contains("2 rings of 8 points"), "{said}");
    assert!(
        made.contains("0 0\n25.6 0\n25.6 0.4\n0 0.4\npolygon 1 0 0.001\n25.6 0\n38 0\n"),
        "{made}"
    );
    assert!((ohms(&made) / 0.095 - 1.0).abs() < 1e-5, "{}", ohms(&made));
}

/// One cell a strip: as many polygons as cells.
#[test]
fn more_polygons_than_a_record_has_are_refused() {
    let text = |east| {
        let bar = |x0, x1| format!("polygon 1 0 1\n{x0} 0\n{x1} 0\n{x1} 2\n{x0} 2\n");
        format!(
            "level 0\ncap 1\ntarget 2\n{}{}",
            bar(0, 400),
            bar(200, east)
        )
    };
    let words = "drawn once, the copper has 257 polygons, more than 256: a ring of more than 1,024 points and a strip \
                 of more than cap base cells are cut; take a larger cell of the layer, or leave out holes\n";
    assert_eq!(refused(BOARD, &["merge"], text(514).as_bytes()), words);
    let (made, said) = merged(&text(512));
    assert!(said.contains("256 rings of 1,024 points"), "{said}");
    assert_eq!(text::parse(&made).expect("a board").polygons.len(), 256);
}

/// A text whose copper needs more cells than there is room for, since it is drawn twice.
#[test]
fn what_has_no_room_twice_has_it_once() {
    let text = format!(
        "{}refine 0 0 4 4 1\n",
        squares(200).replace("pitch 0.5", "level 1\npitch 0.4")
    );
    let words = "more than 16,384 cells";
    assert!(refused(BOARD, &["net"], text.as_bytes()).contains(words));
    made(BOARD, &["net"], merged(&text).0.as_bytes());
}

/// Texts of random rectangles: merged they have a net, and as many base cells as a raster has squares.
#[test]
fn merged_texts_have_the_cells_of_a_raster() {
    let mut dice = Dice(11);
    for _ in 0..40 {
        let field = dice.between(6, 14);
        let mut squares = std::collections::BTreeSet::new();
        let mut text = String::from("level 0\npitch 1\n");
        for _ in 0..dice.between(2, 10) {
            let [x, y] = [0, 0].map(|_| dice.between(0, field - 1));
            let [u, v] = [x, y].map(|from| dice.between(from + 1, field));
            text += &format!("polygon 1 0 0.001\n{x} {y}\n{u} {y}\n{u} {v}\n{x} {v}\n");
            squares.extend((x..u).flat_map(|x| (y..v).map(move |y| (x, y))));
        }
        let merged = text::merge(&text).expect("a text").text;
        let mesh =
            Mesh::of_board(&text::parse(&merged).expect("a board")).expect("a mesh with a net");
        assert_eq!(mesh.head().leaves, squares.len(), "{text}\nto\n{merged}");
        assert_eq!(text::merge(&merged).expect("a text").text, merged);
    }
}

#[test]
fn merge_reads_and_writes_as_other_commands_do() {
    let folder = Folder::new("merge");
    let name = folder.put("two.txt", TWO.replace('\n', "\r\n").as_bytes());
    let output = folder.name("one.txt");
    let said = run(BOARD, &["merge", &name, "-o", &output], b"");
    let said = String::from_utf8(said.stderr).expect("words");
    assert!(said.starts_with(&format!("{name}: united: ")), "{said}");
    let text = std::fs::read_to_string(output).expect("a text");
    assert_eq!(text, merged(TWO).0.replace('\n', "\r\n"));
}

/// leafnet goes by the rules, so that its text may have such copper; what reads the text refuses it.
#[test]
fn leafnets_text_of_copper_drawn_twice_is_refused() {
    let board = text::parse(&shared::sample("overlap.txt")).expect("a board");
    let mesh = Mesh::unjudged(&board).expect("a mesh");
    let text = printed::show_mesh(&board, &mesh, &mesh.unjudged_net().expect("a net"));
    let words = "leaf 4 overlaps leaf 9 from (12, 4) on: copper of one layer and component is drawn once (`board \
                 merge` unites the polygons of a text)\n";
    assert_eq!(refused(DRAW, &[], text.as_bytes()), words);
    assert_eq!(refused(RELAX, &[], text.as_bytes()), words);
}
