//! What is refused, in the user's words and with the line.

use crate::{net, refused, SQUARE, TWO_LAYERS};
use leafmesh::text;

fn unclear(text: &str) -> String {
    let why = text::parse_whole(text).expect_err(text);
    assert!(why.line.map_or(true, |line| line <= text.lines().count()));
    why.to_string()
}

/// Each of these came back as another board without a word, or with words that weren't the user's.
#[test]
fn values_are_told_by_their_line() {
    let rest = "polygon 1 0 0.5\n0 0\n8 0\n8 8\n0 8\n";
    for (first, words) in [
        ("cap 65792", "cap 65792 is out of range: 1 to 256"),
        ("cap 0", "cap 0 is out of range: 1 to 256"),
        ("cap -1", "cap -1 is out of range: 1 to 256"),
        ("cap 4.5", "cap \"4.5\" is no whole number"),
        ("level 258", "level 258 is out of range: 0 to 12"),
        ("level 13", "level 13 is out of range: 0 to 12"),
        (
            "level 300000000000000000000",
            "level 300000000000000000000 is out of range: 0 to 12",
        ),
        ("level two", "level \"two\" is no whole number"),
        ("target 0", "target 0 is out of range: 1 to 68719476736"),
        ("pitch 0", "0 mm is no pitch"),
        ("pitch -1", "-1 mm is no pitch"),
        ("pitch NaN", "pitch \"NaN\" is no finite number"),
        (
            "pitch 0,5",
            "pitch \"0,5\" is no number: the decimal sign is a point",
        ),
        ("layer 65537 8", "layer 65537 is out of range: 0 to 65535"),
        (
            "layer 1 68719476737",
            "cell 68719476737 is out of range: 0 to 68719476736",
        ),
        ("layer 1 -8", "cell -8 is out of range"),
        (
            "polygon 65537 0 1",
            "layer 65537 is out of range: 0 to 65535",
        ),
        (
            "polygon 1 4294967296 1",
            "component 4294967296 is out of range: 0 to 4294967295",
        ),
        (
            "polygon 1 0 0",
            "sheet resistance 0 is out of range: 2^-40 to 2^40",
        ),
        (
            "polygon 1 0 NaN",
            "sheet resistance \"NaN\" is no finite number",
        ),
        (
            "polygon 1 0 -inf",
            "sheet resistance \"-inf\" is no finite number",
        ),
        (
            "polygon 1 0 1e400",
            "sheet resistance \"1e400\" is no finite number",
        ),
        ("polygon 1 0 0x10", "sheet resistance \"0x10\" is no number"),
        (
            "split 4294967296",
            "cell 4294967296 is out of range: 0 to 4294967295",
        ),
        ("split -3", "cell -3 is out of range: 0 to 4294967295"),
        ("split 3-", "cell \"\" is no whole number"),
        ("split 3-2", "\"3-2\" falls: a range rises"),
        ("split 1-2-3", "cell \"2-3\" is no whole number"),
        ("split 0-4294967295", "more than 65,535 splits"),
        (
            "split",
            "cannot make sense of \"split\"; its form is: split ID ID-ID ..",
        ),
        ("four corners", "cannot make sense of \"four corners\""),
        ("0 0", "a point of no polygon"),
    ] {
        let said = unclear(&format!("# a board\n{first}\n{rest}"));
        assert!(said.starts_with(&format!("line 2: {words}")), "{said}");
    }
}

/// However long a word is, what is said of it isn't.
#[test]
fn long_words_are_cut() {
    for word in [
        "9".repeat(10_000),
        "x".repeat(10_000),
        format!("1.{}", "0".repeat(10_000)),
    ] {
        for line in [
            format!("{word} 0"),
            format!("0 {word}"),
            format!("level {word}"),
            format!("via 1 2 0 0 0 -{word} 0 1"),
            format!("via 1 2 0 0 0 0 0 {word}"),
            format!("terminal in {word} V pad 0"),
            format!("split 0-{word}"),
            word.clone(),
        ] {
            let said = unclear(&format!("polygon 1 0 1\n{line}\n"));
            assert!(said.len() < 400, "{said}");
        }
    }
}

#[test]
fn coordinates_are_told_by_their_line() {
    let needs_pitch = "a length with a point needs a pitch in front: lengths are in ticks";
    for (point, words) in [
        (
            "8 68719476737",
            "coordinate 68719476737 is out of range: -68719476736",
        ),
        ("8 1.5", &format!("coordinate 1.5: {needs_pitch}")),
        (".5 0", &format!("coordinate .5: {needs_pitch}")),
        ("8 1e3", "coordinate \"1e3\" is no whole number"),
        ("8 0x10", "coordinate \"0x10\" is no whole number"),
        ("8 1,5", "coordinate \"1,5\" is no whole number"),
        ("8 NaN", "coordinate \"NaN\" is no whole number"),
        ("NaN 8", "coordinate \"NaN\" is no whole number"),
        ("8 0 0", "cannot make sense of \"8 0 0\""),
    ] {
        let said = unclear(&format!("polygon 1 0 1\n0 0\n{point}\n"));
        assert!(said.starts_with(&format!("line 3: {words}")), "{said}");
    }
    for (point, words) in [
        (
            "1.2 0",
            "1.2 mm is no multiple of the pitch of 0.5 mm; the nearest is 1 mm",
        ),
        ("0 1e400", "coordinate \"1e400\" is no finite number"),
        ("0 -inf", "coordinate \"-inf\" is no finite number"),
        (
            "0 1,5",
            "coordinate \"1,5\" is no number: the decimal sign is a point",
        ),
        ("0 0x10", "coordinate \"0x10\" is no number"),
        ("0 251", "251 mm is past the range of a coordinate"),
    ] {
        let said = unclear(&format!(
            "level 3\npitch 0.5\npolygon 1 0 1\n0 0\n{point}\n"
        ));
        assert!(said.starts_with(&format!("line 5: {words}")), "{said}");
    }
}

/// What is said once names the line of the first.
#[test]
fn what_is_given_twice_or_too_late_names_both_lines() {
    for (lines, words) in [
        ("level 2\n\nlevel 2", "line 3: level is on line 1 already"),
        ("cap 4\ncap 4", "line 2: cap is on line 1 already"),
        ("target 4\ntarget 8", "line 2: target is on line 1 already"),
        ("pitch 1\npitch 1", "line 2: pitch is on line 1 already"),
        (
            "channels 1\nchannels 1",
            "line 2: channels is on line 1 already",
        ),
        (
            "pitch 1\ntarget 8",
            "line 2: pitch, on line 1, is the target already",
        ),
        (
            "target 8\npitch 1",
            "line 2: pitch is the target, too, and target is on line 1",
        ),
        (
            "pitch 1\nlevel 3",
            "line 2: level stands before pitch, which depends on it and is on line 1",
        ),
        (
            "layer 2 8\n\nlayer 2 16",
            "line 3: layer 2 is on line 1 already",
        ),
        (
            "layer 2 8\nlayer 1 8",
            "line 2: layer 1 doesn't rise: it stands behind 2",
        ),
        (
            "terminal in 1 A pad 0\nterminal in 0 V pad 0",
            "line 2: a terminal in is on line 1 already",
        ),
        // The line that is wrong, not the one that depends on it.
        (
            "level 13\npitch 1",
            "line 1: level 13 is out of range: 0 to 12",
        ),
    ] {
        assert_eq!(unclear(&format!("{lines}\n{SQUARE}")), words);
    }
    for first in [
        "layer 1 8",
        "polygon 1 0 1",
        "via 1 2 0 0 0 0 0 1",
        "contact 0 1",
        "channel 0 0 0 0 1 1 1",
        "terminal in 1 A pad 0",
        "refine 0 0 1 1 1",
        "sheet 0 0 1 1 2",
    ] {
        let said = unclear(&format!("\n{first}\nrefine 0 0 1 1 1\npitch 1\n"));
        let words =
            "line 4: pitch stands before layers, polygons, links, terminals, sheet, refine and across, as on line 2";
        assert_eq!(said, words, "{first}");
    }
}

#[test]
fn the_first_part_too_many_is_told() {
    let many = |count: usize, line: &dyn Fn(usize) -> String| -> String {
        (1..=count).map(line).collect()
    };
    let polygon = |_| "polygon 1 0 1\n".to_string();
    for (text, words) in [
        (
            many(65, &|n| format!("layer {n} 8\n")),
            "line 65: more than 64 layers",
        ),
        (many(257, &polygon), "line 257: more than 256 polygons"),
        (
            polygon(0) + &many(2_000, &|_| "0 0\n".to_string()),
            "line 1026: more than 1,024 points of one polygon",
        ),
        (
            many(65_536, &|n| format!("split {n}\n")),
            "line 65536: more than 65,535 splits",
        ),
    ] {
        assert_eq!(unclear(&text), words);
    }
}

#[test]
fn a_board_has_polygons_and_a_polygon_four_points() {
    for text in ["", "\n", "# nothing\n", "level 2\ntarget 8\nlayer 1 8\n"] {
        let said = unclear(text);
        assert!(
            said.starts_with("there is no polygon: a line `polygon "),
            "{said}"
        );
    }
    for count in 0..4 {
        let points = &["0 0\n", "8 0\n", "8 8\n"].concat()[..4 * count];
        let said = unclear(&format!("{SQUARE}polygon 1 1 1\n{points}polygon 1 2 1\n"));
        assert_eq!(
            said,
            format!("line 8: a ring has 4 points or more, this one {count}")
        );
    }
}

#[test]
fn numbers_of_polygons_that_are_not_there_are_told() {
    for (line, words) in [
        (
            "contact 0 1",
            "line 8: there is no polygon 1: 1 polygon stands here, 0",
        ),
        (
            "contact 7 0",
            "line 8: there is no polygon 7: 1 polygon stands here, 0",
        ),
        ("contact 0 -1", "line 8: polygon -1 is out of range"),
        (
            "terminal in 1 A pad 1",
            "line 8: there is no polygon 1: 1 polygon stands here, 0",
        ),
    ] {
        assert!(
            unclear(&format!("{SQUARE}{line}\n")).starts_with(words),
            "{line}"
        );
    }
    let said = unclear(&format!("{TWO_LAYERS}terminal in 1 A pad 2\ncontact 0 3\n"));
    assert_eq!(
        said,
        "line 13: there is no polygon 2: 2 polygons stand here, 0 to 1"
    );
}

#[test]
fn terminals_that_cannot_be_are_told_by_their_line() {
    let senseless = "cannot make sense of";
    for (words, why) in [
        ("", senseless),
        ("in", senseless),
        ("in 10 A", senseless),
        (
            "in 10 mA end 1 0 west",
            "\"10 mA\": a value and its unit are two words",
        ),
        ("in 10 W end 1 0 west", senseless),
        ("in 10 A end 1 0 up", senseless),
        ("in 10 A end 1 0", senseless),
        ("in 10 A pad", senseless),
        ("in 10 A edge 1 0 0 0 8", senseless),
        ("in ten A end 1 0 west", "current \"ten\" is no number"),
        (
            "in NaN A end 1 0 west",
            "current \"NaN\" is no finite number",
        ),
        (
            "in 1e400 V end 1 0 west",
            "potential \"1e400\" is no finite number",
        ),
        (
            "in 1048577 V end 1 0 west",
            "potential 1048577 is out of range: -1048576 to 1048576",
        ),
        (
            "in -1048577 A end 1 0 west",
            "current -1048577 is out of range: -1048576 to 1048576",
        ),
        ("in 10 A end 65536 0 west", "layer 65536 is out of range"),
        (
            "in 10 A end 1 4294967296 west",
            "component 4294967296 is out of range",
        ),
        (
            "in 10 A edge 1 0 0 0 8 8",
            "the edge is slanted: x0 = x1 or y0 = y1",
        ),
        ("in 10 A edge 1 0 3 3 3 3", "the edge has no length"),
        ("in 10 A rect 1 0 0 0 0 8", "the rectangle has no area"),
        ("in 10 A rect 1 0 3 3 3 3", "the rectangle has no area"),
        (
            "in 10 A rect 1 0 0 0 8 1.5",
            "coordinate 1.5: a length with a point",
        ),
        (
            "in 10 A rect 1 0 0 0 8 68719476737",
            "coordinate 68719476737 is out of range",
        ),
        ("in 10 A pad one", "polygon \"one\" is no whole number"),
    ] {
        let said = unclear(&format!("{SQUARE}terminal {words}\n"));
        assert!(said.starts_with(&format!("line 8: {why}")), "{said}");
        let said = text::terminal(words, None).expect_err(words);
        assert_eq!(said.line, None);
        assert!(said.words.starts_with(why), "{said}");
    }
    let said = unclear(&format!(
        "{TWO_LAYERS}terminal in 10 A edge 1 0 0 0 251 0\n"
    ));
    assert!(
        said.starts_with("line 13: 251 mm is past the range of a coordinate"),
        "{said}"
    );
}

#[test]
fn links_that_cannot_be_are_told_by_their_line() {
    let far = "250.1 mm is past the range of a coordinate";
    let no_sense = "cannot make sense of";
    for (link, words) in [
        ("via 1 2 0 1 1 0.6 0.6", no_sense),
        ("via 1 2 0 1 1 0.6 0.6 0.01 1", no_sense),
        (
            "via 65536 2 0 1 1 0 0 1",
            "layer 65536 is out of range: 0 to 65535",
        ),
        (
            "via 1 65536 0 1 1 0 0 1",
            "layer 65536 is out of range: 0 to 65535",
        ),
        (
            "via 1 2 4294967296 1 1 0 0 1",
            "component 4294967296 is out of range: 0 to 4294967295",
        ),
        ("via 1 2 0 250.1 1 0 0 1", far),
        ("via 1 2 0 1 1 250.1 0 1", far),
        ("via 1 2 0 1 1 -0.1 0 1", "half size -0.1 is below 0"),
        (
            "via 1 2 0 1 1 0 0 0",
            "resistance 0 is out of range: 2^-40 to 2^40",
        ),
        (
            "via 1 2 0 1 1 0 0 NaN",
            "resistance \"NaN\" is no finite number",
        ),
        ("channels 65536", "layer 65536 is out of range: 0 to 65535"),
        ("channel 0 1 1 0 1 1", no_sense),
        (
            "channel 0 1 1 0 -250.1 1 1",
            "-250.1 mm is past the range of a coordinate",
        ),
        ("channel 0 1 1 0 1 1 -1", "resistance -1 is out of range"),
        ("contact 0", no_sense),
        (
            "via 1 3 0 1 1 0 0 1",
            "joins nothing: one of its layers has no copper of its component",
        ),
        (
            "via 1 2 1 1 1 0 0 1",
            "joins nothing: one of its layers has no copper of its component",
        ),
        (
            "channel 0 1 1 0 1 1 1",
            "joins nothing: the channels' layer has no copper of one of its components",
        ),
    ] {
        let said = refused(format!("{TWO_LAYERS}contact 0 1\n{link}\n").as_bytes());
        assert!(said.starts_with(&format!("line 14: {words}")), "{said}");
    }
    let said = text::pack(&format!("{TWO_LAYERS}contact 0 1\n")).expect_err("a link");
    assert_eq!(said.to_string(), "line 13: a record has no links");
}

#[test]
fn a_slanted_ring_is_told_by_its_first_slanted_point() {
    let ring = |points: &str| refused(format!("{SQUARE}polygon 1 1 1\n{points}").as_bytes());
    assert_eq!(
        ring("0 0\n8 0\n9 8\n0 8\n"),
        "line 11: (9, 8) differs in both x and y from the point before it, (8, 0)"
    );
    assert_eq!(
        ring("0 0\n8 0\n8 8\n1 8\n"),
        "line 12: (1, 8) differs in both x and y from the first point, (0, 0)"
    );
    let said = refused(TWO_LAYERS.replace("2 2\n", "2.5 2\n").as_bytes());
    assert_eq!(
        said,
        "line 6: (2.5 mm, 2 mm) differs in both x and y from the point before it, (2 mm, 0 mm)"
    );
}

#[test]
fn an_uneven_base_cell_is_told_with_its_strip() {
    let square = |level: &str, target: u32| {
        format!("{level}target {target}\npolygon 1 0 1\n0 0\n40 0\n40 8\n0 8\n")
    };
    for (level, target, line, words) in [
        ("level 3\n", 8, 2, "the target, 8 ticks, is no multiple of 16 ticks (level 3): the nearest is 16 ticks"),
        ("level 2\n", 12, 2, "the target, 12 ticks, is no multiple of 8 ticks (level 2): the nearest is 16 ticks"),
        ("", 8, 1, "the target, 8 ticks, is no multiple of 32 ticks (level 4, the default): the nearest is 32 ticks"),
    ] {
        let text = square(level, target);
        assert_eq!(refused(text.as_bytes()), format!("line {line}: {words}"));
        let record = text::pack(&text).expect("a record");
        assert_eq!(refused(&record), format!("target: {words}"));
    }
    // A strip that is smaller than a cell, and one that is larger and no multiple.
    for (target, words) in [
        (64, "a strip of 40 by 8 ticks is 40 ticks wide, no multiple of 16 ticks (level 3): the nearest is 48 ticks"),
        (32, "a strip of 40 by 8 ticks is 40 ticks wide, no multiple of the target, 32 ticks: the nearest is 32 ticks"),
    ] {
        let text = square("level 3\n", target);
        assert_eq!(refused(text.as_bytes()), format!("line 4: {words}"));
        let record = text::pack(&text).expect("a record");
        assert_eq!(refused(&record), format!("polygon 0, point 0: {words}"));
    }
    // In millimetres: cells of 0.75 mm are wanted of a strip of 0.75 mm, and of one of 1.25 mm, which gets two.
    let text =
        "level 12\npitch 0.25\nlayer 1 0.75\npolygon 1 0 1\n0 0\n1.25 0\n1.25 0.75\n0 0.75\n";
    let said = refused(text.as_bytes());
    assert_eq!(
        said,
        "line 5: a strip of 1.25 by 0.75 mm is 1.25 mm wide, no multiple of the cell of layer 1, 0.75 mm: the nearest \
         is 1.5 mm, and 0.25 mm fit all sides of the ring"
    );
}

/// A text without a level, and a record of 255, are of level 4: multiples of 32 ticks.
#[test]
fn a_board_without_a_level_is_of_the_default_level() {
    let square = |side: u32| {
        format!("target {side}\npolygon 1 0 1\n0 0\n{side} 0\n{side} {side}\n0 {side}\n")
    };
    for side in [16, 48] {
        let said = refused(square(side).as_bytes());
        assert!(
            said.starts_with("line 1: ") && said.contains("32 ticks (level 4, the default)"),
            "{said}"
        );
        // As it was taken before the default was 4.
        assert!(net(format!("level 3\n{}", square(side)).as_bytes()).is_ok());
    }
    let text = square(32);
    let record = text::pack(&text).expect("a record");
    assert_eq!(record[5], 255);
    assert!(net(text.as_bytes()).is_ok() && net(&record).is_ok());
    // What is shown of it asks for the default, too.
    let shown = text::show(&text::read_record(&record).expect("a board"));
    assert!(!shown.contains("level"), "{shown}");
    assert_eq!(text::pack(&shown), Ok(record));
}

/// A square of 8 ticks at level 2 has 1, 5, 21 cells.
#[test]
fn a_split_that_cannot_be_is_told_by_its_line() {
    for (splits, words) in [
        (
            "split 1",
            "line 8: there is no cell 1: 1 cell stands here, 0",
        ),
        (
            "split 0\nsplit 1 99",
            "line 9: there is no cell 99: 9 cells stand here, 0 to 8",
        ),
        ("split 0\nsplit 1 2 0", "line 9: cell 0 is split already"),
        (
            "split 0 1\nsplit 5",
            "line 9: cell 5 is at the finest level, 2",
        ),
        (
            "split 0\nsplit 4-5",
            "line 9: cell 5 is at the finest level, 2",
        ),
    ] {
        let text = format!("{SQUARE}{splits}\n");
        assert_eq!(refused(text.as_bytes()), words);
        // The same where a rectangle is refined, for which the mesh is made at once.
        let refined = format!("{text}refine 0 0 8 8 1\n");
        assert_eq!(unclear(&refined), words);
        let record = text::pack(&text).expect("a record");
        let said = refused(&record);
        let (_, own) = words.split_once(": ").expect("a line");
        assert!(said.starts_with("split ") && said.ends_with(own), "{said}");
    }
}

#[test]
fn a_rectangle_that_cannot_be_refined_is_told_by_its_line() {
    for (words, why) in [
        ("9 0 12 8 1", "no copper lies between (9, 0) and (12, 8)"),
        ("8 0 12 8 1", "no copper lies between (8, 0) and (12, 8)"),
        (
            "0 0 8 8 1 2",
            "no copper of layer 2 lies between (0, 0) and (8, 8)",
        ),
        ("0 0 8 8 3", "level 3 is deeper than the board's, 2"),
        ("0 0 8 8 13", "level 13 is out of range: 0 to 12"),
        ("0 0 0 8 1", "the rectangle has no area"),
        ("0 0 8 8 1 65536", "layer 65536 is out of range: 0 to 65535"),
        ("0 0 8 8 one", "level \"one\" is no whole number"),
        ("0 0 8 8", "cannot make sense of"),
        ("0 0 8 8 1 1 1", "cannot make sense of"),
        (
            "0 0 8 7.5 1",
            "coordinate 7.5: a length with a point needs a pitch in front",
        ),
    ] {
        let said = unclear(&format!("{SQUARE}refine {words}\n"));
        assert!(said.starts_with(&format!("line 8: {why}")), "{said}");
    }
    let said = unclear(&format!("{TWO_LAYERS}refine 2 0 2.1 2.2 1\n"));
    assert_eq!(
        said,
        "line 13: no copper lies between (2 mm, 0 mm) and (2.1 mm, 2.2 mm)"
    );
    // What build refuses is told here, too.
    let slanted = SQUARE.replace("8 8", "9 8");
    let said = unclear(&format!("{slanted}refine 0 0 1 1 1\n"));
    assert!(said.starts_with("line 6: (9, 8) differs"), "{said}");
}

/// So many squares beside each other, each of 128 by 128 base cells: all the cells that there may be.
fn full(polygons: usize) -> String {
    let mut text = String::from("level 1\ntarget 4\n");
    for at in 0..polygons {
        let (x0, x1) = (1_000 * at, 1_000 * at + 512);
        text += &format!("polygon 1 0 1\n{x0} 0\n{x1} 0\n{x1} 512\n{x0} 512\n");
    }
    text
}

#[test]
fn the_line_that_is_past_the_room_is_told() {
    let room = "more than 16,384 cells";
    assert_eq!(refused(full(2).as_bytes()), format!("line 8: {room}"));
    assert_eq!(refused(full(9).as_bytes()), format!("line 8: {room}"));
    let record = text::pack(&full(2)).expect("a record");
    assert_eq!(refused(&record), format!("polygon 1: {room}"));
    assert_eq!(
        refused((full(1) + "split 0\n").as_bytes()),
        format!("line 8: {room}")
    );
    let said = unclear(&(full(1) + "\nrefine 0 0 4 4 1\n"));
    assert_eq!(said, format!("line 9: {room}"));
    // 64 by 64 base cells, 3,008 of them split and 64 of their quarters: as many cells as fit, and balance wants more.
    let square = "level 2\ntarget 8\npolygon 1 0 1\n0 0\n512 0\n512 512\n0 512\n";
    let text = format!("{square}refine 0 0 512 376 1\nrefine 0 368 128 376 2\n");
    let said = refused(text.as_bytes());
    assert_eq!(said, format!("balance needs {room}"));
}

/// What a strip is too long for, and what isn't joined, are told as they were.
#[test]
fn boards_whose_net_would_be_wrong_are_told_by_their_line() {
    let long = "level 1\npitch 0.1\npolygon 1 0 1\n0 0.1\n0 0\n30 0\n30 0.1\n1 0.1\n1 0.2\n0 0.2\n";
    assert_eq!(
        refused(long.as_bytes()),
        "line 4: 300 pitches long; at most 256 base cells: give layer 1 a larger cell (layer 1 0.2), take a larger \
         pitch (0.2 mm), or draw two polygons that touch"
    );
    let record = text::pack(long).expect("a record");
    let said = refused(&record);
    assert!(
        said.starts_with(
            "polygon 0, point 0: 300 base cells long; at most 256 base cells: give layer 1"
        ),
        "{said}"
    );
}
