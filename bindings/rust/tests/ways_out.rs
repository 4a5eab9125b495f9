//! What is said of a board that is refused: the line, what is wrong in the words of the text, and a way out.

mod programs;

use leafmesh::text;
use programs::{made, refused, run, sample_name, senseless, text_made, Folder, BOARD, DRAW};
use std::fs;

/// What `board net` says of a text.
fn said(text: &str) -> String {
    refused(BOARD, &["net"], text.as_bytes())
}

fn ring([width, height]: [&str; 2]) -> String {
    format!("0 0\n{width} 0\n{width} {height}\n0 {height}\n")
}

/// It said that sides "must be multiples of 0.000000116 mm".
#[test]
fn a_length_is_judged_by_the_cell_of_its_layer() {
    let board = |cell: &str, size| {
        format!(
            "pitch 0.1\nlayer 1 {cell}\npolygon 1 0 0.001\n{}",
            ring(size)
        )
    };
    assert_eq!(
        said(&board("0.5", ["0.9", "1"])),
        "line 4: a strip of 0.9 by 1 mm is 0.9 mm wide, no multiple of the cell of layer 1, 0.5 mm: the nearest is 1 \
         mm, and 0.1 mm fit all sides of the ring\n"
    );
    assert_eq!(
        said(&board("0.7", ["2.1", "1.3"])),
        "line 4: a strip of 2.1 by 1.3 mm is 1.3 mm high, no multiple of the cell of layer 1, 0.7 mm: the nearest is \
         1.4 mm, and 0.1 mm fit all sides of the ring\n"
    );
    // What is said to be nearest is taken.
    made(BOARD, &["net"], board("0.5", ["1", "1"]).as_bytes());
    made(BOARD, &["net"], board("0.7", ["2.1", "1.4"]).as_bytes());
    // Bands of unequal cells name the side that is no multiple.
    let bands = "pitch 0.2\nlayer 1 1\npolygon 1 0 1\n0 0\n2.4 0\n2.4 2\n1 2\n1 4\n0 4\n";
    let words = said(bands);
    assert!(words.starts_with("line 3: a node at "), "{words}");
    let misfit = "its side from (0 mm, 0 mm) to (2.4 mm, 0 mm) is 2.4 mm long, no multiple of the cell of layer 1, 1 \
                  mm: the nearest is 2 mm\n";
    assert!(words.ends_with(misfit), "{words}");
    made(BOARD, &["net"], bands.replace("2.4", "2").as_bytes());
    // In ticks a cell itself may be none.
    let ticks = |first: &str| format!("{first}polygon 1 0 1\n{}", ring(["96", "96"]));
    let steps = "is no multiple of 32 ticks (level 4, the default)";
    let strip = "a strip of 96 by 96 ticks is 96 ticks wide, no multiple of";
    for (first, words) in [
        (
            "target 24\n",
            format!("line 1: the target, 24 ticks, {steps}: the nearest is 32"),
        ),
        (
            "target 32\nlayer 1 48\n",
            format!("line 2: the cell of layer 1, 48 ticks, {steps}: the nearest is 64"),
        ),
        (
            "",
            format!("line 1: the target, 1 tick where no line says it, {steps}"),
        ),
        (
            "target 64\n",
            format!("line 3: {strip} the target, 64 ticks: the nearest is 128"),
        ),
    ] {
        let found = said(&ticks(first));
        assert!(found.starts_with(&words), "{found}");
    }
}

#[test]
fn a_point_off_the_pitch_is_told_the_largest_pitch_and_snap() {
    let board = "pitch 0.5\nlayer 1 1.5\npolygon 1 0 0.001\n0 0\n3.2 0\n3.2 3\n0 3.05\n";
    assert_eq!(
        said(board),
        "line 5: 3.2 mm is no multiple of the pitch of 0.5 mm; the nearest is 3 mm; by the cell of layer 1, 1.5 mm, it \
         is 3 mm; the largest pitch that fits all points is 0.05 mm; `--snap 0.5` moves points to the nearest \
         multiples\n"
    );
    // With that pitch all points are taken.
    let at_right_angles = board.replace("3.05", "3").replace("layer 1 1.5\n", "");
    let words = said(&at_right_angles);
    assert!(
        words.contains("the largest pitch that fits all points is 0.2 mm"),
        "{words}"
    );
    made(
        BOARD,
        &["net"],
        at_right_angles.replace("pitch 0.5", "pitch 0.2").as_bytes(),
    );
    let layer = said("pitch 0.5\nlayer 1 0.7\npolygon 1 0 0.001\n0 0\n7 0\n7 7\n0 7\n");
    assert!(layer.starts_with(
        "line 2: 0.7 mm is no multiple of the pitch of 0.5 mm; the nearest is 0.5 mm; the largest"
    ));
    // What is wrong with the line for another reason ends without it.
    let twice = said("pitch 0.5\nlayer 1 1\nlayer 1 0.7\npolygon 1 0 0.001\n");
    assert!(
        twice.starts_with("line 3: 0.7 mm is no multiple") && twice.contains("--snap"),
        "{twice}"
    );
    let nowhere = said("pitch 0.5\n0.7 1\n");
    assert!(
        nowhere.starts_with("line 2: 0.7 mm is no multiple"),
        "{nowhere}"
    );
    let number = said("pitch 0.5\npolygon 1 0 1\n0.7x 0.7\n");
    assert_eq!(number, "line 3: coordinate \"0.7x\" is no number\n");
    // No pitch is as small.
    let inches =
        said("level 12\npitch 0.5\npolygon 1 0 0.001\n0 0\n0.7000001 0\n0.7000001 1\n0 1\n");
    assert!(
        !inches.contains("largest pitch") && inches.contains("`--snap 0.5`"),
        "{inches}"
    );
}

/// Points that are on no pitch, in the form in which layout data has them.
const LAID_OUT: &str =
    "level 1\npitch 0.5 # of the layout\nlayer 1 1.1\npolygon 1 0 0.001\n0.01 0\n4.02 0 # \
    south-east\n 4.02 1.98\n0.01 1.98\nvia 1 1 0 1.03 1.02 0 0 0.001\n";

#[test]
fn snap_moves_points_and_lists_the_moves() {
    let output = run(BOARD, &["merge", "--snap", "0.25"], LAID_OUT.as_bytes());
    let [text, moves] =
        [output.stdout, output.stderr].map(|bytes| String::from_utf8(bytes).expect("text"));
    assert_eq!(
        text,
        "level 1\npitch 0.25 # of the layout\nlayer 1 1\npolygon 1 0 0.001\n0 0\n4 0 # south-east\n4 2\n0 2\n\
         via 1 1 0 1.03 1.02 0 0 0.001\n"
    );
    assert_eq!(
        moves,
        "line 3: a cell of 1.1 mm becomes one of 1 mm\nline 5: (0.01 mm, 0 mm) is moved to (0 mm, 0 mm)\n\
         line 6: (4.02 mm, 0 mm) is moved to (4 mm, 0 mm)\nline 7: (4.02 mm, 1.98 mm) is moved to (4 mm, 2 mm)\n\
         line 8: (0.01 mm, 1.98 mm) is moved to (0 mm, 2 mm)\n"
    );
    // Every tool that reads a text takes it, and tells the file.
    let folder = Folder::new("snap");
    let plain = LAID_OUT.replace("via 1 1 0 1.03 1.02 0 0 0.001\n", "");
    let name = folder.put("laid_out.txt", plain.as_bytes());
    let terminals = [
        "--terminal",
        "in 1 A end 1 0 west",
        "--terminal",
        "out 0 V end 1 0 east",
    ];
    for command in ["pack", "net", "vtk", "msh", "csv", "solve", "refine"] {
        let mut words = vec![command, &name, "--snap=0.25"];
        match command {
            "solve" => words.extend(terminals),
            "refine" => words.extend([&["--rounds", "1"], &terminals[..]].concat()),
            _ => {}
        }
        let output = run(BOARD, &words, b"");
        let said = String::from_utf8(output.stderr).expect("words");
        assert!(output.status.success(), "{command}: {said}");
        assert!(
            said.contains(&format!(
                "{name}: line 5: (0.01 mm, 0 mm) is moved to (0 mm, 0 mm)\n"
            )),
            "{said}"
        );
        if command == "refine" {
            assert!(String::from_utf8(output.stdout)
                .expect("a text")
                .contains("pitch 0.25"));
        }
    }
    made(DRAW, &[&name, "--snap", "0.25"], b"");
    // A byte order mark in front does no harm.
    let marked = run(
        BOARD,
        &["merge", "--snap", "0.25"],
        format!("\u{feff}{LAID_OUT}").as_bytes(),
    );
    assert_eq!(marked.stdout, text.as_bytes());
    // On the pitch already nothing moves.
    let again = run(BOARD, &["merge", "--snap", "0.25"], text.as_bytes());
    assert_eq!(
        (again.stdout, again.stderr),
        (text.into_bytes(), Vec::new())
    );
}

#[test]
fn snap_takes_a_text_in_millimetres_and_a_pitch() {
    for word in ["0", "-1", "NaN", "inf", "wide", ""] {
        let words = senseless(BOARD, &["net", "--snap", word], LAID_OUT.as_bytes());
        assert!(
            words.contains("--snap takes a pitch in millimetres, not"),
            "{words}"
        );
    }
    // A length that is in no range is left to be refused, and said in short.
    let far = LAID_OUT.replace("4.02", "1e300");
    let far = refused(BOARD, &["net", "--snap", "1"], far.as_bytes());
    let last = far.lines().last().unwrap_or("");
    assert!(last.starts_with("line 6: 1") && far.len() < 900, "{far}");
    let small = LAID_OUT.replace("0.01", "1e-300");
    let small = run(BOARD, &["merge", "--snap", "1"], small.as_bytes());
    assert!(small.stderr.len() < 600, "{small:?}");
    let ticks = "target 32\npolygon 1 0 1\n0 0\n32 0\n32 32\n0 32\n";
    let words = refused(BOARD, &["net", "--snap", "1"], ticks.as_bytes());
    assert!(
        words
            .starts_with("line 3: --snap moves points of a text in millimetres: a line `pitch MM`"),
        "{words}"
    );
    let record = fs::read(sample_name("neck.record")).expect("a record");
    let words = refused(BOARD, &["net", "--snap", "1"], &record);
    assert_eq!(
        words,
        "--snap moves the points of a text, and this is a record\n"
    );
}

#[test]
fn a_strip_that_is_too_long_is_told_three_ways_out() {
    let board = |first: &str| format!("level 1\n{first}polygon 3 0 1\n{}", ring(["30", "0.2"]));
    assert_eq!(
        said(&(board("pitch 0.1\n") + "polygon 3 1 1\n0 1\n1 1\n1 2\n0 2\n")),
        "line 4: 300 pitches long; at most 256 base cells: give layer 3 a larger cell (layer 3 0.2), take a larger \
         pitch (0.2 mm), or draw two polygons that touch\n"
    );
    // Each of them is one.
    made(
        BOARD,
        &["net"],
        board("pitch 0.1\nlayer 3 0.2\n").as_bytes(),
    );
    made(BOARD, &["net"], board("pitch 0.2\n").as_bytes());
    let touching = "level 1\npitch 0.1\npolygon 3 0 1\n0 0\n20 0\n20 0.2\n0 0.2\npolygon 3 0 1\n20 0\n30 0\n30 0.2\n\
        20 0.2\n";
    made(BOARD, &["net"], touching.as_bytes());
}

/// One square at level 1, of target 4.
fn record() -> Vec<u8> {
    text::pack("level 1\ntarget 4\nlayer 2 8\npolygon 1 0 1\n0 0\n4 0\n4 4\n0 4\nsplit 0\n")
        .expect("a record")
}

#[test]
fn damaged_records_are_told_by_the_name_of_the_field() {
    let whole = record();
    let changed = |at: usize, bytes: &[u8]| {
        let mut record = whole.clone();
        record[at..at + bytes.len()].copy_from_slice(bytes);
        record
    };
    // With the length that it has now.
    let cut = |at: usize| {
        let mut record = whole[..at].to_vec();
        let length = (at - 5) as u32;
        record[1..5].copy_from_slice(&length.to_be_bytes());
        record
    };
    let again = "copy it again, or pack its text again";
    let mut longer = whole.clone();
    longer.extend([0, 0, 0]);
    let length = longer.len() as u32 - 5;
    longer[1..5].copy_from_slice(&length.to_be_bytes());
    let out_of = |range: &str| format!("is out of range: {range}");
    let coordinates = out_of("-68719476736 to 68719476736");
    let cells = out_of("0 to 68719476736");
    let ends = format!("the record ends in it or before it: {again}");
    let behind = whole.len() - 5;
    for (record, words) in [
        (
            changed(4, &[1]),
            format!("byte 1, length of what follows: 1, where {behind} bytes follow: {again}"),
        ),
        (
            changed(5, &[13]),
            format!("byte 5, max_level: 13 {}", out_of("0 to 12, or 255")),
        ),
        (
            changed(6, &[2, 0]),
            format!("byte 6, cap: 512 {}", out_of("1 to 256")),
        ),
        (
            changed(8, &[0; 8]),
            format!("byte 8, target: 0 {}", out_of("1 to 68719476736")),
        ),
        (
            changed(16, &[0, 65]),
            format!(
                "byte 16, number of layers with a cell of their own: 65 {}",
                out_of("0 to 64")
            ),
        ),
        (
            changed(20, &[255]),
            format!("byte 20, cell of entry 0: 18374686479671623688 {cells}"),
        ),
        (
            changed(28, &[2, 0]),
            format!("byte 28, number of polygons: 512 {}", out_of("0 to 256")),
        ),
        (
            changed(36, &[0; 8]),
            format!(
                "byte 36, r_sheet of polygon 0: 0 {}",
                out_of("2^-40 to 2^40")
            ),
        ),
        (
            changed(44, &[8, 0]),
            format!(
                "byte 44, number of points of polygon 0: 2048 {}",
                out_of("0 to 1024")
            ),
        ),
        (
            changed(62, &[255, 0, 0, 0, 0, 0, 0, 4]),
            format!("byte 62, x of point 1 of polygon 0: -72057594037927932 {coordinates}"),
        ),
        (
            cut(75),
            format!("byte 70, y of point 1 of polygon 0: {ends}"),
        ),
        (cut(30), format!("byte 30, layer of polygon 0: {ends}")),
        (cut(112), format!("byte 112, split 0: {ends}")),
        (
            longer,
            format!(
                "byte {}: 3 bytes are left over behind the splits: {again}",
                whole.len()
            ),
        ),
    ] {
        for command in ["unpack", "net"] {
            assert_eq!(refused(BOARD, &[command], &record), format!("{words}\n"));
        }
    }
    // A layer that doesn't rise.
    let two =
        text::pack("level 1\ntarget 4\nlayer 2 8\nlayer 3 8\npolygon 1 0 1\n0 0\n4 0\n4 4\n0 4\n")
            .expect("a record");
    let mut same = two;
    same[29] = 2;
    let words = refused(BOARD, &["unpack"], &same);
    assert_eq!(
        words,
        "byte 28, layer of entry 1: 2 is out of range: layers rise, each above the one before it\n"
    );
    assert_eq!(
        text::read_record(&[]).expect_err("nothing").words,
        "the record is empty"
    );
}

/// Each byte of a record that is changed or missing is told with the name of a field, or taken.
#[test]
fn no_damage_of_a_record_is_told_by_a_number_alone() {
    let whole = record();
    for at in 0..whole.len() {
        for byte in [0, 1, 127, 128, 255] {
            let mut record = whole.clone();
            record[at] = byte;
            for record in [record, whole[..at].to_vec()] {
                if let Err(why) = text::read_record(&record) {
                    assert!(!why.words.starts_with("refused"), "{at} {byte}: {why}");
                }
            }
        }
    }
}

#[test]
fn words_that_are_meant_for_another_get_it() {
    let square = "level 1\ntarget 8\npolygon 1 0 1\n0 0\n8 0\n8 8\n0 8\n";
    let with = |line: &str| said(&format!("{square}{line}\n"));
    let did_you_mean = |word: &str, form: &str| format!("did you mean {word}? its form is: {form}");
    let blank = "the numbers of a point are parted by a blank alone: 0 0";
    let unit = "a value and its unit are two words, volts as V or amperes as A";
    let point = "a point has two numbers, x and y";
    for (line, words) in [
        ("0,0", blank.to_string()),
        ("0, 0", blank.to_string()),
        ("0 0,", blank.to_string()),
        ("0;0", blank.to_string()),
        ("7", point.to_string()),
        ("1 2 3", format!("{point}, and a line of its own")),
        (
            "poligon 1 0 1",
            did_you_mean("polygon", "polygon LAYER COMPONENT OHMS"),
        ),
        ("Polygon 1 0 1", did_you_mean("polygon", "polygon ")),
        ("vai 1 2 0 0 0 0 0 1", did_you_mean("via", "via ")),
        (
            "terminals in 1 A pad 0",
            did_you_mean("terminal", "terminal "),
        ),
        (
            "hole 1 0",
            "a line is a point, as 0 0, or begins with level, cap,".to_string(),
        ),
    ] {
        let found = with(line);
        let words = format!("line 8: cannot make sense of \"{line}\": {words}");
        assert!(found.starts_with(&words) && found.len() < 420, "{found}");
    }
    for (line, words) in [
        (
            "terminal in 100 mA end 1 0 west",
            format!("\"100 mA\": {unit}: 0.1 A"),
        ),
        (
            "terminal in 100mA end 1 0 west",
            format!("\"100mA\": {unit}: 0.1 A"),
        ),
        (
            "terminal in 1A end 1 0 west",
            format!("\"1A\": {unit}: 1 A"),
        ),
        ("terminal in 1A", format!("\"1A\": {unit}: 1 A")),
        (
            "terminal in 5 kV end 1 0 west",
            format!("\"5 kV\": {unit}: 5000 V"),
        ),
        (
            "terminal in -3 uA end 1 0 west",
            format!("\"-3 uA\": {unit}: -0.000003 A"),
        ),
        (
            "terminal in 2 a end 1 0 west",
            format!("\"2 a\": {unit}: 2 A"),
        ),
        (
            "terminal in 1e300 kA end 1 0 west",
            "cannot make sense of \"terminal in 1e300 kA".to_string(),
        ),
        (
            "terminal in 1e-300A end 1 0 west",
            "cannot make sense of \"terminal in 1e-300A".to_string(),
        ),
        (
            "terminal in 10 W end 1 0 west",
            "cannot make sense of \"terminal in 10 W".to_string(),
        ),
    ] {
        let found = with(line);
        assert!(found.starts_with(&format!("line 8: {words}")), "{found}");
        assert!(found.len() < 420, "{found}");
    }
}

#[test]
fn a_terminal_on_a_layer_without_copper_is_told_where_copper_lies() {
    let square = |head: &str| format!("polygon {head} 1\n0 0\n8 0\n8 8\n0 8\n");
    let board = format!(
        "level 1\ntarget 8\n{}{}{}",
        square("1 0"),
        square("1 7"),
        square("3 0")
    );
    let lies = "layer 1 has 0, 7; layer 3 has 0";
    let solved = |line: &str| {
        refused(
            BOARD,
            &["solve"],
            format!("{board}terminal out 0 V pad 0\n{line}\n").as_bytes(),
        )
    };
    for place in ["end 2 0 west", "edge 2 0 0 0 0 8", "rect 2 0 0 0 8 8"] {
        let words = format!("line 19: terminal in: layer 2 has no copper of component 0; {lies}\n");
        assert_eq!(solved(&format!("terminal in 1 A {place}")), words);
    }
    let words = format!("line 19: terminal in: layer 3 has no copper of component 7; {lies}\n");
    assert_eq!(solved("terminal in 1 A end 3 7 west"), words);
    let terminal = ["solve", "--terminal", "in 1 A end 2 0 west"];
    let words = format!("--terminal: terminal in: layer 2 has no copper of component 0; {lies}\n");
    assert_eq!(refused(BOARD, &terminal, board.as_bytes()), words);
}

#[test]
fn an_empty_file_is_named() {
    let folder = Folder::new("empty");
    let name = folder.put("empty.txt", b"");
    let wanted = "a board's text or record is wanted";
    for command in ["solve", "net", "pack", "merge", "vtk"] {
        assert_eq!(
            refused(BOARD, &[command, &name], b""),
            format!("{name}: the file is empty: {wanted}\n")
        );
        assert_eq!(
            refused(BOARD, &[command], b""),
            format!("standard input is empty: {wanted}\n")
        );
    }
    assert_eq!(
        refused(DRAW, &[&name], b""),
        format!("{name}: the file is empty: {wanted}\n")
    );
    let name = folder.put("comment.txt", b"# nothing\n");
    let words = refused(BOARD, &["solve", &name], b"");
    assert!(
        words.starts_with(&format!("{name}: there is no polygon: ")),
        "{words}"
    );
    assert!(text_made(BOARD, &["--help"], b"").contains("merge"));
}
