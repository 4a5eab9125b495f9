//! What flows between terminals: `board solve`, `board refine`, `relax`, and terminals that are named beside a board.

mod programs;

use leafmesh::solving::{Solution, System};
use leafmesh::{read, text, Leaf, Mesh, Net, Rect};
use programs::{
    made, refused, run, sample, sample_name, senseless, text_made, Folder, BOARD, DRAW, RELAX,
};
use std::fs;

/// A strip of four squares, one ohm a square, from the left to the right: 4 ohms.
const STRIP: &str = "level 3\ntarget 16\npolygon 1 0 1\n0 0\n64 0\n64 16\n0 16\n";
const IN: &str = "terminal in 3 A end 1 0 west\n";
const OUT: &str = "terminal out 0 V end 1 0 east\n";

const NO_NODE: &str =
    "no corner of a leaf of its copper lies in it, but for such as hang at the middle of another's side";

fn strip() -> String {
    [STRIP, IN, OUT].concat()
}

/// The same with all current in at one corner, so that it is even nowhere.
fn cornered() -> String {
    [STRIP, "terminal in 3 A edge 1 0 0 0 0 1\n", OUT].concat()
}

/// The value behind a word that begins a line.
fn behind<'a>(text: &'a str, word: &str) -> &'a str {
    let line = text.lines().find_map(|line| line.strip_prefix(word));
    line.unwrap_or_else(|| panic!("no {word} in {text}")).trim()
}

#[test]
fn a_strip_has_the_resistance_of_its_squares() {
    let board = format!("{}split 0\n", strip());
    let table = text_made(BOARD, &["solve"], board.as_bytes());
    assert_eq!(behind(&table, "in "), "12            3");
    assert_eq!(behind(&table, "out "), "0           -3");
    for (word, value) in [("power ", "36 W"), ("V x A ", "36 W"), ("V / A ", "4 ohm")] {
        assert_eq!(behind(&table, word), value);
    }
    // All of it runs evenly, over a width of 16 ticks: 3 A / (16 / 2^38 m).
    assert!(behind(&table, "hottest ").ends_with(" W/mm2, 5.15396e7 A/mm"));
    // Its conductances aren't the copper's where the level changes.
    let by_net = text_made(BOARD, &["solve", "--net"], board.as_bytes());
    assert_ne!(behind(&by_net, "V / A "), "4 ohm");
    let whole = text_made(BOARD, &["solve", "--net"], strip().as_bytes());
    assert_eq!(behind(&whole, "V / A "), "4 ohm");
}

#[test]
fn the_hottest_leaf_lies_in_the_neck() {
    let table = text_made(BOARD, &["solve", &sample_name("across.txt")], b"");
    let hottest = behind(&table, "hottest ");
    let place = hottest.split(&['(', ')'][..]).nth(3).expect("a place");
    let [x, y] = [0, 1].map(|at| {
        let word = place.split(", ").nth(at).expect("a coordinate");
        let word = word.strip_suffix(" mm").expect("millimetres");
        word.parse::<f64>().expect("a number")
    });
    assert!(
        (5.8..8.2).contains(&x) && (1.9..2.3).contains(&y),
        "{hottest}"
    );
    // Its id, its name and its level are those of one leaf.
    let words = fs::read_to_string(sample("across.txt")).expect("a sample");
    let mesh = Mesh::of_board(&text::parse(&words).expect("a board")).expect("a mesh");
    let (id, rest) = hottest
        .strip_prefix("leaf ")
        .and_then(|rest| rest.split_once(" ("))
        .expect("an id");
    let (name, rest) = rest.split_once("), ").expect("a name");
    let id: usize = id.parse().expect("an id");
    assert!(mesh.is_leaf(id) && rest.starts_with("layer 1, component 0, at ("));
    assert_eq!(mesh.name(id).expect("a cell").to_string(), name);
}

/// The sixteen vias of a motor drive carry all of its current, from layer 1 to layer 2.
#[test]
fn links_have_their_currents() {
    let board = sample_name("drive.txt");
    for words in [vec!["solve", &board], vec!["solve", &board, "--net"]] {
        let table = text_made(BOARD, &words, b"");
        let vias = table.lines().filter(|line| line.starts_with("via "));
        let amperes: Vec<f64> = vias
            .map(|line| {
                line.rsplit(' ')
                    .next()
                    .expect("a word")
                    .parse()
                    .expect("a number")
            })
            .collect();
        assert_eq!(amperes.len(), 16);
        let sum: f64 = amperes.iter().sum();
        assert!(
            (sum - 20.0).abs() < 1e-3 && amperes.iter().all(|one| *one > 0.5),
            "{table}"
        );
        assert!(behind(&table, "power ").ends_with(" W of it in links"));
    }
    // The sense line of this board carries none, and what the iteration leaves isn't said.
    let words = [
        "--terminal",
        "in 10 A end 1 0 south",
        "--terminal",
        "out 0 V end 2 1 north",
    ];
    let vias = sample_name("vias.txt");
    let words = [&["solve", &vias], &words[..]].concat();
    let table = text_made(BOARD, &words, b"");
    assert_eq!(
        behind(&table, "contact 0 "),
        "1            0  one node: no value as the mesh gets finer"
    );
}

#[test]
fn terminals_beside_a_board() {
    let solved = |board: &str, words: &[&str]| {
        let words: Vec<&str> = words.iter().flat_map(|one| ["--terminal", *one]).collect();
        text_made(BOARD, &[&["solve"], &words[..]].concat(), board.as_bytes())
    };
    // One instead of another of the same name, one more; the order is the text's.
    let other = solved(&strip(), &["in 1 V end 1 0 west"]);
    assert_eq!(behind(&other, "in "), "1         0.25");
    let middle = solved(&strip(), &["tap 0 V rect 1 0 31 -1 33 17"]);
    assert_eq!(behind(&middle, "in "), "6            3");
    let names: Vec<&str> = middle
        .lines()
        .skip(1)
        .take(3)
        .filter_map(|line| line.split(' ').next())
        .collect();
    assert_eq!(names, ["in", "out", "tap"]);
    assert!(!middle.contains("V / A"));
    // Of a record all are named beside it, in ticks.
    let record = made(BOARD, &["pack"], STRIP.as_bytes());
    let words = [
        "solve",
        "--terminal",
        "a 2 V edge 1 0 0 0 0 16",
        "--terminal",
        "b 0 V edge 1 0 64 0 64 16",
    ];
    let table = text_made(BOARD, &words, &record);
    assert_eq!(behind(&table, "a "), "2          0.5");
    // A long name keeps its columns.
    let long = solved(
        &strip(),
        &["a_long_name_of_a_terminal 0 V rect 1 0 31 -1 33 17"],
    );
    let lines: Vec<&str> = long.lines().take(4).collect();
    assert!(
        lines.iter().all(|line| line.len() == lines[0].len()),
        "{long}"
    );
    // Under a pitch they are in millimetres.
    let board = "pitch 0.5\npolygon 1 0 1\n0 0\n2 0\n2 1\n0 1\n";
    let table = solved(board, &["a 3 V edge 1 0 0 0 0 1", "b 0 V edge 1 0 2 0 2 1"]);
    assert_eq!(behind(&table, "a "), "3          1.5");
}

#[test]
fn without_terminals_nothing_flows() {
    let needs = |asker: &str| {
        format!(
            "{asker} needs terminals: where current enters and leaves (a line `terminal` in the text, or --terminal)\n"
        )
    };
    let folder = Folder::new("no-terminals");
    let file = &*folder.put("board.txt", STRIP.as_bytes());
    for (words, asker) in [
        (vec!["vtk", file, "--power"], "--power"),
        (vec!["msh", file, "--power"], "--power"),
        (vec!["csv", file, "--power"], "--power"),
        (vec!["solve", file], "board solve"),
        (vec!["refine", file, "--rounds", "1"], "board refine"),
    ] {
        assert_eq!(
            refused(BOARD, &words, b""),
            format!("{file}: {}", needs(asker))
        );
    }
    for asker in ["--power", "--current"] {
        let said = refused(DRAW, &[file, asker], b"");
        assert_eq!(said, format!("{file}: {}", needs(asker)));
    }
    let net = made(BOARD, &["net", file], b"");
    assert_eq!(refused(RELAX, &[], &net), needs("relax"));
    let said = refused(RELAX, &["--board", file], &net);
    assert_eq!(said, format!("{file}: {}", needs("relax")));
}

/// What the solver refuses is told by the terminal's line, or by the switch.
#[test]
fn terminals_that_hold_nothing_are_told_by_their_line() {
    let two = "polygon 1 1 1\n0 32\n16 32\n16 48\n0 48\n";
    let no_node = format!("line 9: terminal out: {NO_NODE}");
    for (board, words) in [
        (
            format!("{STRIP}{IN}terminal out 0 V end 1 1 east\n"),
            "line 9: terminal out: layer 1 has no copper of component 1; layer 1 has 0",
        ),
        (
            format!("{STRIP}{IN}terminal out 0 V end 1 0 west\n"),
            "line 9: terminals in and out share node 0",
        ),
        // The node at (16, 8), in the middle of a side.
        (
            format!("{STRIP}{IN}terminal out 0 V rect 1 0 15 7 17 9\nsplit 0\n"),
            no_node.as_str(),
        ),
        (
            format!("{STRIP}{two}{OUT}# in\nterminal in 1 A end 1 1 west\n"),
            "line 15: terminal in: a current into copper that no terminal with a potential is joined to",
        ),
    ] {
        let said = refused(BOARD, &["solve"], board.as_bytes());
        assert_eq!(said, format!("{words}\n"));
        let folder = Folder::new("blame");
        let file = folder.put("board.txt", board.as_bytes());
        for (tool, words_of_tool) in [
            (BOARD, vec!["vtk", &file, "--power"]),
            (BOARD, vec!["refine", &file, "--rounds", "1"]),
            (DRAW, vec![&file, "--power"]),
            (DRAW, vec![&file, "--current"]),
        ] {
            let said = refused(tool, &words_of_tool, b"");
            assert_eq!(said, format!("{file}: {words}\n"));
        }
    }
    let words = ["solve", "--terminal", "out 0 V rect 1 0 15 7 17 9"];
    let said = refused(BOARD, &words, format!("{}split 0\n", strip()).as_bytes());
    assert_eq!(said, format!("--terminal: terminal out: {NO_NODE}\n"));
    for words in ["out", "out 0 V end 1 1 up", "out x V end 1 0 east"] {
        let said = refused(BOARD, &["solve", "--terminal", words], strip().as_bytes());
        assert!(
            said.starts_with(&format!("--terminal \"{words}\": ")),
            "{said}"
        );
    }
}

/// Cells that don't fit together have a net whose conductances would be taken for want of anything better; they are
/// not.
#[test]
fn cells_that_do_not_fit_are_told_by_their_line() {
    let bands = "level 0\ntarget 6\npolygon 1 0 1\n0 0\n6 0\n6 2\n8 2\n8 4\n0 4\n\
        terminal in 1 A end 1 0 south\nterminal out 0 V end 1 0 north\n";
    let folder = Folder::new("no-fit");
    let file = folder.put("board.txt", bands.as_bytes());
    let words = "line 3: at (4, 2): node 4 stands inside a cell's side, not at its middle";
    for (tool, own) in [
        (BOARD, vec!["solve", &file]),
        (BOARD, vec!["csv", &file, "--power"]),
        (DRAW, vec![&file, "--power"]),
    ] {
        let said = refused(tool, &own, b"");
        assert!(said.starts_with(&format!("{file}: {words}")), "{said}");
    }
    // The net's conductances are asked for by name.
    made(BOARD, &["solve", &file, "--net"], b"");
    made(DRAW, &[&file], b"");
}

fn solved(mesh: &Mesh, net: &Net, text: &str) -> Solution {
    let whole = text::parse_whole(text).expect("a board");
    let system = System::of_cells(net).expect("aligned");
    let held = mesh.held(net, &whole.terminals);
    system.solve(&held).expect("a solution")
}

/// The mesh of a text behind so many rounds.
fn refined(text: &str, rounds: usize, share: f64) -> Mesh {
    let board = text::parse(text).expect("a board");
    let mut mesh = Mesh::of_board(&board).expect("a mesh");
    for _ in 0..rounds {
        let net = mesh.net().expect("a net");
        let solution = solved(&mesh, &net, text);
        let uneven = solution.uneven_watts(&mesh, &net);
        mesh.refine_hottest(&uneven, share).expect("room");
    }
    mesh
}

/// A board of 30 by 20.2 mm with a neck of 0.2 mm, as docs/FORMATS.md draws it in cells of 1 mm, comes to 7.03 milliohms
/// in rounds, what uniform grids of 0.1 and 0.05 mm tend to.
#[test]
fn a_fine_neck_on_a_large_board_is_refined() {
    let page = include_str!("../../../docs/FORMATS.md");
    let start = page.find("    level 5\n").expect("the board");
    let lines = page[start..].lines();
    let mut board: String = lines
        .map_while(|line| Some(line.strip_prefix("    ")?.to_string() + "\n"))
        .collect();
    board += "terminal in 5 A end 1 0 west\nterminal out 0 V end 1 0 east\n";
    let mesh = refined(&board, 0, 0.5);
    assert_eq!(mesh.head().leaves, 590);
    let mesh = refined(&board, 4, 1.0 / 6.0);
    let net = mesh.net().expect("a net");
    let ohms = solved(&mesh, &net, &board).terminals[0].volts / 5.0;
    assert!((ohms / 7.032e-3 - 1.0).abs() < 0.005, "{ohms}");
}

/// The leaves by place, in a row that is the same for the same leaves.
fn places(mesh: &Mesh) -> Vec<(u16, u32, Rect)> {
    let place = |leaf: Leaf| (leaf.layer, leaf.component, leaf.rect);
    let mut all: Vec<_> = mesh.leaves().map(place).collect();
    all.sort_unstable();
    all
}

/// What is written means the same mesh, leaf by leaf, by text and by record.
#[test]
fn the_hottest_leaves_are_split_in_rounds() {
    let file = sample_name("across.txt");
    let words = fs::read_to_string(&file).expect("a sample");
    for (rounds, share) in [(1, None), (2, None), (2, Some("1/4")), (2, Some("0.25"))] {
        let count = rounds.to_string();
        let mut asked = vec!["refine", &file, "--rounds", &count];
        asked.extend(share.iter().flat_map(|share| ["--share", *share]));
        let output = run(BOARD, &asked, b"");
        assert_eq!(output.status.code(), Some(0), "{output:?}");
        let text = String::from_utf8(output.stdout).expect("text");
        assert!(text.starts_with(&words), "the text as it stands");
        let board = text::parse(&text).expect("a board");
        let own = refined(&words, rounds, share.map_or(1.0 / 6.0, |_| 0.25));
        assert_eq!(
            places(&Mesh::of_board(&board).expect("a mesh")),
            places(&own)
        );
        // Rectangles by place, and fewer than what they split.
        let more = text[words.len()..].lines();
        assert!(
            more.clone().all(|line| line.starts_with("refine ")),
            "{text}"
        );
        assert!(2 * more.count() < own.splits().count(), "{text}");

        let said = String::from_utf8(output.stderr).expect("words");
        let last = said.lines().last().expect("a line");
        let leaves = own.leaves().count();
        assert_eq!(said.lines().count(), rounds + 1);
        assert!(
            last.starts_with(&format!("round {rounds}: {leaves} leaves, ")),
            "{said}"
        );
        assert!(
            last.contains(" ohm, ") && last.ends_with(" in 100"),
            "{said}"
        );
    }
    // A record goes the same way.
    let record = made(BOARD, &["pack", &file], b"");
    let ends = [
        "--terminal",
        "in 2 A end 1 0 west",
        "--terminal",
        "out 0 V end 1 0 east",
    ];
    let asked = [&["refine", "--rounds", "2"], &ends[..]].concat();
    let refined_record = made(BOARD, &asked, &record);
    let board = read(&refined_record).expect("a record");
    assert_eq!(
        Mesh::of_board(&board).expect("a mesh"),
        refined(&words, 2, 1.0 / 6.0)
    );
}

/// Where rounds come to an end before their number, what was reached is written.
#[test]
fn rounds_end_where_nothing_more_can_be_split() {
    let refine = |words: &[&str], board: &str| {
        let output = run(BOARD, &[&["refine"], words].concat(), board.as_bytes());
        assert_eq!(output.status.code(), Some(0), "{output:?}");
        let board = text::parse(&String::from_utf8(output.stdout).expect("text"));
        let mesh = Mesh::of_board(&board.expect("a board")).expect("a mesh");
        let said = String::from_utf8(output.stderr).expect("words");
        (
            mesh.leaves().count(),
            said.lines().last().unwrap_or("").to_string(),
        )
    };
    // Four base cells of three levels: 256 leaves at most.
    let all = ["--rounds", "9", "--share", "1"];
    let (leaves, said) = refine(&all, &cornered());
    assert_eq!(leaves, 256);
    assert!(
        said.ends_with(": all leaves are at the finest level"),
        "{said}"
    );
    let (leaves, said) = refine(&[&all[..], &["--leaves", "100"]].concat(), &cornered());
    assert!((17..=100).contains(&leaves), "{leaves}");
    assert!(
        said.starts_with("no round 3: it would have ") && said.ends_with(" leaves, more than 100"),
        "{said}"
    );
    let (leaves, said) = refine(&[&all[..], &["--leaves", "256"]].concat(), &cornered());
    assert_eq!(
        (
            leaves,
            said.ends_with(": all leaves are at the finest level")
        ),
        (256, true)
    );
    // A share of four leaves that is none.
    let (leaves, said) = refine(&["--rounds", "1", "--share", "0.2"], &cornered());
    assert_eq!(leaves, 4);
    assert_eq!(
        said,
        "no round 1: the share of 4 leaves that can be split is less than one"
    );
    // Most of 4,096 leaves, and no room for four times as many.
    let deep = "level 7\ntarget 256\npolygon 1 0 1\n0 0\n1024 0\n1024 256\n0 256\n";
    let corner = "terminal in 3 A edge 1 0 0 0 0 1\n";
    let (leaves, said) = refine(&all, &[deep, corner, OUT].concat());
    assert!((2_000..12_289).contains(&leaves), "{leaves}");
    assert!(
        said.ends_with(": it would have more than 16,384 cells"),
        "{said}"
    );
    // Where the current is even no split gains anything.
    let (leaves, said) = refine(&all, &strip());
    assert_eq!(leaves, 4);
    assert_eq!(
        said,
        "no round 1: the current is even in each leaf that can be split"
    );
}

/// A round that moves the resistance by less than was asked is the last.
#[test]
fn rounds_end_where_a_round_moves_little() {
    let file = sample_name("across.txt");
    let said_by = |words: &[&str]| {
        let output = run(BOARD, &[&["refine", &file], words].concat(), b"");
        assert_eq!(output.status.code(), Some(0), "{output:?}");
        String::from_utf8(output.stderr).expect("words")
    };
    let moves = |said: &str| -> Vec<f64> {
        let each = said.lines().filter_map(|line| line.strip_suffix(" in 100"));
        let last = each.filter(|line| line.starts_with("round "));
        last.map(|line| {
            line.rsplit(' ')
                .next()
                .expect("a word")
                .parse()
                .expect("a number")
        })
        .collect()
    };
    let all = moves(&said_by(&["--rounds", "3"]));
    assert!(all.len() == 3 && all[0] > all[1], "{all:?}");
    // Between the first and the second; as a share of 1 and in 100.
    let between = (all[0] + all[1]) / 2.0;
    for (word, rounds) in [
        (format!("{between}%"), 2),
        (format!("{}", between / 100.0), 2),
        (format!("{}%", 1.1 * all[0]), 1),
    ] {
        let said = said_by(&["--until", &word]);
        assert_eq!(moves(&said), all[..rounds], "{said}");
        let last = said.lines().last().expect("a line");
        let next = format!(
            "no round {}: the last one moved it by less than ",
            rounds + 1
        );
        assert!(last.starts_with(&next), "{said}");
    }
    // The number of rounds is the end, too.
    assert_eq!(
        moves(&said_by(&["--until", "0.0001%", "--rounds", "1"])),
        all[..1]
    );
    for (words, why) in [
        (vec!["refine", &file], "--rounds or --until is missing"),
        (
            vec!["refine", &file, "--until", "0"],
            "--until takes a share above 0, 1 at most, not 0",
        ),
        (
            vec!["refine", &file, "--until", "a%"],
            "--until takes a share above 0, 1 at most, not a%",
        ),
    ] {
        let said = senseless(BOARD, &words, b"");
        assert!(said.starts_with(&format!("board: {why}\n")), "{said}");
    }
}

/// More than two terminals are told one by one.
#[test]
fn rounds_of_three_terminals_say_what_stands_at_each() {
    let board = format!("{}terminal tap 0 V rect 1 0 31 -1 33 17\n", cornered());
    let output = run(
        BOARD,
        &["refine", "--rounds", "1", "--share", "1"],
        board.as_bytes(),
    );
    let said = String::from_utf8(output.stderr).expect("words");
    // Behind the tap nothing flows.
    for (line, begin) in said.lines().zip(["round 0: 4 leaves, in ", "round 1: "]) {
        assert!(line.starts_with(begin), "{said}");
        assert!(
            line.contains(" V 3 A, out 0 V 0 A, tap 0 V -3 A, "),
            "{said}"
        );
    }
    let last = said.lines().last().expect("a line");
    assert!(last.contains(" W, ") && last.ends_with(" in 100"), "{said}");
}

/// Where no current flows there is no resistance, and nothing to compare.
#[test]
fn a_board_at_one_potential_is_at_rest() {
    let board = [
        STRIP,
        "terminal a 1 V end 1 0 west\nterminal b 1 V end 1 0 east\n",
    ]
    .concat();
    let table = text_made(BOARD, &["solve"], board.as_bytes());
    assert_eq!(behind(&table, "a "), "1            0");
    assert_eq!(behind(&table, "power "), "0 W");
    assert!(
        !table.contains("V / A") && !table.contains("NaN"),
        "{table}"
    );
    let output = run(
        BOARD,
        &["refine", "--rounds", "1", "--share", "1"],
        board.as_bytes(),
    );
    assert_eq!(output.status.code(), Some(0), "{output:?}");
    let said = String::from_utf8(output.stderr).expect("words");
    let [first, last] = said.lines().collect::<Vec<_>>()[..] else {
        panic!("{said}");
    };
    let words = first.strip_prefix("round 0: 4 leaves, a 1 V 0 A, b 1 V 0 A, ");
    let watts = words
        .and_then(|words| words.strip_suffix(" W"))
        .expect(first);
    assert!(watts.parse::<f64>().expect("a number") < 1e-20, "{first}");
    assert_eq!(
        last,
        "no round 1: the current is even in each leaf that can be split"
    );
}

/// Two ends that mirror each other have one potential: what the iteration leaves of a difference stands as 0.
#[test]
fn a_mirrored_terminal_is_at_the_same_potential() {
    let square = "level 2\ntarget 8\npolygon 1 0 0.0005\n0 0\n64 0\n64 64\n0 64\n";
    let ends = "terminal in 4 A edge 1 0 0 24 0 40\nterminal up -2 A edge 1 0 40 64 56 64\n\
                terminal down 0 V edge 1 0 40 0 56 0\n";
    let board = format!("{square}{ends}");
    let table = text_made(BOARD, &["solve"], board.as_bytes());
    assert_eq!(behind(&table, "up "), "0           -2");
    assert_eq!(behind(&table, "down "), "0           -2");
    let output = run(BOARD, &["refine", "--rounds", "1"], board.as_bytes());
    let said = String::from_utf8(output.stderr).expect("words");
    assert!(
        said.contains(" V 4 A, up 0 V -2 A, down 0 V -2 A, "),
        "{said}"
    );
}

/// Through an open switch a potential drives less than iteration and rounding leave, which is none. A current that is
/// driven through it can't be told, and nothing is made.
#[test]
fn nothing_flows_through_an_open_switch() {
    let strips = [1, 2].map(|layer| format!("polygon {layer} 0 0.0005\n0 0\n64 0\n64 16\n0 16\n"));
    let board = format!(
        "level 1\ntarget 4\n{}{IN}terminal out 0 V end 2 0 east\nvia 1 2 0 32 8 4 4 1e9\n",
        strips.concat()
    );
    let table = text_made(
        BOARD,
        &["solve", "--terminal", "in 1 V end 1 0 west"],
        board.as_bytes(),
    );
    for (word, value) in [("in ", "1            0"), ("out ", "0            0")] {
        assert_eq!(behind(&table, word), value);
    }
    assert!(behind(&table, "via 0 ").ends_with(" 0"), "{table}");
    assert!(!table.contains("V / A"), "{table}");
    for words in [vec!["solve"], vec!["vtk", "--power"]] {
        let said = refused(BOARD, &words, board.as_bytes());
        let start = "no solution: currents at terminals are off by ";
        assert!(said.starts_with(start), "{said}");
    }
}

/// A via over 2,116 nodes on both its layers would make 4,477,456 edges, more than the tools have room for.
#[test]
fn links_of_too_many_edges_are_told_by_their_line() {
    let layers = [1, 2].map(|layer| format!("polygon {layer} 0 1\n0 0\n90 0\n90 90\n0 90\n"));
    let ends = "terminal in 3 A end 1 0 west\nterminal out 0 V end 2 0 east\n";
    let board = format!(
        "level 0\ntarget 2\n{}{ends}via 1 2 0 45 45 45 45 1\n",
        layers.concat()
    );
    for words in [vec!["solve"], vec!["net"], vec!["vtk"]] {
        let said = refused(BOARD, &words, board.as_bytes());
        let start = "line 15: the links make more than 4000000 edges: ";
        assert!(said.starts_with(start), "{said}");
    }
}

/// By the net's conductances; with the board its text's terminals and pads are taken.
#[test]
fn potentials_of_what_leafnet_printed() {
    let file = sample_name("neck.record");
    let net = made(BOARD, &["net", &file], b"");
    let printed = leafmesh::printed::read(std::str::from_utf8(&net).expect("text")).expect("a net");
    let volts = |words: &[&str], net: &[u8]| -> Vec<f64> {
        let text = text_made(RELAX, words, net);
        text.lines()
            .map(|line| line.parse().expect("a number"))
            .collect()
    };
    let ends = [
        "--terminal",
        "in 2 V end 1 0 south",
        "--terminal",
        "out -1 V end 1 0 north",
    ];
    let own = volts(&ends, &net);
    assert_eq!(own.len(), printed.nodes.len());
    let most = printed
        .nodes
        .iter()
        .map(|node| node.y)
        .max()
        .expect("nodes");
    for (volts, node) in own.iter().zip(&printed.nodes) {
        assert!((-1.0..=2.0).contains(volts));
        assert_eq!(*volts == 2.0, node.y == 0);
        assert_eq!(*volts == -1.0, node.y == most);
    }
    assert_eq!(
        volts(&[&["--board", &*file], &ends[..]].concat(), &net),
        own
    );

    // The other terminal of the same name.
    let again = [&ends[..], &["--terminal", "out 2 V end 1 0 north"]].concat();
    assert!(volts(&again, &net)
        .iter()
        .all(|volts| (volts - 2.0).abs() < 1e-9));

    let board = [STRIP, IN, "terminal out 0 V pad 0\n"].concat();
    let pads = board.replace(IN, "");
    let folder = Folder::new("relax");
    let pads = folder.put("pads.txt", pads.as_bytes());
    let net = made(BOARD, &["net", &pads], b"");
    assert!(volts(&["--board", &pads], &net)
        .iter()
        .all(|volts| *volts == 0.0));
    let said = refused(RELAX, &["--terminal", "out 0 V pad 0"], &net);
    assert_eq!(said, "--terminal: terminal out: a pad needs --board\n");
    let said = refused(RELAX, &["--board", &sample_name("across.txt")], &net);
    assert_eq!(said, "the text is of another board than the record\n");
    let said = refused(RELAX, &["--terminal", "out 0 V end 2 0 east"], &net);
    assert_eq!(said, format!("--terminal: terminal out: {NO_NODE}\n"));
}

#[test]
fn what_leafnet_printed_is_no_board() {
    let net = made(BOARD, &["net"], strip().as_bytes());
    let words = "this is what leafnet printed, not a board\n";
    for words_of_tool in [["net"], ["solve"], ["csv"]] {
        assert_eq!(refused(BOARD, &words_of_tool, &net), words);
    }
    assert_eq!(refused(DRAW, &["-"], &net), words);
    assert_eq!(refused(DRAW, &["-"], b"refused 4 0\n"), words);
}

/// A warning of a text goes to standard error, with its file's name, and changes nothing else.
#[test]
fn warnings_are_said_beside_what_is_made() {
    // The ring crosses itself at (16, 16).
    let board =
        "level 2\ntarget 8\npolygon 1 0 1\n0 0\n24 0\n24 16\n8 16\n8 8\n16 8\n16 24\n0 24\n";
    let folder = Folder::new("warnings");
    let file = folder.put("board.txt", board.as_bytes());
    let output = run(BOARD, &["net", &file], b"");
    assert_eq!(output.status.code(), Some(0));
    let said = String::from_utf8(output.stderr).expect("words");
    assert!(
        said.starts_with(&format!("{file}: warning: line 3: ")),
        "{said}"
    );
    let output = run(BOARD, &["pack", &sample_name("across.txt")], b"");
    let said = String::from_utf8(output.stderr).expect("words");
    let name = sample_name("across.txt");
    assert_eq!(
        said,
        format!("{name}: warning: line 18: a record has no terminals\n")
    );
}
