//! What doesn't hang on the mesh, as `board solve` shows it: the lines of a text and the necks of its copper; and that
//! rounds of `board refine` leave straight copper alone.

mod programs;

use leafmesh::necks::{self, Neck, Runs};
use leafmesh::{text, Leaf, Mesh, Pitch, Polygons, Rect};
use programs::{refused, run, sample_name, senseless, text_made, Folder, BOARD};
use std::time::{Duration, Instant};

/// 60 by 40 mm: two pads and a neck of 0.2 by 3 mm, whose rows are low ones, in cells of 1 mm.
const LARGE: &str = "level 4\npitch 0.2\nlayer 1 1\npolygon 1 0 0.0005\n0 0\n28 0\n28 20\n31 20\n31 0\n60 0\n60 40.2\n\
    31 40.2\n31 20.2\n28 20.2\n28 40.2\n0 40.2\nterminal in 2 A end 1 0 west\nterminal out 0 V end 1 0 east\n";

/// A row of numbers behind a name that begins a line.
fn row(table: &str, name: &str) -> Vec<f64> {
    let line = table.lines().find_map(|line| line.strip_prefix(name));
    let words = line.unwrap_or_else(|| panic!("no {name} in {table}"));
    words
        .split_whitespace()
        .map(|word| word.parse().expect("a number"))
        .collect()
}

fn solved(board: &str) -> String {
    text_made(BOARD, &["solve"], board.as_bytes())
}

#[test]
fn a_neck_is_found_with_its_place_its_width_and_its_length() {
    const NECK: &str = "layer 1, component 0, at (29.5 mm, 20.1 mm), along x ";
    let table = solved(LARGE);
    // Width, length, A, mean A/mm.
    assert_eq!(row(&table, NECK), [0.2, 3.0, 2.0, 10.0]);
    assert!(!table.contains("more: --necks all"), "{table}");
    // The hottest leaf's figure grows with each split, the neck's stays.
    let hottest = |table: &str| -> f64 {
        let line = table
            .lines()
            .find(|line| line.starts_with("hottest "))
            .expect("a line");
        let words = line.strip_suffix(" A/mm").expect("A/mm");
        words
            .rsplit(' ')
            .next()
            .expect("a word")
            .parse()
            .expect("a number")
    };
    let mut last = 0.0;
    for level in 1..4 {
        let fine = solved(&format!("{LARGE}refine 27.5 19 31.5 21 {level}\n"));
        assert_eq!(row(&fine, NECK), [0.2, 3.0, 2.0, 10.0]);
        assert!(hottest(&fine) > last + 0.1, "{fine}");
        last = hottest(&fine);
    }
    assert!(last > 11.0, "{last}");
}

/// Necks of 1 and 2 mm beside each other.
#[test]
fn necks_that_share_a_current_agree_at_two_finenesses() {
    // A frame: the current goes round both its sides.
    let frame = |level: u32| {
        format!(
            "level 4\npitch 0.5\npolygon 2 3 0.0005\n0 0\n16 0\n16 10\n0 10\n0 5\n4 5\n4 8\n12 8\n12 1\n4 1\n4 5\n0 5\n\
             terminal in 2 A edge 2 3 0 0 0 10\nterminal out 0 V edge 2 3 16 0 16 10\nrefine 0 0 16 10 {level}\n"
        )
    };
    let figures = |level: u32| {
        let table = solved(&frame(level));
        let upper = row(&table, "layer 2, component 3, at (8 mm, 9 mm), along x ");
        let lower = row(&table, "layer 2, component 3, at (8 mm, 0.5 mm), along x ");
        assert_eq!(
            (&upper[..2], &lower[..2]),
            (&[2.0, 8.0][..], &[1.0, 8.0][..])
        );
        assert!((upper[2] + lower[2] - 2.0).abs() < 1e-5, "{table}");
        [upper[3], lower[3]]
    };
    let (coarse, fine) = (figures(1), figures(2));
    for (coarse, fine) in coarse.iter().zip(fine) {
        assert!((coarse / fine - 1.0).abs() < 0.01, "{coarse} {fine}");
        assert!(fine > 0.4, "{fine}");
    }
}

#[test]
fn a_board_without_necks_says_so() {
    let square = "level 2\npitch 0.5\npolygon 1 0 0.001\n0 0\n4 0\n4 4\n0 4\n\
                  terminal in 1 A end 1 0 west\nterminal out 0 V end 1 0 east\n";
    assert!(solved(square).ends_with("\nnecks     none\n"));
}

#[test]
fn as_many_necks_as_are_asked_for() {
    let board = serpentine(12);
    let necks = |words: &[&str]| {
        let table = text_made(BOARD, &[&["solve"], words].concat(), board.as_bytes());
        let lines = table
            .lines()
            .filter(|line| line.starts_with("layer 1, component 0, at "));
        (lines.count(), table)
    };
    let (count, table) = necks(&[]);
    assert_eq!(count, 10);
    assert!(table.ends_with("\n13 more: --necks all\n"), "{table}");
    let (count, table) = necks(&["--necks", "all"]);
    assert_eq!(count, 23);
    assert!(!table.contains("more"), "{table}");
    // All carry the same current over the same width, and stand by their place.
    let first = table.lines().find(|line| line.starts_with("layer 1, "));
    let first = first.expect("a neck");
    assert!(first.contains(" at (0.5 mm, 3.5 mm), along y "), "{first}");
    for line in table.lines().filter(|line| line.starts_with("layer 1, ")) {
        assert!(
            line.ends_with(" 2            2") || line.ends_with(" -2            2"),
            "{line}"
        );
    }
    assert_eq!(necks(&["--necks", "3"]).0, 3);
    let (count, table) = necks(&["--necks", "0"]);
    assert!(count == 0 && table.ends_with("\nnecks     23\n"), "{table}");
    for (words, why) in [
        (
            vec!["--necks", "some"],
            "--necks takes a whole number or all, not some",
        ),
        (
            vec!["--necks", "-1"],
            "--necks takes a whole number or all, not -1",
        ),
        (
            vec!["--net", "--necks", "3"],
            "--necks says nothing beside --net",
        ),
    ] {
        let said = senseless(BOARD, &[&["solve"], &words[..]].concat(), b"");
        assert!(said.starts_with(&format!("board: {why}\n")), "{said}");
    }
    let by_net = text_made(BOARD, &["solve", "--net"], board.as_bytes());
    assert!(!by_net.contains("neck"), "{by_net}");
}

#[test]
fn lines_of_a_text_are_told_what_flows_through_them() {
    let across = std::fs::read_to_string(sample_name("across.txt")).expect("a sample");
    let with = |lines: &str| format!("{across}{lines}");
    let table = solved(&with(
        "across middle 1 0 7 2 7 2.2\nacross half 1 0 7.2 2.2 7.2 2.1\nacross pad 1 0 3 0 3 4\n",
    ));
    // Length of copper, A, mean and largest A/mm.
    let close = |found: &[f64], wanted: [f64; 4]| {
        assert_eq!(found.len(), 4);
        for (found, wanted) in found.iter().zip(wanted) {
            assert!(
                (found - wanted).abs() <= 2e-3 * wanted.abs(),
                "{found} {wanted}"
            );
        }
    };
    close(&row(&table, "middle "), [0.2, 2.0, 10.0, 10.0]);
    close(&row(&table, "half "), [0.1, 1.0, 10.0, 10.0]);
    let pad = row(&table, "pad ");
    close(&pad, [4.0, 2.0, 0.5, pad[3]]);
    assert!((0.5..0.6).contains(&pad[3]), "{pad:?}");
    // In ticks, too: of a record there are none.
    let strip =
        "level 1\ntarget 8\npolygon 1 0 1\n0 0\n64 0\n64 16\n0 16\nacross cut 1 0 32 -8 32 64\n\
                 terminal in 1 A end 1 0 west\nterminal out 0 V end 1 0 east\n";
    let output = run(BOARD, &["solve"], strip.as_bytes());
    let table = String::from_utf8(output.stdout).expect("text");
    assert_eq!(row(&table, "cut ")[..2], [16.0, 1.0]);
    assert!(table.contains(" copper ticks "), "{table}");
    assert_eq!(
        String::from_utf8_lossy(&output.stderr),
        "warning: line 8: across cut: of its 72 ticks 16 cross copper\n"
    );
    let output = run(BOARD, &["pack"], strip.as_bytes());
    assert!(String::from_utf8_lossy(&output.stderr)
        .contains("warning: line 8: a record has no lines across copper\n"));
    // Its line is named in a file, too.
    let folder = Folder::new("across");
    let form = "across NAME LAYER COMPONENT X0 Y0 X1 Y1";
    let no_sense = format!("cannot make sense of \"across 1 0 7 0 7 4\"; its form is: {form}");
    let past = "is past the range of a coordinate; the nearest is 249.999988126 mm";
    let far = format!("999 mm {past}");
    let none = |name: &str, layer: u32| {
        format!("across {name}: crosses no copper of layer {layer}, component 0")
    };
    let [off, edge, other] =
        [("off", 1), ("edge", 1), ("other", 2)].map(|(name, layer)| none(name, layer));
    for (line, why) in [
        ("across off 1 0 20 0 20 4", &*off),
        ("across edge 1 0 0 0 0 4", &*edge),
        ("across other 2 0 7 0 7 4", &*other),
        (
            "across slant 1 0 7 0 8 4",
            "the line is slanted: x0 = x1 or y0 = y1",
        ),
        ("across dot 1 0 7 2 7 2", "the line has no length"),
        ("across 1 0 7 0 7 4", &*no_sense),
        ("across far 1 0 999 0 999 4", &*far),
        (
            "across a 1 0 7 0 7 4\nacross a 1 0 8 0 8 4",
            "a line across a is on line 23 already",
        ),
    ] {
        let name = folder.put("board.txt", with(&format!("{line}\n")).as_bytes());
        let said = refused(BOARD, &["solve", &name], b"");
        let number = 22 + line.lines().count();
        assert_eq!(said, format!("{name}: line {number}: {why}\n"));
    }
}

/// A trace of 1 mm with so many turns, 20 mm long between them, from the south west to the north.
fn serpentine(turns: i64) -> String {
    let mut ring: Vec<[i64; 2]> = vec![[0, 0]];
    // Up along the turns on the east, and down along those on the west.
    for pair in 0..turns / 2 {
        let y = 4 * pair;
        ring.extend([[20, y], [20, y + 3], [1, y + 3], [1, y + 4]]);
    }
    ring.extend([[20, 2 * turns], [20, 2 * turns + 1], [0, 2 * turns + 1]]);
    for pair in (0..turns / 2).rev() {
        let y = 4 * pair;
        ring.extend([[0, y + 2], [19, y + 2], [19, y + 1], [0, y + 1]]);
    }
    let points: String = ring.iter().map(|[x, y]| format!("{x} {y}\n")).collect();
    let end = 2 * turns;
    format!(
        "level 4\npitch 0.5\npolygon 1 0 0.0005\n{points}terminal in 2 A edge 1 0 0 0 0 1\n\
         terminal out 0 V edge 1 0 20 {end} 20 {}\n",
        end + 1
    )
}

/// On a serpentine of 12 turns leaves are split in its bends, and none on straight copper. Rounds by power had 8,240
/// leaves behind the fifth, all 4,368 on the straight of its runs among them finer than the base cells, and were still
/// 0.23 in 100 off.
#[test]
fn rounds_leave_straight_copper_alone() {
    let board = serpentine(12);
    let output = run(BOARD, &["refine", "--until", "0.1%"], board.as_bytes());
    let said = String::from_utf8(output.stderr).expect("words");
    let refined = String::from_utf8(output.stdout).expect("text");
    let mesh = Mesh::of_board(&text::parse(&refined).expect("a board")).expect("a mesh");
    let pitch = Pitch::new(0.5, 4).expect("a pitch");
    // More than 3 mm from the ends of the runs, where they turn.
    let is_straight = |leaf: &Leaf| {
        let x = pitch.millimetres((leaf.rect[0] + leaf.rect[2]) / 2);
        (4.0..16.0).contains(&x)
    };
    let straight: Vec<Leaf> = mesh.leaves().filter(is_straight).collect();
    assert!(straight.iter().all(|leaf| leaf.level == 0), "{said}");
    assert!((3_000..5_000).contains(&mesh.head().leaves), "{said}");
    // 261.4 squares: 38 of the first and the last run, 18 of each other one, 1 of each turn, and 0.5587 of each corner.
    let ohms: f64 = said
        .lines()
        .rev()
        .find_map(|line| line.split(" leaves, ").nth(1)?.split(" ohm").next())
        .expect("ohms")
        .parse()
        .expect("a number");
    let squares = 38.0 + 11.0 * 18.0 + 12.0 + 24.0 * 0.5587;
    assert!((ohms / (0.0005 * squares) - 1.0).abs() < 0.0015, "{said}");
}

fn necks_of(rings: &[Vec<[i64; 2]>]) -> Vec<Neck> {
    let mut polygons = Polygons::default();
    for ring in rings {
        polygons.push(1, 0, 0.001, ring);
    }
    necks::of(polygons.outlines())
}

fn ring_of([x0, y0, x1, y1]: Rect) -> Vec<[i64; 2]> {
    vec![[x0, y0], [x1, y0], [x1, y1], [x0, y1]]
}

/// So many teeth on a bar: between any two the bar is a neck, and a tooth is none.
fn comb(teeth: i64) -> Vec<[i64; 2]> {
    let mut ring = vec![[0, 0], [4 * teeth - 2, 0]];
    for tooth in (0..teeth).rev() {
        let x = 4 * tooth;
        ring.extend([[x + 2, 9], [x, 9], [x, 2], [x - 2, 2]]);
    }
    ring.truncate(ring.len() - 2);
    ring
}

#[test]
fn combs_and_many_polygons() {
    let found = necks_of(&[comb(200)]);
    assert_eq!(found.len(), 199);
    for (at, neck) in found.iter().enumerate() {
        let x = 4 * at as i64 + 2;
        assert_eq!((neck.rect, neck.runs), ([x, 0, x + 2, 2], Runs::AlongX));
    }
    // 128 pads in a row and what joins them, each a polygon, in any order.
    let mut rings: Vec<Vec<[i64; 2]>> = (0..128)
        .rev()
        .map(|at| ring_of([10 * at, 0, 10 * at + 6, 9]))
        .collect();
    rings.extend((0..127).map(|at| ring_of([10 * at + 6, 4, 10 * at + 10, 4 + 1 + at % 3])));
    let found = necks_of(&rings);
    assert_eq!(found.len(), 127);
    for (at, neck) in found.iter().enumerate() {
        let (width, length) = (neck.width(), neck.length());
        assert_eq!((width, length), (1 + at as i64 % 3, 4));
    }
    // Coppers apart have necks apart: a bar over a gap between two pads of another component joins nothing.
    let mut polygons = Polygons::default();
    polygons.push(1, 0, 1.0, &ring_of([0, 0, 4, 9]));
    polygons.push(1, 1, 1.0, &ring_of([4, 4, 8, 5]));
    polygons.push(1, 0, 1.0, &ring_of([8, 0, 12, 9]));
    assert_eq!(necks::of(polygons.outlines()), []);
    assert_eq!(necks_of(&[]), []);
    assert_eq!(necks_of(&[vec![[0, 0], [4, 4], [8, 0], [4, -4]]]), []);
}

/// The shortest of some runs.
fn time_of(rings: &[Vec<[i64; 2]>]) -> Duration {
    let run = |_| {
        let start = Instant::now();
        let found = necks_of(rings);
        let took = start.elapsed();
        assert!(!found.is_empty());
        took
    };
    (0..5).map(run).min().expect("a run")
}

/// Eight times the polygons take some eight times as long, and not 64 times.
#[test]
fn necks_take_as_long_as_there_are_strips() {
    let rings = |count: i64| -> Vec<Vec<[i64; 2]>> {
        let comb = |at: i64| -> Vec<[i64; 2]> {
            comb(100)
                .iter()
                .map(|[x, y]| [x + at, y + 20 * at])
                .collect()
        };
        (0..count).map(comb).collect()
    };
    let [few, many] = [32, 256].map(|count| time_of(&rings(count)));
    assert!(many < 24 * few, "{few:?} {many:?}");
}
