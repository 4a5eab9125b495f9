//! Sheet resistances of a net's cells that aren't their polygons': changed in the net, and by a text.

mod programs;

use leafmesh::drawing::{Picture, Quantity};
use leafmesh::field::Flows;
use leafmesh::solving::{Drive, Solution, Spot, System, Terminal};
use leafmesh::{
    csv, msh, text, vtk, Mesh, Net, Reason, Refusal, SheetRegion, Sheets, Side, Temperature,
};
use programs::{made, refused, run, text_made, Folder, BOARD, DRAW, RELAX};

/// A strip of four squares, 8 by 2 mm, 1 milliohm a square; 2 A from the left to the right: 1 A/mm.
const STRIP: &str = "level 2\npitch 1\npolygon 1 0 0.001\n0 0\n8 0\n8 2\n0 2\n\
    terminal in 2 A end 1 0 west\nterminal out 0 V end 1 0 east\n";

fn ends() -> [Terminal; 2] {
    let end = |side| Spot::End {
        layer: 1,
        component: 0,
        side,
    };
    [
        Terminal::new("in", end(Side::West), Drive::Amperes(2.0)),
        Terminal::new("out", end(Side::East), Drive::Volts(0.0)),
    ]
}

fn solved(mesh: &Mesh, net: &Net) -> Solution {
    let system = System::of_cells(net).expect("a system");
    let held = mesh.held(net, &ends());
    system.solve(&held).expect("a solution")
}

/// All of the strip, and the share of it that lies west of 4 mm.
fn strip() -> (Mesh, Net) {
    let whole = text::parse_whole(STRIP).expect("a board");
    let mesh = Mesh::of_board(&whole.board).expect("a mesh");
    let net = mesh.net().expect("a net");
    (mesh, net)
}

/// A millimetre is a whole number of ticks to 1e-8.
fn assert_near(own: f64, wanted: f64) {
    assert!((own / wanted - 1.0).abs() < 1e-7, "{own}, not {wanted}");
}

/// What flows in a strip is the same, whatever its resistance: 1 A/mm. By the polygon's r_sheet a factor of 4 would
/// make 2 of it.
#[test]
fn sheet_currents_are_those_of_the_cells() {
    let (mesh, mut net) = strip();
    net.cells.iter_mut().for_each(|cell| cell.sheet *= 4.0);
    let solution = solved(&mesh, &net);
    assert_near(solution.terminals[0].volts, 2.0 * 4.0 * 0.004);
    for (leaf, flow) in mesh.leaves().zip(&solution.cells) {
        assert_near(flow.sheet_current, 1e3);
        assert_near(flow.sheet, 0.004);
        assert_near(leaf.sheet_current(flow.watts, flow.sheet), 1e3);
        assert_near(flow.current[0], 1e3);
    }
    let (_, hottest) = solution.hottest(&mesh).expect("a leaf");
    assert_near(hottest.sheet_current, 1e3);
    for current in Flows::of(&mesh, &solution).sheet_currents {
        assert_near(current, 1.0);
    }
    let table = csv::of_mesh(&mesh, net.rows(), None, &solution.cells).expect("a table");
    let heading: Vec<&str> = table.lines().next().expect("a line").split(',').collect();
    let column = |name: &str| heading.iter().position(|one| *one == name).expect("it");
    for line in table.lines().skip(1) {
        let values: Vec<f64> = line
            .split(',')
            .map(|one| one.parse().unwrap_or(0.0))
            .collect();
        assert_near(values[column("A_per_mm")], 1.0);
        assert_near(values[column("r_sheet_ohm")], 0.004);
    }
    let picture = Picture::of_mesh("A strip", &mesh, net.rows()).expect("a picture");
    let svg = picture
        .by_flow(&mesh, &solution, Quantity::SheetCurrent)
        .svg();
    assert!(svg.contains("W/mm2, 1 A/mm"), "{svg}");
    let fields = Flows::of(&mesh, &solution);
    for file in [
        vtk::of_linked_mesh(&mesh, &net, &fields.fields()).expect("a file"),
        msh::of_mesh(&mesh, &net, &fields.fields()).expect("a file"),
    ] {
        assert!(file.contains("0.004") && !file.contains("0.001\n"));
    }
}

/// One half of the cells' r_sheet is another one: no scale of the other quantity then.
#[test]
fn a_picture_of_cells_that_differ_has_one_scale() {
    let (mesh, mut net) = strip();
    net.cells[0].sheet *= 2.0;
    let solution = solved(&mesh, &net);
    let picture = Picture::of_mesh("A strip", &mesh, net.rows()).expect("a picture");
    let svg = picture
        .by_flow(&mesh, &solution, Quantity::PowerDensity)
        .svg();
    assert!(svg.contains("no scale in A/mm: sheet resistances differ"));
}

#[test]
fn factors_count_by_the_share_of_a_leaf_s_area() {
    let (mesh, mut net) = strip();
    let pitch = mesh.settings().target as i64;
    let region = |x0: i64, x1: i64, factor: f64, layer| SheetRegion {
        rect: [x0 * pitch / 4, 0, x1 * pitch / 4, 2 * pitch],
        factor,
        layer,
    };
    let sheets = |regions: &[SheetRegion]| Sheets {
        regions: regions.to_vec(),
        temperature: None,
    };
    let mut applied = |own: &Sheets| -> Vec<f64> {
        own.apply(&mesh, &mut net).expect("in range");
        let all = mesh.leaves().zip(&net.cells);
        let lower = all.filter(|(leaf, _)| leaf.rect[1] == 0);
        lower.map(|(_, cell)| cell.sheet / 0.001).collect()
    };
    let near = |own: Vec<f64>, wanted: [f64; 8]| {
        let off = own.iter().zip(wanted).map(|(a, b)| (a - b).abs());
        assert!(off.fold(0.0, f64::max) < 1e-9, "{own:?}");
    };
    // A quarter of the third cell, and all of the fourth.
    let one = region(11, 16, 5.0, None);
    near(
        applied(&sheets(&[one])),
        [1.0, 1.0, 2.0, 5.0, 1.0, 1.0, 1.0, 1.0],
    );
    // Both factors where two lie over each other; of another layer none.
    let all = region(0, 32, 2.0, Some(1));
    let other = region(0, 32, 9.0, Some(2));
    let wanted = [2.0, 2.0, 4.0, 10.0, 2.0, 2.0, 2.0, 2.0];
    near(applied(&sheets(&[one, all, other])), wanted);
    // Done twice it is done once, and nothing left is nothing.
    near(applied(&sheets(&[one, all, other])), wanted);
    near(applied(&Sheets::default()), [1.0; 8]);
    let far = sheets(&[region(64, 72, 2.0, None)]);
    assert_eq!(far.first_without_copper(&mesh), Some(0));
    assert_eq!(sheets(&[one, all]).first_without_copper(&mesh), None);
    assert_eq!(sheets(&[one, other]).first_without_copper(&mesh), Some(1));
}

#[test]
fn sheet_resistances_out_of_range_change_nothing() {
    let (mesh, mut net) = strip();
    let before = net.clone();
    for celsius in [-1e300, 1e300, f64::NAN, f64::INFINITY, -234.5] {
        let sheets = Sheets {
            temperature: Some(Temperature::of_copper(celsius)),
            ..Sheets::default()
        };
        let refused = sheets.apply(&mesh, &mut net);
        let reason = Reason::OutOfRange;
        assert_eq!(refused, Err(Refusal { reason, place: 0 }), "{celsius}");
        assert_eq!(net, before);
    }
    net.cells.pop();
    let refused = Sheets::default().apply(&mesh, &mut net);
    assert_eq!(refused.map_err(|why| why.reason), Err(Reason::BadTable));
}

/// The value behind a word that begins a line.
fn behind<'a>(table: &'a str, word: &str) -> &'a str {
    let line = table.lines().find_map(|line| line.strip_prefix(word));
    line.unwrap_or_else(|| panic!("no {word} in {table}"))
        .trim()
}

/// Four squares of 1 milliohm; 3.5 mm, or 1.75 squares, of them four times as much; at 70 degrees all 1.1965 times.
#[test]
fn a_text_says_where_r_sheet_differs() {
    let ohms = |more: &str| -> f64 {
        let board = format!("{STRIP}{more}");
        let table = text_made(BOARD, &["solve"], board.as_bytes());
        let words = behind(&table, "V / A ");
        words
            .strip_suffix(" ohm")
            .expect("ohms")
            .parse()
            .expect("a number")
    };
    let near = |more: &str, wanted: f64| {
        let own = ohms(more);
        assert!(
            (own / wanted - 1.0).abs() < 1e-5,
            "{more}: {own}, not {wanted}"
        );
    };
    near("", 0.004);
    near("sheet 2 -1 5.5 3 4\n", 0.004 + 3.0 * 0.00175);
    near("sheet 2 -1 5.5 3 4 1\n", 0.004 + 3.0 * 0.00175);
    near("temperature 20\n", 0.004);
    near("temperature 70\n", 0.004 * 1.1965);
    near("temperature -30 0.004\n", 0.004 * 0.8);
    near("temperature 70\nsheet 2 -1 5.5 3 4\n", 1.1965 * 0.00925);
}

#[test]
fn every_tool_that_solves_takes_them() {
    let board = format!("{STRIP}sheet 0 0 4 2 4\ntemperature 45 0.01\n");
    let folder = Folder::new("sheets");
    let file = &*folder.put("board.txt", board.as_bytes());
    // 5 milliohms for the west half and 1.25 for the east one, over 1 mm2 a cell.
    let densities = |table: &str, name: &str| -> Vec<f64> {
        let mut lines = table.lines();
        let heading = lines.next().expect("a line");
        let at = heading.split(',').position(|one| one == name).expect("it");
        let value = |line: &str| {
            line.split(',')
                .nth(at)
                .expect("it")
                .parse()
                .expect("a number")
        };
        lines.map(value).collect()
    };
    let table = text_made(BOARD, &["csv", file, "--power"], b"");
    let west = densities(&table, "x0_mm").into_iter().map(|x| x < 4.0);
    let own = densities(&table, "W_per_mm2");
    for (is_west, own) in west.zip(own) {
        assert!((own - if is_west { 5e-3 } else { 1.25e-3 }).abs() < 1e-9);
    }
    let plain = text_made(BOARD, &["csv", file], b"");
    assert_eq!(
        densities(&plain, "r_sheet_ohm")
            .iter()
            .filter(|one| **one == 0.005)
            .count(),
        8
    );
    for command in ["vtk", "msh"] {
        assert!(text_made(BOARD, &[command, file, "--power"], b"").contains("0.005"));
    }
    let picture = text_made(DRAW, &[file, "--power"], b"");
    assert!(picture.contains("0.005 W/mm2, 1 A/mm"));
    let solved = text_made(BOARD, &["solve", file], b"");
    assert!(behind(&solved, "hottest ").ends_with("0.005 W/mm2, 1 A/mm"));
    let words = ["refine", file, "--rounds", "1", "-o", "/dev/null"];
    let said = String::from_utf8(run(BOARD, &words, b"").stderr).expect("words");
    assert!(said.contains("0.0125 ohm"), "{said}");
}

/// The net's conductances come from the polygons' r_sheet alone.
#[test]
fn by_the_net_they_are_refused() {
    let folder = Folder::new("sheets-net");
    let words = "the net's conductances know no sheet and no temperature: solve on the cells\n";
    for more in ["sheet 0 0 4 2 4\n", "temperature 45\n"] {
        let file = folder.put("board.txt", format!("{STRIP}{more}").as_bytes());
        let said = refused(BOARD, &["solve", &file, "--net"], b"");
        assert_eq!(said, format!("{file}: line 10: {words}"));
        let net = made(BOARD, &["net", &file], b"");
        let said = refused(RELAX, &["--board", &file], &net);
        assert_eq!(said, format!("{file}: line 10: {words}"));
    }
}

#[test]
fn what_makes_no_sense_is_told_by_its_line() {
    for (line, words) in [
        (
            "sheet 0 0 4 2",
            "cannot make sense of \"sheet 0 0 4 2\"; its form is: sheet X0 Y0 X1 Y1 FACTOR [LAYER]",
        ),
        ("sheet 0 0 0 2 2", "the rectangle has no area"),
        ("sheet 0 0 4 2 0", "factor 0 is out of range: 2^-20 to 2^20"),
        (
            "sheet 0 0 4 2 -1",
            "factor -1 is out of range: 2^-20 to 2^20",
        ),
        ("sheet 0 0 4 2 x", "factor \"x\" is no number"),
        ("sheet 0 0 4 2 2 -1", "layer -1 is out of range: 0 to 65535"),
        (
            "sheet 9 0 12 2 2",
            "no copper lies between (9 mm, 0 mm) and (12 mm, 2 mm)",
        ),
        (
            "sheet 0 0 4 2 2 7",
            "no copper of layer 7 lies between (0 mm, 0 mm) and (4 mm, 2 mm)",
        ),
        (
            "temperature",
            "cannot make sense of \"temperature\"; its form is: temperature CELSIUS [COEFFICIENT]",
        ),
        (
            "temperature -300",
            "temperature -300 is out of range: -273.15 to 1000 degrees Celsius",
        ),
        (
            "temperature 20 2",
            "coefficient 2 is out of range: -1 to 1 a kelvin",
        ),
        (
            "temperature -240",
            "at -240 degrees a coefficient of 0.00393 leaves no resistance: r_sheet is that at 20",
        ),
    ] {
        let board = format!("{STRIP}{line}\n");
        let said = refused(BOARD, &["solve"], board.as_bytes());
        assert_eq!(said, format!("line 10: {words}\n"));
    }
    let twice = format!("{STRIP}temperature 20\ntemperature 30\n");
    let said = refused(BOARD, &["solve"], twice.as_bytes());
    assert_eq!(said, "line 11: temperature is on line 10 already\n");
    let late = "sheet 0 0 4 2 2\npitch 1\n";
    let said = refused(BOARD, &["solve"], late.as_bytes());
    assert!(
        said.starts_with("line 2: pitch stands before layers,"),
        "{said}"
    );
}

/// A record has none of it, which is said; a text is shown with all of it.
#[test]
fn a_record_leaves_them_out_and_a_text_keeps_them() {
    let board = format!("{STRIP}temperature 60 0.004\nsheet 0 0 4 2 4\nsheet 1 0 2 1 0.5 1\n");
    let whole = text::parse_whole(&board).expect("a board");
    let packed = text::pack_whole(&whole).expect("a record");
    let said: Vec<String> = packed.warnings.iter().map(ToString::to_string).collect();
    let wanted = [
        "line 8: a record has no terminals",
        "line 11: a record has no r_sheet by place",
        "line 10: a record has no temperature",
    ];
    assert_eq!(said, wanted);
    let again = text::parse_whole(&text::show_whole(&whole)).expect("a board");
    assert_eq!(again.sheets, whole.sheets);
    assert_eq!(again.sheets.regions.len(), 2);
}
