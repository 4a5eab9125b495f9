//! Files of a mesh for other programs: what stands in them, read back.

mod programs;

use leafmesh::solving::{Solution, System};
use leafmesh::text::{self, Whole};
use leafmesh::{columns, csv, field, msh, vtk, Leaf, Mesh, Net, Pitch, Reason, TICK};
use programs::{made, sample, sample_name, text_made, BOARD};
use std::collections::BTreeMap;
use std::fs;

/// A sample board, meshed and solved.
struct Solved {
    whole: Whole,
    mesh: Mesh,
    net: Net,
    solution: Solution,
}

fn solved(name: &str) -> Solved {
    let words = fs::read_to_string(sample(name)).expect("a sample");
    let whole = text::parse_whole(&words).expect("a board");
    let mesh = Mesh::of_board(&whole.board).expect("a mesh");
    let net = mesh.linked_net(whole.links.rows()).expect("a net");
    let system = System::of_cells(&net).expect("aligned");
    let solution = system.solve(&mesh.held(&net, &whole.terminals));
    let solution = solution.expect("a solution");
    Solved {
        whole,
        mesh,
        net,
        solution,
    }
}

/// One board without links and one with, on two layers.
const BOARDS: [&str; 2] = ["across.txt", "drive.txt"];

/// A mesh as any of the files has it: places, corners of quads, ends of lines, and values by name.
#[derive(Default)]
struct Read {
    places: Vec<Vec<f64>>,
    quads: Vec<Vec<usize>>,
    lines: Vec<Vec<usize>>,
    /// As many numbers a value as it has parts.
    of_cells: BTreeMap<String, Vec<Vec<f64>>>,
    of_nodes: BTreeMap<String, Vec<Vec<f64>>>,
}

fn numbers(line: &str) -> Vec<f64> {
    line.split(' ')
        .map(|word| word.parse().expect("a number"))
        .collect()
}

fn whole_numbers(line: &str) -> Vec<usize> {
    line.split(' ')
        .map(|word| word.parse().expect("a whole number"))
        .collect()
}

/// VTK's legacy form.
fn of_vtk(file: &str) -> Read {
    let mut lines = file.lines();
    for wanted in [
        "# vtk DataFile Version 3.0",
        "leafmesh",
        "ASCII",
        "DATASET UNSTRUCTURED_GRID",
    ] {
        assert_eq!(lines.next(), Some(wanted));
    }
    let mut read = Read::default();
    let (mut count, mut at_nodes, mut kinds) = (0, false, Vec::new());
    while let Some(line) = lines.next() {
        let words: Vec<&str> = line.split(' ').collect();
        let size = words.get(1).and_then(|word| word.parse().ok());
        match words[..] {
            ["POINTS", ..] => {
                let places = lines.by_ref().take(size.expect("a size")).map(numbers);
                read.places = places.collect();
            }
            ["CELLS", _, all] => {
                let cells = lines.by_ref().take(size.expect("a size"));
                let cells: Vec<Vec<usize>> = cells.map(whole_numbers).collect();
                assert!(cells.iter().all(|cell| cell[0] == cell.len() - 1));
                let sum: usize = cells.iter().map(Vec::len).sum();
                assert_eq!(sum, all.parse().expect("a size"));
                let (quads, ends): (Vec<_>, Vec<_>) =
                    cells.into_iter().partition(|cell| cell[0] == 4);
                let corners = |cell: Vec<usize>| cell[1..].to_vec();
                read.quads = quads.into_iter().map(corners).collect();
                read.lines = ends.into_iter().map(corners).collect();
            }
            ["CELL_TYPES", ..] => kinds = lines.by_ref().take(size.expect("a size")).collect(),
            ["CELL_DATA", ..] => count = size.expect("a size"),
            ["POINT_DATA", ..] => (count, at_nodes) = (size.expect("a size"), true),
            ["SCALARS" | "VECTORS", name, "double", ..] => {
                if words[0] == "SCALARS" {
                    assert_eq!(lines.next(), Some("LOOKUP_TABLE default"));
                }
                let values = lines.by_ref().take(count).map(numbers).collect();
                assert!(read
                    .row(at_nodes)
                    .insert(name.to_string(), values)
                    .is_none());
            }
            _ => panic!("what is this? {line}"),
        }
    }
    let wanted = read
        .quads
        .iter()
        .map(|_| "9")
        .chain(read.lines.iter().map(|_| "3"));
    assert!(kinds.into_iter().eq(wanted));
    read
}

/// Gmsh's form 4.1, with the name of each element's group.
fn of_msh(file: &str) -> (Read, Vec<String>) {
    let mut lines = file.lines();
    for wanted in ["$MeshFormat", "4.1 0 8", "$EndMeshFormat"] {
        assert_eq!(lines.next(), Some(wanted));
    }
    let mut read = Read::default();
    let mut parts = Parts::default();
    while let Some(start) = lines.next() {
        let section = start.strip_prefix('$').expect("a section");
        let end = format!("$End{section}");
        let body: Vec<&str> = lines.by_ref().take_while(|line| *line != end).collect();
        match section {
            "PhysicalNames" => parts.take_names(&body),
            "Entities" => parts.take_entities(&body),
            "Nodes" => read.take_nodes(&body),
            "Elements" => parts.take_elements(&body, &mut read),
            "ElementData" | "NodeData" => {
                let [one, name, "1", "0", "3", "0", parts, values @ ..] = &body[..] else {
                    panic!("{body:?}");
                };
                assert_eq!(*one, "1");
                let values = numbered(values, parts.parse().expect("a number"));
                let name = name.trim_matches('"').to_string();
                assert!(read
                    .row(section == "NodeData")
                    .insert(name, values)
                    .is_none());
            }
            _ => panic!("what is this? {section}"),
        }
    }
    (read, parts.groups)
}

/// The names of groups and the groups of entities, each by its dimension and its number, and the group of each element.
#[derive(Default)]
struct Parts {
    names: BTreeMap<[usize; 2], String>,
    entities: BTreeMap<[usize; 2], String>,
    groups: Vec<String>,
}

impl Parts {
    fn take_names(&mut self, body: &[&str]) {
        for line in &body[1..] {
            let (key, name) = line.split_once(" \"").expect("a name");
            let key = whole_numbers(key).try_into().expect("two numbers");
            self.names
                .insert(key, name.trim_end_matches('"').to_string());
        }
        assert_eq!(body[0], self.names.len().to_string());
    }

    fn take_entities(&mut self, body: &[&str]) {
        let [0, curves, surfaces, 0] = whole_numbers(body[0])[..] else {
            panic!("{}", body[0]);
        };
        assert_eq!(body.len(), 1 + curves + surfaces);
        for (at, line) in body[1..].iter().enumerate() {
            let dimension = if at < curves { 1 } else { 2 };
            let words: Vec<&str> = line.split(' ').collect();
            let [number, x0, y0, z0, x1, y1, z1, "1", group, "0"] = words[..] else {
                panic!("{line}");
            };
            let [number, group] = [number, group].map(|word| word.parse().expect("a number"));
            let ends = [x0, y0, z0, x1, y1, z1].map(|word| word.parse::<f64>().expect("a number"));
            assert!((0..3).all(|axis| ends[axis] <= ends[axis + 3]));
            let name = self.names[&[dimension, group]].clone();
            self.entities.insert([dimension, number], name);
        }
    }

    fn take_elements(&mut self, body: &[&str], read: &mut Read) {
        let mut lines = body[1..].iter();
        let mut blocks = 0;
        while let Some(block) = lines.next() {
            let [dimension, entity, kind, count] = whole_numbers(block)[..] else {
                panic!("{block}");
            };
            for line in lines.by_ref().take(count) {
                let all = whole_numbers(line);
                self.groups
                    .push(self.entities[&[dimension, entity]].clone());
                assert_eq!(all[0], self.groups.len());
                let corners = all[1..].iter().map(|node| node - 1).collect();
                match (dimension, kind, all.len()) {
                    (2, 3, 5) => read.quads.push(corners),
                    (1, 1, 3) => read.lines.push(corners),
                    _ => panic!("{line}"),
                }
            }
            blocks += 1;
        }
        let all = self.groups.len();
        assert_eq!(whole_numbers(body[0]), [blocks, all, 1, all]);
    }
}

impl Read {
    fn take_nodes(&mut self, body: &[&str]) {
        let mut lines = body[1..].iter();
        let mut blocks = 0;
        while let Some(block) = lines.next() {
            let [2, _, 0, count] = whole_numbers(block)[..] else {
                panic!("{block}");
            };
            for (number, line) in (self.places.len() + 1..).zip(lines.by_ref().take(count)) {
                assert_eq!(*line, number.to_string());
            }
            self.places
                .extend(lines.by_ref().take(count).map(|line| numbers(line)));
            blocks += 1;
        }
        let all = self.places.len();
        assert_eq!(whole_numbers(body[0]), [blocks, all, 1, all]);
    }

    fn row(&mut self, is_of_nodes: bool) -> &mut BTreeMap<String, Vec<Vec<f64>>> {
        match is_of_nodes {
            true => &mut self.of_nodes,
            false => &mut self.of_cells,
        }
    }
}

/// Lines of a number, counted from 1, and so many values, behind a line that says how many there are.
fn numbered(body: &[&str], parts: usize) -> Vec<Vec<f64>> {
    let lines = &body[1..];
    assert_eq!(body[0], lines.len().to_string());
    let values = (1..).zip(lines).map(|(number, line)| {
        let (own, values) = line.split_once(' ').expect("values");
        assert_eq!(own, number.to_string());
        let values = numbers(values);
        assert_eq!(values.len(), parts);
        values
    });
    values.collect()
}

/// Rows of a comma-separated file (RFC 4180) by their headings. None of its values is quoted.
fn of_csv(file: &str) -> Vec<BTreeMap<String, String>> {
    assert!(!file.contains('"') && file.ends_with("\r\n"));
    assert_eq!(file.matches('\n').count(), file.matches("\r\n").count());
    let mut lines = file.split_terminator("\r\n").map(|line| line.split(','));
    let heading: Vec<&str> = lines.next().expect("a heading").collect();
    let row = |values: std::str::Split<char>| {
        let values: Vec<&str> = values.collect();
        assert_eq!(values.len(), heading.len());
        let named = heading.iter().zip(values);
        named
            .map(|(name, value)| (name.to_string(), value.to_string()))
            .collect()
    };
    lines.map(row).collect()
}

fn assert_near(found: f64, wanted: f64, words: &str) {
    let off = (found - wanted).abs();
    assert!(
        off <= 1e-12 * wanted.abs(),
        "{words}: {found}, not {wanted}"
    );
}

/// Quads lie where the leaves lie, lines between the ends of the links, each layer at its own height.
fn assert_places(read: &Read, board: &Solved) {
    let Solved { mesh, net, .. } = board;
    assert_eq!(read.places.len(), net.nodes.len());
    assert_eq!(read.quads.len(), net.cells.len());
    for (leaf, quad) in mesh.leaves().zip(&read.quads) {
        let [x0, y0, x1, y1] = leaf.rect.map(|ticks| ticks as f64 * TICK);
        let corners = [[x0, y0], [x1, y0], [x1, y1], [x0, y1]];
        for (&node, corner) in quad.iter().zip(corners) {
            let place = &read.places[node];
            assert_eq!(place[..2], corner);
            let is_upper = leaf.layer == 2;
            assert_eq!(place[2] > 0.0, is_upper);
        }
    }
    let ends: Vec<Vec<usize>> = net
        .links()
        .iter()
        .map(|link| vec![link.from, link.to])
        .collect();
    assert_eq!(read.lines, ends);
}

/// What flows stands there, to the last digit, and adds up to what the terminals give.
fn assert_flows(read: &Read, board: &Solved) {
    let Solved { mesh, solution, .. } = board;
    let cells = |name: &str| read.of_cells[name].iter();
    let flat = |name: &str| -> Vec<f64> { cells(name).map(|value| value[0]).collect() };
    let (watts, densities, currents) = (flat("watts"), flat("W_per_mm2"), flat("A_per_mm"));
    for (at, (leaf, flow)) in mesh.leaves().zip(&solution.cells).enumerate() {
        assert_eq!(watts[at], flow.watts);
        assert_near(densities[at], flow.watts / (leaf.area() * 1e6), "density");
        let current = (flow.watts / leaf.area() / leaf.sheet).sqrt() / 1e3;
        assert_near(currents[at], current, "current");
        let [x, y] = flow.current.map(|current| current / 1e3);
        let vector = &read.of_cells["current_A_per_mm"][at];
        assert_near(vector[0], x, "along x");
        assert_near(vector[1], y, "along y");
        assert_eq!(vector[2], 0.0);
        // The mean of the square is no less than the square at the centre.
        assert!(x.hypot(y) <= currents[at] * (1.0 + 1e-9));
    }
    let links = &watts[solution.cells.len()..];
    assert_eq!(links, solution.edge_watts);
    let all: f64 = watts.iter().sum();
    assert!((all / solution.given() - 1.0).abs() < 1e-9 && solution.given() > 0.0);
    let volts: Vec<f64> = read.of_nodes["volts"]
        .iter()
        .map(|value| value[0])
        .collect();
    assert_eq!(volts, solution.volts);
    match solution.edges.is_empty() {
        true => assert!(!read.of_cells.contains_key("link_amperes")),
        false => {
            let amperes = flat("link_amperes");
            let (none, own) = amperes.split_at(solution.cells.len());
            assert!(none.iter().all(|amperes| *amperes == 0.0));
            assert_eq!(own, solution.edges);
        }
    }
}

#[test]
fn a_file_for_paraview_has_what_flows() {
    for name in BOARDS {
        let board = solved(name);
        let bare = of_vtk(&text_made(BOARD, &["vtk", &sample_name(name)], b""));
        let read = of_vtk(&text_made(
            BOARD,
            &["vtk", &sample_name(name), "--power"],
            b"",
        ));
        assert_places(&bare, &board);
        assert_places(&read, &board);
        assert_flows(&read, &board);
        let levels: Vec<f64> = board.mesh.leaves().map(|leaf| leaf.level as f64).collect();
        for read in [&bare, &read] {
            let own = read.of_cells["level"].iter().take(levels.len());
            assert!(own.map(|value| value[0]).eq(levels.iter().copied()));
            let all = read.quads.len() + read.lines.len();
            assert!(read.of_cells.values().all(|values| values.len() == all));
        }
        assert!(!bare.of_cells.contains_key("watts") && !bare.of_nodes.contains_key("volts"));
    }
}

#[test]
fn a_file_for_gmsh_has_what_flows_and_its_groups() {
    for name in BOARDS {
        let board = solved(name);
        let (bare, _) = of_msh(&text_made(BOARD, &["msh", &sample_name(name)], b""));
        let file = text_made(BOARD, &["msh", &sample_name(name), "--power"], b"");
        let (read, groups) = of_msh(&file);
        assert_places(&bare, &board);
        assert_places(&read, &board);
        assert_flows(&read, &board);
        assert!(!bare.of_cells.contains_key("watts") && bare.of_nodes.is_empty());
        let copper = |leaf: Leaf| format!("layer {} component {}", leaf.layer, leaf.component);
        let links = board.net.links().iter().map(|_| "links".to_string());
        let wanted: Vec<String> = board.mesh.leaves().map(copper).chain(links).collect();
        assert_eq!(groups, wanted);
        for (leaf, sheet) in board.mesh.leaves().zip(&read.of_cells["r_sheet"]) {
            assert_eq!(sheet[..], [leaf.sheet]);
        }
        // Some readers want a value of every element.
        let all = groups.len();
        assert!(read.of_cells.values().all(|values| values.len() == all));
    }
}

#[test]
fn a_table_has_every_leaf_in_the_texts_unit() {
    for name in BOARDS {
        let board = solved(name);
        let table = of_csv(&text_made(
            BOARD,
            &["csv", &sample_name(name), "--power"],
            b"",
        ));
        assert_eq!(table.len(), board.net.cells.len());
        let pitch = board.whole.lines.pitch.expect("a pitch");
        let mut watts = 0.0;
        for ((leaf, flow), row) in board.mesh.leaves().zip(&board.solution.cells).zip(&table) {
            let number = |name: &str| -> f64 { row[name].parse().expect("a number") };
            assert_eq!(row["id"], leaf.id.to_string());
            let cell = row["name"].parse().expect("a name");
            assert_eq!(board.mesh.id_of(&cell), Some(leaf.id));
            for (side, &ticks) in ["x0_mm", "y0_mm", "x1_mm", "y1_mm"].iter().zip(&leaf.rect) {
                // No digits but those of a tick.
                assert!((number(side) - pitch.millimetres(ticks)).abs() <= 5e-10);
                assert!(row[*side].len() <= 14, "{}", row[*side]);
            }
            let whole = ["polygon", "layer", "component", "level"].map(&number);
            let [polygon, level] = [leaf.polygon as f64, leaf.level as f64];
            assert_eq!(
                whole,
                [polygon, leaf.layer.into(), leaf.component.into(), level]
            );
            assert_eq!(
                (number("r_sheet_ohm"), number("power_W")),
                (leaf.sheet, flow.watts)
            );
            let area = (number("x1_mm") - number("x0_mm")) * (number("y1_mm") - number("y0_mm"));
            // The pitch is rounded to whole ticks.
            let off = number("W_per_mm2") * area - flow.watts;
            assert!(off.abs() <= 1e-5 * flow.watts, "{off}");
            let current = (number("W_per_mm2") / leaf.sheet).sqrt();
            assert_near(number("A_per_mm"), current, "current");
            let [x, y] = flow.current.map(|current| current / 1e3);
            assert_near(number("jx_A_per_mm"), x, "along x");
            assert_near(number("jy_A_per_mm"), y, "along y");
            watts += number("power_W");
        }
        let links: f64 = board.solution.edge_watts.iter().sum();
        assert!(((watts + links) / board.solution.given() - 1.0).abs() < 1e-9);
    }
}

/// Of a record, and of a text without a pitch, lengths are in ticks.
#[test]
fn a_table_without_a_pitch_is_in_ticks() {
    let record = fs::read(sample("neck.record")).expect("a sample");
    let table = of_csv(&text_made(BOARD, &["csv"], &record));
    let board = leafmesh::read(&record).expect("a board");
    let mesh = Mesh::of_board(&board).expect("a mesh");
    for (leaf, row) in mesh.leaves().zip(&table) {
        let sides = ["x0_ticks", "y0_ticks", "x1_ticks", "y1_ticks"];
        assert_eq!(sides.map(|side| row[side].parse()), leaf.rect.map(Ok));
        assert!(!row.contains_key("power_W"));
        assert_eq!(row["id"], leaf.id.to_string());
        assert_eq!(mesh.slot(leaf.id)[columns::LEVEL].to_string(), row["level"]);
    }
    assert_eq!(table.len(), mesh.leaves().count());
}

/// What is of another mesh is refused, and a field of another length is left out.
#[test]
fn files_of_another_mesh_are_refused() {
    let (across, drive) = (solved("across.txt"), solved("drive.txt"));
    let flows = field::Flows::of(&drive.mesh, &drive.solution);
    let why = vtk::of_linked_mesh(&across.mesh, &drive.net, &[]).unwrap_err();
    assert_eq!(why.reason, Reason::BadTable);
    let why = msh::of_mesh(&across.mesh, &drive.net, &[]).unwrap_err();
    assert_eq!(why.reason, Reason::BadTable);
    let pitch = Pitch::new(0.2, 4).ok();
    let why = csv::of_mesh(
        &across.mesh,
        across.net.rows(),
        pitch,
        &drive.solution.cells,
    )
    .unwrap_err();
    assert_eq!(why.reason, Reason::BadTable);
    let fields = flows.fields();
    let file = vtk::of_linked_mesh(&across.mesh, &across.net, &fields).expect("a file");
    assert_eq!(
        file,
        vtk::of_linked_mesh(&across.mesh, &across.net, &[]).expect("a file")
    );
    let file = msh::of_mesh(&across.mesh, &across.net, &fields).expect("a file");
    assert_eq!(
        file,
        msh::of_mesh(&across.mesh, &across.net, &[]).expect("a file")
    );
}

/// A record and the text that it was packed of give the same files, but for the unit of the table.
#[test]
fn files_of_a_record_are_those_of_its_text() {
    for name in ["neck", "two_layers", "shunt"] {
        for command in ["vtk", "msh"] {
            let [record, text] = ["record", "txt"].map(|ending| {
                let file = sample_name(&format!("{name}.{ending}"));
                made(BOARD, &[command, &file], b"")
            });
            assert!(record == text, "{command} {name}");
        }
    }
}
