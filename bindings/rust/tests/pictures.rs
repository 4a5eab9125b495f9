//! Pictures and files of the sample boards: all that they promise stands in them, and nothing past their edge.

#[path = "shared/svg.rs"]
mod svg;

use leafmesh::drawing::{densities, Picture, LEVELS};
use leafmesh::vtk::{self, Field};
use leafmesh::{printed, read, sides, text, LeafBorder, Links, Mesh, Net, OwnedLinks, TICK};
use std::fs;
use std::path::Path;
use svg::{assert_uncut, number};

fn mesh_of(name: &str) -> Mesh {
    let file = Path::new(env!("CARGO_MANIFEST_DIR"))
        .join("../../boards")
        .join(name);
    let board = text::parse(&fs::read_to_string(file).expect("a sample")).expect("a board");
    Mesh::of_board(&board).expect("a mesh")
}

fn picture_of(mesh: &Mesh) -> String {
    let net = mesh.net().expect("a net");
    Picture::of_mesh("A board", mesh, net.rows())
        .expect("a picture")
        .svg()
}

#[test]
fn thirteen_levels_have_thirteen_colours() {
    let channels = |colour: &str| {
        [1, 3, 5].map(|at| i64::from_str_radix(&colour[at..at + 2], 16).expect("hex"))
    };
    for (i, a) in LEVELS.iter().enumerate() {
        for b in &LEVELS[..i] {
            let apart: i64 = channels(a)
                .iter()
                .zip(channels(b))
                .map(|(a, b)| (a - b).abs())
                .sum();
            assert!(apart >= 60, "{a} and {b}");
        }
    }
    let svg = picture_of(&mesh_of("deep.txt"));
    for (level, colour) in LEVELS.iter().enumerate() {
        assert!(
            svg.contains(colour) && svg.contains(&format!(">level {level}<")),
            "level {level}"
        );
    }
    assert_uncut(&svg);
}

#[test]
fn a_board_of_two_layers_has_two_panels() {
    let mesh = mesh_of("shunt.txt");
    let svg = picture_of(&mesh);
    let leaves = mesh.order().len();
    assert!(leaves >= 1_500);
    assert_eq!(svg.matches("<title>leaf ").count(), leaves);
    for words in [">A board<", ">layer 1<", ">layer 2<", ">5 mm<", ">level 2<"] {
        assert!(svg.contains(words), "{words}");
    }
    let net = mesh.net().expect("a net");
    let hanging = sides::hanging(net.rows()).expect("a sound net").len();
    // One more in the legend.
    assert_eq!(
        svg.matches("fill=\"#ffffff\" stroke=\"#000000\"").count(),
        hanging + 1
    );
    assert_uncut(&svg);
}

#[test]
fn values_have_a_logarithmic_bar() {
    let mesh = mesh_of("neck.txt");
    let net = mesh.net().expect("a net");
    let values: Vec<f64> = (0..net.cells.len())
        .map(|cell| 10_f64.powi(cell as i32 - 30))
        .collect();
    let picture = Picture::of_mesh("<&>", &mesh, net.rows()).expect("a picture");
    let svg = picture.clone().by_value("W/mm2", &values).svg();
    for words in [
        "&lt;&amp;&gt;",
        ">W/mm2, logarithmic<",
        ">1e7 and less<",
        ">1e13<",
    ] {
        assert!(svg.contains(words), "{words}");
    }
    assert_uncut(&svg);
    // No values, none above 0, and none that are numbers: a picture all the same.
    for values in [
        vec![],
        vec![0.0; values.len()],
        vec![f64::NAN; values.len()],
        vec![1.0; values.len()],
    ] {
        assert_uncut(&picture.clone().by_value("W/mm2", &values).svg());
    }
    let even = densities(&mesh, &vec![1.0; net.cells.len()]);
    for (&id, value) in mesh.order().iter().zip(even) {
        // Base cells of 2 by 2 mm.
        assert!(
            (value - 0.25 * 4_f64.powi(mesh.level(id) as i32)).abs() < 1e-6,
            "{value}"
        );
    }
}

#[test]
fn boards_in_ticks_have_a_bar_in_ticks() {
    let svg = picture_of(&mesh_of("comb.txt"));
    assert!(svg.contains(">10 ticks<"));
    assert_uncut(&svg);
}

#[test]
fn a_vtk_file_has_all_cells_nodes_and_fields() {
    let mesh = mesh_of("two_layers.txt");
    let net = mesh.net().expect("a net");
    let (nodes, cells) = (net.nodes.len(), net.cells.len());
    let (watts, volts) = (vec![0.5; cells], vec![0.25; nodes]);
    let own = [
        Field::Cells("my watts", &watts),
        Field::Nodes("volts", &volts),
        Field::Cells("short", &[]),
    ];
    let file = vtk::of_mesh(&mesh, net.rows(), &own).expect("a file");
    let lines: Vec<&str> = file.lines().collect();
    assert_eq!(lines[0], "# vtk DataFile Version 3.0");
    let after = |words: String| {
        lines
            .iter()
            .position(|line| **line == words)
            .expect("a section")
            + 1
    };
    let points = after(format!("POINTS {nodes} double"));
    assert!(lines[points..points + nodes]
        .iter()
        .all(|line| line.split(' ').count() == 3));
    let at = after(format!("CELLS {cells} {}", 5 * cells));
    for (line, cell) in lines[at..].iter().zip(&net.cells) {
        let [sw, se, ne, nw] = cell.corners;
        assert_eq!(**line, format!("4 {sw} {se} {ne} {nw}"));
    }
    let at = after(format!("CELL_TYPES {cells}"));
    assert!(lines[at..at + cells].iter().all(|line| *line == "9"));
    let at = after(format!("CELL_DATA {cells}"));
    let fields = [
        "leaf",
        "level",
        "polygon",
        "layer",
        "component",
        "r_sheet",
        "my_watts",
    ];
    for (place, name) in fields.iter().enumerate() {
        assert_eq!(
            lines[at + place * (cells + 2)],
            format!("SCALARS {name} double 1")
        );
    }
    let at = after(format!("POINT_DATA {nodes}"));
    assert_eq!(
        at,
        1 + after(format!("CELL_DATA {cells}")) + fields.len() * (cells + 2)
    );
    assert_eq!(lines[at + nodes + 2], "SCALARS volts double 1");
    assert_eq!(lines.len(), at + 2 * (nodes + 2));
}

/// A board of thousands of leaves with all kinds of links.
fn linked_board() -> (Mesh, Net, OwnedLinks) {
    let file = Path::new(env!("CARGO_MANIFEST_DIR")).join("../../boards/vias.txt");
    let words = fs::read_to_string(file).expect("a sample");
    let whole = text::parse_whole(&words).expect("a board");
    let mesh = Mesh::of_board(&whole.board).expect("a mesh");
    let net = mesh.linked_net(whole.links.rows()).expect("a net");
    assert!(net.cells.len() >= 1_500);
    (mesh, net, whole.links)
}

#[test]
fn links_are_seen_where_they_end() {
    let (mesh, net, links) = linked_board();
    let picture = Picture::of_mesh("A board", &mesh, net.rows()).expect("a picture");
    let bare = picture.svg();
    let svg = picture.with_links(&net, links.rows()).svg();
    // One more of each in the legend. Ten footprints, on two layers each.
    let count = |words: &str| svg.matches(words).count();
    assert_eq!(count("stroke-dasharray"), 2 * 10 + 1);
    // Ten pads of 25 nodes and two points, on two layers each, and where the sense line touches the plate.
    assert_eq!(count("fill=\"#0a58ff\""), 2 * (10 * 25 + 2) + 1 + 1);
    // Four switches; each line lies on a white one.
    assert_eq!(count("stroke=\"#0a58ff\" stroke-width=\"2\""), 4 + 1);
    let leaves = format!("{} leaves, {} links", net.cells.len(), net.links);
    for words in [
        "footprint of a via",
        "link within a layer",
        "link across layers, or at one place",
        &leaves,
    ] {
        assert!(svg.contains(words), "{words}");
        assert!(!bare.contains(words), "{words}");
    }
    assert_uncut(&svg);
}

/// What leafnet prints tells layers apart: its picture is that of the board, but for the title.
#[test]
fn a_printed_text_has_the_picture_of_its_board() {
    let boards = Path::new(env!("CARGO_MANIFEST_DIR")).join("../../boards");
    let files = fs::read_dir(&boards)
        .expect("the samples")
        .map(|file| file.expect("a file").path());
    let records: Vec<_> = files
        .filter(|file| file.extension().is_some_and(|ending| ending == "record"))
        .collect();
    assert!(records.len() >= 7);
    let mut panels = Vec::new();
    // Of copper that is drawn twice there is none.
    for file in records
        .into_iter()
        .filter(|file| !file.ends_with("overlap.record"))
    {
        let board = read(&fs::read(&file).expect("a record")).expect("a board");
        let mesh = Mesh::of_board(&board).expect("a mesh");
        let net = mesh.net().expect("a net");
        let printed = printed::read(&printed::show(&board).expect("a net")).expect("a text");
        let by_text = Picture::of_printed("A board", &printed, None).expect("a picture");
        let by_board = Picture::of_mesh("A board", &mesh, net.rows()).expect("a picture");
        assert!(by_text == by_board, "{}", file.display());
        assert_eq!(
            Picture::of_printed("A board", &printed, Some(&board)),
            Ok(by_board)
        );
        let other = Picture::of_printed("Another", &printed, None).expect("a picture");
        let svg = other.svg();
        assert_eq!(svg.replace(">Another<", ">A board<"), by_text.svg());
        panels.push(svg.matches(">layer ").count());
    }
    panels.sort_unstable();
    assert_eq!(panels.last(), Some(&2));
}

/// With links, too: but for the footprints, which the text doesn't have.
#[test]
fn a_printed_text_with_links_has_two_panels() {
    let (mesh, net, _) = linked_board();
    let text = printed::show_mesh(&mesh.board(), &mesh, &net);
    let printed = printed::read(&text).expect("a text");
    let by_text = Picture::of_printed("A board", &printed, None).expect("a picture");
    let by_board = Picture::of_mesh("A board", &mesh, net.rows()).expect("a picture");
    // A text doesn't say which of its edges are one link, and so not which link is of one node.
    let bare = Net {
        joints: Vec::new(),
        ..net
    };
    assert!(by_text == by_board.with_links(&bare, Links::default()));
    let svg = by_text.with_borders().expect("borders").svg();
    assert!(
        svg.contains(">layer 1<") && svg.contains(">layer 2<") && svg.contains(" across layers<")
    );
    assert_uncut(&svg);
}

fn picture_with_borders(mesh: &Mesh) -> String {
    let net = mesh.unjudged_net().expect("a net");
    let picture = Picture::of_mesh("A board", mesh, net.rows()).expect("a picture");
    picture.with_borders().expect("borders").svg()
}

/// The line of a border: its title, how wide it is, and whether it is dashed.
struct Line<'a> {
    title: &'a str,
    wide: f64,
    dashed: bool,
    tag: &'a str,
}

fn lines_of(svg: &str) -> Vec<Line<'_>> {
    let mut lines = Vec::new();
    for part in svg.split("<path ").skip(1) {
        let (tag, rest) = part.split_once('>').expect("a tag");
        let Some(rest) = rest.strip_prefix("<title>") else {
            continue;
        };
        lines.push(Line {
            title: rest.split('<').next().expect("a title"),
            wide: number(&format!(" {tag}"), "stroke-width").expect("a width"),
            dashed: tag.contains("stroke-dasharray"),
            tag,
        });
    }
    lines
}

/// Where figures stand: x0, y0, x1, y1, at a generous width a letter.
fn figures_of(svg: &str) -> Vec<[f64; 4]> {
    let Some((_, group)) = svg.split_once("paint-order=\"stroke\">") else {
        return vec![];
    };
    let group = group.split("</g>").next().expect("an end");
    let texts = group.split("<text").skip(1).map(|part| {
        let (tag, words) = part.split_once('>').expect("a tag");
        let words = words.split('<').next().expect("figures");
        let [x, y] = ["x", "y"].map(|name| number(tag, name).expect("a place"));
        let half = 2.9 * words.len() as f64;
        [x - half, y - 7.0, x + half, y]
    });
    texts.collect()
}

fn is_across(mesh: &Mesh, border: &LeafBorder) -> bool {
    let layer = |id: usize| mesh.polygons().layers[mesh.polygon(id)];
    layer(border.first) != layer(border.second)
}

/// Every border is a line with its leaves and its length, once, or once in each of two panels.
#[test]
fn borders_are_lines_with_their_lengths() {
    for (name, figures) in [
        ("neck.txt", 40),
        ("two_layers.txt", 16),
        ("overlap.txt", 4),
        ("comb.txt", 20),
        ("deep.txt", 10),
        ("shunt.txt", 0),
        ("vias.txt", 0),
    ] {
        let words = fs::read_to_string(
            Path::new(env!("CARGO_MANIFEST_DIR"))
                .join("../../boards")
                .join(name),
        );
        let board = text::parse_whole(&words.expect("a sample"))
            .expect("a board")
            .board;
        let mesh = Mesh::unjudged(&board).expect("a mesh");
        let borders = mesh.borders();
        let svg = picture_with_borders(&mesh);
        let lines = lines_of(&svg);
        let across = borders.iter().filter(|one| is_across(&mesh, one)).count();
        assert_eq!(lines.len(), borders.len() + across, "{name}");
        assert_eq!(
            lines.iter().filter(|line| line.dashed).count(),
            2 * across,
            "{name}"
        );
        let legend = [" mm", " ticks"].map(|unit| svg.contains(&format!("{unit} across layers<")));
        assert_eq!(legend.contains(&true), across > 0, "{name}");
        let mut said: Vec<(String, bool)> = lines
            .iter()
            .map(|line| (line.title.to_string(), line.dashed))
            .collect();
        let mut expected = Vec::new();
        for one in &borders {
            let digits = format!("{:.3e}", one.border.length as f64 * TICK * 1e3);
            let value: f64 = digits.parse().expect("a number");
            let length = if value < 1e-4 {
                digits
            } else {
                value.to_string()
            };
            let across = is_across(&mesh, one);
            let title = format!("leaves {} and {}: {length} mm", one.first, one.second);
            expected.extend(vec![(title, across); if across { 2 } else { 1 }]);
        }
        said.sort();
        expected.sort();
        assert!(said == expected, "{name}");
        let mut counts = format!(", {} borders", borders.len());
        if across > 0 {
            counts += &format!(", {across} of them across layers");
        }
        assert!(svg.contains(&counts), "{name}: {counts}");
        // Figures where there is room for them, and none over another.
        let all = figures_of(&svg);
        let many = all.len();
        assert!(
            many >= figures && (figures > 0 || many == 0),
            "{name}: {many}"
        );
        for (at, a) in all.iter().enumerate() {
            for b in &all[..at] {
                let is_clear = a[2] <= b[0] || b[2] <= a[0] || a[3] <= b[1] || b[3] <= a[1];
                assert!(is_clear, "{name}: {a:?} and {b:?}");
            }
        }
        assert_uncut(&svg);
    }
}

/// In the order of their lengths they are in the order of their widths, within layers and across them.
#[test]
fn a_longer_border_has_a_wider_line() {
    for name in ["neck.txt", "two_layers.txt", "deep.txt", "shunt.txt"] {
        let svg = picture_with_borders(&mesh_of(name));
        let lines = lines_of(&svg);
        let sizes = |dashed: bool| {
            let mut sizes: Vec<(f64, f64)> = lines
                .iter()
                .filter(|line| line.dashed == dashed)
                .map(|line| {
                    let length = line.title.rsplit(": ").next().expect("a length");
                    let length = length.trim_end_matches(" mm").parse();
                    (length.expect("a number"), line.wide)
                })
                .collect();
            sizes.sort_by(|a, b| a.partial_cmp(b).expect("numbers"));
            sizes.dedup();
            let grow = |two: &[(f64, f64)]| two[0].0 < two[1].0 && two[0].1 < two[1].1;
            assert!(sizes.windows(2).all(grow), "{name}: {sizes:?}");
            sizes
        };
        let (within, across) = (sizes(false), sizes(true));
        assert!(
            within.len() > usize::from(name != "two_layers.txt"),
            "{name}"
        );
        // The legend begins with the longest and its half, and ends with the longest across layers.
        let samples: Vec<f64> = svg
            .split("<path ")
            .filter_map(|part| part.split_once("></path>"))
            .filter(|(tag, _)| !tag.contains('>'))
            .map(|(tag, _)| number(&format!(" {tag}"), "stroke-width").expect("a width"))
            .collect();
        let widest = within.last().expect("a border").1;
        assert_eq!(samples[0], widest, "{name}");
        assert!(
            (2.0 * samples[1] - widest).abs() < 1e-3,
            "{name}: {samples:?}"
        );
        if let Some(&(_, wide)) = across.last() {
            assert!(wide < widest && samples.last() == Some(&wide), "{name}");
        }
    }
}

/// Without borders there is nothing of them, and with none there is the word for it.
#[test]
fn pictures_without_borders() {
    let bare = picture_of(&mesh_of("neck.txt"));
    assert!(lines_of(&bare).is_empty() && !bare.contains("border"));
    let cell = "level 0\ntarget 8\npolygon 1 0 1\n0 0\n8 0\n8 8\n0 8\n";
    let board = text::parse(cell).expect("a board");
    let svg = picture_with_borders(&Mesh::of_board(&board).expect("a mesh"));
    assert!(svg.contains(">1 leaves, 0 borders<"));
    assert!(!svg.contains("NaN") && !svg.contains(">borders:<") && lines_of(&svg).is_empty());
    assert_uncut(&svg);
}

/// Over values the lines are the same, and above the cells.
#[test]
fn borders_lie_over_values() {
    let mesh = mesh_of("shunt.txt");
    let net = mesh.net().expect("a net");
    let picture = Picture::of_mesh("A board", &mesh, net.rows()).expect("a picture");
    let picture = picture.with_borders().expect("borders");
    let plain = picture.svg();
    let values: Vec<f64> = (1..=net.cells.len()).map(|n| n as f64).collect();
    let heat = picture.by_value("W/mm2", &values).svg();
    let tags = |svg: &str| {
        lines_of(svg)
            .iter()
            .map(|line| line.tag.to_string())
            .collect::<Vec<_>>()
    };
    assert_eq!(tags(&plain), tags(&heat));
    assert!(heat.rfind("<title>leaf ") < heat.find("<title>leaves "));
}

#[test]
fn a_vtk_file_has_links_as_lines() {
    let (mesh, net, _) = linked_board();
    let (cells, links) = (net.cells.len(), net.links);
    let (watts, volts) = (vec![0.5; cells], vec![0.25; net.nodes.len()]);
    let own = [Field::Cells("watts", &watts), Field::Nodes("volts", &volts)];
    let file = vtk::of_linked_mesh(&mesh, &net, &own).expect("a file");
    let lines: Vec<&str> = file.lines().collect();
    let after = |words: String| {
        lines
            .iter()
            .position(|line| **line == words)
            .expect("a section")
            + 1
    };
    let all = cells + links;
    let at = after(format!("CELLS {all} {}", 5 * cells + 3 * links));
    for (line, link) in lines[at + cells..].iter().zip(net.links()) {
        assert_eq!(**line, format!("2 {} {}", link.from, link.to));
    }
    let at = after(format!("CELL_TYPES {all}"));
    assert!(lines[at..at + cells].iter().all(|line| *line == "9"));
    assert!(lines[at + cells..at + all].iter().all(|line| *line == "3"));
    let at = after(format!("CELL_DATA {all}"));
    let fields = [
        ("leaf", "-1.0"),
        ("level", "-1.0"),
        ("polygon", "-1.0"),
        ("layer", "-1.0"),
        ("component", "-1.0"),
        ("r_sheet", "-1.0"),
        ("siemens", "1.0"),
        ("watts", "0.0"),
    ];
    for (place, (name, of_a_link)) in fields.iter().enumerate() {
        let start = at + place * (all + 2);
        assert_eq!(lines[start], format!("SCALARS {name} double 1"));
        // The contact's.
        assert_eq!(lines[start + 2 + cells], *of_a_link);
    }
    assert_eq!(lines[at + 6 * (all + 2) + 2], "0.0");
    assert_eq!(
        lines[at + fields.len() * (all + 2)],
        format!("POINT_DATA {}", net.nodes.len())
    );
    // Without links the file is the one of the leaves alone.
    let bare = Net {
        links: 0,
        joints: Vec::new(),
        ..net
    };
    let alone = vtk::of_mesh(&mesh, bare.rows(), &own).expect("a file");
    assert_eq!(vtk::of_linked_mesh(&mesh, &bare, &own), Ok(alone));
}
