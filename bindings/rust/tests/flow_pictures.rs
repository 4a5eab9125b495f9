//! Pictures of what flows: both quantities beside each other, the hottest leaf, and terminals where they are.

#[path = "shared/svg.rs"]
mod svg;

use leafmesh::drawing::{Picture, Quantity};
use leafmesh::solving::{Applied, Drive, Flow, Held, Solution, Spot, System, Terminal};
use leafmesh::{text, Edge, Leaf, Mesh, Net, OwnedLinks, Polygons, Reason, Settings, Side};
use std::fs;
use std::path::Path;
use std::time::{Duration, Instant};
use svg::{assert_uncut, number, width_of, words_of};

/// A board that was solved.
struct Solved {
    mesh: Mesh,
    net: Net,
    links: OwnedLinks,
    held: Vec<Held>,
    solution: Solution,
}

impl Solved {
    fn of(words: &str, terminals: &[Terminal]) -> Self {
        let whole = text::parse_whole(words).expect("a board");
        let mesh = Mesh::of_board(&whole.board).expect("a mesh");
        let net = mesh.linked_net(whole.links.rows()).expect("a net");
        let held = mesh.held(&net, terminals);
        let system = System::of_cells(&net).expect("aligned");
        let solution = system.solve(&held).expect("a solution");
        Solved {
            mesh,
            net,
            links: whole.links,
            held,
            solution,
        }
    }

    fn bare(&self) -> Picture {
        let picture = Picture::of_mesh("A board", &self.mesh, self.net.rows());
        let picture = picture.expect("a picture");
        picture.with_links(&self.net, self.links.rows())
    }

    fn picture(&self, quantity: Quantity) -> Picture {
        self.bare()
            .by_flow(&self.mesh, &self.solution, quantity)
            .with_terminals(&self.net.nodes, &self.held, &self.solution.terminals)
    }

    fn svg(&self, quantity: Quantity) -> String {
        self.picture(quantity).svg()
    }

    /// W/mm2 and A/mm of each leaf.
    fn values(&self) -> Vec<(Leaf, [f64; 2])> {
        let value = |(leaf, watts): (Leaf, f64)| {
            let both = [
                watts / (leaf.area() * 1e6),
                leaf.sheet_current(watts, leaf.sheet) / 1e3,
            ];
            (leaf, both)
        };
        let watts = self.solution.cells.iter().map(|cell| cell.watts);
        self.mesh.leaves().zip(watts).map(value).collect()
    }
}

fn terminal(name: &str, layer: u16, component: u32, side: Side, drive: Drive) -> Terminal {
    let spot = Spot::End {
        layer,
        component,
        side,
    };
    Terminal::new(name, spot, drive)
}

/// 10 A in on the left of layer 1, out on the right.
fn across() -> [Terminal; 2] {
    [
        terminal("in", 1, 0, Side::West, Drive::Amperes(10.0)),
        terminal("out", 1, 0, Side::East, Drive::Volts(0.0)),
    ]
}

/// Two pads of 6 by 6 mm and a neck of 2 by 0.2 mm that lies across between them, in cells of 0.1 mm.
fn neck() -> String {
    let ring = "0 0\n6 0\n6 3\n8 3\n8 0\n14 0\n14 6\n8 6\n8 3.2\n6 3.2\n6 6\n0 6\n";
    // Twice 30 by 15 cells of the pads, then the row of 70 that the neck lies in.
    let ids: Vec<String> = (930..940).map(|id| id.to_string()).collect();
    let board = format!("level 2\npitch 0.2\npolygon 1 0 0.0005\n{ring}");
    format!("{board}split {}\n", ids.join(" "))
}

fn sample(name: &str) -> String {
    let boards = Path::new(env!("CARGO_MANIFEST_DIR")).join("../../boards");
    fs::read_to_string(boards.join(name)).expect("a sample")
}

/// 10 A from the bottom of layer 1's plate to the top of layer 2's bar.
fn vias() -> Solved {
    let terminals = [
        terminal("plate", 1, 0, Side::South, Drive::Amperes(10.0)),
        terminal("bar", 2, 1, Side::North, Drive::Volts(0.0)),
    ];
    Solved::of(&sample("vias.txt"), &terminals)
}

/// What stands behind the words, up to the tag's end.
fn behind<'a>(svg: &'a str, words: &str) -> &'a str {
    let at = svg.find(words).unwrap_or_else(|| panic!("no {words}"));
    svg[at + words.len()..].split('<').next().expect("an end")
}

fn is_near(said: f64, value: f64) -> bool {
    (said - value).abs() <= 0.006 * value.abs()
}

#[test]
fn a_neck_that_lies_across_is_the_hottest() {
    let solved = Solved::of(&neck(), &across());
    assert!(solved.net.cells.len() >= 1_500);
    let svg = solved.svg(Quantity::PowerDensity);
    let words = behind(&svg, ">hottest: leaf ");
    let (id, rest) = words.split_once(" (layer 1), ").expect("a layer");
    let (density, rest) = rest.split_once(" W/mm2, ").expect("a power density");
    let current = rest.strip_suffix(" A/mm").expect("a sheet current");
    let hottest = solved
        .mesh
        .leaf(id.parse().expect("an id"))
        .expect("a leaf");
    let millimetres = |ticks: i64| ticks as f64 * leafmesh::TICK * 1e3;
    let [x0, y0, x1, y1] = hottest.rect.map(millimetres);
    assert!(5.99 < x0 && x1 < 8.01 && 2.99 < y0 && y1 < 3.21);

    let values = solved.values();
    let by_heat = |a: &&(Leaf, [f64; 2]), b: &&(Leaf, [f64; 2])| a.1[0].total_cmp(&b.1[0]);
    let (_, [most, amperes]) = values.iter().max_by(by_heat).expect("leaves");
    // The corners of both ends are as hot as each other.
    let is_it = |one: &&(Leaf, [f64; 2])| one.0.id == hottest.id;
    let [own, _] = values.iter().find(is_it).expect("the leaf").1;
    assert!(own >= (1.0 - 1e-9) * most);
    assert!(is_near(density.parse().expect("a number"), *most));
    assert!(is_near(current.parse().expect("a number"), *amperes));
    // 10 A through 0.2 mm, and more at the corners of its ends.
    assert!(*amperes > 50.0);
    assert_uncut(&svg);
}

/// Every leaf says both quantities, in either picture, as the solution has them.
#[test]
fn leaves_say_both_quantities() {
    let solved = Solved::of(&neck(), &across());
    let values = solved.values();
    for quantity in [Quantity::PowerDensity, Quantity::SheetCurrent] {
        let svg = solved.svg(quantity);
        let titles: Vec<&str> = svg.split("<title>leaf ").skip(1).collect();
        assert_eq!(titles.len(), values.len());
        let leaves = values.iter().zip(&solved.solution.cells);
        for (((leaf, [density, current]), flow), title) in leaves.zip(titles) {
            let words = title.split('<').next().expect("a title");
            let named = format!("{}, level {}, ", leaf.id, leaf.level);
            let words = words.strip_prefix(&named).expect("the leaves in order");
            let (said, rest) = words.split_once(" W/mm2, ").expect("a power density");
            assert!(
                is_near(said.parse().expect("a number"), *density),
                "{words}"
            );
            let (said, direction) = rest.split_once(" A/mm to the ").expect("a sheet current");
            assert!(
                is_near(said.parse().expect("a number"), *current),
                "{words}"
            );
            assert_eq!(direction, nearest_of_eight(flow.current), "{words}");
        }
    }
}

fn nearest_of_eight([x, y]: [f64; 2]) -> &'static str {
    let half = 0.5_f64.sqrt();
    let ways = [
        ("east", 1.0, 0.0),
        ("north-east", half, half),
        ("north", 0.0, 1.0),
        ("north-west", -half, half),
        ("west", -1.0, 0.0),
        ("south-west", -half, -half),
        ("south", 0.0, -1.0),
        ("south-east", half, -half),
    ];
    let along = |way: &(&str, f64, f64)| way.1 * x + way.2 * y;
    let nearest = ways
        .into_iter()
        .max_by(|a, b| along(a).total_cmp(&along(b)));
    nearest.expect("eight").0
}

/// The same cells have the same colours by power as by current where all have one sheet resistance.
#[test]
fn one_sheet_resistance_has_two_scales_of_one_bar() {
    let solved = Solved::of(&neck(), &across());
    let [power, current] =
        [Quantity::PowerDensity, Quantity::SheetCurrent].map(|quantity| solved.svg(quantity));
    let fills = |svg: &str| -> Vec<String> {
        let own = svg.split(" fill=\"").skip(1);
        own.map(|rest| rest[..7].to_string()).collect()
    };
    assert_eq!(fills(&power), fills(&current));
    for (svg, words) in [
        (
            &power,
            ">power density in W/mm2, logarithmic (above: sheet current in A/mm)<",
        ),
        (
            &current,
            ">sheet current in A/mm, logarithmic (above: power density in W/mm2)<",
        ),
    ] {
        for words in [words, ">W/mm2<", ">A/mm<", ">hottest: leaf "] {
            assert!(svg.contains(words), "{words}");
        }
        assert!(!svg.contains("most current"));
        assert_uncut(svg);
    }
    // Both scales end with what the hottest leaf has, at one place.
    let hottest = behind(&power, ">hottest: leaf ");
    let (density, current) = hottest
        .split_once(", ")
        .and_then(|(_, both)| both.split_once(" W/mm2, "))
        .expect("both");
    let current = current.trim_end_matches(" A/mm");
    let place = |words: &str| {
        let all = words_of(&power);
        let own = all.iter().find(|(own, _)| own == words);
        let [x0, _, x1, _] = own.unwrap_or_else(|| panic!("no {words}")).1;
        (x0 + x1) / 2.0
    };
    assert!((place(density) - place(current)).abs() < 0.01);
}

/// An even current gives all leaves the colour of the largest value, whatever the solver's iteration left.
#[test]
fn an_even_current_has_one_colour() {
    let board = "level 2\npitch 0.25\npolygon 1 0 0.0005\n0 0\n20 0\n20 5\n0 5\nsplit 7 800\n";
    let solved = Solved::of(board, &across());
    assert!(solved.net.cells.len() >= 1_500);
    for quantity in [Quantity::PowerDensity, Quantity::SheetCurrent] {
        let svg = solved.svg(quantity);
        let fill = |title: &str| {
            let tag = title.rsplit("<rect ").next().expect("a tag");
            tag.split(" fill=\"").nth(1).expect("a colour")[..7].to_string()
        };
        let mut parts: Vec<&str> = svg.split("<title>leaf ").collect();
        parts.pop();
        assert_eq!(parts.len(), solved.net.cells.len());
        assert!(parts.iter().all(|part| fill(part) == "#ffdd40"));
        assert_uncut(&svg);
    }
}

/// Two pieces in a row, the second of ten times the resistance: the hottest leaf is in it, and the most current
/// elsewhere.
#[test]
fn sheet_resistances_that_differ_have_one_scale() {
    let mut board = "level 2\npitch 0.5\npolygon 1 0 0.0005\n0 0\n10 0\n10 2\n0 2\n".to_string();
    board += "polygon 2 0 0.005\n0 0\n10 0\n10 4\n0 4\n";
    board += "via 1 2 0 10 1 0.5 1 0.0001\n";
    let terminals = [
        terminal("in", 1, 0, Side::West, Drive::Amperes(10.0)),
        terminal("out", 2, 0, Side::West, Drive::Volts(0.0)),
    ];
    let solved = Solved::of(&board, &terminals);
    for (quantity, other) in [
        (Quantity::PowerDensity, "A/mm"),
        (Quantity::SheetCurrent, "W/mm2"),
    ] {
        let svg = solved.svg(quantity);
        let words = format!("(no scale in {other}: sheet resistances differ)<");
        assert!(
            svg.contains(&words) && !svg.contains(&format!(">{other}<")),
            "{words}"
        );
        assert!(behind(&svg, ">hottest: leaf ").contains("(layer 2)"));
        assert!(behind(&svg, ">most current: leaf ").contains("(layer 1)"));
        assert_uncut(&svg);
    }
}

/// What a terminal's band is drawn along, from its two paths: x0, y0, x1, y1 of each line, and its title.
fn bands(svg: &str) -> Vec<(&str, Vec<[f64; 4]>)> {
    let groups = svg
        .split("<g fill=\"none\" stroke-linecap=\"square\"><title>")
        .skip(1);
    groups
        .map(|group| {
            let title = group.split('<').next().expect("a title");
            let path = group.split(" d=\"").nth(1).expect("a path");
            let path = path.split('"').next().expect("an end");
            let lines = path.split('M').skip(1).map(|line| {
                let numbers: Vec<f64> = line
                    .split(['L', ' ', 'h'])
                    .map(|number| number.parse().expect("a number"))
                    .collect();
                match numbers[..] {
                    [ax, ay, bx, by] => [ax, ay, bx, by],
                    [x, y, _] => [x, y, x, y],
                    _ => panic!("{line}"),
                }
            });
            (title, lines.collect())
        })
        .collect()
}

/// Where the leaves of a layer are drawn: x0, y0, x1, y1.
fn panel(svg: &str, solved: &Solved, layer: u16) -> [f64; 4] {
    let own = solved.mesh.leaves().filter(|leaf| leaf.layer == layer);
    let rects = own.map(|leaf| {
        let title = format!("><title>leaf {}, ", leaf.id);
        let at = svg.find(&title).expect("a leaf");
        let tag = &svg[svg[..at].rfind("<rect").expect("a tag")..at];
        let [x, y, w, h] = ["x", "y", "width", "height"].map(|name| number(tag, name).expect(name));
        [x, y, x + w, y + h]
    });
    around(rects)
}

/// The rectangle round all of them.
fn around<T: PartialOrd + Copy>(rects: impl Iterator<Item = [T; 4]>) -> [T; 4] {
    let least = |a: T, b: T| if b < a { b } else { a };
    let most = |a: T, b: T| if b > a { b } else { a };
    let both = |a: [T; 4], b: [T; 4]| {
        [
            least(a[0], b[0]),
            least(a[1], b[1]),
            most(a[2], b[2]),
            most(a[3], b[3]),
        ]
    };
    rects.reduce(both).expect("leaves")
}

fn is_at(a: [f64; 4], b: [f64; 4]) -> bool {
    a.iter().zip(b).all(|(a, b)| (a - b).abs() < 0.02)
}

#[test]
fn terminals_are_bands_at_their_ends() {
    let solved = Solved::of(&neck(), &across());
    let svg = solved.svg(Quantity::PowerDensity);
    let [x0, y0, x1, y1] = panel(&svg, &solved, 1);
    let bands = bands(&svg);
    let [(left, west), (right, east)] = &bands[..] else {
        panic!("two bands");
    };
    let volts = solved.solution.terminals[0].volts;
    let words = format!(
        "{} mV, 10 A",
        format!("{:.3e}", 1e3 * volts).parse::<f64>().expect("3")
    );
    assert!(
        left.starts_with("terminal in: ") && left.ends_with(" mV, 10 A"),
        "{left} {words}"
    );
    assert_eq!(*right, "terminal out: 0 V, -10 A");
    assert!(
        west.len() == 1 && is_at(west[0], [x0, y1, x0, y0]),
        "{west:?}"
    );
    assert!(
        east.len() == 1 && is_at(east[0], [x1, y1, x1, y0]),
        "{east:?}"
    );
}

/// On two layers: each in its own panel.
#[test]
fn terminals_stand_in_the_panels_of_their_layers() {
    let solved = vias();
    assert!(solved.net.cells.len() >= 1_500);
    let svg = solved.svg(Quantity::PowerDensity);
    let bands = bands(&svg);
    assert_eq!(bands.len(), 2);
    assert!(panel(&svg, &solved, 1)[2] < panel(&svg, &solved, 2)[0]);
    let [x0, _, x1, y1] = panel(&svg, &solved, 1);
    assert!(bands[0].0.contains("plate") && is_at(bands[0].1[0], [x0, y1, x1, y1]));
    let [x0, y0, x1, _] = panel(&svg, &solved, 2);
    assert!(bands[1].0.contains("bar") && is_at(bands[1].1[0], [x0, y0, x1, y0]));
    assert_labels_are_seen(&solved, &svg, 2);
}

/// Where the boxes of labels are: x0, y0, x1, y1.
fn boxes(svg: &str) -> Vec<[f64; 4]> {
    let tags = svg.split("<rect").filter(|tag| tag.contains(" rx=\"3\""));
    let edges = tags.map(|tag| ["x", "y", "width", "height"].map(|name| number(tag, name)));
    let numbers = edges.map(|edges| edges.map(|edge| edge.expect("a number")));
    numbers.map(|[x, y, w, h]| [x, y, x + w, y + h]).collect()
}

fn overlap(a: [f64; 4], b: [f64; 4]) -> bool {
    a[0] < b[2] && b[0] < a[2] && a[1] < b[3] && b[1] < a[3]
}

/// Labels lie in the picture, over no leaf, no other label and no other words, hold their own, and come last.
fn assert_labels_are_seen(solved: &Solved, svg: &str, count: usize) {
    assert_uncut(svg);
    let boxes = boxes(svg);
    assert_eq!(boxes.len(), count);
    let mut layers: Vec<u16> = solved.mesh.leaves().map(|leaf| leaf.layer).collect();
    layers.dedup();
    let panels = layers.iter().map(|&layer| panel(svg, solved, layer));
    let panels: Vec<[f64; 4]> = panels.collect();
    let width = number(svg, "width").expect("a width");
    let words = words_of(svg);
    for (at, &own) in boxes.iter().enumerate() {
        assert!(own[0] >= 0.0 && own[2] <= width && own[1] >= 0.0);
        assert!(!panels.iter().any(|&panel| overlap(own, panel)));
        assert!(!boxes[..at].iter().any(|&other| overlap(own, other)));
        let held: Vec<_> = words.iter().filter(|words| overlap(own, words.1)).collect();
        let [(label, [x0, y0, x1, y1])] = held[..] else {
            panic!("one label's words: {held:?}");
        };
        let is_in = own[0] <= *x0 && own[1] <= *y0 && *x1 <= own[2] && *y1 <= own[3];
        assert!(is_in && width_of(label, 11.0) <= own[2] - own[0], "{label}");
    }
    let last = svg.rfind("<title>").expect("titles");
    assert!(svg
        .find(" rx=\"3\"")
        .map_or(count == 0, |first| last < first));
}

#[test]
fn labels_and_the_legend_say_what_is_applied() {
    let solved = vias();
    let svg = solved.svg(Quantity::SheetCurrent);
    let volts = solved.solution.terminals[0].volts;
    let three = |value: f64| format!("{value:.2e}").parse::<f64>().expect("a number");
    let (millivolts, watts) = (three(1e3 * volts), three(10.0 * volts));
    assert!((10.0..100.0).contains(&millivolts) && (0.1..1.0).contains(&watts));
    for words in [
        format!(">plate: {millivolts} mV, 10 A<"),
        ">bar: 0 V, -10 A<".to_string(),
        format!(">applied: plate 10 A at {millivolts} mV; bar -10 A at 0 V; {watts} W in all<"),
    ] {
        assert!(svg.contains(&words), "{words}");
    }
    // By level, too.
    let picture = solved.bare();
    let svg = picture
        .with_terminals(&solved.net.nodes, &solved.held, &solved.solution.terminals)
        .svg();
    assert!(svg.contains(">applied: plate 10 A ") && svg.contains(">level 1<"));
    assert_uncut(&svg);
}

/// What the solver's iteration left is no current and no potential.
#[test]
fn what_the_iteration_left_is_nothing() {
    let solved = Solved::of(&neck(), &across());
    let svg_of = |out: f64| {
        let applied = [(0.02, 10.0), (-3e-15, out)].map(|(volts, amperes)| Applied {
            terminal: "any".to_string(),
            volts,
            amperes,
        });
        let picture = solved.bare();
        let nodes = &solved.net.nodes;
        picture.with_terminals(nodes, &solved.held, &applied).svg()
    };
    assert!(svg_of(-10.0).contains(">applied: in 10 A at 20 mV; out -10 A at 0 V; 0.2 W in all<"));
    assert!(svg_of(2e-13).contains(">out: 0 V, 0 A<"));
}

/// Many terminals beside each other, with long names that have to be written otherwise in a picture.
#[test]
fn labels_stand_clear_of_each_other() {
    let board = "level 2\npitch 0.5\npolygon 1 0 0.0005\n0 0\n20 0\n20 20\n0 20\n";
    let mesh = Mesh::of_board(&text::parse(board).expect("a board")).expect("a mesh");
    let [west, south, east, north] = around(mesh.leaves().map(|leaf| leaf.rect));
    let part = |from: i64, to: i64, of: i64| from + (to - from) / 12 * of;
    let mut terminals = Vec::new();
    for of in 0..12 {
        let [x0, x1] = [of, of + 1].map(|of| part(west, east, of) + 1_000);
        for (y0, y1, name) in [
            (north, north, "top"),
            (part(south, north, 6), part(south, north, 7), "<middle>&"),
            (
                south,
                south,
                "bottom-terminal-of-a-name-that-nobody-wants-to-read",
            ),
        ] {
            let spot = Spot::Rect {
                layer: 1,
                component: 0,
                rect: [x0, y0, x1 - 2_000, y1],
            };
            let drive = Drive::Volts(f64::from(of as i32));
            terminals.push(Terminal::new(&format!("{name}{of}"), spot, drive));
        }
    }
    let solved = Solved::of(board, &terminals);
    let svg = solved.svg(Quantity::PowerDensity);
    assert_labels_are_seen(&solved, &svg, terminals.len());
    assert!(svg.contains("bottom-terminal-of-a-name-that-nobody-wants-to-read0: "));
    assert!(svg.contains(">bottom-terminal-of-a-na\u{2026}: "));
    assert!(svg.contains(">&lt;middle&gt;&amp;11: 11 V, "));
    assert!(svg.contains("W in all<"));
    // Pads in the middle have a line round them.
    let middle = bands(&svg)
        .into_iter()
        .filter(|band| band.0.contains("middle"));
    assert!(middle.map(|band| band.1.len()).all(|lines| lines == 4));
}

#[test]
fn nets_that_make_no_sense_are_refused() {
    let solved = Solved::of(&neck(), &across());
    let Solved { mesh, net, .. } = &solved;
    let mut other = net.clone();
    other.cells[7].corners[2] = net.nodes.len();
    let why = Picture::of_mesh("A board", mesh, other.rows()).expect_err("a bad net");
    assert_eq!(why.reason, Reason::BadTable);
    let mut short = net.clone();
    short.cells.pop();
    let why = Picture::of_mesh("A board", mesh, short.rows()).expect_err("another net");
    assert_eq!(why.reason, Reason::BadTable);
}

/// Links to nodes that aren't there are passed over, and so are more links than edges.
#[test]
fn links_that_make_no_sense_are_passed_over() {
    let solved = Solved::of(&neck(), &across());
    let (bare, mut net) = (solved.bare(), solved.net.clone());
    net.edges.push(Edge {
        from: 0,
        to: usize::MAX,
        conductance: 1.0,
    });
    net.links = 1;
    assert!(bare.clone().with_links(&net, solved.links.rows()) == bare);
    net.links = usize::MAX;
    let all = bare.with_links(&net, solved.links.rows()).svg();
    assert!(all.contains(&format!(", {} links<", net.edges.len() - 1)));
    // Nodes of another board.
    let other = vias();
    let svg = solved
        .bare()
        .with_links(&other.net, other.links.rows())
        .svg();
    assert!(!svg.contains(" links<") && !svg.contains("NaN"));
}

#[test]
fn terminals_that_make_no_sense_are_passed_over() {
    let solved = Solved::of(&neck(), &across());
    let (bare, nodes) = (solved.bare(), &solved.net.nodes);
    let held = |nodes: Vec<usize>, volts: f64| Held {
        terminal: "any".to_string(),
        nodes,
        drive: Drive::Volts(volts),
    };
    let nowhere = [
        held(vec![nodes.len(), usize::MAX], 1.0),
        held(vec![], f64::NAN),
    ];
    let svg = bare.clone().with_terminals(nodes, &nowhere, &[]).svg();
    assert!(bands(&svg).is_empty() && svg.contains(">applied: any 1 V; any NaN V<"));
    // Nodes of another board, on a layer that this one hasn't.
    let other = vias();
    let svg = bare
        .clone()
        .with_terminals(&other.net.nodes, &other.held[1..], &[])
        .svg();
    assert!(bands(&svg).is_empty());
    // All nodes, backwards, with values that are no numbers.
    let all = [held((0..nodes.len()).rev().collect(), -0.5)];
    let applied = [Applied {
        terminal: "any".to_string(),
        volts: f64::INFINITY,
        amperes: -0.0,
    }];
    let svg = bare.clone().with_terminals(nodes, &all, &applied).svg();
    assert_eq!(bands(&svg).len(), 1);
    assert_uncut(&svg);
    assert!(bare.clone().with_terminals(nodes, &[], &[]) == bare);
}

/// Of another mesh, of none of the cells, and of no mesh at all.
#[test]
fn solutions_of_something_else_are_drawn_all_the_same() {
    let solved = Solved::of(&neck(), &across());
    let mut other = solved.solution.clone();
    other.cells.truncate(9);
    let svg = solved
        .bare()
        .by_flow(&solved.mesh, &other, Quantity::PowerDensity)
        .svg();
    assert_eq!(svg.matches("<title>leaf ").count(), solved.net.cells.len());
    other.cells.fill(Flow::default());
    let svg = solved
        .bare()
        .by_flow(&solved.mesh, &other, Quantity::PowerDensity)
        .svg();
    assert!(svg.contains(">hottest: none, since no leaf takes power<"));
    let by_net = System::of_net(solved.net.rows()).and_then(|system| system.solve(&solved.held));
    let by_net = by_net.expect("a solution");
    let svg = solved
        .bare()
        .by_flow(&solved.mesh, &by_net, Quantity::SheetCurrent)
        .svg();
    assert!(svg.contains(">hottest: not known, since the solution has no power of a leaf<"));
    assert_uncut(&svg);

    let settings = Settings {
        max_level: 2,
        cap: 256,
        target: 8,
    };
    let none = Mesh::new(settings, &[], Polygons::default()).expect("no polygons");
    let net = none.net().expect("no net");
    let picture = Picture::of_mesh("Nothing", &none, net.rows()).expect("a picture");
    let svg = picture
        .by_flow(&none, &solved.solution, Quantity::PowerDensity)
        .with_borders()
        .expect("no borders")
        .with_terminals(&net.nodes, &solved.held, &solved.solution.terminals)
        .svg();
    assert!(svg.contains(">0 leaves, 0 borders<") && !svg.contains("NaN") && !svg.contains("inf"));
    let svg = solved
        .bare()
        .by_flow(&none, &solved.solution, Quantity::PowerDensity)
        .svg();
    assert_eq!(svg.matches("<title>leaf ").count(), solved.net.cells.len());
}

/// The shortest of several tries with a square of so many leaves each way, in turn with those of another size.
fn times_of_squares(sides: [i64; 2]) -> [Duration; 2] {
    let squares = sides.map(|side| {
        let side = side as f64 * 0.25;
        let board = format!(
            "level 1\npitch 0.25\npolygon 1 0 0.0005\n0 0\n{side} 0\n{side} {side}\n0 {side}\n"
        );
        Mesh::of_board(&text::parse(&board).expect("a board")).expect("a mesh")
    });
    let mut shortest = [Duration::MAX; 2];
    for _ in 0..4 {
        for (mesh, shortest) in squares.iter().zip(&mut shortest) {
            *shortest = (*shortest).min(time_of(mesh));
        }
    }
    shortest
}

fn time_of(mesh: &Mesh) -> Duration {
    let net = mesh.net().expect("a net");
    let flow = Flow {
        watts: 1e-3,
        current: [1.0, 0.0],
        ..Flow::default()
    };
    let solution = Solution {
        volts: vec![0.0; net.nodes.len()],
        above: vec![0.0; net.nodes.len()],
        terminals: Vec::new(),
        cells: vec![flow; net.cells.len()],
        edges: Vec::new(),
        edge_watts: Vec::new(),
        lone: Vec::new(),
    };
    let held = mesh.held(&net, &across());
    let start = Instant::now();
    let picture = Picture::of_mesh("A board", mesh, net.rows()).expect("a picture");
    let svg = picture
        .by_flow(mesh, &solution, Quantity::PowerDensity)
        .with_terminals(&net.nodes, &held, &[])
        .svg();
    let took = start.elapsed();
    assert_eq!(svg.matches("<title>leaf ").count(), net.cells.len());
    took
}

/// Four times the leaves take some four times as long, and not sixteen times.
#[test]
fn a_picture_takes_as_long_as_it_has_leaves() {
    let [small, large] = times_of_squares([60, 120]);
    assert!(large < 10 * small, "{small:?} {large:?}");
}
