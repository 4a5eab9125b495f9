//! Ends of links with an area, against theory and against a grid of resistors written apart; and ends of one node.

mod programs;

use leafmesh::solving::{Drive, Held, Solution, Spot, System, Terminal, Unsolved};
use leafmesh::{
    text, Area, Channel, ChannelEnd, Footprint, Link, Links, Mesh, Net, OwnedLinks, Reason, Region,
    Unmeshed, Via,
};
use programs::{made, refused, run, sample_name, text_made, Folder, BOARD, DRAW, RELAX};

/// Ticks a unit of length: a quarter of a millimetre.
const UNIT: i64 = 1 << 26;

fn ticks(length: f64) -> i64 {
    (length * UNIT as f64).round() as i64
}

fn footprint([x, y]: [f64; 2], [w, h]: [f64; 2]) -> Footprint {
    Footprint {
        x: ticks(x),
        y: ticks(y),
        half_width: ticks(w),
        half_height: ticks(h),
    }
}

/// What a link of almost no resistance does in the middle of its way.
const OHMS: f64 = 1e-6;

/// A square of 8 units on layer 1, and beside it a square of 1 of another component: both of 1 ohm a square.
fn copper(cell: i64) -> Mesh {
    let ring = |x0: i64, y0: i64, x1: i64, y1: i64| {
        let [x0, y0, x1, y1] = [x0, y0, x1, y1].map(|one| one * UNIT);
        format!("{x0} {y0}\n{x1} {y0}\n{x1} {y1}\n{x0} {y1}\n")
    };
    let board = format!(
        "level 5\ntarget {cell}\npolygon 1 0 1\n{}polygon 1 1 1\n{}",
        ring(0, 0, 8, 8),
        ring(10, 0, 11, 1)
    );
    Mesh::of_board(&text::parse(&board).expect("a board")).expect("a mesh")
}

/// A channel from all of the small square to a place in the large one, with an area there or without.
fn channel_to(at: [f64; 2], half: Option<[f64; 2]>) -> OwnedLinks {
    let end = |component: u32, [x, y]: [f64; 2]| ChannelEnd {
        component,
        x: ticks(x),
        y: ticks(y),
    };
    let channel = Channel {
        drain: end(1, [10.5, 0.5]),
        source: end(0, at),
        resistance: OHMS,
    };
    let drain = Area::Drain {
        channel: 0,
        footprint: footprint([10.5, 0.5], [0.5, 0.5]),
    };
    let source = half.map(|half| Area::Source {
        channel: 0,
        footprint: footprint(at, half),
    });
    OwnedLinks {
        channel_layer: 1,
        channels: vec![channel],
        areas: [drain].into_iter().chain(source).collect(),
        ..OwnedLinks::default()
    }
}

/// 1 A into the small square, and out along all four sides of the large one, at 0 V.
fn solved(mesh: &Mesh, net: &Net) -> Solution {
    let pad = Terminal::new("in", Spot::Pad { polygon: 1 }, Drive::Amperes(1.0));
    let mut held = mesh.held(net, &[pad]);
    let is_out = |one: i64| one == 0 || one == 8 * UNIT;
    let nodes = net.nodes.iter().enumerate();
    let nodes = nodes.filter(|(_, node)| node.component == 0 && (is_out(node.x) || is_out(node.y)));
    held.push(Held {
        terminal: "out".to_string(),
        nodes: nodes.map(|(at, _)| at).collect(),
        drive: Drive::Volts(0.0),
    });
    let system = System::of_cells(net).expect("a system");
    let solution = system.solve(&held).expect("a solution");
    let share = solution.watts() / solution.given() - 1.0;
    assert!(share.abs() < 1e-9, "off by {share:e}");
    solution
}

fn ohms_of(mesh: &Mesh, links: &OwnedLinks) -> f64 {
    let net = mesh.linked_net(links.rows()).expect("a net");
    solved(mesh, &net).terminals[0].volts - OHMS
}

/// Ohms between a footprint and the square's outline, in cells of this size.
fn ohms(cell: i64, at: [f64; 2], half: [f64; 2]) -> f64 {
    ohms_of(&copper(cell), &channel_to(at, Some(half)))
}

/// What the same is on a grid of resistors, `n` to a unit: five points a star, by successive over-relaxation. Written
/// apart from the crate's elements.
fn by_resistors(n: usize, [x0, x1]: [usize; 2], [y0, y1]: [usize; 2]) -> f64 {
    let side = 8 * n + 1;
    let is_out = |i: usize, j: usize| i == 0 || j == 0 || i == side - 1 || j == side - 1;
    let is_in = |i: usize, j: usize| (x0..=x1).contains(&i) && (y0..=y1).contains(&j);
    let mut volts = vec![vec![0.0; side]; side];
    for (i, row) in volts.iter_mut().enumerate() {
        for (j, one) in row.iter_mut().enumerate() {
            *one = f64::from(u8::from(is_in(i, j)));
        }
    }
    let over = 2.0 / (1.0 + (std::f64::consts::PI / (8 * n) as f64).sin());
    for _ in 0..30 * n + 100 {
        for i in 1..side - 1 {
            for j in 1..side - 1 {
                if !is_in(i, j) {
                    let sum = volts[i - 1][j] + volts[i + 1][j] + volts[i][j - 1] + volts[i][j + 1];
                    volts[i][j] += over * (sum / 4.0 - volts[i][j]);
                }
            }
        }
    }
    // Out by each way to the outline.
    let mut amperes = 0.0;
    for (i, row) in volts.iter().enumerate() {
        for (j, one) in row.iter().enumerate().filter(|&(j, _)| !is_out(i, j)) {
            let steps = [(i - 1, j), (i + 1, j), (i, j - 1), (i, j + 1)];
            let out = steps.into_iter().filter(|&(a, b)| is_out(a, b)).count();
            amperes += out as f64 * one;
        }
    }
    1.0 / amperes
}

/// What a series of values at cells of a half, a quarter, .. comes to where errors go with the 4/3 power of their size,
/// as beside a corner of 270 degrees.
fn limit([coarse, fine]: [f64; 2]) -> f64 {
    let rate = 2_f64.powf(-4.0 / 3.0);
    fine + (fine - coarse) * rate / (1.0 - rate)
}

/// A footprint of 2 by 2 in the middle of a square of 8 whose outline is at 0 V: 0.2064 r_sheet. By the capacity of
/// squares it is ln(1.0787 · 4 / 1.1803) / 2π = 0.2063; a grid of 48 by 48 resistors, by itself, says 0.2051.
#[test]
fn a_footprint_has_the_resistance_that_theory_gives_it() {
    let resistors = [8, 16].map(|n| by_resistors(n, [3 * n, 5 * n], [3 * n, 5 * n]));
    let wanted = limit(resistors);
    assert!((wanted - 0.206_42).abs() < 5e-5, "{wanted}");
    assert!((by_resistors(6, [18, 30], [18, 30]) - 0.2051).abs() < 5e-5);
    let own = [1, 2, 4, 8].map(|finer| ohms(UNIT / finer, [4.0, 4.0], [1.0, 1.0]));
    let off = own.map(|one| (one / wanted - 1.0).abs());
    assert!(off[0] < 0.031 && off[3] < 0.0025, "{off:?}");
    assert!(off.windows(2).all(|two| two[1] < 0.5 * two[0]), "{off:?}");
    assert!((limit([own[2], own[3]]) / wanted - 1.0).abs() < 5e-4);
}

/// Where its borders fall between the lines of the mesh it is no larger and no smaller for it: by 0.9, 0.7 by 1.13 and
/// 0.26 units, at places of all sorts, against grids of resistors that fit them.
#[test]
fn a_footprint_counts_as_it_is_wherever_its_borders_lie() {
    for (at, half, n, x, y) in [
        ([4.0, 4.0], [0.9, 0.9], 10, [31, 49], [31, 49]),
        ([3.9, 4.3], [0.7, 1.1], 10, [32, 46], [32, 54]),
        ([1.2, 6.1], [0.3, 0.6], 10, [9, 15], [55, 67]),
    ] {
        let double = |line: [usize; 2]| line.map(|one| 2 * one);
        let wanted = limit([
            by_resistors(n, x, y),
            by_resistors(2 * n, double(x), double(y)),
        ]);
        let own = [1, 2, 4, 8].map(|finer| ohms(UNIT / finer, at, half));
        let off = own.map(|one| (one / wanted - 1.0).abs());
        assert!(off[3] < 0.006 && off[1] < 0.035, "{half:?}: {off:?}");
        assert!(off.windows(2).all(|two| two[1] < two[0]), "{off:?}");
    }
}

/// Borders on the cells' sides, and a tick beside them: the same to nine digits.
#[test]
fn a_tick_beside_the_cells_is_on_them() {
    let mesh = copper(UNIT / 2);
    let mut links = channel_to([4.0, 4.0], Some([1.0, 1.0]));
    let own = ohms_of(&mesh, &links);
    for more in [-2, -1, 1, 2] {
        let Area::Source { footprint, .. } = &mut links.areas[1] else {
            panic!("a source");
        };
        footprint.half_width = UNIT + more;
        assert!((ohms_of(&mesh, &links) / own - 1.0).abs() < 1e-9);
    }
    // Past that it counts by its place, and hardly differs.
    let Area::Source { footprint, .. } = &mut links.areas[1] else {
        panic!("a source");
    };
    footprint.half_width = UNIT + 20;
    assert!((ohms_of(&mesh, &links) / own - 1.0).abs() < 0.01);
}

/// Cells of several levels round the footprint, with nodes that hang on its border and beside it: balanced to 1e-9, and
/// as near as cells of the finest level all over.
#[test]
fn a_footprint_among_cells_of_several_levels() {
    for half in [[1.0, 1.0], [0.8, 1.1]] {
        let links = channel_to([4.0, 4.0], Some(half));
        let mut mesh = copper(UNIT);
        let mut last = 0.0;
        for (level, wide) in [(1, 1.7), (2, 1.4), (3, 1.3), (4, 1.2)] {
            let [x0, x1] = [4.0 - wide, 4.0 + wide].map(ticks);
            let region = Region {
                rect: [x0, x0, x1, x1],
                level,
                layer: None,
            };
            mesh.refine_region(region).expect("room");
            mesh.balance().expect("room");
            let own = ohms_of(&mesh, &links);
            assert!(own > last, "{own} behind {last}");
            last = own;
        }
        let wanted = limit([4, 8].map(|finer| ohms(UNIT / finer, [4.0, 4.0], half)));
        assert!((last / wanted - 1.0).abs() < 0.004, "{last} {wanted}");
    }
}

/// Footprints that touch are one potential; such as lie apart are two.
#[test]
fn footprints_that_touch_are_one() {
    let mesh = copper(UNIT / 2);
    let two = |apart: f64| {
        let mut links = channel_to([4.0 - apart, 4.0], Some([0.4, 0.4]));
        let mut other = channel_to([4.0 + apart, 4.0], Some([0.4, 0.4]));
        // Of much resistance: it carries nothing.
        other.channels[0].resistance = 1e6;
        links.channels.append(&mut other.channels);
        links.areas.push(Area::Source {
            channel: 1,
            footprint: footprint([4.0 + apart, 4.0], [0.4, 0.4]),
        });
        ohms_of(&mesh, &links)
    };
    let one = ohms(UNIT / 2, [4.0, 4.0], [0.8, 0.4]);
    assert!((two(0.4) / one - 1.0).abs() < 1e-6);
    // Over each other, they are their union.
    let over = ohms(UNIT / 2, [4.0, 4.0], [0.6, 0.4]);
    assert!((two(0.2) / over - 1.0).abs() < 1e-6);
    let alone = ohms(UNIT / 2, [3.5, 4.0], [0.4, 0.4]);
    let apart = two(0.5);
    assert!(apart > 1.05 * one && apart < alone, "{one} {apart} {alone}");
}

/// Between two footprints in one cell the potential is sought there, too.
#[test]
fn two_footprints_in_one_cell() {
    let half = [0.3, 0.3];
    let of_cells = |cell: i64| {
        let mut links = channel_to([1.3, 1.4], Some(half));
        links.areas.push(Area::Source {
            channel: 1,
            footprint: footprint([2.9, 2.7], half),
        });
        links.channels.push(Channel {
            source: ChannelEnd {
                component: 0,
                x: ticks(2.9),
                y: ticks(2.7),
            },
            ..links.channels[0]
        });
        let mesh = copper(cell);
        let net = mesh.linked_net(links.rows()).expect("a net");
        let solution = solved(&mesh, &net);
        assert!((solution.edges.iter().sum::<f64>() - 1.0).abs() < 1e-6);
        solution.terminals[0].volts
    };
    let own = [4, 2, 1].map(|large| of_cells(large * UNIT)).to_vec();
    let fine = [2, 4, 8].map(|finer| of_cells(UNIT / finer));
    let off: Vec<f64> = (own.into_iter().chain(fine))
        .map(|one| one / fine[2] - 1.0)
        .collect();
    assert!(
        off.windows(2).all(|two| two[1].abs() < two[0].abs()),
        "{off:?}"
    );
    assert!(off[0].abs() < 0.2 && off[4].abs() < 0.02, "{off:?}");
}

/// Without an area a link has no value: its resistance grows by ln 2 / 2π, or 0.110 r_sheet, with each level, and the
/// leaves at its node have twice the current. With one both converge.
#[test]
fn an_end_of_one_node_has_no_value() {
    let at = [4.0, 4.0];
    let series = |links: &OwnedLinks| {
        [1, 2, 4, 8].map(|finer| {
            let mesh = copper(UNIT / finer);
            let net = mesh.linked_net(links.rows()).expect("a net");
            let solution = solved(&mesh, &net);
            let (_, flow) = solution.hottest_of_all(&mesh).expect("a leaf");
            (solution.terminals[0].volts, flow.sheet_current)
        })
    };
    let lone = series(&channel_to(at, None));
    for two in lone.windows(2) {
        let [(coarse, cool), (fine, hot)] = [two[0], two[1]];
        assert!((fine - coarse - 0.1103).abs() < 0.006, "{lone:?}");
        assert!((hot / cool - 2.0).abs() < 0.05, "{lone:?}");
    }
    let wide = series(&channel_to(at, Some([1.0, 1.0])));
    assert!(
        wide.windows(2)
            .all(|two| (two[1].0 / two[0].0 - 1.0).abs() < 0.02),
        "{wide:?}"
    );
}

/// The leaves of the base cells at a node are left out of the hottest, at every level the same copper, so that what is
/// named beside them converges.
#[test]
fn leaves_at_one_node_are_left_out_of_the_hottest() {
    let links = channel_to([4.0, 4.0], None);
    let mut mesh = copper(UNIT);
    let mut named = Vec::new();
    for level in 1..5 {
        let all = [0, 0, 8 * UNIT, 8 * UNIT];
        let near = [3, 3, 5, 5].map(|one| one * UNIT);
        for rect in [all, near] {
            let level = if rect == all { level.min(2) } else { level };
            let region = Region {
                rect,
                level,
                layer: None,
            };
            mesh.refine_region(region).expect("room");
        }
        mesh.balance().expect("room");
        let net = mesh.linked_net(links.rows()).expect("a net");
        let solution = solved(&mesh, &net);
        assert_eq!(solution.lone.len(), 1);
        let lone = net.lone();
        assert!(lone.len() == 1 && lone[0].end == (Link::Channel(0), 1));
        let (of_all, _) = solution.hottest_of_all(&mesh).expect("a leaf");
        let (leaf, flow) = solution.hottest(&mesh).expect("a leaf");
        let left_out: Vec<usize> = mesh
            .leaves()
            .zip(solution.left_out(&mesh))
            .filter(|(_, is_out)| *is_out)
            .map(|(leaf, _)| leaf.id)
            .collect();
        assert!(left_out.contains(&of_all.id) && !left_out.contains(&leaf.id));
        let area: f64 = left_out
            .iter()
            .map(|&id| mesh.leaf(id).expect("a leaf").area())
            .sum();
        let unit = UNIT as f64 * leafmesh::TICK;
        assert!((area / (4.0 * unit * unit) - 1.0).abs() < 1e-9);
        named.push(flow.sheet_current);
    }
    // A unit away 1 A has spread over 2 pi of them.
    let limit = 1.0 / (2.0 * std::f64::consts::PI * UNIT as f64 * leafmesh::TICK);
    let off: Vec<f64> = named.iter().map(|one| 1.0 - one / limit).collect();
    assert!(
        off.windows(2).all(|two| 0.0 < two[1] && two[1] < two[0]),
        "{off:?}"
    );
    assert!(off[3] < 0.07, "{off:?}");
    // An area takes it away.
    let net = mesh
        .linked_net(channel_to([4.0, 4.0], Some([0.1, 0.1])).rows())
        .expect("a net");
    assert!(net.lone().is_empty() && solved(&mesh, &net).lone.is_empty());
}

/// Two squares over each other: a via by its nodes, by its footprint, and as a barrel.
#[test]
fn a_barrel_is_one_potential_on_each_layer() {
    let solved = |cell: i64, is_barrel: bool| {
        let square = format!("0 0\n{0} 0\n{0} {0}\n0 {0}\n", 8 * UNIT);
        let board =
            format!("level 3\ntarget {cell}\npolygon 1 0 1\n{square}polygon 2 0 1\n{square}");
        let mesh = Mesh::of_board(&text::parse(&board).expect("a board")).expect("a mesh");
        let via = Via {
            bottom: 1,
            top: 2,
            component: 0,
            footprint: footprint([4.0, 4.0], [0.8, 0.8]),
            resistance: 0.5,
        };
        let links = OwnedLinks {
            vias: vec![via],
            areas: is_barrel
                .then_some(Area::Barrel { via: 0 })
                .into_iter()
                .collect(),
            ..OwnedLinks::default()
        };
        let net = mesh.linked_net(links.rows()).expect("a net");
        let outline = |layer: u16| {
            let is_out = |one: i64| one == 0 || one == 8 * UNIT;
            let nodes = net.nodes.iter().enumerate();
            let nodes =
                nodes.filter(|(_, node)| node.layer == layer && (is_out(node.x) || is_out(node.y)));
            nodes.map(|(at, _)| at).collect()
        };
        let held = |name: &str, layer, drive| Held {
            terminal: name.to_string(),
            nodes: outline(layer),
            drive,
        };
        let held = [
            held("in", 1, Drive::Amperes(1.0)),
            held("out", 2, Drive::Volts(0.0)),
        ];
        let solution = System::of_cells(&net).expect("a system").solve(&held);
        let solution = solution.expect("a solution");
        assert!((solution.edges.iter().sum::<f64>() - 1.0).abs() < 1e-6);
        assert!((solution.watts() / solution.given() - 1.0).abs() < 1e-9);
        solution.terminals[0].volts
    };
    let resistors =
        [10, 20].map(|n| by_resistors(n, [32 * n / 10, 48 * n / 10], [32 * n / 10, 48 * n / 10]));
    let wanted = 0.5 + 2.0 * limit(resistors);
    let off = [1, 2, 4, 8].map(|finer| (solved(UNIT / finer, true) / wanted - 1.0).abs());
    assert!(
        off[3] < 0.003 && off.windows(2).all(|two| two[1] < two[0]),
        "{off:?}"
    );
    // By its nodes it is another thing: a share of the current at each.
    assert!((solved(UNIT / 4, false) / wanted - 1.0).abs() > 0.02);
}

/// A pad that a terminal takes is at the terminal's potential, with all that the terminal takes.
#[test]
fn a_terminal_on_a_pad() {
    let mesh = copper(UNIT / 2);
    let links = channel_to([4.0, 4.0], Some([1.0, 1.0]));
    let net = mesh.linked_net(links.rows()).expect("a net");
    let at = |name: &str, half: f64, drive| {
        let spot = Spot::Rect {
            layer: 1,
            component: 0,
            rect: [4.0 - half, 4.0 - half, 4.0 + half, 4.0 + half].map(ticks),
        };
        Terminal::new(name, spot, drive)
    };
    let west = Spot::Rect {
        layer: 1,
        component: 0,
        rect: [0, 0, 0, 8 * UNIT],
    };
    let west = Terminal::new("west", west, Drive::Volts(0.0));
    let system = System::of_cells(&net).expect("a system");
    let solve = |terminals: &[Terminal]| system.solve(&mesh.held(&net, terminals));
    let own = solve(&[at("pad", 0.5, Drive::Volts(1.0)), west.clone()]).expect("a solution");
    let whole = solve(&[at("pad", 1.0, Drive::Volts(1.0)), west.clone()]).expect("a solution");
    assert!((own.terminals[0].amperes / whole.terminals[0].amperes - 1.0).abs() < 1e-9);
    let shared = [
        at("one", 0.5, Drive::Volts(1.0)),
        at("two", 1.0, Drive::Volts(1.0)),
    ];
    assert!(solve(&shared).is_err());
}

#[test]
fn areas_that_make_no_sense_are_refused() {
    let mesh = copper(UNIT);
    let half = Some([1.0, 1.0]);
    let refused = |change: &dyn Fn(&mut OwnedLinks)| {
        let mut links = channel_to([4.0, 4.0], half);
        change(&mut links);
        mesh.linked_net(links.rows()).expect_err("refused")
    };
    let source = |channel: usize, footprint: Footprint| Area::Source { channel, footprint };
    let good = footprint([4.0, 4.0], [1.0, 1.0]);
    let thin = footprint([4.0, 4.0], [0.0, 1.0]);
    let far = footprint([4.0, 4.0], [-1.0, 1.0]);
    for area in [
        source(1, good),
        source(0, thin),
        source(0, far),
        // A second one of the same end.
        source(0, good),
        Area::Barrel { via: 0 },
    ] {
        let why = refused(&|links| links.areas.push(area));
        assert!(matches!(why, Unmeshed::Refused(why) if why.reason == Reason::OutOfRange));
    }
    let off = refused(&|links| {
        links.areas[1] = source(0, footprint([20.0, 4.0], [1.0, 1.0]));
    });
    let Unmeshed::Astray(astray) = off else {
        panic!("{off}");
    };
    assert_eq!((astray.link, astray.end), (Link::Channel(0), 1));
    assert!(off.to_string().contains("lies at its source's footprint"));
    assert!(Links::default().pads().expect("none").is_empty());
}

/// Footprints by the thousands in one cell would be pieces by the millions: refused, and nothing runs out.
#[test]
fn footprints_that_crowd_in_a_cell_are_refused() {
    let mesh = copper(8 * UNIT);
    let mut links = channel_to([4.0, 4.0], Some([1.0, 1.0]));
    for at in 1..1_200 {
        let place = [0.006 * at as f64, 0.0065 * at as f64];
        links.channels.push(links.channels[0]);
        links.areas.push(Area::Source {
            channel: at,
            footprint: footprint(place, [0.002, 0.002]),
        });
    }
    let net = mesh.linked_net(links.rows()).expect("a net");
    let why = System::of_cells(&net).expect_err("too many pieces");
    assert!(matches!(why, Unsolved::Crowded { .. }));
    assert!(why.to_string().contains("more than 1,000,000 pieces"));
}

/// Two pads of 4 by 4 mm, 2 mm apart, that a channel joins from (3, 2) to (7, 2).
fn pads(channel: &str) -> String {
    format!(
        "level 4\npitch 1\npolygon 1 0 0.0005\n0 0\n4 0\n4 4\n0 4\npolygon 1 1 0.0005\n6 0\n10 0\n10 4\n6 4\n\
         terminal in 10 A end 1 0 west\nterminal out 0 V end 1 1 east\nchannels 1\n{channel}\n"
    )
}

const POINT: &str = "channel 0 3 2 1 7 2 0.002";
const FEET: &str = "channel 0 at 3 2 0.6 0.8 1 at 7 2 0.6 0.8 0.002";

/// The value behind a word that begins a line.
fn behind<'a>(table: &'a str, word: &str) -> &'a str {
    let line = table.lines().find_map(|line| line.strip_prefix(word));
    line.unwrap_or_else(|| panic!("no {word} in {table}"))
        .trim()
}

#[test]
fn a_text_gives_ends_their_areas() {
    let ohms = |board: &str| -> f64 {
        let table = text_made(BOARD, &["solve"], board.as_bytes());
        let words = behind(&table, "V / A ").strip_suffix(" ohm").expect("ohms");
        words.parse().expect("a number")
    };
    let series = |channel: &str| {
        [1, 2, 3, 4].map(|level| ohms(&format!("{}refine 0 0 10 4 {level}\n", pads(channel))))
    };
    let feet = series(FEET);
    let off = feet.map(|one| (one / feet[3] - 1.0).abs());
    assert!(
        off[0] < 0.01 && off[1] < 0.004 && off[2] < 0.002,
        "{feet:?}"
    );
    let point = series(POINT);
    for two in point.windows(2) {
        assert!(
            (two[1] - two[0] - 2.0 * 0.0005 * 0.1103).abs() < 1e-5,
            "{point:?}"
        );
    }
    // One end with an area, one without.
    let half = series("channel 0 at 3 2 0.6 0.8 1 7 2 0.002");
    assert!(half[3] > feet[3] && half[3] < point[3]);
    // It is shown as it is read.
    let via = "polygon 2 0 1\n0 0\n4 0\n4 4\n0 4\nvia 1 2 0 1 1 0.3 0.2 0.001 barrel\nvia 1 2 0 1 3 0 0 0.001\n";
    let board = format!("{}channel 0 1 1 1 at 7 1 0.2 0.2 1\n{via}", pads(FEET));
    let whole = text::parse_whole(&board).expect("a board");
    assert_eq!(whole.links.areas.len(), 4);
    let shown = text::show_whole(&whole);
    let again = text::parse_whole(&shown).expect("a board");
    assert_eq!(
        (again.links, again.terminals),
        (whole.links, whole.terminals)
    );
}

/// In front of a footprint and behind it a cut carries what flows; through it no current has a place.
#[test]
fn a_line_through_a_footprint_is_refused() {
    let table = |line: &str| {
        let board = format!("{}across cut 1 0 {line}\n", pads(FEET));
        text_made(BOARD, &["solve"], board.as_bytes())
    };
    let carried = table("1 0 1 4");
    let figures: Vec<&str> = behind(&carried, "cut ").split_whitespace().collect();
    assert_eq!(figures[..3], ["4", "10", "2.5"]);
    let refuse = |line: &str| {
        let board = format!("{}across cut 1 0 {line}\n", pads(FEET));
        refused(BOARD, &["solve"], board.as_bytes())
    };
    // Through it, along its border, and through a cell that it lies in in part.
    for line in ["3 0 3 4", "2.4 0 2.4 4", "2.1 0 2.1 4", "0 3 4 3"] {
        let why = refuse(line);
        assert!(
            why.contains("line 17: across cut: meets cells in which a link's end has an area"),
            "{line}: {why}"
        );
    }
    // A neck under a footprint: how many there are is all that is said.
    let board = "level 3\npitch 1\npolygon 1 0 0.0005\n0 0\n12 0\n12 4\n8 4\n8 2\n4 2\n4 4\n0 4\n\
                 polygon 1 1 0.0005\n20 0\n24 0\n24 4\n20 4\nchannels 1\n\
                 channel 0 at 6 1 0.5 0.5 1 at 22 2 0.5 0.5 0.002\n\
                 terminal in 10 A end 1 0 west\nterminal out 0 V end 1 1 east\n";
    let table = text_made(BOARD, &["solve"], board.as_bytes());
    assert!(
        table.contains("necks     none\n1 under areas of links"),
        "{table}"
    );
}

#[test]
fn links_of_one_node_are_told_by_their_line() {
    let words = "one node: no value as the mesh gets finer";
    let folder = Folder::new("lone");
    let file = folder.put("board.txt", pads(POINT).as_bytes());
    let told = format!("{file}: warning: line 16: {words}\n");
    let said = |tool: &str, words: &[&str]| {
        let output = run(tool, words, b"");
        assert!(output.status.success(), "{output:?}");
        String::from_utf8(output.stderr).expect("words")
    };
    for words in [
        vec!["solve", &file],
        vec!["csv", &file, "--power"],
        vec!["vtk", &file, "--power"],
        vec!["msh", &file, "--power"],
    ] {
        assert_eq!(said(BOARD, &words), told);
    }
    assert_eq!(said(DRAW, &[&file, "--power"]), told);
    assert!(said(BOARD, &["refine", &file, "--rounds", "1"]).starts_with(&told));
    // Where nothing is solved nothing is told.
    assert_eq!(said(BOARD, &["csv", &file]), "");
    let table = text_made(BOARD, &["solve", &file], b"");
    assert!(behind(&table, "channel 0 ").ends_with(words));
    assert!(behind(&table, "left out ").starts_with("8 leaves in base cells at links of one node"));
    let all = text_made(BOARD, &["solve", &file, "--all"], b"");
    assert!(!all.contains("left out") && behind(&all, "hottest ") != behind(&table, "hottest "));
    let picture = text_made(DRAW, &[&file, "--power"], b"");
    assert!(picture.contains("link of one node: no value as the mesh gets finer"));
    assert!(picture.contains("left out: 8 leaves in base cells at links of one node"));
    // With areas there is nothing to tell.
    let file = folder.put("feet.txt", pads(FEET).as_bytes());
    assert_eq!(said(BOARD, &["solve", &file]), "");
    let table = text_made(BOARD, &["solve", &file], b"");
    assert!(!table.contains(words) && !table.contains("left out"));
    let picture = text_made(DRAW, &[&file, "--power"], b"");
    assert!(
        picture.contains("footprint of a via or of a channel's end")
            && !picture.contains("one node")
    );
}

/// A via that catches one node on one of its layers, a contact, and a node that a terminal takes with others.
#[test]
fn which_links_are_of_one_node() {
    let square = "0 0\n4 0\n4 4\n0 4\n";
    let lone = |links: &str| -> Vec<(Link, usize)> {
        let board = format!(
            "level 2\npitch 1\npolygon 1 0 0.001\n{square}polygon 2 0 0.001\n{square}{links}"
        );
        let whole = text::parse_whole(&board).expect("a board");
        let mesh = Mesh::of_board(&whole.board).expect("a mesh");
        let net = mesh.linked_net(whole.links.rows()).expect("a net");
        net.lone().into_iter().map(|one| one.end).collect()
    };
    let via = Link::Via(0);
    assert_eq!(lone("via 1 2 0 2 2 0 0 1\n"), [(via, 0), (via, 1)]);
    assert_eq!(lone("via 1 2 0 2.4 2.4 0.1 0.1 1\n"), [(via, 0), (via, 1)]);
    assert_eq!(lone("via 1 2 0 2 2 1 1 1\n"), []);
    assert_eq!(lone("via 1 2 0 2.4 2.4 0.1 0.1 1 barrel\n"), []);
    let contact = Link::Contact(0);
    assert_eq!(lone("contact 0 1\n"), [(contact, 0), (contact, 1)]);
    // In a barrel's pad it isn't alone.
    assert_eq!(lone("contact 0 1\nvia 1 2 0 0 0 1 1 1 barrel\n"), []);
    // Layer 2 is finer there: of layer 1 one node, of layer 2 nine.
    let finer = "refine 1 1 3 3 1 2\nvia 1 2 0 2 2 0.5 0.5 1\n";
    assert_eq!(lone(finer).len(), 1);
    let ends = "terminal in 1 A pad 0\nterminal out 0 V pad 1\ncontact 0 1\n";
    let board =
        format!("level 2\npitch 1\npolygon 1 0 0.001\n{square}polygon 2 0 0.001\n{square}{ends}");
    let output = run(BOARD, &["solve"], board.as_bytes());
    assert!(output.status.success() && output.stderr.is_empty());
}

/// What the net's conductances know nothing of is refused where they are asked for.
#[test]
fn by_the_net_there_are_no_areas() {
    let folder = Folder::new("areas-net");
    let file = folder.put("board.txt", pads(FEET).as_bytes());
    let words =
        "line 16: the net's conductances know no area of a link's end: solve on the cells\n";
    assert_eq!(
        refused(BOARD, &["solve", &file, "--net"], b""),
        format!("{file}: {words}")
    );
    let net = made(BOARD, &["net", &file], b"");
    assert_eq!(
        refused(RELAX, &["--board", &file], &net),
        format!("{file}: {words}")
    );
}

#[test]
fn lines_that_make_no_sense() {
    let area = "half width and half height above 0";
    for (line, words) in [
        (
            "channel 0 at 3 2 0 0.8 1 7 2 1",
            format!("a footprint has an area: {area}"),
        ),
        (
            "channel 0 3 2 1 at 7 2 0.6 0 1",
            format!("a footprint has an area: {area}"),
        ),
        (
            "channel 0 at 3 2 -1 0.8 1 7 2 1",
            "half size -1 is below 0".to_string(),
        ),
        (
            "via 1 1 0 3 2 0 0 1 barrel",
            format!("a barrel has an area: {area}"),
        ),
    ] {
        let said = refused(BOARD, &["solve"], pads(line).as_bytes());
        assert_eq!(said, format!("line 16: {words}\n"));
    }
    for line in [
        "channel 0 at 3 2 0.6 1 7 2 1",
        "channel 0 at 3 2 0.6 0.8 1 at 7 2 0.6 0.8",
        "channel 0 3 2 0.6 0.8 1 7 2 1",
        "channel 0 at 3 2 0.6 0.8 1 7 2 1 2",
    ] {
        let said = refused(BOARD, &["solve"], pads(line).as_bytes());
        assert!(said.starts_with("line 16: cannot make sense of"), "{said}");
        assert!(
            said.contains("its form is: channel COMPONENT [at] X Y"),
            "{said}"
        );
    }
    let off = pads("channel 0 at 20 2 0.6 0.8 1 7 2 1");
    let said = refused(BOARD, &["solve"], off.as_bytes());
    assert!(said.starts_with("line 16: "), "{said}");
}

/// The half bridge of the samples: within 0.3 in 100 of what uniform grids of resistors come to
/// (examples/half_bridge, which refines it in rounds, too). None of its links is told.
#[test]
fn a_half_bridge_has_the_resistance_of_uniform_grids() {
    let output = run(BOARD, &["solve", &sample_name("half_bridge.txt")], b"");
    assert!(
        output.status.success() && output.stderr.is_empty(),
        "{output:?}"
    );
    let table = String::from_utf8(output.stdout).expect("text");
    let words = behind(&table, "V / A ").strip_suffix(" ohm").expect("ohms");
    let ohms: f64 = words.parse().expect("a number");
    assert!((ohms / 4.3186e-3 - 1.0).abs() < 0.003, "{table}");
    for channel in ["channel 0 ", "channel 1 "] {
        assert_eq!(
            behind(&table, channel).split_whitespace().last(),
            Some("40")
        );
    }
    let vias = table.lines().filter(|line| line.starts_with("via "));
    let amperes: f64 = vias
        .map(|line| {
            line.rsplit(' ')
                .next()
                .expect("a word")
                .parse::<f64>()
                .expect("a number")
        })
        .sum();
    assert!((amperes - 40.0).abs() < 1e-3, "{table}");
}
