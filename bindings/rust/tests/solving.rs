//! The solver: on copper with a known resistance, against a fine grid, and what it refuses.

use leafmesh::sides::{self, Inside};
use leafmesh::solving::{Drive, Held, Solution, Spot, System, Terminal, Unsolved};
use leafmesh::{columns, text, Edge, Joint, Leaf, Link, Mesh, Net, Reason, Region, Side};

fn meshed(board: &str) -> (Mesh, Net) {
    let board = text::parse(board).expect("a board");
    let mesh = Mesh::unjudged(&board).expect("a mesh");
    let net = mesh.unjudged_net().expect("a net");
    (mesh, net)
}

fn end(side: Side, drive: Drive) -> Terminal {
    let spot = Spot::End {
        layer: 1,
        component: 0,
        side,
    };
    Terminal::new(&format!("{side:?}"), spot, drive)
}

/// 1 V from one side to the other.
fn one_volt(from: Side, to: Side) -> [Terminal; 2] {
    [end(from, Drive::Volts(1.0)), end(to, Drive::Volts(0.0))]
}

fn on_cells(mesh: &Mesh, net: &Net, terminals: &[Terminal]) -> Solution {
    let system = System::of_cells(net).expect("aligned");
    system
        .solve(&mesh.held(net, terminals))
        .expect("a solution")
}

fn ohms(solution: &Solution) -> f64 {
    let [from, to] = &solution.terminals[..] else {
        panic!("two terminals");
    };
    (from.volts - to.volts) / from.amperes
}

/// What the terminals give is what the cells and the links take.
fn assert_in_balance(solution: &Solution) {
    let share = solution.watts() / solution.given() - 1.0;
    assert!(share.abs() < 1e-9, "off by {share:e}");
    let left: f64 = solution.terminals.iter().map(|one| one.amperes).sum();
    let most = solution
        .terminals
        .iter()
        .map(|one| one.amperes.abs())
        .fold(0.0, f64::max);
    assert!(left.abs() < 1e-9 * most, "{left} A are left");
}

/// The first node inside a side that isn't at its middle.
fn off_middle(net: &Net) -> Option<Inside> {
    let all = sides::inside(net.rows()).expect("a sound net");
    all.into_iter().find(|one| !one.middle)
}

/// 8 by 16 at one ohm a square, the lower root split.
const STRIP: &str = "level 2\ntarget 8\npolygon 1 0 1\n0 0\n8 0\n8 16\n0 16\nsplit 0\n";
/// 32 by 64 in eight roots, the first split, and twice more towards its inner corner.
const CORNER: &str = "level 3\ntarget 16\npolygon 1 0 1\n0 0\n32 0\n32 64\n0 64\nsplit 0 11 15\n";

#[test]
fn cells_have_the_resistance_of_their_copper() {
    for board in [STRIP, CORNER] {
        let (mesh, net) = meshed(board);
        assert!(!sides::hanging(net.rows()).expect("a sound net").is_empty());
        let terminals = one_volt(Side::North, Side::South);
        let solution = on_cells(&mesh, &net, &terminals);
        assert!((ohms(&solution) - 2.0).abs() < 1e-9);
        assert_in_balance(&solution);
        let own = System::of_net(net.rows()).expect("a sound net");
        let own = own.solve(&mesh.held(&net, &terminals)).expect("a solution");
        assert!((ohms(&own) - 2.0).abs() > 0.1);
        assert_in_balance(&own);
    }
}

/// The patch test: what is linear in x and y is met at every node, those that hang included, and in every cell the
/// current and the power are the even ones. All nodes on the outline are held, each at its own potential.
#[test]
fn an_even_slope_passes_the_patch_test() {
    let (mesh, net) = meshed(CORNER);
    let volts_at = |x: i64, y: i64| 0.25 + 3.0 * x as f64 - 1.5 * y as f64;
    let outline = |x: i64, y: i64| x == 0 || x == 32 || y == 0 || y == 64;
    let nodes = net.nodes.iter().enumerate();
    let held: Vec<Held> = nodes
        .filter(|(_, node)| outline(node.x, node.y))
        .map(|(at, node)| Held {
            terminal: at.to_string(),
            nodes: vec![at],
            drive: Drive::Volts(volts_at(node.x, node.y)),
        })
        .collect();
    let system = System::of_cells(&net).expect("aligned");
    let solution = system.solve(&held).expect("a solution");
    for (volts, node) in solution.volts.iter().zip(&net.nodes) {
        let off = volts - volts_at(node.x, node.y);
        assert!(off.abs() < 1e-9, "{node:?} is off by {off}");
    }
    // Volts a metre, at one ohm a square.
    let [jx, jy] = [-3.0, 1.5].map(|slope| slope / leafmesh::TICK);
    for (leaf, flow) in mesh.leaves().zip(&solution.cells) {
        let watts = (jx * jx + jy * jy) * leaf.area();
        assert!((flow.current[0] / jx - 1.0).abs() < 1e-9);
        assert!((flow.current[1] / jy - 1.0).abs() < 1e-9);
        assert!((flow.watts / watts - 1.0).abs() < 1e-9);
    }
}

/// The library's power takes the slope at a cell's centre, so that it is that of the element where the slope is even
/// and never more.
#[test]
fn the_power_at_the_centre_is_at_most_the_element_s() {
    let (mut mesh, _) = meshed(NECK);
    mesh.refine_region(AROUND).expect("room");
    mesh.balance().expect("room");
    let net = mesh.net().expect("a net");
    let solution = on_cells(&mesh, &net, &one_volt(Side::West, Side::East));
    let centres = mesh.power(net.rows(), &solution.volts).expect("a power");
    let mut less = 0;
    for (centre, flow) in centres.iter().zip(&solution.cells) {
        assert!(*centre <= flow.watts * (1.0 + 1e-12));
        less += usize::from(*centre < 0.999 * flow.watts);
    }
    assert!(less > 10);
    let sum: f64 = centres.iter().sum();
    assert!(sum < solution.watts() && sum > 0.9 * solution.watts());
}

/// Pads of 192 by 192 and a neck of 64 by 32 that lies across, one base cell wide.
const NECK: &str =
    "level 4\ntarget 32\npolygon 1 0 0.5\n0 0\n192 0\n192 64\n256 64\n256 0\n448 0\n448 192\n\
    256 192\n256 96\n192 96\n192 192\n0 192\n";
const AROUND: Region = Region {
    rect: [176, 48, 272, 112],
    level: 2,
    layer: None,
};

/// The same outline 16 times as large, in cells of one eighth of the other's.
fn fine_neck() -> String {
    let scaled = |line: &str| -> String {
        let numbers: Option<Vec<i64>> = line.split(' ').map(|word| word.parse().ok()).collect();
        match numbers.as_deref() {
            Some([x, y]) => format!("{} {}", 16 * x, 16 * y),
            _ => line.to_string(),
        }
    };
    let ring: Vec<String> = NECK.lines().skip(3).map(scaled).collect();
    format!("level 0\ntarget 64\npolygon 1 0 0.5\n{}\n", ring.join("\n"))
}

/// Refined round by round by the power of its cells, the neck comes to the resistance of a uniform grid with far fewer
/// leaves.
#[test]
fn a_neck_refined_by_heat_comes_to_a_fine_grid_s_resistance() {
    let terminals = one_volt(Side::West, Side::East);
    let (fine_mesh, fine) = meshed(&fine_neck());
    let squares = ohms(&on_cells(&fine_mesh, &fine, &terminals));
    let (mut mesh, mut net) = meshed(NECK);
    let mut off = Vec::new();
    for _ in 0..6 {
        let solution = on_cells(&mesh, &net, &terminals);
        assert_in_balance(&solution);
        off.push((ohms(&solution) / squares - 1.0).abs());
        let watts: Vec<f64> = solution.cells.iter().map(|cell| cell.watts).collect();
        mesh.refine_hottest(&watts, 0.2).expect("room");
        net = mesh.net().expect("a net");
    }
    let leaves = [fine.cells.len(), net.cells.len()];
    assert!(leaves[0] > 4_000 && leaves[1] < 1_300, "{leaves:?} {off:?}");
    assert!(off[0] > 0.03 && off[5] < 0.003, "{off:?}");
}

/// The neck is the hottest copper, though the current goes across.
#[test]
fn the_neck_that_lies_across_is_the_hottest() {
    let (mut mesh, _) = meshed(NECK);
    mesh.refine_region(AROUND).expect("room");
    mesh.balance().expect("room");
    let net = mesh.net().expect("a net");
    let solution = on_cells(&mesh, &net, &one_volt(Side::West, Side::East));
    let density = |(leaf, flow): (Leaf, &leafmesh::solving::Flow)| (flow.watts / leaf.area(), leaf);
    let mut all: Vec<(f64, Leaf)> = mesh.leaves().zip(&solution.cells).map(density).collect();
    all.sort_by(|a, b| b.0.total_cmp(&a.0));
    for (_, leaf) in &all[..20] {
        let [x0, y0, x1, y1] = leaf.rect;
        assert!(x0 >= 176 && x1 <= 272 && y0 >= 48 && y1 <= 112, "{leaf:?}");
    }
}

/// Of a neck's four corners, which are as hot as each other, the first leaf is named, whichever way the current goes.
#[test]
fn of_leaves_as_hot_as_each_other_the_first_is_the_hottest() {
    let (mesh, net) = meshed(&NECK.replace("256 96\n192 96", "256 128\n192 128"));
    let named = |from, to| {
        let solution = on_cells(&mesh, &net, &one_volt(from, to));
        solution.hottest(&mesh).expect("a leaf").0
    };
    let first = named(Side::West, Side::East);
    assert_eq!(named(Side::East, Side::West), first);
    let [x0, y0, x1, y1] = first.rect;
    let alike = mesh
        .leaf_at(1, [448 - (x0 + x1) / 2, (y0 + y1) / 2])
        .expect("a leaf");
    assert!(alike.id > first.id);
    let mut still = on_cells(&mesh, &net, &one_volt(Side::West, Side::East));
    still.cells.iter_mut().for_each(|cell| cell.watts = 0.0);
    assert_eq!(still.hottest(&mesh), None);
}

/// A current brings the potential about that brings the current about.
#[test]
fn volts_and_amperes_are_two_sides_of_one_terminal() {
    let (mesh, net) = meshed(CORNER);
    let by_volts = on_cells(&mesh, &net, &one_volt(Side::North, Side::South));
    let amperes = by_volts.terminals[0].amperes;
    assert!((amperes - 0.5).abs() < 1e-9);
    let terminals = [
        end(Side::North, Drive::Amperes(amperes)),
        end(Side::South, Drive::Volts(0.0)),
    ];
    let by_amperes = on_cells(&mesh, &net, &terminals);
    assert_in_balance(&by_amperes);
    for (a, b) in by_volts.volts.iter().zip(&by_amperes.volts) {
        assert!((a - b).abs() < 1e-9);
    }
    // Three terminals, two of them with currents.
    let corner = Spot::Rect {
        layer: 1,
        component: 0,
        rect: [0, 32, 0, 48],
    };
    let three = [
        end(Side::North, Drive::Amperes(2.0)),
        Terminal::new("tap", corner, Drive::Amperes(-0.5)),
        end(Side::South, Drive::Volts(1.0)),
    ];
    let solution = on_cells(&mesh, &net, &three);
    assert_in_balance(&solution);
    assert!((solution.terminals[2].amperes + 1.5).abs() < 1e-9);
}

/// A small current at a high potential gives what the cells take, too.
#[test]
fn a_small_current_far_above_0_v() {
    let (mesh, net) = meshed(&fine_neck());
    let terminals = [
        end(Side::South, Drive::Amperes(1e-3)),
        end(Side::North, Drive::Volts(4_096.0)),
    ];
    let solution = on_cells(&mesh, &net, &terminals);
    let share = solution.given() / solution.watts() - 1.0;
    assert!(share.abs() < 1e-3, "off by {share:e}");
}

/// Potentials count from a level of their copper: what flows is the same far from 0 V, on copper of several levels too,
/// and copper without a terminal stays at 0 V.
#[test]
fn currents_far_from_0_v() {
    let two = "level 1\ntarget 8\npolygon 1 0 1\n0 0\n8 0\n8 32\n0 32\npolygon 1 1 1\n16 0\n24 0\n24 32\n16 32\n\
        polygon 1 2 1\n32 0\n40 0\n40 32\n32 32\n";
    let (mesh, net) = meshed(two);
    let end = |name: &str, component, side, drive| {
        let spot = Spot::End {
            layer: 1,
            component,
            side,
        };
        Terminal::new(name, spot, drive)
    };
    let terminals = [
        end("in", 0, Side::South, Drive::Amperes(1e-3)),
        end("out", 0, Side::North, Drive::Volts(1e6)),
        end("back", 1, Side::North, Drive::Volts(-48.0)),
        end("ground", 1, Side::South, Drive::Volts(-48.5)),
    ];
    let solution = on_cells(&mesh, &net, &terminals);
    let amperes: Vec<f64> = solution.terminals.iter().map(|one| one.amperes).collect();
    for (own, wanted) in amperes.iter().zip([1e-3, -1e-3, 0.125, -0.125]) {
        assert!((own / wanted - 1.0).abs() < 1e-9, "{amperes:?}");
    }
    for (node, volts) in net.nodes.iter().zip(&solution.volts) {
        let along = node.y as f64 / 32.0;
        let wanted = match node.component {
            0 => 1e6 + 4e-3 * (1.0 - along),
            1 => -48.5 + 0.5 * along,
            _ => 0.0,
        };
        assert!((volts - wanted).abs() < 1e-9, "{node:?} at {volts}");
    }
    let watts: f64 = solution.cells.iter().map(|cell| cell.watts).sum();
    assert!((watts / (4e-6 + 0.0625) - 1.0).abs() < 1e-9);
}

/// The smallest and the largest currents have the resistance of any other.
#[test]
fn currents_of_any_size() {
    let (mesh, net) = meshed(CORNER);
    for amperes in [1e-300, 1e-20, 1.0, -3.0, 1_048_576.0] {
        let terminals = [
            end(Side::North, Drive::Amperes(amperes)),
            end(Side::South, Drive::Volts(0.0)),
        ];
        let solution = on_cells(&mesh, &net, &terminals);
        assert!((ohms(&solution) - 2.0).abs() < 1e-9, "{amperes}");
    }
}

/// What each spot takes.
#[test]
fn spots_take_their_nodes() {
    let (mesh, net) = meshed(STRIP);
    let places = |spot: Spot| -> Vec<[i64; 2]> {
        let held = mesh.held(&net, &[Terminal::new("any", spot, Drive::Volts(0.0))]);
        held[0]
            .nodes
            .iter()
            .map(|&at| [net.nodes[at].x, net.nodes[at].y])
            .collect()
    };
    let at = |layer, component, side| Spot::End {
        layer,
        component,
        side,
    };
    let sorted = |spot: Spot| {
        let mut all = places(spot);
        all.sort_unstable();
        all
    };
    assert_eq!(sorted(at(1, 0, Side::North)), [[0, 16], [8, 16]]);
    assert_eq!(sorted(at(1, 0, Side::South)), [[0, 0], [4, 0], [8, 0]]);
    assert_eq!(
        sorted(at(1, 0, Side::West)),
        [[0, 0], [0, 4], [0, 8], [0, 16]]
    );
    assert_eq!(
        sorted(at(1, 0, Side::East)),
        [[8, 0], [8, 4], [8, 8], [8, 16]]
    );
    assert!(places(at(2, 0, Side::East)).is_empty() && places(at(1, 1, Side::East)).is_empty());
    let rect = |rect| Spot::Rect {
        layer: 1,
        component: 0,
        rect,
    };
    assert_eq!(sorted(rect([0, 4, 7, 8])), [[0, 4], [0, 8], [4, 4], [4, 8]]);
    assert_eq!(sorted(rect([4, 8, 4, 8])), [[4, 8]]);
    assert!(places(rect([1, 1, 3, 3])).is_empty());
    assert_eq!(places(Spot::Pad { polygon: 0 }).len(), net.nodes.len());
    assert!(places(Spot::Pad { polygon: 1 }).is_empty());
}

#[test]
fn terminals_that_cannot_be_held_are_refused() {
    let (mesh, net) = meshed(STRIP);
    let system = System::of_cells(&net).expect("aligned");
    let why = |terminals: &[Terminal]| {
        let held = mesh.held(&net, terminals);
        system.solve(&held).expect_err("no solution")
    };
    assert_eq!(why(&[]), Unsolved::NoTerminal);
    let rect = |rect| Spot::Rect {
        layer: 1,
        component: 0,
        rect,
    };
    let named = |name: &str, spot, drive| Terminal::new(name, spot, drive);
    let volt = Drive::Volts(1.0);
    let no_node = Unsolved::NoNode {
        terminal: "tap".to_string(),
    };
    assert_eq!(why(&[named("tap", rect([1, 1, 3, 3]), volt)]), no_node);
    // A node that hangs follows its side's ends.
    assert_eq!(why(&[named("tap", rect([4, 8, 4, 8]), volt)]), no_node);
    let shared = why(&[end(Side::West, volt), end(Side::South, Drive::Volts(0.0))]);
    let names = ["West", "South"].map(str::to_string);
    assert!(matches!(shared, Unsolved::Shared { ref terminals, .. } if *terminals == names));
    assert_eq!(shared.terminal(), Some("South"));
    for bad in [f64::NAN, f64::INFINITY, 1_048_577.0, -1_048_577.0] {
        let refused = why(&[end(Side::West, Drive::Volts(bad))]);
        assert!(matches!(refused, Unsolved::OutOfRange { .. }), "{bad}");
    }
    for bad in [f64::NAN, f64::INFINITY, 1_048_577.0, -1_048_577.0] {
        let refused = why(&[end(Side::West, Drive::Amperes(bad))]);
        assert!(matches!(refused, Unsolved::OutOfRange { .. }), "{bad}");
    }
    let drifting = why(&[end(Side::West, Drive::Amperes(1.0))]);
    assert!(matches!(drifting, Unsolved::NoPotential { ref terminal } if terminal == "West"));
    let held = Held {
        terminal: "far".to_string(),
        nodes: vec![0, 99],
        drive: volt,
    };
    let far = Unsolved::NoSuchNode {
        terminal: "far".to_string(),
        node: 99,
    };
    assert_eq!(system.solve(&[held]), Err(far));
}

/// A current into copper that nothing joins to a potential has none to come from; without terminals it stays at 0 V.
#[test]
fn copper_that_is_not_joined() {
    let two = "level 1\ntarget 8\npolygon 1 0 1\n0 0\n8 0\n8 8\n0 8\npolygon 1 1 1\n16 0\n24 0\n24 8\n16 8\n";
    let (mesh, net) = meshed(two);
    let system = System::of_cells(&net).expect("aligned");
    let [a, b] = one_volt(Side::West, Side::East);
    let solution = system
        .solve(&mesh.held(&net, &[a.clone(), b.clone()]))
        .expect("a solution");
    for (node, volts) in net.nodes.iter().zip(&solution.volts) {
        assert!(node.component == 0 || *volts == 0.0);
    }
    assert_eq!(solution.cells[1].watts, 0.0);
    let pad = Terminal::new("pad", Spot::Pad { polygon: 1 }, Drive::Amperes(1.0));
    let refused = system
        .solve(&mesh.held(&net, &[a, b, pad]))
        .expect_err("it drifts");
    assert_eq!(refused.terminal(), Some("pad"));
}

#[test]
fn bands_that_do_not_meet_are_no_elements() {
    let (_, net) = meshed("level 0\ntarget 6\npolygon 1 0 1\n0 0\n6 0\n6 2\n8 2\n8 4\n0 4\n");
    let loose = off_middle(&net).expect("a node inside a side");
    let why = System::of_cells(&net).expect_err("no fit");
    assert_eq!(why, Unsolved::NoFit { node: loose.node });
    let node = net.nodes[loose.node];
    assert_eq!([node.x, node.y], [4, 2]);
    assert_eq!(off_middle(&meshed(STRIP).1), None);
}

/// Every number of a net out of place: refused, or solved, and nothing panics.
#[test]
fn nets_that_are_not_sound_are_refused() {
    let (_, net) = meshed(STRIP);
    let bad = |change: &dyn Fn(&mut Net)| {
        let mut net = net.clone();
        change(&mut net);
        let refused = sides::inside(net.rows()).expect_err("not sound");
        assert_eq!(
            System::of_net(net.rows()).err(),
            Some(Unsolved::Refused(refused))
        );
        assert_eq!(
            System::of_cells(&net).err(),
            Some(Unsolved::Refused(refused))
        );
        assert_eq!(sides::hanging(net.rows()), Err(refused));
        assert_eq!(sides::along(net.rows(), 0, Side::South), Err(refused));
        refused.reason
    };
    assert_eq!(bad(&|net| net.edges[0].from = 99), Reason::BadTable);
    assert_eq!(
        bad(&|net| net.cells[0].corners[columns::NE] = usize::MAX),
        Reason::BadTable
    );
    assert_eq!(
        bad(&|net| net.cells[0].corners.swap(0, 1)),
        Reason::BadTable
    );
    assert_eq!(bad(&|net| net.nodes[3].x = i64::MIN), Reason::BadTable);
    assert_eq!(bad(&|net| net.cells[0].sheet = 0.0), Reason::OutOfRange);
    assert_eq!(
        bad(&|net| net.cells[0].sheet = f64::NAN),
        Reason::OutOfRange
    );
    let mut net = net.clone();
    net.edges[3].conductance = -1.0;
    let why = System::of_net(net.rows()).expect_err("a conductance below 0");
    assert_eq!(why, Unsolved::BadConductance { edge: 3 });
    // Cells take no edge that isn't a link, and of a link what it was given.
    assert!(System::of_cells(&net).is_ok());
    for links in [1, 99] {
        net.links = links;
        let why = System::of_cells(&net).expect_err("links of no resistance");
        assert_eq!(why, Unsolved::NoJoints { links, joints: 0 });
    }
    let last = net.edges.len() - 1;
    let link = Link::Contact(0);
    for siemens in [-1.0, f64::NAN, f64::INFINITY] {
        net.links = 1;
        net.joints = vec![Joint { link, siemens }];
        let why = System::of_cells(&net).expect_err("no conductance");
        assert_eq!(why, Unsolved::BadConductance { edge: last });
    }
}

#[test]
fn nodes_along_a_side() {
    let (_, net) = meshed(STRIP);
    let places = |side| -> Vec<[i64; 2]> {
        let nodes = sides::along(net.rows(), 0, side).expect("a sound net");
        nodes
            .into_iter()
            .map(|at| [net.nodes[at].x, net.nodes[at].y])
            .collect()
    };
    // Cell 0 is the upper leaf, which the lower root's quarters meet.
    assert_eq!(places(Side::South), [[0, 8], [4, 8], [8, 8]]);
    assert_eq!(places(Side::North), [[0, 16], [8, 16]]);
    assert_eq!(places(Side::West), [[0, 8], [0, 16]]);
    assert_eq!(places(Side::East), [[8, 8], [8, 16]]);
    assert_eq!(sides::along(net.rows(), 99, Side::East), Ok(Vec::new()));
}

/// A board with links, from the bottom of layer 1 to the top of layer 2.
fn solved_upwards(board: &str, drive: Drive) -> (Net, Result<Solution, Unsolved>) {
    let whole = text::parse_whole(board).expect("a board");
    let mesh = Mesh::of_board(&whole.board).expect("a mesh");
    let net = mesh.linked_net(whole.links.rows()).expect("a net");
    let top = Spot::End {
        layer: 2,
        component: 0,
        side: Side::North,
    };
    let terminals = [
        end(Side::South, drive),
        Terminal::new("top", top, Drive::Volts(0.0)),
    ];
    let system = System::of_cells(&net).expect("aligned");
    let solution = system.solve(&mesh.held(&net, &terminals));
    (net, solution)
}

/// Two strips one above the other on layers 1 and 2, each one square long twice, joined where one ends and the other
/// begins: by a via over both ends, then by one at a corner.
#[test]
fn what_a_via_joins_is_one_resistance() {
    let strips = "level 1\ntarget 8\npolygon 1 0 1\n0 0\n8 0\n8 16\n0 16\npolygon 2 0 1\n0 16\n8 16\n8 32\n0 32\n";
    let via = |half: i64| format!("{strips}via 1 2 0 4 16 {half} {half} 0.5\n");
    let solved = |text: &str| {
        let (net, solution) = solved_upwards(text, Drive::Volts(1.0));
        let solution = solution.expect("a solution");
        let through: f64 = solution.edges.iter().sum();
        assert_in_balance(&solution);
        let amperes =
            |edge: &Edge| edge.conductance * (solution.volts[edge.from] - solution.volts[edge.to]);
        let own: Vec<f64> = net.links().iter().map(amperes).collect();
        for (own, edge) in own.iter().zip(&solution.edges) {
            assert!((own / edge - 1.0).abs() < 1e-9);
        }
        (net.links, ohms(&solution), through)
    };
    let (links, ohms, through) = solved(&via(4));
    assert_eq!(links, 4);
    assert!((ohms - 4.5).abs() < 1e-9 && (through - 1.0 / 4.5).abs() < 1e-9);
    // Only one node of each strip takes the current: more resistance.
    let (links, ohms, through) = solved(&via(0));
    assert_eq!(links, 1);
    assert!(ohms > 4.6 && (through * ohms - 1.0).abs() < 1e-9);
}

/// Where links have so much more resistance than the copper, or so much less, that 53 bits can't tell what flows, there
/// is no solution. A potential drives nothing through so much, which is one.
#[test]
fn links_too_far_from_the_copper_have_no_solution() {
    let strips = "level 1\ntarget 8\npolygon 1 0 5e-4\n0 0\n64 0\n64 64\n0 64\npolygon 2 0 5e-4\n0 0\n64 0\n64 64\n0 64\n";
    let solved = |ohms: f64, drive: Drive| {
        let text = format!("{strips}via 1 2 0 32 32 16 16 {ohms:e}\n");
        solved_upwards(&text, drive).1
    };
    for ohms in [1e-6, 1e-3, 1.0, 1e3] {
        let solution = solved(ohms, Drive::Amperes(3.0)).expect("a solution");
        let through: f64 = solution.edges.iter().sum();
        assert!((through - 3.0).abs() < 1e-6, "{ohms}: {through}");
    }
    for ohms in [1e9, 1e10] {
        let refused = solved(ohms, Drive::Amperes(3.0));
        let is_told = matches!(refused, Err(Unsolved::Imprecise { share }) if share > 1e-6);
        assert!(is_told, "{ohms}: {refused:?}");
        assert!(solved(ohms, Drive::Volts(1.0)).is_ok(), "{ohms}");
    }
}
