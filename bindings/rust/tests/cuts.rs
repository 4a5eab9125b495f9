//! What flows through straight lines: the current of a cut from edge to edge is what the terminals drive, whatever the
//! cells are, and parts of it come close to a calculation written apart.

#[allow(dead_code)]
mod shared;

use leafmesh::solving::{Crossing, Cuts, Drive, Line, Solution, Spot, System, Terminal};
use leafmesh::{Mesh, Net, Pitch, Polygons, Rect, Region, Settings, TICK};
use shared::Dice;

/// Ticks of a base cell.
const CELL: i64 = 64;

/// What flows between two terminals.
struct Flow {
    mesh: Mesh,
    net: Net,
    solution: Solution,
    cuts: Cuts,
}

impl Flow {
    /// 3 A into one place, out of another at so many volts.
    fn of(mesh: Mesh, [from, to]: [Rect; 2], volts: f64) -> Self {
        let net = mesh.unjudged_net().expect("a net");
        let rect = |rect: Rect| Spot::Rect {
            layer: 1,
            component: 0,
            rect,
        };
        let terminals = [
            Terminal::new("in", rect(from), Drive::Amperes(3.0)),
            Terminal::new("out", rect(to), Drive::Volts(volts)),
        ];
        let held = mesh.held(&net, &terminals);
        let system = System::of_cells(&net).expect("a system");
        let solution = system.solve(&held).expect("a solution");
        let cuts = Cuts::of(&net, &solution).expect("cuts");
        Flow {
            mesh,
            net,
            solution,
            cuts,
        }
    }

    fn through(&self, rect: Rect) -> Option<Crossing> {
        self.cuts.through(&line(rect))
    }

    fn amperes(&self, rect: Rect) -> f64 {
        self.through(rect).map_or(0.0, |crossing| crossing.amperes)
    }
}

fn line(rect: Rect) -> Line {
    Line {
        layer: 1,
        component: 0,
        rect,
    }
}

/// The mesh of rectangles, each a polygon of one component.
fn mesh_of(rects: &[Rect], max_level: u64) -> Mesh {
    let settings = Settings {
        max_level,
        cap: 256,
        target: CELL as u64,
    };
    let mut polygons = Polygons::default();
    for &[x0, y0, x1, y1] in rects {
        let ring = [[x0, y0], [x1, y0], [x1, y1], [x0, y1]];
        polygons.push(1, 0, 0.001, &ring);
    }
    Mesh::new(settings, &[], polygons).expect("a mesh")
}

fn split_by_chance(mesh: &mut Mesh, dice: &mut Dice, count: u64) {
    for _ in 0..count {
        let id = dice.below(mesh.head().count as u64) as usize;
        // What is split already, or as fine as can be, stays as it is.
        let _ = mesh.refine(id);
    }
    mesh.balance().expect("room");
}

/// Squares of a grid of 6 by 6 by chance, none of which meet at a corner alone, and that hang together.
fn squares_by_chance(dice: &mut Dice) -> Vec<[usize; 2]> {
    const SIDE: usize = 6;
    loop {
        let mut is_in = [[false; SIDE]; SIDE];
        for column in &mut is_in {
            for square in column {
                *square = dice.below(100) < 55;
            }
        }
        // Both pairs across a corner: fill up until no corner has only one.
        while let Some([x, y]) = corner_alone(&is_in) {
            is_in[x][y] = true;
        }
        let all: Vec<[usize; 2]> = (0..SIDE * SIDE)
            .map(|at| [at / SIDE, at % SIDE])
            .filter(|&[x, y]| is_in[x][y])
            .collect();
        if all.len() > 8 && hangs_together(&all) {
            return all;
        }
    }
}

fn corner_alone<const SIDE: usize>(is_in: &[[bool; SIDE]; SIDE]) -> Option<[usize; 2]> {
    for x in 1..SIDE {
        for y in 1..SIDE {
            match [
                is_in[x - 1][y - 1],
                is_in[x][y],
                is_in[x - 1][y],
                is_in[x][y - 1],
            ] {
                [true, true, false, false] => return Some([x - 1, y]),
                [false, false, true, true] => return Some([x, y]),
                _ => {}
            }
        }
    }
    None
}

fn hangs_together(all: &[[usize; 2]]) -> bool {
    let mut seen = vec![all[0]];
    let mut at = 0;
    while let Some(&[x, y]) = seen.get(at) {
        at += 1;
        let near = [
            [x + 1, y],
            [x.wrapping_sub(1), y],
            [x, y + 1],
            [x, y.wrapping_sub(1)],
        ];
        let new: Vec<[usize; 2]> = near
            .into_iter()
            .filter(|one| all.contains(one) && !seen.contains(one))
            .collect();
        seen.extend(new);
    }
    seen.len() == all.len()
}

/// Copper of any shape, split anyhow: through all of it at one place along x, or along y, flows what is driven from one
/// side to the other, at any tick, on cells' sides and through their middles.
#[test]
fn a_cut_from_edge_to_edge_carries_what_the_terminals_drive() {
    let mut dice = Dice(41);
    let (mut cuts, mut off): (usize, f64) = (0, 0.0);
    for _ in 0..60 {
        let squares = squares_by_chance(&mut dice);
        let rects: Vec<Rect> = squares
            .iter()
            .map(|&[x, y]| [x, y, x + 1, y + 1].map(|at| at as i64 * CELL))
            .collect();
        let mut mesh = mesh_of(&rects, 4);
        split_by_chance(&mut mesh, &mut dice, 60);
        let [from, to] = [0, 0].map(|_| rects[dice.below(rects.len() as u64) as usize]);
        if from == to
            || from[2] >= to[0] && to[2] >= from[0] && from[3] >= to[1] && to[3] >= from[1]
        {
            continue;
        }
        let flow = Flow::of(mesh, [from, to], 5.0);
        let size = 6 * CELL;
        for axis in [0, 1] {
            for _ in 0..24 {
                let step = [1, 4, 8, CELL][dice.below(4) as usize];
                let at = step * dice.between(0, size / step);
                // Where a terminal stands on both sides of it, or on it, it is no cut between them.
                let side = |rect: Rect| match (rect[2 + axis] < at, at < rect[axis]) {
                    (true, _) => Some(1.0),
                    (_, true) => Some(-1.0),
                    _ => None,
                };
                let (Some(a), Some(b)) = (side(from), side(to)) else {
                    continue;
                };
                let cut = [[at, 0, at, size], [0, at, size, at]][axis];
                let wanted = 3.0 * (a - b) / 2.0;
                off = off.max((flow.amperes(cut) - wanted).abs() / 3.0);
                cuts += usize::from(wanted != 0.0);
            }
        }
    }
    assert!(cuts > 300 && off < 1e-9, "{cuts} {off:e}");
}

/// Two pads that meet along a part of their sides, so that the copper of one side ends where that of the other goes on,
/// with a coarse cell on either side of an inner corner.
#[test]
fn a_cut_between_two_inner_corners_is_one() {
    let pads = [[0, 0, 128, 192], [128, 64, 256, 256]];
    for splits in [
        &[][..],
        &[[0, 0, 128, 192]],
        &[[128, 64, 256, 256]],
        &[[0, 64, 128, 192], [128, 64, 192, 128]],
    ] {
        let mut mesh = mesh_of(&pads, 4);
        for &rect in splits {
            let region = Region {
                rect,
                level: 2,
                layer: None,
            };
            mesh.refine_region(region).expect("room");
        }
        mesh.balance().expect("room");
        let flow = Flow::of(mesh, [[0, 0, 0, 192], [256, 64, 256, 256]], 0.0);
        for cut in [
            [128, 64, 128, 192],
            [128, 0, 128, 256],
            [100, 0, 100, 192],
            [131, 60, 131, 300],
        ] {
            let amperes = flow.amperes(cut);
            assert!((amperes / 3.0 - 1.0).abs() < 1e-9, "{cut:?} {amperes}");
        }
        assert_eq!(
            flow.through([128, 0, 128, 256]).expect("copper").copper,
            128
        );
    }
}

/// Copper of half a cell beside copper of whole ones: its corner hangs at the middle of a cell's side. The tools refuse
/// such a net, whose node isn't joined along the side.
#[test]
fn a_cut_at_an_inner_corner_that_hangs_is_one() {
    let own: [(Rect, Rect); 3] = [
        ([0, 0, 128, 32], [128, 0, 256, 64]),
        ([0, 32, 128, 64], [128, 0, 256, 128]),
        ([0, 64, 128, 96], [128, 0, 256, 128]),
    ];
    let mirrored = own.map(|(low, high)| {
        let turned = |[x0, y0, x1, y1]: Rect| [256 - x1, y0, 256 - x0, y1];
        (turned(high), turned(low))
    });
    for (west, east) in own.into_iter().chain(mirrored) {
        let mesh = mesh_of(&[west, east], 2);
        let ends = [[0, 0, 0, 128], [256, 0, 256, 128]];
        let flow = Flow::of(mesh, ends, 0.0);
        for cut in [[128, 0, 128, 128], [100, 0, 100, 128], [160, 0, 160, 128]] {
            let amperes = flow.amperes(cut);
            assert!(
                (amperes / 3.0 - 1.0).abs() < 1e-9,
                "{west:?} {cut:?} {amperes}"
            );
        }
    }
}

/// Parts of a line carry the whole together, wherever they meet.
#[test]
fn parts_of_a_line_add_up() {
    let mut dice = Dice(5);
    let mut mesh = mesh_of(&[[0, 0, 512, 384]], 4);
    split_by_chance(&mut mesh, &mut dice, 120);
    let flow = Flow::of(mesh, [[0, 0, 64, 64], [448, 320, 512, 384]], 0.0);
    for _ in 0..200 {
        let [x, y] = [dice.between(65, 447), dice.between(1, 383)];
        let step = [1, 8, 64][dice.below(3) as usize];
        let (x, y) = (x / step * step, (y / step * step).max(1));
        let whole = flow.amperes([x, 0, x, 384]);
        let parts = flow.amperes([x, 0, x, y]) + flow.amperes([x, y, x, 384]);
        assert!((whole - parts).abs() < 1e-9, "{x} {y} {whole} {parts}");
    }
}

/// Currents stay exact where the copper is far from 0 V.
#[test]
fn a_current_far_from_0_volts_comes_out() {
    let mut mesh = mesh_of(&[[0, 0, 512, 128]], 4);
    split_by_chance(&mut mesh, &mut Dice(3), 40);
    let flow = Flow::of(mesh, [[0, 0, 0, 128], [512, 0, 512, 128]], 1e6);
    let amperes = flow.amperes([200, 0, 200, 128]);
    assert!((amperes / 3.0 - 1.0).abs() < 1e-9, "{amperes}");
    assert!(flow.solution.volts.iter().all(|volts| *volts > 9e5));
}

#[test]
fn a_line_beside_the_copper_or_along_its_edge_crosses_none() {
    let flow = Flow::of(
        mesh_of(&[[0, 0, 128, 128]], 2),
        [[0, 0, 0, 128], [128, 0, 128, 128]],
        0.0,
    );
    for none in [
        [0, 0, 0, 128],
        [128, 0, 128, 128],
        [64, 128, 64, 256],
        [64, -9, 64, 0],
        [200, 0, 200, 9],
        [0, 128, 128, 128],
    ] {
        assert_eq!(flow.through(none), None, "{none:?}");
    }
    let other = Line {
        layer: 2,
        ..line([64, 0, 64, 128])
    };
    assert_eq!(flow.cuts.through(&other), None);
    let whole = flow.through([64, -64, 64, 256]).expect("copper");
    let even = 3.0 / (128.0 * TICK);
    assert_eq!(whole.copper, 128);
    for (found, wanted) in [
        (whole.amperes, 3.0),
        (whole.mean(), even),
        (whole.largest, even),
    ] {
        assert!((found / wanted - 1.0).abs() < 1e-9, "{found} {wanted}");
    }
    // Against the way of the current, and along it.
    let level = flow.through([0, 64, 128, 64]).expect("copper");
    assert!(level.amperes.abs() < 1e-9 && level.largest < 1e-6 * even);
    assert_eq!(flow.net.cells.len(), flow.mesh.head().leaves);
}

/// Two pads, 4 by 6 mm, joined by three necks of 0.2, 0.6 and 1 mm, from 2 to 4 mm long, in units of 0.2 mm: the west
/// pad from 0 to 20, necks and the east pad behind.
const PARTS: [[i64; 4]; 5] = [
    [0, 0, 20, 30],
    [20, 3, 30, 4],
    [20, 10, 30, 13],
    [20, 20, 30, 25],
    [30, 0, 50, 30],
];

/// By finite volumes: squares of a uniform grid, so many to the unit, whose middles have a potential each; 1 V on the
/// west side of the board, 0 V on the east side. The currents through the necks' middles, as shares of all.
fn shares_by_volumes(fine: i64) -> [f64; 3] {
    let (wide, high) = (50 * fine, 30 * fine);
    let is_in = |x: i64, y: i64| {
        let has = |&[x0, y0, x1, y1]: &[i64; 4]| {
            x0 * fine <= x && x < x1 * fine && y0 * fine <= y && y < y1 * fine
        };
        PARTS.iter().any(has)
    };
    let at = |x: i64, y: i64| (x * high + y) as usize;
    let mut volts = vec![0.5; (wide * high) as usize];
    let copper: Vec<[i64; 2]> = (0..wide)
        .flat_map(|x| (0..high).map(move |y| [x, y]))
        .filter(|&[x, y]| is_in(x, y))
        .collect();
    // Over-relaxed, one square after another.
    for _ in 0..6000 {
        let mut moved: f64 = 0.0;
        for &[x, y] in &copper {
            let (mut sum, mut weight) = (0.0, 0.0);
            for [u, v] in [[x - 1, y], [x + 1, y], [x, y - 1], [x, y + 1]] {
                if is_in(u, v) && (0..high).contains(&v) {
                    sum += volts[at(u, v)];
                    weight += 1.0;
                } else if u < 0 || u >= wide {
                    // Half a square to the held side.
                    sum += if u < 0 { 2.0 } else { 0.0 };
                    weight += 2.0;
                }
            }
            let step: f64 = 1.97 * (sum / weight - volts[at(x, y)]);
            volts[at(x, y)] += step;
            moved = moved.max(step.abs());
        }
        if moved < 1e-12 {
            break;
        }
    }
    let middle = 25 * fine;
    let own = [1, 2, 3].map(|neck: usize| {
        let [_, y0, _, y1] = PARTS[neck];
        let through = |y: i64| volts[at(middle - 1, y)] - volts[at(middle, y)];
        (y0 * fine..y1 * fine).map(through).sum::<f64>()
    });
    let all: f64 = own.iter().sum();
    own.map(|one| one / all)
}

/// How a current parts between necks: by the cells at two finenesses, and by finite volumes on a uniform grid.
#[test]
fn a_current_parts_between_necks_as_by_finite_volumes() {
    let pitch = Pitch::new(0.2, 4).expect("a pitch");
    let ticks = |rect: [i64; 4]| rect.map(|at| at * pitch.target() as i64);
    let settings = Settings {
        max_level: 4,
        cap: 256,
        target: pitch.target(),
    };
    let mut polygons = Polygons::default();
    for [x0, y0, x1, y1] in PARTS.map(ticks) {
        polygons.push(1, 0, 0.0005, &[[x0, y0], [x1, y0], [x1, y1], [x0, y1]]);
    }
    let shares = |level: u64| {
        let mut mesh = Mesh::new(settings, &[], polygons.clone()).expect("a mesh");
        let region = Region {
            rect: ticks([18, 0, 32, 30]),
            level,
            layer: None,
        };
        mesh.refine_region(region).expect("room");
        mesh.balance().expect("room");
        let flow = Flow::of(mesh, [ticks([0, 0, 0, 30]), ticks([50, 0, 50, 30])], 0.0);
        let own = [1, 2, 3].map(|neck: usize| {
            let [_, y0, _, y1] = PARTS[neck];
            flow.amperes(ticks([25, y0, 25, y1])) / 3.0
        });
        assert!((own.iter().sum::<f64>() - 1.0).abs() < 1e-9);
        // In its middle a neck carries the same all over.
        let one = flow.through(ticks([25, 20, 25, 25])).expect("copper");
        assert!((one.largest / one.mean() - 1.0).abs() < 0.01);
        own
    };
    let (coarse, fine) = (shares(1), shares(2));
    let volumes = shares_by_volumes(4);
    for ((coarse, fine), volumes) in coarse.iter().zip(fine).zip(volumes) {
        assert!((coarse / fine - 1.0).abs() < 0.01, "{coarse} {fine}");
        assert!((fine / volumes - 1.0).abs() < 0.01, "{fine} {volumes}");
    }
}
