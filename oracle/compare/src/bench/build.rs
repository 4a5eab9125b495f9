//! Strips and build: rings of all 1,024 points (combs, a stair, a disc), and a board of 256 rectangles.

use super::{best, compare, timed};
use crate::port;
use calls::build::{roots_of, Outlines, Settings};
use calls::contact::Rect;
use calls::limits::{POLYGONS, RING_POINTS};
use calls::sheets::Sheets;
use calls::strips::{strips_by_the_words, to_points, TickPoint};
use calls::table::{store_grid, WIDTH};
use calls::ticks::{metres, ticks};
use inputs::long_rings::{comb_of, stair_of, LONGEST_COMB, LONGEST_STAIR};
use inputs::plans::{Plan, Polygon};
use original::adaptive::AdaptiveGrid;
use original::geometry::Point;
use original::geomops::polygon_minus_polygon;

/// Levels below a base cell, of which all sides are multiples of 16 ticks.
const MAX_LEVEL: u64 = 3;
const UNIT: i64 = 16;
/// Different heights of a comb's teeth, each of which makes a band.
const HEIGHTS: usize = 64;
/// What divides into one to eight equal cells.
const EIGHT_WAYS: i64 = 840;
/// Half of a disc's width, in the former.
const RADIUS: i64 = 10_000;

/// True if both answered the same.
pub fn run() -> bool {
    let even_teeth = comb_of(&[1; LONGEST_COMB]);
    let heights: Vec<i64> = (0..LONGEST_COMB).map(|n| 1 + (n * 37 % HEIGHTS) as i64).collect();
    // A comb's back is 511 units wide, which are 73 cells of seven.
    let boards = [
        ("comb of 1,024 points, even teeth", 7, vec![even_teeth]),
        ("comb of 1,024 points, 64 heights", 7, vec![comb_of(&heights)]),
        ("stair of 1,024 points", (LONGEST_STAIR + 1) / 8 * EIGHT_WAYS, vec![stair()]),
        ("disc of 1,024 points", RADIUS / 4 * EIGHT_WAYS, vec![disc()]),
        ("256 rectangles", 1, rectangles()),
    ];
    let mut same = true;
    for (name, cell, mut rings) in boards {
        rings.iter_mut().flatten().flatten().for_each(|number| *number *= UNIT);
        same &= strips(name, &rings);
        same &= build(name, cell * UNIT, &rings);
    }
    same
}

/// Steps so long that each strip divides into cells of one width, eight at most.
fn stair() -> Vec<TickPoint> {
    stair_of(LONGEST_STAIR).into_iter().map(|[x, y]| [x * EIGHT_WAYS, y * EIGHT_WAYS]).collect()
}

/// A disc in bands of one height and widths of their own: up its east side, down its west side. Its
/// middle lies off the middle of a band.
fn disc() -> Vec<TickPoint> {
    let bands = (RING_POINTS / 4) as i64;
    let band = 2 * RADIUS / (bands + 1);
    let half_width = |n: i64| {
        let from_middle = ((n - bands / 2) * band + band / 3) as f64;
        ((RADIUS * RADIUS) as f64 - from_middle * from_middle).sqrt() as i64
    };
    let side = |n: i64, sign: i64| {
        let x = sign * half_width(n) * EIGHT_WAYS;
        [[x, n * band], [x, (n + 1) * band]]
    };
    let east = (0..bands).flat_map(|n| side(n, 1));
    let west = (0..bands).flat_map(|n| side(n, -1));
    east.chain(west.collect::<Vec<TickPoint>>().into_iter().rev()).collect()
}

/// Four by four cells each, side by side with gaps.
fn rectangles() -> Vec<Vec<TickPoint>> {
    let corner = |n: i64| (n % 16 * 6, n / 16 * 6);
    (0..POLYGONS as i64)
        .map(corner)
        .map(|(x, y)| vec![[x, y], [x + 4, y], [x + 4, y + 4], [x, y + 4]])
        .collect()
}

fn strips(name: &str, rings: &[Vec<TickPoint>]) -> bool {
    let points: Vec<Vec<Point>> = rings.iter().map(|ring| to_points(ring)).collect();
    let original = best(|| {
        let mut found = Vec::new();
        let time = timed(|| {
            for ring in &points {
                found.push(polygon_minus_polygon(ring, &[]));
            }
        });
        let rects = found.iter().flatten();
        (time, rects.map(|r| [r.x0, r.y0, r.x1, r.y1].map(ticks)).collect::<Vec<Rect>>())
    });
    let room = |ring: &Vec<TickPoint>| vec![[0; 4]; strips_by_the_words(ring).len()];
    let port = best(|| {
        let mut rows: Vec<Vec<Rect>> = rings.iter().map(room).collect();
        let time = timed(|| {
            for (ring, row) in rings.iter().zip(&mut rows) {
                port::strips::strips(ring, row);
            }
        });
        (time, rows.concat())
    });
    compare(&format!("strips, {name}"), port, original)
}

fn build(name: &str, cell: i64, rings: &[Vec<TickPoint>]) -> bool {
    let plan = plan_of(cell, rings);
    let sheets = Sheets { layer: &plan.layers, component: &plan.components, r_sheet: &plan.sheets };
    let outlines = Outlines { sheets, point_count: &plan.counts, points: &plan.points };
    let settings = Settings { max_level: MAX_LEVEL, cap: plan.cap, target: cell, layers: &[] };
    let (polygons, layers) = (outlines.to_original(), settings.layers_to_original());
    let original = best(|| {
        let mut grid = AdaptiveGrid::default();
        let cap = plan.cap as usize;
        let time = timed(|| {
            grid = AdaptiveGrid::from_polygons(&polygons, metres(cell), cap, &layers);
        });
        let mut table = vec![0; grid.cells.len() * WIDTH];
        store_grid(&grid, &mut table);
        (time, table)
    });
    let roots = roots_of(&settings, &outlines).expect("sides are even") as usize;
    let port = best(|| {
        let mut table = vec![-1; roots * WIDTH];
        let time = timed(|| {
            port::build::build(&plan, &mut table);
        });
        (time, table)
    });
    compare(&format!("build, {name}, {roots} roots"), port, original)
}

fn plan_of(cell: i64, rings: &[Vec<TickPoint>]) -> Plan {
    let mut plan = Plan { max_level: MAX_LEVEL, cap: 256, target: cell as u64, ..Plan::default() };
    for ring in rings {
        plan.push(&Polygon { layer: 1, component: 0, sheet: 1.0, ring: ring.clone() });
    }
    plan
}
