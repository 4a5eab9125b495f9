//! Faults of a plan: in the settings, in one polygon or two, in how the rows fit together.

use crate::long_rings::pad;
use crate::plans::{Plan, Polygon};
use crate::random::Random;
use crate::ring_faults::{some_place, spoil};
use calls::limits::{COORDINATE, LAYER_ENTRIES, POLYGONS, RING_POINTS, R_SHEET};
use calls::strips::TickPoint;

/// One fault: in a polygon mostly, in the settings, or in how the rows fit together.
pub fn put_fault(plan: &mut Plan, random: &mut Random) {
    match random.below(12) {
        0 => spoil_setting(plan, random),
        1 => spoil_list(plan, random),
        2 => spoil_rows(plan, random),
        _ => spoil_polygon(plan, random),
    }
}

fn spoil_setting(plan: &mut Plan, random: &mut Random) {
    let level = plan.max_level;
    match random.below(3) {
        0 => {
            let wrong = [13, 14, 255, 256 | level, 1 << 32 | level, 1 << 63, u64::MAX];
            plan.max_level = random.pick(&wrong);
        }
        1 => plan.cap = random.pick(&[0, 257, 65_537, 1 << 32 | 1, u64::MAX]),
        _ => {
            let past = COORDINATE as u64 + 1;
            plan.target = random.pick(&[0, past, 1 << 40, 1 << 63, u64::MAX, 1 << 63 | 8]);
        }
    }
}

/// Too many entries, or one at any place that doesn't rise or is out of range.
fn spoil_list(plan: &mut Plan, random: &mut Random) {
    if random.one_in(5) {
        plan.list = (0..=LAYER_ENTRIES as u64).map(|layer| [layer, 0]).collect();
        return;
    }
    let entries = random.pick(&[2, 3, 7, LAYER_ENTRIES as u64]);
    plan.list = (0..entries).map(|n| [10 + 2 * n, 0]).collect();
    let at = 1 + some_place(random, plan.list.len() - 1);
    let layer = plan.list[at][0];
    match random.below(4) {
        0 => plan.list[at][0] = plan.list[at - 1][0],
        1 => plan.list.swap(at - 1, at),
        2 => plan.list[at][0] = random.pick(&[65_536, 65_536 | layer, u64::MAX, 1 << 32 | layer]),
        _ => plan.list[at][1] = random.pick(&[COORDINATE as u64 + 1, 1 << 63, u64::MAX]),
    }
}

/// A row one longer or shorter, counts that don't add up or only in 64 bits, or the polygon count.
fn spoil_rows(plan: &mut Plan, random: &mut Random) {
    match random.below(8) {
        0 => plan.layers.push(1),
        1 => drop(plan.components.pop()),
        2 => plan.sheets.push(f64::NAN),
        3 => drop(plan.counts.pop()),
        4 => plan.points.push([0, 0]),
        5 => drop(plan.points.pop()),
        6 => spoil_counts(plan, random),
        _ => add_polygons(plan),
    }
}

fn spoil_counts(plan: &mut Plan, random: &mut Random) {
    if plan.counts.is_empty() {
        plan.counts.push(0);
    }
    let (length, at) = (plan.counts.len(), some_place(random, plan.counts.len()));
    let other = (at + 1) % length;
    match random.below(4) {
        0 => plan.counts[at] = plan.counts[at].wrapping_add(random.pick(&[1, u64::MAX])),
        1 => plan.counts[at] = random.pick(&[u64::MAX, 1 << 63, 1 << 32]),
        // The sum stays what it was, in numbers that wrap or even in those that don't.
        2 => {
            plan.counts[at] = plan.counts[at].wrapping_add(1 << 63);
            plan.counts[other] = plan.counts[other].wrapping_add(1 << 63);
        }
        _ => {
            plan.counts[at] = plan.counts[at].wrapping_sub(1);
            plan.counts[other] = plan.counts[other].wrapping_add(1);
        }
    }
}

/// One polygon too many, without points.
fn add_polygons(plan: &mut Plan) {
    while plan.counts.len() <= POLYGONS {
        plan.push(&Polygon { layer: 1, component: 0, sheet: 1.0, ring: Vec::new() });
    }
}

/// A fault in the first, a middle or the last polygon.
fn spoil_polygon(plan: &mut Plan, random: &mut Random) {
    if plan.counts.is_empty() || !plan.rows_fit() {
        return spoil_setting(plan, random);
    }
    let mut polygons = plan.polygons();
    let at = some_place(random, polygons.len());
    let polygon = &mut polygons[at];
    match random.below(8) {
        0..=1 => polygon.sheet = random.pick(&bad_sheets()),
        2..=3 => make_uneven(&mut polygon.ring, random),
        _ => spoil(&mut polygon.ring, random),
    }
    plan.set_polygons(&polygons);
}

/// Sheet resistances out of range, the nearest ones among them.
pub fn bad_sheets() -> [f64; 9] {
    let (least, most) = ((1.0 / R_SHEET).to_bits(), R_SHEET.to_bits());
    [
        f64::from_bits(least - 1),
        f64::from_bits(most + 1),
        0.0,
        -0.0,
        -1.0,
        f64::NAN,
        -f64::NAN,
        f64::INFINITY,
        5e-324,
    ]
}

/// The east or the north end of the ring moves out by one or two ticks.
pub fn make_uneven(ring: &mut Vec<TickPoint>, random: &mut Random) {
    pad(ring, 1, random);
    let axis = random.index(2);
    let most = ring.iter().map(|point| point[axis]).max().unwrap_or(0);
    let off = random.pick(&[-1, 1, -2]);
    for point in ring.iter_mut().filter(|point| point[axis] == most) {
        point[axis] = point[axis].saturating_add(off);
    }
}

/// What can be wrong with one polygon.
const FAULTS: [fn(&mut Polygon); 5] = [
    |polygon| polygon.sheet = 0.0,
    |polygon| polygon.ring.iter_mut().for_each(|point| point[0] += COORDINATE),
    |polygon| polygon.ring.resize(RING_POINTS + 1, polygon.ring[0]),
    |polygon| polygon.ring.truncate(3),
    |polygon| polygon.ring[1..3].iter_mut().for_each(|point| point[0] += 1),
];

/// Boards of five squares, one root each: each fault in the first, the middle and the last, together
/// with each fault in the first, the middle and the last. Settings may be wrong besides.
pub fn every_two_faults() -> Vec<Plan> {
    let mut list = Vec::new();
    for (first, at) in placed_faults() {
        for (second, and_at) in placed_faults() {
            let mut polygons = five_squares();
            first(&mut polygons[at]);
            second(&mut polygons[and_at]);
            for cap in [1, 0] {
                let mut plan = Plan { max_level: 1, cap, target: 4, ..Plan::default() };
                plan.set_polygons(&polygons);
                list.push(plan);
            }
        }
    }
    list
}

fn placed_faults() -> impl Iterator<Item = (fn(&mut Polygon), usize)> {
    FAULTS.into_iter().flat_map(|fault| [0, 2, 4].map(|at| (fault, at)))
}

fn five_squares() -> Vec<Polygon> {
    let square = |x: i64| vec![[x, 0], [x + 4, 0], [x + 4, 4], [x, 4]];
    (0..5)
        .map(|n| Polygon { layer: 1, component: 0, sheet: 1.0, ring: square(8 * n + 4) })
        .collect()
}
