//! Boards at the limits of build and one past each, by name, with how many numbers the table has. Where a
//! board is refused it has the one fault that its name says, and where two are named the first is due.

use crate::plans::{Plan, Polygon};
use calls::limits::{COORDINATE, LAYER_ENTRIES, POLYGONS, RING_POINTS, R_SHEET, SLOTS};
use calls::strips::TickPoint;
use calls::table::WIDTH;

/// The side of the square that the boards are made of: one base cell, to be split once.
const SIDE: i64 = 4;

/// A board, and how many numbers the table has.
pub type NamedPlan = (&'static str, Plan, usize);

pub fn limit_plans() -> Vec<NamedPlan> {
    let mut list = levels_and_caps();
    list.extend(targets_and_layers());
    list.extend(polygons());
    list.extend(points());
    list.extend(sheets());
    list.extend(rows());
    list.extend(orders());
    list
}

/// The same in a table of zeros that is too long to be stored.
pub fn limit_plans_in_zeros() -> Vec<NamedPlan> {
    let strip = |cells: i64| with_ring(plan(), rectangle(0, 0, cells * SIDE, SIDE));
    let full = with_ring(plan(), rectangle(0, 0, 128 * SIDE, 128 * SIDE));
    let slots = |slots: usize| slots * WIDTH;
    vec![
        ("all slots", square(), slots(SLOTS)),
        ("one slot too many", square(), slots(SLOTS + 1)),
        ("as many roots as slots", full.clone(), slots(SLOTS)),
        ("one root too many", full, slots(SLOTS - 1)),
        ("a strip of 256 cells", strip(256), slots(256)),
        ("a strip of 512 cells, in 256", strip(512), slots(256)),
    ]
}

/// Settings in range, and no polygon.
fn plan() -> Plan {
    Plan { max_level: 1, cap: 256, target: SIDE as u64, ..Plan::default() }
}

pub(crate) fn rectangle(x0: i64, y0: i64, x1: i64, y1: i64) -> Vec<TickPoint> {
    vec![[x0, y0], [x1, y0], [x1, y1], [x0, y1]]
}

fn polygon(ring: Vec<TickPoint>) -> Polygon {
    Polygon { layer: 1, component: 0, sheet: 1.0, ring }
}

fn with_ring(mut plan: Plan, ring: Vec<TickPoint>) -> Plan {
    plan.push(&polygon(ring));
    plan
}

/// One polygon of one root.
fn square() -> Plan {
    with_ring(plan(), rectangle(0, 0, SIDE, SIDE))
}

/// In a table of one slot.
fn one(what: &'static str, plan: Plan) -> NamedPlan {
    (what, plan, WIDTH)
}

fn levels_and_caps() -> Vec<NamedPlan> {
    let at = |max_level: u64, side: i64| {
        with_ring(Plan { max_level, target: side as u64, ..plan() }, rectangle(0, 0, side, side))
    };
    let cap = |cap: u64| with_ring(Plan { cap, ..plan() }, rectangle(0, 0, 2 * SIDE, SIDE));
    vec![
        one("level 0", at(0, 2)),
        one("level 0, half a side", at(0, 1)),
        one("level 12", at(12, 1 << 13)),
        one("level 12, half a side", at(12, 1 << 12)),
        one("level 13", at(13, 1 << 14)),
        one("a cap of 1", cap(1)),
        one("a cap of 0", cap(0)),
        ("a cap of 256", cap(256), 2 * WIDTH),
        ("a cap of 257", cap(257), 2 * WIDTH),
    ]
}

fn targets_and_layers() -> Vec<NamedPlan> {
    let target = |target: u64| Plan { target, cap: 1, ..square() };
    let listed = |list: &[[u64; 2]]| Plan { list: list.to_vec(), ..square() };
    let entries = |count: u64| Plan { list: (0..count).map(|n| [n, 0]).collect(), ..square() };
    let target_of_two = Plan { target: 2 * SIDE as u64, list: vec![[1, SIDE as u64]], ..plan() };
    let halved = with_ring(target_of_two, rectangle(0, 0, 2 * SIDE, 2 * SIDE));
    let most = LAYER_ENTRIES as u64;
    let widest = COORDINATE as u64;
    vec![
        one("a target of 1", target(1)),
        one("a target of 0", target(0)),
        one("a target of 2^36", target(widest)),
        one("a target past 2^36", target(widest + 1)),
        one("64 layer entries", entries(most)),
        one("65 layer entries", entries(most + 1)),
        one("layer 65,535 in the list", listed(&[[65_535, 0]])),
        one("layer 65,536 in the list", listed(&[[65_536, 0]])),
        one("a layer twice in the list", listed(&[[2, 0], [2, 0]])),
        one("layers that fall in the list", listed(&[[3, 0], [2, 0]])),
        one("a layer's cell of 0", listed(&[[1, 0]])),
        ("a layer's cell of half the target", halved, 4 * WIDTH),
        one("a layer's cell of 2^36", listed(&[[1, widest]])),
        one("a layer's cell past 2^36", listed(&[[1, widest + 1]])),
    ]
}

fn polygons() -> Vec<NamedPlan> {
    let many = |count: usize| {
        let mut plan = square();
        (1..count).for_each(|_| plan.push(&polygon(Vec::new())));
        plan
    };
    let mut highest = plan();
    let ring = rectangle(0, 0, SIDE, SIDE);
    highest.push(&Polygon { layer: u16::MAX, component: u32::MAX, sheet: 1.0, ring });
    vec![
        one("no polygon", plan()),
        one("256 polygons", many(POLYGONS)),
        one("257 polygons", many(POLYGONS + 1)),
        one("layer 65,535 and component 2^32 - 1", highest),
    ]
}

fn points() -> Vec<NamedPlan> {
    let long = |points: usize| {
        let mut ring = rectangle(0, 0, SIDE, SIDE);
        ring.resize(points, ring[0]);
        with_ring(plan(), ring)
    };
    let at = |x: i64, y: i64| with_ring(plan(), rectangle(x, y, x + SIDE, y + SIDE));
    let (low, high) = (-COORDINATE, COORDINATE - SIDE);
    vec![
        one("a ring of no point", with_ring(plan(), Vec::new())),
        one("a ring of 1,024 points", long(RING_POINTS)),
        one("a ring of 1,025 points", long(RING_POINTS + 1)),
        one("the south-west end of the field", at(low, low)),
        one("the north-east end of the field", at(high, high)),
        one("x below the range", at(low - 1, low)),
        one("y below the range", at(low, low - 1)),
        one("x past the range", at(high + 1, high)),
        one("y past the range", at(high, high + 1)),
    ]
}

fn sheets() -> Vec<NamedPlan> {
    let sheet = |sheet: f64| Plan { sheets: vec![sheet], ..square() };
    let least = 1.0 / R_SHEET;
    vec![
        one("a sheet of 2^-40", sheet(least)),
        one("a sheet of 2^40", sheet(R_SHEET)),
        one("a sheet below 2^-40", sheet(f64::from_bits(least.to_bits() - 1))),
        one("a sheet above 2^40", sheet(f64::from_bits(R_SHEET.to_bits() + 1))),
        one("a sheet of NaN", sheet(f64::NAN)),
        one("a sheet of minus 1", sheet(-1.0)),
    ]
}

fn rows() -> Vec<NamedPlan> {
    let changed = |change: fn(&mut Plan)| {
        let mut plan = square();
        change(&mut plan);
        plan
    };
    vec![
        ("no slot", square(), 0),
        ("no whole slot", square(), WIDTH - 1),
        ("a number past the slot", square(), WIDTH + 1),
        one("a layer too many", changed(|plan| plan.layers.push(1))),
        one("a component too many", changed(|plan| plan.components.push(0))),
        one("a sheet resistance too many", changed(|plan| plan.sheets.push(1.0))),
        one("a point count too many", changed(|plan| plan.counts.push(0))),
        one("a point too many", changed(|plan| plan.points.push([0, 0]))),
        one("a point too few", changed(|plan| plan.points.truncate(plan.points.len() - 1))),
    ]
}

fn orders() -> Vec<NamedPlan> {
    let slanted = || vec![[0, 0], [SIDE, SIDE], [0, SIDE]];
    let uneven = || rectangle(0, 0, SIDE + 1, SIDE);
    let mut twice = with_ring(plan(), slanted());
    twice.push(&Polygon { sheet: 0.0, ..polygon(uneven()) });
    let bad_sheet = |ring: Vec<TickPoint>| Plan { sheets: vec![0.0], ..with_ring(plan(), ring) };
    let mut later = with_ring(plan(), uneven());
    later.push(&polygon(slanted()));
    vec![
        ("the room's shape before the settings", Plan { cap: 0, ..square() }, WIDTH + 1),
        one("the settings before the sheet", Plan { cap: 0, ..bad_sheet(slanted()) }),
        one("the sheet before the slant", bad_sheet(slanted())),
        one("the first of two bad polygons", twice),
        one("a slant before an uneven side", later),
        ("an uneven side before the room", with_ring(plan(), uneven()), 0),
    ]
}
