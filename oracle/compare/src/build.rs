//! Build: boards to roots.

use crate::port::{build as port, counted, head_outcome_of};
use crate::report::Report;
use crate::rows::{difference, shown, unused};
use calls::build::{build, roots_of};
use calls::limits::{COORDINATE, SLOTS};
use calls::strips::TickPoint;
use calls::table::WIDTH;
use calls::Answer;
use inputs::long_rings::{comb_of, LONGEST_COMB};
use inputs::plan_faults::{every_two_faults, put_fault};
use inputs::plans::{random_plan, Plan, Polygon};
use inputs::Random;

/// Boards with more roots than this are given less room, so that tables stay small.
const ORDINARY: usize = 1_000;
const LARGE_ONE_IN: u64 = 500;
/// Slots for a board that is refused whatever its room.
const SOME_ROOM: usize = 3;

/// Boundary boards, then `count` random ones, about every third refused.
pub fn compare(count: u64, seed: u64) -> bool {
    let mut random = Random::new(seed);
    let mut report = Report::new("build");
    for (plan, length) in boundary_boards() {
        run(&plan, length, &mut report);
    }
    for _ in 0..count {
        let plan = any_plan(&mut random);
        let length = any_length(&plan, &mut random);
        run(&plan, length, &mut report);
    }
    report.print()
}

/// The worked board in rooms around one root; all 16,384 slots full, one short and one past; two
/// faults at once in every order, in rooms that are right, short and ragged; and 2^32 roots.
fn boundary_boards() -> Vec<(Plan, usize)> {
    let empty = Plan { cap: 1, target: 1, ..Plan::default() };
    let mut list: Vec<(Plan, usize)> = (0..=3 * WIDTH)
        .map(|length| (copies(1, 1, 4, &square(4)), length))
        .chain((0..=WIDTH).map(|length| (empty.clone(), length)))
        .collect();
    for slots in [SLOTS - 1, SLOTS, SLOTS + 1] {
        list.push((copies(1, 0, 2, &square(256)), slots * WIDTH));
    }
    for polygons in [256, 257] {
        list.push((copies(polygons, 0, 2, &square(512)), SLOTS * WIDTH));
        list.push((copies(polygons, 12, COORDINATE as u64, &square(COORDINATE)), 256 * WIDTH));
    }
    for plan in every_two_faults() {
        list.extend([5 * WIDTH, 4 * WIDTH, 5 * WIDTH + 1].map(|length| (plan.clone(), length)));
    }
    // 256 strips a comb and 256 by 256 roots a strip.
    let mut comb = comb_of(&[1; LONGEST_COMB]);
    comb.iter_mut().flatten().for_each(|number| *number *= 512);
    list.push((copies(256, 0, 2, &comb), 4 * WIDTH));
    list
}

fn square(side: i64) -> Vec<TickPoint> {
    vec![[0, 0], [side, 0], [side, side], [0, side]]
}

/// A board of one ring again and again.
fn copies(polygons: usize, max_level: u64, target: u64, ring: &[TickPoint]) -> Plan {
    let polygon = Polygon { layer: 1, component: 0, sheet: 1.0, ring: ring.to_vec() };
    let mut plan = Plan { max_level, cap: 256, target, ..Plan::default() };
    (0..polygons).for_each(|_| plan.push(&polygon));
    plan
}

/// Two in three as they are drawn, the others with one fault or two.
fn any_plan(random: &mut Random) -> Plan {
    let mut plan = random_plan(random);
    if random.below(9) >= 2 {
        // A second draw for boards that are uneven by chance, of which there are too many.
        if refused(&plan) && !random.one_in(4) {
            plan = random_plan(random);
        }
        return plan;
    }
    put_fault(&mut plan, random);
    if random.one_in(3) {
        put_fault(&mut plan, random);
    }
    plan
}

fn refused(plan: &Plan) -> bool {
    roots(plan).is_err()
}

/// Exactly the roots, mostly; one slot short, fewer, more; now and then no whole slots.
fn any_length(plan: &Plan, random: &mut Random) -> usize {
    let exact = roots(plan).map_or(SOME_ROOM, |roots| roots as usize);
    let most = if random.one_in(LARGE_ONE_IN) { SLOTS } else { ORDINARY };
    let slots = match random.below(16) {
        0 => exact.saturating_sub(1),
        1 => random.index(exact.min(most) + 1),
        2..=6 => exact + random.index(5),
        _ => exact,
    };
    let ragged = if random.one_in(40) { 1 + random.index(WIDTH - 1) } else { 0 };
    let slots = if random.one_in(2_000) { SLOTS + 1 } else { slots.min(most) };
    slots * WIDTH + ragged
}

fn roots(plan: &Plan) -> Answer<u64> {
    plan.with_calls_rows(roots_of)
}

fn run(plan: &Plan, length: usize, report: &mut Report) {
    let mut table = unused(length, |number| number as i64);
    let mut port_table = table.clone();
    let answer = plan.with_calls_rows(|settings, outlines| build(settings, outlines, &mut table));
    let expected = head_outcome_of(answer);
    let got = port::build(plan, &mut port_table);
    report.ran(counted(expected, expected.count), got == expected && port_table == table, || {
        let rows = difference("number", &table, &port_table);
        let words = plan_words(plan);
        let words = format!("{words}, length {length}; {rows}original {expected:?}, port {got:?}");
        (size(plan, length), words)
    });
}

fn size(plan: &Plan, length: usize) -> u128 {
    let rows = plan.layers.len() + plan.components.len() + plan.sheets.len() + plan.counts.len();
    (rows + plan.list.len() + plan.points.len() + length) as u128
}

fn plan_words(plan: &Plan) -> String {
    format!(
        "max_level {}, cap {}, target {}, list {}, layers {}, components {}, sheets {}, counts {}, \
         points {}",
        plan.max_level,
        plan.cap,
        plan.target,
        shown(&plan.list),
        shown(&plan.layers),
        shown(&plan.components),
        shown(&plan.sheets),
        shown(&plan.counts),
        shown(&plan.points)
    )
}
