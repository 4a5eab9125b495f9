//! Strips and build, on small rings and boards.

use crate::replay::{class, head_numbers, Case, Replay};
use calls::build::{build, roots_of};
use calls::contact::Rect;
use calls::limits::{COORDINATE, RING_POINTS};
use calls::strips::{strips, strips_by_the_words, TickPoint};
use calls::table::WIDTH;
use inputs::limit_plans::{limit_plans, limit_plans_in_zeros};
use inputs::long_rings::pad;
use inputs::plan_faults::{every_two_faults, put_fault};
use inputs::plans::{random_plan, Plan, Polygon};
use inputs::ring_faults::{push_to_the_limit, spoil};
use inputs::rings::{random_ring, rings_at_the_limits};
use inputs::Random;

const STRIPS: u64 = 1;
const BUILD: u64 = 2;
const BUILD_IN_ZEROS: u64 = 3;

/// The longest rows of an ordinary case.
const POINTS: usize = 64;
const ROOM: usize = 64;
/// The longest rows of the program.
const TABLE: usize = 520;
const LONGEST: usize = 1_040;
/// How many are drawn for each case of a class.
const DRAWS: u64 = 200;
/// Of the boards with two faults one in so many is asked.
const FAULTS_ONE_IN: u64 = 6;
/// What a row holds before the call, its own number at each place.
const SENTINEL: i64 = 900;
/// Room for what nobody knows, as it is refused.
const SOME_ROOM: usize = 2;

pub fn replay(count: u64, random: &mut Random) -> Replay {
    let mut replay = Replay::new("replay_outline", count);
    for (name, plan, length) in limit_plans_in_zeros() {
        replay.name(&format!("build: {name}"));
        run_build_in_zeros(&plan, length, &mut replay);
    }
    for (name, plan, length) in limit_plans() {
        replay.name(&format!("build: {name}"));
        run_build(&plan, length, &mut replay);
    }
    replay.name("a ring that shows one thing");
    for ring in boundary_rings(random) {
        run_strips(&ring, random, &mut replay);
    }
    replay.name("a board that shows one thing");
    for (plan, length) in boundary_boards(random) {
        run_build(&plan, length, &mut replay);
    }
    replay.draw();
    for _ in 0..DRAWS * count {
        run_strips(&any_ring(random), random, &mut replay);
        let plan = any_plan(random);
        if plan.points.len() <= POINTS && plan.counts.len() <= ROOM {
            let length = any_length(&plan, random);
            run_build(&plan, length.min(TABLE), &mut replay);
        }
    }
    replay
}

/// P7, rings of no, one and two points, the limits, the longest ring and one point more.
fn boundary_rings(random: &mut Random) -> Vec<Vec<TickPoint>> {
    let mut list = rings_at_the_limits();
    for points in [RING_POINTS, RING_POINTS + 1] {
        let mut ring = vec![[0, 0], [8, 0], [8, 8], [0, 8]];
        pad(&mut ring, points, random);
        list.push(ring);
    }
    list
}

/// A ring near the origin, at a limit or over the whole field; one in three with a fault or two.
fn any_ring(random: &mut Random) -> Vec<TickPoint> {
    let pitch = random.pick(&[1, 1, 1, 3, 1 << 20, COORDINATE / 24]);
    let mut ring = random_ring(random, pitch);
    if random.one_in(6) {
        push_to_the_limit(&mut ring, random, 0);
    }
    if random.one_in(3) {
        spoil(&mut ring, random);
    }
    ring.truncate(POINTS);
    ring
}

/// In a row for exactly its strips, or in another. None, few and many strips are three classes.
fn run_strips(ring: &[TickPoint], random: &mut Random, replay: &mut Replay) {
    assert!(ring.len() <= LONGEST, "the program reads no more");
    let known = matches!(strips(ring, &mut []).map_err(|why| why.number), Ok(_) | Err(6));
    let exact = if known { strips_by_the_words(ring).len() } else { SOME_ROOM };
    let room = random.pick(&[exact, exact, exact.saturating_sub(1), exact + 2]).min(ROOM);
    let mut out: Vec<Rect> = (0..room as i64).map(|n| [SENTINEL + n, -n, n + 1, 7]).collect();

    let mut case = Case::of_kind(STRIPS);
    case.number(ring.len() as u64);
    case.numbers(ring.iter().flatten().map(|&number| number as u64));
    case.number(room as u64);
    case.numbers(out.iter().flatten().map(|&number| number as u64));
    let answer = strips(ring, &mut out);
    case.answer("strips", answer.map(|found| vec![found]));
    case.print(out.iter().flatten());
    replay.offer(class("strips", &answer, |&found| found.min(3)), case);
}

/// The worked board in rooms around one root, and boards with two faults in rooms that are right, short and
/// ragged.
fn boundary_boards(random: &mut Random) -> Vec<(Plan, usize)> {
    let square = vec![[0, 0], [4, 0], [4, 4], [0, 4]];
    let polygon = Polygon { layer: 1, component: 0, sheet: 1.0, ring: square };
    let mut worked = Plan { max_level: 1, cap: 256, target: 4, ..Plan::default() };
    worked.push(&polygon);

    let lengths = [0, 7, 8, 9, 16];
    let mut list: Vec<(Plan, usize)> = lengths.map(|length| (worked.clone(), length)).to_vec();
    for plan in every_two_faults() {
        if plan.points.len() <= POINTS && random.one_in(FAULTS_ONE_IN) {
            let length = random.pick(&[5 * WIDTH, 5 * WIDTH, 4 * WIDTH, 5 * WIDTH + 1]);
            list.push((plan, length));
        }
    }
    list
}

/// One in three with a fault or two.
fn any_plan(random: &mut Random) -> Plan {
    let mut plan = random_plan(random);
    if random.one_in(3) {
        put_fault(&mut plan, random);
        if random.one_in(3) {
            put_fault(&mut plan, random);
        }
    }
    plan
}

/// Exactly the roots, mostly; one slot short, more; now and then no whole slots.
fn any_length(plan: &Plan, random: &mut Random) -> usize {
    let exact = plan.with_calls_rows(roots_of).map_or(SOME_ROOM, |roots| roots as usize).min(ROOM);
    let slots = random.pick(&[exact, exact, exact.saturating_sub(1), exact + 2]);
    let ragged = if random.one_in(20) { 1 + random.index(WIDTH - 1) } else { 0 };
    slots * WIDTH + ragged
}

/// A refusal at the first polygon and one at a later are two classes, and so are few roots and more.
fn run_build(plan: &Plan, length: usize, replay: &mut Replay) {
    let mut table: Vec<i64> = (0..length as i64).map(|place| SENTINEL + place).collect();
    let mut case = lent(BUILD, plan);
    case.signed_row(&table);

    let answer = plan.with_calls_rows(|settings, outlines| build(settings, outlines, &mut table));
    case.answer("build", answer.map(|head| head_numbers(head).to_vec()));
    case.print(&table);
    let class = match answer {
        Ok(head) => ("build", 0, head.count.min(9) as u64 / 3),
        Err(why) => ("build", why.number, why.place.min(1)),
    };
    replay.offer(class, case);
}

/// In a table of zeros, of which only the length is stored; the table isn't printed.
fn run_build_in_zeros(plan: &Plan, length: usize, replay: &mut Replay) {
    let mut table = vec![0; length];
    let mut case = lent(BUILD_IN_ZEROS, plan);
    case.number(length as u64);
    let answer = plan.with_calls_rows(|settings, outlines| build(settings, outlines, &mut table));
    case.answer("build", answer.map(|head| head_numbers(head).to_vec()));
    replay.offer(class("build", &answer, |head| head.count as u64), case);
}

/// Settings, layer list and polygons as they are lent.
fn lent(kind: u64, plan: &Plan) -> Case {
    let mut case = Case::of_kind(kind);
    case.numbers([plan.max_level, plan.cap, plan.target]);
    case.number(plan.list.len() as u64);
    case.numbers(plan.list.iter().flatten().copied());
    case.row(&plan.layers.iter().map(|&layer| u64::from(layer)).collect::<Vec<_>>());
    case.row(&plan.components.iter().map(|&number| u64::from(number)).collect::<Vec<_>>());
    case.fraction_row(&plan.sheets);
    case.row(&plan.counts);
    case.number(plan.points.len() as u64);
    case.numbers(plan.points.iter().flatten().map(|&number| number as u64));
    case
}
