//! Strips of one ring.

use crate::port::{outcome_of, strips as port};
use crate::report::Report;
use crate::rows::{difference, shown, unused};
use calls::contact::Rect;
use calls::limits::{COORDINATE, RING_POINTS};
use calls::strips::{strips, strips_by_the_words, TickPoint};
use inputs::long_rings::{longest_rings, pad, random_long_ring};
use inputs::ring_faults::{push_to_the_limit, put_out_of_range, slant, spoil};
use inputs::rings::{random_ring, rings_at_the_limits};
use inputs::Random;

const LONG_ONE_IN: u64 = 500;
/// Room for the strips of a ring whose strips nobody knows, as it is refused.
const SOME_ROOM: usize = 5;

/// Boundary rings, then `count` random ones, each in two rooms.
pub fn compare(count: u64, seed: u64) -> bool {
    let mut random = Random::new(seed);
    let mut report = Report::new("strips");
    for ring in boundary_rings(&mut random) {
        run_in_rooms(&ring, &mut random, &mut report);
    }
    for _ in 0..count {
        let ring = any_ring(&mut random);
        run_in_rooms(&ring, &mut random, &mut report);
    }
    report.print()
}

/// P7, no, one and two points, the limits, and the longest rings with a point more and with faults.
fn boundary_rings(random: &mut Random) -> Vec<Vec<TickPoint>> {
    let far = COORDINATE;
    let mut list = rings_at_the_limits();
    list.push(vec![[-far - 1, -far], [far, -far], [far, far], [-far - 1, far]]);
    for ring in longest_rings(random) {
        let mut more = ring.clone();
        pad(&mut more, RING_POINTS + 1, random);
        let (mut slanted, mut beyond) = (ring.clone(), ring.clone());
        slant(&mut slanted, random);
        put_out_of_range(&mut beyond, random);
        list.extend([ring, more, slanted, beyond]);
    }
    list
}

/// A ring near the origin, at a limit or over the whole field; one in four with a fault or two.
fn any_ring(random: &mut Random) -> Vec<TickPoint> {
    let mut ring = if random.one_in(LONG_ONE_IN) {
        let points = random.pick(&[16, 100, 512, RING_POINTS - 2, RING_POINTS]);
        random_long_ring(random, points)
    } else {
        let pitch = random.pick(&[1, 1, 3, 1 << 20, COORDINATE / 24]);
        random_ring(random, pitch)
    };
    if random.one_in(6) {
        push_to_the_limit(&mut ring, random, 0);
    }
    if random.one_in(4) {
        spoil(&mut ring, random);
        if random.one_in(3) {
            spoil(&mut ring, random);
        }
    }
    ring
}

/// In a row for exactly its strips, and in another.
fn run_in_rooms(ring: &[TickPoint], random: &mut Random, report: &mut Report) {
    let mut none = [];
    let known = matches!(strips(ring, &mut none).map_err(|refusal| refusal.number), Ok(_) | Err(6));
    let exact = if known { strips_by_the_words(ring).len() } else { SOME_ROOM };
    let other = random.pick(&[0, exact.saturating_sub(1), exact.saturating_sub(1), exact + 3]);
    for room in [exact, other] {
        run(ring, room, report);
    }
}

fn run(ring: &[TickPoint], room: usize, report: &mut Report) {
    let mut out: Vec<Rect> = unused(room, |n| [n as i64, -(n as i64), n as i64 + 1, 7]);
    let mut port_out = out.clone();
    let expected = outcome_of(strips(ring, &mut out));
    let got = port::strips(ring, &mut port_out);
    report.ran(expected, got == expected && port_out == out, || {
        let rows = difference("strip", &out, &port_out);
        let words =
            format!("ring {}, room {room}; {rows}original {expected:?}, port {got:?}", shown(ring));
        ((ring.len() + room) as u128, words)
    });
}
