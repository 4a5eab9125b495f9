//! Rings at the limits of a coordinate and past them, and rings with slanted edges.

use crate::long_rings::pad;
use crate::random::Random;
use calls::limits::{COORDINATE, RING_POINTS};
use calls::strips::TickPoint;

/// Numbers that are no coordinates.
const BEYOND: [i64; 8] = [
    COORDINATE + 1,
    -COORDINATE - 1,
    COORDINATE + 2,
    1 << 37,
    1 << 40,
    i64::MIN,
    i64::MAX,
    -(1 << 62),
];

/// First, middle or last of so many, or any of them.
pub fn some_place(random: &mut Random, length: usize) -> usize {
    let any = random.index(length);
    random.pick(&[0, length / 2, length - 1, any])
}

/// Moves the ring until it touches the limit of an axis, `past` ticks beyond it.
pub fn push_to_the_limit(ring: &mut [TickPoint], random: &mut Random, past: i64) {
    let axis = random.index(2);
    let numbers = || ring.iter().map(|point| point[axis]);
    let (Some(least), Some(most)) = (numbers().min(), numbers().max()) else {
        return;
    };
    let off = if random.one_in(2) { COORDINATE + past - most } else { -COORDINATE - past - least };
    ring.iter_mut().for_each(|point| point[axis] = point[axis].saturating_add(off));
}

/// One fault in a ring: a number out of range, the whole ring past a limit, too many points, a
/// point moved aside or taken out. An empty ring gets its points first, and now and then a ring
/// stays sound.
pub fn spoil(ring: &mut Vec<TickPoint>, random: &mut Random) {
    match random.below(9) {
        0..=1 => put_out_of_range(ring, random),
        2 => push_to_the_limit(ring, random, 1),
        3 if random.one_in(20) => pad(ring, RING_POINTS + 1, random),
        _ => slant(ring, random),
    }
}

/// One number of one point is no coordinate. The edges beside it mostly slant, too.
pub fn put_out_of_range(ring: &mut Vec<TickPoint>, random: &mut Random) {
    pad(ring, 1, random);
    let at = some_place(random, ring.len());
    ring[at][random.index(2)] = random.pick(&BEYOND);
}

/// One point is moved aside, or taken out.
pub fn slant(ring: &mut Vec<TickPoint>, random: &mut Random) {
    pad(ring, 2, random);
    let at = some_place(random, ring.len());
    if ring.len() > 3 && random.one_in(2) {
        ring.remove(at);
    } else {
        let [dx, dy] = random.pick(&[[1, 1], [-1, 1], [1, -3], [-4, -4]]);
        let [x, y] = ring[at];
        ring[at] = [x.saturating_add(dx), y.saturating_add(dy)];
    }
}
