//! Pairs of rectangles for contact: exhaustive small ones, near-touching ones, the limits and beyond, and neighbours of
//! any size.

use crate::random::Random;
use calls::contact::{contact, Border, Rect, Side};
use calls::limits::COORDINATE;

pub type Pair = (Rect, Rect);

/// Coordinates of the exhaustive pairs; five of them make empty and turned sides too.
const SMALL: [i64; 5] = [-2, -1, 0, 1, 2];
pub const SMALL_PAIRS: usize = 390_625;

/// The n-th of all pairs with coordinates from -2 to 2.
pub fn small_pair(n: usize) -> Pair {
    let mut rest = n;
    let mut digit = || {
        let value = SMALL[rest % SMALL.len()];
        rest /= SMALL.len();
        value
    };
    let a = [digit(), digit(), digit(), digit()];
    let b = [digit(), digit(), digit(), digit()];
    (a, b)
}

/// Numbers at and past the limits of a coordinate.
const EDGES: [i64; 11] = [
    -COORDINATE - 1,
    -COORDINATE,
    -COORDINATE + 1,
    -1,
    0,
    1,
    COORDINATE - 1,
    COORDINATE,
    COORDINATE + 1,
    i64::MIN,
    i64::MAX,
];

pub fn random_pair(random: &mut Random) -> Pair {
    match random.below(8) {
        0 => small_random_pair(random),
        1 => (anywhere(random), anywhere(random)),
        2 => (at_the_edges(random), at_the_edges(random)),
        3 => with_one_number_off(random),
        4 => with_a_side_not_positive(random),
        _ => near_touching(random),
    }
}

fn small_random_pair(random: &mut Random) -> Pair {
    let mut rect = || {
        let (x, y) = (random.within(-6, 6), random.within(-6, 6));
        [x, y, x + random.within(1, 6), y + random.within(1, 6)]
    };
    (rect(), rect())
}

fn anywhere(random: &mut Random) -> Rect {
    let mut span = || {
        let a = random.within(-COORDINATE, COORDINATE);
        let b = random.within(-COORDINATE, COORDINATE);
        (a.min(b), a.max(b))
    };
    let ((x0, x1), (y0, y1)) = (span(), span());
    [x0, y0, x1, y1]
}

fn at_the_edges(random: &mut Random) -> Rect {
    let numbers = if random.one_in(2) { &EDGES[..] } else { &EDGES[1..8] };
    let mut span = || {
        let (a, b) = (random.pick(numbers), random.pick(numbers));
        (a.min(b), a.max(b))
    };
    let ((x0, x1), (y0, y1)) = (span(), span());
    [x0, y0, x1, y1]
}

/// The second rectangle begins or ends where the first ends or begins, give or take a tick, and
/// overlaps it on the other axis by a length that is often -1, 0 or 1.
fn near_touching(random: &mut Random) -> Pair {
    let a = roomy(random);
    let axis = random.index(2);
    let other = 1 - axis;
    let mut b = [0; 4];
    let gap = random.pick(&[0, 0, 0, 0, 1, -1]);
    let long = random.within(1, 40);
    if random.one_in(2) {
        b[axis] = a[axis + 2] + gap;
        b[axis + 2] = b[axis] + long;
    } else {
        b[axis + 2] = a[axis] + gap;
        b[axis] = b[axis + 2] - long;
    }
    let wide = random.within(1, 40);
    let overlap = random.pick(&[-1, 0, 1, 2, 5, 20]);
    if random.one_in(2) {
        b[other] = a[other + 2] - overlap;
        b[other + 2] = b[other] + wide;
    } else {
        b[other + 2] = a[other] + overlap;
        b[other] = b[other + 2] - wide;
    }
    if random.one_in(2) {
        (a, b)
    } else {
        (b, a)
    }
}

/// A small rectangle anywhere, with room for a small one beside it.
fn roomy(random: &mut Random) -> Rect {
    let far = if random.one_in(2) { 100 } else { COORDINATE - 100 };
    let (x, y) = (random.within(-far, far), random.within(-far, far));
    [x, y, x + random.within(1, 40), y + random.within(1, 40)]
}

fn with_one_number_off(random: &mut Random) -> Pair {
    let (mut a, b) = near_touching(random);
    let value = random.pick(&EDGES) ^ random.pick(&[0, 0, 1 << 40, 1 << 62]);
    a[random.index(4)] = value;
    if random.one_in(2) {
        (a, b)
    } else {
        (b, a)
    }
}

fn with_a_side_not_positive(random: &mut Random) -> Pair {
    let (mut a, b) = near_touching(random);
    let axis = random.index(2);
    a[axis + 2] = a[axis] - random.pick(&[0, 0, 1, 7]);
    if random.one_in(2) {
        (a, b)
    } else {
        (b, a)
    }
}

/// Two of any size, the second beside the first: along a whole side of one or of both, along one tick, along any
/// length, or at a corner only. One pair in three is moved by a tick, which makes gaps and overlaps.
pub fn random_neighbours(random: &mut Random) -> Pair {
    // The second to the east of the first, and turned from there.
    let line = random.within(1 - COORDINATE, COORDINATE - 1);
    let low = line - any_length(random, line + COORDINATE);
    let high = line + any_length(random, COORDINATE - line);
    let (from, to) = any_span(random, -COORDINATE, COORDINATE);
    let (begin, end) = beside(from, to, random);
    let mut pair = ([low, from, line, to], [line, begin, high, end]);
    if random.one_in(3) {
        pair.1 = moved(pair.1, random.pick(&Side::ALL));
    }
    if random.one_in(2) {
        pair = both(pair, mirrored);
    }
    (0..random.below(4)).fold(pair, |pair, _| both(pair, turned))
}

/// A range that has with this one as much in common as `random_neighbours` says.
fn beside(from: i64, to: i64, random: &mut Random) -> (i64, i64) {
    let room = COORDINATE - to;
    let above = |random: &mut Random| if room > 0 { to + any_length(random, room) } else { to };
    match random.below(6) {
        0 => (from, to),
        1 => any_span(random, from, to),
        2 => (random.within(-COORDINATE, from), above(random)),
        3 => (to - 1, above(random)),
        4 if room > 0 => (to, above(random)),
        _ => (random.within(from, to - 1), above(random)),
    }
}

/// From 1 to `most`, of any number of digits, and now and then `most`.
fn any_length(random: &mut Random, most: i64) -> i64 {
    if random.one_in(8) {
        return most;
    }
    let digits = random.below(38);
    random.within(1, most.min(1 << digits))
}

/// A range between two coordinates.
fn any_span(random: &mut Random, low: i64, high: i64) -> (i64, i64) {
    let length = any_length(random, high - low);
    let from = random.within(low, high - length);
    (from, from + length)
}

fn both((a, b): Pair, change: impl Fn(Rect) -> Rect) -> Pair {
    (change(a), change(b))
}

/// By a quarter, anticlockwise, about the origin.
pub fn turned([x0, y0, x1, y1]: Rect) -> Rect {
    [-y1, x0, -y0, x1]
}

/// South for north.
fn mirrored([x0, y0, x1, y1]: Rect) -> Rect {
    [x0, -y1, x1, -y0]
}

/// By a tick.
fn moved([x0, y0, x1, y1]: Rect, towards: Side) -> Rect {
    let (x, y) = match towards {
        Side::South => (0, -1),
        Side::East => (1, 0),
        Side::North => (0, 1),
        Side::West => (-1, 0),
    };
    [x0 + x, y0 + y, x1 + x, y1 + y]
}

/// Whether the border of the two is all of a side of the one or of the other.
pub fn is_whole_side((a, b): Pair, Border { side, length }: Border) -> bool {
    let side_of = |[x0, y0, x1, y1]: Rect| match side {
        Side::South | Side::North => x1 - x0,
        Side::East | Side::West => y1 - y0,
    };
    [a, b].map(side_of).contains(&(length as i64))
}

/// How two rectangles without a border miss one by a tick: there is a gap between them, they overlap, or they touch in
/// a point.
#[derive(Clone, Copy, Debug, PartialEq, Eq)]
pub enum Miss {
    Gap,
    Overlap,
    Corner,
}

/// None unless the two have no border and would have one if the second were moved by a tick.
pub fn near_miss((a, b): Pair) -> Option<Miss> {
    if contact(a, b) != Ok(None) {
        return None;
    }
    Side::ALL.into_iter().find_map(|way| {
        let Border { side, .. } = contact(a, moved(b, way)).ok()??;
        Some(match way {
            _ if way == side.opposite() => Miss::Gap,
            _ if way == side => Miss::Overlap,
            _ => Miss::Corner,
        })
    })
}
