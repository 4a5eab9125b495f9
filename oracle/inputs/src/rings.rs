//! Rings: rectangles, L, U, combs, spirals, keyholes, walks that cross and touch themselves, and
//! rings that enclose nothing.

use crate::random::Random;
use calls::limits::COORDINATE;
use calls::strips::TickPoint;

/// P7, no, one and two points, a slanted and an open ring, and the limits.
pub fn rings_at_the_limits() -> Vec<Vec<TickPoint>> {
    let far = COORDINATE;
    vec![
        vec![[0, 0], [8, 0], [8, 4], [4, 4], [4, 8], [0, 8]],
        vec![],
        vec![[7, 7]],
        vec![[far + 1, 0]],
        vec![[0, 0], [0, 9]],
        vec![[0, 0], [1, 1]],
        vec![[0, 0], [4, 0], [4, 4]],
        vec![[-far, -far], [far, -far], [far, far], [-far, far]],
        vec![[-far, -far], [far, -far], [far, far + 1], [-far, far + 1]],
        vec![[i64::MIN, i64::MAX]; 4],
    ]
}

/// A rectilinear ring whose coordinates are multiples of `pitch`.
pub fn random_ring(random: &mut Random, pitch: i64) -> Vec<TickPoint> {
    let mut ring = match random.below(10) {
        0..=2 => rectangle(random),
        3 => corner(random),
        4 => comb(random),
        5 => spiral(random),
        6 => keyhole(random),
        7 => straight(random),
        _ => walk(random),
    };
    if random.one_in(4) {
        add_idle_points(&mut ring, random);
    }
    place(&mut ring, random);
    ring.iter_mut().flatten().for_each(|number| *number *= pitch);
    ring
}

fn rectangle(random: &mut Random) -> Vec<TickPoint> {
    let (w, h) = (random.within(1, 6), random.within(1, 6));
    vec![[0, 0], [w, 0], [w, h], [0, h]]
}

/// An L.
fn corner(random: &mut Random) -> Vec<TickPoint> {
    let (a, b) = (random.within(1, 3), random.within(1, 3));
    let (w, h) = (a + random.within(1, 3), b + random.within(1, 3));
    vec![[0, 0], [w, 0], [w, b], [a, b], [a, h], [0, h]]
}

/// Teeth on a back; two of them are a U.
fn comb(random: &mut Random) -> Vec<TickPoint> {
    let teeth = random.within(2, 5);
    let back = random.within(1, 2);
    let mut ring = vec![[0, 0], [2 * teeth - 1, 0]];
    for tooth in (0..teeth).rev() {
        let top = back + random.within(1, 3);
        ring.extend([
            [2 * tooth + 1, back],
            [2 * tooth + 1, top],
            [2 * tooth, top],
            [2 * tooth, back],
        ]);
    }
    ring
}

/// Two arms that turn inwards.
fn spiral(random: &mut Random) -> Vec<TickPoint> {
    let s = random.within(1, 2);
    let steps = [
        [0, 0],
        [7, 0],
        [7, 7],
        [2, 7],
        [2, 4],
        [4, 4],
        [4, 5],
        [3, 5],
        [3, 6],
        [6, 6],
        [6, 1],
        [0, 1],
    ];
    steps.iter().map(|&[x, y]| [x * s, y * s]).collect()
}

/// A frame cut open along one line, so that the ring runs round a hole.
fn keyhole(random: &mut Random) -> Vec<TickPoint> {
    let (w, h) = (random.within(3, 6), random.within(3, 6));
    vec![
        [0, 0],
        [w, 0],
        [w, h],
        [0, h],
        [0, 1],
        [1, 1],
        [1, h - 1],
        [w - 1, h - 1],
        [w - 1, 1],
        [0, 1],
    ]
}

/// No points, one, two, or a few on one line.
fn straight(random: &mut Random) -> Vec<TickPoint> {
    let y = random.within(0, 3);
    (0..random.below(5)).map(|_| [random.within(0, 5), y]).collect()
}

/// Any closed rectilinear walk: it crosses, touches and doubles itself.
fn walk(random: &mut Random) -> Vec<TickPoint> {
    let corners = 2 + random.index(5);
    let points: Vec<TickPoint> =
        (0..corners).map(|_| [random.within(0, 5), random.within(0, 5)]).collect();
    (0..corners).flat_map(|i| [points[i], [points[(i + 1) % corners][0], points[i][1]]]).collect()
}

/// Points on straight edges and points given twice.
pub fn add_idle_points(ring: &mut Vec<TickPoint>, random: &mut Random) {
    for _ in 0..random.below(4) {
        if ring.is_empty() {
            return;
        }
        let at = random.index(ring.len());
        let (a, b) = (ring[at], ring[(at + 1) % ring.len()]);
        let between = [(a[0] + b[0]) / 2, (a[1] + b[1]) / 2];
        ring.insert(at + 1, random.pick(&[a, between]));
    }
}

/// Moved, turned round, begun elsewhere, and x and y exchanged.
fn place(ring: &mut [TickPoint], random: &mut Random) {
    let [dx, dy] = [random.within(-4, 4), random.within(-4, 4)];
    ring.iter_mut().for_each(|[x, y]| (*x, *y) = (*x + dx, *y + dy));
    if random.one_in(2) {
        ring.reverse();
    }
    if !ring.is_empty() {
        ring.rotate_left(random.index(ring.len()));
    }
    if random.one_in(2) {
        ring.iter_mut().for_each(|point| point.swap(0, 1));
    }
}
