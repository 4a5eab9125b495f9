//! What is wrong or odd about a ring by itself.

use crate::unmeshed::strips_of;
use crate::Point;

/// The first point that differs in both x and y from the one before it, and that one; of the last side the last point
/// and the first.
pub(super) fn first_slant(ring: &[Point]) -> Option<(usize, usize)> {
    let is_slanted = |&(to, from): &(usize, usize)| {
        let ([ax, ay], [bx, by]) = (ring[from], ring[to]);
        ax != bx && ay != by
    };
    let last_side = ring.len().checked_sub(1).map(|last| (last, 0));
    let sides = (1..ring.len()).map(|to| (to, to - 1)).chain(last_side);
    sides.into_iter().find(is_slanted)
}

/// What a ring that is taken hardly means. Of a slanted one nothing is said: it is refused.
pub(super) fn odd(ring: &[Point]) -> Option<&'static str> {
    if first_slant(ring).is_some() {
        None
    } else if strips_of(ring).is_empty() {
        Some("the ring encloses nothing")
    } else if crosses_itself(ring) {
        Some("the ring crosses itself: what it encloses counts by even and odd")
    } else {
        None
    }
}

/// Whether two sides of a ring cross inside both. Sides that only touch, as those of a keyhole do, don't.
fn crosses_itself(ring: &[Point]) -> bool {
    let corners = without_straight_points(ring);
    let next = |at: usize| corners[(at + 1) % corners.len()];
    let sides = (0..corners.len()).map(|at| (corners[at], next(at)));
    let (upright, level): (Vec<_>, Vec<_>) = sides.partition(|([ax, _], [bx, _])| ax == bx);
    let is_inside = |at: i64, a: i64, b: i64| a.min(b) < at && at < a.max(b);
    level.iter().any(|&([ax, y], [bx, _])| {
        let crosses =
            |&([x, ay], [_, by]): &(Point, Point)| is_inside(x, ax, bx) && is_inside(y, ay, by);
        upright.iter().any(crosses)
    })
}

/// The ring without the points that lie inside a straight line of it, so that no side ends where another crosses it.
fn without_straight_points(ring: &[Point]) -> Vec<Point> {
    let mut corners: Vec<Point> = ring.to_vec();
    corners.dedup();
    if corners.len() > 1 && corners.first() == corners.last() {
        corners.pop();
    }
    let count = corners.len();
    let is_corner = |&at: &usize| {
        let [before, own, after] = [at + count - 1, at, at + 1].map(|at| corners[at % count]);
        let step = |a: Point, b: Point| [0, 1].map(|axis: usize| (b[axis] - a[axis]).signum());
        step(before, own) != step(own, after)
    };
    (0..count).filter(is_corner).map(|at| corners[at]).collect()
}
