//! Rings that are too large for a record, cut.

use super::contour::Contour;
use crate::limits::RING_POINTS;
use crate::unmeshed::strips_of;
use crate::{Point, Rect};

/// How large a polygon may be.
#[derive(Clone, Copy, Debug, PartialEq, Eq)]
pub struct Bounds {
    /// The size wanted of its base cells, in ticks.
    pub cell: u64,
    /// The most base cells of a strip each way.
    pub cap: u64,
}

/// The same as one ring or more that touch, each of 1,024 points at most, and of strips no longer than `cap` cells. A
/// ring of too many points is cut at the middle one of its heights; a strip that is too long so many cells from its
/// west end, or its south end.
pub fn cut(ring: Vec<Point>, bounds: Bounds) -> Vec<Vec<Point>> {
    let mut whole = Vec::new();
    let mut rest = vec![ring];
    while let Some(ring) = rest.pop() {
        match place_of_cut(&ring, bounds) {
            Some((axis, at)) => {
                let halves = parted(&ring, axis, at);
                rest.extend(halves.into_iter().rev());
            }
            None => whole.push(ring),
        }
    }
    whole
}

/// Where to cut, and across which axis: 0 for x, 1 for y.
fn place_of_cut(ring: &[Point], Bounds { cell, cap }: Bounds) -> Option<(usize, i64)> {
    if ring.len() > RING_POINTS {
        let mut heights: Vec<i64> = ring.iter().map(|point| point[1]).collect();
        heights.sort_unstable();
        heights.dedup();
        return Some((1, heights[heights.len() / 2]));
    }
    let most = i64::try_from(cell.saturating_mul(cap))
        .unwrap_or(i64::MAX)
        .max(1);
    let too_long = |strip: Rect| {
        (0..2)
            .find(|&axis| strip[axis + 2] - strip[axis] > most)
            .map(|axis| (axis, strip))
    };
    let (axis, strip) = strips_of(ring).into_iter().find_map(too_long)?;
    Some((axis, strip[axis] + most))
}

/// The pieces of a ring on both sides of a line, the lower or western ones first.
fn parted(ring: &[Point], axis: usize, at: i64) -> Vec<Vec<Point>> {
    let side = |limit: fn(i64, i64) -> i64| -> Vec<Vec<Point>> {
        // Moved to the line, what lies beyond it encloses nothing.
        let moved = |point: &Point| {
            let mut point = *point;
            point[axis] = limit(point[axis], at);
            point
        };
        let part: Vec<Point> = ring.iter().map(moved).collect();
        Contour::of(&[&part]).into_pieces(&[]).0
    };
    let mut all = side(i64::min);
    all.extend(side(i64::max));
    all
}
