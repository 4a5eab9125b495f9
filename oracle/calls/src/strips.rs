//! Strips of one ring: the original's `polygon_minus_polygon` with an empty second ring.

use crate::contact::Rect;
use crate::limits::{coordinate_in_range, RING_POINTS};
use crate::outcome::{require, Answer};
use crate::ticks::{metres, ticks};
use original::geometry::Point;
use original::geomops::polygon_minus_polygon;
use std::collections::BTreeSet;

/// x and y in ticks; a half point can't be given.
pub type TickPoint = [i64; 2];

/// Strips into `out`; the answer is how many. Refuses 3, 4, 6, each with place 0.
pub fn strips(ring: &[TickPoint], out: &mut [Rect]) -> Answer<u64> {
    require(ring_in_range(ring), 3, 0)?;
    require(is_rectilinear(ring), 4, 0)?;
    let found = original_strips(ring);
    require(found.len() <= out.len(), 6, 0)?;
    out[..found.len()].copy_from_slice(&found);
    Ok(found.len() as u64)
}

/// At most 1,024 points, all coordinates in range.
pub fn ring_in_range(ring: &[TickPoint]) -> bool {
    ring.len() <= RING_POINTS && ring.iter().flatten().all(|&number| coordinate_in_range(number))
}

/// No two neighbouring points, last to first included, differ in both x and y.
pub fn is_rectilinear(ring: &[TickPoint]) -> bool {
    sides(ring).all(|([ax, ay], [bx, by])| ax == bx || ay == by)
}

fn sides(ring: &[TickPoint]) -> impl Iterator<Item = (TickPoint, TickPoint)> + '_ {
    (0..ring.len()).map(move |i| (ring[i], ring[(i + 1) % ring.len()]))
}

pub fn to_points(ring: &[TickPoint]) -> Vec<Point> {
    ring.iter().map(|&[x, y]| Point::new(metres(x), metres(y))).collect()
}

fn original_strips(ring: &[TickPoint]) -> Vec<Rect> {
    polygon_minus_polygon(&to_points(ring), &[])
        .iter()
        .map(|r| [r.x0, r.y0, r.x1, r.y1].map(ticks))
        .collect()
}

/// The strips by the words of docs/RULES.md, over whole numbers. Build's refusals 5 and 6 are judged by
/// these, so that they don't rest on the original.
pub fn strips_by_the_words(ring: &[TickPoint]) -> Vec<Rect> {
    if ring.len() < 3 {
        return Vec::new();
    }
    let heights: BTreeSet<i64> = ring.iter().map(|point| point[1]).collect();
    let heights: Vec<i64> = heights.into_iter().collect();
    let bands = heights.windows(2).map(|band| (band[0], band[1]));
    bands.flat_map(|(low, high)| band_strips(ring, low, high)).collect()
}

fn band_strips(ring: &[TickPoint], low: i64, high: i64) -> Vec<Rect> {
    let mut crossings: Vec<i64> = sides(ring)
        .filter(|([_, ay], [_, by])| *ay.min(by) <= low && high <= *ay.max(by))
        .map(|([x, _], _)| x)
        .collect();
    crossings.sort_unstable();
    assert_eq!(crossings.len() % 2, 0, "a closed ring crosses a band an even number of times");
    let pairs = crossings.chunks(2).map(|pair| (pair[0], pair[1]));
    pairs.filter(|(west, east)| west < east).map(|(west, east)| [west, low, east, high]).collect()
}
