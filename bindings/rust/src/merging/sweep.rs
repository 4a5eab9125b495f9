//! A line that goes up over rings: what it enters and what it leaves at each height.

use crate::Point;
use std::collections::BTreeMap;

/// The stretches of a line at one height where rings begin above it, and where they end below it.
#[derive(Debug, Default)]
pub(super) struct Step {
    pub begun: Vec<[i64; 2]>,
    pub ended: Vec<[i64; 2]>,
}

/// The level sides of a ring: height, west end, east end.
fn level_sides(ring: &[Point]) -> impl Iterator<Item = (i64, i64, i64)> + '_ {
    let next = ring.iter().cycle().skip(1);
    let sides = ring
        .iter()
        .zip(next)
        .filter(|([ax, ay], [bx, by])| ay == by && ax != bx);
    sides.map(|(&[ax, y], &[bx, _])| (y, ax.min(bx), ax.max(bx)))
}

/// All places at which a level side of a ring ends.
pub(super) fn places_of(ring: &[Point]) -> impl Iterator<Item = i64> + '_ {
    level_sides(ring).flat_map(|(_, west, east)| [west, east])
}

/// What a line meets at each height, from the lowest to the highest, by even and odd within each ring. Two stretches of
/// one ring at one height have no part in common.
pub(super) fn steps<'a>(rings: impl Iterator<Item = &'a [Point]>) -> BTreeMap<i64, Step> {
    let mut steps: BTreeMap<i64, Step> = BTreeMap::new();
    for ring in rings {
        let mut sides: Vec<(i64, i64, i64)> = level_sides(ring).collect();
        sides.sort_unstable();
        let mut crossings = Vec::new();
        for at_one_height in by_height(&sides) {
            let y = at_one_height[0].0;
            let ends = at_one_height
                .iter()
                .flat_map(|&(_, west, east)| [west, east]);
            let ends = odd_ones(ends.collect());
            let step = steps.entry(y).or_default();
            for turned in ends.chunks_exact(2) {
                turn([turned[0], turned[1]], &crossings, step);
            }
            ends.into_iter().for_each(|end| cross(&mut crossings, end));
        }
    }
    steps
}

/// Behind what a ring encloses at a height, by its crossings there: it ends on a part of this stretch that it enclosed
/// below, and begins on the others.
fn turn([from, to]: [i64; 2], crossings: &[i64], step: &mut Step) {
    let mut at = from;
    let mut next = crossings.partition_point(|&crossing| crossing <= from);
    while at < to {
        let end = crossings.get(next).map_or(to, |&crossing| crossing.min(to));
        if next % 2 == 0 {
            step.begun.push([at, end]);
        } else {
            step.ended.push([at, end]);
        }
        (at, next) = (end, next + 1);
    }
}

/// A crossing more, or one less where there is one already.
fn cross(crossings: &mut Vec<i64>, at: i64) {
    match crossings.binary_search(&at) {
        Ok(place) => drop(crossings.remove(place)),
        Err(place) => crossings.insert(place, at),
    }
}

/// Those that come an odd number of times, rising.
fn odd_ones(mut all: Vec<i64>) -> Vec<i64> {
    all.sort_unstable();
    let mut odd: Vec<i64> = Vec::with_capacity(all.len());
    for one in all {
        match odd.last() {
            Some(&last) if last == one => drop(odd.pop()),
            _ => odd.push(one),
        }
    }
    odd
}

/// Sides in runs of one height.
fn by_height(sides: &[(i64, i64, i64)]) -> Vec<&[(i64, i64, i64)]> {
    let mut runs = Vec::new();
    let mut rest = sides;
    while let Some(&(y, ..)) = rest.first() {
        let (run, behind) = rest.split_at(rest.partition_point(|side| side.0 == y));
        runs.push(run);
        rest = behind;
    }
    runs
}

/// Whether a ring encloses what lies north-east of a place, next to it.
pub(crate) fn encloses(ring: &[Point], [x, y]: Point) -> bool {
    let next = ring.iter().cycle().skip(1);
    let crossed = ring.iter().zip(next).filter(|([ax, ay], [bx, by])| {
        let (low, high) = (*ay.min(by), *ay.max(by));
        ax == bx && *ax <= x && low <= y && y < high
    });
    crossed.count() % 2 == 1
}
