//! Rings of many points: combs, stairs, spirals, walks, and rings that fold onto one line.

use crate::random::Random;
use crate::rings::add_idle_points;
use calls::limits::RING_POINTS;
use calls::strips::TickPoint;

/// A back with one tooth for each height, two pitches apart: four points a tooth and four more.
pub fn comb_of(heights: &[i64]) -> Vec<TickPoint> {
    let width = 2 * heights.len() as i64 + 1;
    let mut ring = vec![[0, 0], [width, 0], [width, 1]];
    for (tooth, height) in heights.iter().enumerate().rev() {
        let (west, east, top) = (2 * tooth as i64 + 1, 2 * tooth as i64 + 2, 1 + height);
        ring.extend([[east, 1], [east, top], [west, top], [west, 1]]);
    }
    ring.push([0, 1]);
    ring
}

/// Teeth of a comb that has all points a ring may have.
pub const LONGEST_COMB: usize = (RING_POINTS - 4) / 4;
/// Steps of a stair that has all points a ring may have.
pub const LONGEST_STAIR: i64 = RING_POINTS as i64 / 2 - 1;

/// A stair of so many steps with a straight back: two points a step and two more.
pub fn stair_of(steps: i64) -> Vec<TickPoint> {
    let mut ring: Vec<TickPoint> = (0..steps).flat_map(|k| [[k, k], [k + 1, k]]).collect();
    ring.extend([[steps, steps], [0, steps]]);
    ring
}

/// A spiral of so many corners and its copy, one off both ways, walked back.
fn spiral_of(corners: i64) -> Vec<TickPoint> {
    let (mut at, mut there) = ([0, 0], Vec::new());
    for corner in 0..corners {
        there.push(at);
        let length = 2 * (corner / 2 + 1);
        match corner % 4 {
            0 => at[0] += length,
            1 => at[1] += length,
            2 => at[0] -= length,
            _ => at[1] -= length,
        }
    }
    let back: Vec<TickPoint> = there.iter().rev().map(|[x, y]| [x + 1, y + 1]).collect();
    let ends = [there[there.len() - 1], there[0]];
    there.push([ends[0][0] + 1, ends[0][1]]);
    there.extend(back);
    there.push([ends[1][0] + 1, ends[1][1]]);
    there
}

/// Up and down one line: all points cross the one band there is.
fn fold(points: i64) -> Vec<TickPoint> {
    (0..points).map(|k| [0, k % 2]).collect()
}

/// Up one line and back in one go: as many bands as there can be.
fn pole(points: i64) -> Vec<TickPoint> {
    (0..points).map(|k| [0, k]).collect()
}

/// Two points for each corner, anywhere on a field so wide.
fn walk_of(random: &mut Random, corners: usize, wide: i64) -> Vec<TickPoint> {
    let points: Vec<TickPoint> =
        (0..corners).map(|_| [random.within(0, wide), random.within(0, wide)]).collect();
    (0..corners).flat_map(|i| [points[i], [points[(i + 1) % corners][0], points[i][1]]]).collect()
}

/// The longest of each kind.
pub fn longest_rings(random: &mut Random) -> Vec<Vec<TickPoint>> {
    let most = RING_POINTS as i64;
    let rising: Vec<i64> = (1..=LONGEST_COMB as i64).collect();
    vec![
        comb_of(&[3; LONGEST_COMB]),
        comb_of(&rising),
        stair_of(LONGEST_STAIR),
        spiral_of(most / 2 - 1),
        fold(most),
        pole(most),
        walk_of(random, RING_POINTS / 2, 40),
        walk_of(random, RING_POINTS / 2, 5_000),
    ]
}

/// A ring of so many points or a few less.
pub fn random_long_ring(random: &mut Random, points: usize) -> Vec<TickPoint> {
    let half = (points / 2) as i64;
    let mut ring = match random.below(7) {
        0 => comb_of(&vec![2; points / 4 - 1]),
        1 => comb_of(&random_heights(random, points / 4 - 1)),
        2 => stair_of(half - 1),
        3 => spiral_of(half - 1),
        4 if random.one_in(4) => fold(points as i64),
        4 if random.one_in(3) => pole(points as i64),
        5 => walk_of(random, points / 2, 2_000),
        _ => walk_of(random, points / 2, 12),
    };
    if random.one_in(2) {
        add_idle_points(&mut ring, random);
        ring.truncate(points);
        close(&mut ring);
    }
    ring
}

fn random_heights(random: &mut Random, teeth: usize) -> Vec<i64> {
    (0..teeth).map(|_| random.within(1, 8)).collect()
}

/// A ring that lost its last points is closed by moving what is then its last but one and last.
fn close(ring: &mut [TickPoint]) {
    if let [first, .., before, last] = ring {
        *last = [first[0], before[1]];
    }
}

/// Points given twice until there are so many.
pub fn pad(ring: &mut Vec<TickPoint>, points: usize, random: &mut Random) {
    if ring.is_empty() {
        ring.push([0, 0]);
    }
    while ring.len() < points {
        let at = random.index(ring.len());
        ring.insert(at, ring[at]);
    }
}
