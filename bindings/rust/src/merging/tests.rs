//! Unions and overlaps against a raster of unit squares, and how many steps they take.

use super::coverage::Coverage;
use super::overlap::first_at;
use super::sweep::{encloses, places_of, steps};
use super::{cut, first_overlap, unions, Bounds, Overlap};
use crate::{Outlines, Point};
use std::slice::from_ref;

/// Numbers that look like chance, the same in every run.
struct Dice(u64);

impl Dice {
    fn below(&mut self, most: i64) -> i64 {
        self.0 = self
            .0
            .wrapping_mul(6_364_136_223_846_793_005)
            .wrapping_add(1_442_695_040_888_963_407);
        ((self.0 >> 33) % most as u64) as i64
    }

    fn rectangle(&mut self, field: i64) -> Vec<Point> {
        let [x, y] = [0, 0].map(|_| self.below(field));
        let [w, h] = [0, 0].map(|_| 1 + self.below(6));
        rectangle([x, y], [(x + w).min(field), (y + h).min(field)])
    }

    /// A ring that may cross itself, run along itself, and come back to where it was.
    fn wild_ring(&mut self, field: i64) -> Vec<Point> {
        let mut ring = vec![[self.below(field), self.below(field)]];
        for _ in 0..3 + self.below(8) {
            let [x, y] = ring[ring.len() - 1];
            let to = self.below(field);
            ring.push(if ring.len() % 2 == 0 {
                [x, to]
            } else {
                [to, y]
            });
        }
        let ([x, _], [_, y]) = (ring[ring.len() - 1], ring[0]);
        ring.push([x, y]);
        ring
    }
}

fn rectangle([x0, y0]: Point, [x1, y1]: Point) -> Vec<Point> {
    vec![[x0, y0], [x1, y0], [x1, y1], [x0, y1]]
}

/// A board of one layer, with a component for each polygon.
#[derive(Default)]
struct Drawn {
    layers: Vec<u16>,
    components: Vec<u32>,
    sheets: Vec<f64>,
    counts: Vec<u64>,
    points: Vec<Point>,
}

impl Drawn {
    fn of(rings: &[Vec<Point>]) -> Self {
        let mut drawn = Drawn::default();
        rings.iter().for_each(|ring| drawn.push(1, 0, 1.0, ring));
        drawn
    }

    fn push(&mut self, layer: u16, component: u32, sheet: f64, ring: &[Point]) {
        self.layers.push(layer);
        self.components.push(component);
        self.sheets.push(sheet);
        self.counts.push(ring.len() as u64);
        self.points.extend(ring);
    }

    fn outlines(&self) -> Outlines<'_> {
        Outlines {
            layers: &self.layers,
            components: &self.components,
            sheets: &self.sheets,
            counts: &self.counts,
            points: &self.points,
        }
    }
}

/// How many of some rings enclose each unit square of a field.
fn raster(rings: &[Vec<Point>], field: i64) -> Vec<usize> {
    let square = |at: i64| [at % field, at / field];
    let count = |at: i64| {
        rings
            .iter()
            .filter(|ring| encloses(ring, square(at)))
            .count()
    };
    (0..field * field).map(count).collect()
}

/// How many pieces the squares that count make, by their sides.
fn pieces(squares: &[bool], field: i64) -> usize {
    let mut left = squares.to_vec();
    let mut count = 0;
    while let Some(start) = left.iter().position(|&square| square) {
        count += 1;
        let mut open = vec![start as i64];
        while let Some(at) = open.pop() {
            if !std::mem::replace(&mut left[at as usize], false) {
                continue;
            }
            let [x, y] = [at % field, at / field];
            let beside = [[x - 1, y], [x + 1, y], [x, y - 1], [x, y + 1]];
            let inside = beside
                .into_iter()
                .filter(|place| place.iter().all(|c| (0..field).contains(c)));
            open.extend(inside.map(|[x, y]| x + y * field));
        }
    }
    count
}

fn area(ring: &[Point]) -> i64 {
    let next = ring.iter().cycle().skip(1);
    ring.iter()
        .zip(next)
        .map(|([ax, ay], [bx, by])| ax * by - bx * ay)
        .sum::<i64>()
        / 2
}

/// A board with its unions in the place of what they unite.
fn merged(rings: &[Vec<Point>]) -> Vec<Vec<Point>> {
    let unions = unions(Drawn::of(rings).outlines());
    let is_united = |polygon: usize| unions.iter().any(|union| union.polygons.contains(&polygon));
    let alone = (0..rings.len())
        .filter(|&polygon| !is_united(polygon))
        .map(|polygon| rings[polygon].clone());
    alone
        .chain(unions.iter().flat_map(|union| union.rings.clone()))
        .collect()
}

fn assert_is_right_angled(ring: &[Point]) {
    let next = ring.iter().cycle().skip(1);
    for (a, b) in ring.iter().zip(next) {
        assert!((a[0] == b[0]) != (a[1] == b[1]), "{a:?} {b:?} in {ring:?}");
    }
}

/// Each square that some ring encloses is enclosed once, by a ring of its own for each piece of a union.
fn assert_merges(rings: &[Vec<Point>], field: i64) {
    let before = raster(rings, field);
    let merged = merged(rings);
    let after = raster(&merged, field);
    let once: Vec<usize> = before.iter().map(|&count| count.min(1)).collect();
    assert_eq!(after, once, "{rings:?} to {merged:?}");
    for union in unions(Drawn::of(rings).outlines()) {
        for ring in &union.rings {
            assert_is_right_angled(ring);
            assert!(area(ring) > 0);
            let lowest = ring.iter().min_by_key(|[x, y]| (y, x));
            assert_eq!(Some(&ring[0]), lowest, "{ring:?}");
        }
        let own: Vec<Vec<Point>> = union
            .polygons
            .iter()
            .map(|&polygon| rings[polygon].clone())
            .collect();
        let squares: Vec<bool> = raster(&own, field).iter().map(|&count| count > 0).collect();
        assert_eq!(
            pieces(&squares, field),
            union.rings.len(),
            "{own:?} to {:?}",
            union.rings
        );
        for ring in &union.rings {
            let own: Vec<bool> = raster(from_ref(ring), field)
                .iter()
                .map(|&count| count > 0)
                .collect();
            assert_eq!(pieces(&own, field), 1);
        }
    }
    // What is united overlaps nothing and borders on nothing any more.
    let again = Drawn::of(&merged);
    assert_eq!(first_overlap(again.outlines()), None);
    assert_eq!(unions(again.outlines()), []);
}

#[test]
fn unions_of_rectangles_are_those_of_a_raster() {
    let mut dice = Dice(1);
    for _ in 0..400 {
        let field = 6 + dice.below(12);
        let rings: Vec<_> = (0..1 + dice.below(14))
            .map(|_| dice.rectangle(field))
            .collect();
        let rings: Vec<_> = rings.into_iter().filter(|ring| area(ring) > 0).collect();
        assert_merges(&rings, field);
    }
}

#[test]
fn unions_of_wild_rings_are_those_of_a_raster() {
    let mut dice = Dice(2);
    for _ in 0..400 {
        let field = 5 + dice.below(8);
        let rings: Vec<_> = (0..1 + dice.below(6))
            .map(|_| dice.wild_ring(field))
            .collect();
        assert_merges(&rings, field);
    }
}

/// The lowest place, of these the westmost, that a raster covers twice, and the first two that lie there.
fn overlap_of_raster(rings: &[Vec<Point>], field: i64) -> Option<Overlap> {
    let at = raster(rings, field).iter().position(|&count| count > 1)? as i64;
    let place = [at % field, at / field];
    let mut there = (0..rings.len()).filter(|&polygon| encloses(&rings[polygon], place));
    Some(Overlap {
        polygons: [there.next()?, there.next()?],
        place,
    })
}

#[test]
fn overlaps_are_those_of_a_raster() {
    let mut dice = Dice(3);
    let mut found = 0;
    for _ in 0..1_000 {
        let field = 8 + dice.below(16);
        let rings: Vec<_> = match dice.below(2) {
            0 => (0..1 + dice.below(9))
                .map(|_| dice.rectangle(field))
                .collect(),
            _ => (0..1 + dice.below(3))
                .map(|_| dice.wild_ring(field))
                .collect(),
        };
        let overlap = first_overlap(Drawn::of(&rings).outlines());
        assert_eq!(overlap, overlap_of_raster(&rings, field), "{rings:?}");
        found += usize::from(overlap.is_some());
    }
    assert!((250..900).contains(&found), "{found}");
}

#[test]
fn what_only_touches_does_not_overlap() {
    let square = |x, y| rectangle([x, y], [x + 8, y + 8]);
    for other in [[8, 0], [8, 4], [0, 8], [-8, -8], [8, 8], [8, -8], [16, 0]] {
        let [x, y] = other;
        assert_eq!(
            first_overlap(Drawn::of(&[square(0, 0), square(x, y)]).outlines()),
            None
        );
    }
    let overlap = first_overlap(Drawn::of(&[square(0, 0), square(7, 7)]).outlines());
    assert_eq!(
        overlap,
        Some(Overlap {
            polygons: [0, 1],
            place: [7, 7]
        })
    );
}

#[test]
fn other_copper_is_left_alone() {
    let square = rectangle([0, 0], [8, 8]);
    let mut drawn = Drawn::of(from_ref(&square));
    drawn.push(2, 0, 1.0, &square);
    drawn.push(1, 1, 1.0, &square);
    assert_eq!(first_overlap(drawn.outlines()), None);
    assert_eq!(unions(drawn.outlines()), []);
    // Another sheet resistance can't be united, and overlaps.
    drawn.push(1, 1, 2.0, &square);
    let overlap = Overlap {
        polygons: [2, 3],
        place: [0, 0],
    };
    assert_eq!(first_overlap(drawn.outlines()), Some(overlap));
    assert_eq!(unions(drawn.outlines()), []);
    // The lowest layer is told first.
    drawn.push(1, 0, 1.0, &rectangle([4, 4], [12, 12]));
    let overlap = Overlap {
        polygons: [0, 4],
        place: [4, 4],
    };
    assert_eq!(first_overlap(drawn.outlines()), Some(overlap));
}

#[test]
fn two_that_overlap_or_border_are_one() {
    let wide = rectangle([0, 0], [24, 8]);
    for at in [8, 12, 16] {
        let rings = [rectangle([0, 0], [16, 8]), rectangle([at, 0], [24, 8])];
        assert_eq!(merged(&rings), from_ref(&wide));
    }
    assert_eq!(merged(&vec![wide.clone(); 9]), from_ref(&wide));
    // One inside the other.
    assert_eq!(merged(&[wide.clone(), rectangle([8, 2], [9, 3])]), [wide]);
}

#[test]
fn pieces_that_touch_at_a_corner_stay_apart() {
    let rings = [
        rectangle([0, 0], [4, 4]),
        rectangle([4, 4], [8, 8]),
        rectangle([0, 4], [4, 6]),
    ];
    let unions = unions(Drawn::of(&rings).outlines());
    assert_eq!(unions.len(), 1);
    // The third one borders on both.
    assert_eq!(unions[0].polygons, [0, 1, 2]);
    let two = [rectangle([0, 0], [4, 4]), rectangle([4, 4], [8, 8])];
    assert_eq!(super::unions(Drawn::of(&two).outlines()), []);
    // A ring of four squares, corner to corner, round a hole.
    let four = [[4, 0], [8, 4], [4, 8], [0, 4]].map(|[x, y]| rectangle([x, y], [x + 4, y + 4]));
    assert_eq!(super::unions(Drawn::of(&four).outlines()), []);
}

/// A frame of four bars.
fn frame([x0, y0]: Point, [x1, y1]: Point, wide: i64) -> Vec<Vec<Point>> {
    vec![
        rectangle([x0, y0], [x1, y0 + wide]),
        rectangle([x0, y1 - wide], [x1, y1]),
        rectangle([x0, y0], [x0 + wide, y1]),
        rectangle([x1 - wide, y0], [x1, y1]),
    ]
}

#[test]
fn a_hole_hangs_in_its_ring_and_an_island_is_a_ring_of_its_own() {
    let rings = frame([0, 0], [12, 12], 2);
    let hung = vec![
        [0, 0],
        [12, 0],
        [12, 12],
        [0, 12],
        [0, 2],
        [2, 2],
        [2, 10],
        [10, 10],
        [10, 2],
        [2, 2],
        [0, 2],
    ];
    assert_eq!(merged(&rings), [hung]);
    // With an island of two squares in it, and a frame round it.
    let mut all = rings;
    all.extend(frame([-4, -4], [16, 16], 1));
    all.extend([rectangle([4, 4], [6, 8]), rectangle([5, 4], [8, 8])]);
    let unions = unions(Drawn::of(&all).outlines());
    let polygons: Vec<_> = unions.iter().map(|union| union.polygons.clone()).collect();
    assert_eq!(polygons, [vec![0, 1, 2, 3], vec![4, 5, 6, 7], vec![8, 9]]);
    let areas: Vec<i64> = unions
        .iter()
        .map(|union| union.rings.iter().map(|ring| area(ring)).sum())
        .collect();
    assert_eq!(areas, [144 - 64, 400 - 324, 16]);
}

/// So many bars each way, with square holes between them.
fn lattice(bars: i64) -> Vec<Vec<Point>> {
    let long = 4 * bars - 3;
    let level = (0..bars).map(|at| rectangle([0, 4 * at], [long, 4 * at + 1]));
    let upright = (0..bars).map(|at| rectangle([4 * at, 0], [4 * at + 1, long]));
    level.chain(upright).collect()
}

/// What such bars enclose.
fn area_of_lattice(bars: i64) -> i64 {
    (4 * bars - 3).pow(2) - 9 * (bars - 1).pow(2)
}

#[test]
fn two_hundred_and_fifty_six_polygons_are_united() {
    // Side by side.
    let tiles: Vec<_> = (0..256)
        .map(|at| [at % 16 * 4, at / 16 * 4])
        .map(|[x, y]| rectangle([x, y], [x + 4, y + 4]))
        .collect();
    assert_eq!(merged(&tiles), [rectangle([0, 0], [64, 64])]);
    // With 127 by 127 holes.
    let rings = merged(&lattice(128));
    assert_eq!((rings.len(), area(&rings[0])), (1, area_of_lattice(128)));
}

#[test]
fn a_ring_of_too_many_points_is_cut() {
    let rings = merged(&lattice(40));
    let parts = cut(
        rings[0].clone(),
        Bounds {
            cell: 1_000,
            cap: 256,
        },
    );
    assert!(
        rings[0].len() > 8_000 && parts.len() > 8 && parts.iter().all(|part| part.len() <= 1_024)
    );
    assert_eq!(
        parts.iter().map(|part| area(part)).sum::<i64>(),
        area_of_lattice(40)
    );
    assert_eq!(first_overlap(Drawn::of(&parts).outlines()), None);
}

#[test]
fn a_strip_is_cut_where_it_gets_too_long() {
    let bounds = Bounds { cell: 2, cap: 10 };
    let wide = rectangle([1, 0], [46, 4]);
    let parts = [[1, 21], [21, 41], [41, 46]].map(|[x0, x1]| rectangle([x0, 0], [x1, 4]));
    assert_eq!(cut(wide, bounds), parts);
    let high = rectangle([0, 1], [4, 46]);
    let parts = [[1, 21], [21, 41], [41, 46]].map(|[y0, y1]| rectangle([0, y0], [4, y1]));
    assert_eq!(cut(high, bounds), parts);
    let fitting = rectangle([0, 0], [20, 20]);
    assert_eq!(cut(fitting.clone(), bounds), [fitting]);
}

/// So many squares in a row, each of them on its own heights.
fn row(count: i64) -> Vec<Vec<Point>> {
    (0..count)
        .map(|at| rectangle([4 * at, at % 7], [4 * at + 4, at % 7 + 5]))
        .collect()
}

/// How many nodes of the tree are looked at.
fn steps_of(rings: &[Vec<Point>]) -> usize {
    let all = || rings.iter().map(Vec::as_slice);
    let mut coverage = Coverage::over(all().flat_map(places_of).collect());
    for step in steps(all()).into_values() {
        assert_eq!(first_at(&mut coverage, step), None);
    }
    coverage.steps
}

#[test]
fn overlaps_are_found_in_n_log_n_steps() {
    let [few, many] = [1_000, 8_000].map(|count| steps_of(&row(count)) as f64);
    // Eight times as many and a tree three nodes deeper; n^2 would be 64 times as many.
    assert!(many / few < 12.0, "{few} {many}");
    assert!(many < 8_000.0 * 3.0 * 4.0 * 13.0, "{many}");
}
