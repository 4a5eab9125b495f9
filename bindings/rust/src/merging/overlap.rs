//! Where copper is drawn twice.

use super::coverage::Coverage;
use super::rings_of;
use super::sweep::{encloses, places_of, steps, Step};
use crate::{Outlines, Point};
use std::collections::BTreeMap;
use std::fmt;

/// Two polygons of one layer and component that have an area in common.
#[derive(Clone, Copy, Debug, PartialEq, Eq)]
pub struct Overlap {
    /// The two of the lowest numbers that enclose what lies north-east of the place, next to it.
    pub polygons: [usize; 2],
    /// The lowest place, of these the westmost one, of all that two or more polygons of a layer and component enclose.
    pub place: Point,
}

impl fmt::Display for Overlap {
    fn fmt(&self, f: &mut fmt::Formatter<'_>) -> fmt::Result {
        let ([first, second], [x, y]) = (self.polygons, self.place);
        write!(
            f,
            "polygon {second} overlaps polygon {first} from ({x}, {y}) on: copper of one layer and component is drawn \
             once"
        )
    }
}

/// Where copper is drawn twice: of the lowest layer, and there of the lowest component, that has such a place. Polygons
/// that only touch don't overlap, nor does a polygon with itself: a ring counts by even and odd.
pub fn first_overlap(outlines: Outlines) -> Option<Overlap> {
    let rings = rings_of(outlines);
    let mut coppers: BTreeMap<(u16, u32), Vec<usize>> = BTreeMap::new();
    for polygon in 0..rings.len() {
        let copper = (outlines.layers[polygon], outlines.components[polygon]);
        coppers.entry(copper).or_default().push(polygon);
    }
    let mut several = coppers.values().filter(|polygons| polygons.len() > 1);
    several.find_map(|polygons| {
        let place = first_among(polygons, &rings)?;
        let mut there = polygons
            .iter()
            .copied()
            .filter(|&polygon| encloses(rings[polygon], place));
        Some(Overlap {
            polygons: [there.next()?, there.next()?],
            place,
        })
    })
}

fn first_among(polygons: &[usize], rings: &[&[Point]]) -> Option<Point> {
    let own = polygons.iter().map(|&polygon| rings[polygon]);
    let places = own.clone().flat_map(places_of).collect();
    let mut coverage = Coverage::over(places);
    steps(own)
        .into_iter()
        .find_map(|(y, step)| first_at(&mut coverage, step).map(|x| [x, y]))
}

/// The westmost place at one height at which a stretch begins where another one is. What ends there is gone by then.
pub(super) fn first_at(coverage: &mut Coverage, Step { mut begun, ended }: Step) -> Option<i64> {
    for stretch in ended {
        coverage.add(stretch, -1);
    }
    // Of two that begin at one height the eastern one is covered where it begins.
    begun.sort_unstable();
    let mut first: Option<i64> = None;
    for stretch in begun {
        let found = coverage.first_covered(stretch);
        coverage.add(stretch, 1);
        first = first.into_iter().chain(found).min();
    }
    first
}
