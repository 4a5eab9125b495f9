//! Copper that is drawn twice: where polygons of one layer and component overlap, and what they are together.
//!
//! A polygon's ring encloses what lies inside by even and odd (docs/RULES.md, "Rings to roots"). Where two polygons of
//! one layer and component have an area in common its copper would count twice, so that a square drawn twice had half
//! its resistance: [`Mesh`](crate::Mesh) and the tools refuse it by [`first_overlap`], and [`unions`] draws it once.
//! Both go over the rings' level sides by a line that rises, in steps of the logarithm of how many there are.
//!
//! ```
//! use leafmesh::{merging, Polygons};
//!
//! let rectangle = |x0, x1| [[x0, 0], [x1, 0], [x1, 8], [x0, 8]];
//! let mut polygons = Polygons::default();
//! polygons.push(1, 0, 0.5e-3, &rectangle(0, 16));
//! polygons.push(1, 0, 0.5e-3, &rectangle(8, 24));
//! let overlap = merging::first_overlap(polygons.outlines()).expect("drawn twice");
//! assert_eq!((overlap.polygons, overlap.place), ([0, 1], [8, 0]));
//!
//! let unions = merging::unions(polygons.outlines());
//! assert_eq!(unions[0].polygons, [0, 1]);
//! assert_eq!(unions[0].rings, [rectangle(0, 24)]);
//! ```

mod contour;
mod coverage;
mod cutting;
mod overlap;
mod sweep;

use crate::{Outlines, Point};
use contour::Contour;
use std::collections::{BTreeSet, HashMap};

pub use cutting::{cut, Bounds};
pub use overlap::{first_overlap, Overlap};
pub(crate) use sweep::encloses;

/// Polygons of one layer, component and sheet resistance that have an area or a border in common, one through another.
#[derive(Clone, Debug, Default, PartialEq, Eq)]
pub struct Union {
    /// Two of them or more, rising.
    pub polygons: Vec<usize>,
    /// Of each of them the rings that it is a part of, by their places in `rings`, rising.
    pub parts: Vec<Vec<usize>>,
    /// What they enclose together: a ring for each piece, from its lowest corner on, of these the westmost, and
    /// anticlockwise. A hole hangs in its ring by a level side there and back. No two rings have a border in common.
    pub rings: Vec<Vec<Point>>,
}

/// All unions of a board, by their first polygon. Polygons that nothing overlaps or borders on are in none.
pub fn unions(outlines: Outlines) -> Vec<Union> {
    let rings = rings_of(outlines);
    let mut alike: HashMap<(u16, u32, u64), Vec<usize>> = HashMap::new();
    for polygon in 0..rings.len() {
        let sheet = outlines.sheets[polygon].to_bits();
        let kind = (
            outlines.layers[polygon],
            outlines.components[polygon],
            sheet,
        );
        alike.entry(kind).or_default().push(polygon);
    }
    let alike = alike.values().filter(|all| all.len() > 1);
    let mut all: Vec<Union> = alike
        .flat_map(|polygons| unions_among(polygons, &rings))
        .collect();
    all.sort_unstable_by_key(|union| union.polygons[0]);
    all
}

/// The ring of each polygon.
pub(crate) fn rings_of(outlines: Outlines<'_>) -> Vec<&[Point]> {
    let mut rest = outlines.points;
    let mut ring = |&count: &u64| {
        let (ring, behind) = rest.split_at((count as usize).min(rest.len()));
        rest = behind;
        ring
    };
    outlines.counts.iter().map(&mut ring).collect()
}

fn unions_among(polygons: &[usize], rings: &[&[Point]]) -> Vec<Union> {
    let own: Vec<&[Point]> = polygons.iter().map(|&polygon| rings[polygon]).collect();
    // Of each piece of each polygon one place, by which the piece of all is found that it is a part of.
    let mut places: Vec<(usize, Point)> = Vec::new();
    for (number, ring) in own.iter().enumerate() {
        let (pieces, _) = Contour::of(&[ring]).into_pieces(&[]);
        places.extend(pieces.iter().map(|piece| (number, piece[0])));
    }
    let (owners, places): (Vec<usize>, Vec<Point>) = places.into_iter().unzip();
    let (pieces, parts) = Contour::of(&own).into_pieces(&places);

    let mut parts_of: Vec<BTreeSet<usize>> = vec![BTreeSet::new(); own.len()];
    let mut classes = Classes::new(own.len() + pieces.len());
    for (&owner, &piece) in owners.iter().zip(&parts) {
        classes.join(owner, own.len() + piece);
        parts_of[owner].insert(piece);
    }
    let mut found: HashMap<usize, Union> = HashMap::new();
    let mut places = Vec::with_capacity(pieces.len());
    for (number, piece) in pieces.into_iter().enumerate() {
        let union = found.entry(classes.of(own.len() + number)).or_default();
        places.push(union.rings.len());
        union.rings.push(piece);
    }
    for (number, &polygon) in polygons.iter().enumerate() {
        let union = found.entry(classes.of(number)).or_default();
        union.polygons.push(polygon);
        let parts = parts_of[number].iter().map(|&piece| places[piece]);
        union.parts.push(parts.collect());
    }
    let several = found.into_values().filter(|union| union.polygons.len() > 1);
    several.collect()
}

/// Numbers in classes.
struct Classes(Vec<usize>);

impl Classes {
    /// Each is a class of its own.
    fn new(count: usize) -> Self {
        Classes((0..count).collect())
    }

    fn of(&mut self, number: usize) -> usize {
        let mut at = number;
        while self.0[at] != at {
            self.0[at] = self.0[self.0[at]];
            at = self.0[at];
        }
        at
    }

    fn join(&mut self, a: usize, b: usize) {
        let [a, b] = [a, b].map(|one| self.of(one));
        self.0[a.max(b)] = a.min(b);
    }
}

#[cfg(test)]
mod tests;
