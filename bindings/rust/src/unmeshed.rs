//! Why a board has no mesh, or a mesh no net that could be used.

use crate::astray::{Astray, SameLayer};
use crate::merging::Overlap;
use crate::{strips, Link, Outlines, Point, Reason, Rect, Refusal, Settings};
use std::error::Error;
use std::fmt;

/// Why there is no mesh of a board, or no net of a mesh.
#[derive(Clone, Copy, Debug, PartialEq)]
#[non_exhaustive]
pub enum Unmeshed {
    /// The library refuses.
    Refused(Refusal),
    /// A strip would need more base cells than it may have: its cells get larger than those of its neighbours.
    TooLong(TooLong),
    /// A node stands inside a leaf's side and isn't joined along it: the net would be wrong there.
    Loose(Loose),
    /// Copper of one layer and component is drawn twice, and would conduct twice.
    Overlap(Overlap),
    /// A link joins nothing: the library passes it over.
    Idle(Idle),
    /// A via or a channel ends where there is no copper of its layer and component, or in an area
    /// ([`Links::areas`](crate::Links::areas)) without such.
    Astray(Astray),
    /// A via joins a layer to itself.
    SameLayer(SameLayer),
}

/// A link that finds no node at one of its ends.
#[derive(Clone, Copy, Debug, PartialEq, Eq)]
pub struct Idle {
    /// Which one.
    pub link: Link,
}

/// A strip that is longer than as many base cells as it may have.
#[derive(Clone, Copy, Debug, PartialEq, Eq)]
pub struct TooLong {
    /// Its index.
    pub polygon: usize,
    /// Of the polygon's points the first at an end of the edge that bounds the strip on the west.
    pub point: usize,
    /// In ticks.
    pub strip: Rect,
    /// How many base cells the strip would need along its longer side.
    pub cells: u64,
    /// How many it may have.
    pub cap: u64,
    /// The size wanted of a base cell, in ticks.
    pub cell: u64,
}

/// A node between the ends of a leaf's side that lacks an edge to the point before or after it, as
/// [`Mesh::check_by_layer`](crate::Mesh::check_by_layer) names it.
#[derive(Clone, Copy, Debug, PartialEq, Eq)]
pub struct Loose {
    /// That of the leaf.
    pub polygon: usize,
    /// The id of the leaf.
    pub leaf: usize,
    /// Where the node stands.
    pub place: Point,
    /// The side's ends, anticlockwise round the leaf.
    pub side: [Point; 2],
}

impl From<Refusal> for Unmeshed {
    fn from(refusal: Refusal) -> Self {
        Unmeshed::Refused(refusal)
    }
}

impl fmt::Display for Unmeshed {
    fn fmt(&self, f: &mut fmt::Formatter<'_>) -> fmt::Result {
        match self {
            Unmeshed::Refused(refusal) => refusal.fmt(f),
            Unmeshed::TooLong(long) => long.fmt(f),
            Unmeshed::Loose(loose) => loose.fmt(f),
            Unmeshed::Overlap(overlap) => overlap.fmt(f),
            Unmeshed::Idle(idle) => idle.fmt(f),
            Unmeshed::Astray(astray) => astray.fmt(f),
            Unmeshed::SameLayer(via) => via.fmt(f),
        }
    }
}

impl Error for Unmeshed {}

impl Idle {
    /// What is missing.
    pub(crate) fn words(&self) -> &'static str {
        match self.link {
            Link::Contact(_) => "joins nothing: there is no such polygon, or it has no leaf",
            Link::Via(_) => "joins nothing: one of its layers has no copper of its component",
            Link::Channel(_) => {
                "joins nothing: the channels' layer has no copper of one of its components"
            }
        }
    }
}

impl fmt::Display for Idle {
    fn fmt(&self, f: &mut fmt::Formatter<'_>) -> fmt::Result {
        write!(f, "{} {}", self.link, self.words())
    }
}

impl fmt::Display for TooLong {
    fn fmt(&self, f: &mut fmt::Formatter<'_>) -> fmt::Result {
        write!(
            f,
            "polygon {}, point {}: {} base cells long; at most {}: give its layer a larger cell, take a larger target, \
             or draw two polygons that touch",
            self.polygon, self.point, self.cells, self.cap
        )
    }
}

impl fmt::Display for Loose {
    fn fmt(&self, f: &mut fmt::Formatter<'_>) -> fmt::Result {
        let ([x, y], [[ax, ay], [bx, by]]) = (self.place, self.side);
        write!(
            f,
            "polygon {}: a node at ({x}, {y}) stands inside a leaf's side from ({ax}, {ay}) to ({bx}, {by}) and isn't \
             joined along it: make all coordinates multiples of the base cell, and draw copper once",
            self.polygon
        )
    }
}

impl TooLong {
    /// The first strip of a board, by polygon and then in the order of [`strips`], that is longer than `cap` base
    /// cells. Polygons for which `asked` says no are passed over.
    pub(crate) fn first(
        settings: Settings,
        list: &[[u64; 2]],
        outlines: Outlines,
        asked: impl Fn(usize) -> bool,
    ) -> Option<Self> {
        let mut rest = outlines.points;
        for (polygon, &count) in outlines.counts.iter().enumerate() {
            let (ring, behind) = rest.split_at((count as usize).min(rest.len()));
            rest = behind;
            if !asked(polygon) {
                continue;
            }
            let layer = u64::from(outlines.layers[polygon]);
            let own = list.iter().find(|entry| entry[0] == layer && entry[1] > 0);
            let cell = own.map_or(settings.target, |entry| entry[1]);
            let cells = |[x0, y0, x1, y1]: Rect| ((x1 - x0).max(y1 - y0) as u64).div_ceil(cell);
            let long = strips_of(ring)
                .into_iter()
                .find(|&strip| cells(strip) > settings.cap);
            if let Some(strip) = long {
                return Some(TooLong {
                    polygon,
                    point: west_of(ring, strip),
                    strip,
                    cells: cells(strip),
                    cap: settings.cap,
                    cell,
                });
            }
        }
        None
    }
}

/// None where the ring is refused.
pub(crate) fn strips_of(ring: &[Point]) -> Vec<Rect> {
    let mut rows = vec![[0; 4]; ring.len() / 2 * ring.len()];
    let count = strips(ring, &mut rows).unwrap_or(0);
    rows.truncate(count);
    rows
}

/// The first point at an end of a ring's edge that bounds a strip on the west.
pub(crate) fn west_of(ring: &[Point], [x0, y0, _, y1]: Rect) -> usize {
    let next = |at: usize| (at + 1) % ring.len();
    let bounds = |at: usize| {
        let ([ax, ay], [bx, by]) = (ring[at], ring[next(at)]);
        ax == x0 && bx == x0 && ay.min(by) <= y0 && y1 <= ay.max(by)
    };
    let edge = (0..ring.len()).find(|&at| bounds(at));
    edge.map_or(0, |at| at.min(next(at)))
}

/// What is said of a board that the library refuses: a strip that is too long makes uneven cells, and is named.
pub(crate) fn refused(
    refusal: Refusal,
    settings: Settings,
    list: &[[u64; 2]],
    outlines: Outlines,
) -> Unmeshed {
    let long = match refusal.reason {
        Reason::UnevenCell => {
            TooLong::first(settings, list, outlines, |polygon| polygon == refusal.place)
        }
        _ => None,
    };
    long.map_or(Unmeshed::Refused(refusal), Unmeshed::TooLong)
}
