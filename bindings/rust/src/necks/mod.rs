//! Necks of the copper, found from the outlines and not from the mesh: so the same board has the same necks, however
//! fine its cells are, and a neck is found before any cell was split.
//!
//! ```
//! use leafmesh::{necks, Polygons};
//!
//! // Two pads of 6 by 4, joined by 2 by 1.
//! let ring = [
//!     [0, 0], [6, 0], [6, 2], [8, 2], [8, 0], [14, 0], [14, 4], [8, 4], [8, 3], [6, 3], [6, 4], [0, 4],
//! ];
//! let mut polygons = Polygons::default();
//! polygons.push(1, 0, 0.0005, &ring);
//! let all = necks::of(polygons.outlines());
//! assert_eq!((all.len(), all[0].rect), (1, [6, 2, 8, 3]));
//! assert_eq!((all[0].width(), all[0].length()), (1, 2));
//! assert_eq!(all[0].cut().rect, [7, 2, 7, 3]);
//! ```

mod sweep;

use crate::solving::Line;
use crate::unmeshed::strips_of;
use crate::{Outlines, Point, Rect};
use std::collections::BTreeMap;
use sweep::narrows;

/// Where a straight cut through the copper of a component on one layer, from edge to edge along x or y, is shorter than
/// the cuts on both its sides.
#[derive(Clone, Copy, Debug, PartialEq, Eq, PartialOrd, Ord)]
pub struct Neck {
    /// Of the copper.
    pub layer: u16,
    /// Of the copper.
    pub component: u32,
    /// In ticks. It is as thin as the cut where two parts of the copper meet along less than the side of either.
    pub rect: Rect,
    /// How it runs from one end to the other.
    pub runs: Runs,
}

/// How a neck runs.
#[derive(Clone, Copy, Debug, PartialEq, Eq, PartialOrd, Ord)]
pub enum Runs {
    /// From west to east: its cuts are upright.
    AlongX,
    /// From south to north: its cuts are level.
    AlongY,
}

impl Neck {
    /// Of its cuts, in ticks.
    pub fn width(&self) -> i64 {
        self.sizes()[0]
    }

    /// From one end to the other, in ticks: 0 where it is as thin as a cut.
    pub fn length(&self) -> i64 {
        self.sizes()[1]
    }

    fn sizes(&self) -> [i64; 2] {
        let [x0, y0, x1, y1] = self.rect;
        match self.runs {
            Runs::AlongX => [y1 - y0, x1 - x0],
            Runs::AlongY => [x1 - x0, y1 - y0],
        }
    }

    /// Its middle.
    pub fn middle(&self) -> Point {
        let [x0, y0, x1, y1] = self.rect;
        [x0 + (x1 - x0) / 2, y0 + (y1 - y0) / 2]
    }

    /// The cut through its middle.
    pub fn cut(&self) -> Line {
        let ([x, y], [x0, y0, x1, y1]) = (self.middle(), self.rect);
        Line {
            layer: self.layer,
            component: self.component,
            rect: match self.runs {
                Runs::AlongX => [x, y0, x, y1],
                Runs::AlongY => [x0, y, x1, y],
            },
        }
    }
}

/// All necks of some polygons, by layer, component and place. Polygons of one layer and component are one piece of
/// copper where they touch. A ring that is refused has none. It takes n log n steps for n strips.
pub fn of(outlines: Outlines) -> Vec<Neck> {
    let mut all = Vec::new();
    for ((layer, component), strips) in strips_by_copper(outlines) {
        let neck = |rect: Rect, runs: Runs| Neck {
            layer,
            component,
            rect,
            runs,
        };
        let turn = |[x0, y0, x1, y1]: Rect| [y0, x0, y1, x1];
        let turned: Vec<Rect> = strips.iter().copied().map(turn).collect();
        let upright = narrows(&strips).into_iter();
        let level = narrows(&turned).into_iter().map(turn);
        all.extend(upright.map(|rect| neck(rect, Runs::AlongX)));
        all.extend(level.map(|rect| neck(rect, Runs::AlongY)));
    }
    all.sort_unstable();
    all
}

fn strips_by_copper(outlines: Outlines) -> BTreeMap<(u16, u32), Vec<Rect>> {
    let mut all: BTreeMap<(u16, u32), Vec<Rect>> = BTreeMap::new();
    let mut rest = outlines.points;
    let coppers = outlines.layers.iter().zip(outlines.components);
    for ((&layer, &component), &count) in coppers.zip(outlines.counts) {
        let (ring, behind) = rest.split_at((count as usize).min(rest.len()));
        rest = behind;
        all.entry((layer, component))
            .or_default()
            .extend(strips_of(ring));
    }
    all
}
