//! A leaf of a mesh, and a part of a board whose leaves are to be refined.

use crate::{Point, Rect, TICK};

/// A leaf of a mesh.
#[derive(Clone, Copy, Debug, PartialEq)]
pub struct Leaf {
    /// Its id in the table.
    pub id: usize,
    /// The index of its polygon.
    pub polygon: usize,
    /// That of its polygon.
    pub layer: u16,
    /// That of its polygon.
    pub component: u32,
    /// 0 of a base cell.
    pub level: u64,
    /// In ticks.
    pub rect: Rect,
    /// That of its polygon, in ohms a square.
    pub sheet: f64,
}

impl Leaf {
    /// In square metres.
    pub fn area(&self) -> f64 {
        let [x0, y0, x1, y1] = self.rect;
        let metres = |ticks: i64| ticks as f64 * TICK;
        metres(x1 - x0) * metres(y1 - y0)
    }

    /// Whether a place lies in the leaf or on its sides.
    pub fn has(&self, [x, y]: Point) -> bool {
        let [x0, y0, x1, y1] = self.rect;
        (x0..=x1).contains(&x) && (y0..=y1).contains(&y)
    }

    /// The sheet current that this power stands for in copper of this sheet resistance, in amperes a metre: the square
    /// root of the mean of its square over the leaf. A net's cell has its own sheet resistance, which may be another one
    /// than that of the leaf's polygon; [`Flow`](crate::solving::Flow) has the current of an element by its own.
    pub fn sheet_current(&self, watts: f64, sheet: f64) -> f64 {
        (watts / (self.area() * sheet)).sqrt()
    }
}

/// A part of a board to be refined.
#[derive(Clone, Copy, Debug, PartialEq, Eq)]
pub struct Region {
    /// In ticks, x0 < x1 and y0 < y1.
    pub rect: Rect,
    /// The leaves in it are to be of this level or deeper.
    pub level: u64,
    /// The layer, or all of them.
    pub layer: Option<u16>,
}

impl Region {
    /// Whether it and a leaf have an area in common.
    pub fn covers(&self, leaf: &Leaf) -> bool {
        let ([x0, y0, x1, y1], [u0, v0, u1, v1]) = (self.rect, leaf.rect);
        let is_on = self.layer.map_or(true, |layer| layer == leaf.layer);
        is_on && x0.max(u0) < x1.min(u1) && y0.max(v0) < y1.min(v1)
    }
}
