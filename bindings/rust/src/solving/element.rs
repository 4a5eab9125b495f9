//! A cell as a bilinear element, or as several where the border of a pad cuts it.

use crate::columns::{NE, SW};
use crate::{Cell, Node, Rect, TICK};
use std::ops::Range;

/// What a current does in one cell.
#[derive(Clone, Copy, Debug, Default, PartialEq)]
pub struct Flow {
    /// The power that the whole cell takes, in watts: the element's own, so that all cells and edges of a system
    /// together take what its terminals give. [`power`](crate::power) takes the slope at the cell's centre, and is less
    /// where the slope changes within the cell.
    pub watts: f64,
    /// The sheet current at the cell's centre along x and along y, in amperes a metre.
    pub current: [f64; 2],
    /// The sheet current that the power stands for in copper of the cell's own sheet resistance, in amperes a metre: the
    /// square root of the mean of its square over the cell.
    pub sheet_current: f64,
    /// The cell's own sheet resistance, in ohms a square. Where a net's cells were changed it isn't their polygon's.
    pub sheet: f64,
}

/// A rectangle of copper with its sides in metres.
#[derive(Clone, Copy, Debug)]
pub(super) struct Element {
    /// SW, SE, NE, NW.
    pub corners: [usize; 4],
    sheet: f64,
    sides: [f64; 2],
}

impl Element {
    pub fn of(corners: [usize; 4], [x0, y0, x1, y1]: Rect, sheet: f64) -> Self {
        let metres = |ticks: i64| ticks as f64 * TICK;
        Element {
            corners,
            sheet,
            sides: [metres(x1 - x0), metres(y1 - y0)],
        }
    }

    /// Siemens between its corners: the parts of the slopes along x and along y.
    pub fn matrix(&self) -> [[f64; 4]; 4] {
        const ALONG_X: [[f64; 4]; 4] = [
            [2.0, -2.0, -1.0, 1.0],
            [-2.0, 2.0, 1.0, -1.0],
            [-1.0, 1.0, 2.0, -2.0],
            [1.0, -1.0, -2.0, 2.0],
        ];
        const ALONG_Y: [[f64; 4]; 4] = [
            [2.0, 1.0, -1.0, -2.0],
            [1.0, 2.0, -2.0, -1.0],
            [-1.0, -2.0, 2.0, 1.0],
            [-2.0, -1.0, 1.0, 2.0],
        ];
        let [w, h] = self.sides;
        let mut all = [[0.0; 4]; 4];
        for (i, row) in all.iter_mut().enumerate() {
            for (j, value) in row.iter_mut().enumerate() {
                *value = (h / w * ALONG_X[i][j] + w / h * ALONG_Y[i][j]) / (6.0 * self.sheet);
            }
        }
        all
    }

    /// What flows into it from each of its corners, in amperes, at these potentials of all nodes.
    pub fn taken(&self, volts: &[f64]) -> [f64; 4] {
        let own = self.corners.map(|corner| volts[corner]);
        let from = |row: [f64; 4]| {
            row.iter()
                .zip(own)
                .map(|(siemens, volts)| siemens * volts)
                .sum()
        };
        self.matrix().map(from)
    }

    /// The slopes along x at the south and the north side, and along y at the west and the east side.
    fn slopes(&self, volts: &[f64]) -> [[f64; 2]; 2] {
        let [sw, se, ne, nw] = self.corners.map(|corner| volts[corner]);
        let [w, h] = self.sides;
        [
            [(se - sw) / w, (ne - nw) / w],
            [(nw - sw) / h, (ne - se) / h],
        ]
    }

    /// The power that it takes.
    fn watts(&self, volts: &[f64]) -> f64 {
        let [w, h] = self.sides;
        // The mean of the square of what runs straight from a to b.
        let square = |[a, b]: [f64; 2]| (a * a + a * b + b * b) / 3.0;
        let slopes = self.slopes(volts).map(square);
        (slopes[0] + slopes[1]) * w * h / self.sheet
    }

    /// The sheet current at a place, by its shares of the way to the east and to the north.
    fn current(&self, volts: &[f64], [east, north]: [f64; 2]) -> [f64; 2] {
        let between = |[a, b]: [f64; 2], share: f64| a + (b - a) * share;
        let [along_x, along_y] = self.slopes(volts);
        [between(along_x, north), between(along_y, east)].map(|slope| -slope / self.sheet)
    }
}

/// The corners of a cell, by its nodes.
pub(super) fn rect_of(cell: &Cell, nodes: &[Node]) -> Rect {
    let [low, high] = [SW, NE].map(|corner| nodes[cell.corners[corner]]);
    [low.x, low.y, high.x, high.y]
}

/// A cell as its elements.
#[derive(Clone, Debug)]
pub(super) struct Patch {
    /// Of the system's; those of a cell that a pad covers are none.
    pub elements: Range<usize>,
    sheet: f64,
    /// In square metres.
    area: f64,
    /// The element that has the cell's centre, and where it lies there; none under a pad.
    centre: Option<(usize, [f64; 2])>,
}

impl Patch {
    /// Of so many rectangles, whose elements begin at `first`.
    pub fn of(whole: Rect, sheet: f64, rects: &[Rect], first: usize) -> Self {
        let metres = |ticks: i64| ticks as f64 * TICK;
        // Twice the centre is a whole number of ticks.
        let centre = [whole[0] + whole[2], whole[1] + whole[3]];
        let is_in = |rect: &Rect, axis: usize| {
            (2 * rect[axis]..=2 * rect[axis + 2]).contains(&centre[axis])
        };
        let at = rects
            .iter()
            .position(|rect| is_in(rect, 0) && is_in(rect, 1));
        let share = |rect: &Rect, axis: usize| {
            let long = rect[axis + 2] - rect[axis];
            (centre[axis] - 2 * rect[axis]) as f64 / (2 * long) as f64
        };
        Patch {
            elements: first..first + rects.len(),
            sheet,
            area: metres(whole[2] - whole[0]) * metres(whole[3] - whole[1]),
            centre: at.map(|at| (first + at, [0, 1].map(|axis| share(&rects[at], axis)))),
        }
    }

    /// What flows at these potentials of all nodes.
    pub fn flow(&self, elements: &[Element], volts: &[f64]) -> Flow {
        let own = elements[self.elements.clone()].iter();
        let watts: f64 = own.map(|element| element.watts(volts)).sum();
        let current = self
            .centre
            .map(|(at, place)| elements[at].current(volts, place));
        Flow {
            watts,
            current: current.unwrap_or_default(),
            sheet_current: (watts / (self.area * self.sheet)).sqrt(),
            sheet: self.sheet,
        }
    }
}
