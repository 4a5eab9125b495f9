//! Where a current is uneven, so that finer cells would change what flows.

use super::{Flow, Solution};
use crate::{Border, Leaf, LeafBorder, Mesh, Net, Side, TICK};
use std::collections::HashMap;

/// A current is even in a cell where what is uneven takes no more than this share of its power.
const EVEN: f64 = 1e-12;

impl Solution {
    /// Of each cell of a mesh's net the power that it takes, or would if its cells were finer, since the current isn't
    /// the same all over it: what it takes beyond the current at its centre, and what the jumps of the current to the
    /// cells beside it stand for. 0 where the current is even, however much flows there, so that
    /// [`Mesh::refine_hottest`] by these leaves straight copper for the last. Of a solution on the cells.
    ///
    /// A jump across a border of length l counts r_sheet · jump² · l · h / 24 in a cell of size h behind it, which is
    /// the estimate of Kelly and others (1983).
    pub fn uneven_watts(&self, mesh: &Mesh, net: &Net) -> Vec<f64> {
        let leaves: Vec<Leaf> = mesh.leaves().collect();
        let sheet = |at: usize| net.cells[at].sheet;
        let within = |(at, (leaf, flow)): (usize, (&Leaf, &Flow))| {
            let [x, y] = flow.current;
            (flow.watts - (x * x + y * y) * sheet(at) * leaf.area()).max(0.0)
        };
        let cells = leaves.iter().zip(&self.cells);
        let mut all: Vec<f64> = cells.enumerate().map(within).collect();
        let places: HashMap<usize, usize> =
            (0..leaves.len()).map(|at| (leaves[at].id, at)).collect();
        for LeafBorder {
            first,
            second,
            border: Border { side, length },
        } in mesh.borders()
        {
            let both = [places[&first], places[&second]];
            let [a, b] = both.map(|at| &leaves[at]);
            if (a.layer, a.component) != (b.layer, b.component) {
                continue;
            }
            let axis = match side {
                Side::West | Side::East => 0,
                Side::South | Side::North => 1,
            };
            let [from, to] = both.map(|at| self.cells[at].current[axis]);
            for at in both {
                let size = leaves[at].rect[2 + axis] - leaves[at].rect[axis];
                let area = length as f64 * TICK * size as f64 * TICK;
                all[at] += sheet(at) * (from - to) * (from - to) * area / 24.0;
            }
        }
        for (uneven, flow) in all.iter_mut().zip(&self.cells) {
            if *uneven <= EVEN * flow.watts {
                *uneven = 0.0;
            }
        }
        all
    }
}
