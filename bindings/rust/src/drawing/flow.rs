//! What flows in the cells of a picture: power over area and sheet current, side by side.

use super::figures::figures;
use super::scale::{Depth, Scale, DEPTH};
use crate::solving::{place_of_most, Flow, Solution};
use crate::{Leaf, Mesh};
use std::f64::consts::FRAC_PI_4;

/// What colours the cells of a picture by what flows in them.
#[derive(Clone, Copy, Debug, PartialEq, Eq)]
pub enum Quantity {
    /// Power over area, in W/mm2.
    PowerDensity,
    /// Sheet current, in A/mm: the square root of the mean of its square over the cell.
    SheetCurrent,
}

impl Quantity {
    pub(super) fn words(self) -> &'static str {
        match self {
            Quantity::PowerDensity => "power density",
            Quantity::SheetCurrent => "sheet current",
        }
    }

    pub(super) fn unit(self) -> &'static str {
        match self {
            Quantity::PowerDensity => "W/mm2",
            Quantity::SheetCurrent => "A/mm",
        }
    }

    pub(super) fn other(self) -> Self {
        match self {
            Quantity::PowerDensity => Quantity::SheetCurrent,
            Quantity::SheetCurrent => Quantity::PowerDensity,
        }
    }

    /// Power goes with the square of the current, so that both have the same colours.
    fn depth(self) -> Depth {
        match self {
            Quantity::PowerDensity => DEPTH,
            Quantity::SheetCurrent => Depth {
                most: DEPTH.most.sqrt(),
                least: DEPTH.least.sqrt(),
            },
        }
    }
}

/// What flows in a cell.
#[derive(Clone, Copy, Debug, PartialEq)]
pub struct Flowing {
    /// In W/mm2.
    density: f64,
    /// In A/mm.
    current: f64,
    /// Along x and y.
    towards: [f64; 2],
}

impl Flowing {
    fn of(leaf: &Leaf, flow: &Flow) -> Self {
        Flowing {
            density: density(leaf, flow.watts),
            current: flow.sheet_current * 1e-3,
            towards: flow.current,
        }
    }

    fn value(&self, quantity: Quantity) -> f64 {
        match quantity {
            Quantity::PowerDensity => self.density,
            Quantity::SheetCurrent => self.current,
        }
    }

    /// Both, with their units.
    pub fn words(&self) -> String {
        let [density, current] = [self.density, self.current].map(figures);
        format!("{density} W/mm2, {current} A/mm")
    }

    /// The nearest of eight directions; none where nothing flows.
    pub fn direction(&self) -> Option<&'static str> {
        const ALL: [&str; 8] = [
            "east",
            "north-east",
            "north",
            "north-west",
            "west",
            "south-west",
            "south",
            "south-east",
        ];
        let [x, y] = self.towards;
        let eighths = (y.atan2(x) / FRAC_PI_4).round();
        let flows = self.current > 0.0 && x.hypot(y) > 0.0;
        flows.then(|| ALL[eighths.rem_euclid(8.0) as usize])
    }
}

/// Watts over square millimetres of a leaf.
fn density(leaf: &Leaf, watts: f64) -> f64 {
    watts / (leaf.area() * 1e6)
}

/// Watts over square millimetres of each leaf of a mesh, from the watts of a net's cells.
pub fn densities(mesh: &Mesh, watts: &[f64]) -> Vec<f64> {
    let leaves = mesh.leaves().zip(watts);
    leaves.map(|(leaf, &watts)| density(&leaf, watts)).collect()
}

/// What flows in all cells, and which quantity colours them.
#[derive(Clone, Debug, PartialEq)]
pub struct Flows {
    pub quantity: Quantity,
    pub cells: Vec<Flowing>,
    /// Which cells stand at a link of one node ([`Solution::left_out`]).
    pub left_out: Vec<bool>,
    /// Ohms a square, where all cells have as many.
    sheet: Option<f64>,
}

impl Flows {
    pub fn of(mesh: &Mesh, solution: &Solution, quantity: Quantity) -> Self {
        let leaves: Vec<Leaf> = mesh.leaves().collect();
        let cells = leaves.iter().zip(&solution.cells);
        let sheet = solution.cells.first().map(|cell| cell.sheet);
        Flows {
            quantity,
            cells: cells.map(|(leaf, flow)| Flowing::of(leaf, flow)).collect(),
            left_out: solution.left_out(mesh),
            sheet: sheet.filter(|&sheet| solution.cells.iter().all(|cell| cell.sheet == sheet)),
        }
    }

    /// The value that colours a cell.
    pub fn value(&self, cell: usize) -> f64 {
        let flowing = self.cells.get(cell);
        flowing.map_or(0.0, |flowing| flowing.value(self.quantity))
    }

    pub fn scale(&self) -> Scale {
        let values = self.cells.iter().map(|cell| cell.value(self.quantity));
        Scale::of(values, self.quantity.depth())
    }

    /// The scale of the other quantity, where it follows from that of the first.
    pub fn other_scale(&self) -> Option<Scale> {
        let sheet = self.sheet?;
        let other = |value: f64| match self.quantity {
            Quantity::PowerDensity => (value / sheet).sqrt(),
            Quantity::SheetCurrent => value * value * sheet,
        };
        Some(self.scale().by(other))
    }

    /// The cell with the most of a quantity, as [`Solution::hottest`]. None where there is none of it.
    pub fn most(&self, quantity: Quantity) -> Option<usize> {
        let value = |(cell, &is_out): (&Flowing, &bool)| match is_out {
            true => 0.0,
            false => cell.value(quantity),
        };
        let values: Vec<f64> = self.cells.iter().zip(&self.left_out).map(value).collect();
        place_of_most(values.into_iter())
    }
}

#[cfg(test)]
mod tests {
    use super::*;

    fn flowing(current: f64, towards: [f64; 2]) -> Flowing {
        Flowing {
            density: 0.0,
            current,
            towards,
        }
    }

    #[test]
    fn a_current_flows_to_the_nearest_of_eight_sides() {
        for (towards, direction) in [
            ([1.0, 0.0], Some("east")),
            ([1.0, 0.3], Some("east")),
            ([1.0, 0.9], Some("north-east")),
            ([0.0, 2.0], Some("north")),
            ([-1.0, 1.0], Some("north-west")),
            ([-1.0, -0.0], Some("west")),
            ([-1.0, -1.0], Some("south-west")),
            ([0.0, -1.0], Some("south")),
            ([1.0, -1.0], Some("south-east")),
            ([1.0, -0.1], Some("east")),
            ([0.0, 0.0], None),
        ] {
            assert_eq!(flowing(1.0, towards).direction(), direction, "{towards:?}");
        }
        assert_eq!(flowing(0.0, [1.0, 0.0]).direction(), None);
    }
}
