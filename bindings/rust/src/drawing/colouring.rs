//! What gives cells their colours.

use super::cells::colour_of;
use super::figures::figures;
use super::flow::Flows;
use super::scale::{Scale, DEPTH};
use super::Cell;

#[derive(Clone, Debug, PartialEq)]
pub enum Colouring {
    Levels,
    /// One value a cell, and what it is.
    Values {
        words: String,
        all: Vec<f64>,
    },
    Flows(Flows),
}

impl Colouring {
    /// None by level.
    pub fn scale(&self) -> Option<Scale> {
        match self {
            Colouring::Levels => None,
            Colouring::Values { all, .. } => Some(Scale::of(all.iter().copied(), DEPTH)),
            Colouring::Flows(flows) => Some(flows.scale()),
        }
    }

    /// The colour of a cell, by its place among the cells. `scale` is that of all.
    pub fn colour(&self, at: usize, cell: &Cell, scale: Option<Scale>) -> String {
        let value = match self {
            Colouring::Levels => 0.0,
            Colouring::Values { all, .. } => all.get(at).copied().unwrap_or(0.0),
            Colouring::Flows(flows) => flows.value(at),
        };
        match scale {
            Some(scale) => scale.colour(value),
            None => colour_of(cell.level).to_string(),
        }
    }

    /// What stands behind a cell's level when it is pointed at.
    pub fn words(&self, at: usize) -> String {
        match self {
            Colouring::Levels => String::new(),
            Colouring::Values { all, .. } => {
                let value = all.get(at).copied().unwrap_or(0.0);
                format!(", {}", figures(value))
            }
            Colouring::Flows(flows) => flows.cells.get(at).map_or(String::new(), |flowing| {
                let direction = flowing.direction().map(|side| format!(" to the {side}"));
                format!(", {}{}", flowing.words(), direction.unwrap_or_default())
            }),
        }
    }
}
