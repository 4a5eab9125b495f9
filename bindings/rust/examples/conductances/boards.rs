//! The boards of docs/CONDUCTANCES.md: each with what its copper does, and what the net and its cells say.

use leafmesh::columns::{NE, SW};
use leafmesh::solving::{Drive, Spot, System, Terminal, Unsolved};
use leafmesh::{text, Cell, Mesh, Net, Side};
use std::error::Error;

/// What is measured with 1 V from the bottom to the top of component 0.
#[derive(Clone, Copy, Debug, PartialEq)]
pub enum Figure {
    /// Ohms from the bottom to the top.
    Resistance,
    /// Of all cells the largest power over area, as a share of that of an even current.
    Density,
}

/// What the copper has.
#[derive(Clone, Copy, Debug, PartialEq)]
pub enum Copper {
    Known(f64),
    /// By the cells of this board, which are small and all alike.
    Fine(&'static str),
}

/// One board, r_sheet 1 everywhere.
#[derive(Clone, Copy, Debug)]
pub struct Case {
    pub words: &'static str,
    /// In the text form; splits are made and the table is balanced.
    pub board: &'static str,
    pub figure: Figure,
    pub copper: Copper,
}

const STRIP: &str = "level 1\ntarget 8\npolygon 1 0 1\n0 0\n8 0\n8 16\n0 16\n";
const LOWER: &str = "level 1\ntarget 8\npolygon 1 0 1\n0 0\n8 0\n8 16\n0 16\nsplit 0\n";
const BOTH: &str = "level 1\ntarget 8\npolygon 1 0 1\n0 0\n8 0\n8 16\n0 16\nsplit 0 1\n";
const HALF: &str = "level 1\ntarget 8\npolygon 1 0 1\n0 0\n64 0\n64 128\n0 128\n\
    split 0 1 2 3 4 5 6 7 8 9 10 11 12 13 14 15 16 17 18 19 20 21 22 23 24 25 26 27 28 29 30 31\n\
    split 32 33 34 35 36 37 38 39 40 41 42 43 44 45 46 47 48 49 50 51 52 53 54 55 56 57 58 59 60 61 62 63\n";
const NEAR: &str =
    "level 1\ntarget 8\npolygon 1 0 1\n0 0\n8 0\n8 8\n0 8\npolygon 1 1 1\n88 0\n96 0\n96 8\n88 8\n";
const FAR: &str = "level 1\ntarget 8\npolygon 1 0 1\n0 0\n8 0\n8 8\n0 8\n\
    polygon 1 1 1\n8008 0\n8016 0\n8016 8\n8008 8\n";
const HIGHER: &str =
    "level 1\ntarget 8\npolygon 1 0 1\n0 0\n8 0\n8 8\n0 8\npolygon 1 1 1\n88 2\n96 2\n96 10\n88 10\n";
const TOUCHING: &str =
    "level 1\ntarget 8\npolygon 1 0 1\n0 0\n8 0\n8 8\n0 8\npolygon 1 0 1\n8 0\n16 0\n16 8\n8 8\n";
const TWICE: &str =
    "level 1\ntarget 8\npolygon 1 0 1\n0 0\n8 0\n8 8\n0 8\npolygon 1 0 1\n0 0\n8 0\n8 8\n0 8\n";
/// Bands of cells 16, 8 and 16 wide, whose corners don't meet.
const UNEQUAL: &str =
    "level 2\ntarget 16\npolygon 1 0 1\n0 0\n32 0\n32 16\n20 16\n20 32\n32 32\n32 48\n0 48\n0 32\n\
    12 32\n12 16\n0 16\nsplit 2 5\n";
/// The same outline 16 times as large, in cells of a 16th of the neck.
const FINE: &str = "level 0\ntarget 8\npolygon 1 0 1\n0 0\n512 0\n512 256\n320 256\n320 512\n512 512\n512 768\n0 768\n\
    0 512\n192 512\n192 256\n0 256\n";

pub const CASES: [Case; 10] = [
    Case {
        words: "strip 8 by 16, target 8: nothing split",
        board: STRIP,
        figure: Figure::Resistance,
        copper: Copper::Known(2.0),
    },
    Case {
        words: "the same: lower root split",
        board: LOWER,
        figure: Figure::Resistance,
        copper: Copper::Known(2.0),
    },
    Case {
        words: "the same: both split",
        board: BOTH,
        figure: Figure::Resistance,
        copper: Copper::Known(2.0),
    },
    Case {
        words: "strip 64 by 128 in 8 by 16 cells, lower half split: largest density",
        board: HALF,
        figure: Figure::Density,
        copper: Copper::Known(1.0),
    },
    Case {
        words: "square of 8, another component 80 ticks beside it",
        board: NEAR,
        figure: Figure::Resistance,
        copper: Copper::Known(1.0),
    },
    Case {
        words: "the same: 8,000 ticks beside it",
        board: FAR,
        figure: Figure::Resistance,
        copper: Copper::Known(1.0),
    },
    Case {
        words: "the same: 80 ticks beside it, 2 ticks higher",
        board: HIGHER,
        figure: Figure::Resistance,
        copper: Copper::Known(1.0),
    },
    Case {
        words: "two squares of one component that touch",
        board: TOUCHING,
        figure: Figure::Resistance,
        copper: Copper::Known(0.5),
    },
    Case {
        words: "one square drawn twice",
        board: TWICE,
        figure: Figure::Resistance,
        copper: Copper::Known(1.0),
    },
    Case {
        words: "two pads and a neck, bands of unequal cells",
        board: UNEQUAL,
        figure: Figure::Resistance,
        copper: Copper::Fine(FINE),
    },
];

/// A case with its mesh and its net.
pub struct Meshed {
    pub case: Case,
    pub mesh: Mesh,
    pub net: Net,
}

pub fn meshed(case: Case) -> Result<Meshed, Box<dyn Error>> {
    // The last board's bands don't meet, which `Mesh::of_board` refuses.
    let mesh = Mesh::unjudged(&text::parse(case.board)?)?;
    let net = mesh.unjudged_net()?;
    Ok(Meshed { case, mesh, net })
}

/// 1 V from the bottom to the top of component 0.
fn terminals() -> [Terminal; 2] {
    let end = |side| Spot::End {
        layer: 1,
        component: 0,
        side,
    };
    [
        Terminal::new("bottom", end(Side::South), Drive::Volts(0.0)),
        Terminal::new("top", end(Side::North), Drive::Volts(1.0)),
    ]
}

/// The figure by a system made of the net: its conductances, or its cells.
fn figure(meshed: &Meshed, system: &System) -> Result<f64, Box<dyn Error>> {
    let Meshed { case, mesh, net } = meshed;
    let solution = system.solve(&mesh.held(net, &terminals()))?;
    let amperes = solution.watts();
    match case.figure {
        Figure::Resistance => Ok(1.0 / amperes),
        Figure::Density => {
            let watts = mesh.power(net.rows(), &solution.volts)?;
            Ok(largest_density(net, &watts) / (amperes * amperes))
        }
    }
}

/// Of all cells the largest power over area, times the square of the board's width.
fn largest_density(net: &Net, watts: &[f64]) -> f64 {
    let width = net.nodes.iter().map(|node| node.x).max().unwrap_or(0) as f64;
    let density = |(cell, watts): (&Cell, &f64)| {
        let [low, high] = [SW, NE].map(|corner| net.nodes[cell.corners[corner]]);
        let area = (high.x - low.x) as f64 * (high.y - low.y) as f64;
        watts / area * width * width
    };
    net.cells.iter().zip(watts).map(density).fold(0.0, f64::max)
}

pub fn by_net(meshed: &Meshed) -> Result<f64, Box<dyn Error>> {
    figure(meshed, &System::of_net(meshed.net.rows())?)
}

/// None where the cells don't fit together.
pub fn by_cells(meshed: &Meshed) -> Result<Option<f64>, Box<dyn Error>> {
    match System::of_cells(&meshed.net) {
        Ok(system) => figure(meshed, &system).map(Some),
        Err(Unsolved::NoFit { .. }) => Ok(None),
        Err(why) => Err(why.into()),
    }
}

/// What the copper has, known or by many small cells.
pub fn of_copper(case: Case) -> Result<f64, Box<dyn Error>> {
    match case.copper {
        Copper::Known(value) => Ok(value),
        Copper::Fine(board) => {
            let fine = meshed(Case { board, ..case })?;
            by_cells(&fine)?.ok_or_else(|| "the fine cells don't fit together".into())
        }
    }
}

/// The table of the page: a line a case.
pub fn table(all: &[Meshed]) -> Result<String, Box<dyn Error>> {
    let mut lines =
        String::from("| Board | leaves | copper | net | cells |\n|---|---|---|---|---|\n");
    for meshed in all {
        let (copper, net) = (of_copper(meshed.case)?, by_net(meshed)?);
        let cells = by_cells(meshed)?.map_or("no fit".to_string(), |value| format!("{value:.3}"));
        let (words, leaves) = (meshed.case.words, meshed.net.cells.len());
        lines += &format!("| {words} | {leaves} | {copper:.3} | {net:.3} | {cells} |\n");
    }
    Ok(lines)
}
