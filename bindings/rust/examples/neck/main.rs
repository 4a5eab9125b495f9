//! A neck between two pads, from an outline in millimetres on: refined where the most power is, round by round, each
//! round solved twice on the same cells, by bilinear elements and by the net's conductances, and both held against the
//! middle of two bounds that a fine uniform grid gives.
//!
//! `cargo run --release --example neck FOLDER` leaves pictures of the last but one round there, neck.svg (its mesh),
//! neck-power.svg (power density at 10 A) and neck-borders.svg (the same with the borders of its cells), and neck.vtk
//! for ParaView; without a folder it prints only.

#[path = "../shared/output.rs"]
mod output;
mod pictures;
mod uniform;

use leafmesh::solving::{Drive, Solution, Spot, System, Terminal};
use leafmesh::{Mesh, Pitch, Polygons, Settings, Side};
use output::Output;
use std::env;
use std::error::Error;
use std::io::Write;
use std::process::ExitCode;

/// In millimetres.
const PITCH: f64 = 1.0;
const MAX_LEVEL: u64 = 6;
/// Copper of 35 micrometres, in ohms a square.
const SHEET: f64 = 0.5e-3;
/// Through the neck, for the pictures.
const AMPERES: f64 = 10.0;
const ROUNDS: usize = 8;
/// The round of the pictures.
const PICTURED: usize = 7;
/// A round splits so many of the leaves, those of the largest power.
const SHARE: f64 = 1.0 / 6.0;
/// Squares of the uniform grids along one pitch.
const FINE: [usize; 2] = [16, 32];

/// Pads of 12 by 6 mm and a neck of 2 by 6 mm between them. The first edge is the lower end.
const OUTLINE: [[f64; 2]; 12] = [
    [0.0, 0.0],
    [12.0, 0.0],
    [12.0, 6.0],
    [7.0, 6.0],
    [7.0, 12.0],
    [12.0, 12.0],
    [12.0, 18.0],
    [0.0, 18.0],
    [0.0, 12.0],
    [5.0, 12.0],
    [5.0, 6.0],
    [0.0, 6.0],
];

/// The edge of the outline that is its upper end.
const UPPER: usize = 6;

fn main() -> ExitCode {
    output::end("neck", run())
}

fn run() -> Result<(), Box<dyn Error>> {
    let mut out = Output;
    let mut squares = 0.0;
    for fine in FINE {
        let [low, high] = uniform::bounds(&OUTLINE, UPPER, PITCH / fine as f64)?;
        squares = (low + high) / 2.0;
        writeln!(
            out,
            "uniform grid of {fine} by {fine} cells a pitch: {low:.4} to {high:.4} squares, middle {squares:.4}"
        )?;
    }
    writeln!(out, "round leaves   elements, in 100 off   net, in 100 off")?;
    let mut mesh = base_cells()?;
    for round in 0..=ROUNDS {
        let net = mesh.net()?;
        let held = mesh.held(&net, &terminals());
        let solution = System::of_cells(&net)?.solve(&held)?;
        let by_net = System::of_net(net.rows())?.solve(&held)?;
        let [cells, edges] = [&solution, &by_net].map(squares_of);
        let off = |own: f64| 100.0 * (own / squares - 1.0);
        writeln!(
            out,
            "{round:5} {:6}   {cells:8.4} {:+13.2}   {edges:8.4} {:+8.2}",
            net.cells.len(),
            off(cells),
            off(edges)
        )?;
        if let (PICTURED, Some(folder)) = (round, env::args().nth(1)) {
            pictures::put(&folder, &mesh, &net, &held, &solution)?;
        }
        let watts: Vec<f64> = solution.cells.iter().map(|cell| cell.watts).collect();
        mesh.refine_hottest(&watts, SHARE)?;
    }
    Ok(())
}

/// The base cells of the outline: every one a square of one pitch.
fn base_cells() -> Result<Mesh, Box<dyn Error>> {
    let pitch = Pitch::new(PITCH, MAX_LEVEL)?;
    let settings = Settings {
        max_level: MAX_LEVEL,
        cap: 256,
        target: pitch.target(),
    };
    let mut polygons = Polygons::default();
    polygons.push(1, 0, SHEET, &pitch.ring(&OUTLINE)?);
    Ok(Mesh::new(settings, &[], polygons)?)
}

/// A current from the bottom to the top.
fn terminals() -> [Terminal; 2] {
    let end = |side| Spot::End {
        layer: 1,
        component: 0,
        side,
    };
    [
        Terminal::new("in", end(Side::South), Drive::Amperes(AMPERES)),
        Terminal::new("out", end(Side::North), Drive::Volts(0.0)),
    ]
}

/// The resistance in squares.
fn squares_of(solution: &Solution) -> f64 {
    let into = &solution.terminals[0];
    into.volts / into.amperes / SHEET
}
