//! From outline to picture: two pads joined by a neck that lies across, refined where the neck is, balanced, made a
//! net, and solved on its cells at 10 A.
//!
//! `cargo run --example outline_to_net FILE.svg` leaves a picture there; without a file it prints only.

#[path = "shared/output.rs"]
mod output;

use leafmesh::drawing::{Picture, Quantity};
use leafmesh::solving::{Drive, Spot, System, Terminal};
use leafmesh::{Mesh, Pitch, Polygons, Region, Settings, Side};
use output::Output;
use std::env;
use std::error::Error;
use std::fs;
use std::io::Write;
use std::process::ExitCode;

/// Pads of 6 by 4 and 5 by 4 mm, and a neck of 2 by 0.4 mm between them, below the middle.
const OUTLINE: [[f64; 2]; 12] = [
    [0.0, 0.0],
    [6.0, 0.0],
    [6.0, 1.2],
    [8.0, 1.2],
    [8.0, 0.0],
    [13.0, 0.0],
    [13.0, 4.0],
    [8.0, 4.0],
    [8.0, 1.6],
    [6.0, 1.6],
    [6.0, 4.0],
    [0.0, 4.0],
];

fn main() -> ExitCode {
    output::end("outline_to_net", run())
}

fn run() -> Result<(), Box<dyn Error>> {
    // The outline, in base cells of 0.2 mm that can be split four times; copper of 35 micrometres.
    let pitch = Pitch::new(0.2, 4)?;
    let mut polygons = Polygons::default();
    polygons.push(1, 0, 0.5e-3, &pitch.ring(&OUTLINE)?);
    let settings = Settings {
        max_level: 4,
        cap: 256,
        target: pitch.target(),
    };
    let mut mesh = Mesh::new(settings, &[], polygons)?;

    // Finer cells in the neck and round its ends, and no two neighbours more than one level apart.
    let [[x0, y0], [x1, y1]] = [pitch.point([5.6, 0.8])?, pitch.point([8.4, 2.0])?];
    mesh.refine_region(Region {
        rect: [x0, y0, x1, y1],
        level: 3,
        layer: None,
    })?;
    mesh.balance()?;
    let net = mesh.net()?;

    // 10 A from the left end to the right one, solved on the cells.
    let end = |side| Spot::End {
        layer: 1,
        component: 0,
        side,
    };
    let terminals = [
        Terminal::new("in", end(Side::West), Drive::Amperes(10.0)),
        Terminal::new("out", end(Side::East), Drive::Volts(0.0)),
    ];
    let held = mesh.held(&net, &terminals);
    let solution = System::of_cells(&net)?.solve(&held)?;

    let mut out = Output;
    writeln!(
        out,
        "{} leaves, {} nodes, {} edges",
        net.cells.len(),
        net.nodes.len(),
        net.edges.len()
    )?;
    for at in &solution.terminals {
        let (name, millivolts) = (&at.terminal, 1e3 * at.volts);
        writeln!(out, "{name}: {millivolts:.3} mV, {:.3} A", at.amperes)?;
    }
    writeln!(out, "{:.4} W in all", solution.watts())?;
    if let Some((leaf, flow)) = solution.hottest(&mesh) {
        let (watts, amperes) = (flow.watts, flow.sheet_current / 1e3);
        let [x, y] = [leaf.rect[0], leaf.rect[1]].map(|at| pitch.millimetres(at));
        writeln!(
            out,
            "hottest: leaf {} at ({x:.3} mm, {y:.3} mm), {:.3} mW, {amperes:.1} A/mm",
            leaf.id,
            1e3 * watts
        )?;
    }

    if let Some(file) = env::args().nth(1) {
        let picture = Picture::of_mesh("A neck between two pads", &mesh, net.rows())?
            .by_flow(&mesh, &solution, Quantity::PowerDensity)
            .with_terminals(&net.nodes, &held, &solution.terminals);
        fs::write(&file, picture.svg()).map_err(|why| format!("{file}: {why}"))?;
    }
    Ok(())
}
