//! What of a board converges: boards/half_bridge.txt, two layers in millimetres, whose transistors and vias end in
//! footprints. Its resistance on cells that are refined where the power is, round by round, and on cells of four levels
//! round the footprints, against uniform grids of resistors that are written apart from the crate's elements.
//!
//! `cargo run --release --example half_bridge` prints them, and ends with 1 where the grids and the rounds are further
//! apart than 0.3 in 100, or a level is further off than the one before.

#[path = "../shared/output.rs"]
mod output;
mod resistors;

use leafmesh::solving::System;
use leafmesh::text::{self, Whole};
use leafmesh::{Mesh, Pad, Region};
use output::Output;
use std::error::Error;
use std::io::Write;
use std::process::ExitCode;

const BOARD: &str = include_str!("../../../../boards/half_bridge.txt");

/// How far apart resistances may be.
const MOST: f64 = 0.003;

fn main() -> ExitCode {
    output::end("half_bridge", run())
}

fn run() -> Result<(), Box<dyn Error>> {
    let mut out = Output;
    let whole = text::parse_whole(BOARD)?;
    let pitch = whole.lines.pitch.ok_or("a pitch")?;
    let grids = [0.4, 0.2].map(|step| resistors::ohms(&whole, pitch, step));
    let [coarse, fine] = grids;
    // Beside a corner of 270 degrees errors go with the 4/3 power of the step.
    let rate = 2_f64.powf(-4.0 / 3.0);
    let limit = fine + (fine - coarse) * rate / (1.0 - rate);
    for (step, ohms) in [0.4, 0.2].into_iter().zip(grids) {
        writeln!(out, "resistors {step} mm apart: {:.4} mOhm", 1e3 * ohms)?;
    }
    writeln!(out, "and no way apart: {:.4} mOhm", 1e3 * limit)?;

    let mut all = vec![limit];
    let mut mesh = Mesh::of_board(&whole.board)?;
    for round in 0..5 {
        let (ohms, watts) = solved(&whole, &mesh)?;
        writeln!(out, "round {round}: {}", in_words(&mesh, ohms, limit))?;
        all.push(ohms);
        if round < 4 {
            mesh.refine_hottest(&watts, 1.0 / 6.0)?;
        }
    }
    let margin = pitch.target() as i64 / 2;
    let mut last = f64::INFINITY;
    for level in 0..4 {
        let mesh = round_pads(&whole, level, margin)?;
        let (ohms, _) = solved(&whole, &mesh)?;
        writeln!(out, "level {level}: {}", in_words(&mesh, ohms, limit))?;
        let off = (ohms / limit - 1.0).abs();
        if off > last {
            return Err(format!("level {level} is further off than the one before").into());
        }
        last = off;
    }
    let most = all.iter().copied().fold(0.0, f64::max);
    let least = all.iter().copied().fold(f64::INFINITY, f64::min);
    match most / least - 1.0 {
        apart if apart > MOST => Err(format!("{:.2} in 100 apart", 100.0 * apart).into()),
        _ => Ok(()),
    }
}

fn in_words(mesh: &Mesh, ohms: f64, limit: f64) -> String {
    let (leaves, off) = (mesh.head().leaves, 100.0 * (ohms / limit - 1.0));
    format!("{leaves:5} leaves {:.4} mOhm {off:+.2} in 100", 1e3 * ohms)
}

/// Ohms between the two terminals, and the power of each cell.
fn solved(whole: &Whole, mesh: &Mesh) -> Result<(f64, Vec<f64>), Box<dyn Error>> {
    let net = mesh.linked_net(whole.links.rows())?;
    let held = mesh.held(&net, &whole.terminals);
    let solution = System::of_cells(&net)?.solve(&held)?;
    let [from, to] = &solution.terminals[..] else {
        return Err("two terminals".into());
    };
    let watts = solution.cells.iter().map(|cell| cell.watts).collect();
    Ok(((from.volts - to.volts) / from.amperes, watts))
}

/// The board's base cells, refined round each footprint on its layer.
fn round_pads(whole: &Whole, level: u64, margin: i64) -> Result<Mesh, Box<dyn Error>> {
    let mut board = whole.board.clone();
    board.splits.clear();
    let mut mesh = Mesh::of_board(&board)?;
    for Pad { layer, rect, .. } in whole.links.rows().pads()? {
        let [x0, y0, x1, y1] = rect;
        mesh.refine_region(Region {
            rect: [x0 - margin, y0 - margin, x1 + margin, y1 + margin],
            level,
            layer: Some(layer),
        })?;
    }
    mesh.balance()?;
    Ok(mesh)
}
