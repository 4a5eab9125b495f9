//! A round's mesh and power density, as pictures and as a file for ParaView.

use leafmesh::drawing::{densities, Picture, Quantity};
use leafmesh::solving::{Held, Solution};
use leafmesh::vtk::{self, Field};
use leafmesh::{Mesh, Net};
use std::error::Error;
use std::fs;
use std::path::Path;

pub fn put(
    folder: &str,
    mesh: &Mesh,
    net: &Net,
    held: &[Held],
    solution: &Solution,
) -> Result<(), Box<dyn Error>> {
    let watts: Vec<f64> = solution.cells.iter().map(|cell| cell.watts).collect();
    let densities = densities(mesh, &watts);
    let fields = [
        Field::Cells("W_per_mm2", &densities),
        Field::Nodes("volts", &solution.volts),
    ];
    let rows = net.rows();
    let levels = Picture::of_mesh("A neck between two pads: leaves by level", mesh, rows)?;
    let heat = Picture::of_mesh("A neck between two pads: power density", mesh, rows)?;
    let heat = heat
        .by_flow(mesh, solution, Quantity::PowerDensity)
        .with_terminals(&net.nodes, held, &solution.terminals);
    let folder = Path::new(folder);
    fs::create_dir_all(folder).map_err(|why| format!("{}: {why}", folder.display()))?;
    let keep = |name: &str, text: String| {
        let file = folder.join(name);
        fs::write(&file, text).map_err(|why| format!("{}: {why}", file.display()))
    };
    keep("neck.svg", levels.svg())?;
    keep("neck-power.svg", heat.svg())?;
    keep("neck-borders.svg", heat.with_borders()?.svg())?;
    keep("neck.vtk", vtk::of_mesh(mesh, rows, &fields)?)?;
    Ok(())
}
