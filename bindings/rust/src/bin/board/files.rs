//! Files of a mesh for other programs.

use crate::{given, TERMINAL};
use leafmesh::field::{Field, Flows};
use leafmesh::tool::{By, Command, Given, Solved, Stop, Switch, Takes, Words, SNAP};
use leafmesh::{csv, msh, vtk, Mesh, Net, Refusal};

/// What flows goes into the file, too.
const POWER: Switch = ("--power", Takes::Nothing);

pub const VTK: Command = Command {
    name: "vtk",
    help: concat!(
        "\
usage: board vtk [FILE] [--power] [--terminal WORDS] ..
                    [--snap PITCH] [-o FILE]

The mesh as a file for ParaView (VTK's legacy form): leaves as quads, links as
lines.

  --power           with what flows between the terminals: watts, W_per_mm2,
                    A_per_mm, current_A_per_mm, volts, link_amperes
",
        terminal_help!(),
        snap_help!()
    ),
    switches: &[POWER, TERMINAL, SNAP],
    make: |words| of_mesh(words, vtk::of_linked_mesh),
};

pub const MSH: Command = Command {
    name: "msh",
    help: concat!(
        "\
usage: board msh [FILE] [--power] [--terminal WORDS] ..
                    [--snap PITCH] [-o FILE]

The mesh as a file for Gmsh (form 4.1): leaves as quads, links as lines, a
physical group for each component of a layer and one for the links.

  --power           with what flows between the terminals, as in the file for
                    ParaView
",
        terminal_help!(),
        snap_help!()
    ),
    switches: &[POWER, TERMINAL, SNAP],
    make: |words| of_mesh(words, msh::of_mesh),
};

pub const CSV: Command = Command {
    name: "csv",
    help: concat!(
        "\
usage: board csv [FILE] [--power] [--terminal WORDS] ..
                    [--snap PITCH] [-o FILE]

A line a leaf, behind a heading: its names, its sides in millimetres or ticks,
its sheet resistance.

  --power           with its power, W/mm2, A/mm, and the current along x and
                    along y at its centre
",
        terminal_help!(),
        snap_help!()
    ),
    switches: &[POWER, TERMINAL, SNAP],
    make: table,
};

/// A file of the mesh, and of what flows if that is asked for.
fn of_mesh(
    words: &Words,
    file: impl Fn(&Mesh, &Net, &[Field]) -> Result<String, Refusal>,
) -> Result<Vec<u8>, Stop> {
    let (given, solved) = read(words)?;
    let text = match solved {
        Some(Solved {
            mesh,
            net,
            solution,
            ..
        }) => file(&mesh, &net, &Flows::of(&mesh, &solution).fields()),
        None => {
            let (mesh, net) = given.mesh()?;
            file(&mesh, &net, &[])
        }
    };
    Ok(text.map_err(|why| given.said(&why))?.into_bytes())
}

fn table(words: &Words) -> Result<Vec<u8>, Stop> {
    let (given, solved) = read(words)?;
    let pitch = given.pitch();
    let text = match solved {
        Some(Solved {
            mesh,
            net,
            solution,
            ..
        }) => csv::of_mesh(&mesh, net.rows(), pitch, &solution.cells),
        None => {
            let (mesh, net) = given.mesh()?;
            csv::of_mesh(&mesh, net.rows(), pitch, &[])
        }
    };
    Ok(text.map_err(|why| given.said(&why))?.into_bytes())
}

/// The board, and what flows if that is asked for.
fn read(words: &Words) -> Result<(Given, Option<Solved>), Stop> {
    let is_asked = words.has(POWER.0);
    if !is_asked && words.has(TERMINAL.0) {
        let why = "--terminal says nothing without --power";
        return Err(Stop::Senseless(why.to_string()));
    }
    let given = given(words)?;
    let solved = is_asked.then(|| given.solved(By::Cells, POWER.0));
    let solved = solved.transpose()?;
    Ok((given, solved))
}
