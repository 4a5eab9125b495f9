//! A mesh as a file that ParaView reads: VTK's legacy form, as text. Leaves are quads in metres, each layer at a
//! height of its own; level, polygon, layer, component and ohms a square stand with the cells, hanging nodes with
//! the points. Links are lines between their nodes, behind the leaves.

use crate::grid::{leaves_of, places, with_links, NUMBERS};
use crate::sides::hanging;
use crate::{Edge, Leaf, Mesh, Net, NetRows, Refusal};
use std::fmt::{self, Write};

pub use crate::field::Field;

/// The file of a mesh and its net, with more fields of one's own. A name's blanks become low lines; a field of another
/// length is left out.
///
/// # Errors
///
/// Those of [`NetRows::judge`]; [`Reason::BadTable`](crate::Reason::BadTable) of another mesh's net.
pub fn of_mesh(mesh: &Mesh, net: NetRows, fields: &[Field]) -> Result<String, Refusal> {
    of_rows(mesh, net, &[], fields)
}

/// The same with the net's links as lines behind the leaves, and what they conduct as the field siemens. Where links
/// have no value, as no level, they have -1; of the caller's own fields they have 0.
///
/// # Errors
///
/// Those of [`of_mesh`].
pub fn of_linked_mesh(mesh: &Mesh, net: &Net, fields: &[Field]) -> Result<String, Refusal> {
    of_rows(mesh, net.rows(), &net.links_as_given(), fields)
}

fn of_rows(mesh: &Mesh, net: NetRows, links: &[Edge], fields: &[Field]) -> Result<String, Refusal> {
    let leaves = leaves_of(mesh, net)?;
    let hangs = hanging(net)?;
    let mut text = String::new();
    put(&leaves, &hangs, net, links, fields, &mut text).expect("a string takes all text");
    Ok(text)
}

fn put(
    leaves: &[Leaf],
    hangs: &[usize],
    net: NetRows,
    links: &[Edge],
    fields: &[Field],
    text: &mut String,
) -> fmt::Result {
    let nodes = net.nodes.len();
    put_grid(net, links, text)?;
    writeln!(text, "CELL_DATA {}", leaves.len() + links.len())?;
    put_leaves(leaves, links, text)?;
    for field in fields {
        put_of_cells(field, [leaves.len(), links.len()], text)?;
    }
    writeln!(text, "POINT_DATA {nodes}")?;
    let hangs = |at: usize| f64::from(u8::from(hangs.binary_search(&at).is_ok()));
    put_field("hanging", (0..nodes).map(hangs), text)?;
    for field in fields {
        match field {
            Field::Nodes(name, all) if all.len() == nodes => {
                put_field(name, all.iter().copied(), text)?;
            }
            _ => {}
        }
    }
    Ok(())
}

/// Nodes in metres, leaves as quads, links as lines.
fn put_grid(net: NetRows, links: &[Edge], text: &mut String) -> fmt::Result {
    let cells = net.cells.len();
    writeln!(
        text,
        "# vtk DataFile Version 3.0\nleafmesh\nASCII\nDATASET UNSTRUCTURED_GRID"
    )?;
    writeln!(text, "POINTS {} double", net.nodes.len())?;
    for [x, y, height] in places(net) {
        writeln!(text, "{x} {y} {height}")?;
    }
    let all = cells + links.len();
    writeln!(text, "CELLS {all} {}", 5 * cells + 3 * links.len())?;
    for cell in net.cells {
        let [sw, se, ne, nw] = cell.corners;
        writeln!(text, "4 {sw} {se} {ne} {nw}")?;
    }
    for link in links {
        writeln!(text, "2 {} {}", link.from, link.to)?;
    }
    writeln!(text, "CELL_TYPES {all}")?;
    (0..cells).try_for_each(|_| writeln!(text, "9"))?;
    links.iter().try_for_each(|_| writeln!(text, "3"))
}

/// What every leaf has, and every link.
fn put_leaves(leaves: &[Leaf], links: &[Edge], text: &mut String) -> fmt::Result {
    for (name, number) in NUMBERS {
        let own = leaves.iter().map(number);
        put_field(name, own.chain(links.iter().map(|_| -1.0)), text)?;
    }
    if links.is_empty() {
        return Ok(());
    }
    let none = leaves.iter().map(|_| 0.0);
    let conductances = links.iter().map(|link| link.conductance);
    put_field("siemens", none.chain(conductances), text)
}

fn put_of_cells(field: &Field, counts: [usize; 2], text: &mut String) -> fmt::Result {
    match field {
        Field::Cells(name, all) => match with_links(all, counts) {
            Some(all) => put_field(name, all, text),
            None => Ok(()),
        },
        Field::Vectors(name, all) => match with_links(all, counts) {
            Some(mut all) => {
                writeln!(text, "VECTORS {} double", joined(name))?;
                all.try_for_each(|[x, y]| writeln!(text, "{x:?} {y:?} 0"))
            }
            None => Ok(()),
        },
        Field::Nodes(..) => Ok(()),
    }
}

fn put_field(name: &str, mut all: impl Iterator<Item = f64>, text: &mut String) -> fmt::Result {
    let name = joined(name);
    writeln!(text, "SCALARS {name} double 1\nLOOKUP_TABLE default")?;
    all.try_for_each(|value| writeln!(text, "{value:?}"))
}

/// A name in one word, as the form has them.
fn joined(name: &str) -> String {
    name.replace(char::is_whitespace, "_")
}
