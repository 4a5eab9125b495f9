//! A mesh as a file that Gmsh reads: its form 4.1, as text. Leaves are quads in metres, each layer at a height of its
//! own, and links are lines between their nodes; a surface for each polygon and a curve for the links; a physical group
//! each for the copper of a component on a layer, and one for the links. Elements are numbered from 1 on, leaves in the
//! order of the net's cells, then links; nodes from 1 on, too.

use crate::field::Field;
use crate::grid::{leaves_of, places, with_links, NUMBERS};
use crate::{Cell, Edge, Leaf, Mesh, Net, Refusal};
use std::collections::BTreeSet;
use std::fmt::{self, Write};
use std::ops::Range;

/// The file of a mesh and its net with links. What stands with leaves and links in a file of [`vtk`](crate::vtk) are
/// their data, and so are fields of one's own, if they have the right length.
///
/// # Errors
///
/// Those of [`NetRows::judge`](crate::NetRows::judge); [`Reason::BadTable`](crate::Reason::BadTable) of another mesh's
/// net.
pub fn of_mesh(mesh: &Mesh, net: &Net, fields: &[Field]) -> Result<String, Refusal> {
    let leaves = leaves_of(mesh, net.rows())?;
    let mut text = String::new();
    put(&leaves, net, fields, &mut text).expect("a string takes all text");
    Ok(text)
}

/// The numbers that Gmsh has for two kinds of elements.
const LINE: u8 = 1;
const QUAD: u8 = 3;
/// The curve that all links are part of.
const CURVE: usize = 1;

fn put(leaves: &[Leaf], net: &Net, fields: &[Field], text: &mut String) -> fmt::Result {
    let groups = Groups::of(leaves);
    let surfaces = surfaces(leaves, &net.cells);
    let places = places(net.rows());
    writeln!(text, "$MeshFormat\n4.1 0 8\n$EndMeshFormat")?;
    groups.put(net.links > 0, text)?;
    put_entities(&surfaces, &groups, net, &places, text)?;
    put_nodes(&surfaces, &places, text)?;
    put_elements(&surfaces, net, text)?;
    put_leaves(leaves, net, text)?;
    fields
        .iter()
        .try_for_each(|field| put_field(field, net, text))
}

/// A physical group each for a component on a layer, by its number from 1 on; the next number is that of the links.
struct Groups {
    /// Rising.
    coppers: Vec<(u16, u32)>,
}

impl Groups {
    fn of(leaves: &[Leaf]) -> Self {
        let all: BTreeSet<(u16, u32)> = leaves.iter().map(copper_of).collect();
        Groups {
            coppers: all.into_iter().collect(),
        }
    }

    fn number(&self, copper: (u16, u32)) -> usize {
        self.coppers.partition_point(|own| *own < copper) + 1
    }

    fn of_links(&self) -> usize {
        self.coppers.len() + 1
    }

    fn put(&self, with_links: bool, text: &mut String) -> fmt::Result {
        let all = self.coppers.len() + usize::from(with_links);
        writeln!(text, "$PhysicalNames\n{all}")?;
        if with_links {
            writeln!(text, "1 {} \"links\"", self.of_links())?;
        }
        for (number, (layer, component)) in (1..).zip(&self.coppers) {
            writeln!(text, "2 {number} \"layer {layer} component {component}\"")?;
        }
        writeln!(text, "$EndPhysicalNames")
    }
}

fn copper_of(leaf: &Leaf) -> (u16, u32) {
    (leaf.layer, leaf.component)
}

/// A polygon that has leaves.
struct Surface {
    /// The polygon's index, from 1 on.
    number: usize,
    copper: (u16, u32),
    leaves: Range<usize>,
    /// Those that no polygon before has.
    nodes: Range<usize>,
}

/// Leaves stand by polygon, and a net numbers its nodes in the order in which they come to have them.
fn surfaces(leaves: &[Leaf], cells: &[Cell]) -> Vec<Surface> {
    let mut all: Vec<Surface> = Vec::new();
    for (at, (leaf, cell)) in leaves.iter().zip(cells).enumerate() {
        let number = leaf.polygon + 1;
        let first = all.last().map_or(0, |last| last.nodes.end);
        if all.last().map_or(true, |last| last.number != number) {
            all.push(Surface {
                number,
                copper: copper_of(leaf),
                leaves: at..at,
                nodes: first..first,
            });
        }
        if let Some(own) = all.last_mut() {
            let past = cell.corners.iter().max().map_or(0, |last| last + 1);
            own.leaves.end = at + 1;
            own.nodes.end = own.nodes.end.max(past);
        }
    }
    all
}

fn put_entities(
    surfaces: &[Surface],
    groups: &Groups,
    net: &Net,
    places: &[[f64; 3]],
    text: &mut String,
) -> fmt::Result {
    let curves = usize::from(net.links > 0);
    writeln!(text, "$Entities\n0 {curves} {} 0", surfaces.len())?;
    if net.links > 0 {
        let ends = net.links().iter().flat_map(|link| [link.from, link.to]);
        put_entity(
            CURVE,
            groups.of_links(),
            ends.map(|node| places[node]),
            text,
        )?;
    }
    for surface in surfaces {
        let cells = &net.cells[surface.leaves.clone()];
        let corners = cells.iter().flat_map(|cell| cell.corners);
        let group = groups.number(surface.copper);
        put_entity(
            surface.number,
            group,
            corners.map(|node| places[node]),
            text,
        )?;
    }
    writeln!(text, "$EndEntities")
}

/// Its number, the box round its places, its one group, and that nothing bounds it.
fn put_entity(
    number: usize,
    group: usize,
    places: impl Iterator<Item = [f64; 3]>,
    text: &mut String,
) -> fmt::Result {
    let mut least = [f64::INFINITY; 3];
    let mut most = [f64::NEG_INFINITY; 3];
    for place in places {
        for axis in 0..3 {
            least[axis] = least[axis].min(place[axis]);
            most[axis] = most[axis].max(place[axis]);
        }
    }
    write!(text, "{number}")?;
    let mut ends = least.iter().chain(&most);
    ends.try_for_each(|end| write!(text, " {end:?}"))?;
    writeln!(text, " 1 {group} 0")
}

fn put_nodes(surfaces: &[Surface], places: &[[f64; 3]], text: &mut String) -> fmt::Result {
    let count = places.len();
    let blocks = || surfaces.iter().filter(|surface| !surface.nodes.is_empty());
    writeln!(text, "$Nodes\n{} {count} 1 {count}", blocks().count())?;
    for Surface { number, nodes, .. } in blocks() {
        writeln!(text, "2 {number} 0 {}", nodes.len())?;
        for node in nodes.clone() {
            writeln!(text, "{}", node + 1)?;
        }
        for [x, y, height] in &places[nodes.clone()] {
            writeln!(text, "{x:?} {y:?} {height:?}")?;
        }
    }
    writeln!(text, "$EndNodes")
}

fn put_elements(surfaces: &[Surface], net: &Net, text: &mut String) -> fmt::Result {
    let all = net.cells.len() + net.links;
    let blocks = surfaces.len() + usize::from(net.links > 0);
    writeln!(text, "$Elements\n{blocks} {all} 1 {all}")?;
    for Surface { number, leaves, .. } in surfaces {
        writeln!(text, "2 {number} {QUAD} {}", leaves.len())?;
        for at in leaves.clone() {
            let [sw, se, ne, nw] = net.cells[at].corners.map(|node| node + 1);
            writeln!(text, "{} {sw} {se} {ne} {nw}", at + 1)?;
        }
    }
    if net.links > 0 {
        writeln!(text, "1 {CURVE} {LINE} {}", net.links)?;
    }
    for (number, Edge { from, to, .. }) in (net.cells.len() + 1..).zip(net.links()) {
        writeln!(text, "{number} {} {}", from + 1, to + 1)?;
    }
    writeln!(text, "$EndElements")
}

/// What every leaf has, and every link. All elements have it, since some readers take no less.
fn put_leaves(leaves: &[Leaf], net: &Net, text: &mut String) -> fmt::Result {
    let all = leaves.len() + net.links;
    let none = || net.links().iter().map(|_| [-1.0]);
    for (name, number) in NUMBERS {
        let own = leaves.iter().map(|leaf| [number(leaf)]);
        put_data("Element", name, all, own.chain(none()), text)?;
    }
    if net.links == 0 {
        return Ok(());
    }
    let own = leaves.iter().map(|_| [0.0]);
    let links = net.links_as_given();
    let links = links.iter().map(|link| [link.conductance]);
    put_data("Element", "siemens", all, own.chain(links), text)
}

fn put_field(field: &Field, net: &Net, text: &mut String) -> fmt::Result {
    let counts = [net.cells.len(), net.links];
    let all = net.cells.len() + net.links;
    match field {
        Field::Cells(name, values) => match with_links(values, counts) {
            Some(values) => put_data("Element", name, all, values.map(|value| [value]), text),
            None => Ok(()),
        },
        Field::Vectors(name, values) => match with_links(values, counts) {
            Some(values) => {
                let values = values.map(|[x, y]| [x, y, 0.0]);
                put_data("Element", name, all, values, text)
            }
            None => Ok(()),
        },
        Field::Nodes(name, values) if values.len() == net.nodes.len() => {
            let own = values.iter().map(|&value| [value]);
            put_data("Node", name, values.len(), own, text)
        }
        Field::Nodes(..) => Ok(()),
    }
}

/// So many elements or nodes with their values, behind one tag in words, one of time, and three whole ones: a step in
/// time, how many values each has, and how many have values.
fn put_data<const N: usize>(
    of: &str,
    name: &str,
    count: usize,
    all: impl Iterator<Item = [f64; N]>,
    text: &mut String,
) -> fmt::Result {
    let name = name.replace('"', "'");
    writeln!(text, "${of}Data\n1\n\"{name}\"\n1\n0\n3\n0\n{N}\n{count}")?;
    for (number, values) in (1..).zip(all) {
        write!(text, "{number}")?;
        values
            .iter()
            .try_for_each(|value| write!(text, " {value:?}"))?;
        writeln!(text)?;
    }
    writeln!(text, "$End{of}Data")
}
