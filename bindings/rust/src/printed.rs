//! What leafnet prints, read back: every line, and that all of them are there.

mod corners;

use crate::merging::{first_overlap, Overlap};
use crate::sides::{corners_of, has_side};
use crate::{
    borders, Board, Cell, Edge, Hanging, Head, LeafBorder, Mesh, Net, NetRows, Node, Outlines,
    Point, Polygons, Rect, Refusal, Table, Unmeshed, COORDINATE, MAX_LEVEL, NO_CELL,
};
use std::fmt::Write;

pub use corners::Copper;

/// A leaf line: id, polygon, level, x0, y0, x1, y1.
#[derive(Clone, Copy, Debug, PartialEq)]
pub struct Leaf {
    /// Its id in the table.
    pub id: usize,
    /// The index of its polygon.
    pub polygon: usize,
    /// 0 of a base cell.
    pub level: u64,
    /// In ticks.
    pub rect: Rect,
}

/// What leafnet printed for an accepted board. Every edge names nodes that are there.
#[derive(Clone, Debug, Default, PartialEq)]
pub struct Printed {
    /// In [`Table::leaf_order`](crate::Table::leaf_order).
    pub leaves: Vec<Leaf>,
    /// By their numbers.
    pub nodes: Vec<Node>,
    /// In the order of the net.
    pub edges: Vec<Edge>,
    /// How many of the edges are links, the last ones. What leafnet itself prints has none.
    pub links: usize,
}

impl Printed {
    /// The edges that are links.
    pub fn links(&self) -> &[Edge] {
        &self.edges[self.edges.len().saturating_sub(self.links)..]
    }

    /// The nodes at the corners of each leaf, SW, SE, NE, NW, in the order of the leaves.
    ///
    /// # Errors
    ///
    /// In words: leaves or nodes don't come in leafnet's order.
    pub fn corners(&self) -> Result<Vec<[usize; 4]>, String> {
        let polygons = corners::polygons(self)?.into_iter();
        Ok(polygons.flat_map(|polygon| polygon.corners).collect())
    }

    /// The layer and the component of each leaf, in the order of the leaves. Where several boards have this text, since
    /// a polygon lies on nodes of others alone, they are those of one of them.
    ///
    /// # Errors
    ///
    /// Those of [`Printed::corners`].
    pub fn coppers(&self) -> Result<Vec<Copper>, String> {
        let corners = self.corners()?.into_iter();
        Ok(corners
            .map(|[sw, ..]| Copper::of(&self.nodes[sw]))
            .collect())
    }

    /// The net with its cells. The text doesn't say what sheet resistance they have, so they have 1 ohm a square.
    ///
    /// # Errors
    ///
    /// Those of [`Printed::corners`].
    pub(crate) fn net(&self) -> Result<Net, String> {
        let sheet = 1.0;
        let corners = self.corners()?.into_iter();
        Ok(Net {
            nodes: self.nodes.clone(),
            edges: self.edges.clone(),
            cells: corners.map(|corners| Cell { corners, sheet }).collect(),
            links: self.links,
            ..Net::default()
        })
    }

    /// Every pair of leaves that share a border, as in [`Table::borders`].
    ///
    /// # Errors
    ///
    /// Those of [`borders`], of leaves that leafnet never prints.
    pub fn borders(&self) -> Result<Vec<LeafBorder>, Refusal> {
        let leaves = self.leaves.iter().map(|leaf| (leaf.id, leaf.rect));
        borders(&leaves.collect::<Vec<_>>())
    }
}

/// Reads leafnet's output.
///
/// # Errors
///
/// In words: a refusal, a line that leafnet never prints, a text that isn't whole, an edge of a node that isn't
/// there.
pub fn read(text: &str) -> Result<Printed, String> {
    let mut lines = text.lines().enumerate();
    let totals = match lines.next() {
        Some((_, line)) => totals_of(line)?,
        None => return Err("no text of leafnet: it is empty".to_string()),
    };
    let (totals, links) = totals;
    let mut printed = Printed {
        links,
        ..Printed::default()
    };
    for (index, line) in lines {
        take_line(&mut printed, line)
            .ok_or_else(|| format!("line {}: not a line of leafnet: {line}", index + 1))?;
    }
    let found = [
        printed.leaves.len(),
        printed.nodes.len(),
        printed.edges.len(),
    ];
    for ((name, said), found) in ["leaves", "nodes", "edges"].iter().zip(totals).zip(found) {
        if said != found {
            return Err(format!(
                "not all of leafnet's text: {found} of {said} {name}"
            ));
        }
    }
    if links > printed.edges.len() {
        return Err(format!("line 1: more links than edges: {links}"));
    }
    let mut ends = printed.edges.iter().flat_map(|edge| [edge.from, edge.to]);
    match ends.find(|&end| end >= printed.nodes.len()) {
        Some(end) => Err(format!(
            "not leafnet's text: an edge names node {end}, which isn't there"
        )),
        None => Ok(printed),
    }
}

/// Leaves, nodes and edges that the first line promises; and links, if it says any.
fn totals_of(line: &str) -> Result<([usize; 3], usize), String> {
    if line.starts_with("refused ") {
        return Err(format!("leafnet answered: {line}"));
    }
    let words: Vec<&str> = line.split(' ').collect();
    let number = |word: &str| word.parse::<usize>().ok();
    let (own, links) = match words.as_slice() {
        [own @ .., "links", links] => (own, number(links).filter(|&links| links > 0)),
        own => (own, Some(0)),
    };
    let totals = match own {
        ["cells", _, "leaves", leaves, "nodes", nodes, "edges", edges, "splits", _] => {
            [leaves, nodes, edges].map(|word| number(word))
        }
        _ => [None; 3],
    };
    match (totals, links) {
        ([Some(leaves), Some(nodes), Some(edges)], Some(links)) => {
            Ok(([leaves, nodes, edges], links))
        }
        _ => Err(format!("line 1: not leafnet's totals: {line}")),
    }
}

fn take_line(printed: &mut Printed, line: &str) -> Option<()> {
    let mut words = line.split(' ');
    match words.next()? {
        "leaf" => {
            let [id, polygon, level, x0, y0, x1, y1] = numbers(words)?;
            let sound = [x0, y0, x1, y1].iter().all(in_range) && x0 < x1 && y0 < y1;
            (sound && level <= MAX_LEVEL as i64).then_some(())?;
            printed.leaves.push(Leaf {
                id: usize::try_from(id).ok()?,
                polygon: usize::try_from(polygon).ok()?,
                level: u64::try_from(level).ok()?,
                rect: [x0, y0, x1, y1],
            });
        }
        "node" => {
            let [number, layer, component, x, y] = numbers(words)?;
            let sound = [x, y].iter().all(in_range);
            (sound && usize::try_from(number) == Ok(printed.nodes.len())).then_some(())?;
            printed.nodes.push(Node {
                layer: u16::try_from(layer).ok()?,
                component: u32::try_from(component).ok()?,
                x,
                y,
            });
        }
        "edge" => {
            let [from, to] = numbers(words.by_ref().take(2))?;
            let bits = u64::from_str_radix(words.next()?, 16).ok()?;
            printed.edges.push(Edge {
                from: usize::try_from(from).ok()?,
                to: usize::try_from(to).ok()?,
                conductance: f64::from_bits(bits),
            });
            words.next().is_none().then_some(())?;
        }
        _ => return None,
    }
    Some(())
}

fn in_range(coordinate: &i64) -> bool {
    (-COORDINATE..=COORDINATE).contains(coordinate)
}

fn numbers<'a, const N: usize>(words: impl Iterator<Item = &'a str>) -> Option<[i64; N]> {
    let all: Option<Vec<i64>> = words.map(|word| word.parse().ok()).collect();
    all?.try_into().ok()
}

/// The text that leafnet prints of a board, here of any size: its mesh and net, balanced.
///
/// # Errors
///
/// Those of [`Mesh::of_board`].
pub fn show(board: &Board) -> Result<String, Unmeshed> {
    let mesh = Mesh::unjudged(board)?;
    Ok(show_mesh(board, &mesh, &mesh.net()?))
}

/// The same of a mesh and a net that were made of the board already. Where the net has links, the first line ends with
/// how many.
pub fn show_mesh(board: &Board, mesh: &Mesh, net: &Net) -> String {
    let splits = mesh.splits().count().saturating_sub(board.splits.len());
    let links = match net.links {
        0 => String::new(),
        links => format!(" links {links}"),
    };
    let mut text = format!(
        "cells {} leaves {} nodes {} edges {} splits {splits}{links}\n",
        mesh.head().count,
        mesh.head().leaves,
        net.nodes.len(),
        net.edges.len()
    );
    for leaf in mesh.leaves() {
        let (
            crate::Leaf {
                id, polygon, level, ..
            },
            [x0, y0, x1, y1],
        ) = (leaf, leaf.rect);
        let _ = writeln!(text, "leaf {id} {polygon} {level} {x0} {y0} {x1} {y1}");
    }
    for (number, node) in net.nodes.iter().enumerate() {
        let Node {
            layer,
            component,
            x,
            y,
        } = node;
        let _ = writeln!(text, "node {number} {layer} {component} {x} {y}");
    }
    for edge in &net.edges {
        let bits = edge.conductance.to_bits();
        let _ = writeln!(text, "edge {} {} {bits:016x}", edge.from, edge.to);
    }
    text
}

/// The first node that [`Table::check_by_layer`] names, by polygon, and the leaf's id: the net is wrong there. The text
/// has no table, so every leaf stands as a base cell in one of its polygon's own. Where a polygon can be of several
/// layers and components, each must have such a node.
///
/// # Errors
///
/// In words: those of [`Printed::corners`] and [`Table::check_by_layer`], of a text that leafnet never prints.
pub fn loose(printed: &Printed) -> Result<Option<(usize, Hanging)>, String> {
    for polygon in corners::polygons(printed)? {
        let name = |&copper: &Copper| named(printed, polygon.leaves, copper);
        let found: Result<Vec<_>, Refusal> = polygon.coppers.iter().map(name).collect();
        let found = found.map_err(|why| format!("not leafnet's text: {why}"))?;
        let all: Option<Vec<_>> = found.into_iter().collect();
        if let Some(&one) = all.as_ref().and_then(|all| all.first()) {
            return Ok(Some(one));
        }
    }
    Ok(None)
}

/// What the check names of the leaves of one polygon, if it is of that layer and component.
fn named(
    printed: &Printed,
    leaves: &[Leaf],
    Copper { layer, component }: Copper,
) -> Result<Option<(usize, Hanging)>, Refusal> {
    let root = |leaf: &Leaf| {
        let [x0, y0, x1, y1] = leaf.rect;
        [x0, y0, x1, y1, 0, NO_CELL, NO_CELL, 0]
    };
    let mut row: Vec<i64> = leaves.iter().flat_map(root).collect();
    let head = Head {
        count: leaves.len(),
        leaves: leaves.len(),
        max_level: 0,
    };
    let net = NetRows {
        nodes: &printed.nodes,
        edges: &printed.edges,
        cells: &[],
    };
    let outlines = Outlines {
        layers: &[layer],
        components: &[component],
        sheets: &[],
        counts: &[],
        points: &[],
    };
    let Some(hanging) = Table::of(&mut row, head)?.check_by_layer(net, outlines)? else {
        return Ok(None);
    };
    let place = |node: usize| [printed.nodes[node].x, printed.nodes[node].y];
    let side = [hanging.from, hanging.to].map(place);
    let leaf = leaves.iter().find(|leaf| has_side(leaf.rect, side));
    Ok(leaf.map(|leaf| (leaf.id, hanging)))
}

/// Two leaves of one layer and component that have an area in common, by their ids, the earlier one first, and the
/// place as [`Overlap`] has it. A polygon whose copper may be of several layers or components is passed over.
///
/// # Errors
///
/// In words: the text isn't leafnet's.
pub fn overlapping(printed: &Printed) -> Result<Option<([usize; 2], Point)>, String> {
    let mut ids = Vec::new();
    let mut squares = Polygons::default();
    for polygon in corners::polygons(printed)? {
        if let [Copper { layer, component }] = polygon.coppers[..] {
            for leaf in polygon.leaves {
                ids.push(leaf.id);
                squares.push(layer, component, 1.0, &corners_of(leaf.rect));
            }
        }
    }
    let overlap = first_overlap(squares.outlines());
    Ok(overlap.map(|Overlap { polygons, place }| (polygons.map(|at| ids[at]), place)))
}

/// The text of a net that can be used.
///
/// # Errors
///
/// In words: those of [`read`], [`loose`] and [`overlapping`], and the first leaves or node that these find.
pub fn read_sound(text: &str) -> Result<Printed, String> {
    let printed = read(text)?;
    if let Some(([first, second], [x, y])) = overlapping(&printed)? {
        return Err(format!(
            "leaf {second} overlaps leaf {first} from ({x}, {y}) on: copper of one layer and component is drawn once \
             (`board merge` unites the polygons of a text)"
        ));
    }
    match loose(&printed)? {
        None => Ok(printed),
        Some((leaf, Hanging { node, from, to })) => Err(format!(
            "node {node} stands inside a side of leaf {leaf}, between nodes {from} and {to}, and isn't joined along \
             it: the net is wrong there. Make all coordinates multiples of the base cell, and no strip longer than cap \
             base cells"
        )),
    }
}

/// Whether a text is that of a board, to the last bit.
///
/// # Errors
///
/// In words: the board is refused, or it has another mesh.
pub fn belongs_to(printed: &Printed, board: &Board) -> Result<(), String> {
    is_of(printed, &show(board).map_err(|why| why.to_string())?)
}

/// Whether a text is another one, to the last bit.
///
/// # Errors
///
/// In words: it isn't.
pub fn is_of(printed: &Printed, text: &str) -> Result<(), String> {
    let own = read(text)?;
    if own == *printed {
        Ok(())
    } else {
        Err("the text is of another board than the record".to_string())
    }
}
