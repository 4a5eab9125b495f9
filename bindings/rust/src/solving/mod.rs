//! Potentials, currents and powers on the cells of a net, where terminals are held: the solver that comes with the
//! crate. It is tested and not proved, and a solver of your own may take its place.
//!
//! Two systems are made of the same net. [`System::of_cells`] takes the cells as bilinear elements, with a node at the
//! middle of a cell's side tied to the mean of the side's ends, and the net's links between them. [`System::of_net`]
//! takes the net's conductances, which are the original's and not the copper's at a change of level
//! (docs/CONDUCTANCES.md).
//!
//! ```
//! use leafmesh::solving::{Drive, Spot, System, Terminal};
//! use leafmesh::{text, Mesh, Side};
//!
//! // A strip of two squares, one ohm a square, its lower half split: 2 ohms.
//! let board = text::parse("level 2\ntarget 8\npolygon 1 0 1\n0 0\n8 0\n8 16\n0 16\nsplit 0\n")?;
//! let mesh = Mesh::of_board(&board)?;
//! let net = mesh.net()?;
//! let end = |side| Spot::End { layer: 1, component: 0, side };
//! let terminals = [
//!     Terminal::new("in", end(Side::North), Drive::Amperes(3.0)),
//!     Terminal::new("out", end(Side::South), Drive::Volts(0.0)),
//! ];
//! let solution = System::of_cells(&net)?.solve(&mesh.held(&net, &terminals))?;
//!
//! let [into, out] = &solution.terminals[..] else { unreachable!() };
//! assert!((into.volts - 6.0).abs() < 1e-9 && (out.amperes + 3.0).abs() < 1e-9);
//! assert!((solution.watts() - 18.0).abs() < 1e-9);
//! # Ok::<(), Box<dyn std::error::Error>>(())
//! ```

mod across;
mod element;
mod judging;
mod matrix;
mod pads;
mod terminal;
mod uneven;
mod unknowns;
mod unsolved;

use crate::sides::{corners_of, inside, Inside};
use crate::{Edge, Leaf, Mesh, Net, NetRows, Node, Point, Rect};
use element::{rect_of, Element, Patch};
use judging::off_by;
use matrix::{conjugate_gradients, Entry, Matrix};
use pads::{Corner, Pads};
use std::collections::{BTreeMap, BTreeSet};
use unknowns::Unknowns;

pub use across::{Across, Crossing, Cuts, Line};
pub use element::Flow;
pub use terminal::{Drive, Held, Spot, Terminal};
pub use unsolved::Unsolved;

/// Nodes and their shares.
type Parts = Vec<(usize, f64)>;

/// The currents between the nodes of a net, as a sum of their potentials.
#[derive(Clone, Debug)]
pub struct System {
    /// How many nodes the net has.
    nodes: usize,
    /// The nodes that make up each node, with their shares: itself, or what it is tied to. Behind the net's own stand
    /// those of pads and of the pieces of cells that pads cut.
    parts: Vec<Parts>,
    /// Siemens between the nodes that aren't tied.
    matrix: Matrix,
    elements: Vec<Element>,
    /// Of each cell; none in a system of a net's conductances.
    cells: Vec<Patch>,
    /// What is a conductance: links, or all of a net's edges.
    edges: Vec<Edge>,
    /// The nodes that are all of a link's end.
    lone: Vec<(usize, Node)>,
}

/// What the terminals of a system bring about.
#[derive(Clone, Debug, PartialEq)]
pub struct Solution {
    /// The potential of each node. Those that nothing joins to a terminal are at 0 V.
    pub volts: Vec<f64>,
    /// The same above a level of the node's copper, one for all that is joined: what is small against a potential far
    /// from 0 V isn't lost in it.
    pub above: Vec<f64>,
    /// Of each terminal, in their order.
    pub terminals: Vec<Applied>,
    /// Of each cell; none in a system of a net's conductances.
    pub cells: Vec<Flow>,
    /// Of each link, or of each edge in a system of a net's conductances: amperes from its first node to its second.
    pub edges: Vec<f64>,
    /// The power of these edges, in watts.
    pub edge_watts: Vec<f64>,
    /// Nodes that are all of a link's end ([`Net::lone`]) and of no terminal that has others, too: what flows round them
    /// has no value as the mesh gets finer. None in a system of a net's conductances.
    pub lone: Vec<Node>,
}

/// What stands at a terminal.
#[derive(Clone, Debug, PartialEq)]
pub struct Applied {
    /// Its name.
    pub terminal: String,
    /// Its potential.
    pub volts: f64,
    /// The current into the board; below 0 it comes out.
    pub amperes: f64,
}

impl Solution {
    /// The power of all cells and edges: the sum of potential times current over the terminals, but for what the
    /// iteration left.
    pub fn watts(&self) -> f64 {
        let cells = self.cells.iter().map(|cell| cell.watts);
        cells.chain(self.edge_watts.iter().copied()).sum()
    }

    /// The leaf of the most power for its area, and what flows in it: cell i is leaf i of the mesh that the net is of.
    /// Of several the first; none where no leaf takes power. Leaves at a link of one node ([`Solution::left_out`])
    /// are left out, since they get hotter with each level.
    pub fn hottest(&self, mesh: &Mesh) -> Option<(Leaf, Flow)> {
        let left_out = self.left_out(mesh);
        self.hottest_of(mesh, |at| !left_out[at])
    }

    /// The same of all leaves.
    pub fn hottest_of_all(&self, mesh: &Mesh) -> Option<(Leaf, Flow)> {
        self.hottest_of(mesh, |_| true)
    }

    fn hottest_of(&self, mesh: &Mesh, is_in: impl Fn(usize) -> bool) -> Option<(Leaf, Flow)> {
        let leaves: Vec<(Leaf, Flow)> = mesh.leaves().zip(self.cells.iter().copied()).collect();
        let density = |(at, (leaf, flow)): (usize, &(Leaf, Flow))| match is_in(at) {
            true => flow.watts / leaf.area(),
            false => 0.0,
        };
        let densities: Vec<f64> = leaves.iter().enumerate().map(density).collect();
        place_of_most(densities.into_iter()).map(|at| leaves[at])
    }

    /// Which leaves stand at a link of one node, in their order: those whose base cell has the node inside or on its
    /// sides. Base cells don't get smaller as the mesh gets finer, and so what is left out stays the same copper.
    pub fn left_out(&self, mesh: &Mesh) -> Vec<bool> {
        let is_out = |leaf: Leaf| {
            let root = mesh.name(leaf.id).map_or(leaf.id, |name| name.root);
            let [x0, y0, x1, y1] = mesh.rect(root);
            self.lone.iter().any(|node| {
                (node.layer, node.component) == (leaf.layer, leaf.component)
                    && (x0..=x1).contains(&node.x)
                    && (y0..=y1).contains(&node.y)
            })
        };
        if self.lone.is_empty() {
            return vec![false; mesh.head().leaves];
        }
        mesh.leaves().map(is_out).collect()
    }

    /// The power that the terminals give.
    pub fn given(&self) -> f64 {
        given_by(&self.terminals)
    }
}

/// The power that terminals give. Their currents add up to none, so potentials count from any level: from the middle of
/// them, where what the iteration left of that sum weighs least.
pub(crate) fn given_by(terminals: &[Applied]) -> f64 {
    let volts = || terminals.iter().map(|one| one.volts);
    let lowest = volts().fold(f64::INFINITY, f64::min);
    let highest = volts().fold(f64::NEG_INFINITY, f64::max);
    let middle = (lowest + highest) / 2.0;
    let given = |one: &Applied| (one.volts - middle) * one.amperes;
    terminals.iter().map(given).sum()
}

/// Values that differ by less than this share are alike: rounding may have either the larger.
const ALIKE: f64 = 1e-9;

/// The place of the largest value, of several alike the first. None where none is above 0.
pub(crate) fn place_of_most(mut values: impl Iterator<Item = f64> + Clone) -> Option<usize> {
    let most = values.clone().fold(0.0, f64::max);
    values.position(|value| value > 0.0 && value >= (1.0 - ALIKE) * most)
}

/// The nodes that make up each node, and what stands inside the sides. In a balanced table of aligned bands the ends of a
/// side with a node at its middle never hang themselves: the finer cells beside it would lie two levels below the next.
fn parts_of(net: &Net, pads: &Pads) -> Result<Vec<Parts>, Unsolved> {
    let all = inside(net.rows())?;
    let hangs: BTreeSet<usize> = all.iter().map(|one| one.node).collect();
    let held = |one: &Inside| one.middle && one.ends.iter().all(|end| !hangs.contains(end));
    if let Some(one) = all.iter().find(|one| !held(one)) {
        return Err(Unsolved::NoFit { node: one.node });
    }
    let place = |node: usize| [net.nodes[node].x, net.nodes[node].y];
    let mut parts: Vec<Parts> = (0..net.nodes.len() + pads.count()).map(free).collect();
    for (at, cell) in net.cells.iter().enumerate() {
        for corner in cell.corners {
            if let Some(pad) = pads.at(at, place(corner)) {
                parts[corner] = free(pad);
            }
        }
    }
    for one in &all {
        let ends = one.ends.map(|end| (place(end), &parts[end]));
        parts[one.node] = pads.on_side(one.cell, ends, place(one.node));
    }
    Ok(parts)
}

/// A node that is tied to nothing.
fn free(number: usize) -> Parts {
    vec![(number, 1.0)]
}

/// Edges by their conductances.
fn entries_of(edges: &[Edge]) -> Vec<Entry> {
    let entries = |edge: &Edge| {
        let (a, b, g) = (edge.from, edge.to, edge.conductance);
        [(a, a, g), (b, b, g), (a, b, -g), (b, a, -g)]
    };
    edges.iter().flat_map(entries).collect()
}

/// The most pieces of cells that footprints cut: some hundreds of bytes each.
const PIECES: usize = 1_000_000;

/// The elements of all cells, and which are each one's. Nodes that the net doesn't have stand behind the others from now
/// on.
fn elements_of(
    net: &Net,
    pads: &Pads,
    parts: &mut Vec<Parts>,
) -> Result<(Vec<Element>, Vec<Patch>), Unsolved> {
    let mut cut: usize = 0;
    let mut elements = Vec::with_capacity(net.cells.len());
    let mut cells = Vec::with_capacity(net.cells.len());
    for (at, cell) in net.cells.iter().enumerate() {
        let whole = rect_of(cell, &net.nodes);
        cut = cut.saturating_add(pads.count_of_pieces(at, whole));
        if cut > PIECES {
            return Err(Unsolved::Crowded { cell: at });
        }
        let pieces = match pads.touch_cell(at) {
            true => pieces_of(pads, at, cell.corners, whole, parts),
            false => vec![(whole, cell.corners)],
        };
        let rects: Vec<Rect> = pieces.iter().map(|(rect, _)| *rect).collect();
        cells.push(Patch::of(whole, cell.sheet, &rects, elements.len()));
        let element = |(rect, corners)| Element::of(corners, rect, cell.sheet);
        elements.extend(pieces.into_iter().map(element));
    }
    Ok((elements, cells))
}

/// The links' edges, by what they conduct as they were given, from pad to pad where their ends have an area.
fn edges_of(net: &Net, pads: &Pads) -> Vec<Edge> {
    let mut edges = net.links_as_given();
    for (edge, joint) in edges.iter_mut().zip(&net.joints) {
        edge.from = pads.of_end((joint.link, 0)).unwrap_or(edge.from);
        edge.to = pads.of_end((joint.link, 1)).unwrap_or(edge.to);
    }
    edges
}

/// The pieces of a cell that pads cut, each with the nodes at its corners; those that the net doesn't have stand behind
/// the others from now on.
fn pieces_of(
    pads: &Pads,
    cell: usize,
    corners: [usize; 4],
    whole: Rect,
    parts: &mut Vec<Parts>,
) -> Vec<(Rect, [usize; 4])> {
    let places = corners_of(whole);
    let own = [0, 1, 2, 3].map(|at| (places[at], &parts[corners[at]]));
    let pieces = pads.pieces(cell, own);
    let mut inner: BTreeMap<Point, usize> = BTreeMap::new();
    let mut node = |corner: Corner| {
        let next = parts.len();
        match corner {
            Corner::Made(own) => parts.push(own),
            Corner::Inner(place) => {
                let number = *inner.entry(place).or_insert(next);
                if number < next {
                    return number;
                }
                parts.push(free(next));
            }
        }
        next
    };
    let pieces = pieces.into_iter();
    pieces
        .map(|piece| (piece.rect, piece.corners.map(&mut node)))
        .collect()
}

impl System {
    /// The net's own conductances; no node is tied.
    ///
    /// # Errors
    ///
    /// [`Unsolved::Refused`] of a net that isn't sound, [`Unsolved::BadConductance`].
    pub fn of_net(net: NetRows) -> Result<Self, Unsolved> {
        net.judge()?;
        let parts = (0..net.nodes.len()).map(free).collect();
        System::of_parts(parts, Vec::new(), net.edges, 0)
    }

    /// The cells as bilinear elements, hanging nodes tied, and the links by what they conduct as they were given
    /// ([`Net::joints`]). An end of a link with an area ([`Net::pads`]) is one potential over it, wherever its border
    /// lies between the cells. Of edges that aren't links nothing is read.
    ///
    /// # Errors
    ///
    /// Those of [`System::of_net`]; [`Unsolved::NoJoints`] where the net doesn't say what its links conduct;
    /// [`Unsolved::Crowded`] where footprints cut its cells into more than a million pieces;
    /// [`Unsolved::NoFit`] where a node stands inside a cell's side and not at its middle:
    /// the table that the net was made of isn't balanced, or its coordinates are no multiples of the base cell.
    pub fn of_cells(net: &Net) -> Result<Self, Unsolved> {
        net.rows().judge()?;
        let (links, joints) = (net.links, net.joints.len());
        if joints != links || links > net.edges.len() {
            return Err(Unsolved::NoJoints { links, joints });
        }
        let pads = Pads::of(net);
        let mut parts = parts_of(net, &pads)?;
        let (elements, cells) = elements_of(net, &pads, &mut parts)?;
        let edges = edges_of(net, &pads);
        let first = net.edges.len() - edges.len();
        let lone = net.lone().into_iter();
        Ok(System {
            nodes: net.nodes.len(),
            cells,
            lone: lone.map(|one| (one.node, net.nodes[one.node])).collect(),
            ..System::of_parts(parts, elements, &edges, first)?
        })
    }

    /// `first` is the place of the first of the edges, in the net.
    fn of_parts(
        parts: Vec<Parts>,
        elements: Vec<Element>,
        edges: &[Edge],
        first: usize,
    ) -> Result<Self, Unsolved> {
        let is_good = |edge: &Edge| edge.conductance.is_finite() && edge.conductance >= 0.0;
        if let Some(at) = edges.iter().position(|edge| !is_good(edge)) {
            return Err(Unsolved::BadConductance { edge: first + at });
        }
        let mut all = entries_of(edges);
        for element in &elements {
            for (&row, values) in element.corners.iter().zip(element.matrix()) {
                let entry = |(&column, value): (&usize, f64)| (row, column, value);
                all.extend(element.corners.iter().zip(values).map(entry));
            }
        }
        let mut tied = Vec::with_capacity(all.len());
        for (row, column, value) in all {
            for &(r, share) in &parts[row] {
                tied.extend(
                    parts[column]
                        .iter()
                        .map(|&(c, other)| (r, c, share * other * value)),
                );
            }
        }
        let matrix = Matrix::of_entries(parts.len(), tied);
        let edges = edges.to_vec();
        Ok(System {
            nodes: parts.len(),
            parts,
            matrix,
            elements,
            cells: Vec::new(),
            edges,
            lone: Vec::new(),
        })
    }

    /// How many nodes the net has.
    pub fn node_count(&self) -> usize {
        self.nodes
    }

    /// The same with those of pads and of the pieces of cells.
    fn count(&self) -> usize {
        self.parts.len()
    }

    /// Whether a node's potential follows from others: from the ends of the side that it hangs on, or from the pad that
    /// it lies in.
    pub fn is_tied(&self, node: usize) -> bool {
        self.own(node) != Some(node)
    }

    /// The node whose potential one has: itself, or that of its pad. None where it follows from several.
    fn own(&self, node: usize) -> Option<usize> {
        match self.parts[node][..] {
            [(own, _)] => Some(own),
            _ => None,
        }
    }

    /// The potentials where terminals are held, by conjugate gradients, and what flows.
    ///
    /// # Errors
    ///
    /// In this order: no terminal; by terminal its drive, a node that isn't there or belongs to another one, none at
    /// all; a terminal with a current and none with a potential to come from; [`Unsolved::NoEnd`] where it takes more
    /// steps than there are nodes several times over; [`Unsolved::Imprecise`] where the currents at the terminals don't
    /// come out, since links have resistances too far from the copper's.
    pub fn solve(&self, held: &[Held]) -> Result<Solution, Unsolved> {
        let unknowns = Unknowns::of(self, held)?;
        let matrix = unknowns.matrix(&self.matrix);
        let found = conjugate_gradients(&matrix, unknowns.right(&self.matrix))
            .map_err(|share| Unsolved::NoEnd { share })?;
        let above = unknowns.potentials(&found);
        let solution = self.solution(held, &above, unknowns.levels());
        let most = unknowns.largest_held() * self.matrix.largest();
        match off_by(held, &solution.terminals, most) {
            Some(share) => Err(Unsolved::Imprecise { share }),
            None => Ok(solution),
        }
    }

    /// What flows at the potentials of the nodes that aren't tied, above their levels.
    fn solution(&self, held: &[Held], above: &[f64], levels: &[f64]) -> Solution {
        let out = self.matrix.times(above);
        let applied = |one: &Held| {
            let own = one.nodes.iter().filter_map(|&node| self.own(node));
            let mut own: Vec<usize> = own.collect();
            own.sort_unstable();
            own.dedup();
            Applied {
                terminal: one.terminal.clone(),
                volts: own.first().map_or(0.0, |&node| levels[node] + above[node]),
                amperes: own.iter().map(|&node| out[node]).sum(),
            }
        };
        let (above, levels) = (self.with_ties(above), self.with_ties(levels));
        let drop = |edge: &Edge| above[edge.from] - above[edge.to];
        let watts = |edge: &Edge| edge.conductance * drop(edge) * drop(edge);
        let flow = |cell: &Patch| cell.flow(&self.elements, &above);
        let volts = levels.iter().zip(&above).take(self.nodes);
        Solution {
            volts: volts.map(|(level, above)| level + above).collect(),
            terminals: held.iter().map(applied).collect(),
            cells: self.cells.iter().map(flow).collect(),
            edges: self
                .edges
                .iter()
                .map(|edge| edge.conductance * drop(edge))
                .collect(),
            edge_watts: self.edges.iter().map(watts).collect(),
            above: above[..self.nodes].to_vec(),
            lone: self.lone_beside(held),
        }
    }

    /// A terminal of several nodes takes what comes in at one of them, so that nothing crowds there.
    fn lone_beside(&self, held: &[Held]) -> Vec<Node> {
        let wide = held.iter().filter(|one| one.nodes.len() > 1);
        let held: BTreeSet<usize> = wide.flat_map(|one| one.nodes.iter().copied()).collect();
        let lone = self.lone.iter().filter(|(node, _)| !held.contains(node));
        lone.map(|&(_, node)| node).collect()
    }

    fn with_ties(&self, volts: &[f64]) -> Vec<f64> {
        let sum = |parts: &Parts| parts.iter().map(|&(at, share)| share * volts[at]).sum();
        self.parts.iter().map(sum).collect()
    }
}
