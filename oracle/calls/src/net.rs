//! A net, and whether it is sound.

use crate::limits::coordinate_in_range;
use crate::sheets::LayerNames;
use crate::ticks::{metres, ticks};
use original::sheet::SheetNetwork;
use std::collections::BTreeSet;

#[derive(Clone, Copy, Debug, Default, PartialEq, Eq, PartialOrd, Ord)]
pub struct Node {
    pub layer: u16,
    pub component: u32,
    pub x: i64,
    pub y: i64,
}

#[derive(Clone, Copy, Debug, Default, PartialEq)]
pub struct Edge {
    pub from: usize,
    pub to: usize,
    pub conductance: f64,
}

#[derive(Clone, Copy, Debug, Default, PartialEq)]
pub struct Cell {
    /// SW, SE, NE, NW.
    pub corners: [usize; 4],
    pub r_sheet: f64,
}

#[derive(Clone, Debug, Default, PartialEq)]
pub struct Net {
    pub nodes: Vec<Node>,
    pub edges: Vec<Edge>,
    pub cells: Vec<Cell>,
}

impl Node {
    pub fn place(&self) -> [i64; 2] {
        [self.x, self.y]
    }

    fn is_in_range(&self) -> bool {
        self.place().into_iter().all(coordinate_in_range)
    }
}

impl Edge {
    pub fn ends(&self) -> [usize; 2] {
        [self.from, self.to]
    }
}

impl Net {
    /// By docs/RULES.md a net is bad if a coordinate is out of range, a cell or edge names a node
    /// not below the count, or a cell's corners aren't SW, SE, NE, NW of a rectangle with positive
    /// sides.
    pub fn is_sound(&self) -> bool {
        let known = |&node: &usize| node < self.nodes.len();
        self.nodes.iter().all(Node::is_in_range)
            && self.edges.iter().all(|edge| edge.ends().iter().all(known))
            && self.cells.iter().all(|cell| cell.corners.iter().all(known))
            && self.cells.iter().all(|cell| self.is_rectangle(cell))
    }

    fn is_rectangle(&self, cell: &Cell) -> bool {
        let [sw, se, ne, nw] = cell.corners.map(|node| self.nodes[node].place());
        let ([x0, y0], [x1, y1]) = (sw, ne);
        x0 < x1 && y0 < y1 && se == [x1, y0] && nw == [x0, y1]
    }

    /// Whether a node hangs: one of a cell's own layer and component stands in the middle of one of
    /// its sides. Asked of sound nets.
    pub fn has_hanging_nodes(&self) -> bool {
        let nodes: BTreeSet<Node> = self.nodes.iter().copied().collect();
        self.cells.iter().any(|cell| self.middles(cell).iter().any(|node| nodes.contains(node)))
    }

    /// The middles of a cell's sides, with the layer and component of its first corner.
    fn middles(&self, cell: &Cell) -> [Node; 4] {
        let [sw, _, ne, _] = cell.corners.map(|node| self.nodes[node]);
        let (mx, my) = (sw.x + (ne.x - sw.x) / 2, sw.y + (ne.y - sw.y) / 2);
        [(mx, sw.y), (ne.x, my), (mx, ne.y), (sw.x, my)].map(|(x, y)| Node { x, y, ..sw })
    }

    /// A sound net as the original holds it.
    pub fn to_original(&self) -> SheetNetwork {
        let mut net = SheetNetwork::default();
        for node in &self.nodes {
            net.physical.push(LayerNames::default().of(node.layer));
            net.component.push(node.component as usize);
            net.x.push(metres(node.x));
            net.y.push(metres(node.y));
        }
        for edge in &self.edges {
            net.edges.push((edge.from as u32, edge.to as u32, edge.conductance));
        }
        for cell in &self.cells {
            net.cells.push(cell.corners.map(|node| node as u32));
            net.cell_r_sheet.push(cell.r_sheet);
        }
        net
    }

    pub fn of_original(net: &SheetNetwork) -> Self {
        Net::of_named(net, LayerNames::default())
    }

    pub fn of_named(net: &SheetNetwork, names: LayerNames) -> Self {
        let node = |n: usize| Node {
            layer: names.layer(&net.physical[n]),
            component: net.component[n].try_into().expect("components have 32 bits here"),
            x: ticks(net.x[n]),
            y: ticks(net.y[n]),
        };
        let edge = |&(from, to, conductance): &(u32, u32, f64)| Edge {
            from: from as usize,
            to: to as usize,
            conductance,
        };
        let cell = |(corners, &r_sheet): (&[u32; 4], &f64)| Cell {
            corners: corners.map(|node| node as usize),
            r_sheet,
        };
        Net {
            nodes: (0..net.x.len()).map(node).collect(),
            edges: net.edges.iter().map(edge).collect(),
            cells: net.cells.iter().zip(&net.cell_r_sheet).map(cell).collect(),
        }
    }
}
