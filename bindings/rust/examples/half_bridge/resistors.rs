//! A board as grids of resistors: on each layer a node every `step` millimetres, joined to its four neighbours by the
//! copper on both sides of the way. A footprint is one node. Nothing of the mesh and of its elements is used.

use leafmesh::solving::{Drive, Spot};
use leafmesh::text::Whole;
use leafmesh::{Link, Pitch};
use std::collections::{BTreeMap, HashMap};

/// Layer, component, and a place in steps.
type Spot3 = (u16, u32, i64, i64);

/// Resistors between nodes, some of them one.
#[derive(Default)]
struct Grid {
    nodes: HashMap<Spot3, usize>,
    /// From, to, siemens.
    resistors: Vec<(usize, usize, f64)>,
    /// The node that stands for each.
    same: Vec<usize>,
}

impl Grid {
    fn node(&mut self, spot: Spot3) -> usize {
        let next = self.same.len();
        let node = *self.nodes.entry(spot).or_insert(next);
        if node == next {
            self.same.push(next);
        }
        node
    }

    /// The nodes of a copper in a rectangle or on its sides.
    fn inside(&self, layer: u16, component: u32, [x0, y0, x1, y1]: [i64; 4]) -> Vec<usize> {
        let is_in = |&(&(on, of, x, y), _): &(&Spot3, &usize)| {
            (on, of) == (layer, component) && (x0..=x1).contains(&x) && (y0..=y1).contains(&y)
        };
        let mut own: Vec<usize> = self
            .nodes
            .iter()
            .filter(is_in)
            .map(|(_, &node)| node)
            .collect();
        own.sort_unstable();
        own
    }

    fn unite(&mut self, nodes: &[usize]) -> usize {
        let first = nodes[0];
        nodes.iter().for_each(|&node| self.same[node] = first);
        first
    }
}

/// Ohms between the first terminal and the second, both along an edge or over a rectangle.
pub fn ohms(whole: &Whole, pitch: Pitch, step: f64) -> f64 {
    let steps = |ticks: i64| (pitch.millimetres(ticks) / step).round() as i64;
    let mut grid = Grid::default();
    put_copper(whole, &steps, &mut grid);
    let links = whole.links.rows();
    let mut ends: BTreeMap<Link, [usize; 2]> = BTreeMap::new();
    for pad in links.pads().expect("footprints") {
        let nodes = grid.inside(pad.layer, pad.component, pad.rect.map(steps));
        let node = grid.unite(&nodes);
        ends.entry(pad.end.0).or_default()[pad.end.1] = node;
    }
    for (link, [from, to]) in ends {
        let siemens = link.siemens(links).expect("a link");
        grid.resistors.push((from, to, siemens));
    }
    let held: Vec<usize> = (whole.terminals.iter())
        .map(|terminal| {
            let Spot::Rect {
                layer,
                component,
                rect,
            } = terminal.spot
            else {
                panic!("an edge or a rectangle");
            };
            let nodes = grid.inside(layer, component, rect.map(steps));
            grid.unite(&nodes)
        })
        .collect();
    assert!(matches!(whole.terminals[1].drive, Drive::Volts(_)));
    volts_at(&grid, held[0], held[1])
}

/// Each square of copper is half of the resistors along its four sides.
fn put_copper(whole: &Whole, steps: &dyn Fn(i64) -> i64, grid: &mut Grid) {
    let mut rest = &whole.board.points[..];
    for (&[layer, component, count], &sheet) in whole.board.polygons.iter().zip(&whole.board.sheets)
    {
        let (ring, behind) = rest.split_at(count as usize);
        rest = behind;
        let ring: Vec<[i64; 2]> = ring.iter().map(|point| point.map(steps)).collect();
        let most = |axis: usize| ring.iter().map(|point| point[axis]).max().unwrap_or(0);
        let copper = (layer as u16, component as u32);
        for y in 0..most(1) {
            for x in (0..most(0)).filter(|&x| is_inside(&ring, x, y)) {
                let corners = [[x, y], [x + 1, y], [x + 1, y + 1], [x, y + 1]];
                let nodes = corners.map(|[x, y]| grid.node((copper.0, copper.1, x, y)));
                for side in 0..4 {
                    let (from, to) = (nodes[side], nodes[(side + 1) % 4]);
                    grid.resistors.push((from, to, 0.5 / sheet));
                }
            }
        }
    }
}

/// Whether the square from (x, y) to (x + 1, y + 1) is copper: an odd number of edges stand to its right.
fn is_inside(ring: &[[i64; 2]], x: i64, y: i64) -> bool {
    let next = ring.iter().cycle().skip(1);
    let crossed =
        |(a, b): &(&[i64; 2], &[i64; 2])| a[0] > x && a[1].min(b[1]) <= y && y < a[1].max(b[1]);
    ring.iter().zip(next).filter(crossed).count() % 2 == 1
}

/// The potential that 1 A brings about from one node to another at 0 V, by conjugate gradients.
fn volts_at(grid: &Grid, from: usize, to: usize) -> f64 {
    let root = |mut node: usize| {
        while grid.same[node] != node {
            node = grid.same[node];
        }
        node
    };
    let (from, to) = (root(from), root(to));
    let mut own = vec![0.0; grid.same.len()];
    let resistors: Vec<(usize, usize, f64)> = (grid.resistors.iter())
        .map(|&(a, b, g)| (root(a), root(b), g))
        .filter(|(a, b, _)| a != b)
        .collect();
    for &(a, b, g) in &resistors {
        own[a] += g;
        own[b] += g;
    }
    let times = |volts: &[f64]| {
        let mut amperes = vec![0.0; volts.len()];
        for &(a, b, g) in &resistors {
            let current = g * (volts[a] - volts[b]);
            amperes[a] += current;
            amperes[b] -= current;
        }
        amperes[to] = 0.0;
        amperes
    };
    let scaled = |rest: &[f64]| -> Vec<f64> {
        let each = rest.iter().zip(&own);
        each.map(|(rest, own)| if *own > 0.0 { rest / own } else { 0.0 })
            .collect()
    };
    let dot = |a: &[f64], b: &[f64]| -> f64 { a.iter().zip(b).map(|(a, b)| a * b).sum() };
    let mut volts = vec![0.0; own.len()];
    let mut rest = vec![0.0; own.len()];
    rest[from] = 1.0;
    let mut way = scaled(&rest);
    let mut size = dot(&rest, &way);
    let end = 1e-22 * size;
    while size > end {
        let pull = times(&way);
        let step = size / dot(&way, &pull);
        volts
            .iter_mut()
            .zip(&way)
            .for_each(|(volts, way)| *volts += step * way);
        rest.iter_mut()
            .zip(&pull)
            .for_each(|(rest, pull)| *rest -= step * pull);
        let next = scaled(&rest);
        let grown = dot(&rest, &next);
        way.iter_mut()
            .zip(&next)
            .for_each(|(way, next)| *way = next + grown / size * *way);
        size = grown;
    }
    volts[from] - volts[to]
}
