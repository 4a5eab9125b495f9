//! The reference: the same outline in equal squares, without the library.

use leafmesh::solving::{Drive, Held, System};
use leafmesh::{Cell, Net, Node};
use std::collections::BTreeMap;
use std::error::Error;
use std::ops::Range;

/// Between what the resistance of an outline lies, at one ohm a square, in cells of `side` millimetres, from the edge of
/// the ring that begins at its first point to the one that begins at the point numbered `out`.
///
/// At 1 V between two ends elements never take less power than the copper does, so between the two edges they say a
/// resistance that is too low. What stands between them on the ring are the two sides along which the current flows, and
/// 1 V between those makes potential of current and current of potential: the copper then takes as many watts as its
/// resistance from edge to edge has ohms, and elements say no less.
pub fn bounds(outline: &[[f64; 2]], out: usize, side: f64) -> Result<[f64; 2], Box<dyn Error>> {
    let whole = |length: f64| (length / side).round() as i64;
    let ring: Vec<[i64; 2]> = outline.iter().map(|point| point.map(whole)).collect();
    let most = |axis: usize| ring.iter().map(|point| point[axis]).max().unwrap_or(0);
    let mut numbers: BTreeMap<[i64; 2], usize> = BTreeMap::new();
    let (mut nodes, mut cells) = (Vec::new(), Vec::new());
    for y in 0..most(1) {
        for x in (0..most(0)).filter(|&x| is_inside(&ring, x, y)) {
            let mut number = |[x, y]: [i64; 2]| {
                *numbers.entry([x, y]).or_insert_with(|| {
                    nodes.push(Node {
                        layer: 1,
                        component: 0,
                        x,
                        y,
                    });
                    nodes.len() - 1
                })
            };
            let corners = [[x, y], [x + 1, y], [x + 1, y + 1], [x, y + 1]];
            cells.push(Cell {
                corners: corners.map(&mut number),
                sheet: 1.0,
            });
        }
    }
    let net = Net {
        nodes,
        cells,
        ..Net::default()
    };
    let system = System::of_cells(&net)?;
    let watts = |low: Range<usize>, high: Range<usize>| -> Result<f64, Box<dyn Error>> {
        let held = [(low, 0.0), (high, 1.0)].map(|(edges, volts)| Held {
            terminal: format!("edges {edges:?}"),
            nodes: nodes_on(&ring, edges, &net.nodes),
            drive: Drive::Volts(volts),
        });
        Ok(system.solve(&held)?.watts())
    };
    let along = watts(0..1, out..out + 1)?;
    let across = watts(1..out, out + 1..ring.len())?;
    Ok([1.0 / along, across])
}

/// The nodes on some edges of the ring, by the numbers of the points at which they begin.
fn nodes_on(ring: &[[i64; 2]], edges: Range<usize>, nodes: &[Node]) -> Vec<usize> {
    let is_on = |node: &Node, edge: usize| {
        let (a, b) = (ring[edge], ring[(edge + 1) % ring.len()]);
        [node.x, node.y]
            .into_iter()
            .enumerate()
            .all(|(axis, at)| (a[axis].min(b[axis])..=a[axis].max(b[axis])).contains(&at))
    };
    let on = |&number: &usize| edges.clone().any(|edge| is_on(&nodes[number], edge));
    (0..nodes.len()).filter(on).collect()
}

/// Whether the square from (x, y) to (x + 1, y + 1) is copper: an odd number of edges stand to its right.
fn is_inside(ring: &[[i64; 2]], x: i64, y: i64) -> bool {
    let next = ring.iter().cycle().skip(1);
    let crossed =
        |(a, b): &(&[i64; 2], &[i64; 2])| a[0] > x && a[1].min(b[1]) <= y && y < a[1].max(b[1]);
    ring.iter().zip(next).filter(crossed).count() % 2 == 1
}
