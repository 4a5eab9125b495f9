//! The two checks of a net: the original's, and the by-layer check, which the original doesn't have.

use crate::net::{Edge, Net};
use crate::network::polygons_are_known;
use crate::outcome::{require, Answer};
use crate::sheets::Sheets;
use crate::table::{to_grid, Head, Slot};
use crate::well_formed::well_formed;
use std::collections::{BTreeMap, BTreeSet};
use std::ops::Bound::Excluded;

/// A node inside a leaf's side that lacks an edge, and the two ends of the side, walked anticlockwise.
#[derive(Clone, Copy, Debug, PartialEq, Eq)]
pub struct Hanging {
    pub node: usize,
    pub from: usize,
    pub to: usize,
}

/// The original's check. Refuses 7.
pub fn check_network_conforming(table: &[i64], head: Head, net: &Net) -> Answer<Option<Hanging>> {
    require(well_formed(table, head), 7, 0)?;
    require(net.is_sound(), 7, 0)?;
    let grid = to_grid(table, head);
    let verdict = grid.check_network_conforming(&net.to_original());
    Ok(verdict.err().map(|text| named_in(&text)))
}

/// The three numbers of the original's error text.
fn named_in(text: &str) -> Hanging {
    let words = text.split(|c: char| !c.is_ascii_digit()).filter(|word| !word.is_empty());
    let numbers: Vec<usize> = words.map(|word| word.parse().expect("digits")).collect();
    assert_eq!(numbers.len(), 3, "a node and two ends: {text}");
    Hanging { node: numbers[0], from: numbers[1], to: numbers[2] }
}

/// By the words of docs/RULES.md: every node of the leaf's own layer and component between the ends of its
/// sides, the last one winning. Refuses 7.
pub fn check_by_layer(
    table: &[i64],
    head: Head,
    sheets: &Sheets,
    net: &Net,
) -> Answer<Option<Hanging>> {
    first_by_layer(table, head, sheets, net, Graph::first_loose)
}

/// The check of versions before 0.5.0, which looked at the middle of a side alone: so that the comparison
/// can say how often the two differ.
pub fn check_middles_by_layer(
    table: &[i64],
    head: Head,
    sheets: &Sheets,
    net: &Net,
) -> Answer<Option<Hanging>> {
    first_by_layer(table, head, sheets, net, Graph::loose_middle)
}

/// The first find of all sides of all leaves by id.
fn first_by_layer(
    table: &[i64],
    head: Head,
    sheets: &Sheets,
    net: &Net,
    find: fn(&Graph, &Side) -> Option<Hanging>,
) -> Answer<Option<Hanging>> {
    require(well_formed(table, head), 7, 0)?;
    require(net.is_sound(), 7, 0)?;
    require(sheets.rows_are_equal(), 7, 0)?;
    require(polygons_are_known(table, head.count, sheets), 7, 0)?;
    let graph = Graph::of(net);
    let leaves = (0..head.count).map(|id| Slot::load(table, id)).filter(Slot::is_leaf);
    Ok(leaves.flat_map(|leaf| sides_of(&leaf, sheets)).find_map(|side| find(&graph, &side)))
}

/// A line on which nodes of one layer and component stand: their x, if it is a column, or else their y.
#[derive(Clone, Copy, PartialEq, Eq, PartialOrd, Ord)]
struct Line {
    layer: u16,
    component: u32,
    is_column: bool,
    at: i64,
}

/// A leaf's side: its line, and where on that it begins and ends, walking anticlockwise.
struct Side {
    line: Line,
    from: i64,
    to: i64,
}

/// South, east, north, west.
fn sides_of(leaf: &Slot, sheets: &Sheets) -> [Side; 4] {
    let [x0, y0, x1, y1] = leaf.rect();
    let layer = sheets.layer[leaf.polygon as usize];
    let component = sheets.component[leaf.polygon as usize];
    let line = |is_column, at| Line { layer, component, is_column, at };
    [
        Side { line: line(false, y0), from: x0, to: x1 },
        Side { line: line(true, x1), from: y0, to: y1 },
        Side { line: line(false, y1), from: x1, to: x0 },
        Side { line: line(true, x0), from: y1, to: y0 },
    ]
}

/// Numbers of nodes, by their line and where they stand on it, and edges by their ends.
struct Graph {
    lines: BTreeMap<Line, BTreeMap<i64, usize>>,
    joined: BTreeSet<[usize; 2]>,
}

impl Graph {
    fn of(net: &Net) -> Self {
        let mut lines: BTreeMap<Line, BTreeMap<i64, usize>> = BTreeMap::new();
        for (number, node) in net.nodes.iter().enumerate() {
            for (is_column, at, along) in [(false, node.y, node.x), (true, node.x, node.y)] {
                let (layer, component) = (node.layer, node.component);
                let line = lines.entry(Line { layer, component, is_column, at }).or_default();
                // A later node at the same place takes the earlier one's.
                line.insert(along, number);
            }
        }
        let both_ways = |edge: &Edge| [[edge.from, edge.to], [edge.to, edge.from]];
        Graph { lines, joined: net.edges.iter().flat_map(both_ways).collect() }
    }

    fn are_joined(&self, a: usize, b: usize) -> bool {
        self.joined.contains(&[a, b])
    }

    /// The first node between the ends that lacks an edge to the point before it or after it.
    fn first_loose(&self, side: &Side) -> Option<Hanging> {
        let line = self.lines.get(&side.line)?;
        let (from, to) = (*line.get(&side.from)?, *line.get(&side.to)?);
        let (low, high) = (side.from.min(side.to), side.from.max(side.to));
        let mut between: Vec<usize> =
            line.range((Excluded(low), Excluded(high))).map(|(_, &node)| node).collect();
        if side.from == high {
            between.reverse();
        }
        let points = [&[from], between.as_slice(), &[to]].concat();
        let held = |three: &[usize]| {
            self.are_joined(three[0], three[1]) && self.are_joined(three[1], three[2])
        };
        let loose = points.windows(3).find(|three| !held(three))?;
        Some(Hanging { node: loose[1], from, to })
    }

    fn loose_middle(&self, side: &Side) -> Option<Hanging> {
        let line = self.lines.get(&side.line)?;
        let (from, to) = (*line.get(&side.from)?, *line.get(&side.to)?);
        let node = *line.get(&((side.from + side.to) / 2))?;
        let held = self.are_joined(from, node) && self.are_joined(node, to);
        (!held).then_some(Hanging { node, from, to })
    }
}
