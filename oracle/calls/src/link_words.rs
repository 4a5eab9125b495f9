//! The links of a net once more, by the words of docs/RULES.md, "Links" and "Weights", alone: in whole numbers, without
//! the original. What is rounded there is rounded here by a function of its own.

use crate::links::{Channel, Contact, Footprint, Links, Terminal, Via};
use crate::net::{Cell, Edge, Net, Node};
use std::collections::HashMap;

/// Bits of a binary64 number.
const DIGITS: u32 = 53;

/// The nodes of one net, and the corner nodes of each polygon's leaves.
pub struct Reading<'a> {
    net: &'a Net,
    lists: Vec<&'a [[usize; 4]]>,
    /// Of each side of a cell, its ends rising, the first cell that has it.
    sides: HashMap<[usize; 2], &'a Cell>,
}

/// What a link joins, before its weight: two lists of nodes of which each pair is an edge, and the conductance of each.
struct Joined {
    from: Vec<usize>,
    to: Vec<usize>,
    conductance: f64,
}

impl<'a> Reading<'a> {
    /// `corners` are those of the net's cells in order, and `leaves` says how many each polygon has.
    pub fn new(net: &'a Net, corners: &'a [[usize; 4]], leaves: &[usize]) -> Self {
        let mut rest = corners;
        let mut lists = Vec::new();
        for &count in leaves {
            let (own, behind) = rest.split_at(count);
            lists.push(own);
            rest = behind;
        }
        assert!(rest.is_empty(), "each cell is of a polygon");
        let mut sides = HashMap::new();
        for cell in &net.cells {
            for k in 0..4 {
                sides.entry(rising([cell.corners[k], cell.corners[(k + 1) % 4]])).or_insert(cell);
            }
        }
        Reading { net, lists, sides }
    }

    /// How many links there are.
    pub fn count(&self, links: &Links) -> u128 {
        let pairs = |joined: Joined| joined.from.len() as u128 * joined.to.len() as u128;
        self.joined(links).map(pairs).sum()
    }

    /// The links with their weights.
    pub fn links(&self, links: &Links) -> Vec<Edge> {
        let edges = self.joined(links).flat_map(|Joined { from, to, conductance }| {
            let pairs = from
                .into_iter()
                .flat_map(move |from| to.clone().into_iter().map(move |to| (from, to)));
            pairs.map(move |(from, to)| Edge { from, to, conductance }).collect::<Vec<_>>()
        });
        edges.map(|edge| self.weighed(edge)).collect()
    }

    fn joined<'b>(&'b self, links: &'b Links) -> impl Iterator<Item = Joined> + 'b {
        let contacts = links.contacts.iter().filter_map(|contact| self.contact(contact));
        let vias = links.vias.iter().map(|via| self.via(via));
        let layer = links.channel_layer;
        let channels =
            links.channels.iter().filter_map(move |channel| self.channel(layer, channel));
        contacts.chain(vias).chain(channels)
    }

    fn contact(&self, contact: &Contact) -> Option<Joined> {
        let list =
            |polygon: usize| -> Option<Vec<usize>> { Some(self.lists.get(polygon)?.concat()) };
        let (from, to) = (list(contact.from)?, list(contact.to)?);
        let first = *from.first()?;
        let Node { x, y, .. } = self.net.nodes[first];
        let second = self.nearest(&to, x, y)?;
        Some(Joined { from: vec![first], to: vec![second], conductance: 1.0 })
    }

    /// Without pairs where a side has no node.
    fn via(&self, via: &Via) -> Joined {
        let from = self.side(via, via.bottom);
        let to = self.side(via, via.top);
        let pairs = (from.len() * to.len()) as f64;
        let whole = 1.0 / via.resistance;
        Joined { from, to, conductance: whole / pairs }
    }

    fn side(&self, via: &Via, layer: u16) -> Vec<usize> {
        let candidates = self.class(layer, via.component);
        let Footprint { x, y, half_width, half_height } = via.footprint;
        let inside = |node: &usize| {
            let at = self.net.nodes[*node];
            (at.x - x).abs() <= half_width && (at.y - y).abs() <= half_height
        };
        if half_width > 0 && half_height > 0 {
            let covered: Vec<usize> = candidates.iter().copied().filter(inside).collect();
            if !covered.is_empty() {
                return covered;
            }
        }
        self.nearest(&candidates, x, y).into_iter().collect()
    }

    fn channel(&self, layer: u16, channel: &Channel) -> Option<Joined> {
        let node = |end: &Terminal| self.nearest(&self.class(layer, end.component), end.x, end.y);
        let (from, to) = (node(&channel.drain)?, node(&channel.source)?);
        Some(Joined { from: vec![from], to: vec![to], conductance: 1.0 / channel.resistance })
    }

    fn class(&self, layer: u16, component: u32) -> Vec<usize> {
        let is_of = |&node: &usize| {
            let node = self.net.nodes[node];
            (node.layer, node.component) == (layer, component)
        };
        (0..self.net.nodes.len()).filter(is_of).collect()
    }

    /// Of the least distances the first.
    fn nearest(&self, list: &[usize], x: i64, y: i64) -> Option<usize> {
        let distance = |&node: &usize| {
            let at = self.net.nodes[node];
            let square = |a: i64, b: i64| rounded(u128::from(a.abs_diff(b)).pow(2));
            rounded(square(at.x, x) + square(at.y, y))
        };
        let least = list.iter().map(distance).min()?;
        list.iter().copied().find(|node| distance(node) == least)
    }

    /// By "Weights": a cell's side, either way round, gets face over (r_sheet times length), unless its face is 0.
    fn weighed(&self, edge: Edge) -> Edge {
        let ends = [edge.from, edge.to];
        let Some(cell) = self.sides.get(&rising(ends)) else {
            return edge;
        };
        let [a, b] = ends.map(|node| self.net.nodes[node]);
        let horizontal = a.y == b.y;
        let length = if horizontal { a.x.abs_diff(b.x) } else { a.y.abs_diff(b.y) };
        // Half ticks.
        let face = if horizontal {
            self.least(ends, Way::Up) + self.least(ends, Way::Down)
        } else {
            self.least(ends, Way::Right) + self.least(ends, Way::Left)
        };
        match face {
            0 => edge,
            face => {
                Edge { conductance: face as f64 / 2.0 / (cell.r_sheet * length as f64), ..edge }
            }
        }
    }

    fn least(&self, ends: [usize; 2], way: Way) -> u64 {
        let [a, b] = ends.map(|node| self.gap(node, way).max(self.hung(node, way)));
        a.min(b)
    }

    /// To the next node of the column or row, or to the one before; 0 at the ends.
    fn gap(&self, node: usize, way: Way) -> u64 {
        let own = self.net.nodes[node];
        // What the line has in common, and where on it a node stands.
        let on_line = |at: &Node| match way {
            Way::Up | Way::Down => (at.x, at.y),
            Way::Right | Way::Left => (at.y, at.x),
        };
        let (line, place) = on_line(&own);
        let nodes = self.net.nodes.iter().enumerate();
        let others = nodes
            .filter(|(_, at)| at.layer == own.layer && on_line(at).0 == line)
            .map(|(number, at)| (on_line(at).1, number));
        let next = match way {
            Way::Up | Way::Right => others.filter(|&other| other > (place, node)).min(),
            Way::Down | Way::Left => others.filter(|&other| other < (place, node)).max(),
        };
        next.map_or(0, |(other, _)| other.abs_diff(place))
    }

    /// The largest size, that way, of a cell on a side of which the node hangs, with the cell on that side of it.
    fn hung(&self, node: usize, way: Way) -> u64 {
        let own = self.net.nodes[node];
        let is_last = |number: usize| {
            let same = |at: &Node| (at.layer, at.x, at.y) == (own.layer, own.x, own.y);
            self.net.nodes.iter().rposition(same) == Some(number)
        };
        if !is_last(node) {
            return 0;
        }
        let sizes = self.net.cells.iter().filter_map(|cell| {
            let [sw, _, ne, _] = cell.corners.map(|corner| self.net.nodes[corner]);
            let ends = match way {
                Way::Up => [0, 1],
                Way::Left => [1, 2],
                Way::Down => [2, 3],
                Way::Right => [3, 0],
            };
            let [a, b] = ends.map(|k| self.net.nodes[cell.corners[k]]);
            let middle = sw.layer == own.layer && a.x + b.x == 2 * own.x && a.y + b.y == 2 * own.y;
            let is_end = ends.iter().any(|&k| cell.corners[k] == node);
            let size = match way {
                Way::Up | Way::Down => ne.y.abs_diff(sw.y),
                Way::Right | Way::Left => ne.x.abs_diff(sw.x),
            };
            (middle && !is_end).then_some(size)
        });
        sizes.max().unwrap_or(0)
    }
}

fn rising([a, b]: [usize; 2]) -> [usize; 2] {
    [a.min(b), a.max(b)]
}

#[derive(Clone, Copy)]
enum Way {
    Up,
    Down,
    Right,
    Left,
}

/// The nearest number of 53 binary digits; of two as near the one whose last digit is 0.
fn rounded(number: u128) -> u128 {
    let length = u128::BITS - number.leading_zeros();
    if length <= DIGITS {
        return number;
    }
    let lost = length - DIGITS;
    let (kept, rest, half) = (number >> lost, number & ((1 << lost) - 1), 1 << (lost - 1));
    let up = rest > half || (rest == half && kept % 2 == 1);
    (kept + u128::from(up)) << lost
}

#[cfg(test)]
mod tests {
    use super::*;

    #[test]
    fn rounding_is_the_machines() {
        let mut number: u128 = 1;
        for step in 0..2_000_000_u64 {
            number =
                number.wrapping_mul(6_364_136_223_846_793_005).wrapping_add(u128::from(step) + 1);
            let drawn = number >> (48 + step % 80);
            assert_eq!(rounded(drawn), drawn as f64 as u128);
        }
        let tie = (1 << 54) + 2;
        assert_eq!([rounded(tie), rounded(tie + 4)], [1 << 54, (1 << 54) + 8]);
    }
}
