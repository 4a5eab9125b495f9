//! Areas of links on the cells. What lies in a pad is at its potential; a cell that a pad's border cuts is the part of it
//! outside, cut along that border into rectangles, so that a pad counts as it is, wherever it lies between the cells.
//! Along a side potentials run straight from one end to the pad and from the pad to the other end, in the cells on both
//! sides of it alike, so that cells meet.

use super::{free, Parts};
use crate::areas::{LinkEnd, Pad};
use crate::columns::{NE, SW};
use crate::{Net, Node, Point, Rect};
use std::collections::BTreeMap;

/// A pad whose border misses a node by so many ticks ends there: its centre and its half size are rounded by themselves.
const SNAP: i64 = 16;
/// And by no more than one part in so many of the smallest cell.
const OF_CELL: i64 = 1 << 18;

/// The pads of a net.
pub(super) struct Pads {
    /// Where each is.
    rects: Vec<Rect>,
    /// The node that stands for each one's potential; those that touch have one.
    nodes: Vec<usize>,
    /// Of the links' ends.
    ends: BTreeMap<LinkEnd, usize>,
    /// The pads that touch each cell.
    of_cells: Vec<Vec<usize>>,
}

impl Pads {
    /// Their potentials stand behind the net's nodes.
    pub fn of(net: &Net) -> Self {
        let smallest = smallest_sides(net);
        let snap = |pad: &Pad| {
            let side = smallest.get(&(pad.layer, pad.component)).copied();
            SNAP.min(side.unwrap_or(0) / OF_CELL)
        };
        let rects = net
            .pads
            .iter()
            .map(|pad| snapped(pad, snap(pad), &net.nodes));
        let rects: Vec<Rect> = rects.collect();
        let firsts = first_of_each(&net.pads, &rects);
        let count = net.nodes.len();
        let mut numbers = BTreeMap::new();
        let nodes = firsts.iter().map(|first| {
            let next = count + numbers.len();
            *numbers.entry(*first).or_insert(next)
        });
        let nodes: Vec<usize> = nodes.collect();
        let ends = net
            .pads
            .iter()
            .zip(&nodes)
            .map(|(pad, &node)| (pad.end, node));
        let mut pads = Pads {
            ends: ends.collect(),
            rects,
            nodes,
            of_cells: vec![Vec::new(); net.cells.len()],
        };
        for (cell, corners) in net.cells.iter().map(|cell| cell.corners).enumerate() {
            let [low, high] = [SW, NE].map(|corner| net.nodes[corners[corner]]);
            let rect = [low.x, low.y, high.x, high.y];
            let is_own = |pad: &Pad| (pad.layer, pad.component) == (low.layer, low.component);
            let all = net.pads.iter().zip(&pads.rects).enumerate();
            let own = all.filter(|(_, (pad, own))| is_own(pad) && touch(own, &rect));
            pads.of_cells[cell] = own.map(|(at, _)| at).collect();
        }
        pads
    }

    /// How many potentials they have.
    pub fn count(&self) -> usize {
        let last = self.nodes.iter().max();
        let first = self.nodes.iter().min();
        last.zip(first).map_or(0, |(last, first)| last - first + 1)
    }

    /// Whether one of them touches a cell.
    pub fn touch_cell(&self, cell: usize) -> bool {
        !self.of_cells[cell].is_empty()
    }

    /// The node of a link's end that has an area.
    pub fn of_end(&self, end: LinkEnd) -> Option<usize> {
        self.ends.get(&end).copied()
    }

    /// The potential at a place of a cell that lies in a pad.
    pub fn at(&self, cell: usize, place: Point) -> Option<usize> {
        let is_in = |&&at: &&usize| has(&self.rects[at], place);
        self.of_cells[cell]
            .iter()
            .find(is_in)
            .map(|&at| self.nodes[at])
    }

    /// The lines along which a cell from `low` to `high` is cut, with both its sides, along x (0) or y (1).
    fn lines(&self, cell: usize, axis: usize, [low, high]: [i64; 2]) -> Vec<i64> {
        let borders = |&at: &usize| [self.rects[at][axis], self.rects[at][axis + 2]];
        let inside = self.of_cells[cell].iter().flat_map(borders);
        let inside = inside.filter(|&line| low < line && line < high);
        let mut lines: Vec<i64> = inside.chain([low, high]).collect();
        lines.sort_unstable();
        lines.dedup();
        lines
    }

    /// What the potential at a place on a straight side of a cell, between its ends, is made of: it runs straight from
    /// each end to the next pad, and from pad to pad.
    pub fn on_side(&self, cell: usize, ends: [(Point, &Parts); 2], place: Point) -> Parts {
        if let Some(node) = self.at(cell, place) {
            return free(node);
        }
        let [(from, _), (to, _)] = ends;
        let axis = usize::from(from[0] == to[0]);
        let across = from[1 - axis];
        let mut known: Vec<(i64, Parts)> = Vec::new();
        for (end, parts) in ends {
            let own = self.at(cell, end).map_or_else(|| parts.clone(), free);
            known.push((end[axis], own));
        }
        let [low, high] = [from[axis].min(to[axis]), from[axis].max(to[axis])];
        for &at in &self.of_cells[cell] {
            let rect = &self.rects[at];
            if (rect[1 - axis]..=rect[3 - axis]).contains(&across) {
                let borders = [rect[axis], rect[axis + 2]].map(|line| line.clamp(low, high));
                known.extend(borders.map(|line| (line, free(self.nodes[at]))));
            }
        }
        let own = place[axis];
        let before = known.iter().filter(|(line, _)| *line <= own);
        let behind = known.iter().filter(|(line, _)| *line >= own);
        let before = before.max_by_key(|(line, _)| *line).expect("an end");
        let behind = behind.min_by_key(|(line, _)| *line).expect("an end");
        mixed([before, behind], own)
    }
}

/// Between two places of a line.
fn mixed([(low, before), (high, behind)]: [&(i64, Parts); 2], own: i64) -> Parts {
    if low == high {
        return before.clone();
    }
    let share = (own - low) as f64 / (high - low) as f64;
    let mut parts: BTreeMap<usize, f64> = BTreeMap::new();
    for (all, share) in [(before, 1.0 - share), (behind, share)] {
        for &(node, part) in all {
            *parts.entry(node).or_insert(0.0) += share * part;
        }
    }
    parts.into_iter().collect()
}

/// A rectangle of a cell that is cut: its corners SW, SE, NE, NW.
pub(super) struct Piece {
    pub rect: Rect,
    pub corners: [Corner; 4],
}

/// What stands at a corner of a piece.
pub(super) enum Corner {
    /// It follows from others.
    Made(Parts),
    /// It is sought: between pads, inside the cell.
    Inner(Point),
}

impl Pads {
    /// How many pieces a cell is cut into, those under pads among them; 0 where no pad touches it.
    pub fn count_of_pieces(&self, cell: usize, whole: Rect) -> usize {
        let along = |axis: usize| self.lines(cell, axis, [whole[axis], whole[axis + 2]]).len() - 1;
        match self.touch_cell(cell) {
            true => along(0).saturating_mul(along(1)),
            false => 0,
        }
    }

    /// What of a cell lies outside the pads. `corners` are the places of its corners with what they are made of, SW, SE,
    /// NE, NW.
    pub fn pieces(&self, cell: usize, corners: [(Point, &Parts); 4]) -> Vec<Piece> {
        let [(low, _), _, (high, _), _] = corners;
        let [xs, ys] = [0, 1].map(|axis| self.lines(cell, axis, [low[axis], high[axis]]));
        let mut pieces = Vec::new();
        for y in ys.windows(2) {
            for x in xs.windows(2) {
                let rect = [x[0], y[0], x[1], y[1]];
                if self.covers(cell, &rect) {
                    continue;
                }
                let places = crate::sides::corners_of(rect);
                let corners = places.map(|place| self.corner(cell, corners, place));
                pieces.push(Piece { rect, corners });
            }
        }
        pieces
    }

    /// Whether a piece between the lines lies in a pad.
    fn covers(&self, cell: usize, rect: &Rect) -> bool {
        let is_in = |&at: &usize| {
            let own = &self.rects[at];
            has(own, [rect[0], rect[1]]) && has(own, [rect[2], rect[3]])
        };
        self.of_cells[cell].iter().any(is_in)
    }

    fn corner(&self, cell: usize, corners: [(Point, &Parts); 4], place: Point) -> Corner {
        if let Some(node) = self.at(cell, place) {
            return Corner::Made(free(node));
        }
        let side = (0..4).map(|at| [corners[at], corners[(at + 1) % 4]]);
        let mut side = side.filter(|[(from, _), (to, _)]| {
            let axis = usize::from(from[0] == to[0]);
            place[1 - axis] == from[1 - axis]
        });
        match side.next() {
            Some(ends) => Corner::Made(self.on_side(cell, ends, place)),
            None => Corner::Inner(place),
        }
    }
}

fn has([x0, y0, x1, y1]: &Rect, [x, y]: Point) -> bool {
    (x0..=x1).contains(&&x) && (y0..=y1).contains(&&y)
}

/// Whether two rectangles have a point in common.
fn touch(a: &Rect, b: &Rect) -> bool {
    a[0] <= b[2] && b[0] <= a[2] && a[1] <= b[3] && b[1] <= a[3]
}

/// The smallest side of a cell of each copper that has one, if there are pads.
fn smallest_sides(net: &Net) -> BTreeMap<(u16, u32), i64> {
    let mut sides = BTreeMap::new();
    for cell in net.cells.iter().filter(|_| !net.pads.is_empty()) {
        let [low, high] = [SW, NE].map(|corner| net.nodes[cell.corners[corner]]);
        let own = (high.x - low.x).min(high.y - low.y);
        let side = sides.entry((low.layer, low.component)).or_insert(own);
        *side = own.min(*side);
    }
    sides
}

/// A pad's rectangle, with borders that nearly meet a node of its copper where the node is.
fn snapped(pad: &Pad, snap: i64, nodes: &[Node]) -> Rect {
    let mut rect = pad.rect;
    for (at, line) in rect.iter_mut().enumerate() {
        let along = |node: &Node| [node.x, node.y][at % 2];
        let own = nodes
            .iter()
            .filter(|node| (node.layer, node.component) == (pad.layer, pad.component));
        let near = own.map(along).min_by_key(|other| (other - *line).abs());
        *line = near
            .filter(|other| (other - *line).abs() <= snap)
            .unwrap_or(*line);
    }
    rect
}

/// Of each pad the first one that it is one with: pads of one copper that touch, and those that touch these.
fn first_of_each(pads: &[Pad], rects: &[Rect]) -> Vec<usize> {
    let copper = |at: usize| (pads[at].layer, pads[at].component);
    let mut order: Vec<usize> = (0..pads.len()).collect();
    order.sort_by_key(|&at| (copper(at), rects[at][0]));
    let mut firsts: Vec<usize> = (0..pads.len()).collect();
    for (place, &one) in order.iter().enumerate() {
        let is_near = |other: &&usize| {
            let other = **other;
            copper(other) == copper(one) && rects[other][0] <= rects[one][2]
        };
        for &other in order[place + 1..].iter().take_while(is_near) {
            if touch(&rects[one], &rects[other]) {
                let [a, b] = [one, other].map(|at| root(&firsts, at));
                firsts[a.max(b)] = a.min(b);
            }
        }
    }
    (0..pads.len()).map(|at| root(&firsts, at)).collect()
}

fn root(firsts: &[usize], mut at: usize) -> usize {
    while firsts[at] != at {
        at = firsts[at];
    }
    at
}
