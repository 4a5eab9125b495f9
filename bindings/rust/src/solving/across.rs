//! What flows through straight lines across copper.
//!
//! The elements' currents are balanced at the nodes and not along their sides, so a sum of what runs through a line
//! would depend on the cells there. [`Cuts`] adds up what the nodes on one side of a line pass on to those on the
//! other: through the copper along the line, by the elements that it runs through; at a node inside a side that the
//! line crosses, what the side's end on this side gives to it or takes from it; and where the copper of one side ends
//! at an inner corner and that of the other goes on, what the corner's node gives to the cells beyond. So the current
//! through a cut from edge to edge is what the terminals behind it drive, as exactly as the solution is, whatever the
//! cells are (docs/CONDUCTANCES.md, "Through a line"). What lies in the area of a link's end is at one potential, and
//! what flows there has no place: a line that meets a cell of such an area isn't cut.

use super::element::{rect_of, Element};
use super::pads::Pads;
use super::{Solution, Unsolved};
use crate::sides::inside;
use crate::{Net, Point, Rect, TICK};
use std::collections::{BTreeMap, BTreeSet, HashMap};
use std::iter::once;

/// A straight line across the copper of a component on one layer.
#[derive(Clone, Copy, Debug, PartialEq, Eq)]
pub struct Line {
    /// Of the copper.
    pub layer: u16,
    /// Of the copper.
    pub component: u32,
    /// In ticks: x0 = x1 and y0 < y1 of an upright line, x0 < x1 and y0 = y1 of a level one.
    pub rect: Rect,
}

/// A line that a board's text names.
#[derive(Clone, Debug, PartialEq, Eq)]
pub struct Across {
    /// What it is called.
    pub name: String,
    /// Where it is.
    pub line: Line,
}

/// What flows through a line.
#[derive(Clone, Copy, Debug, PartialEq)]
pub struct Crossing {
    /// To the east through an upright line, to the north through a level one; below 0 the other way.
    pub amperes: f64,
    /// How much of the line has copper on both its sides, in ticks.
    pub copper: i64,
    /// The largest sheet current through the line, one way or the other, in amperes a metre. Where the line meets an
    /// inner corner of the copper it has no bound as the cells get finer.
    pub largest: f64,
}

impl Line {
    fn is_upright(&self) -> bool {
        self.rect[0] == self.rect[2]
    }

    /// In ticks.
    pub fn length(&self) -> i64 {
        let [x0, y0, x1, y1] = self.rect;
        (x1 - x0) + (y1 - y0)
    }
}

impl Crossing {
    /// The current over the length of copper, in amperes a metre.
    pub fn mean(&self) -> f64 {
        self.amperes.abs() / (self.copper as f64 * TICK)
    }
}

/// The currents in the copper of a net, ready to be cut by lines.
#[derive(Clone, Debug)]
pub struct Cuts {
    /// By layer and component: as upright lines cut it, and as level ones do.
    coppers: HashMap<(u16, u32), [Copper; 2]>,
    /// By layer and component: the cells that an area of a link's end meets, and the sides that hang on them.
    areas: HashMap<(u16, u32), Vec<Rect>>,
}

impl Cuts {
    /// Of what flows in a net's cells; the solution is that of [`System::of_cells`](super::System::of_cells).
    ///
    /// # Errors
    ///
    /// [`Unsolved::Refused`] of a net that isn't sound.
    pub fn of(net: &Net, solution: &Solution) -> Result<Self, Unsolved> {
        let all = inside(net.rows())?;
        let mut given = vec![0.0; net.nodes.len()];
        let mut coppers: HashMap<(u16, u32), [Copper; 2]> = HashMap::new();
        let mut areas: HashMap<(u16, u32), Vec<Rect>> = HashMap::new();
        let key = |node: usize| (net.nodes[node].layer, net.nodes[node].component);
        let pads = Pads::of(net);
        let mut met = BTreeSet::new();
        for (at, cell) in net.cells.iter().enumerate() {
            let whole = rect_of(cell, &net.nodes);
            if pads.touch_cell(at) {
                met.extend(cell.corners);
                areas.entry(key(cell.corners[0])).or_default().push(whole);
            }
            let taken = Element::of(cell.corners, whole, cell.sheet).taken(&solution.above);
            for (&node, amperes) in cell.corners.iter().zip(taken) {
                given[node] += amperes;
            }
            let [low, high] = [0, 2].map(|corner| net.nodes[cell.corners[corner]]);
            let volts = cell.corners.map(|node| solution.above[node]);
            let upright = Body {
                across: Span::of(low.x, high.x),
                along: Span::of(low.y, high.y),
                sheet: cell.sheet,
                volts,
                taken,
            };
            let own = coppers.entry(key(cell.corners[0])).or_default();
            own[0].bodies.push(upright);
            own[1].bodies.push(upright.turned());
        }
        let hanging: BTreeMap<usize, [usize; 2]> =
            all.iter().map(|one| (one.node, one.ends)).collect();
        for (&node, ends) in &hanging {
            let ([x, y], given) = ([net.nodes[node].x, net.nodes[node].y], given[node]);
            let [a, b] = ends.map(|end| net.nodes[end]);
            if met.contains(&node) {
                let (low, high) = ([a.x.min(b.x), a.y.min(b.y)], [a.x.max(b.x), a.y.max(b.y)]);
                let side = [low[0], low[1], high[0], high[1]];
                areas.entry(key(node)).or_default().push(side);
            }
            let [upright, level] = coppers.entry(key(node)).or_default();
            if a.y == b.y {
                let side = Span::of(a.x, b.x);
                upright.ties.push(Tie { side, at: y, given });
                level.hung.insert([y, x], given);
            } else {
                let side = Span::of(a.y, b.y);
                level.ties.push(Tie { side, at: x, given });
                upright.hung.insert([x, y], given);
            }
        }
        coppers.values_mut().flatten().for_each(Copper::sort);
        Ok(Cuts { coppers, areas })
    }

    /// Whether a line meets a cell in which an end of a link has an area, so that no current through it is known.
    pub fn meets_area(&self, line: &Line) -> bool {
        let [x0, y0, x1, y1] = line.rect;
        let all = self.areas.get(&(line.layer, line.component));
        all.into_iter()
            .flatten()
            .any(|&[low_x, low_y, high_x, high_y]| {
                low_x <= x1 && x0 <= high_x && low_y <= y1 && y0 <= high_y
            })
    }

    /// What flows through a line. None where it has no copper of its component on both sides anywhere, or meets the area
    /// of a link's end ([`Cuts::meets_area`]).
    pub fn through(&self, line: &Line) -> Option<Crossing> {
        if self.meets_area(line) {
            return None;
        }
        let [upright, level] = self.coppers.get(&(line.layer, line.component))?;
        let [x0, y0, x1, y1] = line.rect;
        if line.is_upright() {
            upright.crossing(x0, Span::of(y0, y1))
        } else {
            level.crossing(y0, Span::of(x0, x1))
        }
    }
}

/// From a lower coordinate to a higher one.
#[derive(Clone, Copy, Debug, PartialEq, Eq, PartialOrd, Ord)]
struct Span {
    low: i64,
    high: i64,
}

impl Span {
    fn of(a: i64, b: i64) -> Self {
        Span {
            low: a.min(b),
            high: a.max(b),
        }
    }

    fn length(self) -> i64 {
        self.high - self.low
    }

    fn common(self, other: Span) -> Span {
        Span {
            low: self.low.max(other.low),
            high: self.high.min(other.high),
        }
    }

    fn has(self, at: i64) -> bool {
        (self.low..=self.high).contains(&at)
    }
}

/// Which of the cells on both sides of a line are asked.
#[derive(Clone, Copy, Debug, PartialEq, Eq)]
enum Asked {
    /// Those to the west of an upright line, to the south of a level one; what stands on the line is beyond it.
    Lower,
    /// The others; what stands on the line is before it.
    Upper,
}

impl Asked {
    /// Whether a line at a coordinate runs through a span, or along the end that its cells begin at.
    fn meets(self, span: Span, at: i64) -> bool {
        match self {
            Asked::Lower => span.low < at && at <= span.high,
            Asked::Upper => span.low <= at && at < span.high,
        }
    }

    /// Whether a place is before a line.
    fn is_before(self, place: i64, at: i64) -> bool {
        match self {
            Asked::Lower => place < at,
            Asked::Upper => place <= at,
        }
    }
}

/// A cell as lines of one direction cut it: across the line and along it.
#[derive(Clone, Copy, Debug)]
struct Body {
    across: Span,
    along: Span,
    sheet: f64,
    /// At its corners: low and low, high across, high and high, high along.
    volts: [f64; 4],
    /// From its corners into it, in amperes.
    taken: [f64; 4],
}

impl Body {
    /// As lines of the other direction cut it.
    fn turned(&self) -> Self {
        let turn = |[ll, hl, hh, lh]: [f64; 4]| [ll, lh, hh, hl];
        Body {
            across: self.along,
            along: self.across,
            sheet: self.sheet,
            volts: turn(self.volts),
            taken: turn(self.taken),
        }
    }

    /// The sheet current through a line at a place along it: within the cell it is the same at all distances across.
    fn density(&self, place: i64) -> f64 {
        let [ll, hl, hh, lh] = self.volts;
        let share = (place - self.along.low) as f64 / self.along.length() as f64;
        let drop = (ll - hl) + share * ((lh - hh) - (ll - hl));
        drop / (self.across.length() as f64 * TICK * self.sheet)
    }

    fn through(&self, span: Span) -> f64 {
        let mean = (self.density(span.low) + self.density(span.high)) / 2.0;
        mean * span.length() as f64 * TICK
    }

    /// What its corner on the line at its low or its high end passes on to what is beyond the line.
    fn passed_on(&self, asked: Asked, end: End) -> f64 {
        let [ll, hl, hh, lh] = self.taken;
        match (asked, end) {
            (Asked::Upper, End::Low) => ll,
            (Asked::Upper, End::High) => lh,
            (Asked::Lower, End::Low) => -hl,
            (Asked::Lower, End::High) => -hh,
        }
    }
}

#[derive(Clone, Copy, Debug, PartialEq, Eq)]
enum End {
    Low,
    High,
}

/// A node at the middle of a side that lines of a direction cross.
#[derive(Clone, Copy, Debug)]
struct Tie {
    side: Span,
    /// Where the side stands along the line.
    at: i64,
    /// What the node gives to the cells that it is a corner of: half of it comes from each of the side's ends.
    given: f64,
}

impl Tie {
    /// What the side passes on over a line.
    fn passed_on(&self, asked: Asked, at: i64) -> f64 {
        let middle = self.side.low + self.side.length() / 2;
        if asked.is_before(middle, at) {
            -self.given / 2.0
        } else {
            self.given / 2.0
        }
    }
}

/// A component on one layer, as lines of one direction cut it.
#[derive(Clone, Debug, Default)]
struct Copper {
    /// By where they begin across.
    bodies: Vec<Body>,
    /// The largest size of one across.
    widest: i64,
    /// By where their sides begin.
    ties: Vec<Tie>,
    /// The longest side of one.
    longest: i64,
    /// Nodes at the middle of a side that runs along such lines, and what they give.
    hung: HashMap<Point, f64>,
}

/// A part of a line with copper on both its sides.
#[derive(Clone, Copy, Debug)]
struct Piece {
    span: Span,
    /// Whether the copper goes on behind its ends, since the line ends there.
    open: [bool; 2],
}

impl Copper {
    fn sort(&mut self) {
        self.bodies
            .sort_by_key(|body| (body.across.low, body.along.low));
        self.ties.sort_by_key(|tie| (tie.side.low, tie.at));
        let sizes = self.bodies.iter().map(|body| body.across.length());
        self.widest = sizes.max().unwrap_or(0);
        self.longest = self
            .ties
            .iter()
            .map(|tie| tie.side.length())
            .max()
            .unwrap_or(0);
    }

    /// The cells on one side of a line that touch a span of it, from its low end to its high one.
    fn column(&self, asked: Asked, at: i64, span: Span) -> Vec<Body> {
        let from = |first: i64| self.bodies.partition_point(|body| body.across.low < first);
        let near = &self.bodies[from(at - self.widest)..from(at + 1)];
        let touches = |along: Span| along.low <= span.high && along.high >= span.low;
        let own = near
            .iter()
            .filter(|body| asked.meets(body.across, at) && touches(body.along));
        let mut all: Vec<Body> = own.copied().collect();
        all.sort_by_key(|body| body.along);
        all
    }

    fn crossing(&self, at: i64, span: Span) -> Option<Crossing> {
        let columns =
            [Asked::Lower, Asked::Upper].map(|asked| (asked, self.column(asked, at, span)));
        let [lower, upper] = [0, 1].map(|side: usize| joined(&columns[side].1));
        let pieces = pieces_of(&common(&lower, &upper), span);
        let copper = pieces.iter().map(|piece| piece.span.length()).sum();
        if copper == 0 {
            return None;
        }
        let through = |(asked, column): &(Asked, Vec<Body>)| -> f64 {
            let each = pieces
                .iter()
                .map(|piece| self.through(*asked, column, at, piece));
            each.sum()
        };
        let amperes = columns.iter().map(through).sum::<f64>() / 2.0;
        let largest = pieces
            .iter()
            .map(|piece| largest(&columns[0].1, &columns[1].1, piece.span));
        Some(Crossing {
            amperes,
            copper,
            largest: largest.fold(0.0, f64::max),
        })
    }

    /// What the nodes before the line pass on to those beyond it, along a piece of it.
    fn through(&self, asked: Asked, column: &[Body], at: i64, piece: &Piece) -> f64 {
        let span = piece.span;
        let along = |body: &Body| {
            let own = body.along.common(span);
            if own.low < own.high {
                body.through(own)
            } else {
                0.0
            }
        };
        let bodies: f64 = column.iter().map(along).sum();
        let corners: f64 = [End::Low, End::High]
            .into_iter()
            .zip(piece.open)
            .filter(|(_, is_open)| !is_open)
            .map(|(end, _)| self.beyond_corner(asked, column, [at, end.of(span)], end))
            .sum();
        bodies + corners + self.through_ties(asked, at, piece)
    }

    /// Where the copper that isn't asked ends at an inner corner and the asked one goes on: what the corner's node
    /// gives to the cells behind the end of the line.
    fn beyond_corner(&self, asked: Asked, column: &[Body], [at, place]: Point, end: End) -> f64 {
        let goes_on = |body: &&Body| match end {
            End::Low => body.along.low < place && place <= body.along.high,
            End::High => body.along.low <= place && place < body.along.high,
        };
        let Some(body) = column.iter().find(goes_on) else {
            return 0.0;
        };
        let (near, own) = match end {
            End::Low => (body.along.high, Span::of(place, body.along.high)),
            End::High => (body.along.low, Span::of(body.along.low, place)),
        };
        // Of the cell's two nodes on the line the one that the line still reaches.
        let passed_on = body.passed_on(asked, end.other());
        if near == place {
            return passed_on;
        }
        // The corner hangs at the middle of the cell's side: what the line has run through of the cell is what its
        // node before the corner passes on, and half of what the corner gives comes from the node behind it.
        let given = self.hung.get(&[at, place]).copied().unwrap_or(0.0);
        let half = match asked {
            Asked::Upper => -given / 2.0,
            Asked::Lower => given / 2.0,
        };
        passed_on - body.through(own) + half
    }

    fn through_ties(&self, asked: Asked, at: i64, piece: &Piece) -> f64 {
        let from = |first: i64| self.ties.partition_point(|tie| tie.side.low < first);
        let near = &self.ties[from(at - self.longest)..from(at + 1)];
        let own = near
            .iter()
            .filter(|tie| asked.meets(tie.side, at) && piece.span.has(tie.at));
        own.map(|tie| piece.share(tie.at) * tie.passed_on(asked, at))
            .sum()
    }
}

impl End {
    fn of(self, span: Span) -> i64 {
        match self {
            End::Low => span.low,
            End::High => span.high,
        }
    }

    fn other(self) -> Self {
        match self {
            End::Low => End::High,
            End::High => End::Low,
        }
    }
}

impl Piece {
    /// How much of what passes at a place is this line's: where it ends in copper half is the next line's.
    fn share(&self, place: i64) -> f64 {
        let is_end = [self.span.low == place, self.span.high == place];
        let is_half = is_end
            .iter()
            .zip(self.open)
            .any(|(&is_end, is_open)| is_end && is_open);
        if is_half {
            0.5
        } else {
            1.0
        }
    }
}

/// Spans of cells along a line, those that touch or overlap as one.
fn joined(column: &[Body]) -> Vec<Span> {
    let mut all: Vec<Span> = Vec::new();
    for body in column {
        match all.last_mut() {
            Some(last) if body.along.low <= last.high => last.high = last.high.max(body.along.high),
            _ => all.push(body.along),
        }
    }
    all
}

/// What two rows of spans have in common, but for single places.
fn common(a: &[Span], b: &[Span]) -> Vec<Span> {
    let (mut a, mut b) = (a.iter().peekable(), b.iter().peekable());
    let mut all = Vec::new();
    while let (Some(&&first), Some(&&second)) = (a.peek(), b.peek()) {
        let both = first.common(second);
        if both.low < both.high {
            all.push(both);
        }
        if first.high <= second.high {
            a.next();
        } else {
            b.next();
        }
    }
    all
}

fn pieces_of(copper: &[Span], line: Span) -> Vec<Piece> {
    let piece = |own: &Span| {
        let span = own.common(line);
        let open = [own.low < line.low, line.high < own.high];
        (span.low < span.high).then_some(Piece { span, open })
    };
    copper.iter().filter_map(piece).collect()
}

/// The largest sheet current along a piece: the mean of what both sides have at a place. It is straight from end to end
/// of their cells.
fn largest(lower: &[Body], upper: &[Body], piece: Span) -> f64 {
    let mut most: f64 = 0.0;
    let (mut a, mut b) = (lower.iter().peekable(), upper.iter().peekable());
    while let (Some(first), Some(second)) = (a.peek(), b.peek()) {
        let both = first.along.common(second.along).common(piece);
        if both.low < both.high {
            let mean = |place: i64| (first.density(place) + second.density(place)) / 2.0;
            most = once(both.low)
                .chain(once(both.high))
                .map(|place| mean(place).abs())
                .fold(most, f64::max);
        }
        if first.along.high <= second.along.high {
            a.next();
        } else {
            b.next();
        }
    }
    most
}
