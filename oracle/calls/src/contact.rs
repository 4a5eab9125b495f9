//! Contact of two rectangles: on which side of the first they share an edge, and how long it is. Whether they share one
//! the original is asked too, by its private `shares_edge`.

use crate::limits::coordinate_in_range;
use crate::outcome::{require, Answer};
use crate::ticks::metres;
use original::adaptive::{public_shares_edge, QuadCell, NO_CELL};

/// x0, y0, x1, y1 in ticks.
pub type Rect = [i64; 4];

/// A side of a rectangle; its number is its place here.
#[derive(Clone, Copy, Debug, PartialEq, Eq)]
pub enum Side {
    South,
    East,
    North,
    West,
}

impl Side {
    /// Anticlockwise from the south.
    pub const ALL: [Side; 4] = [Side::South, Side::East, Side::North, Side::West];

    pub fn number(self) -> u64 {
        self as u64
    }

    pub fn opposite(self) -> Side {
        Side::ALL[(self as usize + 2) % 4]
    }
}

/// What two rectangles have in common of their edges.
#[derive(Clone, Copy, Debug, PartialEq, Eq)]
pub struct Border {
    /// Of the first of the two.
    pub side: Side,
    /// In ticks, above 0.
    pub length: u64,
}

/// The border of two rectangles, if they share any. Refuses 3: a coordinate out of range, a side that isn't positive.
pub fn contact(a: Rect, b: Rect) -> Answer<Option<Border>> {
    require(in_range(a) && in_range(b), 3, 0)?;
    let border = shared_border(a, b);
    let shared = public_shares_edge(&bare_cell(a), &bare_cell(b));
    assert_eq!(
        border.is_some(),
        shared,
        "{a:?} and {b:?}: whether there is a border, by the words and by the original"
    );
    Ok(border)
}

fn in_range([x0, y0, x1, y1]: Rect) -> bool {
    [x0, y0, x1, y1].into_iter().all(coordinate_in_range) && x0 < x1 && y0 < y1
}

/// The piece that a side of the first and the opposite side of the second have in common. No two sides have one.
fn shared_border(a: Rect, b: Rect) -> Option<Border> {
    let mut borders = Side::ALL.into_iter().filter_map(|side| {
        let length = Segment::of(a, side).length_shared(Segment::of(b, side.opposite()))?;
        Some(Border { side, length })
    });
    let border = borders.next();
    assert_eq!(borders.next(), None, "{a:?} and {b:?} share {border:?} and another");
    border
}

/// A side: the one coordinate that all its points have in common, and from where to where the other one goes.
struct Segment {
    line: i64,
    from: i64,
    to: i64,
}

impl Segment {
    fn of([x0, y0, x1, y1]: Rect, side: Side) -> Self {
        match side {
            Side::South => Segment { line: y0, from: x0, to: x1 },
            Side::East => Segment { line: x1, from: y0, to: y1 },
            Side::North => Segment { line: y1, from: x0, to: x1 },
            Side::West => Segment { line: x0, from: y0, to: y1 },
        }
    }

    /// By how much the two are longer than what they cover together, if they lie on one line and it is more than a
    /// point.
    fn length_shared(&self, other: Segment) -> Option<u64> {
        if self.line != other.line {
            return None;
        }
        let lengths = (self.to - self.from) + (other.to - other.from);
        let covered = self.to.max(other.to) - self.from.min(other.from);
        u64::try_from(lengths - covered).ok().filter(|&length| length > 0)
    }
}

/// A cell of which only the rectangle counts.
fn bare_cell([x0, y0, x1, y1]: Rect) -> QuadCell {
    QuadCell {
        x0: metres(x0),
        y0: metres(y0),
        x1: metres(x1),
        y1: metres(y1),
        level: 0,
        parent: NO_CELL,
        children: [NO_CELL; 4],
        poly: 0,
    }
}
