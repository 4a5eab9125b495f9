//! The borders that rectangles share: what one is, and all of a list.

use crate::columns::{X0, X1, Y0};
use crate::{contact, Rect, Refusal};
use std::ops::Range;

/// A side of a rectangle, anticlockwise from the south.
#[derive(Clone, Copy, Debug, PartialEq, Eq, PartialOrd, Ord, Hash)]
pub enum Side {
    /// That of y0.
    South,
    /// That of x1.
    East,
    /// That of y1.
    North,
    /// That of x0.
    West,
}

impl Side {
    /// The side across: of a rectangle that lies along this one.
    pub fn opposite(self) -> Self {
        match self {
            Side::South => Side::North,
            Side::East => Side::West,
            Side::North => Side::South,
            Side::West => Side::East,
        }
    }
}

/// A piece of border that two rectangles share, longer than a point.
#[derive(Clone, Copy, Debug, PartialEq, Eq, PartialOrd, Ord, Hash)]
pub struct Border {
    /// The side of the first rectangle that it lies on; of the second it is the opposite one.
    pub side: Side,
    /// In ticks.
    pub length: u64,
}

/// Two leaves that share a border, by their ids.
#[derive(Clone, Copy, Debug, PartialEq, Eq, PartialOrd, Ord, Hash)]
pub struct LeafBorder {
    /// The leaf of the lower id.
    pub first: usize,
    /// The other one.
    pub second: usize,
    /// As the first sees it.
    pub border: Border,
}

/// Every pair of leaves that share a border, once and in the order of their ids, of leaves that no table stands behind:
/// each has an id of its own and its rectangle, and they may lie over each other.
/// [`Table::borders`](crate::Table::borders) is this of a table, [`Printed::borders`](crate::printed::Printed::borders)
/// of what leafnet printed.
///
/// It takes n log n steps for n leaves, and m log m for m pairs.
///
/// ```
/// use leafmesh::{borders, Border, LeafBorder, Side};
///
/// // The second lies over the third, and touches it at no side.
/// let leaves = [(7, [0, 0, 4, 4]), (3, [4, 3, 8, 8]), (5, [4, 0, 9, 4])];
/// let border = |side, length| Border { side, length };
/// let found = [
///     LeafBorder { first: 3, second: 7, border: border(Side::West, 1) },
///     LeafBorder { first: 5, second: 7, border: border(Side::West, 4) },
/// ];
/// assert_eq!(borders(&leaves)?, found);
/// # Ok::<(), leafmesh::Refusal>(())
/// ```
///
/// # Errors
///
/// That of [`contact`], with the id of the first leaf that it refuses.
pub fn borders(leaves: &[(usize, Rect)]) -> Result<Vec<LeafBorder>, Refusal> {
    for &(place, rect) in leaves {
        contact(rect, rect).map_err(|why| Refusal { place, ..why })?;
    }
    let rects: Vec<Rect> = leaves.iter().map(|&(_, rect)| rect).collect();
    let turned: Vec<Rect> = rects
        .iter()
        .map(|&[x0, y0, x1, y1]| [y0, x0, y1, x1])
        .collect();
    let mut found = Vec::new();
    for [one, other] in beside(&rects).into_iter().chain(beside(&turned)) {
        let (one, other) = (leaves[one], leaves[other]);
        let [(first, a), (second, b)] = [one.min(other), one.max(other)];
        let border = contact(a, b)?;
        found.extend(border.map(|border| LeafBorder {
            first,
            second,
            border,
        }));
    }
    found.sort_unstable();
    Ok(found)
}

/// The x of a rectangle's west or east side, the y where the side begins, and the rectangle's place in its list.
type Start = (i64, i64, usize);

/// The pairs of rectangles, by their places, whose sides lie along each other: the first one's east and the second
/// one's west side. One of the two begins between the other's ends, and from that other one the pair is found, so once.
fn beside(rects: &[Rect]) -> Vec<[usize; 2]> {
    let [west, east] = [X0, X1].map(|side| starts(rects, side));
    let mut pairs = Vec::new();
    for (one, &[x0, y0, x1, y1]) in rects.iter().enumerate() {
        pairs.extend(between(&west, x1, y0..y1).map(|other| [one, other]));
        // Those that begin together are found above.
        pairs.extend(between(&east, x0, y0 + 1..y1).map(|other| [other, one]));
    }
    pairs
}

/// One side of every rectangle, in order.
fn starts(rects: &[Rect], side: usize) -> Vec<Start> {
    let rects = rects.iter().enumerate();
    let mut all: Vec<Start> = rects.map(|(at, rect)| (rect[side], rect[Y0], at)).collect();
    all.sort_unstable();
    all
}

/// The rectangles with a side at x that begins within a range of y.
fn between(starts: &[Start], x: i64, ys: Range<i64>) -> impl Iterator<Item = usize> + '_ {
    let first = starts.partition_point(|&(own, y, _)| (own, y) < (x, ys.start));
    let within = move |&&(own, y, _): &&Start| own == x && y < ys.end;
    starts[first..]
        .iter()
        .take_while(within)
        .map(|&(_, _, at)| at)
}
