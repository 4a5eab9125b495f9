//! Where a set of nodes lies among cells: along sides, round cells that are all in the set, and at single places.

use super::{Cell, Place};
use std::collections::{BTreeMap, BTreeSet};

/// What is drawn of a set of places of one layer.
#[derive(Clone, Debug, Default, PartialEq)]
pub struct Outline {
    /// Along x or y, from the lower end to the higher one.
    pub lines: Vec<[Place; 2]>,
    /// Places that no such line comes from.
    pub dots: Vec<Place>,
}

impl Outline {
    pub fn of(cells: &[Cell], layer: i64, places: &BTreeSet<Place>) -> Self {
        let mut alone = places.clone();
        let mut lines: BTreeMap<Along, Sides> = BTreeMap::new();
        for cell in cells.iter().filter(|cell| cell.layer == layer) {
            let corners = cell.corners();
            let is_in = corners.map(|place| places.contains(&place));
            let is_full = is_in == [true; 4];
            for side in 0..4 {
                let ends = [side, (side + 1) % 4];
                if ends.iter().all(|&end| is_in[end]) {
                    let ends = ends.map(|end| corners[end]);
                    ends.iter().for_each(|end| {
                        alone.remove(end);
                    });
                    // South and east, north and west have the cell on hands that differ.
                    let hand = [1, -1, -1, 1][side];
                    let own = lines.entry(Along::of(ends)).or_default();
                    own.add(ends, is_full.then_some(hand));
                }
            }
        }
        let drawn = |(along, sides): (Along, Sides)| {
            let line = move |ends: [i64; 2]| ends.map(|end| along.place(layer, end));
            sides.drawn().into_iter().map(line)
        };
        Outline {
            lines: lines.into_iter().flat_map(drawn).collect(),
            dots: alone.into_iter().collect(),
        }
    }
}

/// A row or a column, by the coordinate that it has in common.
#[derive(Clone, Copy, Debug, PartialEq, Eq, PartialOrd, Ord)]
enum Along {
    Row(i64),
    Column(i64),
}

impl Along {
    fn of([[_, ax, ay], [_, _, by]]: [Place; 2]) -> Self {
        match ay == by {
            true => Along::Row(ay),
            false => Along::Column(ax),
        }
    }

    fn place(self, layer: i64, at: i64) -> Place {
        match self {
            Along::Row(y) => [layer, at, y],
            Along::Column(x) => [layer, x, at],
        }
    }
}

/// Sides on one row or column.
#[derive(Default)]
struct Sides {
    /// What changes at each place.
    steps: BTreeMap<i64, Lying>,
}

/// What lies along a part of a row or column.
#[derive(Clone, Copy, Default)]
struct Lying {
    /// Sides of cells that are not all in the set.
    bare: i64,
    /// Sides of those that are.
    full: i64,
    /// Of the latter those with the cell on the one hand, less those with it on the other.
    uneven: i64,
}

impl Lying {
    fn add(&mut self, times: i64, other: Lying) {
        self.bare += times * other.bare;
        self.full += times * other.full;
        self.uneven += times * other.uneven;
    }

    /// Not where the set lies on both hands.
    fn is_drawn(self) -> bool {
        self.uneven != 0 || (self.bare > 0 && self.full == 0)
    }
}

impl Sides {
    fn add(&mut self, [a, b]: [Place; 2], hand: Option<i64>) {
        let [from, to] = match a[2] == b[2] {
            true => [a[1].min(b[1]), a[1].max(b[1])],
            false => [a[2].min(b[2]), a[2].max(b[2])],
        };
        let own = Lying {
            bare: i64::from(hand.is_none()),
            full: i64::from(hand.is_some()),
            uneven: hand.unwrap_or(0),
        };
        self.steps.entry(from).or_default().add(1, own);
        self.steps.entry(to).or_default().add(-1, own);
    }

    /// From where to where a line is drawn.
    fn drawn(self) -> Vec<[i64; 2]> {
        let (mut here, mut since, mut drawn) = (Lying::default(), None, Vec::new());
        for (at, step) in self.steps {
            here.add(1, step);
            match (since, here.is_drawn()) {
                (None, true) => since = Some(at),
                (Some(from), false) => {
                    drawn.push([from, at]);
                    since = None;
                }
                _ => {}
            }
        }
        drawn
    }
}

#[cfg(test)]
mod tests {
    use super::*;
    use crate::Rect;

    fn cells(rects: &[Rect]) -> Vec<Cell> {
        let cell = |&rect: &Rect| Cell {
            id: 0,
            layer: 1,
            level: 0,
            rect,
        };
        rects.iter().map(cell).collect()
    }

    fn outline(rects: &[Rect], places: &[[i64; 2]]) -> Outline {
        let places = places.iter().map(|&[x, y]| [1, x, y]).collect();
        Outline::of(&cells(rects), 1, &places)
    }

    fn lines(outline: &Outline) -> Vec<[[i64; 2]; 2]> {
        let flat = |line: &[Place; 2]| line.map(|[_, x, y]| [x, y]);
        outline.lines.iter().map(flat).collect()
    }

    /// Four cells of 2 by 2 in a square, the last one split.
    const SQUARE: [Rect; 7] = [
        [0, 0, 2, 2],
        [2, 0, 4, 2],
        [0, 2, 2, 4],
        [2, 2, 3, 3],
        [3, 2, 4, 3],
        [2, 3, 3, 4],
        [3, 3, 4, 4],
    ];

    #[test]
    fn an_end_is_one_line() {
        let own = outline(&SQUARE, &[[0, 4], [2, 4], [3, 4], [4, 4]]);
        assert_eq!(lines(&own), [[[0, 4], [4, 4]]]);
        assert!(own.dots.is_empty());
    }

    #[test]
    fn cells_that_are_all_in_have_a_line_round_them() {
        let all: Vec<[i64; 2]> = SQUARE
            .iter()
            .flat_map(|&rect| crate::sides::corners_of(rect))
            .collect();
        let own = outline(&SQUARE, &all);
        let round = [
            [[0, 0], [4, 0]],
            [[0, 4], [4, 4]],
            [[0, 0], [0, 4]],
            [[4, 0], [4, 4]],
        ];
        assert_eq!(lines(&own), round);
        // The south-west cell, and a place past it.
        let own = outline(&SQUARE, &[[0, 0], [2, 0], [2, 2], [0, 2], [4, 4]]);
        let round = [
            [[0, 0], [2, 0]],
            [[0, 2], [2, 2]],
            [[0, 0], [0, 2]],
            [[2, 0], [2, 2]],
        ];
        assert_eq!(lines(&own), round);
        assert_eq!(own.dots, [[1, 4, 4]]);
    }

    #[test]
    fn a_gap_and_an_inner_row_are_kept() {
        let own = outline(&SQUARE, &[[0, 2], [2, 2], [3, 2], [4, 2]]);
        assert_eq!(lines(&own), [[[0, 2], [4, 2]]]);
        let apart = [[0, 0, 2, 2], [6, 0, 8, 2]];
        let own = outline(&apart, &[[0, 2], [2, 2], [6, 2], [8, 2]]);
        assert_eq!(lines(&own), [[[0, 2], [2, 2]], [[6, 2], [8, 2]]]);
        assert_eq!(outline(&SQUARE, &[]), Outline::default());
    }
}
