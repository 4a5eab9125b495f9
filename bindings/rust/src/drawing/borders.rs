//! The borders of a picture's cells, in its panels.

use super::border_lines::{self, Line, Scale};
use super::layout::Layout;
use super::{Cell, Picture};
use crate::{LeafBorder, Point, Rect, Side};
use std::fmt;

/// A line along every border, in the panels of its cells.
pub fn put(picture: &Picture, layout: &Layout, text: &mut String) -> fmt::Result {
    let Some(borders) = &picture.borders else {
        return Ok(());
    };
    let lines: Vec<Line> = borders
        .iter()
        .flat_map(|one| lines_of(one, picture, layout))
        .collect();
    border_lines::put(&lines, &scale_of(borders, layout), text)
}

pub fn scale_of(borders: &[LeafBorder], layout: &Layout) -> Scale {
    Scale::of(borders.iter().map(|one| one.border.length), layout.unit)
}

/// The line of a border, or its two lines across layers.
fn lines_of(one: &LeafBorder, picture: &Picture, layout: &Layout) -> Vec<Line> {
    let [a, b] = [one.first, one.second].map(|at| &picture.cells[at]);
    let across = a.layer != b.layer;
    // Within a layer the number goes to the north or east, across layers to the panel's own leaf.
    let homes: &[&Cell] = match one.border.side {
        _ if across => &[a, b],
        Side::North | Side::East => &[b],
        Side::South | Side::West => &[a],
    };
    let ends = shared(a.rect, b.rect);
    let line = |home: &&Cell| Line {
        leaves: [a.id.min(b.id), a.id.max(b.id)],
        length: one.border.length,
        ends: ends.map(|[x, y]| layout.place([home.layer, x, y])),
        leaf: layout.rect(home.layer, home.rect),
        across,
    };
    homes.iter().map(line).collect()
}

/// The ends of the border that two rectangles share.
fn shared(a: Rect, b: Rect) -> [Point; 2] {
    [
        [a[0].max(b[0]), a[1].max(b[1])],
        [a[2].min(b[2]), a[3].min(b[3])],
    ]
}
