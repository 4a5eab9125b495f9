//! Nodes inside the sides of a net's cells: those that hang, and those off the middle.

use crate::{NetRows, Node, Point, Rect, Refusal, Side};
use std::collections::BTreeMap;

/// A node of a cell's own layer and component that stands inside one of its sides and is no end of it.
#[derive(Clone, Copy, Debug, PartialEq, Eq)]
pub struct Inside {
    /// The node.
    pub node: usize,
    /// The cell that it stands in a side of.
    pub cell: usize,
    /// The side's ends, anticlockwise round the cell.
    pub ends: [usize; 2],
    /// Whether it stands at the middle. Where it doesn't, bands of unequal cells meet, or a finer
    /// polygon touches: no side is cut there, and [`Table::check_by_layer`](crate::Table::check_by_layer) tells whether
    /// it is joined along the side all the same.
    pub middle: bool,
}

/// Where a node stands on a row or column: layer, component, the coordinate that the line has in common, and the other
/// one.
type OnLine = (u16, u32, i64, i64);

fn on_row(node: &Node) -> OnLine {
    (node.layer, node.component, node.y, node.x)
}

fn on_column(node: &Node) -> OnLine {
    (node.layer, node.component, node.x, node.y)
}

/// Nodes along lines. A later node at the same place takes the earlier one's.
struct Lines {
    place: fn(&Node) -> OnLine,
    nodes: BTreeMap<OnLine, usize>,
}

impl Lines {
    fn of(net: NetRows, place: fn(&Node) -> OnLine) -> Self {
        let nodes = net.nodes.iter().enumerate();
        Lines {
            place,
            nodes: nodes.map(|(number, node)| (place(node), number)).collect(),
        }
    }

    /// The nodes strictly between two ends of a line, rising, and whether each is in the middle.
    fn between(&self, ends: [&Node; 2]) -> impl Iterator<Item = (usize, bool)> + '_ {
        let [from, to] = ends.map(self.place);
        let (low, high) = (from.min(to), from.max(to));
        let past = (low.0, low.1, low.2, low.3 + 1);
        let nodes = self.nodes.range(past..high);
        nodes.map(move |(at, &node)| (node, at.3 - low.3 == high.3 - at.3))
    }
}

/// Every node inside a side of a cell, by cell, then south, east, north, west, then rising.
///
/// # Errors
///
/// Those of [`NetRows::judge`].
pub fn inside(net: NetRows) -> Result<Vec<Inside>, Refusal> {
    net.judge()?;
    let lines = [Lines::of(net, on_row), Lines::of(net, on_column)];
    let mut found = Vec::new();
    for (cell, corners) in net.cells.iter().map(|cell| cell.corners).enumerate() {
        for side in 0..4 {
            let ends = [corners[side], corners[(side + 1) % 4]];
            let inside = lines[side % 2].between(ends.map(|end| &net.nodes[end]));
            found.extend(inside.map(|(node, middle)| Inside {
                node,
                cell,
                ends,
                middle,
            }));
        }
    }
    Ok(found)
}

/// The numbers of the nodes at the middle of a cell's side, rising.
///
/// # Errors
///
/// Those of [`NetRows::judge`].
pub fn hanging(net: NetRows) -> Result<Vec<usize>, Refusal> {
    let middles = inside(net)?.into_iter().filter(|one| one.middle);
    let mut found: Vec<usize> = middles.map(|one| one.node).collect();
    found.sort_unstable();
    found.dedup();
    Ok(found)
}

/// The nodes on a side of a cell, both ends and what stands between them of its own layer and component, rising along x
/// or y. None where there is no such cell.
///
/// # Errors
///
/// Those of [`NetRows::judge`].
pub fn along(net: NetRows, cell: usize, side: Side) -> Result<Vec<usize>, Refusal> {
    net.judge()?;
    let Some(cell) = net.cells.get(cell) else {
        return Ok(Vec::new());
    };
    let number = side as usize;
    let ends = [cell.corners[number], cell.corners[(number + 1) % 4]];
    let lines = Lines::of(net, [on_row, on_column][number % 2]);
    let [low, high] = match side {
        Side::South | Side::East => ends,
        Side::North | Side::West => [ends[1], ends[0]],
    };
    let between = lines.between(ends.map(|end| &net.nodes[end]));
    let inner = between.map(|(node, _)| node);
    Ok([low].into_iter().chain(inner).chain([high]).collect())
}

/// SW, SE, NE, NW.
pub(crate) fn corners_of([x0, y0, x1, y1]: Rect) -> [Point; 4] {
    [[x0, y0], [x1, y0], [x1, y1], [x0, y1]]
}

/// Whether a rectangle has a side from one place to another, anticlockwise.
pub(crate) fn has_side(rect: Rect, ends: [Point; 2]) -> bool {
    let corners = corners_of(rect);
    (0..4).any(|side| [corners[side], corners[(side + 1) % 4]] == ends)
}
