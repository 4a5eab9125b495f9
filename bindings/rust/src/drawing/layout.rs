//! Where things stand: one panel a layer, in rows and columns, each with a heading and room for labels.

use super::svg::width_of;
use super::{Cell, Place};
use crate::Rect;
use std::collections::BTreeSet;

/// At the rim of a picture.
pub const MARGIN: f64 = 24.0;
/// What all panels together take at most, but for labels.
const PAGE: [f64; 2] = [952.0, 900.0];
/// The larger side of a panel is never shorter.
const LEAST_PANEL: f64 = 120.0;
/// Between panels.
const GAP: f64 = 20.0;
const HEADING: f64 = 22.0;
/// Layers that stand side by side are easily compared: panels stand so as long as they keep this share of the largest
/// scale.
const WORTH: f64 = 0.7;
/// Wide enough for a colour bar with its words.
const LEAST: f64 = 600.0;
/// Of a title's words.
pub const TITLE_SIZE: f64 = 18.0;

/// From ticks to the picture.
pub struct Layout {
    /// Of the panels, in their order.
    pub layers: Vec<i64>,
    columns: usize,
    west: i64,
    south: i64,
    north: i64,
    /// Picture units a tick.
    pub unit: f64,
    /// Of what a panel shows.
    pub size: [f64; 2],
    /// For labels above and below each panel, and the widest of them.
    room: [f64; 2],
    widest: f64,
    title: f64,
}

impl Layout {
    pub fn of(cells: &[Cell], title: &str) -> Self {
        let layers: BTreeSet<i64> = cells.iter().map(|cell| cell.layer).collect();
        let rects = || cells.iter().map(|cell| cell.rect);
        let west = rects().map(|r| r[0]).min().unwrap_or(0);
        let south = rects().map(|r| r[1]).min().unwrap_or(0);
        let east = rects().map(|r| r[2]).max().unwrap_or(1);
        let north = rects().map(|r| r[3]).max().unwrap_or(1);
        let size = [(east - west) as f64, (north - south) as f64];
        let panels = layers.len().max(1);
        let columns = columns_for(panels, size);
        let least = LEAST_PANEL / size[0].max(size[1]);
        let unit = scale_for(panels, columns, size).max(least);
        Layout {
            layers: layers.into_iter().collect(),
            columns,
            west,
            south,
            north,
            unit,
            size: size.map(|ticks| ticks * unit),
            room: [0.0; 2],
            widest: 0.0,
            title: width_of(title, TITLE_SIZE),
        }
    }

    /// Makes room for labels above and below each panel, of which the widest is no wider than its panel then.
    pub fn make_room(&mut self, room: [f64; 2], widest: f64) {
        self.room = room;
        self.widest = widest;
    }

    /// What a panel takes from west to east, labels included.
    pub fn panel_width(&self) -> f64 {
        self.size[0].max(self.widest)
    }

    /// Of the whole picture.
    pub fn width(&self) -> f64 {
        let columns = self.layers.len().clamp(1, self.columns) as f64;
        let panels = columns * (self.panel_width() + GAP) - GAP;
        panels.max(self.title).max(LEAST) + 2.0 * MARGIN
    }

    /// The upper left corner of what a layer's panel shows.
    pub fn corner(&self, layer: i64) -> [f64; 2] {
        let index = self.layers.binary_search(&layer).unwrap_or(0);
        let (column, row) = (index % self.columns, index / self.columns);
        [
            MARGIN + column as f64 * (self.panel_width() + GAP),
            self.row(row) + HEADING + self.room[0],
        ]
    }

    /// Where the words of a panel's heading stand.
    pub fn heading(&self, layer: i64) -> [f64; 2] {
        let [x, y] = self.corner(layer);
        [x, y - self.room[0] - 7.0]
    }

    fn row(&self, row: usize) -> f64 {
        let [above, below] = self.room;
        MARGIN + 30.0 + row as f64 * (HEADING + above + self.size[1] + below + GAP)
    }

    /// Below the last panel.
    pub fn bottom(&self) -> f64 {
        self.row(self.layers.len().div_ceil(self.columns).max(1))
    }

    pub fn place(&self, [layer, x, y]: Place) -> [f64; 2] {
        let [left, top] = self.corner(layer);
        [
            left + (x - self.west) as f64 * self.unit,
            top + (self.north - y) as f64 * self.unit,
        ]
    }

    /// Whether a place is nearer to the north of its panel than to the south, or as near.
    pub fn is_north(&self, low: i64, high: i64) -> bool {
        self.north - high <= low - self.south
    }

    /// A rectangle of a layer: x0, y0, x1, y1 of the picture.
    pub fn rect(&self, layer: i64, [x0, y0, x1, y1]: Rect) -> [f64; 4] {
        let [west, north] = self.place([layer, x0, y1]);
        let [east, south] = self.place([layer, x1, y0]);
        [west, north, east, south]
    }

    /// What of a rectangle lies in a layer's panel.
    pub fn clipped(&self, layer: i64, rect: Rect) -> Option<[f64; 4]> {
        self.layers.binary_search(&layer).ok()?;
        let [left, top] = self.corner(layer);
        let [west, north, east, south] = self.rect(layer, rect);
        let [x0, y0] = [west.max(left), north.max(top)];
        let [x1, y1] = [east.min(left + self.size[0]), south.min(top + self.size[1])];
        (x0 < x1 && y0 < y1).then_some([x0, y0, x1, y1])
    }
}

/// As few rows as are worth it, and then no more columns than these need.
fn columns_for(panels: usize, size: [f64; 2]) -> usize {
    let columns = |rows: usize| panels.div_ceil(rows);
    let scale = |rows: usize| scale_for(panels, columns(rows), size);
    let best = (1..=panels).map(scale).fold(0.0, f64::max);
    let is_worth = |rows: &usize| best > 0.0 && scale(*rows) >= WORTH * best;
    let rows = (1..=panels).find(is_worth);
    rows.map_or((panels as f64).sqrt().ceil() as usize, columns)
}

/// Picture units a tick, where panels of a size in ticks stand in so many columns; below 0 where they can't.
fn scale_for(panels: usize, columns: usize, [wide, high]: [f64; 2]) -> f64 {
    let rows = panels.div_ceil(columns);
    let across = (PAGE[0] + GAP) / columns as f64 - GAP;
    let down = (PAGE[1] + GAP) / rows as f64 - GAP - HEADING;
    (across / wide).min(down / high)
}

#[cfg(test)]
mod tests {
    use super::columns_for;

    #[test]
    fn panels_stand_side_by_side_where_that_is_worth_it() {
        for (panels, size, columns) in [
            (1, [30.0, 20.0], 1),
            (2, [30.0, 20.0], 2),
            (3, [30.0, 20.0], 2),
            (4, [30.0, 20.0], 2),
            (2, [60.0, 10.0], 1),
            (4, [60.0, 10.0], 1),
            (2, [10.0, 60.0], 2),
            (4, [10.0, 60.0], 4),
            (2, [20.0, 36.0], 2),
            (4, [20.0, 20.0], 2),
            (9, [1.0, 1.0], 3),
        ] {
            assert_eq!(columns_for(panels, size), columns, "{panels} of {size:?}");
        }
        assert!((1..=256).contains(&columns_for(256, [1.0, 1000.0])));
    }
}
