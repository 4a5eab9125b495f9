//! Build: outlines to roots.

use crate::contact::Rect;
use crate::limits::{r_sheet_in_range, CAP, CELL, LAYER_ENTRIES, POLYGONS, WIDEST_LEVEL};
use crate::outcome::{require, Answer, Refusal};
use crate::sheets::{LayerNames, Sheets};
use crate::strips::{is_rectilinear, ring_in_range, strips_by_the_words, TickPoint};
use crate::table::{store_grid, Head, WIDTH};
use crate::ticks::metres;
use crate::well_formed::sound_shape;
use original::adaptive::AdaptiveGrid;
use original::sheet::SheetPolygon;
use std::collections::BTreeMap;

#[derive(Clone, Copy, Debug)]
pub struct Settings<'a> {
    pub max_level: u64,
    pub cap: u64,
    pub target: i64,
    /// Layers with a cell size of their own.
    pub layers: &'a [(u16, i64)],
}

/// Whole polygons: the points of all rings stand in one row, one after the other.
#[derive(Clone, Copy, Debug)]
pub struct Outlines<'a> {
    pub sheets: Sheets<'a>,
    pub point_count: &'a [u64],
    pub points: &'a [TickPoint],
}

/// Fills the table with roots and zeroes the rest; the answer is its head. Refuses 7, 3 (settings,
/// then polygon by polygon 3 before 4), 5, 6.
pub fn build(settings: &Settings, outlines: &Outlines, table: &mut [i64]) -> Answer<Head> {
    require(sound_shape(table), 7, 0)?;
    let roots = roots_of(settings, outlines)?;
    require(roots <= (table.len() / WIDTH) as u64, 6, 0)?;

    let grid = original_grid(settings, outlines);
    assert_eq!(grid.cells.len() as u64, roots, "the original makes as many roots");
    table.fill(0);
    store_grid(&grid, table);
    Ok(Head::of_grid(&grid, settings.max_level))
}

/// How many roots the board has. Refuses as build does, the room apart.
pub fn roots_of(settings: &Settings, outlines: &Outlines) -> Answer<u64> {
    require(outlines.rows_add_up(), 7, 0)?;
    require(settings.in_range(), 3, 0)?;
    require(outlines.sheets.len() <= POLYGONS, 3, 0)?;
    outlines.judge_polygons()?;
    count_roots(settings, outlines)
}

impl Settings<'_> {
    fn in_range(&self) -> bool {
        self.max_level <= WIDEST_LEVEL
            && (1..=CAP).contains(&self.cap)
            && (1..=CELL).contains(&self.target)
            && self.layers.len() <= LAYER_ENTRIES
            && self.layers.windows(2).all(|pair| pair[0].0 < pair[1].0)
            && self.layers.iter().all(|&(_, cell)| (0..=CELL).contains(&cell))
    }

    /// The layer list as the original takes it.
    pub fn layers_to_original(&self) -> BTreeMap<String, f64> {
        let entries = self.layers.iter();
        let names = LayerNames::default();
        entries.map(|&(layer, cell)| (names.of(layer), metres(cell))).collect()
    }

    /// The cell size of a layer: its own, or the target where that is 0 or not listed.
    fn cell_of(&self, layer: u16) -> i64 {
        match self.layers.iter().find(|entry| entry.0 == layer) {
            Some(&(_, cell)) if cell != 0 => cell,
            _ => self.target,
        }
    }
}

impl Outlines<'_> {
    fn rows_add_up(&self) -> bool {
        let points: u128 = self.point_count.iter().map(|&n| u128::from(n)).sum();
        self.sheets.rows_are_equal()
            && self.sheets.len() == self.point_count.len()
            && points == self.points.len() as u128
    }

    /// The rings one by one; asked for once the counts are known to add up.
    pub fn rings(&self) -> Vec<&[TickPoint]> {
        let mut rest = self.points;
        let mut rings = Vec::new();
        for &count in self.point_count {
            let (ring, behind) = rest.split_at(count as usize);
            rings.push(ring);
            rest = behind;
        }
        rings
    }

    /// The polygons as the original takes them.
    pub fn to_original(&self) -> Vec<SheetPolygon> {
        let rings = self.rings().into_iter().enumerate();
        rings.map(|(polygon, ring)| self.sheets.to_original(polygon, ring)).collect()
    }

    fn judge_polygons(&self) -> Answer<()> {
        for (polygon, ring) in self.rings().into_iter().enumerate() {
            let place = polygon as u64;
            require(r_sheet_in_range(self.sheets.r_sheet[polygon]), 3, place)?;
            require(ring_in_range(ring), 3, place)?;
            require(is_rectilinear(ring), 4, place)?;
        }
        Ok(())
    }
}

/// All roots of the board, or refusal 5 at the lowest polygon with an uneven side.
fn count_roots(settings: &Settings, outlines: &Outlines) -> Answer<u64> {
    let mut roots = 0;
    for (polygon, ring) in outlines.rings().into_iter().enumerate() {
        let cell = settings.cell_of(outlines.sheets.layer[polygon]);
        for strip in strips_by_the_words(ring) {
            let uneven = Refusal { number: 5, place: polygon as u64 };
            roots += strip_roots(settings, cell, strip).ok_or(uneven)?;
        }
    }
    Ok(roots)
}

/// The roots of one strip, or none if a base cell's side isn't a multiple of 2^(max_level+1).
fn strip_roots(settings: &Settings, cell: i64, [x0, y0, x1, y1]: Rect) -> Option<u64> {
    let (w, h) = (x1 - x0, y1 - y0);
    let nx = cells_along(w, cell, settings.cap);
    let ny = cells_along(h, cell, settings.cap);
    let even = |side: i64, n: u64| side % ((n as i64) << (settings.max_level + 1)) == 0;
    (even(w, nx) && even(h, ny)).then_some(nx * ny)
}

/// ceil(side / cell), held within 1 to cap.
pub fn cells_along(side: i64, cell: i64, cap: u64) -> u64 {
    let whole = (side + cell - 1) / cell;
    (whole as u64).clamp(1, cap)
}

fn original_grid(settings: &Settings, outlines: &Outlines) -> AdaptiveGrid {
    let target = metres(settings.target);
    let (polygons, layers) = (outlines.to_original(), settings.layers_to_original());
    AdaptiveGrid::from_polygons(&polygons, target, settings.cap as usize, &layers)
}
