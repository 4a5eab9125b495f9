//! What build is lent, in the widths in which it is lent.

use crate::boards::random_board;
use crate::long_rings::random_long_ring;
use crate::random::Random;
use crate::ring_faults::push_to_the_limit;
use crate::rings::random_ring;
use calls::build::{Outlines, Settings};
use calls::limits::{COORDINATE, LAYER_ENTRIES, POLYGONS, R_SHEET, WIDEST_LEVEL};
use calls::record::Board;
use calls::sheets::Sheets;
use calls::strips::TickPoint;

/// Settings and polygon rows; the table's length apart.
#[derive(Clone, Debug, Default)]
pub struct Plan {
    pub max_level: u64,
    pub cap: u64,
    pub target: u64,
    /// Layer and cell in each entry.
    pub list: Vec<[u64; 2]>,
    pub layers: Vec<u16>,
    pub components: Vec<u32>,
    pub sheets: Vec<f64>,
    pub counts: Vec<u64>,
    pub points: Vec<TickPoint>,
}

/// A polygon before its points are put behind those of others.
#[derive(Clone, Debug)]
pub struct Polygon {
    pub layer: u16,
    pub component: u32,
    pub sheet: f64,
    pub ring: Vec<TickPoint>,
}

impl Plan {
    pub fn push(&mut self, polygon: &Polygon) {
        self.layers.push(polygon.layer);
        self.components.push(polygon.component);
        self.sheets.push(polygon.sheet);
        self.counts.push(polygon.ring.len() as u64);
        self.points.extend_from_slice(&polygon.ring);
    }

    pub fn rows_fit(&self) -> bool {
        let points: u128 = self.counts.iter().map(|&n| u128::from(n)).sum();
        let rows = [self.layers.len(), self.components.len(), self.sheets.len()];
        rows == [self.counts.len(); 3] && points == self.points.len() as u128
    }

    /// The polygons one by one; asked for while the rows fit together.
    pub fn polygons(&self) -> Vec<Polygon> {
        let mut points = self.points.iter().copied();
        (0..self.counts.len())
            .map(|n| Polygon {
                layer: self.layers[n],
                component: self.components[n],
                sheet: self.sheets[n],
                ring: points.by_ref().take(self.counts[n] as usize).collect(),
            })
            .collect()
    }

    pub fn set_polygons(&mut self, polygons: &[Polygon]) {
        *self = Plan {
            max_level: self.max_level,
            cap: self.cap,
            target: self.target,
            list: std::mem::take(&mut self.list),
            ..Plan::default()
        };
        polygons.iter().for_each(|polygon| self.push(polygon));
    }

    pub fn of_board(board: &Board) -> Self {
        let wide = |&(layer, cell): &(u16, i64)| [u64::from(layer), cell as u64];
        Plan {
            max_level: board.max_level,
            cap: board.cap,
            target: board.target as u64,
            list: board.layers.iter().map(wide).collect(),
            layers: board.layer.clone(),
            components: board.component.clone(),
            sheets: board.r_sheet.clone(),
            counts: board.point_count.clone(),
            points: board.points.clone(),
        }
    }

    /// Calls the original's side with the plan as that takes it, in narrower numbers. Settings that
    /// don't fit these are out of range, and so is a target of 0: it stands for them, since all of
    /// them are `3 0`.
    pub fn with_calls_rows<T>(&self, call: impl FnOnce(&Settings, &Outlines) -> T) -> T {
        let narrow =
            |entry: &[u64; 2]| Some((u16::try_from(entry[0]).ok()?, i64::try_from(entry[1]).ok()?));
        let layers: Option<Vec<(u16, i64)>> = self.list.iter().map(narrow).collect();
        let target = if layers.is_some() { i64::try_from(self.target).unwrap_or(0) } else { 0 };
        let settings = Settings {
            max_level: self.max_level,
            cap: self.cap,
            target,
            layers: &layers.unwrap_or_default(),
        };
        let sheets =
            Sheets { layer: &self.layers, component: &self.components, r_sheet: &self.sheets };
        call(&settings, &Outlines { sheets, point_count: &self.counts, points: &self.points })
    }
}

const MANY_ONE_IN: u64 = 40;
const LONG_ONE_IN: u64 = 400;

/// A board in range, often one whose sides are even.
pub fn random_plan(random: &mut Random) -> Plan {
    if random.one_in(MANY_ONE_IN) {
        return many_rectangles(random);
    }
    let mut plan = match random.below(3) {
        0 => Plan::of_board(&random_board(random)),
        _ => even_plan(random),
    };
    if random.one_in(8) {
        plan.list = random_list(random, plan.target);
    }
    plan
}

/// A board on a raster of whole cells, at any level and at any distance from the origin.
fn even_plan(random: &mut Random) -> Plan {
    let max_level = random.below(WIDEST_LEVEL + 1);
    let unit = 1i64 << (max_level + 1);
    let cell = unit << random.below(36 - 4 - max_level);
    let mut plan = Plan {
        max_level,
        cap: random.pick(&[1, 2, 4, 255, 256]),
        target: (cell * random.pick(&[1, 1, 1, 2])) as u64,
        ..Plan::default()
    };
    for _ in 0..random.below(6) {
        let ring = even_ring(random, cell);
        plan.push(&any_polygon(random, ring));
    }
    plan
}

fn even_ring(random: &mut Random, cell: i64) -> Vec<TickPoint> {
    if random.one_in(LONG_ONE_IN) {
        let points = random.pick(&[64, 256, 1_000, 1_024]);
        let mut ring = random_long_ring(random, points);
        let widest = ring.iter().flatten().map(|n| n.abs()).max().unwrap_or(1).max(1);
        let pitch = cell.min(COORDINATE / widest);
        ring.iter_mut().flatten().for_each(|number| *number *= pitch);
        return ring;
    }
    let mut ring = random_ring(random, 1);
    let fits = |pitch: &i64| ring.iter().flatten().all(|n| n.abs() <= COORDINATE / pitch);
    let pitch = [cell, 1 << 20, 1 << 13].into_iter().find(fits).unwrap_or(1);
    ring.iter_mut().flatten().for_each(|number| *number *= pitch);
    if random.one_in(6) {
        push_to_the_limit(&mut ring, random, 0);
    }
    ring
}

fn any_polygon(random: &mut Random, ring: Vec<TickPoint>) -> Polygon {
    Polygon {
        layer: random.pick(&[0, 1, 2, 3, 65_535]),
        component: random.pick(&[0, 1, u32::MAX]),
        sheet: random.pick(&[1.0, 0.5, 1e-3, R_SHEET, 1.0 / R_SHEET]),
        ring,
    }
}

/// A raster of rectangles, up to 257 of them, which is one too many.
fn many_rectangles(random: &mut Random) -> Plan {
    let max_level = random.below(4);
    let unit = 1i64 << (max_level + 1);
    let mut plan = Plan { max_level, cap: 256, target: 2 * unit as u64, ..Plan::default() };
    let most = POLYGONS as i64;
    for n in 0..random.pick(&[10, 20, 40, 80, 80, most - 1, most, most + 1]) {
        let (x, y) = (n % 16 * 8 * unit, n / 16 * 8 * unit);
        let (w, h) = (unit * 2 * random.within(1, 3), unit * 2 * random.within(1, 3));
        let ring = vec![[x, y], [x + w, y], [x + w, y + h], [x, y + h]];
        plan.push(&any_polygon(random, ring));
    }
    plan
}

/// Layers from 0 to 65,535 that rise, with cells of their own or 0.
fn random_list(random: &mut Random, target: u64) -> Vec<[u64; 2]> {
    let most = if random.one_in(8) { LAYER_ENTRIES as u64 } else { 4 };
    let first = random.below(3);
    let mut list: Vec<[u64; 2]> = (first..first + random.below(most + 1))
        .map(|layer| [layer, random.pick(&[0, 0, target, 2 * target, COORDINATE as u64])])
        .collect();
    if let (Some(last), true) = (list.last_mut(), random.one_in(3)) {
        last[0] = 65_535;
    }
    list.iter_mut().for_each(|entry| entry[1] = entry[1].min(COORDINATE as u64));
    list
}
