//! Meshes whose bands are out of step: nodes stand between the ends of leaves' sides, and off their
//! middles.

use crate::meshes::{polygons_for, Mesh};
use crate::random::Random;
use crate::tables::Table;
use calls::build::{build, Outlines, Settings};
use calls::limits::COORDINATE;
use calls::sheets::Sheets;
use calls::strips::TickPoint;
use calls::table::{Slot, WIDTH};

/// Slots for a balance.
const BALANCED: usize = 300;
/// Roots in a band.
const BAND: i64 = 7;

/// The three rings of docs/RULES.md, "The checks", each with its target, at level 0.
pub const RINGS: [(i64, &[TickPoint]); 3] = [
    (6, &[[0, 0], [6, 0], [6, 2], [4, 2], [4, 4], [0, 4]]),
    (6, &[[0, 0], [6, 0], [6, 2], [8, 2], [8, 4], [0, 4]]),
    (12, &[[0, 0], [12, 0], [12, 2], [8, 2], [8, 4], [4, 4], [4, 2], [0, 2]]),
];

/// The base cells of one ring on layer 1, as build makes them.
pub fn ring_mesh(target: i64, ring: &[TickPoint]) -> Mesh {
    let sheets = Sheets { layer: &[1], component: &[0], r_sheet: &[1.0] };
    let settings = Settings { max_level: 0, cap: 256, target, layers: &[] };
    let outlines = Outlines { sheets, point_count: &[ring.len() as u64], points: ring };
    let mut row = vec![0; 16 * WIDTH];
    let head = build(&settings, &outlines, &mut row).expect("the ring is taken");
    row.truncate(head.count * WIDTH);
    let mut mesh = Mesh::of_table(Table::of(row, head));
    mesh.push_polygon(1, 0, 1.0);
    mesh
}

/// Bands of roots over one another, each cut by its own widths, along x or along y; now and then
/// roots are split, and the whole is balanced.
pub fn stepped_mesh(random: &mut Random) -> Mesh {
    let max_level = random.pick(&[0, 0, 1, 1, 2, 3]);
    let mut table = Table::new(max_level);
    let unit = 1i64 << (max_level + 1);
    let upright = random.one_in(2);
    let polygons = random.pick(&[1, 1, 1, 2, 3]);
    let width = unit * random.pick(&[2, 3, 4, 6, 6, 12, 12]);
    let far = COORDINATE - 4 * width;
    let [left, mut low] = [0, 0].map(|_| random.pick(&[0, 0, -width, far, 1 - COORDINATE]));
    for _ in 0..random.within(2, 3) {
        let high = low + unit * random.within(1, 2);
        for (from, to) in cuts(width, unit, random) {
            let shift = random.pick(&[0, 0, 0, 0, 0, 0, 0, unit / 2]);
            let [x0, x1] = [from, to].map(|x| left + x + shift);
            let rect = if upright { [low, x0, high, x1] } else { [x0, low, x1, high] };
            table.push(Slot::root(rect, random.within(0, polygons - 1)));
        }
        low = high;
    }
    for _ in 0..random.pick(&[0, 0, 1, 2, 3]) {
        if let Some(id) = table.leaf_to_split(random) {
            table.split(id);
        }
    }
    let mut mesh = polygons_for(table, random);
    if random.one_in(3) {
        mesh.balance_within(BALANCED);
    }
    mesh
}

/// Where a band is cut: into one root, into equal ones, or anywhere on the units.
fn cuts(width: i64, unit: i64, random: &mut Random) -> Vec<(i64, i64)> {
    let units = width / unit;
    let equal: Vec<i64> = (1..=BAND.min(units)).filter(|parts| units % parts == 0).collect();
    let mut places = match random.below(4) {
        0 => vec![],
        1 | 2 => {
            let parts = random.pick(&equal);
            (1..parts).map(|part| part * width / parts).collect()
        }
        _ => (1..units).filter(|_| random.one_in(2)).map(|place| place * unit).collect::<Vec<_>>(),
    };
    places.insert(0, 0);
    places.push(width);
    places.windows(2).map(|pair| (pair[0], pair[1])).collect()
}
