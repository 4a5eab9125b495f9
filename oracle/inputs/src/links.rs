//! Contacts, vias and channels for a mesh, mostly such that something is joined; and faults of them.

use crate::meshes::Mesh;
use crate::plan_faults::bad_sheets;
use crate::random::Random;
use calls::contact::Rect;
use calls::limits::{COORDINATE, HALF, R_SHEET};
use calls::links::{Channel, Contact, Footprint, Links, Terminal, Via};
use calls::table::Slot;

/// How often a kind of link is left out, one in so many.
const NONE_ONE_IN: u64 = 16;
/// Most links of a kind, but for a few meshes.
const FEW: u64 = 4;
const MANY: u64 = 40;
const MANY_ONE_IN: u64 = 30;
/// A footprint covers the whole board only where a mesh has at most so many leaves.
const WHOLE: usize = 40;

/// Where the leaves of a mesh are.
struct Copper<'a> {
    mesh: &'a Mesh,
    leaves: Vec<Slot>,
}

impl<'a> Copper<'a> {
    fn of(mesh: &'a Mesh) -> Self {
        let cells = (0..mesh.table.count).map(|id| mesh.table.slot(id));
        Copper { mesh, leaves: cells.filter(Slot::is_leaf).collect() }
    }

    /// A leaf, with its layer and component.
    fn leaf(&self, random: &mut Random) -> (Rect, u16, u32) {
        let leaf = random.pick(&self.leaves);
        let polygon = leaf.polygon as usize;
        (leaf.rect(), self.mesh.layers[polygon], self.mesh.components[polygon])
    }

    /// A leaf of a layer, if there is one among the first that are drawn.
    fn leaf_on(&self, layer: u16, random: &mut Random) -> (Rect, u16, u32) {
        let drawn: Vec<_> = (0..12).map(|_| self.leaf(random)).collect();
        drawn.iter().copied().find(|leaf| leaf.1 == layer).unwrap_or(drawn[0])
    }

    fn polygon(&self, random: &mut Random) -> usize {
        random.pick(&self.leaves).polygon as usize
    }
}

/// Links of all kinds for a sound mesh; none where it has no leaf.
pub fn any_links(mesh: &Mesh, random: &mut Random) -> Links {
    let copper = Copper::of(mesh);
    if copper.leaves.is_empty() {
        return links_of_nothing(random);
    }
    let channel_layer = copper.leaf(random).1;
    Links {
        contacts: some(random, |random| contact(&copper, random)),
        vias: some(random, |random| via(&copper, random)),
        channel_layer,
        channels: some(random, |random| channel(&copper, channel_layer, random)),
    }
}

/// For a mesh without leaves: all are skipped.
fn links_of_nothing(random: &mut Random) -> Links {
    let mesh = Mesh::of_table(crate::tables::Table::with(0, &[[0, 0, 2, 2]], &[]));
    let mut mesh = mesh;
    mesh.push_polygon(1, 0, 1.0);
    any_links(&mesh, random)
}

fn some<T>(random: &mut Random, mut draw: impl FnMut(&mut Random) -> T) -> Vec<T> {
    let count = match random.below(NONE_ONE_IN) {
        0 => 0,
        _ if random.one_in(MANY_ONE_IN) => 1 + random.below(MANY),
        _ => 1 + random.below(FEW),
    };
    (0..count).map(|_| draw(random)).collect()
}

fn contact(copper: &Copper, random: &mut Random) -> Contact {
    let count = copper.mesh.layers.len();
    let number = |random: &mut Random| match random.below(24) {
        0 => count,
        1 => random.pick(&[count + 1, count + 300, usize::MAX, 1 << 32]),
        2 => random.index(count),
        _ => copper.polygon(random),
    };
    let from = number(random);
    let to = if random.one_in(6) { from } else { number(random) };
    Contact { from, to }
}

fn via(copper: &Copper, random: &mut Random) -> Via {
    let (rect, bottom, component) = copper.leaf(random);
    let other = copper.leaf(random);
    let top = match random.below(12) {
        0 => random.pick(&[0, 1, 2, 3, 65_535]),
        1..=2 => bottom,
        // Where the component has copper on two layers, they are chosen.
        _ => (0..8)
            .map(|_| copper.leaf(random))
            .find(|leaf| leaf.2 == component && leaf.1 != bottom)
            .map_or(other.1, |leaf| leaf.1),
    };
    let component = match random.below(24) {
        0 => random.pick(&[0, 1, 7, u32::MAX]),
        _ => component,
    };
    let [bottom, top] = if random.one_in(2) { [bottom, top] } else { [top, bottom] };
    let footprint = footprint(copper, rect, random);
    Via { bottom, top, component, footprint, resistance: resistance(random) }
}

/// Round a place of a leaf: a point, or a few of the leaf's sides wide; or the whole board.
fn footprint(copper: &Copper, rect: Rect, random: &mut Random) -> Footprint {
    let [x, y] = place(rect, random);
    let sides = [rect[2] - rect[0], rect[3] - rect[1]];
    let is_small = copper.leaves.len() <= WHOLE;
    let mut half = |side: i64| match random.below(12) {
        0..=1 => 0,
        2 => 1,
        3 => side / 2,
        4..=5 => side,
        6 => side - 1,
        7 => side + 1,
        8 => 2 * side,
        9 => random.within(0, 3 * side),
        10 if is_small && random.one_in(3) => HALF,
        _ => random.within(1, side),
    };
    let [half_width, half_height] = sides.map(|side| half(side).min(HALF));
    Footprint { x, y, half_width, half_height }
}

fn channel(copper: &Copper, layer: u16, random: &mut Random) -> Channel {
    let (rect, _, component) = copper.leaf_on(layer, random);
    let corners = corners_of(rect);
    let first = random.index(4);
    let end = |component: u32, [x, y]: [i64; 2]| Terminal { component, x, y };
    let drain = end(component, corners[first]);
    let source = match random.below(8) {
        // Along a side of the leaf.
        0..=1 => end(component, corners[(first + 1) % 4]),
        2 => end(component, corners[(first + 2) % 4]),
        3 => drain,
        4 => end(random.pick(&[0, 1, 7, u32::MAX]), corners[first]),
        _ => {
            let (rect, _, component) = copper.leaf_on(layer, random);
            end(component, place(rect, random))
        }
    };
    let [drain, source] = if random.one_in(2) { [drain, source] } else { [source, drain] };
    Channel { drain, source, resistance: resistance(random) }
}

fn corners_of([x0, y0, x1, y1]: Rect) -> [[i64; 2]; 4] {
    [[x0, y0], [x1, y0], [x1, y1], [x0, y1]]
}

/// At a corner of a leaf, at the middle between corners (so that nodes are equally far), a tick or more off, or far away.
fn place(rect: Rect, random: &mut Random) -> [i64; 2] {
    let [x0, y0, x1, y1] = rect;
    let middle = [x0 + (x1 - x0) / 2, y0 + (y1 - y0) / 2];
    let corner = corners_of(rect)[random.index(4)];
    let at = match random.below(10) {
        0..=3 => corner,
        4..=5 => middle,
        6 => [middle[0], corner[1]],
        7 => [corner[0] + random.within(-1, 1), corner[1] + random.within(-1, 1)],
        8 => [random.within(x0, x1), random.within(y0, y1)],
        _ => [0, 1].map(|_| random.pick(&[0, COORDINATE, -COORDINATE, COORDINATE - 1])),
    };
    at.map(|coordinate| coordinate.clamp(-COORDINATE, COORDINATE))
}

fn resistance(random: &mut Random) -> f64 {
    match random.below(4) {
        0 => 1.0,
        1 => random.pick(&[R_SHEET, 1.0 / R_SHEET, 2.0, 3.0, 0.1]),
        _ => {
            let power = random.within(-40, 39) as i32;
            let share = random.bits() as f64 / u64::MAX as f64;
            (1.0 + share.min(0.999_999)) * 2f64.powi(power)
        }
    }
}

/// One value out of range, also of a link that would join nothing.
pub fn put_link_fault(links: &mut Links, random: &mut Random) {
    if links.vias.is_empty() && links.channels.is_empty() {
        links.vias.push(Via {
            bottom: 9,
            top: 9,
            component: 9,
            footprint: Footprint::point(0, 0),
            resistance: 1.0,
        });
    }
    let of_vias = links.channels.is_empty() || (!links.vias.is_empty() && random.one_in(2));
    if of_vias {
        let at = random.index(links.vias.len());
        spoil_via(&mut links.vias[at], random);
    } else {
        let at = random.index(links.channels.len());
        spoil_channel(&mut links.channels[at], random);
    }
}

fn spoil_via(via: &mut Via, random: &mut Random) {
    if random.one_in(3) {
        via.top = 77;
    }
    match random.below(6) {
        0..=1 => via.resistance = random.pick(&bad_sheets()),
        2 => via.footprint.half_width = random.pick(&bad_halves()),
        3 => via.footprint.half_height = random.pick(&bad_halves()),
        4 => via.footprint.x = random.pick(&bad_places()),
        _ => via.footprint.y = random.pick(&bad_places()),
    }
}

fn spoil_channel(channel: &mut Channel, random: &mut Random) {
    if random.one_in(3) {
        channel.drain.component = 77;
    }
    match random.below(6) {
        0..=1 => channel.resistance = random.pick(&bad_sheets()),
        2 => channel.drain.x = random.pick(&bad_places()),
        3 => channel.drain.y = random.pick(&bad_places()),
        4 => channel.source.x = random.pick(&bad_places()),
        _ => channel.source.y = random.pick(&bad_places()),
    }
}

fn bad_halves() -> [i64; 5] {
    [-1, HALF + 1, i64::MIN, i64::MAX, -HALF]
}

fn bad_places() -> [i64; 4] {
    [COORDINATE + 1, -COORDINATE - 1, i64::MIN, i64::MAX]
}
