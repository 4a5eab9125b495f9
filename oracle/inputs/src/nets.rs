//! Nets: those of random boards, nets of loose cells, damage to a net, and potentials.

use crate::boards::{random_board, random_mesh};
use crate::plan_faults::bad_sheets;
use crate::random::Random;
use crate::ring_faults::some_place;
use calls::even::balance;
use calls::limits::{COORDINATE, POTENTIAL, R_SHEET};
use calls::net::{Cell, Edge, Net, Node};
use calls::network::{network, NetRoom};

const SLOTS: usize = 120;
const SPLITS: u64 = 8;

/// One in three is a net of loose cells.
pub fn random_net(random: &mut Random) -> Net {
    if random.one_in(3) {
        return loose_net(random);
    }
    loop {
        if let Some(net) = net_of_a_board(random) {
            return net;
        }
    }
}

/// The net of a random board, split here and there and now and then balanced.
fn net_of_a_board(random: &mut Random) -> Option<Net> {
    let board = random_board(random);
    let mut table = random_mesh(&board, random, SLOTS, SPLITS)?;
    if random.one_in(3) {
        table.set_slots(4 * SLOTS);
        let head = table.head();
        let even = balance(&mut table.row, head).ok()?;
        table.set_head(even.head);
    }
    let room = NetRoom::for_leaves(table.count);
    network(&table.row, table.head(), &board.sheets(), &room).ok()
}

/// Cells anywhere and of any size, each with nodes of its own.
fn loose_net(random: &mut Random) -> Net {
    let mut net = Net::default();
    for cell in 0..random.index(8) {
        let [x0, x1] = span(random);
        let [y0, y1] = span(random);
        let layer = random.within(0, i64::from(u16::MAX)) as u16;
        let component = random.within(0, i64::from(u32::MAX)) as u32;
        let node = |(x, y)| Node { layer, component, x, y };
        net.nodes.extend([(x0, y0), (x1, y0), (x1, y1), (x0, y1)].map(node));
        let corners = [0, 1, 2, 3].map(|corner| 4 * cell + corner);
        let [sw, se, ne, nw] = corners;
        net.edges.push(Edge { from: sw, to: se, conductance: 1.0 });
        net.edges.push(Edge { from: nw, to: ne, conductance: f64::NAN });
        net.cells.push(Cell { corners, r_sheet: any_sheet(random) });
    }
    net
}

/// Two coordinates, from one tick apart to the whole field.
fn span(random: &mut Random) -> [i64; 2] {
    let widest = 1i64 << random.within(0, 37);
    let width = random.within(1, widest).min(2 * COORDINATE);
    let low = random.within(-COORDINATE, COORDINATE - width);
    let low = random.pick(&[low, low, -COORDINATE, COORDINATE - width]);
    [low, low + width]
}

/// Any sheet resistance in range, the limits among them.
pub fn any_sheet(random: &mut Random) -> f64 {
    let (least, most) = ((1.0 / R_SHEET).to_bits() as i64, R_SHEET.to_bits() as i64);
    let any = f64::from_bits(random.within(least, most) as u64);
    random.pick(&[any, any, 1.0, R_SHEET, 1.0 / R_SHEET])
}

/// How the potentials of one net are drawn.
#[derive(Clone, Copy)]
enum Kind {
    /// A few volts, of any fraction.
    Volts,
    /// Any exponent, subnormal ones too.
    Anything,
    /// So small that squares of slopes run into subnormals and nothing.
    Tiny,
    /// Limits, zeros of both signs, the smallest numbers.
    Borders,
}

/// A few volts at each node.
pub fn ordinary_potentials(random: &mut Random, nodes: usize) -> Vec<f64> {
    (0..nodes).map(|_| potential(random, Kind::Volts)).collect()
}

/// Potentials in range, one for each node.
pub fn random_potentials(random: &mut Random, nodes: usize) -> Vec<f64> {
    let kind = random.pick(&[Kind::Volts, Kind::Anything, Kind::Tiny, Kind::Borders]);
    (0..nodes).map(|_| potential(random, kind)).collect()
}

fn potential(random: &mut Random, kind: Kind) -> f64 {
    let sign = random.pick(&[1.0, -1.0]);
    let fraction = random.bits() >> 12;
    let with_exponent = |exponent: i64| f64::from_bits((exponent as u64) << 52 | fraction);
    match kind {
        Kind::Volts => sign * with_exponent(random.within(1_010, 1_030)),
        Kind::Anything => sign * with_exponent(random.within(0, 1_042)),
        // Squares of slopes on the shortest and the widest cells leave the normal numbers here.
        Kind::Tiny => sign * with_exponent(random.within(440, 540)),
        Kind::Borders => {
            let below = f64::from_bits(POTENTIAL.to_bits() - 1);
            let least_normal = f64::MIN_POSITIVE;
            let most_subnormal = f64::from_bits(least_normal.to_bits() - 1);
            let list =
                [POTENTIAL, POTENTIAL, below, 0.0, 0.0, 5e-324, least_normal, most_subnormal];
            sign * random.pick(&list)
        }
    }
}

/// Numbers that are no potentials, the nearest ones among them.
fn bad_potentials() -> [f64; 8] {
    let past = f64::from_bits(POTENTIAL.to_bits() + 1);
    let signalling = f64::from_bits(0x7ff0_0000_0000_0001);
    [past, -past, f64::NAN, -f64::NAN, signalling, f64::INFINITY, f64::NEG_INFINITY, f64::MAX]
}

/// One potential out of range, first, last or between, or one too few or too many.
pub fn spoil_potentials(potentials: &mut Vec<f64>, random: &mut Random) {
    match random.below(6) {
        0 => potentials.push(0.0),
        1 => drop(potentials.pop()),
        _ if potentials.is_empty() => potentials.push(f64::NAN),
        _ => {
            let at = some_place(random, potentials.len());
            potentials[at] = random.pick(&bad_potentials());
        }
    }
}

/// One damage: a node, an end, a corner, a sheet resistance, or one of them more or less. Now and then
/// it leaves a sound net.
pub fn damage_net(net: &mut Net, random: &mut Random) {
    match random.below(10) {
        0..=3 => damage_node(net, random),
        4 => damage_end(net, random),
        5..=6 => damage_corner(net, random),
        7 => damage_sheet(net, random),
        8 => exchange_corners(net, random),
        _ => damage_count(net, random),
    }
}

fn damage_node(net: &mut Net, random: &mut Random) {
    if net.nodes.is_empty() {
        return net.nodes.push(Node::default());
    }
    let at = some_place(random, net.nodes.len());
    let node = net.nodes[at];
    let choice = match random.below(4) {
        0 => other_layers(node),
        1 => other_components(node),
        2 => other_places(node.x).map(|x| Node { x, ..node }).collect(),
        _ => other_places(node.y).map(|y| Node { y, ..node }).collect(),
    };
    net.nodes[at] = random.pick(&choice);
}

/// The node with each bit of its layer turned.
fn other_layers(node: Node) -> Vec<Node> {
    (0..u16::BITS).map(|bit| Node { layer: node.layer ^ 1 << bit, ..node }).collect()
}

/// The node with each bit of its component turned.
fn other_components(node: Node) -> Vec<Node> {
    (0..u32::BITS).map(|bit| Node { component: node.component ^ 1 << bit, ..node }).collect()
}

/// What a coordinate is replaced by: neighbours, limits, and what fewer bits would hide.
fn other_places(number: i64) -> impl Iterator<Item = i64> {
    let off = [1, -1, 2, -2, 1 << 16, 1 << 32, i64::MIN].map(|off| number.wrapping_add(off));
    let limits = [COORDINATE, COORDINATE + 1, -COORDINATE, -COORDINATE - 1, i64::MIN, i64::MAX];
    let all = off.into_iter().chain(limits).chain([0, -1, number.wrapping_neg()]);
    all.filter(move |&other| other != number)
}

/// An end names another node, or none.
fn damage_end(net: &mut Net, random: &mut Random) {
    if net.edges.is_empty() {
        return net.edges.push(Edge::default());
    }
    let at = some_place(random, net.edges.len());
    let Edge { from, to, conductance } = net.edges[at];
    let choice = other_names(random.pick(&[from, to]), net.nodes.len());
    let name = random.pick(&choice);
    net.edges[at] = match random.below(2) {
        0 => Edge { from: name, to, conductance },
        _ => Edge { from, to: name, conductance },
    };
}

/// A corner names another node, or none.
fn damage_corner(net: &mut Net, random: &mut Random) {
    if net.cells.is_empty() {
        return net.cells.push(Cell::default());
    }
    let (at, corner) = (some_place(random, net.cells.len()), random.index(4));
    let choice = other_names(net.cells[at].corners[corner], net.nodes.len());
    net.cells[at].corners[corner] = random.pick(&choice);
}

/// What a node's number is replaced by, of so many nodes: others, the first that isn't there, and what
/// fewer bits would hide.
fn other_names(name: usize, nodes: usize) -> Vec<usize> {
    let hidden = [1 << 32 | name, 1 << 63 | name, 1 << 62 | name, usize::MAX, u32::MAX as usize];
    let mut list = vec![0, nodes / 2, nodes, nodes.saturating_sub(1), name ^ 1, name ^ 2];
    list.extend(hidden);
    list.retain(|&other| other != name);
    list
}

fn damage_sheet(net: &mut Net, random: &mut Random) {
    if net.cells.is_empty() {
        return net.cells.push(Cell::default());
    }
    let at = some_place(random, net.cells.len());
    net.cells[at].r_sheet = random.pick(&bad_sheets());
}

/// Two corners of a cell change places, or all of them move round by one.
fn exchange_corners(net: &mut Net, random: &mut Random) {
    if net.cells.is_empty() {
        return damage_count(net, random);
    }
    let at = some_place(random, net.cells.len());
    let corners = &mut net.cells[at].corners;
    if random.one_in(3) {
        corners.rotate_left(1 + random.index(3));
    } else {
        corners.swap(random.index(4), random.index(4));
    }
}

/// A node, an edge or a cell more or less.
fn damage_count(net: &mut Net, random: &mut Random) {
    match random.below(6) {
        0 => drop(net.nodes.pop()),
        1 => drop(net.edges.pop()),
        2 => drop(net.cells.pop()),
        3 => net.nodes.push(Node::default()),
        4 => net.edges.push(Edge::default()),
        _ => net.cells.push(Cell::default()),
    }
}

/// The net with each of its numbers replaced in each way, one at a time.
pub fn every_damage(net: &Net) -> Vec<Net> {
    let mut list = Vec::new();
    let mut keep = |change: &dyn Fn(&mut Net)| {
        let mut damaged = net.clone();
        change(&mut damaged);
        list.push(damaged);
    };
    for (at, &node) in net.nodes.iter().enumerate() {
        other_layers(node).iter().for_each(|&other| keep(&|net| net.nodes[at] = other));
        other_components(node).iter().for_each(|&other| keep(&|net| net.nodes[at] = other));
        other_places(node.x).for_each(|x| keep(&|net| net.nodes[at].x = x));
        other_places(node.y).for_each(|y| keep(&|net| net.nodes[at].y = y));
    }
    let others = |name: usize| other_names(name, net.nodes.len()).into_iter();
    for (at, edge) in net.edges.iter().enumerate() {
        others(edge.from).for_each(|other| keep(&|net| net.edges[at].from = other));
        others(edge.to).for_each(|other| keep(&|net| net.edges[at].to = other));
    }
    for (at, cell) in net.cells.iter().enumerate() {
        for (corner, &name) in cell.corners.iter().enumerate() {
            others(name).for_each(|other| keep(&|net| net.cells[at].corners[corner] = other));
        }
        bad_sheets().iter().for_each(|&ohms| keep(&|net| net.cells[at].r_sheet = ohms));
    }
    list
}
