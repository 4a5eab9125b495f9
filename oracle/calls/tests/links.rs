//! Links by the original: the examples of docs/RULES.md, and refusals in their order. Each net that is made here is
//! held to the words of the rules as well (`link_words`).

use calls::links::{Channel, Contact, Footprint, Links, Terminal, Via};
use calls::network::{edge_rows, linked_network, network, NetRoom};
use calls::sheets::Sheets;
use calls::table::{Head, Slot, WIDTH};
use calls::{Answer, Refusal};

type Ends = ([usize; 2], f64);

const TWO: Sheets<'static> = Sheets { layer: &[1, 2], component: &[0, 0], r_sheet: &[1.0, 1.0] };

/// The square (0,0,4,4) on layers 1 and 2.
fn two_squares() -> Vec<i64> {
    table(&[([0, 0, 4, 4], 0), ([0, 0, 4, 4], 1)])
}

fn table(roots: &[([i64; 4], i64)]) -> Vec<i64> {
    let mut row = vec![0; WIDTH * roots.len()];
    for (id, &(rect, polygon)) in roots.iter().enumerate() {
        Slot::root(rect, polygon).store(&mut row, id);
    }
    row
}

/// Of roots alone.
fn head(count: usize, max_level: u64) -> Head {
    Head { count, leaves: count, max_level }
}

/// The links of the two squares, in a room with so many edge rows.
fn links_in(links: &Links, edges: usize) -> Answer<Vec<Ends>> {
    let room = NetRoom { edges, ..NetRoom::for_leaves(2) };
    let made = linked_network(&two_squares(), head(2, 1), &TWO, links, &room)?;
    let (mesh, own) = made.net.edges.split_at(made.net.edges.len() - made.links);
    assert!(mesh.len() == 8 && mesh.iter().all(|edge| edge.conductance == 0.5));
    Ok(own.iter().map(|edge| (edge.ends(), edge.conductance)).collect())
}

/// With exactly the rows they need; in one less they are refused.
fn links_of(links: Links) -> Vec<Ends> {
    let rows = edge_rows(&two_squares(), head(2, 1), &TWO, &links).expect("in range") as usize;
    assert_eq!(links_in(&links, rows - 1), refused(6, 0));
    let own = links_in(&links, rows).expect("room");
    assert_eq!(rows, 16 + own.len());
    own
}

fn refused<T>(number: u64, place: u64) -> Answer<T> {
    Err(Refusal { number, place })
}

fn via(layers: [u16; 2], [x, y]: [i64; 2], half: [i64; 2], resistance: f64) -> Links {
    let [half_width, half_height] = half;
    let footprint = Footprint { x, y, half_width, half_height };
    let [bottom, top] = layers;
    let vias = vec![Via { bottom, top, component: 0, footprint, resistance }];
    Links { vias, ..Links::default() }
}

fn channel(layer: u16, source: [i64; 2]) -> Links {
    let end = |[x, y]: [i64; 2]| Terminal { component: 0, x, y };
    let channel = Channel { drain: end([0, 0]), source: end(source), resistance: 4.0 };
    Links { channel_layer: layer, channels: vec![channel], ..Links::default() }
}

fn contact(from: usize, to: usize) -> Links {
    Links { contacts: vec![Contact { from, to }], ..Links::default() }
}

#[test]
fn the_rules_table() {
    assert_eq!(links_of(via([1, 2], [0, 0], [0, 0], 2.0)), [([0, 4], 0.5)]);
    assert_eq!(links_of(via([1, 2], [4, 2], [0, 2], 1.0)), [([1, 5], 1.0)]);
    let four = [[1, 5], [1, 6], [2, 5], [2, 6]].map(|ends| (ends, 0.25));
    assert_eq!(links_of(via([1, 2], [4, 2], [1, 2], 1.0)), four);
    assert_eq!(links_of(via([1, 2], [2, 2], [1, 1], 3.0)), [([0, 4], 1.0 / 3.0)]);
    let within = [([0, 0], 0.25), ([0, 1], 0.5), ([1, 0], 0.5), ([1, 1], 0.25)];
    assert_eq!(links_of(via([1, 1], [2, 0], [2, 1], 1.0)), within);
    assert_eq!(links_of(via([1, 3], [0, 0], [0, 0], 1.0)), []);
    assert_eq!(links_of(contact(0, 1)), [([0, 4], 1.0)]);
    assert_eq!(links_of(contact(1, 0)), [([4, 0], 1.0)]);
    assert_eq!(links_of(contact(0, 0)), [([0, 0], 1.0)]);
    assert_eq!(links_of(contact(0, 2)), []);
    assert_eq!(links_of(channel(1, [4, 4])), [([0, 2], 0.25)]);
    assert_eq!(links_of(channel(1, [4, 0])), [([0, 1], 0.5)]);
    assert_eq!(links_of(channel(3, [4, 4])), []);
}

#[test]
fn rounded_squares_choose_the_node() {
    let a = (1 << 28) + 1;
    let row = table(&[([0, 0, 2, 2], 0), ([a, 2, a + 2, 4], 1), ([a, 0, a + 2, 2], 1)]);
    let sheets = Sheets { layer: &[1, 1], component: &[0, 0], r_sheet: &[1.0, 1.0] };
    let room = NetRoom::for_leaves(3).with_links(1);
    let made = linked_network(&row, head(3, 0), &sheets, &contact(0, 1), &room).expect("a net");
    let link = made.net.edges.last().expect("a link");
    assert_eq!((link.ends(), link.conductance), ([0, 4], 1.0));
    assert_eq!(made.net.nodes[4].place(), [a, 2]);
}

#[test]
fn without_links_the_net_is_the_leaves_alone() {
    let room = NetRoom::for_leaves(2);
    let alone = network(&two_squares(), head(2, 1), &TWO, &room).expect("a net");
    let empty = Links { channel_layer: 1, ..Links::default() };
    let linked = linked_network(&two_squares(), head(2, 1), &TWO, &empty, &room).expect("a net");
    assert_eq!((&alone, linked.links), (&linked.net, 0));
    let made =
        linked_network(&two_squares(), head(2, 1), &TWO, &contact(0, 1), &room.with_links(1));
    let net = made.expect("room").net;
    assert_eq!((net.nodes, net.cells), (alone.nodes, alone.cells));
    assert_eq!(net.edges[..8], alone.edges);
}

#[test]
fn refusals_in_their_order() {
    let bad_via = || via([1, 3], [0, 0], [0, 0], f64::NAN);
    let sheets = Sheets { r_sheet: &[1.0, 0.0], ..TWO };
    let unequal = Sheets { component: &[0], ..sheets };
    let none = NetRoom::for_leaves(0);
    let row = two_squares();
    let of = |sheets: &Sheets, links: &Links| {
        linked_network(&row, head(2, 1), sheets, links, &none).map(|made| made.links)
    };
    assert_eq!(of(&unequal, &bad_via()), refused(7, 0));
    assert_eq!(of(&sheets, &bad_via()), refused(3, 1));
    assert_eq!(of(&TWO, &bad_via()), refused(3, 0));
    assert_eq!(of(&TWO, &contact(0, 1)), refused(6, 0));
    assert_eq!(edge_rows(&row, head(2, 1), &sheets, &bad_via()), refused(3, 1));
    assert_eq!(edge_rows(&row, head(2, 1), &TWO, &bad_via()), refused(3, 0));
    for half in [-1, (1 << 36) + 1, i64::MIN] {
        assert_eq!(of(&TWO, &via([1, 2], [0, 0], [half, 0], 1.0)), refused(3, 0));
        assert_eq!(of(&TWO, &via([1, 2], [0, 0], [0, half], 1.0)), refused(3, 0));
    }
    for at in [(1 << 36) + 1, -(1 << 36) - 1, i64::MIN] {
        assert_eq!(of(&TWO, &via([1, 2], [at, 0], [0, 0], 1.0)), refused(3, 0));
        assert_eq!(of(&TWO, &channel(1, [0, at])), refused(3, 0));
    }
    let limit = 2f64.powi(40);
    for ohms in [limit, 1.0 / limit] {
        assert_eq!(links_of(via([1, 2], [0, 0], [0, 0], ohms)), [([0, 4], 1.0 / ohms)]);
    }
    for ohms in [f64::from_bits(limit.to_bits() + 1), f64::from_bits((1.0 / limit).to_bits() - 1)] {
        assert_eq!(of(&TWO, &via([1, 2], [0, 0], [0, 0], ohms)), refused(3, 0));
    }
}
