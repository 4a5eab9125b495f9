//! The network with links, and how many edge rows it asks for: every case has a name. A case of either call is the
//! table, the polygons' rows and the links; of the network then the rows for the net, and the work room.
//!
//! Links stand in the stream as three lists, each behind its length, and the channels' layer before the last: of a
//! contact two numbers; of a via bottom, top, component, centre x and y, half width, half height and resistance; of a
//! channel component, x and y of drain and of source, and resistance.

use crate::loose::NetLengths;
use crate::net::{lend_net, lend_polygons, lend_table, unused, SENTINEL};
use crate::replay::{Case, Replay};
use calls::limits::{COORDINATE, HALF, R_SHEET};
use calls::links::{Channel, Footprint, Links, Terminal, Via};
use calls::network::{edge_rows, linked_network, roomy_network, NetRoom};
use inputs::linked_meshes::{boundary_linked_meshes, LinkedMesh};
use inputs::meshes::Mesh;
use inputs::tables::Table;

const LINKED_NETWORK: u64 = 5;
const EDGE_ROWS: u64 = 6;

/// Each mesh that shows one thing in exactly the edge rows that it needs, in one less where it has links, and with its
/// edge rows asked for; then values at their limits and past them, and two faults at once.
pub fn offer(replay: &mut Replay) {
    replay.keep();
    replay.name("a mesh with links that shows one thing");
    for linked in boundary_linked_meshes() {
        run_in_rooms(&linked, replay);
    }
    for (name, links) in at_the_limits() {
        replay.name(&name);
        let linked = LinkedMesh { mesh: square_twice(), links };
        run_in_rooms(&linked, replay);
    }
    for (name, links) in past_the_limits() {
        replay.name(&name);
        let linked = LinkedMesh { mesh: square_twice(), links };
        // 3 comes before 6, so no room is lent.
        run_network(&linked, &NetRoom::for_leaves(0), replay);
        run_edge_rows(&linked, replay);
    }
    for (name, linked) in orders() {
        replay.name(name);
        run_network(&linked, &NetRoom::for_leaves(0), replay);
        run_edge_rows(&linked, replay);
    }
}

fn run_in_rooms(linked: &LinkedMesh, replay: &mut Replay) {
    let LinkedMesh { mesh, links } = linked;
    let (row, head) = (&mesh.table.row, mesh.table.head());
    let made = roomy_network(row, head, &mesh.polygons(), links).expect("a net");
    let exact = NetRoom::for_leaves(mesh.leaves()).with_links(made.links);
    run_network(linked, &exact, replay);
    if made.links > 0 {
        run_network(linked, &NetRoom { edges: exact.edges - 1, ..exact }, replay);
    }
    run_edge_rows(linked, replay);
}

fn run_network(linked: &LinkedMesh, room: &NetRoom, replay: &mut Replay) {
    let LinkedMesh { mesh, links } = linked;
    let (row, head) = (&mesh.table.row, mesh.table.head());
    let mut rows = unused(&NetLengths::of(room));
    let mut work: Vec<u64> = (0..room.work as u64).map(|place| SENTINEL + place).collect();
    let mut case = lent(LINKED_NETWORK, linked);
    lend_net(&mut case, &rows);
    case.row(&work);
    let answer = linked_network(row, head, &mesh.polygons(), links, room);
    if let Ok(made) = &answer {
        rows.put(&made.net);
        work.fill(0);
    }
    let number = answer.as_ref().err().map_or(0, |why| why.number);
    let counts = answer.map(|made| {
        let net = made.net;
        [net.nodes.len(), net.edges.len(), net.cells.len(), made.links].map(|n| n as u64).to_vec()
    });
    case.answer("linked_network", counts);
    rows.print(&mut case);
    case.print_filled(&work);
    replay.offer(("linked_network", number, 0), case);
}

fn run_edge_rows(linked: &LinkedMesh, replay: &mut Replay) {
    let LinkedMesh { mesh, links } = linked;
    let (row, head) = (&mesh.table.row, mesh.table.head());
    let answer = edge_rows(row, head, &mesh.polygons(), links);
    let number = answer.as_ref().err().map_or(0, |why| why.number);
    let mut case = lent(EDGE_ROWS, linked);
    case.answer("edge_rows", answer.map(|rows| vec![rows]));
    replay.offer(("edge_rows", number, 0), case);
}

fn lent(kind: u64, linked: &LinkedMesh) -> Case {
    let LinkedMesh { mesh, links } = linked;
    let mut case = Case::of_kind(kind);
    lend_table(&mut case, mesh);
    lend_polygons(&mut case, mesh);
    case.fraction_row(&mesh.sheets);
    lend_links(&mut case, links);
    case
}

fn lend_links(case: &mut Case, links: &Links) {
    case.number(links.contacts.len() as u64);
    for contact in &links.contacts {
        case.numbers([contact.from, contact.to].map(|number| number as u64));
    }
    case.number(links.vias.len() as u64);
    for via in &links.vias {
        let Footprint { x, y, half_width, half_height } = via.footprint;
        case.numbers([u64::from(via.bottom), u64::from(via.top), u64::from(via.component)]);
        case.numbers([x, y, half_width, half_height].map(|ticks| ticks as u64));
        case.number(via.resistance.to_bits());
    }
    case.number(u64::from(links.channel_layer));
    case.number(links.channels.len() as u64);
    for channel in &links.channels {
        for end in [channel.drain, channel.source] {
            case.numbers([u64::from(end.component), end.x as u64, end.y as u64]);
        }
        case.number(channel.resistance.to_bits());
    }
}

/// One square on layers 1 and 2.
fn square_twice() -> Mesh {
    let mut mesh = Mesh::of_table(Table::new(0));
    for polygon in 0..2 {
        mesh.table.push(calls::table::Slot::root([0, 0, 2, 2], polygon));
        mesh.push_polygon(1 + polygon as u16, 0, 1.0);
    }
    mesh
}

fn via() -> Via {
    let footprint = Footprint { x: 1, y: 1, half_width: 0, half_height: 0 };
    Via { bottom: 1, top: 2, component: 0, footprint, resistance: 1.0 }
}

fn channel() -> Channel {
    let end = |x: i64| Terminal { component: 0, x, y: 0 };
    Channel { drain: end(0), source: end(2), resistance: 1.0 }
}

fn of_via(change: impl Fn(&mut Via)) -> Links {
    let mut via = via();
    change(&mut via);
    Links { vias: vec![via], ..Links::default() }
}

fn of_channel(change: impl Fn(&mut Channel)) -> Links {
    let mut channel = channel();
    change(&mut channel);
    Links { channel_layer: 1, channels: vec![channel], ..Links::default() }
}

fn at_the_limits() -> Vec<(String, Links)> {
    let mut list = Vec::new();
    for (name, ohms) in [("2^-40", 1.0 / R_SHEET), ("2^40", R_SHEET)] {
        list.push((format!("a via of {name} ohms"), of_via(|via| via.resistance = ohms)));
        list.push((format!("a channel of {name} ohms"), of_channel(|one| one.resistance = ohms)));
    }
    let widest = |via: &mut Via| {
        (via.footprint.half_width, via.footprint.half_height) = (HALF, HALF);
    };
    list.push(("the widest footprint".to_string(), of_via(widest)));
    let far = |via: &mut Via| (via.footprint.x, via.footprint.y) = (COORDINATE, -COORDINATE);
    list.push(("a via in a corner of the field".to_string(), of_via(far)));
    let apart = |one: &mut Channel| {
        (one.drain.x, one.drain.y) = (-COORDINATE, COORDINATE);
        (one.source.x, one.source.y) = (COORDINATE, COORDINATE);
    };
    list.push(("a channel across the field".to_string(), of_channel(apart)));
    list
}

fn past_the_limits() -> Vec<(String, Links)> {
    let (least, most) = ((1.0 / R_SHEET).to_bits(), R_SHEET.to_bits());
    let mut list = Vec::new();
    for (name, ohms) in [
        ("below 2^-40 ohms", f64::from_bits(least - 1)),
        ("above 2^40 ohms", f64::from_bits(most + 1)),
        ("of 0 ohms", 0.0),
        ("of -1 ohm", -1.0),
        ("of infinite ohms", f64::INFINITY),
        ("of NaN ohms", f64::NAN),
    ] {
        list.push((format!("a via {name}"), of_via(|via| via.resistance = ohms)));
        list.push((format!("a channel {name}"), of_channel(|one| one.resistance = ohms)));
    }
    for half in [-1, HALF + 1, i64::MIN, i64::MAX] {
        let wide = of_via(|via| via.footprint.half_width = half);
        list.push((format!("a half width of {half}"), wide));
        let high = of_via(|via| via.footprint.half_height = half);
        list.push((format!("a half height of {half}"), high));
    }
    for at in [COORDINATE + 1, -COORDINATE - 1, i64::MIN, i64::MAX] {
        list.push((format!("a via at x {at}"), of_via(|via| via.footprint.x = at)));
        list.push((format!("a via at y {at}"), of_via(|via| via.footprint.y = at)));
        list.push((format!("a drain at x {at}"), of_channel(|one| one.drain.x = at)));
        list.push((format!("a drain at y {at}"), of_channel(|one| one.drain.y = at)));
        list.push((format!("a source at x {at}"), of_channel(|one| one.source.x = at)));
        list.push((format!("a source at y {at}"), of_channel(|one| one.source.y = at)));
    }
    list
}

/// Two faults each, so that their order shows.
fn orders() -> Vec<(&'static str, LinkedMesh)> {
    let bad = || of_via(|via| (via.top, via.resistance) = (3, f64::NAN));
    let of = |mesh: Mesh, links: Links| LinkedMesh { mesh, links };
    let bad_sheet = Mesh { sheets: vec![1.0, 0.0], ..square_twice() };
    let mut bad_table = square_twice();
    bad_table.table.count += 1;
    let idle_channel = of_channel(|one| (one.drain.component, one.source.x) = (7, i64::MIN));
    vec![
        ("the sheet before the link", of(bad_sheet, bad())),
        ("the table before the link", of(bad_table, bad())),
        ("a via that joins nothing is judged", of(square_twice(), bad())),
        ("a channel that joins nothing is judged", of(square_twice(), idle_channel)),
        ("the link before the room", of(square_twice(), of_via(|via| via.footprint.x = i64::MAX))),
    ]
}
