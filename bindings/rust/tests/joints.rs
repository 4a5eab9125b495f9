//! What a link conducts on the cells: what it was given, wherever it lies, though the net weighs edges along a cell's
//! side.

use leafmesh::solving::{Drive, Held, System};
use leafmesh::{
    msh, text, vtk, Channel, ChannelEnd, Contact, Footprint, Joint, Link, Links, Mesh, Net, Point,
    Via,
};

/// Two squares of 4 ticks side by side, of one component.
const PAIR: &str =
    "level 1\ntarget 4\npolygon 1 0 1\n0 0\n4 0\n4 4\n0 4\npolygon 1 0 1\n4 0\n8 0\n8 4\n4 4\n";

fn mesh() -> Mesh {
    let board = text::parse(PAIR).expect("a board");
    Mesh::of_board(&board).expect("a mesh")
}

/// The current from one node to another, held at 1 V and at 0 V.
fn siemens(net: &Net, ends: [Point; 2]) -> f64 {
    let at = |end: Point| net.nodes.iter().position(|node| [node.x, node.y] == end);
    let held = |end: Point, volts: f64| Held {
        terminal: format!("{end:?}"),
        nodes: vec![at(end).expect("a node")],
        drive: Drive::Volts(volts),
    };
    let system = System::of_cells(net).expect("a system");
    let solution = system.solve(&[held(ends[0], 1.0), held(ends[1], 0.0)]);
    solution.expect("a solution").terminals[0].amperes
}

/// By how much links raise the conductance between two nodes.
fn added(links: Links, ends: [Point; 2]) -> f64 {
    let mesh = mesh();
    let bare = mesh.net().expect("a net");
    let net = mesh.unjudged_linked_net(links).expect("a net");
    // The net's own conductances are the original's: along a side a link gets the side's weight.
    assert_eq!(net.edges[..bare.edges.len()], bare.edges);
    siemens(&net, ends) - siemens(&bare, ends)
}

fn assert_near(own: f64, wanted: f64) {
    assert!((own - wanted).abs() < 1e-9, "{own}, not {wanted}");
}

fn channel(drain: Point, source: Point, resistance: f64) -> Channel {
    let end = |[x, y]: Point| ChannelEnd { component: 0, x, y };
    Channel {
        drain: end(drain),
        source: end(source),
        resistance,
    }
}

#[test]
fn a_channel_conducts_one_over_its_resistance() {
    let corners: [Point; 4] = [[0, 0], [4, 0], [4, 4], [0, 4]];
    for from in corners {
        for to in corners.into_iter().filter(|&to| to != from) {
            let channels = [channel(from, to, 4.0)];
            let links = Links {
                channel_layer: 1,
                channels: &channels,
                ..Links::default()
            };
            assert_near(added(links, [from, to]), 0.25);
        }
    }
}

/// From the first polygon's first corner along its side to the second polygon's.
#[test]
fn a_contact_conducts_1_siemens() {
    let contacts = [Contact { from: 0, to: 1 }];
    let links = Links {
        contacts: &contacts,
        ..Links::default()
    };
    assert_near(added(links, [[0, 0], [4, 0]]), 1.0);
}

/// From a layer to itself: of four pairs two lead from one end of a side to the other.
#[test]
fn a_via_conducts_its_share() {
    let footprint = Footprint {
        x: 2,
        y: 0,
        half_width: 2,
        half_height: 1,
    };
    let vias = [Via {
        bottom: 1,
        top: 1,
        component: 0,
        footprint,
        resistance: 0.25,
    }];
    let links = Links {
        vias: &vias,
        ..Links::default()
    };
    assert_near(added(links, [[0, 0], [4, 0]]), 2.0);
}

/// Each edge says of which link it is; links without edges have none.
#[test]
fn joints_name_their_links() {
    let contacts = [Contact { from: 0, to: 9 }, Contact { from: 1, to: 0 }];
    let vias = [Via {
        bottom: 1,
        top: 1,
        component: 0,
        footprint: Footprint {
            x: 4,
            y: 2,
            half_width: 1,
            half_height: 2,
        },
        resistance: 2.0,
    }];
    let channels = [channel([0, 0], [4, 0], 4.0)];
    let links = Links {
        contacts: &contacts,
        vias: &vias,
        channel_layer: 1,
        channels: &channels,
        ..Links::default()
    };
    let net = mesh().unjudged_linked_net(links).expect("a net");
    let joint = |link: Link, siemens: f64| Joint { link, siemens };
    let via = joint(Link::Via(0), 0.125);
    let contact = joint(Link::Contact(1), 1.0);
    assert_eq!(
        net.joints,
        [contact, via, via, via, via, joint(Link::Channel(0), 0.25)]
    );
    assert_eq!(net.links, net.joints.len());
}

/// Files say what the solver takes: the current through a link is its conductance times what its ends differ by.
#[test]
fn files_have_a_link_s_own_conductance() {
    let mesh = mesh();
    let channels = [channel([0, 0], [4, 0], 4.0)];
    let links = Links {
        channel_layer: 1,
        channels: &channels,
        ..Links::default()
    };
    let net = mesh.linked_net(links).expect("a net");
    assert_eq!(net.links()[0].conductance, 0.5);
    let file = vtk::of_linked_mesh(&mesh, &net, &[]).expect("a file");
    let (_, behind) = file.split_once("SCALARS siemens double 1\n").expect("it");
    let own: Vec<&str> = behind.lines().skip(1).take(3).collect();
    assert_eq!(own, ["0.0", "0.0", "0.25"]);
    let file = msh::of_mesh(&mesh, &net, &[]).expect("a file");
    let (_, behind) = file.split_once("\"siemens\"\n").expect("it");
    let (own, _) = behind.split_once("$EndElementData").expect("an end");
    assert_eq!(own.lines().last(), Some("3 0.25"));
}
