//! The network with links: contacts, vias and channels behind the edges of the leaves; and how many edge rows it asks
//! for.

use crate::network::{
    any_room, differences, expected_outcome, mesh_words, short_rooms, unused_rows,
};
use crate::port::network::{self as port, LentLinks, Rows};
use crate::port::{lent, outcome_of};
use crate::report::Report;
use crate::rows::put;
use calls::links::Links;
use calls::net::Net;
use calls::network::{edge_rows, roomy_network, Linked, NetRoom};
use calls::{Answer, Refusal};
use inputs::large_meshes::large_mesh;
use inputs::linked_meshes::{any_linked_mesh, boundary_linked_meshes, LinkedMesh};
use inputs::links::{any_links, put_link_fault};
use inputs::mesh_faults::put_fault;
use inputs::Random;
use leafmesh::ffi::NetOutcome;
use std::collections::BTreeSet;

/// Meshes of thousands of leaves, beside those that are asked for.
const LARGE_MESHES: usize = 20;
const FAULTY_ONE_IN: u64 = 3;
/// How often a boundary mesh is run with a fault.
const FAULTS: usize = 200;
/// Edge rows a leaf.
const EDGES_A_LEAF: usize = 8;

/// What was run, and what the nets were like.
struct Tally {
    network: Report,
    rows: Report,
    nets: u64,
    of_each_kind: u64,
    links: u64,
    along_sides: u64,
    to_themselves: u64,
    twice: u64,
    crowded: u64,
    exact: u64,
    short: u64,
    more: u64,
    skipped_all: u64,
    large: u64,
}

/// Boundary meshes in all rooms and with faults, then `count` random ones, each in exactly the edge rows it needs, in
/// one less and in more, every third also with a fault; then large ones.
pub fn compare(count: u64, seed: u64) -> bool {
    let mut random = Random::new(seed);
    let mut tally = Tally::new();
    for linked in boundary_linked_meshes() {
        tally.run(&linked, &mut random);
        (0..FAULTS).for_each(|_| tally.run_faulty(linked.clone(), &mut random));
    }
    for _ in 0..count {
        let linked = any_linked_mesh(&mut random);
        tally.run(&linked, &mut random);
        if random.one_in(FAULTY_ONE_IN) {
            tally.run_faulty(linked, &mut random);
        }
    }
    for turn in 0..LARGE_MESHES {
        let mesh = large_mesh(&mut random, turn);
        let links = any_links(&mesh, &mut random);
        tally.large += 1;
        tally.run(&LinkedMesh { mesh, links }, &mut random);
    }
    tally.print()
}

/// What the original makes of a mesh with links, in any room.
fn original(linked: &LinkedMesh) -> Answer<Linked> {
    let LinkedMesh { mesh, links } = linked;
    let table = &mesh.table;
    roomy_network(&table.row, table.head(), &mesh.polygons(), links)
}

/// The same in a room, and what is left in the rows.
fn in_room(made: &Answer<Linked>, leaves: usize, rows: &mut Rows) -> Answer<Linked> {
    let made = made.as_ref().map_err(|why| *why)?;
    if !rows.room().holds_links(leaves, made.links) {
        return Err(Refusal { number: 6, place: 0 });
    }
    let net = lent(&made.net);
    put(&mut rows.nodes, &net.nodes);
    put(&mut rows.edges, &net.edges);
    put(&mut rows.cells, &net.cells);
    rows.work.fill(0);
    Ok(made.clone())
}

fn expected(answer: &Answer<Linked>) -> NetOutcome {
    let net: Answer<&Net> = answer.as_ref().map(|made| &made.net).map_err(|why| *why);
    let links = answer.as_ref().map_or(0, |made| made.links as u64);
    NetOutcome { links, ..expected_outcome(&net) }
}

impl Tally {
    fn new() -> Self {
        Tally {
            network: Report::new("network with links"),
            rows: Report::new("edge rows"),
            nets: 0,
            of_each_kind: 0,
            links: 0,
            along_sides: 0,
            to_themselves: 0,
            twice: 0,
            crowded: 0,
            exact: 0,
            short: 0,
            more: 0,
            skipped_all: 0,
            large: 0,
        }
    }

    /// A sound mesh with links: in exactly the room that it needs, with one edge row less, and in more room.
    fn run(&mut self, linked: &LinkedMesh, random: &mut Random) {
        let made = original(linked);
        let LinkedMesh { mesh, links } = linked;
        let leaves = mesh.leaves();
        let Ok(Linked { net, links: count }) = &made else {
            panic!("a sound mesh with links has a net: {:?}", made.err());
        };
        self.look(linked, net, *count);
        self.ask_rows(linked, Ok((EDGES_A_LEAF * leaves + count) as u64));

        let exact = NetRoom::for_leaves(leaves).with_links(*count);
        self.exact += u64::from(self.run_in(linked, &made, &exact));
        if *count > 0 && !links.is_empty() {
            let less = if random.one_in(4) { 1 + random.index(*count) } else { 1 };
            let short = NetRoom { edges: exact.edges - less, ..exact };
            self.short += u64::from(!self.run_in(linked, &made, &short));
        }
        let fits = any_room(leaves, random);
        let roomy = NetRoom { edges: fits.edges + count + random.index(9), ..fits };
        self.more += u64::from(self.run_in(linked, &made, &roomy));
        if random.one_in(8) {
            let short = random.pick(&short_rooms(leaves)).with_links(*count);
            self.run_in(linked, &made, &short);
        }
    }

    /// With a fault or two in links, mesh or both, in a room that fits or doesn't.
    fn run_faulty(&mut self, mut linked: LinkedMesh, random: &mut Random) {
        let leaves = linked.mesh.leaves();
        let room = match random.below(3) {
            0 => random.pick(&short_rooms(leaves)),
            _ => any_room(leaves, random).with_links(random.pick(&[0, 1, 4, 99])),
        };
        let kind = random.below(4);
        if kind < 3 {
            put_link_fault(&mut linked.links, random);
        }
        if kind > 1 {
            put_fault(&mut linked.mesh, random);
        }
        let made = original(&linked);
        // A damaged table's leaves can't be counted, and needn't be.
        let leaves = if made.is_ok() { linked.mesh.leaves() } else { leaves };
        self.run_in(&linked, &made, &room);
        let count = made.as_ref().map(|made| (EDGES_A_LEAF * leaves + made.links) as u64);
        self.ask_rows(&linked, count.map_err(|why| *why));
    }

    /// True if it was accepted.
    fn run_in(&mut self, linked: &LinkedMesh, made: &Answer<Linked>, room: &NetRoom) -> bool {
        let LinkedMesh { mesh, links } = linked;
        let mut rows = unused_rows(room);
        let mut port_rows = rows.clone();
        let leaves = if made.is_ok() { mesh.leaves() } else { 0 };
        let answer = in_room(made, leaves, &mut rows);
        let expected = expected(&answer);
        let lent = LentLinks::of(links);
        let got = port::linked_network(&mesh.table, &mesh.polygons(), &lent, &mut port_rows);
        let differ = differences(&rows, &port_rows);
        let outcome = outcome_of(answer.as_ref().map(|_| expected.links).map_err(|why| *why));
        self.network.ran(outcome, got == expected && differ.is_empty(), || {
            let words = format!("{room:?}; {differ}original {expected:?}, port {got:?}");
            (size(linked), format!("{}, {words}", words_of(linked)))
        });
        answer.is_ok()
    }

    fn ask_rows(&mut self, linked: &LinkedMesh, expected: Answer<u64>) {
        let LinkedMesh { mesh, links } = linked;
        let table = &mesh.table;
        let polygons = mesh.polygons();
        let read = edge_rows(&table.row, table.head(), &polygons, links);
        assert_eq!(read, expected, "edge rows by the words of the rules");
        let got = port::edge_rows(table, &polygons, &LentLinks::of(links));
        let expected = outcome_of(expected);
        self.rows.ran(expected, got == expected, || {
            let words = format!("{}; original {expected:?}, port {got:?}", words_of(linked));
            (size(linked), words)
        });
    }

    /// Counts what the links of a net are like.
    fn look(&mut self, linked: &LinkedMesh, net: &Net, count: usize) {
        let LinkedMesh { mesh, links } = linked;
        self.nets += u64::from(count > 0);
        self.skipped_all += u64::from(count == 0);
        self.crowded += u64::from(count > EDGES_A_LEAF * mesh.leaves());
        let kinds = [
            Links { contacts: links.contacts.clone(), ..Links::default() },
            Links { vias: links.vias.clone(), ..Links::default() },
            Links { contacts: Vec::new(), vias: Vec::new(), ..links.clone() },
        ];
        let table = &mesh.table;
        let base = (EDGES_A_LEAF * mesh.leaves()) as u64;
        let made = |kind: &Links| {
            edge_rows(&table.row, table.head(), &mesh.polygons(), kind)
                .map_or(false, |rows| rows > base)
        };
        self.of_each_kind += u64::from(kinds.iter().all(made));

        let rising = |[a, b]: [usize; 2]| [a.min(b), a.max(b)];
        let sides: BTreeSet<[usize; 2]> = net
            .cells
            .iter()
            .flat_map(|cell| (0..4).map(|k| [cell.corners[k], cell.corners[(k + 1) % 4]]))
            .map(rising)
            .collect();
        let mut seen = BTreeSet::new();
        for link in &net.edges[net.edges.len() - count..] {
            let ends = rising(link.ends());
            self.links += 1;
            self.along_sides += u64::from(sides.contains(&ends));
            self.to_themselves += u64::from(ends[0] == ends[1]);
            self.twice += u64::from(!seen.insert(ends));
        }
    }

    /// Says what was run; true if nothing differed.
    fn print(&self) -> bool {
        println!(
            "links: {} nets with links, {} of them with a contact, a via and a channel each, {} with more links than 8 \
             a leaf, {} of thousands of leaves; {} nets whose links are all skipped; {} links, {} of them along a \
             cell's side, {} from a node to itself, {} of a pair that was there",
            self.nets,
            self.of_each_kind,
            self.crowded,
            self.large,
            self.skipped_all,
            self.links,
            self.along_sides,
            self.to_themselves,
            self.twice
        );
        println!(
            "links: {} nets in exactly the edge rows they need, {} in one or a few less (refused, all rows and the \
             work room as they were), {} in more",
            self.exact, self.short, self.more
        );
        let network = self.network.print();
        self.rows.print() && network
    }
}

fn size(linked: &LinkedMesh) -> u128 {
    let LinkedMesh { mesh, links } = linked;
    let links = links.contacts.len() + links.vias.len() + links.channels.len();
    (mesh.table.row.len() + mesh.layers.len() + 8 * links) as u128
}

fn words_of(linked: &LinkedMesh) -> String {
    format!("{}, {:?}", mesh_words(&linked.mesh), linked.links)
}
