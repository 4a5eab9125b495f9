//! Links through the bindings: rooms, refusals in their order, and that a refused call changes nothing.

use leafmesh::*;

const SQUARE: [Point; 4] = [[0, 0], [4, 0], [4, 4], [0, 4]];
const LEAVES: usize = 2;

/// The square on layers 1 and 2.
struct Squares {
    points: Vec<Point>,
    sheets: [f64; 2],
}

impl Squares {
    fn new() -> Self {
        Squares {
            points: [SQUARE, SQUARE].concat(),
            sheets: [1.0; 2],
        }
    }

    fn outlines(&self) -> Outlines<'_> {
        Outlines {
            layers: &[1, 2],
            components: &[0, 0],
            sheets: &self.sheets,
            counts: &[4, 4],
            points: &self.points,
        }
    }
}

type Row = [i64; SLOT * LEAVES];

fn table(row: &mut Row) -> Table<'_> {
    let settings = Settings {
        max_level: 1,
        cap: 256,
        target: 4,
    };
    Table::build(settings, &[], Squares::new().outlines(), row).expect("two roots")
}

/// Four pairs over the east side.
fn via() -> Via {
    Via {
        bottom: 1,
        top: 2,
        component: 0,
        footprint: Footprint {
            x: 4,
            y: 2,
            half_width: 1,
            half_height: 2,
        },
        resistance: 1.0,
    }
}

fn channel() -> Channel {
    Channel {
        drain: ChannelEnd {
            component: 0,
            x: 0,
            y: 0,
        },
        source: ChannelEnd {
            component: 0,
            x: 4,
            y: 4,
        },
        resistance: 4.0,
    }
}

/// Rows full of numbers.
#[derive(Clone, Debug, PartialEq)]
struct Rows {
    nodes: Vec<Node>,
    edges: Vec<Edge>,
    cells: Vec<Cell>,
    work: Vec<u64>,
}

impl Rows {
    fn of(leaves: usize, edges: usize) -> Self {
        let node = Node {
            layer: 7,
            ..Node::default()
        };
        let edge = Edge {
            from: 7,
            ..Edge::default()
        };
        let cell = Cell {
            sheet: 7.0,
            ..Cell::default()
        };
        Rows {
            nodes: vec![node; limits::NODES_A_LEAF * leaves],
            edges: vec![edge; edges],
            cells: vec![cell; limits::CELLS_A_LEAF * leaves],
            work: vec![7; limits::WORK_A_LEAF * leaves],
        }
    }

    fn room(&mut self) -> NetRoom<'_> {
        NetRoom {
            nodes: &mut self.nodes,
            edges: &mut self.edges,
            cells: &mut self.cells,
            work: &mut self.work,
        }
    }
}

fn number_and_place(refusal: Refusal) -> (u64, usize) {
    (refusal.reason.number(), refusal.place)
}

/// What the two squares answer with these links, by both calls.
fn answered(links: Links) -> Result<usize, (u64, usize)> {
    let mut row: Row = [0; SLOT * LEAVES];
    let table = table(&mut row);
    let squares = Squares::new();
    let rows = table
        .edge_rows(squares.outlines(), links)
        .map_err(number_and_place);
    let made = table
        .linked_network(squares.outlines(), links)
        .map_err(number_and_place);
    assert_eq!(
        rows,
        made.as_ref().map(|net| 16 + net.links).map_err(|why| *why)
    );
    made.map(|net| net.links)
}

#[test]
fn a_row_short_changes_nothing_and_a_row_more_stays() {
    let mut row: Row = [0; SLOT * LEAVES];
    let table = table(&mut row);
    let squares = Squares::new();
    let contacts = [Contact { from: 0, to: 1 }, Contact { from: 0, to: 2 }];
    let links = Links {
        contacts: &contacts,
        vias: &[via()],
        channel_layer: 1,
        channels: &[channel()],
        ..Links::default()
    };
    let need = table
        .edge_rows(squares.outlines(), links)
        .expect("in range");
    assert_eq!(need, 16 + 1 + 4 + 1);
    for less in 1..=need - 16 {
        let mut short = Rows::of(LEAVES, need - less);
        let before = short.clone();
        let refused = table.network_with(squares.outlines(), links, short.room());
        assert_eq!(refused.map_err(number_and_place), Err((6, 0)));
        assert_eq!(short, before);
    }
    for more in 0..3 {
        let mut rows = Rows::of(LEAVES, need + more);
        let counts = table.network_with(squares.outlines(), links, rows.room());
        let counts = counts.expect("room");
        assert_eq!(
            (counts.nodes, counts.edges, counts.cells, counts.links),
            (8, 8 + 6, 2, 6)
        );
        assert!(rows.edges[counts.edges..].iter().all(|edge| edge.from == 7));
        assert!(rows.work.iter().all(|&w| w == 0));
    }
}

#[test]
fn without_rows_the_net_is_the_leaves_alone() {
    let mut row: Row = [0; SLOT * LEAVES];
    let table = table(&mut row);
    let squares = Squares::new();
    let alone = table.network(squares.outlines()).expect("a net");
    let none = Links {
        channel_layer: 9,
        ..Links::default()
    };
    let linked = table
        .linked_network(squares.outlines(), none)
        .expect("a net");
    assert_eq!(alone, linked);
    assert!(alone.links().is_empty() && none.is_empty());
    assert_eq!(table.edge_rows(squares.outlines(), none), Ok(16));
    let links = Links {
        vias: &[via()],
        ..Links::default()
    };
    let linked = table
        .linked_network(squares.outlines(), links)
        .expect("a net");
    assert_eq!(linked.links, 4);
    assert_eq!((&linked.nodes, &linked.cells), (&alone.nodes, &alone.cells));
    assert_eq!(linked.edges[..8], alone.edges);
    let ends: Vec<_> = linked
        .links()
        .iter()
        .map(|edge| (edge.from, edge.to))
        .collect();
    assert_eq!(ends, [(1, 5), (1, 6), (2, 5), (2, 6)]);
}

/// Each value at its limits and just past them; a via and a channel that join nothing are judged too.
#[test]
fn values_at_their_limits_and_past_them() {
    let least_above = f64::from_bits(limits::RESISTANCE_HIGH.to_bits() + 1);
    let most_below = f64::from_bits(limits::RESISTANCE_LOW.to_bits() - 1);
    let ohms_in = [limits::RESISTANCE_LOW, 1.0, limits::RESISTANCE_HIGH];
    let infinities = [f64::INFINITY, f64::NEG_INFINITY, f64::NAN, 0.0, -0.0, -1.0];
    let ohms_out = [&infinities[..], &[least_above, most_below]].concat();
    let far = COORDINATE;
    let with = |change: &dyn Fn(&mut Via, &mut Channel)| {
        let (mut via, mut channel) = (via(), channel());
        change(&mut via, &mut channel);
        let of = |vias: &[Via], channels: &[Channel], channel_layer| {
            answered(Links {
                vias,
                channels,
                channel_layer,
                ..Links::default()
            })
        };
        let both = of(&[via], &[channel], 1);
        assert_eq!(both.is_ok(), via.in_range() && channel.in_range());
        // Of a layer without copper.
        let nowhere = Via { top: 3, ..via };
        assert_eq!(of(&[nowhere], &[channel], 3).err(), both.err());
        both
    };
    let out = Err((3, 0));
    for ohms in ohms_in {
        assert!(with(&|via, _| via.resistance = ohms).is_ok());
        assert!(with(&|_, channel| channel.resistance = ohms).is_ok());
    }
    for ohms in ohms_out {
        assert_eq!(with(&|via, _| via.resistance = ohms), out);
        assert_eq!(with(&|_, channel| channel.resistance = ohms), out);
    }
    for (half, is_in) in [
        (0, true),
        (limits::HALF, true),
        (-1, false),
        (limits::HALF + 1, false),
        (i64::MIN, false),
        (i64::MAX, false),
    ] {
        assert_eq!(
            with(&|via, _| via.footprint.half_width = half).is_ok(),
            is_in
        );
        assert_eq!(
            with(&|via, _| via.footprint.half_height = half).is_ok(),
            is_in
        );
    }
    for (at, is_in) in [
        (far, true),
        (-far, true),
        (far + 1, false),
        (-far - 1, false),
        (i64::MIN, false),
        (i64::MAX, false),
    ] {
        assert_eq!(with(&|via, _| via.footprint.x = at).is_ok(), is_in);
        assert_eq!(with(&|via, _| via.footprint.y = at).is_ok(), is_in);
        assert_eq!(with(&|_, channel| channel.drain.x = at).is_ok(), is_in);
        assert_eq!(with(&|_, channel| channel.drain.y = at).is_ok(), is_in);
        assert_eq!(with(&|_, channel| channel.source.x = at).is_ok(), is_in);
        assert_eq!(with(&|_, channel| channel.source.y = at).is_ok(), is_in);
    }
}

/// 7, then the polygons' 3, then a link's 3, then 6.
#[test]
fn refusals_in_their_order() {
    let mut row: Row = [0; SLOT * LEAVES];
    let table = table(&mut row);
    let mut squares = Squares::new();
    let bad = [Via {
        resistance: f64::NAN,
        ..via()
    }];
    let links = Links {
        vias: &bad,
        ..Links::default()
    };
    let sound = Links {
        vias: &[via()],
        ..Links::default()
    };
    let refused = |outlines: Outlines, links: Links, edges: usize| {
        let mut rows = Rows::of(LEAVES, edges);
        let before = rows.clone();
        let answer = table.network_with(outlines, links, rows.room());
        assert_eq!(rows, before);
        number_and_place(answer.expect_err("a refusal"))
    };
    assert_eq!(refused(squares.outlines(), sound, 19), (6, 0));
    assert_eq!(refused(squares.outlines(), links, 0), (3, 0));
    squares.sheets[1] = 0.0;
    assert_eq!(refused(squares.outlines(), links, 0), (3, 1));
    let torn = Outlines {
        components: &[0],
        ..squares.outlines()
    };
    assert_eq!(refused(torn, links, 0), (7, 0));
}

/// A contact's numbers have no range.
#[test]
fn contacts_of_polygons_that_are_not_there() {
    for (from, to, made) in [
        (0, 1, 1),
        (1, 1, 1),
        (0, 2, 0),
        (2, 0, 0),
        (usize::MAX, 0, 0),
        (0, usize::MAX, 0),
    ] {
        let links = Links {
            contacts: &[Contact { from, to }],
            ..Links::default()
        };
        assert_eq!(answered(links), Ok(made), "({from}, {to})");
    }
}
