//! Meshes and rows lent for a net at each limit of network and one past it, each by its name.

use crate::loose::NetLengths;
use calls::limits::{POLYGONS, R_SHEET};
use calls::network::NetRoom;
use calls::table::Slot;
use inputs::meshes::Mesh;
use inputs::tables::Table;

/// Leaves of the mesh, one a polygon.
const LEAVES: usize = 2;

pub struct NetCase {
    pub name: String,
    pub mesh: Mesh,
    pub lengths: NetLengths,
}

pub fn limit_nets() -> Vec<NetCase> {
    let mut list = row_lengths();
    list.extend(polygon_rows());
    list.extend(sheets());
    list.extend(orders());
    list
}

fn case(name: &str, mesh: Mesh, lengths: NetLengths) -> NetCase {
    NetCase { name: name.to_string(), mesh, lengths }
}

fn exact() -> NetLengths {
    NetLengths::of(&NetRoom::for_leaves(LEAVES))
}

/// Two squares side by side, one a polygon.
fn pair() -> Mesh {
    let mut table = Table::new(1);
    (0..LEAVES as i64).for_each(|n| table.push(Slot::root([4 * n, 0, 4 * n + 4, 4], n)));
    let mut mesh = Mesh::of_table(table);
    (0..LEAVES).for_each(|_| mesh.push_polygon(1, 0, 1.0));
    mesh
}

fn with_polygons(count: usize) -> Mesh {
    let mut mesh = pair();
    (LEAVES..count).for_each(|_| mesh.push_polygon(2, 7, 1.0));
    mesh
}

fn with_sheets(sheets: [f64; LEAVES]) -> Mesh {
    Mesh { sheets: sheets.to_vec(), ..pair() }
}

/// Just enough room, each of the four short by one item, rows that don't fit together, and more.
fn row_lengths() -> Vec<NetCase> {
    let l = exact();
    let lent = |name, lengths| case(name, pair(), lengths);
    vec![
        lent("just enough room", l),
        lent("one node short", NetLengths { nodes: l.nodes - 4, ..l }),
        lent(
            "one edge short",
            NetLengths { ends: l.ends - 2, conductances: l.conductances - 1, ..l },
        ),
        lent("one cell short", NetLengths { corners: l.corners - 4, sheets: l.sheets - 1, ..l }),
        lent("one work number short", NetLengths { work: l.work - 1, ..l }),
        lent("a part of a node", NetLengths { nodes: l.nodes + 1, ..l }),
        lent("an end too few", NetLengths { ends: l.ends - 1, ..l }),
        lent("a conductance too few", NetLengths { conductances: l.conductances - 1, ..l }),
        lent("a corner too few", NetLengths { corners: l.corners - 1, ..l }),
        lent("a cell too few", NetLengths { sheets: l.sheets - 1, ..l }),
        lent(
            "more than enough of each",
            NetLengths::of(&NetRoom { nodes: 9, edges: 18, cells: 3, work: 131 }),
        ),
    ]
}

fn polygon_rows() -> Vec<NetCase> {
    let mut layers = pair();
    layers.layers.push(1);
    let mut components = pair();
    components.components.push(0);
    let mut ohms = pair();
    ohms.sheets.push(1.0);
    let mut at_the_count = pair();
    at_the_count.layers.pop();
    at_the_count.components.pop();
    at_the_count.sheets.pop();
    let mut last = with_polygons(POLYGONS);
    Slot::root([0, 0, 4, 4], POLYGONS as i64 - 1).store(&mut last.table.row, 0);
    vec![
        case("a layer too many", layers, exact()),
        case("a component too many", components, exact()),
        case("a sheet resistance too many", ohms, exact()),
        case("an index at the polygon count", at_the_count, exact()),
        case("256 polygons", with_polygons(POLYGONS), exact()),
        case("257 polygons", with_polygons(POLYGONS + 1), exact()),
        case("the last of 256 polygons", last, exact()),
    ]
}

fn sheets() -> Vec<NetCase> {
    let (least, most) = (1.0 / R_SHEET, R_SHEET);
    let (below, above) = (f64::from_bits(least.to_bits() - 1), f64::from_bits(most.to_bits() + 1));
    let lent = |name, sheets| case(name, with_sheets(sheets), exact());
    vec![
        lent("sheets of 2^-40 and 2^40", [least, most]),
        lent("a sheet below 2^-40", [1.0, below]),
        lent("a sheet above 2^40", [1.0, above]),
        lent("a sheet of NaN", [f64::NAN, 1.0]),
        lent("two bad sheets", [above, below]),
    ]
}

/// Two faults each, so that their order shows.
fn orders() -> Vec<NetCase> {
    let short = NetLengths { work: exact().work - 1, ..exact() };
    let ragged = NetLengths { nodes: exact().nodes + 1, ..exact() };
    let bad = || with_sheets([1.0, 0.0]);
    let mut too_many = with_polygons(POLYGONS + 1);
    too_many.sheets[1] = 0.0;
    let mut bad_table = bad();
    bad_table.table.count += 1;
    bad_table.table.recount();
    let none = NetLengths::of(&NetRoom::for_leaves(0));
    let leaves = |leaves: usize| {
        let mut mesh = bad();
        mesh.table.leaves = leaves;
        mesh
    };
    vec![
        case("the sheet before the room", bad(), short),
        case("the rows before the sheet", bad(), ragged),
        case("the polygon count before the sheet", too_many, exact()),
        case("the polygon count before the room", with_polygons(POLYGONS + 1), short),
        case("the table before the sheet", bad_table, exact()),
        case("a leaf too few before the sheet", leaves(LEAVES - 1), none),
        case("a leaf too many before the sheet", leaves(LEAVES + 1), none),
    ]
}
