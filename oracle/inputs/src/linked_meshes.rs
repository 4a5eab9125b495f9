//! Meshes together with links.

use crate::links::any_links;
use crate::meshes::{any_mesh, Mesh};
use crate::random::Random;
use crate::tables::Table;
use calls::contact::Rect;
use calls::limits::POLYGONS;
use calls::links::{Channel, Contact, Footprint, Links, Terminal, Via};
use calls::table::Slot;

/// A mesh and its links.
#[derive(Clone, Debug)]
pub struct LinkedMesh {
    pub mesh: Mesh,
    pub links: Links,
}

/// A sound mesh with leaves, mostly on several layers, with links.
pub fn any_linked_mesh(random: &mut Random) -> LinkedMesh {
    let mut mesh = any_mesh(random);
    // Another draw, mostly, as a mesh without leaves has no links.
    if mesh.table.count == 0 && !random.one_in(20) {
        return any_linked_mesh(random);
    }
    if random.one_in(3) && mesh.table.count > 0 && mesh.layers.len() < POLYGONS {
        put_over(&mut mesh, random);
    }
    if random.one_in(2) {
        spread(&mut mesh, random);
    }
    let links = any_links(&mesh, random);
    LinkedMesh { mesh, links }
}

/// Puts a copy of the roots, or of some, on another layer, as one polygon more.
fn put_over(mesh: &mut Mesh, random: &mut Random) {
    let polygon = mesh.layers.len() as i64;
    let cells: Vec<Slot> = (0..mesh.table.count).map(|id| mesh.table.slot(id)).collect();
    let roots = cells.iter().filter(|cell| cell.level == 0);
    let all = random.one_in(2);
    for root in roots.filter(|_| all || random.one_in(2)) {
        mesh.table.push(Slot::root(root.rect(), polygon));
    }
    let like = cells[0].polygon as usize;
    let layer = mesh.layers[like] ^ 1;
    let component = mesh.components[like];
    mesh.push_polygon(layer, component, 2.0);
}

/// Puts the polygons on two layers or three, of one component or two.
fn spread(mesh: &mut Mesh, random: &mut Random) {
    let (layers, components) = (random.pick(&[2, 2, 3]), random.pick(&[1, 1, 2]));
    for (n, layer) in mesh.layers.iter_mut().enumerate() {
        *layer = [1, 2, 65_535][(n + random.index(2)) % layers];
    }
    for component in &mut mesh.components {
        *component = [0, u32::MAX][random.index(components)];
    }
}

/// Meshes with links that show one thing each.
pub fn boundary_linked_meshes() -> Vec<LinkedMesh> {
    let two = two_squares();
    let mut list: Vec<LinkedMesh> =
        by_hand().into_iter().map(|links| LinkedMesh { mesh: two.clone(), links }).collect();
    list.push(rounded_squares());
    list.extend(channel_layers());
    list.push(in_a_corner());
    list.push(a_component_on_no_layer());
    list
}

/// Layers 1 and 2 with the same square.
fn two_squares() -> Mesh {
    with_polygons(1, &[([0, 0, 4, 4], 0), ([0, 0, 4, 4], 1)], &[(1, 0), (2, 0)])
}

fn with_polygons(max_level: u64, roots: &[(Rect, i64)], polygons: &[(u16, u32)]) -> Mesh {
    let mut mesh = Mesh::of_table(Table::new(max_level));
    for &(rect, polygon) in roots {
        mesh.table.push(Slot::root(rect, polygon));
    }
    for &(layer, component) in polygons {
        mesh.push_polygon(layer, component, 1.0);
    }
    mesh
}

/// The table of examples in docs/RULES.md, "Links", and all of them at once.
fn by_hand() -> Vec<Links> {
    let via = |layers: [u16; 2], place: [i64; 2], half: [i64; 2], resistance: f64| Via {
        bottom: layers[0],
        top: layers[1],
        component: 0,
        footprint: Footprint {
            x: place[0],
            y: place[1],
            half_width: half[0],
            half_height: half[1],
        },
        resistance,
    };
    let vias = [
        via([1, 2], [0, 0], [0, 0], 2.0),
        via([1, 2], [4, 2], [0, 2], 1.0),
        via([1, 2], [4, 2], [1, 2], 1.0),
        via([1, 2], [2, 2], [1, 1], 3.0),
        via([1, 1], [2, 0], [2, 1], 1.0),
        via([1, 3], [0, 0], [0, 0], 1.0),
    ];
    let contacts = [(0, 1), (1, 0), (0, 0), (0, 2)].map(|(from, to)| Contact { from, to });
    let end = |[x, y]: [i64; 2]| Terminal { component: 0, x, y };
    let channels = [[4, 4], [4, 0]].map(|source| Channel {
        drain: end([0, 0]),
        source: end(source),
        resistance: 4.0,
    });
    let mut list: Vec<Links> = Vec::new();
    list.extend(vias.map(|via| Links { vias: vec![via], ..Links::default() }));
    list.extend(contacts.map(|one| Links { contacts: vec![one], ..Links::default() }));
    list.extend(channels.map(|one| Links {
        channel_layer: 1,
        channels: vec![one],
        ..Links::default()
    }));
    list.push(Links {
        contacts: contacts.to_vec(),
        vias: vias.to_vec(),
        channel_layer: 1,
        channels: channels.to_vec(),
    });
    list
}

/// Two nodes of which exact squares would choose the later one.
fn rounded_squares() -> LinkedMesh {
    let a = (1 << 28) + 1;
    let roots = [([0, 0, 2, 2], 0), ([a, 2, a + 2, 4], 1), ([a, 0, a + 2, 2], 1)];
    let mesh = with_polygons(0, &roots, &[(1, 0), (1, 1)]);
    let end = |component: u32| Terminal { component, x: 0, y: 0 };
    let links = Links {
        contacts: vec![Contact { from: 0, to: 1 }],
        vias: vec![Via {
            bottom: 1,
            top: 1,
            component: 1,
            footprint: Footprint::point(0, 0),
            resistance: 1.0,
        }],
        channel_layer: 1,
        channels: vec![Channel { drain: end(1), source: end(0), resistance: 1.0 }],
    };
    LinkedMesh { mesh, links }
}

/// Channels on the layer of the copper, on one beside it, on one that no polygon has.
fn channel_layers() -> Vec<LinkedMesh> {
    let end = |[x, y]: [i64; 2]| Terminal { component: 0, x, y };
    let channels = vec![Channel { drain: end([0, 0]), source: end([3, 3]), resistance: 0.5 }];
    let on = |channel_layer: u16| LinkedMesh {
        mesh: two_squares(),
        links: Links { channel_layer, channels: channels.clone(), ..Links::default() },
    };
    [1, 2, 0, 65_535].map(on).to_vec()
}

/// The largest field, everything at its limits.
fn in_a_corner() -> LinkedMesh {
    use calls::limits::{COORDINATE as FAR, HALF, R_SHEET};
    let whole = [-FAR, -FAR, FAR, FAR];
    let mesh = with_polygons(12, &[(whole, 0), (whole, 1)], &[(65_535, u32::MAX), (0, u32::MAX)]);
    let over_all = Footprint { x: 0, y: 0, half_width: HALF, half_height: HALF };
    let a_quarter = Footprint { x: FAR, y: FAR, half_width: HALF, half_height: HALF };
    let via = |footprint: Footprint, resistance: f64| Via {
        bottom: 65_535,
        top: 0,
        component: u32::MAX,
        footprint,
        resistance,
    };
    let end = |x: i64, y: i64| Terminal { component: u32::MAX, x, y };
    let links = Links {
        contacts: vec![Contact { from: 1, to: 0 }, Contact { from: usize::MAX, to: 0 }],
        vias: vec![
            via(over_all, R_SHEET),
            via(a_quarter, 1.0 / R_SHEET),
            via(Footprint::point(-FAR, FAR), 1.0),
        ],
        channel_layer: 65_535,
        channels: vec![
            Channel { drain: end(FAR, -FAR), source: end(-FAR, FAR), resistance: R_SHEET },
            Channel { drain: end(0, 0), source: end(0, 1), resistance: 1.0 / R_SHEET },
        ],
    };
    LinkedMesh { mesh, links }
}

/// A via whose component has copper on one of its layers only, and one whose footprint holds no node on one of them.
fn a_component_on_no_layer() -> LinkedMesh {
    let roots = [([0, 0, 4, 4], 0), ([0, 0, 4, 4], 1), ([4, 0, 8, 4], 2)];
    let mesh = with_polygons(1, &roots, &[(1, 0), (2, 1), (2, 0)]);
    let at = |component: u32, half: i64| Via {
        bottom: 1,
        top: 2,
        component,
        footprint: Footprint { x: 1, y: 1, half_width: half, half_height: half },
        resistance: 0.25,
    };
    let vias = vec![at(1, 1), at(0, 1), at(0, 3), at(0, 2)];
    LinkedMesh { mesh, links: Links { vias, ..Links::default() } }
}
