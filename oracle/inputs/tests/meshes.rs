//! What the generators of meshes and of changed nets claim.

use calls::checks::{check_by_layer, check_network_conforming};
use calls::table::Slot;
use calls::well_formed::well_formed;
use inputs::large_meshes::{large_mesh, LARGE};
use inputs::mesh_faults::put_fault;
use inputs::meshes::{any_mesh, boundary_meshes, Mesh};
use inputs::net_changes::change_net;
use inputs::Random;

fn is_well_formed(mesh: &Mesh) -> bool {
    well_formed(&mesh.table.row, mesh.table.head())
}

/// The finest level of a mesh whose levels differ.
fn finest(mesh: &Mesh) -> i64 {
    let table = &mesh.table;
    let leaves = (0..table.count).map(|id| table.slot(id)).filter(Slot::is_leaf);
    leaves.map(|leaf| leaf.level).max().unwrap_or(0)
}

#[test]
fn more_than_a_third_of_the_nets_have_hanging_nodes() {
    const MESHES: usize = 4_000;
    let mut random = Random::new(41);
    let (mut hanging, mut deepest, mut layered) = (0, 0, 0);
    for _ in 0..MESHES {
        let mesh = any_mesh(&mut random);
        assert!(is_well_formed(&mesh), "{mesh:?}");
        let net = mesh.net().expect("a sound mesh has a net");
        let hangs = net.has_hanging_nodes();
        hanging += usize::from(hangs);
        deepest += usize::from(hangs && finest(&mesh) == 12);
        layered += usize::from(mesh.layers.iter().any(|layer| *layer != mesh.layers[0]));
    }
    assert!(hanging > MESHES / 2, "{hanging}");
    assert!(deepest > MESHES / 30 && layered > MESHES / 6, "{deepest} {layered}");
}

#[test]
fn boundary_meshes_have_nets() {
    for mesh in boundary_meshes() {
        assert!(is_well_formed(&mesh) && mesh.net().is_ok(), "{mesh:?}");
    }
}

/// Odd gaps give halves of a tick; where faces are 0 a conductance stays 1 / r.
#[test]
fn squares_over_each_other_have_the_edges_of_both() {
    let first = |mesh: &Mesh| mesh.net().expect("it is sound").edges[0].conductance;
    let meshes = boundary_meshes();
    assert_eq!([first(&meshes[2]), first(&meshes[4]), first(&meshes[5])], [0.25, 1.0, 1.0]);
    assert_eq!(first(&meshes[6]), 0.5);
}

#[test]
fn faults_are_mostly_refused() {
    const MESHES: usize = 4_000;
    let mut random = Random::new(42);
    let mut refused = [0; 11];
    for _ in 0..MESHES {
        let mut mesh = any_mesh(&mut random);
        put_fault(&mut mesh, &mut random);
        // A damaged table's leaves can't be counted.
        let number = match is_well_formed(&mesh) {
            true => mesh.net().err().map_or(0, |refusal| refusal.number),
            false => 7,
        };
        refused[number as usize] += 1;
    }
    assert!(refused[7] > MESHES / 3 && refused[3] > MESHES / 4, "{refused:?}");
    assert!(refused[0] < MESHES / 4, "{refused:?}");
}

#[test]
fn large_meshes_are_large() {
    let mut random = Random::new(43);
    for turn in 0..6 {
        let mesh = large_mesh(&mut random, turn);
        assert!(is_well_formed(&mesh) && LARGE.contains(&mesh.leaves()));
    }
}

/// Of changed nets more than half are sound, and in many of those a node lacks a half.
#[test]
fn changed_nets_give_the_checks_something_to_find() {
    const NETS: usize = 4_000;
    let mut random = Random::new(44);
    let (mut sound, mut broken, mut by_layer) = (0, 0, 0);
    for _ in 0..NETS {
        let mesh = any_mesh(&mut random);
        let mut net = mesh.net().expect("a sound mesh has a net");
        change_net(&mut net, &mut random);
        let (row, head) = (&mesh.table.row, mesh.table.head());
        let checked = check_network_conforming(row, head, &net);
        let layered = check_by_layer(row, head, &mesh.polygons(), &net);
        sound += usize::from(checked.is_ok());
        broken += usize::from(matches!(checked, Ok(Some(_))));
        by_layer += usize::from(matches!(layered, Ok(Some(_))));
    }
    assert!(
        sound > NETS / 2 && broken > NETS / 5 && by_layer > NETS / 10,
        "{sound} {broken} {by_layer}"
    );
}
