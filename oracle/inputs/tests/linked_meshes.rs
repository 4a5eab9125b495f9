//! What the generators of meshes with links claim.

use calls::network::{edge_rows, roomy_network};
use calls::well_formed::well_formed;
use calls::Answer;
use inputs::linked_meshes::{any_linked_mesh, boundary_linked_meshes, LinkedMesh};
use inputs::links::put_link_fault;
use inputs::Random;

/// The number of links, by the original and by the words of the rules.
fn links_of(linked: &LinkedMesh) -> Answer<usize> {
    let LinkedMesh { mesh, links } = linked;
    let table = &mesh.table;
    let polygons = mesh.polygons();
    let made = roomy_network(&table.row, table.head(), &polygons, links);
    let rows = edge_rows(&table.row, table.head(), &polygons, links);
    let count = made.map(|made| made.links);
    assert_eq!(rows, count.map(|count| (8 * mesh.leaves() + count) as u64));
    count
}

#[test]
fn most_meshes_have_links() {
    const MESHES: usize = 1_000;
    let mut random = Random::new(51);
    let (mut linked, mut layered, mut crowded) = (0, 0, 0);
    for _ in 0..MESHES {
        let drawn = any_linked_mesh(&mut random);
        let mesh = &drawn.mesh;
        assert!(well_formed(&mesh.table.row, mesh.table.head()));
        let count = links_of(&drawn).expect("a sound mesh has a net");
        linked += usize::from(count > 0);
        crowded += usize::from(count > 8 * mesh.leaves());
        layered += usize::from(drawn.links.vias.iter().any(|via| via.bottom != via.top));
    }
    assert!(linked > MESHES * 9 / 10 && layered > MESHES * 2 / 5, "{linked} {layered}");
    assert!(crowded > MESHES / 20, "{crowded}");
}

#[test]
fn boundary_meshes_have_nets() {
    let counts: Vec<usize> =
        boundary_linked_meshes().iter().map(|one| links_of(one).expect("a net")).collect();
    assert_eq!(counts[..12], [1, 1, 4, 1, 4, 0, 1, 1, 1, 0, 1, 1]);
    assert_eq!(counts[12], 16);
}

#[test]
fn faults_are_refused() {
    let mut random = Random::new(52);
    for _ in 0..1_000 {
        let mut drawn = any_linked_mesh(&mut random);
        put_link_fault(&mut drawn.links, &mut random);
        let why = links_of(&drawn).expect_err("a value is out of range");
        assert_eq!((why.number, why.place), (3, 0));
    }
}
