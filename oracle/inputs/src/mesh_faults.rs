//! Faults of a mesh: in the table, in a sheet resistance, in how the polygons' rows fit together or
//! how many they are.

use crate::damage::damage;
use crate::meshes::{add_polygons, Mesh};
use crate::plan_faults::bad_sheets;
use crate::random::Random;
use crate::ring_faults::some_place;
use calls::limits::POLYGONS;
use calls::well_formed::well_formed;

/// One fault, in the table only if that is sound. Now and then it leaves a sound mesh.
pub fn put_fault(mesh: &mut Mesh, random: &mut Random) {
    let sound_table = well_formed(&mesh.table.row, mesh.table.head());
    match random.below(10) {
        0..=3 if sound_table => damage(&mut mesh.table, random),
        0..=5 => spoil_sheet(mesh, random),
        6 => spoil_rows(mesh, random),
        7 if sound_table => drop_polygons(mesh),
        7..=8 => add_too_many(mesh, random),
        _ => {
            let more = mesh.layers.len() + 1 + random.index(3);
            add_polygons(mesh, more, random);
            spoil_sheet(mesh, random);
        }
    }
}

/// One sheet resistance out of range, now and then another one too; the polygons may have no leaves.
fn spoil_sheet(mesh: &mut Mesh, random: &mut Random) {
    if mesh.sheets.is_empty() {
        return mesh.push_polygon(0, 0, f64::NAN);
    }
    for _ in 0..random.pick(&[1, 1, 2]) {
        let at = some_place(random, mesh.sheets.len());
        mesh.sheets[at] = random.pick(&bad_sheets());
    }
}

/// One of the polygons' rows is one longer or shorter.
pub fn spoil_rows(mesh: &mut Mesh, random: &mut Random) {
    match random.below(6) {
        0 => mesh.layers.push(1),
        1 => mesh.components.push(0),
        2 => mesh.sheets.push(1.0),
        3 => drop(mesh.layers.pop()),
        4 => drop(mesh.components.pop()),
        _ => drop(mesh.sheets.pop()),
    }
}

/// The highest polygon that a sound table names is now at the polygon count.
pub fn drop_polygons(mesh: &mut Mesh) {
    let left = mesh.polygons_named().saturating_sub(1);
    mesh.layers.truncate(left);
    mesh.components.truncate(left);
    mesh.sheets.truncate(left);
}

/// More polygons than a board has, one of them perhaps out of range.
pub fn add_too_many(mesh: &mut Mesh, random: &mut Random) {
    let most = POLYGONS + random.pick(&[1, 1, 2, 44]);
    add_polygons(mesh, most, random);
    if random.one_in(3) {
        spoil_sheet(mesh, random);
    }
}
