//! The two checks of a net.

use inputs::tables::Table;
use leafmesh::ffi::{self, CheckOutcome};
use leafmesh::NetRows;

// SAFETY, of both: each pointer comes with the length of the slice it was taken from, and the slice
// outlives the call.

pub fn check_network_conforming(table: &Table, net: NetRows, work: &mut [u64]) -> CheckOutcome {
    unsafe {
        ffi::leafmesh_check_network_conforming(
            table.row.as_ptr(),
            table.row.len(),
            table.count,
            table.leaves,
            table.max_level,
            net.nodes.as_ptr(),
            net.nodes.len(),
            net.edges.as_ptr(),
            net.edges.len(),
            net.cells.as_ptr(),
            net.cells.len(),
            work.as_mut_ptr(),
            work.len(),
        )
    }
}

pub fn check_by_layer(
    table: &Table,
    net: NetRows,
    layers: &[u16],
    components: &[u32],
    work: &mut [u64],
) -> CheckOutcome {
    unsafe {
        ffi::leafmesh_check_by_layer(
            table.row.as_ptr(),
            table.row.len(),
            table.count,
            table.leaves,
            table.max_level,
            net.nodes.as_ptr(),
            net.nodes.len(),
            net.edges.as_ptr(),
            net.edges.len(),
            net.cells.as_ptr(),
            net.cells.len(),
            layers.as_ptr(),
            layers.len(),
            components.as_ptr(),
            components.len(),
            work.as_mut_ptr(),
            work.len(),
        )
    }
}
