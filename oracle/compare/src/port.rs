//! The port's calls: the raw declarations of the bindings, each behind a safe function over slices.
//! The bindings' own safe functions answer a `Result`; here all numbers of an outcome are compared.

pub mod checks;
pub mod network;

use calls::contact::{Border, Rect};
use calls::even::Evening;
use calls::table::Head;
use calls::{Answer, Refusal};
use leafmesh::ffi::{self, BorderOutcome, Outcome, TableOutcome};
use leafmesh::{Cell, Edge, Net, Node};

/// An answer as the port's library hands it back.
pub fn outcome_of(answer: Answer<u64>) -> Outcome {
    match answer {
        Ok(value) => Outcome { number: 0, place: 0, value },
        Err(Refusal { number, place }) => Outcome { number, place, value: 0 },
    }
}

/// The same of contact.
pub fn border_outcome_of(answer: Answer<Option<Border>>) -> BorderOutcome {
    let none = BorderOutcome::default();
    match answer {
        Ok(None) => none,
        Ok(Some(Border { side, length })) => BorderOutcome { side: side.number(), length, ..none },
        Err(Refusal { number, place }) => BorderOutcome { number, place, ..none },
    }
}

/// The same of balance and conform.
pub fn evening_outcome_of(answer: Answer<Evening>) -> TableOutcome {
    match answer {
        Ok(Evening { splits, head: Head { count, leaves, max_level } }) => {
            let (count, leaves) = (count as u64, leaves as u64);
            TableOutcome { number: 0, place: 0, splits, count, leaves, max_level }
        }
        Err(Refusal { number, place }) => TableOutcome { number, place, ..TableOutcome::default() },
    }
}

/// The same of build and refine.
pub fn head_outcome_of(answer: Answer<Head>) -> TableOutcome {
    evening_outcome_of(answer.map(|head| Evening { splits: 0, head }))
}

/// What a report counts: the refusal, or a value.
pub fn counted(outcome: TableOutcome, value: u64) -> Outcome {
    Outcome { number: outcome.number, place: outcome.place, value }
}

/// A net as the port is lent it.
pub fn lent(net: &calls::net::Net) -> Net {
    use calls::net as own;
    let node = |&own::Node { layer, component, x, y }: &own::Node| Node { layer, component, x, y };
    let edge = |&own::Edge { from, to, conductance }: &own::Edge| Edge { from, to, conductance };
    let cell = |&own::Cell { corners, r_sheet }: &own::Cell| Cell { corners, sheet: r_sheet };
    Net {
        nodes: net.nodes.iter().map(node).collect(),
        edges: net.edges.iter().map(edge).collect(),
        cells: net.cells.iter().map(cell).collect(),
        ..Net::default()
    }
}

pub fn contact(a: Rect, b: Rect) -> BorderOutcome {
    // SAFETY: numbers alone go in and come out.
    unsafe { ffi::leafmesh_contact(a[0], a[1], a[2], a[3], b[0], b[1], b[2], b[3]) }
}

pub mod table {
    use calls::table::Head;
    use leafmesh::ffi::{self, Outcome, TableOutcome};

    // SAFETY, of all: each pointer comes with the length of the slice it was taken from, and the slice
    // outlives the call.

    pub fn leaf_count(Head { count, leaves, max_level }: Head) -> usize {
        unsafe { ffi::leafmesh_leaf_count(count, leaves, max_level) }
    }

    pub fn leaves(table: &[i64], head: Head, out: &mut [u64]) -> Outcome {
        let Head { count, leaves, max_level } = head;
        let (row, length) = (table.as_ptr(), table.len());
        let (to, room) = (out.as_mut_ptr(), out.len());
        unsafe { ffi::leafmesh_leaves(row, length, count, leaves, max_level, to, room) }
    }

    pub fn leaf_order(table: &[i64], head: Head, out: &mut [u64]) -> Outcome {
        let Head { count, leaves, max_level } = head;
        let (row, length) = (table.as_ptr(), table.len());
        let (to, room) = (out.as_mut_ptr(), out.len());
        unsafe { ffi::leafmesh_leaf_order(row, length, count, leaves, max_level, to, room) }
    }

    pub fn refine(table: &mut [i64], head: Head, id: usize) -> TableOutcome {
        let Head { count, leaves, max_level } = head;
        let (row, length) = (table.as_mut_ptr(), table.len());
        unsafe { ffi::leafmesh_refine(row, length, count, leaves, max_level, id) }
    }
}

pub mod even {
    use calls::even::Allowed;
    use calls::table::Head;
    use leafmesh::ffi::{self, TableOutcome};

    /// Balance where one level is allowed, conform where none is.
    pub fn even(table: &mut [i64], head: Head, allowed: Allowed) -> TableOutcome {
        let Head { count, leaves, max_level } = head;
        let (row, length) = (table.as_mut_ptr(), table.len());
        // SAFETY: the pointer comes with the length of its slice, which outlives the call.
        unsafe {
            match allowed {
                Allowed::One => ffi::leafmesh_balance(row, length, count, leaves, max_level),
                Allowed::None => ffi::leafmesh_conform(row, length, count, leaves, max_level),
            }
        }
    }
}

pub mod strips {
    use calls::contact::Rect;
    use calls::strips::TickPoint;
    use leafmesh::ffi::{self, Outcome};

    pub fn strips(ring: &[TickPoint], out: &mut [Rect]) -> Outcome {
        let (to, room) = (out.as_mut_ptr(), out.len());
        // SAFETY: each pointer comes with the length of its slice, which outlives the call.
        unsafe { ffi::leafmesh_strips(ring.as_ptr(), ring.len(), to, room) }
    }
}

pub mod build {
    use inputs::plans::Plan;
    use leafmesh::ffi::{self, TableOutcome};

    pub fn build(plan: &Plan, table: &mut [i64]) -> TableOutcome {
        // SAFETY: each pointer comes with the length of its slice, which outlives the call.
        unsafe {
            ffi::leafmesh_build(
                plan.max_level,
                plan.cap,
                plan.target,
                plan.list.as_ptr(),
                plan.list.len(),
                plan.layers.as_ptr(),
                plan.layers.len(),
                plan.components.as_ptr(),
                plan.components.len(),
                plan.sheets.as_ptr(),
                plan.sheets.len(),
                plan.counts.as_ptr(),
                plan.counts.len(),
                plan.points.as_ptr(),
                plan.points.len(),
                table.as_mut_ptr(),
                table.len(),
            )
        }
    }
}

pub mod record {
    use calls::strips::TickPoint;
    use leafmesh::ffi::{self, Outcome, ReadOutcome};

    /// The rows of a board: layer and cell; layer, component and point count; and so on.
    #[derive(Clone, Debug)]
    pub struct Rows {
        pub layers: Vec<[u64; 2]>,
        pub polygons: Vec<[u64; 3]>,
        pub sheets: Vec<f64>,
        pub points: Vec<TickPoint>,
        pub splits: Vec<u64>,
    }

    // SAFETY, of both: each pointer comes with the length of the slice it was taken from, and the
    // slice outlives the call.

    pub fn read(bytes: &[u8], rows: &mut Rows) -> ReadOutcome {
        unsafe {
            ffi::leafmesh_read(
                bytes.as_ptr(),
                bytes.len(),
                rows.layers.as_mut_ptr(),
                rows.layers.len(),
                rows.polygons.as_mut_ptr(),
                rows.polygons.len(),
                rows.sheets.as_mut_ptr(),
                rows.sheets.len(),
                rows.points.as_mut_ptr(),
                rows.points.len(),
                rows.splits.as_mut_ptr(),
                rows.splits.len(),
            )
        }
    }

    /// Level, cap and target are the settings.
    pub fn write(settings: [u64; 3], rows: &Rows, out: &mut [u8]) -> Outcome {
        let [level, cap, target] = settings;
        unsafe {
            ffi::leafmesh_write(
                level,
                cap,
                target,
                rows.layers.as_ptr(),
                rows.layers.len(),
                rows.polygons.as_ptr(),
                rows.polygons.len(),
                rows.sheets.as_ptr(),
                rows.sheets.len(),
                rows.points.as_ptr(),
                rows.points.len(),
                rows.splits.as_ptr(),
                rows.splits.len(),
                out.as_mut_ptr(),
                out.len(),
            )
        }
    }
}

pub mod power {
    use leafmesh::ffi::{self, Outcome};
    use leafmesh::NetRows;

    pub fn power(net: NetRows, potentials: &[f64], answers: &mut [f64]) -> Outcome {
        // SAFETY: each pointer comes with the length of its slice, which outlives the call.
        unsafe {
            ffi::leafmesh_power(
                net.nodes.as_ptr(),
                net.nodes.len(),
                net.edges.as_ptr(),
                net.edges.len(),
                net.cells.as_ptr(),
                net.cells.len(),
                potentials.as_ptr(),
                potentials.len(),
                answers.as_mut_ptr(),
                answers.len(),
            )
        }
    }
}
