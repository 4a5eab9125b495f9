//! Answer rows: what they hold before a call, and where two of them differ.

use leafmesh::{Cell, Edge};
use std::fmt::Debug;

/// What a number of a row holds before the call, one of its own at each place.
pub const SENTINEL: u64 = 0xdead_0000_0000;

/// A row of so many, each made from a number of its own.
pub fn unused<T>(length: usize, make: impl Fn(u64) -> T) -> Vec<T> {
    (0..length as u64).map(|place| make(SENTINEL + place)).collect()
}

/// Puts the answers over the front of a row.
pub fn put<T: Copy>(row: &mut [T], answers: &[T]) {
    row[..answers.len()].copy_from_slice(answers);
}

/// The numbers of a row as bits, so that zeros of both signs differ and a NaN equals itself.
pub fn bits(row: &[f64]) -> Vec<u64> {
    row.iter().map(|number| number.to_bits()).collect()
}

/// Edges with their conductances as bits.
pub fn edge_bits(edges: &[Edge]) -> Vec<(usize, usize, u64)> {
    edges.iter().map(|edge| (edge.from, edge.to, edge.conductance.to_bits())).collect()
}

/// Cells with their sheet resistances as bits.
pub fn cell_bits(cells: &[Cell]) -> Vec<([usize; 4], u64)> {
    cells.iter().map(|cell| (cell.corners, cell.sheet.to_bits())).collect()
}

/// Where two rows of one length differ first.
pub fn difference<T: PartialEq + Debug>(name: &str, row: &[T], port_row: &[T]) -> String {
    match (0..row.len()).find(|&at| row[at] != port_row[at]) {
        Some(at) => format!("{name} {at} is {:?}, port {:?}; ", row[at], port_row[at]),
        None => String::new(),
    }
}

/// A row in words, cut where it is long.
pub fn shown<T: Debug>(row: &[T]) -> String {
    const MOST: usize = 64;
    if row.len() <= MOST {
        format!("{row:?}")
    } else {
        format!("{:?} and {} more", &row[..MOST], row.len() - MOST)
    }
}
