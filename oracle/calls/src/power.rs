//! The power of each cell under given potentials.

use crate::limits::{potential_in_range, r_sheet_in_range};
use crate::net::Net;
use crate::outcome::{require, Answer};

/// Powers into `out`; the answer is how many. Refuses 7, 3, 6, each with place 0.
pub fn cell_power(net: &Net, potentials: &[f64], out: &mut [f64]) -> Answer<u64> {
    require(net.is_sound(), 7, 0)?;
    require(potentials.len() == net.nodes.len(), 3, 0)?;
    require(potentials.iter().all(|&volts| potential_in_range(volts)), 3, 0)?;
    require(net.cells.iter().all(|cell| r_sheet_in_range(cell.r_sheet)), 3, 0)?;
    require(net.cells.len() <= out.len(), 6, 0)?;

    let powers = original::adaptive::cell_power(&net.to_original(), potentials);
    out[..powers.len()].copy_from_slice(&powers);
    Ok(powers.len() as u64)
}
