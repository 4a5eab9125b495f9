//! Power of the cells of a square board of 10,000 leaves.

use super::{best, compare, timed};
use crate::port;
use crate::rows::bits;
use calls::net::Net;
use calls::network::{network, NetRoom};
use calls::sheets::Sheets;
use inputs::nets::ordinary_potentials;
use inputs::tables::Table;
use inputs::Random;

/// Leaves a side.
const CELLS: i64 = 100;
const SIDE: i64 = 16;

/// True if both answered the same bits.
pub fn run() -> bool {
    let net = square_net();
    let potentials = ordinary_potentials(&mut Random::new(1), net.nodes.len());
    let original_net = net.to_original();
    let original = best(|| {
        let mut powers = Vec::new();
        let call = || powers = original::adaptive::cell_power(&original_net, &potentials);
        (timed(call), bits(&powers))
    });
    let lent = port::lent(&net);
    let port = best(|| {
        let mut answers = vec![0.0; net.cells.len()];
        let time = timed(|| {
            port::power::power(lent.rows(), &potentials, &mut answers);
        });
        (time, bits(&answers))
    });
    compare(&format!("power, {} leaves", net.cells.len()), port, original)
}

fn square_net() -> Net {
    let place = |n: i64| (n % CELLS * SIDE, n / CELLS * SIDE);
    let rects: Vec<[i64; 4]> =
        (0..CELLS * CELLS).map(place).map(|(x, y)| [x, y, x + SIDE, y + SIDE]).collect();
    let table = Table::with(3, &rects, &[]);
    let sheets = Sheets { layer: &[1], component: &[0], r_sheet: &[1.5] };
    let room = NetRoom::for_leaves(table.count);
    network(&table.row, table.head(), &sheets, &room).expect("a sound table")
}
