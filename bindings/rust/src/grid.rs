//! What files of a mesh have in common: its leaves with a net's nodes in space, and the numbers of each leaf.

use crate::{Leaf, Mesh, NetRows, Node, Reason, Refusal, TICK};
use std::collections::BTreeSet;
use std::iter::repeat;

/// A number of a leaf.
pub type Number = fn(&Leaf) -> f64;

/// The numbers that stand with each leaf, by name.
pub const NUMBERS: [(&str, Number); 6] = [
    ("leaf", |leaf| leaf.id as f64),
    ("level", |leaf| leaf.level as f64),
    ("polygon", |leaf| leaf.polygon as f64),
    ("layer", |leaf| f64::from(leaf.layer)),
    ("component", |leaf| f64::from(leaf.component)),
    ("r_sheet", |leaf| leaf.sheet),
];

/// Values with so many zeros behind them that each link has one, too. None where they are neither as many as the cells
/// nor as many as cells and links.
pub fn with_links<T: Copy + Default>(
    all: &[T],
    [cells, links]: [usize; 2],
) -> Option<impl Iterator<Item = T> + '_> {
    let fits = [cells, cells + links].contains(&all.len());
    let zeros = repeat(T::default()).take((cells + links).saturating_sub(all.len()));
    fits.then(|| all.iter().copied().chain(zeros))
}

/// The leaves of a mesh that a net is of, each with the sheet resistance of its cell.
///
/// # Errors
///
/// Those of [`NetRows::judge`]; [`Reason::BadTable`] of another mesh's net.
pub fn leaves_of(mesh: &Mesh, net: NetRows) -> Result<Vec<Leaf>, Refusal> {
    net.judge()?;
    let mut leaves: Vec<Leaf> = mesh.leaves().collect();
    if leaves.len() != net.cells.len() {
        let reason = Reason::BadTable;
        return Err(Refusal { reason, place: 0 });
    }
    let cells = leaves.iter_mut().zip(net.cells);
    cells.for_each(|(leaf, cell)| leaf.sheet = cell.sheet);
    Ok(leaves)
}

/// The nodes in metres, each layer a twentieth of the board's larger side above the one below.
pub fn places(net: NetRows) -> Vec<[f64; 3]> {
    let apart = larger_side(net) / 20.0;
    let layers: BTreeSet<u16> = net.nodes.iter().map(|node| node.layer).collect();
    let place = |node: &Node| {
        let height = layers.range(..node.layer).count() as f64 * apart;
        let [x, y] = [node.x, node.y].map(|ticks| ticks as f64 * TICK);
        [x, y, height]
    };
    net.nodes.iter().map(place).collect()
}

fn larger_side(net: NetRows) -> f64 {
    let along = |axis: fn(&Node) -> i64| {
        let all = || net.nodes.iter().map(axis);
        all().max().unwrap_or(0) - all().min().unwrap_or(0)
    };
    along(|node| node.x).max(along(|node| node.y)) as f64 * TICK
}
