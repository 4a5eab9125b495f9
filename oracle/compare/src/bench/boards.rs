//! Square boards that several benchmarks share.

use calls::contact::Rect;
use calls::limits::SLOTS;
use inputs::meshes::Mesh;
use inputs::tables::Table;

/// Levels below a base cell; its side is then 16 ticks.
const MAX_LEVEL: u64 = 3;
const SIDE: i64 = 16;

/// A square board of base cells; eight of them, spread over it, are split three levels down, each
/// towards one of its corners.
pub fn board_with_eight_corners(cells: i64) -> Table {
    let mut table = Table::with(MAX_LEVEL, &raster(cells), &[]);
    let (near, far) = (cells / 4, cells - 1 - cells / 4);
    let last = cells - 1;
    let spread = [
        (0, 0, 3),
        (last, 0, 2),
        (0, last, 1),
        (last, last, 0),
        (near, near, 0),
        (far, near, 1),
        (near, far, 2),
        (far, far, 3),
    ];
    for (column, row, quadrant) in spread {
        let mut id = (row * cells + column) as usize;
        for _ in 0..MAX_LEVEL {
            table.split(id);
            id = table.slot(id).first as usize + quadrant;
        }
    }
    table.set_slots(SLOTS);
    table
}

/// Row by row from the bottom, left to right.
fn raster(cells: i64) -> Vec<Rect> {
    let place = |n: i64| (n % cells * SIDE, n / cells * SIDE);
    (0..cells * cells).map(place).map(|(x, y)| [x, y, x + SIDE, y + SIDE]).collect()
}

/// The same balanced, of one polygon.
pub fn balanced_board(cells: i64) -> Mesh {
    let mut mesh = Mesh::of_table(board_with_eight_corners(cells));
    mesh.push_polygon(1, 0, 1.5);
    mesh.balance_within(SLOTS);
    mesh
}
