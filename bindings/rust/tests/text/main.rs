//! A board's text: what its lines mean, how it comes back, and what is said of those that are wrong.

mod back;
mod bytes;
mod damage;
mod grammar;
mod refusals;
// Other tests take more of it.
#[allow(dead_code)]
#[path = "../shared/mod.rs"]
mod shared;
mod warnings;

use leafmesh::text;
use leafmesh::{Board, Links, Mesh, Net, Unmeshed};

/// A square of one base cell and its ring's lines, from line 3 on.
const SQUARE: &str = "level 2\ntarget 8\npolygon 1 0 0.5\n0 0\n8 0\n8 8\n0 8\n";

/// Two squares over each other, in millimetres; what is put behind it stands on line 13.
const TWO_LAYERS: &str =
    "level 1\npitch 0.5\npolygon 1 0 0.001\n0 0\n2 0\n2 2\n0 2\npolygon 2 0 0.001\n0 0\n2 0\n2 2\n0 2\n";

/// The net of a board that is given by its text or its record, or what is said of it.
fn net(board: &[u8]) -> Result<Net, String> {
    if text::is_record(board) {
        let board = text::read_record(board).map_err(|why| why.to_string())?;
        return linked_net(&board, Links::default())
            .map_err(|why| text::blame_record(&board, &why));
    }
    let whole = text::parse_bytes(board).map_err(|why| why.to_string())?;
    let made = linked_net(&whole.board, whole.links.rows());
    made.map_err(|why| whole.lines.blame(&whole.board, &why))
}

fn linked_net(board: &Board, links: Links) -> Result<Net, Unmeshed> {
    Mesh::unjudged(board)?.linked_net(links)
}

fn refused(board: &[u8]) -> String {
    net(board).expect_err("a refusal")
}
