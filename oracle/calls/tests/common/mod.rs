//! Small tables, boards and rooms for the tests.
#![allow(dead_code)]

use calls::build::build;
use calls::even::balance;
use calls::net::Net;
use calls::network::{network, NetRoom};
use calls::record::{Board, RecordRoom};
use calls::table::{refine, Head, Slot, WIDTH};
use calls::well_formed::childless;
use calls::{Answer, Refusal};

/// A table with its head.
#[derive(Clone, Debug)]
pub struct Table {
    pub row: Vec<i64>,
    pub head: Head,
}

impl Table {
    /// Roots of polygon 0, then the splits in order.
    pub fn new(max_level: u64, slots: usize, roots: &[[i64; 4]], splits: &[usize]) -> Self {
        let head = Head { count: roots.len(), leaves: roots.len(), max_level };
        let mut table = Table { row: vec![0; slots * WIDTH], head };
        for (id, &rect) in roots.iter().enumerate() {
            Slot::root(rect, 0).store(&mut table.row, id);
        }
        for &id in splits {
            table.split(id);
        }
        table
    }

    pub fn split(&mut self, id: usize) {
        self.head = refine(&mut self.row, self.head, id).expect("it can be split");
    }

    /// As many leaves as the row has, after it was written over.
    pub fn recount(&mut self) {
        self.head.leaves = childless(&self.row, self.head.count);
    }

    pub fn slot(&self, id: usize) -> Slot {
        Slot::load(&self.row, id)
    }

    pub fn with_slots(mut self, slots: usize) -> Self {
        self.row.resize(slots * WIDTH, 0);
        self
    }
}

/// The rules' P2: two squares side by side, the first split, then its south-east quarter (cell
/// 3).
pub fn p2(slots: usize) -> Table {
    Table::new(2, slots, &[[0, 0, 8, 8], [8, 0, 16, 8]], &[0, 3])
}

pub fn refused<T>(number: u64, place: u64) -> Answer<T> {
    Err(Refusal { number, place })
}

pub fn square(x: i64, y: i64, side: i64) -> Vec<[i64; 2]> {
    vec![[x, y], [x + side, y], [x + side, y + side], [x, y + side]]
}

/// A board without layer entries and polygons.
pub fn board(max_level: u64, target: i64) -> Board {
    Board { max_level, cap: 256, target, ..Board::default() }
}

/// The rules' worked board.
pub fn worked_board() -> Board {
    let mut board = board(1, 4);
    board.push_polygon(1, 0, 1.0, &square(0, 0, 4));
    board
}

pub fn wide_room() -> RecordRoom {
    RecordRoom { layers: 64, polygons: 256, points: 1 << 18, splits: 1 << 16 }
}

/// The board's roots, its splits made and balanced.
pub fn mesh(board: &Board, slots: usize) -> Table {
    let mut row = vec![0; slots * WIDTH];
    let head = build(&board.settings(), &board.outlines(), &mut row).expect("it builds");
    let mut table = Table { row, head };
    for &id in &board.splits {
        table.split(id as usize);
    }
    table.head = balance(&mut table.row, table.head).expect("it has room").head;
    table
}

pub fn net_of(board: &Board, table: &Table) -> Net {
    let room = NetRoom::for_leaves(table.head.leaves);
    network(&table.row, table.head, &board.sheets(), &room).expect("a net")
}
