//! What the program `leafnet` prints for a record, by docs/RULES.md and the calls beside this
//! file.

use crate::build::build;
use crate::even::{balance, Evening};
use crate::limits::{LAYER_ENTRIES, POLYGONS, RING_POINTS};
use crate::net::{Edge, Net, Node};
use crate::network::{network, NetRoom};
use crate::outcome::{require, Answer};
use crate::record::{read_record, Board, RecordRoom};
use crate::table::{leaf_count, leaf_order, refine, Head, Slot, WIDTH};
use std::fmt::Write;

pub const SLOTS: usize = 64;
/// Longer input is refused unread.
pub const LONGEST_INPUT: usize = 16_384;
pub const ROOM: RecordRoom =
    RecordRoom { layers: LAYER_ENTRIES, polygons: POLYGONS, points: RING_POINTS, splits: 256 };

/// A board that was split and balanced, and its net.
pub struct Meshed {
    table: Vec<i64>,
    head: Head,
    pub splits: u64,
    leaves: Vec<u64>,
    pub net: Net,
}

/// All that the program prints for this input.
pub fn leafnet(input: &[u8]) -> String {
    printed(&mesh(input))
}

pub fn printed(answer: &Answer<Meshed>) -> String {
    match answer {
        Ok(meshed) => meshed.text(),
        Err(refusal) => format!("refused {} {}\n", refusal.number, refusal.place),
    }
}

/// Reads, builds, splits and balances the board of this input, and makes its net.
pub fn mesh(input: &[u8]) -> Answer<Meshed> {
    require(input.len() <= LONGEST_INPUT, 6, 0)?;
    let board = read_record(input, &ROOM)?;
    let mut table = vec![0; SLOTS * WIDTH];
    let mut head = build(&board.settings(), &board.outlines(), &mut table)?;
    for &id in &board.splits {
        head = refine(&mut table, head, id as usize)?;
    }
    let Evening { splits, head } = balance(&mut table, head)?;
    net_of(&board, table, head, splits)
}

fn net_of(board: &Board, table: Vec<i64>, head: Head, splits: u64) -> Answer<Meshed> {
    let mut leaves = vec![0; SLOTS];
    let number = leaf_order(&table, head, &mut leaves)?;
    leaves.truncate(number as usize);
    let room = NetRoom::for_leaves(SLOTS);
    let net = network(&table, head, &board.sheets(), &room)?;
    Ok(Meshed { table, head, splits, leaves, net })
}

impl Meshed {
    fn text(&self) -> String {
        let mut text = String::new();
        self.put(&mut text).expect("a string takes all text");
        text
    }

    fn put(&self, text: &mut String) -> std::fmt::Result {
        let (nodes, edges) = (self.net.nodes.len(), self.net.edges.len());
        let (cells, leaves, splits) = (self.head.count, leaf_count(self.head), self.splits);
        writeln!(
            text,
            "cells {cells} leaves {leaves} nodes {nodes} edges {edges} splits {splits}"
        )?;
        for &id in &self.leaves {
            let leaf = Slot::load(&self.table, id as usize);
            let [x0, y0, x1, y1] = leaf.rect();
            let (polygon, level) = (leaf.polygon, leaf.level);
            writeln!(text, "leaf {id} {polygon} {level} {x0} {y0} {x1} {y1}")?;
        }
        for (number, Node { layer, component, x, y }) in self.net.nodes.iter().enumerate() {
            writeln!(text, "node {number} {layer} {component} {x} {y}")?;
        }
        for Edge { from, to, conductance } in &self.net.edges {
            writeln!(text, "edge {from} {to} {:016x}", conductance.to_bits())?;
        }
        Ok(())
    }
}
