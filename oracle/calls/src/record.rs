//! The board record: a reader by the words of docs/RULES.md, and a writer for tests.

use crate::build::{Outlines, Settings};
use crate::limits::{
    coordinate_in_range, r_sheet_in_range, CAP, CELL, LAYER_ENTRIES, POLYGONS, RING_POINTS,
    WIDEST_LEVEL,
};
use crate::outcome::{require, Answer};
use crate::sheets::Sheets;
use crate::strips::TickPoint;

/// 255 in a record means this level: not the 3 of the original's settings, which is given the level that is meant.
pub const DEFAULT_LEVEL: u64 = 4;
pub const MEANS_DEFAULT: u64 = 255;
const VERSION: u64 = 1;
const LENGTH_AT: usize = 1;
const LENGTH_BYTES: usize = 4;

/// All that a record says, row by row.
#[derive(Clone, Debug, Default, PartialEq)]
pub struct Board {
    pub max_level: u64,
    pub cap: u64,
    pub target: i64,
    pub layers: Vec<(u16, i64)>,
    pub layer: Vec<u16>,
    pub component: Vec<u32>,
    pub r_sheet: Vec<f64>,
    pub point_count: Vec<u64>,
    pub points: Vec<TickPoint>,
    pub splits: Vec<u32>,
}

impl Board {
    pub fn settings(&self) -> Settings<'_> {
        Settings {
            max_level: self.max_level,
            cap: self.cap,
            target: self.target,
            layers: &self.layers,
        }
    }

    pub fn sheets(&self) -> Sheets<'_> {
        Sheets { layer: &self.layer, component: &self.component, r_sheet: &self.r_sheet }
    }

    pub fn outlines(&self) -> Outlines<'_> {
        Outlines { sheets: self.sheets(), point_count: &self.point_count, points: &self.points }
    }

    pub fn push_polygon(&mut self, layer: u16, component: u32, r_sheet: f64, ring: &[TickPoint]) {
        self.layer.push(layer);
        self.component.push(component);
        self.r_sheet.push(r_sheet);
        self.point_count.push(ring.len() as u64);
        self.points.extend_from_slice(ring);
    }
}

/// How many of each the lent rows hold.
#[derive(Clone, Copy, Debug)]
pub struct RecordRoom {
    pub layers: usize,
    pub polygons: usize,
    pub points: usize,
    pub splits: usize,
}

/// Refuses 1, then 2 and 3 in byte order, then 6.
pub fn read_record(bytes: &[u8], room: &RecordRoom) -> Answer<Board> {
    let board = read_board(bytes)?;
    let fits = board.layers.len() <= room.layers
        && board.layer.len() <= room.polygons
        && board.points.len() <= room.points
        && board.splits.len() <= room.splits;
    require(fits, 6, 0)?;
    Ok(board)
}

fn read_board(bytes: &[u8]) -> Answer<Board> {
    if let Some(&version) = bytes.first() {
        require(u64::from(version) == VERSION, 1, 0)?;
    }
    let mut fields = Fields { bytes, at: 0 };
    fields.number(1)?;
    fields.length()?;
    let mut board = Board::default();
    read_settings(&mut fields, &mut board)?;
    read_polygons(&mut fields, &mut board)?;
    for _ in 0..fields.number(2)? {
        board.splits.push(fields.number(4)? as u32);
    }
    require(fields.at == bytes.len(), 2, fields.at as u64)?;
    Ok(board)
}

fn read_settings(fields: &mut Fields, board: &mut Board) -> Answer<()> {
    let level = fields.number_if(1, |n| n <= WIDEST_LEVEL || n == MEANS_DEFAULT)?;
    board.max_level = if level == MEANS_DEFAULT { DEFAULT_LEVEL } else { level };
    board.cap = fields.number_if(2, |n| (1..=CAP).contains(&n))?;
    board.target = fields.number_if(8, |n| (1..=CELL as u64).contains(&n))? as i64;
    let entries = fields.number_if(2, |n| n <= LAYER_ENTRIES as u64)?;
    for _ in 0..entries {
        let below = board.layers.last().map(|entry| u64::from(entry.0));
        let rises = |n: u64| below.map_or(true, |last| last < n);
        let layer = fields.number_if(2, rises)? as u16;
        let cell = fields.number_if(8, |n| n <= CELL as u64)? as i64;
        board.layers.push((layer, cell));
    }
    Ok(())
}

fn read_polygons(fields: &mut Fields, board: &mut Board) -> Answer<()> {
    let polygons = fields.number_if(2, |n| n <= POLYGONS as u64)?;
    for _ in 0..polygons {
        let layer = fields.number(2)? as u16;
        let component = fields.number(4)? as u32;
        let r_sheet = fields.number_if(8, |bits| r_sheet_in_range(f64::from_bits(bits)))?;
        let count = fields.number_if(2, |n| n <= RING_POINTS as u64)?;
        let mut ring = Vec::new();
        for _ in 0..count {
            let x = fields.coordinate()?;
            let y = fields.coordinate()?;
            ring.push([x, y]);
        }
        board.push_polygon(layer, component, f64::from_bits(r_sheet), &ring);
    }
    Ok(())
}

/// The fields of a record, one after the other.
struct Fields<'a> {
    bytes: &'a [u8],
    at: usize,
}

impl Fields<'_> {
    /// A big-endian number of so many bytes; 2 with the field's offset if it isn't all there.
    fn number(&mut self, size: usize) -> Answer<u64> {
        require(self.bytes.len() - self.at >= size, 2, self.at as u64)?;
        let field = &self.bytes[self.at..self.at + size];
        self.at += size;
        Ok(field.iter().fold(0, |sum, &byte| sum << 8 | u64::from(byte)))
    }

    /// A number that must be in range; 3 with the field's offset if it isn't.
    fn number_if(&mut self, size: usize, in_range: impl Fn(u64) -> bool) -> Answer<u64> {
        let offset = self.at as u64;
        let number = self.number(size)?;
        require(in_range(number), 3, offset)?;
        Ok(number)
    }

    fn coordinate(&mut self) -> Answer<i64> {
        let bits = self.number_if(8, |bits| coordinate_in_range(bits as i64))?;
        Ok(bits as i64)
    }

    /// The length must be that of the bytes behind it.
    fn length(&mut self) -> Answer<()> {
        let length = self.number(LENGTH_BYTES)?;
        let behind = (self.bytes.len() - self.at) as u64;
        require(length == behind, 2, LENGTH_AT as u64)
    }
}

/// The record of a board; the counts must fit their fields.
pub fn write_record(board: &Board) -> Vec<u8> {
    let mut body = vec![board.max_level as u8];
    put(&mut body, board.cap, 2);
    put(&mut body, board.target as u64, 8);
    put(&mut body, board.layers.len() as u64, 2);
    for &(layer, cell) in &board.layers {
        put(&mut body, u64::from(layer), 2);
        put(&mut body, cell as u64, 8);
    }
    put_polygons(&mut body, board);
    put(&mut body, board.splits.len() as u64, 2);
    for &id in &board.splits {
        put(&mut body, u64::from(id), 4);
    }
    let mut record = vec![VERSION as u8];
    put(&mut record, body.len() as u64, LENGTH_BYTES);
    record.extend(body);
    record
}

fn put_polygons(body: &mut Vec<u8>, board: &Board) {
    put(body, board.layer.len() as u64, 2);
    let mut points = board.points.iter();
    for polygon in 0..board.layer.len() {
        put(body, u64::from(board.layer[polygon]), 2);
        put(body, u64::from(board.component[polygon]), 4);
        put(body, board.r_sheet[polygon].to_bits(), 8);
        put(body, board.point_count[polygon], 2);
        for &[x, y] in points.by_ref().take(board.point_count[polygon] as usize) {
            put(body, x as u64, 8);
            put(body, y as u64, 8);
        }
    }
}

fn put(bytes: &mut Vec<u8>, number: u64, size: usize) {
    bytes.extend_from_slice(&number.to_be_bytes()[8 - size..]);
}
