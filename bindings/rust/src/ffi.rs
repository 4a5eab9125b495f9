//! The raw declarations of include/leafmesh.h, which has more words on each function. A row is a pointer and
//! the number of its entries; where the number is 0 the pointer may be null. The functions of the crate's
//! root and of [`Table`](crate::Table) are these behind slices and `Result`; so refusals stand there.
//!
//! # Safety
//!
//! Of every function: each pointer must be that of a row of as many entries as the length behind it says,
//! the row must live for the call, and one that is written must not overlap another of the same call.
//! Numbers may be any.

use crate::{Cell, Channel, Contact, Edge, Node, Point, Rect, Via};

/// What most calls answer. Number 0 is accepted, others are the refusals. What has no meaning is 0: the
/// place of an accepted call, the value of a refused one.
#[repr(C)]
#[derive(Clone, Copy, Debug, Default, PartialEq, Eq)]
pub struct Outcome {
    /// 0: accepted; otherwise the refusal's number.
    pub number: u64,
    /// Where, of a refusal.
    pub place: u64,
    /// What the call answers.
    pub value: u64,
}

/// The border that two rectangles share: the side of the first, 0 to 3 anticlockwise from the south, and the length
/// in ticks. Both are 0 where they share none, and behind a refusal.
#[repr(C)]
#[derive(Clone, Copy, Debug, Default, PartialEq, Eq)]
pub struct BorderOutcome {
    /// 0: accepted; otherwise the refusal's number.
    pub number: u64,
    /// Where, of a refusal.
    pub place: u64,
    /// Of the first rectangle: 0 to 3, anticlockwise from the south.
    pub side: u64,
    /// In ticks; 0 where they share no border.
    pub length: u64,
}

/// What a call that makes or changes a table answers: the splits of balance or conform, and the new head; zeros behind
/// a refusal.
#[repr(C)]
#[derive(Clone, Copy, Debug, Default, PartialEq, Eq)]
pub struct TableOutcome {
    /// 0: accepted; otherwise the refusal's number.
    pub number: u64,
    /// Where, of a refusal.
    pub place: u64,
    /// How many splits balance or conform made.
    pub splits: u64,
    /// How many cells the table has now.
    pub count: u64,
    /// How many of them are leaves.
    pub leaves: u64,
    /// The deepest level.
    pub max_level: u64,
}

/// Settings and row counts of a record; zeros behind a refusal.
#[repr(C)]
#[derive(Clone, Copy, Debug, Default, PartialEq, Eq)]
pub struct ReadOutcome {
    /// 0: accepted; otherwise the refusal's number.
    pub number: u64,
    /// Where, of a refusal.
    pub place: u64,
    /// The deepest level: 255 is answered as 4.
    pub level: u64,
    /// The most base cells that a strip has each way.
    pub cap: u64,
    /// The size wanted of a base cell, in ticks.
    pub target: u64,
    /// How many layers with a cell size of their own.
    pub layers: u64,
    /// How many polygons.
    pub polygons: u64,
    /// How many points they have together.
    pub points: u64,
    /// How many cells are to be split.
    pub splits: u64,
}

/// How many nodes, edges and cells a net has, and how many of the edges are links, the last ones; zeros behind a
/// refusal.
#[repr(C)]
#[derive(Clone, Copy, Debug, Default, PartialEq, Eq)]
pub struct NetOutcome {
    /// 0: accepted; otherwise the refusal's number.
    pub number: u64,
    /// Where, of a refusal.
    pub place: u64,
    /// How many nodes.
    pub nodes: u64,
    /// How many edges.
    pub edges: u64,
    /// How many cells.
    pub cells: u64,
    /// How many of the edges are links, the last ones.
    pub links: u64,
}

/// Broken is 1 where a node hangs; zeros where none does, and behind a refusal.
#[repr(C)]
#[derive(Clone, Copy, Debug, Default, PartialEq, Eq)]
pub struct CheckOutcome {
    /// 0: accepted; otherwise the refusal's number.
    pub number: u64,
    /// Where, of a refusal.
    pub place: u64,
    /// 1 where a node isn't joined.
    pub broken: u64,
    /// The node.
    pub node: u64,
    /// The first end of the leaf edge that it stands in.
    pub from: u64,
    /// The other end.
    pub to: u64,
}

/// What [`leafmesh_balance`] and [`leafmesh_conform`] are called as.
pub type Evening = unsafe extern "C" fn(*mut i64, usize, usize, usize, u64) -> TableOutcome;

extern "C" {
    /// The border that the rectangles a and b share: [`contact`](crate::contact).
    pub fn leafmesh_contact(
        ax0: i64,
        ay0: i64,
        ax1: i64,
        ay1: i64,
        bx0: i64,
        by0: i64,
        bx1: i64,
        by1: i64,
    ) -> BorderOutcome;
    /// The strips of a ring, and how many: [`strips`](crate::strips). `points_length` counts points, `out_length`
    /// rectangles.
    pub fn leafmesh_strips(
        points: *const Point,
        points_length: usize,
        out: *mut Rect,
        out_length: usize,
    ) -> Outcome;
    /// The base cells of a board into a table: [`Table::build`](crate::Table::build). `list_length` counts layers,
    /// the next four polygons, `points_length` points, `table_length` numbers, 8 a slot.
    pub fn leafmesh_build(
        max_level: u64,
        cap: u64,
        target: u64,
        list: *const [u64; 2],
        list_length: usize,
        layers: *const u16,
        layers_length: usize,
        components: *const u32,
        components_length: usize,
        sheets: *const f64,
        sheets_length: usize,
        counts: *const u64,
        counts_length: usize,
        points: *const Point,
        points_length: usize,
        table: *mut i64,
        table_length: usize,
    ) -> TableOutcome;
    /// How many leaves a head has: `leaves` itself. It looks at no table and refuses nothing.
    pub fn leafmesh_leaf_count(count: usize, leaves: usize, max_level: u64) -> usize;
    /// The ids of the leaves, rising, and how many: [`Table::leaves`](crate::Table::leaves). Wherever a table is
    /// lent, `table_length` counts numbers, 8 a slot; `out_length` counts ids.
    pub fn leafmesh_leaves(
        table: *const i64,
        table_length: usize,
        count: usize,
        leaves: usize,
        max_level: u64,
        out: *mut u64,
        out_length: usize,
    ) -> Outcome;
    /// The ids of the leaves in the order of the net's cells, and how many:
    /// [`Table::leaf_order`](crate::Table::leaf_order).
    pub fn leafmesh_leaf_order(
        table: *const i64,
        table_length: usize,
        count: usize,
        leaves: usize,
        max_level: u64,
        out: *mut u64,
        out_length: usize,
    ) -> Outcome;
    /// Splits one leaf: [`Table::refine`](crate::Table::refine).
    pub fn leafmesh_refine(
        table: *mut i64,
        table_length: usize,
        count: usize,
        leaves: usize,
        max_level: u64,
        id: usize,
    ) -> TableOutcome;
    /// Splits until no two leaves that share an edge differ by more than one level:
    /// [`Table::balance`](crate::Table::balance).
    pub fn leafmesh_balance(
        table: *mut i64,
        table_length: usize,
        count: usize,
        leaves: usize,
        max_level: u64,
    ) -> TableOutcome;
    /// Splits until no two leaves that share an edge differ in level: [`Table::conform`](crate::Table::conform).
    pub fn leafmesh_conform(
        table: *mut i64,
        table_length: usize,
        count: usize,
        leaves: usize,
        max_level: u64,
    ) -> TableOutcome;
    /// The net of a table's leaves, and of links between them: [`Table::network_with`](crate::Table::network_with).
    /// Lengths count entries of the row's own type.
    pub fn leafmesh_network(
        table: *const i64,
        table_length: usize,
        count: usize,
        leaves: usize,
        max_level: u64,
        layers: *const u16,
        layers_length: usize,
        components: *const u32,
        components_length: usize,
        sheets: *const f64,
        sheets_length: usize,
        contacts: *const Contact,
        contacts_length: usize,
        vias: *const Via,
        vias_length: usize,
        channel_layer: u16,
        channels: *const Channel,
        channels_length: usize,
        nodes: *mut Node,
        nodes_length: usize,
        edges: *mut Edge,
        edges_length: usize,
        cells: *mut Cell,
        cells_length: usize,
        work: *mut u64,
        work_length: usize,
    ) -> NetOutcome;
    /// How many edge rows [`leafmesh_network`] asks for: [`Table::edge_rows`](crate::Table::edge_rows).
    pub fn leafmesh_edge_rows(
        table: *const i64,
        table_length: usize,
        count: usize,
        leaves: usize,
        max_level: u64,
        layers: *const u16,
        layers_length: usize,
        components: *const u32,
        components_length: usize,
        sheets: *const f64,
        sheets_length: usize,
        contacts: *const Contact,
        contacts_length: usize,
        vias: *const Via,
        vias_length: usize,
        channel_layer: u16,
        channels: *const Channel,
        channels_length: usize,
    ) -> Outcome;
    /// The power of each cell of a net: [`power`](crate::power).
    pub fn leafmesh_power(
        nodes: *const Node,
        nodes_length: usize,
        edges: *const Edge,
        edges_length: usize,
        cells: *const Cell,
        cells_length: usize,
        potentials: *const f64,
        potentials_length: usize,
        answers: *mut f64,
        answers_length: usize,
    ) -> Outcome;
    /// The first leaf edge whose middle node lacks a half:
    /// [`Table::check_network_conforming_with`](crate::Table::check_network_conforming_with).
    pub fn leafmesh_check_network_conforming(
        table: *const i64,
        table_length: usize,
        count: usize,
        leaves: usize,
        max_level: u64,
        nodes: *const Node,
        nodes_length: usize,
        edges: *const Edge,
        edges_length: usize,
        cells: *const Cell,
        cells_length: usize,
        work: *mut u64,
        work_length: usize,
    ) -> CheckOutcome;
    /// The first node inside a leaf edge that isn't joined along it:
    /// [`Table::check_by_layer_with`](crate::Table::check_by_layer_with).
    pub fn leafmesh_check_by_layer(
        table: *const i64,
        table_length: usize,
        count: usize,
        leaves: usize,
        max_level: u64,
        nodes: *const Node,
        nodes_length: usize,
        edges: *const Edge,
        edges_length: usize,
        cells: *const Cell,
        cells_length: usize,
        layers: *const u16,
        layers_length: usize,
        components: *const u32,
        components_length: usize,
        work: *mut u64,
        work_length: usize,
    ) -> CheckOutcome;
    /// A board record into rows: [`read`](crate::read).
    pub fn leafmesh_read(
        bytes: *const u8,
        bytes_length: usize,
        layers: *mut [u64; 2],
        layers_length: usize,
        polygons: *mut [u64; 3],
        polygons_length: usize,
        sheets: *mut f64,
        sheets_length: usize,
        points: *mut Point,
        points_length: usize,
        splits: *mut u64,
        splits_length: usize,
    ) -> ReadOutcome;
    /// Rows as a board record, and its length in bytes: [`write()`](crate::write).
    pub fn leafmesh_write(
        level: u64,
        cap: u64,
        target: u64,
        layers: *const [u64; 2],
        layers_length: usize,
        polygons: *const [u64; 3],
        polygons_length: usize,
        sheets: *const f64,
        sheets_length: usize,
        points: *const Point,
        points_length: usize,
        splits: *const u64,
        splits_length: usize,
        out: *mut u8,
        out_length: usize,
    ) -> Outcome;
}
