//! What a board and its mesh may have at most; the library refuses what goes past.

/// Coordinates lie from minus this to this: 2^36 ticks, a quarter of a metre.
pub const COORDINATE: i64 = 1 << 36;

/// The deepest level that a table may have.
pub const MAX_LEVEL: u64 = 12;

/// The deepest level of a board that doesn't name its own: in a record 255 means it, and in a text no `level` does.
pub const DEFAULT_LEVEL: u64 = 4;

/// What stands for the default level, in a record, a text and a [`Board`](crate::Board).
pub const MEANS_DEFAULT: u64 = 255;

/// The most base cells that a strip has each way.
pub const CAP: u64 = 256;

/// The largest target, and the largest cell of a layer, in ticks.
pub const CELL: u64 = 1 << 36;

/// Layers with a cell size of their own.
pub const LAYER_ENTRIES: usize = 64;

/// Polygons of a board.
pub const POLYGONS: usize = 256;

/// Points of one polygon.
pub const RING_POINTS: usize = 1_024;

/// Splits of a record.
pub const SPLITS: usize = 65_535;

/// The largest table: so many cells, split ones among them.
pub const SLOTS: usize = 16_384;

/// The least sheet resistance in ohms a square, 2^-40.
pub const SHEET_LOW: f64 = 1.0 / SHEET_HIGH;

/// The largest sheet resistance in ohms a square, 2^40.
pub const SHEET_HIGH: f64 = 1_099_511_627_776.0;

/// Potentials lie from minus this to this, in volts.
pub const POTENTIAL: f64 = 1_048_576.0;

/// Currents of terminals lie from minus this to this, in amperes. The library takes none.
pub const CURRENT: f64 = 1_048_576.0;

/// The least resistance of a via or a channel in ohms, 2^-40.
pub const RESISTANCE_LOW: f64 = SHEET_LOW;

/// The largest resistance of a via or a channel in ohms, 2^40.
pub const RESISTANCE_HIGH: f64 = SHEET_HIGH;

/// Half sizes of a footprint lie from 0 to this, in ticks.
pub const HALF: i64 = COORDINATE;

/// Nodes that a net may need for each leaf.
pub const NODES_A_LEAF: usize = 4;

/// Edges that a net may need for each leaf, besides its links.
pub const EDGES_A_LEAF: usize = 8;

/// Cells that a net needs for each leaf.
pub const CELLS_A_LEAF: usize = 1;

/// Work numbers that [`Table::network`](crate::Table::network) needs for each leaf.
pub const WORK_A_LEAF: usize = 64;

/// Work numbers for each node with which a check takes n log n steps.
pub const CHECK_WORK_A_NODE: usize = 9;

/// Work numbers for each edge, besides those for the nodes.
pub const CHECK_WORK_AN_EDGE: usize = 3;

/// With more nodes than these, 2^26, a check takes no work room.
pub const CHECK_NODES: usize = 1 << 26;

/// The work room with which a check takes n log n steps: none where the nodes are too many for it.
pub const fn check_work(nodes: usize, edges: usize) -> usize {
    if nodes <= CHECK_NODES {
        CHECK_WORK_A_NODE * nodes + CHECK_WORK_AN_EDGE * edges
    } else {
        0
    }
}
