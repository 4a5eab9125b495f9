//! The ranges of docs/RULES.md.

/// Coordinates reach from minus this to this, in ticks.
pub const COORDINATE: i64 = 1 << 36;
pub const WIDEST_LEVEL: u64 = 12;
pub const CAP: u64 = 256;
/// The widest target cell, and the widest cell of a layer.
pub const CELL: i64 = 1 << 36;
pub const LAYER_ENTRIES: usize = 64;
pub const POLYGONS: usize = 256;
pub const RING_POINTS: usize = 1_024;
pub const SLOTS: usize = 16_384;
/// The largest magnitude of a potential, 2^20.
pub const POTENTIAL: f64 = 1_048_576.0;
/// The largest sheet resistance, 2^40; the smallest is one over it, 2^-40.
pub const R_SHEET: f64 = 1_099_511_627_776.0;

/// The largest half size of a footprint.
pub const HALF: i64 = COORDINATE;

pub fn coordinate_in_range(ticks: i64) -> bool {
    (-COORDINATE..=COORDINATE).contains(&ticks)
}

/// False for a NaN too.
pub fn r_sheet_in_range(ohms: f64) -> bool {
    (1.0 / R_SHEET..=R_SHEET).contains(&ohms)
}

/// Of a via or a channel; false for a NaN too.
pub fn resistance_in_range(ohms: f64) -> bool {
    r_sheet_in_range(ohms)
}

/// False for a NaN and the infinities too.
pub fn potential_in_range(volts: f64) -> bool {
    (-POTENTIAL..=POTENTIAL).contains(&volts)
}
