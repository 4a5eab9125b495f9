//! Seeded inputs for the comparison. The same seed gives the same inputs everywhere.

pub mod boards;
pub mod chains;
pub mod damage;
pub mod default_levels;
pub mod large_meshes;
pub mod later;
pub mod limit_pairs;
pub mod limit_plans;
pub mod limit_records;
pub mod limit_tables;
pub mod linked_meshes;
pub mod links;
pub mod long_rings;
pub mod mesh_faults;
pub mod meshes;
pub mod net_changes;
pub mod nets;
pub mod plan_faults;
pub mod plans;
pub mod random;
pub mod records;
pub mod rectangles;
pub mod ring_faults;
pub mod rings;
pub mod stepped_meshes;
pub mod tables;
pub mod whole_boards;

pub use random::Random;
