//! The original mesher, made runnable.
//!
//! Its modules are copied by `build.rs` from the folder that holds the source. They name two crates
//! that aren't here; both names lead back to this crate, which holds the copied modules and small
//! stand-ins for the rest, so that no `use` line has to be changed.

#![allow(clippy::all, unexpected_cfgs)]

extern crate self as openrdson_core;
extern crate self as openrdson_solver;

mod stand_ins;

pub use stand_ins::{solve_dirichlet, solve_dirichlet_warm, Sparse};

include!(concat!(env!("OUT_DIR"), "/modules.rs"));
