//! Every taken call of the original on plain rows of ticks.
//!
//! Each call first applies the refusals of docs/RULES.md, in their order, by a reading of its own:
//! the original panics or goes on where those rules refuse. What is left goes to the original, run
//! on tick times 2^-38, and comes back as ticks; both ways are asserted to be exact.

pub mod build;
pub mod checks;
pub mod coarsest;
pub mod contact;
pub mod even;
pub mod leafnet;
pub mod limits;
pub mod link_words;
pub mod links;
pub mod net;
pub mod network;
pub mod outcome;
pub mod power;
pub mod record;
pub mod sheets;
pub mod strips;
pub mod table;
pub mod ticks;
pub mod well_formed;

pub use outcome::{Answer, Refusal};
