//! What the tools have in common: how they read their words and their input, how they write, and how they end: with 0
//! where all is done, with 1 where something is refused or fails, with 2 where their words make no sense.

mod asked;
pub mod closed;
mod digits;
mod end;
mod given;
mod ground;
mod lone;
mod sheets;
mod solved;
mod terminals;
mod words;

pub use asked::{board_file, SNAP};
pub use digits::digits;
pub use end::{say, End};
pub use given::Given;
pub use lone::ONE_NODE;
pub use solved::{By, Solved};
pub use terminals::Terminals;
pub use words::{Command, Stop, Switch, Takes, Tool, Words};
