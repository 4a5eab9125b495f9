//! Prints what the net's conductances say of boards whose resistance is known: the table of docs/CONDUCTANCES.md.
//!
//! `cargo run --example conductances`

mod boards;
#[path = "../shared/output.rs"]
mod output;

use output::Output;
use std::error::Error;
use std::io::Write;
use std::process::ExitCode;

fn main() -> ExitCode {
    output::end("conductances", run())
}

fn run() -> Result<(), Box<dyn Error>> {
    let all: Result<Vec<_>, _> = boards::CASES.into_iter().map(boards::meshed).collect();
    write!(Output, "{}", boards::table(&all?)?)?;
    Ok(())
}
