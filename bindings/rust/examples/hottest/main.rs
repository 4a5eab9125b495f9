//! What the net says of its hottest cell, where a neck is refined by the net's own power: the second table of
//! docs/CONDUCTANCES.md.
//!
//! `cargo run --release --example hottest`

#[path = "../shared/output.rs"]
mod output;
mod rounds;

use output::Output;
use std::error::Error;
use std::io::Write;
use std::process::ExitCode;

fn main() -> ExitCode {
    output::end("hottest", run())
}

fn run() -> Result<(), Box<dyn Error>> {
    write!(Output, "{}", rounds::table(&rounds::rounds()?)?)?;
    Ok(())
}
