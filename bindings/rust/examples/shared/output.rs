//! Standard output, whose errors say that it was that, and how an example ends.

use std::error::Error;
use std::io::{self, stdout, Write};
use std::process::ExitCode;

pub struct Output;

impl Write for Output {
    fn write(&mut self, bytes: &[u8]) -> io::Result<usize> {
        stdout().write(bytes).map_err(named)
    }

    fn flush(&mut self) -> io::Result<()> {
        stdout().flush().map_err(named)
    }
}

fn named(why: io::Error) -> io::Error {
    io::Error::new(why.kind(), format!("cannot write standard output: {why}"))
}

/// With 0, or with 1 and what is wrong on standard error.
pub fn end(example: &str, done: Result<(), Box<dyn Error>>) -> ExitCode {
    match done {
        Ok(()) => ExitCode::SUCCESS,
        Err(why) => {
            eprintln!("{example}: {why}");
            ExitCode::FAILURE
        }
    }
}
