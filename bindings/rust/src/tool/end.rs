//! Where a tool reads and writes.

use super::closed;
use std::ffi::OsStr;
use std::fs::{self, File};
use std::io::{self, Read, Write};
use std::os::fd::AsFd;
use std::path::PathBuf;

/// A file, or standard input or output, which no name and `-` stand for.
#[derive(Clone, Debug, Default, PartialEq, Eq)]
pub struct End {
    file: Option<PathBuf>,
}

impl End {
    /// By its name.
    pub fn of(name: Option<&OsStr>) -> Self {
        let file = name.filter(|&name| name != "-").map(PathBuf::from);
        End { file }
    }

    /// All that stands there.
    ///
    /// # Errors
    ///
    /// In words, with the file's name.
    pub fn read(&self) -> Result<Vec<u8>, String> {
        let read = match &self.file {
            Some(file) => fs::read(file),
            None => standard_input(),
        };
        read.map_err(|why| match self.file {
            Some(_) => self.said(&words_of(&why)),
            None => format!("cannot read standard input: {}", words_of(&why)),
        })
    }

    /// The same where it is to be text.
    ///
    /// # Errors
    ///
    /// Those of [`End::read`], and the first line that is no text.
    pub fn read_text(&self) -> Result<String, String> {
        text_of(self.read()?).map_err(|why| self.said(&why))
    }

    /// Writes all of it. A file that stood there is gone.
    ///
    /// # Errors
    ///
    /// In words, with the file's name. What was written by then stays.
    pub fn write(&self, bytes: &[u8]) -> Result<(), String> {
        let (written, name) = match &self.file {
            Some(file) => (fs::write(file, bytes), file.display().to_string()),
            None => (to_standard_output(bytes), "standard output".to_string()),
        };
        written.map_err(|why| format!("cannot write {name}: {}", words_of(&why)))
    }

    /// What is to be said of what stands there: behind the file's name, if it has one.
    pub fn said(&self, words: &str) -> String {
        match &self.file {
            Some(file) => format!("{}: {words}", file.display()),
            None => words.to_string(),
        }
    }

    /// The file's name, if it has one.
    pub fn name(&self) -> Option<String> {
        let file = self.file.as_ref();
        file.map(|file| file.display().to_string())
    }
}

/// Bytes as text, or the first line that isn't.
fn text_of(bytes: Vec<u8>) -> Result<String, String> {
    String::from_utf8(bytes).map_err(|why| {
        let sound = &why.as_bytes()[..why.utf8_error().valid_up_to()];
        let line = sound.iter().filter(|&&byte| byte == b'\n').count() + 1;
        format!("line {line}: this isn't UTF-8")
    })
}

fn standard_input() -> io::Result<Vec<u8>> {
    if closed::is_input_closed() {
        return Err(is_closed());
    }
    let mut bytes = Vec::new();
    io::stdin().read_to_end(&mut bytes)?;
    Ok(bytes)
}

/// Without the standard library's own way there, which takes an output that can't be written to for one that takes all.
fn to_standard_output(bytes: &[u8]) -> io::Result<()> {
    if closed::is_output_closed() {
        return Err(is_closed());
    }
    let output = io::stdout().as_fd().try_clone_to_owned()?;
    File::from(output).write_all(bytes)
}

fn is_closed() -> io::Error {
    io::Error::new(io::ErrorKind::Other, "it is closed")
}

/// What the system says, without its number.
fn words_of(why: &io::Error) -> String {
    let words = why.to_string();
    let end = words.find(" (os error ").unwrap_or(words.len());
    words[..end].to_string()
}

/// On standard error; with nowhere to say it the status is all there is.
pub fn say(words: &str) {
    let _ = writeln!(io::stderr(), "{words}");
}
