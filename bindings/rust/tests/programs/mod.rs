//! The tools as programs: run, with what they wrote and what they said. Each file of tests takes what it needs.
#![allow(dead_code)]

use std::fs;
use std::io::Write;
use std::path::{Path, PathBuf};
use std::process::{Command, Output, Stdio};

pub const BOARD: &str = env!("CARGO_BIN_EXE_board");
pub const DRAW: &str = env!("CARGO_BIN_EXE_draw");
pub const RELAX: &str = env!("CARGO_BIN_EXE_relax");

/// Where a sample board stands.
pub fn sample(name: &str) -> PathBuf {
    Path::new(env!("CARGO_MANIFEST_DIR"))
        .join("../../boards")
        .join(name)
}

/// The same as a word.
pub fn sample_name(name: &str) -> String {
    sample(name).into_os_string().into_string().expect("a name")
}

pub fn run_into(tool: &str, words: &[&str], input: &[u8], output: Stdio) -> Output {
    let mut child = Command::new(tool)
        .args(words)
        .stdin(Stdio::piped())
        .stdout(output)
        .stderr(Stdio::piped())
        .spawn()
        .expect("the tool");
    // A tool that asks for nothing may be gone already.
    let _ = child.stdin.take().expect("piped").write_all(input);
    child.wait_with_output().expect("an end")
}

pub fn run(tool: &str, words: &[&str], input: &[u8]) -> Output {
    run_into(tool, words, input, Stdio::piped())
}

/// What it wrote; it must have ended well.
pub fn made(tool: &str, words: &[&str], input: &[u8]) -> Vec<u8> {
    let output = run(tool, words, input);
    assert!(output.status.success(), "{tool} {words:?}: {output:?}");
    output.stdout
}

/// The same as text.
pub fn text_made(tool: &str, words: &[&str], input: &[u8]) -> String {
    String::from_utf8(made(tool, words, input)).expect("text")
}

/// What it said; it must have ended with 1, without a panic, and written nothing.
pub fn refused(tool: &str, words: &[&str], input: &[u8]) -> String {
    ended(tool, words, input, 1)
}

/// What it said, where its words make no sense: with 2.
pub fn senseless(tool: &str, words: &[&str], input: &[u8]) -> String {
    ended(tool, words, input, 2)
}

fn ended(tool: &str, words: &[&str], input: &[u8], status: i32) -> String {
    let output = run(tool, words, input);
    assert_eq!(
        output.status.code(),
        Some(status),
        "{tool} {words:?}: {output:?}"
    );
    assert!(output.stdout.is_empty(), "{tool} {words:?} wrote");
    let said = String::from_utf8(output.stderr).expect("words");
    assert!(
        !said.contains("panicked") && !said.trim().is_empty(),
        "{tool} {words:?}: {said}"
    );
    said
}

/// A folder of its own for one test, gone with it.
pub struct Folder(PathBuf);

impl Folder {
    pub fn new(name: &str) -> Self {
        let own = format!("leafmesh-{name}-{}", std::process::id());
        let folder = std::env::temp_dir().join(own);
        fs::create_dir_all(&folder).expect("a folder");
        Folder(folder)
    }

    /// The name of a file in it.
    pub fn name(&self, file: &str) -> String {
        let path = self.0.join(file);
        path.into_os_string().into_string().expect("a name")
    }

    /// The name of a file that is put there.
    pub fn put(&self, file: &str, content: &[u8]) -> String {
        let name = self.name(file);
        fs::write(&name, content).expect("a file");
        name
    }

    pub fn count(&self) -> usize {
        fs::read_dir(&self.0).expect("a folder").count()
    }
}

impl Drop for Folder {
    fn drop(&mut self) {
        let _ = fs::remove_dir_all(&self.0);
    }
}
