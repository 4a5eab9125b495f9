//! docs/TOOLS.md has every command and every option. Its examples are run: a line that begins with a dollar sign is a
//! command, and what follows it up to the next one is what it writes and says.

mod programs;

use programs::{text_made, BOARD, DRAW, RELAX};
use std::env;
use std::fs;
use std::path::{Path, PathBuf};
use std::process::Command;

/// A command, and the lines behind it.
fn examples(page: &str) -> Vec<(String, String)> {
    let mut all: Vec<(String, String)> = Vec::new();
    let mut is_inside = false;
    for line in page.lines() {
        match (line.strip_prefix("    "), line.is_empty()) {
            (Some(own), _) => match own.strip_prefix("$ ") {
                Some(command) => {
                    all.push((command.to_string(), String::new()));
                    is_inside = true;
                }
                None if is_inside => {
                    let (_, said) = all.last_mut().expect("a command");
                    said.push_str(own);
                    said.push('\n');
                }
                None => {}
            },
            // An empty line may be part of what is written.
            (None, true) if is_inside => all.last_mut().expect("a command").1.push('\n'),
            (None, _) => is_inside = false,
        }
    }
    all
}

fn page() -> String {
    fs::read_to_string(root().join("docs/TOOLS.md")).expect("the page")
}

fn root() -> PathBuf {
    Path::new(env!("CARGO_MANIFEST_DIR")).join("../..")
}

/// What stands in the first column of a tool's help, in front of two blanks or more.
fn listed(help: &str) -> Vec<&str> {
    let lines = help.lines().filter_map(|line| line.strip_prefix("  "));
    let words = lines.filter_map(|line| line.split(' ').next());
    words.filter(|word| !word.is_empty()).collect()
}

#[test]
fn every_command_and_option_is_on_the_page() {
    let page = page();
    let help = text_made(BOARD, &["--help"], b"");
    let commands = listed(&help);
    assert_eq!(commands.len(), 9);
    let mut options = vec![
        "-o".to_string(),
        "--help".to_string(),
        "--version".to_string(),
    ];
    for command in &commands {
        assert!(page.contains(&format!("| `{command}")), "{command}");
        let own = text_made(BOARD, &[command, "--help"], b"");
        options.extend(listed(&own).into_iter().map(String::from));
    }
    for tool in [DRAW, RELAX] {
        let own = text_made(tool, &["--help"], b"");
        options.extend(listed(&own).into_iter().map(String::from));
    }
    options.retain(|option| option.starts_with('-'));
    assert!(options.len() > 20);
    for option in options {
        assert!(page.contains(&option), "{option}");
    }
}

#[test]
fn the_pages_examples_are_what_the_tools_do() {
    let mut folders: Vec<_> = [BOARD, RELAX]
        .map(|tool| Path::new(tool).parent().expect("a folder").to_path_buf())
        .into();
    folders.extend(env::split_paths(&env::var_os("PATH").expect("a path")));
    let path = env::join_paths(folders).expect("a path");
    let all = examples(&page());
    assert!(all.len() >= 5);
    for (command, wanted) in all {
        let output = Command::new("sh")
            .args(["-c", &format!("exec 2>&1; {command}")])
            .current_dir(root())
            .env("PATH", &path)
            .output()
            .expect("a shell");
        let found = String::from_utf8(output.stdout).expect("text");
        assert_eq!(found.trim_end(), wanted.trim_end(), "{command}");
    }
}
