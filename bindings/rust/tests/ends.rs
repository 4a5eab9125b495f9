//! How the tools read their words, where they read and write, and how they end: with 0, with 1, with 2 where their
//! words make no sense.

mod programs;

use programs::{
    made, refused, run, run_into, sample_name, senseless, text_made, Folder, BOARD, DRAW, RELAX,
};
use std::ffi::OsStr;
use std::fs::{self, OpenOptions};
use std::io::Write;
use std::os::unix::ffi::OsStrExt;
use std::process::{Command, Stdio};

const COMMANDS: [&str; 9] = [
    "pack", "unpack", "net", "vtk", "msh", "csv", "solve", "refine", "merge",
];

/// A text whose record has no byte that is a newline, at which a buffer would be written out.
const SQUARE: &[u8] = b"level 2\ntarget 32\npolygon 1 0 1\n0 0\n32 0\n32 32\n0 32\n";
const TERMINALS: [&str; 4] = [
    "--terminal",
    "in 1 A end 1 0 west",
    "--terminal",
    "out 0 V end 1 0 east",
];

/// Every way to make something, with its input: all end with 0.
fn works() -> Vec<(&'static str, Vec<&'static str>, Vec<u8>)> {
    let record = made(BOARD, &["pack"], SQUARE);
    assert!(!record.contains(&b'\n'));
    let net = made(BOARD, &["net"], SQUARE);
    let with_terminals = |words: &[&'static str]| [words, &TERMINALS].concat();
    let mut works = vec![
        (BOARD, vec!["pack"], SQUARE.to_vec()),
        (BOARD, vec!["unpack"], record.clone()),
        (BOARD, vec!["merge"], SQUARE.to_vec()),
        (DRAW, vec![], net.clone()),
        (DRAW, vec!["-"], record.clone()),
        (DRAW, with_terminals(&["-", "--power"]), record.clone()),
        (
            DRAW,
            with_terminals(&["-", "--current", "--borders"]),
            record.clone(),
        ),
        (RELAX, with_terminals(&[]), net),
    ];
    for command in ["net", "vtk", "msh", "csv"] {
        works.push((BOARD, vec![command], record.clone()));
    }
    for command in ["vtk", "msh", "csv"] {
        works.push((BOARD, with_terminals(&[command, "--power"]), record.clone()));
    }
    works.push((BOARD, with_terminals(&["solve"]), record.clone()));
    works.push((BOARD, with_terminals(&["solve", "--net"]), record.clone()));
    works.push((BOARD, with_terminals(&["refine", "--rounds", "1"]), record));
    works
}

/// What `--help` shows, in lines that a terminal has room for.
fn help_of(tool: &str, words: &[&str]) -> String {
    let help = text_made(tool, words, b"");
    assert!(
        help.ends_with('\n') && help.lines().all(|line| line.len() <= 80),
        "{help}"
    );
    help
}

#[test]
fn help_and_versions_are_shown() {
    for tool in [BOARD, DRAW, RELAX] {
        let name = tool.rsplit('/').next().expect("a name");
        assert!(help_of(tool, &["--help"]).starts_with(&format!("usage: {name} ")));
        let version = format!("{name} {}\n", env!("CARGO_PKG_VERSION"));
        assert_eq!(text_made(tool, &["--version"], b""), version);
    }
    let help = help_of(BOARD, &["--help"]);
    for command in COMMANDS {
        assert!(help.contains(&format!("\n  {command} ")), "{command}");
        let own = help_of(BOARD, &[command, "--help"]);
        assert!(own.starts_with(&format!("usage: board {command} ")));
        made(BOARD, &[command, "--version"], b"");
    }
}

#[test]
fn words_that_make_no_sense_are_told_with_the_usage() {
    let board = sample_name("across.txt");
    let board = board.as_str();
    for (tool, words, why) in [
        (BOARD, vec![], "which command?"),
        (BOARD, vec!["park"], "unknown command: park"),
        (BOARD, vec!["--power"], "unknown command: --power"),
        (BOARD, vec!["pack", "--power"], "unknown option: --power"),
        (BOARD, vec!["net", "a", "b"], "one file too many: b"),
        (
            BOARD,
            vec!["net", "--", "-a", "-b"],
            "one file too many: -b",
        ),
        (BOARD, vec!["net", "-o"], "-o wants a word"),
        (
            BOARD,
            vec!["net", "-o", "a", "-o", "b"],
            "-o is given twice",
        ),
        (
            BOARD,
            vec!["vtk", "--power", "--power"],
            "--power is given twice",
        ),
        (
            BOARD,
            vec!["solve", "--terminal"],
            "--terminal wants a word",
        ),
        (
            BOARD,
            [&["csv"], &TERMINALS[..]].concat(),
            "--terminal says nothing without --power",
        ),
        (BOARD, vec!["refine"], "--rounds or --until is missing"),
        (
            BOARD,
            vec!["refine", "--rounds", "0"],
            "--rounds takes a whole number from 1 on, not 0",
        ),
        (
            BOARD,
            vec!["refine", "--rounds", "1", "--leaves", "many"],
            "--leaves takes a whole number from 1 on, not many",
        ),
        (DRAW, vec![board, "--board", board], "one board too many"),
        (
            DRAW,
            vec!["--power"],
            "--power, --current and --terminal need a board",
        ),
        (
            DRAW,
            vec![board, "--power", "--current"],
            "--power or --current, not both",
        ),
        (
            DRAW,
            vec![board, "--record", board],
            "a board, or what leafnet printed, not both",
        ),
        (
            DRAW,
            vec!["--potentials", "file"],
            "--potentials need a --record",
        ),
        (
            DRAW,
            [&[board], &TERMINALS[..]].concat(),
            "--terminal says nothing without --power or --current",
        ),
        (DRAW, vec!["--border"], "unknown option: --border"),
        (DRAW, vec!["--board"], "--board wants a word"),
        (RELAX, vec!["--power"], "unknown option: --power"),
        (RELAX, vec!["--power=1"], "unknown option: --power"),
        (DRAW, vec![board, "--power=high"], "--power takes no word"),
    ] {
        let name = tool.rsplit('/').next().expect("a name");
        let said = senseless(tool, &words, SQUARE);
        let mut lines = said.lines();
        assert_eq!(
            lines.next(),
            Some(format!("{name}: {why}").as_str()),
            "{words:?}"
        );
        assert!(
            lines.next().is_some_and(|line| line.starts_with("usage: ")),
            "{words:?}"
        );
    }
    for share in ["0", "-1", "2", "1/0", "x", "1/2/3", "NaN", "0/0", "inf"] {
        let words = ["refine", "--rounds", "1", "--share", share];
        let said = senseless(BOARD, &words, SQUARE);
        assert!(
            said.starts_with(&format!(
                "board: --share takes a share above 0, 1 at most, not {share}\n"
            )),
            "{said}"
        );
    }
}

/// A word may stand behind an equals sign, too.
#[test]
fn words_behind_equals_signs() {
    let folder = Folder::new("equals");
    let board = folder.put("board.txt", SQUARE);
    let apart = [
        "solve",
        &board,
        "--terminal",
        TERMINALS[1],
        "--terminal",
        TERMINALS[3],
    ];
    let joined = TERMINALS.map(|word| format!("--terminal={word}"));
    let joined = ["solve", &joined[1], &joined[3], &board];
    assert_eq!(made(BOARD, &joined, b""), made(BOARD, &apart, b""));
    // Only the first one parts them.
    let title = text_made(DRAW, &[&board, "--title=a=b"], b"");
    assert!(title.contains(">a=b<"));
}

#[test]
fn every_work_ends_well() {
    for (tool, words, input) in works() {
        assert!(!made(tool, &words, &input).is_empty(), "{tool} {words:?}");
    }
}

/// What stands in a file is what stands on standard input, and what goes into a file is what goes to standard output.
#[test]
fn files_stand_for_standard_input_and_output() {
    let folder = Folder::new("ends");
    for (tool, words, input) in works() {
        // A board's name stands in its picture, too.
        let words = match words.first() {
            Some(&"-") => [&["--title", "a board"], &words[1..]].concat(),
            _ => words,
        };
        let of_board = words.first() == Some(&"--title");
        let read = if of_board {
            [&words[..], &["-"]].concat()
        } else {
            words.clone()
        };
        let output = made(tool, &read, &input);
        let (from, to) = (folder.put("in put", &input), folder.name("out put"));
        let printed = tool == DRAW && !of_board;
        let named = if printed {
            vec!["--printed", &from]
        } else {
            vec![&*from]
        };
        let words = [&words[..], &named, &["-o", &to]].concat();
        assert_eq!(made(tool, &words, b"nothing"), b"", "{tool} {words:?}");
        assert_eq!(fs::read(&to).expect("a file"), output, "{tool} {words:?}");
    }
}

#[test]
fn files_that_are_not_there_are_told_by_name() {
    let folder = Folder::new("no-ends");
    let none = folder.name("none");
    let told = format!("{none}: No such file or directory\n");
    for command in COMMANDS {
        let words = [&[command, &none], &["--rounds", "1"][..]].concat();
        let words = if command == "refine" {
            &words
        } else {
            &words[..2]
        };
        assert_eq!(refused(BOARD, words, b""), told);
    }
    let board = sample_name("neck.txt");
    let net = made(BOARD, &["net", &board], b"");
    for words in [
        vec![&*none],
        vec!["--board", &none],
        vec!["--printed", &none],
        vec!["--record", &none],
        vec!["--record", &board, "--potentials", &none],
    ] {
        assert_eq!(refused(DRAW, &words, &net), told);
    }
    assert_eq!(refused(RELAX, &[&none], b""), told);
    assert_eq!(refused(RELAX, &["--board", &none], &net), told);
    let inside = folder.name("none/out");
    assert_eq!(
        refused(BOARD, &["pack", "-o", &inside], SQUARE),
        format!("cannot write {inside}: No such file or directory\n")
    );
    let folder = folder.name("");
    assert_eq!(
        refused(BOARD, &["net", &folder], b""),
        format!("{folder}: Is a directory\n")
    );
}

#[test]
fn full_and_closed_outputs_are_told() {
    for (tool, words, input) in works() {
        let told = |output: std::process::Output, why: &str| {
            let said = String::from_utf8_lossy(&output.stderr).into_owned();
            assert_eq!(output.status.code(), Some(1), "{tool} {words:?}: {said}");
            let last = said.lines().last();
            let wanted = format!("cannot write standard output: {why}");
            assert_eq!(last, Some(wanted.as_str()), "{tool} {words:?}");
        };
        let open = |name: &str, write: bool| {
            let file = OpenOptions::new().write(write).read(!write).open(name);
            Stdio::from(file.expect("a device"))
        };
        let full = run_into(tool, &words, &input, open("/dev/full", true));
        told(full, "No space left on device");
        let read_only = run_into(tool, &words, &input, open("/dev/null", false));
        told(read_only, "Bad file descriptor");
        let script = [&["-c", "exec \"$0\" \"$@\" >&-", tool], &words[..]].concat();
        told(run("sh", &script, &input), "it is closed");
        told(without_reader(tool, &words, &input), "Broken pipe");
    }
}

/// The reader goes before there is anything to read, as `head` may.
fn without_reader(tool: &str, words: &[&str], input: &[u8]) -> std::process::Output {
    let mut child = Command::new(tool)
        .args(words)
        .stdin(Stdio::piped())
        .stdout(Stdio::piped())
        .stderr(Stdio::piped())
        .spawn()
        .expect("the tool");
    drop(child.stdout.take());
    let _ = child.stdin.take().expect("piped").write_all(input);
    child.wait_with_output().expect("an end")
}

/// An output that is meant to be thrown away isn't closed, though it looks like what the runtime opens for one that is.
#[test]
fn an_output_that_is_thrown_away_takes_all() {
    let null = OpenOptions::new().read(true).write(true).open("/dev/null");
    let output = run_into(BOARD, &["pack"], SQUARE, null.expect("a device").into());
    assert_eq!(output.status.code(), Some(0), "{output:?}");
}

#[test]
fn a_closed_input_is_told() {
    for (tool, words, _) in works() {
        let script = [&["-c", "exec \"$0\" \"$@\" <&-", tool], &words[..]].concat();
        let said = refused("sh", &script, b"");
        assert_eq!(
            said, "cannot read standard input: it is closed\n",
            "{tool} {words:?}"
        );
    }
}

#[test]
fn what_is_no_text_is_told_by_its_line() {
    let words = "line 2: this isn't UTF-8\n";
    let bytes = b"cells 1\n\xff\n";
    for (tool, own) in [
        (RELAX, vec![]),
        (DRAW, vec![]),
        (DRAW, vec!["-"]),
        (BOARD, vec!["pack"]),
        (BOARD, vec!["net"]),
    ] {
        let bytes = if tool == RELAX || own.is_empty() {
            &bytes[..]
        } else {
            b"# a board\n\xff\n"
        };
        assert_eq!(refused(tool, &own, bytes), words, "{tool} {own:?}");
    }
}

/// Without standard error, or with a full one, the status is all there is.
#[test]
fn an_error_that_cannot_be_said_is_no_panic() {
    for redirection in ["2>&-", "2>/dev/full"] {
        let script = format!("exec \"$0\" \"$@\" {redirection}");
        for (words, status) in [(["pack", "/no/such/file"], 1), (["pack", "--no"], 2)] {
            let words = [&["-c", &script, BOARD], &words[..]].concat();
            assert_eq!(
                run("sh", &words, b"").status.code(),
                Some(status),
                "{words:?}"
            );
        }
    }
}

#[test]
fn names_that_are_no_text_are_names() {
    let folder = Folder::new("bytes");
    let name = [folder.name("").as_bytes(), b"\xff\xfe"].concat();
    let name = OsStr::from_bytes(&name);
    fs::write(name, SQUARE).expect("a file");
    let run = |words: &[&OsStr]| {
        let output = Command::new(BOARD).args(words).output();
        output.expect("the tool")
    };
    let packed = run(&[OsStr::new("pack"), name]);
    assert_eq!(packed.stdout, made(BOARD, &["pack"], SQUARE));
    let output = run(&[OsStr::new("solve"), name, OsStr::new("--terminal"), name]);
    assert_eq!(output.status.code(), Some(1), "{output:?}");
    assert_eq!(run(&[name]).status.code(), Some(2));
}
