//! What stands in a file: a text, a record, or neither.

use crate::shared::samples;
use crate::{refused, SQUARE};
use leafmesh::text;
use std::fs;
use std::io::Write;
use std::process::{Command, Output, Stdio};

fn record() -> Vec<u8> {
    text::pack(SQUARE).expect("a record")
}

/// What `board` does with its input.
fn board(word: &str, input: &[u8]) -> Output {
    let mut child = Command::new(env!("CARGO_BIN_EXE_board"))
        .arg(word)
        .stdin(Stdio::piped())
        .stdout(Stdio::piped())
        .stderr(Stdio::piped())
        .spawn()
        .expect("the tool");
    let _ = child.stdin.take().expect("piped").write_all(input);
    child.wait_with_output().expect("an end")
}

fn said(output: &Output) -> String {
    String::from_utf8(output.stderr.clone()).expect("words")
}

#[test]
fn texts_and_records_are_told_from_each_other() {
    assert!(text::is_record(&record()));
    for text in [
        "",
        "\n",
        "\r\n",
        "\t0",
        " ",
        "#",
        "\u{feff}level 2",
        "level 2",
    ] {
        assert!(!text::is_record(text.as_bytes()), "{text:?}");
    }
    assert_eq!(
        text::parse_bytes(SQUARE.as_bytes()),
        text::parse_whole(SQUARE)
    );
    let read = text::read_record(&record()).expect("a board");
    assert_eq!(Ok(read), text::parse(SQUARE));
}

#[test]
fn a_record_for_a_text_and_the_other_way_round_are_told() {
    let why = text::parse_bytes(&record()).expect_err("a record");
    assert_eq!(
        why.to_string(),
        "this is a record already, not a board's text"
    );
    let why = text::read_record(SQUARE.as_bytes()).expect_err("a text");
    assert_eq!(why.to_string(), "this is a board's text, not a record");
    for (word, input, words) in [
        ("pack", &record()[..], "this is a record already"),
        (
            "unpack",
            SQUARE.as_bytes(),
            "this is a board's text, not a record",
        ),
    ] {
        let output = board(word, input);
        assert_eq!(output.status.code(), Some(1));
        assert!(
            output.stdout.is_empty() && said(&output).contains(words),
            "{output:?}"
        );
    }
}

#[test]
fn records_of_other_versions_are_told() {
    for version in [0, 2, 31] {
        let mut other = record();
        other[0] = version;
        let words = format!("a record of version {version}; this reader takes version 1");
        let why = text::read_record(&other).expect_err("another version");
        assert_eq!((why.line, why.words.as_str()), (None, words.as_str()));
        assert_eq!(refused(&other), words);
    }
    let why = text::read_record(&record()[..9]).expect_err("a part");
    assert!(
        why.words.starts_with("byte 1, length of what follows: "),
        "{why}"
    );
    let why = text::read_record(b"").expect_err("nothing");
    assert_eq!(why.words, "the record is empty");
}

#[test]
fn what_is_no_text_is_told_by_its_line() {
    for (bytes, line) in [
        (&b"\xff\xfel\0e\0"[..], 1),
        (b"level 2\n# \xe9\n", 2),
        (b"level 2\r\n\r\n\xc3", 3),
    ] {
        let why = text::parse_bytes(bytes).expect_err("no text");
        assert_eq!(why.to_string(), format!("line {line}: this isn't UTF-8"));
        assert_eq!(refused(bytes), why.to_string());
    }
}

#[test]
fn what_the_tool_unpacks_it_packs_to_the_same_bytes() {
    let mut seen = 0;
    for entry in fs::read_dir(samples()).expect("boards") {
        let path = entry.expect("an entry").path();
        if path.extension().is_some_and(|kind| kind == "record") {
            let record = fs::read(&path).expect("a record");
            let text = board("unpack", &record).stdout;
            assert_eq!(board("pack", &text).stdout, record, "{}", path.display());
            seen += 1;
        }
    }
    assert!(seen >= 7);
}

#[test]
fn pack_warns_of_what_the_record_leaves_out() {
    let text = format!("{SQUARE}terminal in 1 A pad 0\n");
    let output = board("pack", text.as_bytes());
    assert_eq!((output.status.code(), &output.stdout), (Some(0), &record()));
    assert!(
        said(&output).ends_with("warning: line 8: a record has no terminals\n"),
        "{output:?}"
    );
    let output = board("pack", SQUARE.as_bytes());
    assert!(
        output.status.success() && output.stderr.is_empty(),
        "{output:?}"
    );
}
