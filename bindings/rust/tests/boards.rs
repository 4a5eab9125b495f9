//! The sample boards: their text and their records are the same boards. One with links has no record.

use leafmesh::{read, record_length, text, write, Mesh, Reason, DEFAULT_LEVEL, MEANS_DEFAULT};
use std::fs;
use std::path::{Path, PathBuf};

fn folder() -> PathBuf {
    Path::new(env!("CARGO_MANIFEST_DIR")).join("../../boards")
}

#[test]
fn texts_and_records_agree() {
    let (mut seen, mut linked) = (0, 0);
    for entry in fs::read_dir(folder()).expect("boards") {
        let path = entry.expect("an entry").path();
        if path.extension().is_some_and(|kind| kind == "txt") {
            let words = fs::read_to_string(&path).expect("text");
            let whole = text::parse_whole(&words).expect("a board");
            let shown = text::show_linked(&whole.board, whole.links.rows());
            let again = text::parse_whole(&shown).expect("a board");
            assert_eq!((&again.board, &again.links), (&whole.board, &whole.links));
            if !whole.links.rows().is_empty() {
                assert!(!path.with_extension("record").exists());
                linked += 1;
                continue;
            }
            let board = text::parse(&words).expect("a board");
            let mut record = vec![0; record_length(&board)];
            assert_eq!(write(&board, &mut record), Ok(record.len()));
            assert_eq!(
                fs::read(path.with_extension("record")).expect("a record"),
                record
            );
            let again = read(&record).expect("a sound record");
            assert_eq!(text::parse(&text::show(&again)), Ok(again));
            seen += 1;
        }
    }
    assert!(seen >= 4 && linked >= 1);
}

/// What the crate takes for the default is what the library reads: its cells can be split so often, and no more.
#[test]
fn a_board_without_a_level_has_the_default_one() {
    let board = text::parse("target 32\npolygon 1 0 1\n0 0\n32 0\n32 32\n0 32\n").expect("a board");
    assert_eq!(board.max_level, MEANS_DEFAULT);
    assert_eq!(board.settings().max_level, DEFAULT_LEVEL);
    let mut record = vec![0; record_length(&board)];
    assert_eq!(write(&board, &mut record), Ok(record.len()));
    assert_eq!(record[5], 255);
    let again = read(&record).expect("a sound record");
    assert_eq!(again.max_level, DEFAULT_LEVEL);
    for board in [board, again] {
        let mut mesh = Mesh::of_board(&board).expect("a mesh");
        // The root, the first of its quarters, and so on.
        let down = [0, 1, 5, 9, 13];
        for id in &down[..DEFAULT_LEVEL as usize] {
            mesh.refine(*id).expect("a split");
        }
        let finest = down[DEFAULT_LEVEL as usize];
        assert_eq!(mesh.level(finest), DEFAULT_LEVEL);
        let why = mesh.refine(finest).expect_err("a split too many");
        assert_eq!(why.reason, Reason::FinestLevel);
    }
}

/// A pitch is a multiple of what the level asks, the default level too.
#[test]
fn a_pitch_without_a_level_is_of_the_default_one() {
    let board = |level: &str| {
        let text = format!("{level}pitch 0.25\npolygon 1 0 1\n0 0\n1 0\n1 0.25\n0 0.25\n");
        text::parse(&text).expect("a board")
    };
    let of_level = board(&format!("level {DEFAULT_LEVEL}\n"));
    assert_eq!(board("").target, of_level.target);
    assert_eq!(board("").points, of_level.points);
    assert_ne!(board("").target, board("level 3\n").target);
    assert!(Mesh::of_board(&board("")).is_ok());
}
