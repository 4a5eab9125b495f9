//! What comes back: of a mesh, of a board, of a record and of a whole text.

use crate::shared::{samples, Dice};
use crate::SQUARE;
use leafmesh::text::{self, Whole};
use leafmesh::{Board, Mesh, MEANS_DEFAULT};
use std::fs;

/// The sample boards, each with its file's name.
fn sample_texts() -> Vec<(String, String)> {
    let mut texts = Vec::new();
    for entry in fs::read_dir(samples()).expect("boards") {
        let path = entry.expect("an entry").path();
        if path.extension().is_some_and(|kind| kind == "txt") {
            let text = fs::read_to_string(&path).expect("text");
            texts.push((path.display().to_string(), text));
        }
    }
    assert!(texts.len() >= 8);
    texts
}

/// A ring of right angles on multiples of 8 ticks: a rectangle, or one with a step in it.
fn ring(dice: &mut Dice) -> Vec<[i64; 2]> {
    let [x, y] = [0, 0].map(|_| 8 * dice.between(-40, 40));
    let [w, h] = [0, 0].map(|_| 8 * dice.between(2, 9));
    let [u, v] = [w, h].map(|side| 8 * dice.between(1, side / 8 - 1));
    if dice.below(2) == 0 {
        return vec![[x, y], [x + w, y], [x + w, y + h], [x, y + h]];
    }
    vec![
        [x, y],
        [x + w, y],
        [x + w, y + v],
        [x + u, y + v],
        [x + u, y + h],
        [x, y + h],
    ]
}

/// A board of polygons apart from each other by layer and component, without splits.
fn random_board(dice: &mut Dice) -> Board {
    let mut board = Board {
        max_level: dice.below(3),
        cap: dice.below(256) + 1,
        target: 8,
        ..Board::default()
    };
    for layer in 0..dice.below(4) {
        board.layers.push([3 * layer, 8 * dice.below(3)]);
    }
    for component in 0..dice.below(5) + 1 {
        let ring = ring(dice);
        board
            .polygons
            .push([dice.below(9), component, ring.len() as u64]);
        board.sheets.push(1.0 / (1 + dice.below(1_000)) as f64);
        board.points.extend(ring);
    }
    board
}

/// By the text and by the record.
fn assert_comes_back(mesh: &Mesh) {
    let board = mesh.board();
    let text = text::show(&board);
    let by_text = text::parse(&text).expect("its own text");
    assert_eq!(by_text, board);
    assert_eq!(Mesh::unjudged(&by_text).as_ref(), Ok(mesh));
    let record = text::pack(&text).expect("its record");
    let by_record = text::read_record(&record).expect("its own record");
    assert_eq!(by_record, board);
    assert_eq!(Mesh::unjudged(&by_record).as_ref(), Ok(mesh));
}

#[test]
fn the_meshes_of_all_sample_boards_come_back() {
    for (name, text) in sample_texts() {
        let board = text::parse_whole(&text).expect(&name).board;
        assert_comes_back(&Mesh::unjudged(&board).expect(&name));
    }
}

/// Balanced once or several times, with splits between.
#[test]
fn random_meshes_come_back() {
    let mut dice = Dice(1);
    let mut made = 0;
    for _ in 0..200 {
        let Ok(mut mesh) = Mesh::unjudged(&random_board(&mut dice)) else {
            continue;
        };
        for _ in 0..dice.below(4) {
            let ids: Vec<usize> = mesh.leaves().map(|leaf| leaf.id).collect();
            for _ in 0..dice.below(6) {
                // One that is split by now, or at the finest level, stays.
                let _ = mesh.refine(ids[dice.below(ids.len() as u64) as usize]);
            }
            mesh.balance().expect("room");
        }
        assert_comes_back(&mesh);
        made += 1;
    }
    assert!(made > 100, "{made}");
}

#[test]
fn records_come_back_byte_by_byte() {
    let mut seen = 0;
    for entry in fs::read_dir(samples()).expect("boards") {
        let path = entry.expect("an entry").path();
        if path.extension().is_some_and(|kind| kind == "record") {
            let record = fs::read(&path).expect("a record");
            let board = text::read_record(&record).expect("a board");
            assert_eq!(text::pack(&text::show(&board)), Ok(record));
            seen += 1;
        }
    }
    assert!(seen >= 7);

    let mut dice = Dice(2);
    for _ in 0..500 {
        let mut board = random_board(&mut dice);
        board.max_level = [dice.below(13), MEANS_DEFAULT][dice.below(2) as usize];
        board.target = dice.below(1 << 36) + 1;
        let ids = (0..dice.below(40)).map(|_| dice.below(30) << (dice.below(28)));
        board.splits = ids.collect();
        let record = text::pack(&text::show(&board)).expect("a record");
        let again = text::read_record(&record).expect("a board");
        assert_eq!(again, board);
        assert_eq!(text::pack(&text::show(&again)), Ok(record));
    }
}

#[test]
fn three_ids_and_more_in_a_row_are_shown_as_a_range() {
    let shown = |splits: &[u64]| {
        let mut board = text::parse(SQUARE).expect("a board");
        board.splits = splits.to_vec();
        let text = text::show(&board);
        assert_eq!(text::parse(&text), Ok(board));
        text[text.find("split").expect("splits")..].to_string()
    };
    assert_eq!(shown(&[4]), "split 4\n");
    assert_eq!(shown(&[4, 5]), "split 4 5\n");
    assert_eq!(shown(&[4, 5, 6]), "split 4-6\n");
    assert_eq!(shown(&[6, 5, 4, 7, 8, 8, 9, 10]), "split 6 5 4 7 8 8-10\n");
    assert_eq!(
        shown(&[0, 1, 2, 3, 9, 4_294_967_294, 4_294_967_295]),
        "split 0-3 9 4294967294 4294967295\n"
    );
    let many: Vec<u64> = (0..100).map(|id| 1_000 * id).collect();
    let lines = shown(&many);
    assert!(lines.lines().count() > 5 && lines.lines().all(|line| line.len() <= 100));
}

/// Of each kind of line one at least.
const LINKED: &str = "level 2\npitch 0.5\nlayer 2 1\npolygon 1 0 0.001\n0 0\n4 0\n4 2\n0 2\n\
    polygon 2 0 0.3\n0 0\n4 0\n4 2\n0 2\nrefine 0.1 0.1 1.7 0.7 2 1\nsplit 12\n\
    contact 0 1\nvia 1 2 0 1 1 0.6 0.6 0.01\nvia 1 2 0 1 1 0 0 1e-3\n\
    channels 1\nchannel 0 0.1 0 0 3.9 1 0.25\n\
    terminal in 1e-3 A end 1 0 west\nterminal out -0.1 V edge 1 0 4 0.3 4 1.7\n\
    terminal a 1e6 A rect 2 0 0 0 0.3 0.3\nterminal b -0.0 V pad 1\n";

fn assert_says_the_same(a: &Whole, b: &Whole) {
    assert_eq!(a.links, b.links);
    assert_eq!(a.terminals, b.terminals);
    // What stands for the default and what it is are one.
    assert_eq!(a.board, b.board);
}

#[test]
fn whole_texts_come_back_with_links_and_terminals() {
    let own = [
        ("linked", LINKED),
        ("channels", &format!("{SQUARE}channels 7\n")),
    ];
    let own = own.map(|(name, text)| (name.to_string(), text.to_string()));
    for (name, text) in sample_texts().into_iter().chain(own) {
        let whole = text::parse_whole(&text).expect(&name);
        assert_eq!(whole.warnings, [], "{name}");
        let again = text::parse_whole(&text::show_whole(&whole)).expect(&name);
        assert_says_the_same(&whole, &again);
        assert_eq!(text::show_whole(&again), text::show_whole(&whole));
    }
}

#[test]
fn splits_are_put_behind_a_text_as_it_stands() {
    for (text, ids, refined) in [
        ("target 8", &[][..], "target 8".to_string()),
        ("target 8", &[3], "target 8\nsplit 3\n".to_string()),
        (
            "target 8 # so",
            &[3, 4, 5],
            "target 8 # so\nsplit 3-5\n".to_string(),
        ),
        ("target 8\n\n", &[3], "target 8\n\nsplit 3\n".to_string()),
        (
            "level 2\r\ntarget 8",
            &[3],
            "level 2\r\ntarget 8\r\nsplit 3\r\n".to_string(),
        ),
        (
            "level 2\r\ntarget 8\r\n",
            &[3],
            "level 2\r\ntarget 8\r\nsplit 3\r\n".to_string(),
        ),
        ("", &[1, 0], "split 1 0\n".to_string()),
    ] {
        assert_eq!(text::with_splits(text, ids), refined);
    }
}

/// What a round of refining does: the text's own splits, a balance, more splits and a balance again.
#[test]
fn a_refined_mesh_comes_back_from_its_text_with_splits_behind_it() {
    let texts = sample_texts();
    let texts = texts.iter().map(|(_, text)| text.as_str()).chain([LINKED]);
    for text in texts {
        let whole = text::parse_whole(text).expect("a board");
        let mut mesh = Mesh::unjudged(&whole.board).expect("a mesh");
        let coarse: Vec<usize> = mesh
            .leaves()
            .filter(|leaf| leaf.level < mesh.head().max_level)
            .map(|leaf| leaf.id)
            .step_by(7)
            .take(12)
            .collect();
        mesh.refine_many(coarse).expect("room");
        mesh.balance().expect("room");
        let own = whole.board.splits.len();
        let ids: Vec<usize> = mesh.splits().skip(own).collect();
        for text in [
            text,
            text.trim_end(),
            &text.replace('\n', "\r\n"),
            &format!("\u{feff}{text}"),
        ] {
            let refined = text::with_splits(text, &ids);
            assert!(refined.starts_with(text));
            let again = text::parse_whole(&refined).expect("a board");
            assert_eq!(again.board.splits[..own], whole.board.splits);
            assert_eq!(
                again.board,
                Board {
                    splits: again.board.splits.clone(),
                    ..whole.board.clone()
                }
            );
            assert_eq!(Mesh::unjudged(&again.board).as_ref(), Ok(&mesh));
        }
    }
}
