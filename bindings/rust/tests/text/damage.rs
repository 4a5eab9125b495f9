//! Damaged texts and records: whatever stands in a file, it is taken or refused, and a refusal names a line that there
//! is, or says why it names none.

use crate::shared::{sample, samples, Dice};
use leafmesh::text::{self, Lines, Unclear, Whole};
use leafmesh::{Board, Mesh};
use std::fs;

/// How many texts, and how many records.
const TIMES: u64 = 10_000;

/// Every how manyth is meshed, too.
const MESHED: u64 = 8;

/// Words that a line may well hold, and such as it mayn't.
const WORDS: [&str; 34] = [
    "0",
    "1",
    "-1",
    "8",
    "16",
    "0.5",
    "-0",
    "1e3",
    "1e400",
    "NaN",
    "inf",
    "0x10",
    "1,5",
    "255",
    "256",
    "65536",
    "4294967296",
    "99999999999999999999",
    "68719476737",
    "",
    "#",
    "é",
    "-",
    "3-1",
    "0-3",
    "0-4294967295",
    "west",
    "A",
    "V",
    "pad",
    "rect",
    "edge",
    "\u{feff}",
    "\0",
];

/// Of each kind of line one at least.
const ALL_KINDS: &str = "level 2\npitch 0.5\ncap 16\nlayer 2 1\npolygon 1 0 0.001\n0 0\n4 0\n4 2\n0 2\n\
    polygon 2 0 0.3\n0 0\n4 0\n4 2\n0 2\nrefine 0.1 0.1 1.7 0.7 2 1\nrefine 0 0 1 1 1\nsplit 12 13-15\n\
    contact 0 1\nvia 1 2 0 1 1 0.6 0.6 0.01\nchannels 1\nchannel 0 0.1 0 0 3.9 1 0.25\n\
    terminal in 1e-3 A end 1 0 west\nterminal out 0 V edge 1 0 4 0.3 4 1.7\nterminal a 1 A rect 2 0 0 0 0.3 0.3\n\
    terminal b 0 V pad 1\n";

/// The same text with one thing changed in it.
fn damaged(text: &str, dice: &mut Dice) -> String {
    let mut lines: Vec<String> = text.lines().map(str::to_string).collect();
    let count = lines.len() as u64;
    let [at, other] = [0, 0].map(|_| dice.below(count) as usize);
    match dice.below(6) {
        0 => drop(lines.remove(at)),
        1 => lines.swap(at, other),
        2 => lines.insert(at, lines[other].clone()),
        3 => lines.truncate(at),
        _ => {
            let mut words: Vec<&str> = lines[at].split(' ').collect();
            let word = dice.below(words.len() as u64) as usize;
            let new = WORDS[dice.below(WORDS.len() as u64) as usize];
            match dice.below(4) {
                0 => words.insert(word, new),
                1 => drop(words.remove(word)),
                _ => words[word] = new,
            }
            lines[at] = words.join(" ");
        }
    }
    lines.join("\n")
}

/// Some bytes changed, cut off or put in.
fn with_other_bytes(bytes: &[u8], dice: &mut Dice) -> Vec<u8> {
    let mut bytes = bytes.to_vec();
    for _ in 0..=dice.below(3) {
        let at = dice.below(bytes.len() as u64 + 1) as usize;
        let byte = dice.below(256) as u8;
        match dice.below(8) {
            0 => bytes.truncate(at),
            1 => bytes.insert(at, byte),
            2 => bytes.extend_from_within(..at),
            _ if at < bytes.len() => bytes[at] = byte,
            _ => {}
        }
    }
    bytes
}

fn assert_names_a_line(why: &Unclear, bytes: &[u8]) {
    let lines = 1 + bytes.iter().filter(|&&byte| byte == b'\n').count();
    match why.line {
        Some(line) => assert!((1..=lines).contains(&line), "{why}"),
        None => {
            let words = why.words.as_str();
            assert!(
                words.starts_with("there is no polygon: ")
                    || words.starts_with("this is a record")
                    || words.starts_with("a record of version"),
                "{why}"
            );
        }
    }
}

/// A text that was taken is shown, packed and meshed, and what is said of its mesh names a line.
fn use_up(whole: &Whole, meshed: bool) {
    let again = text::parse_whole(&text::show_whole(whole)).expect("its own text");
    assert_eq!((&again.board, &again.links), (&whole.board, &whole.links));
    match text::pack_whole(whole) {
        Ok(packed) => assert!(text::read_record(&packed.record).is_ok()),
        Err(why) => assert!(why.line.is_some() && why.line == whole.lines.first_link()),
    }
    if meshed {
        mesh(&whole.board, whole, Some(&whole.lines));
    }
}

fn mesh(board: &Board, whole: &Whole, lines: Option<&Lines>) {
    let made = Mesh::unjudged(board).and_then(|mesh| mesh.linked_net(whole.links.rows()));
    let Err(why) = made else {
        return;
    };
    match lines {
        Some(lines) => {
            let said = lines.blame(board, &why);
            let named = said.starts_with("line ") || said.starts_with("balance needs");
            assert!(named, "{said}");
        }
        None => assert!(!text::blame_record(board, &why).is_empty()),
    }
}

/// Whether copper of a text is united. What comes of that comes out as it is.
fn is_merged(text: &str) -> bool {
    match text::merge(text) {
        Ok(merged) => {
            let again = text::merge(&merged.text).expect(&merged.text);
            assert_eq!(again.text, merged.text);
            !merged.united.is_empty()
        }
        Err(why) => {
            assert_names_a_line(&why, text.as_bytes());
            false
        }
    }
}

#[test]
fn no_damaged_text_is_too_much() {
    let mut dice = Dice(3);
    let mut texts: Vec<String> = ["neck.txt", "two_layers.txt", "comb.txt", "overlap.txt"]
        .map(sample)
        .to_vec();
    texts.push(ALL_KINDS.to_string());
    text::parse_whole(ALL_KINDS).expect("a board");
    let (mut taken, mut refused, mut merged) = (0, 0, 0);
    for time in 0..TIMES {
        let mut text = texts[(time % 5) as usize].clone();
        for _ in 0..=dice.below(3) {
            if !text.is_empty() {
                text = damaged(&text, &mut dice);
            }
        }
        let bytes = match dice.below(4) {
            0 => with_other_bytes(text.as_bytes(), &mut dice),
            _ => text.into_bytes(),
        };
        if let Ok(text) = text::text_of(&bytes) {
            merged += u64::from(is_merged(text));
            let snapped = text::snap(text, 0.25);
            assert!(snapped.map_or_else(
                |why| why.line.is_some(),
                |snapped| snapped.text.len() < 1 << 20
            ));
        }
        match text::parse_bytes(&bytes) {
            Ok(whole) => {
                use_up(&whole, time % MESHED == 0);
                taken += 1;
            }
            Err(why) => {
                assert_names_a_line(&why, &bytes);
                refused += 1;
            }
        }
    }
    assert!(merged > 30, "{merged}");
    assert!(taken > 1_000 && refused > 1_000, "{taken} {refused}");
}

#[test]
fn no_damaged_record_is_too_much() {
    let mut dice = Dice(4);
    let names = [
        "neck.record",
        "two_layers.record",
        "comb.record",
        "overlap.record",
    ];
    let records = names.map(|name| fs::read(samples().join(name)).expect("a record"));
    let (mut taken, mut refused) = (0, 0);
    for time in 0..TIMES {
        let bytes = with_other_bytes(&records[(time % 4) as usize], &mut dice);
        match text::read_record(&bytes) {
            Ok(board) => {
                // Where a ring has fewer points than four there is a text, and no record of it.
                if let Ok(again) = text::pack(&text::show(&board)) {
                    assert_eq!(again, bytes);
                }
                if time % MESHED == 0 {
                    mesh(&board, &Whole::default(), None);
                }
                taken += 1;
            }
            Err(why) => {
                assert!(why.line.is_none() && !why.words.is_empty());
                refused += 1;
            }
        }
    }
    assert!(taken > 1_000 && refused > 1_000, "{taken} {refused}");
}
