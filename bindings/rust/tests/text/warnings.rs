//! What is taken with a warning.

use crate::SQUARE;
use leafmesh::text::{self, Warning};

type Ring = Vec<[i64; 2]>;

/// A ring by its numbers, x and y in turn.
fn ring(numbers: &str) -> Ring {
    let numbers = numbers.split(' ').map(|word| word.parse().expect("a tick"));
    let numbers: Vec<i64> = numbers.collect();
    numbers
        .chunks(2)
        .map(|point| [point[0], point[1]])
        .collect()
}

/// The ring from each of its points on, both ways round.
fn turned(ring: Ring) -> impl Iterator<Item = Ring> {
    (0..ring.len()).flat_map(move |first| {
        let mut turned = ring.clone();
        turned.rotate_left(first);
        let back = turned.iter().rev().copied().collect();
        [turned, back]
    })
}

/// What is said of a ring behind a square.
fn warned(ring: &Ring) -> Vec<String> {
    let mut text = format!("{SQUARE}polygon 1 1 1\n");
    for [x, y] in ring {
        text += &format!("{x} {y}\n");
    }
    said(&text::parse_whole(&text).expect("a board").warnings)
}

fn said(warnings: &[Warning]) -> Vec<String> {
    warnings.iter().map(ToString::to_string).collect()
}

#[test]
fn a_ring_that_crosses_itself_is_warned_of() {
    for numbers in [
        "0 0 8 0 8 8 4 8 4 4 12 4 12 12 0 12",
        // A point at the crossing on either side, on both, and the first point once more.
        "0 0 8 0 8 4 8 8 4 8 4 4 12 4 12 12 0 12",
        "0 0 8 0 8 8 4 8 4 4 8 4 12 4 12 12 0 12",
        "0 0 8 0 8 4 8 8 4 8 4 4 8 4 12 4 12 12 0 12",
        "8 4 8 8 4 8 4 4 8 4 12 4 12 12 0 12 0 0 8 0 8 4",
        // A figure of eight.
        "0 0 8 0 8 16 16 16 16 8 0 8",
    ] {
        for ring in turned(ring(numbers)) {
            let words = "line 8: the ring crosses itself: what it encloses counts by even and odd";
            assert_eq!(warned(&ring), [words], "{ring:?}");
        }
    }
}

#[test]
fn a_ring_that_only_touches_itself_is_not() {
    for numbers in [
        // A hole at the end of a slit, either way round.
        "0 0 24 0 24 24 0 24 0 8 8 8 8 16 16 16 16 8 8 8 0 8",
        "0 0 24 0 24 24 0 24 0 8 8 8 16 8 16 16 8 16 8 8 0 8",
        // Two squares at a corner, and two arms along a side.
        "0 0 8 0 8 8 16 8 16 16 8 16 8 8 0 8",
        "0 0 24 0 24 8 16 8 16 0 8 0 8 8 0 8",
        // The first point once more.
        "0 0 8 0 8 8 0 8 0 0",
    ] {
        for ring in turned(ring(numbers)) {
            assert_eq!(warned(&ring), [""; 0], "{ring:?}");
        }
    }
    // A slanted ring is refused where a mesh is made, and not looked at.
    for ring in turned(ring("0 0 8 8 8 0 0 8")) {
        assert_eq!(warned(&ring), [""; 0], "{ring:?}");
    }
}

#[test]
fn a_ring_that_encloses_nothing_is_warned_of() {
    for numbers in ["0 0 8 0 16 0 8 0", "4 4 4 4 4 4 4 4", "0 0 8 0 8 8 8 0"] {
        for ring in turned(ring(numbers)) {
            assert_eq!(
                warned(&ring),
                ["line 8: the ring encloses nothing"],
                "{ring:?}"
            );
        }
    }
}

#[test]
fn a_record_leaves_terminals_out_with_a_warning() {
    let text = format!("{SQUARE}terminal in 1 A pad 0\nterminal out 0 V end 1 0 west\n");
    let whole = text::parse_whole(&text).expect("a board");
    assert_eq!(whole.warnings, []);
    let packed = text::pack_whole(&whole).expect("a record");
    assert_eq!(
        said(&packed.warnings),
        ["line 8: a record has no terminals"]
    );
    assert_eq!(Ok(packed.record), text::pack(SQUARE));
}
