//! Pairs of rectangles that show each kind of border, each way to miss one, the limits and each refusal, by name.

use crate::rectangles::{turned, Pair};
use calls::contact::Rect;
use calls::limits::COORDINATE;

type Named = (String, Pair);
/// Puts one fault into a rectangle.
type Fault = fn(&mut Rect);

pub fn limit_pairs() -> Vec<Named> {
    let mut list = on_each_side(&near_the_east_side());
    list.extend(on_each_side(&at_the_limits()));
    let square = [0, 0, 4, 4];
    let others = [
        ("a square and itself", square),
        ("P5, a corner", [4, 4, 8, 8]),
        ("P5, one tick", [4, 3, 8, 8]),
    ];
    list.extend(others.map(|(what, other)| (format!("contact, {what}"), (square, other))));
    list.extend(refused());
    list
}

/// Turned by quarters, so that what was on the east side comes to be on each side.
fn on_each_side(pairs: &[(&str, Pair)]) -> Vec<Named> {
    let mut list = Vec::new();
    for &(what, (mut a, mut b)) in pairs {
        for side in ["east", "north", "west", "south"] {
            list.push((format!("contact, {side}: {what}"), (a, b)));
            (a, b) = (turned(a), turned(b));
        }
    }
    list
}

/// The first is 4 by 6. Its sides go from start to end anticlockwise.
fn near_the_east_side() -> Vec<(&'static str, Pair)> {
    let with = |what, other: Rect| (what, ([0, 0, 4, 6], other));
    vec![
        with("all of both sides", [4, 0, 9, 6]),
        with("all of the first's side", [4, -2, 9, 7]),
        with("all of the second's side", [4, 1, 9, 4]),
        with("past the start", [4, -3, 9, 2]),
        with("past the end", [4, 3, 9, 8]),
        with("one tick at the start", [4, -3, 9, 1]),
        with("one tick at the end", [4, 5, 9, 8]),
        with("a corner at the start", [4, -3, 9, 0]),
        with("a corner at the end", [4, 6, 9, 8]),
        with("a tick before the start", [4, -3, 9, -1]),
        with("a tick behind the end", [4, 7, 9, 8]),
        with("a gap of a tick", [5, 1, 9, 4]),
        with("an overlap of a tick", [3, 1, 9, 4]),
        with("the same line, from within", [2, 1, 4, 5]),
    ]
}

/// The longest borders, and borders of a tick at the corners of the field.
fn at_the_limits() -> Vec<(&'static str, Pair)> {
    const LOW: i64 = -COORDINATE;
    const HIGH: i64 = COORDINATE;
    const LONG: i64 = (1 << 32) + 1;
    let rest = [HIGH - 1, LOW, HIGH, HIGH];
    vec![
        ("halves of the field", ([LOW, LOW, 0, HIGH], [0, LOW, HIGH, HIGH])),
        ("a strip of a tick", ([LOW, LOW, HIGH - 1, HIGH], rest)),
        ("a tick at the field's start", ([LOW, LOW, HIGH - 1, LOW + 1], rest)),
        ("a tick at the field's end", ([LOW, HIGH - 1, HIGH - 1, HIGH], rest)),
        ("2^32 + 1 ticks", ([0, 0, 4, LONG], [4, 0, 9, LONG])),
    ]
}

/// Two squares side by side, one of which is changed so that it is no cell.
fn refused() -> Vec<Named> {
    let faults: [(&str, Fault); 10] = [
        ("x0 past the range", |rect| rect[0] = -COORDINATE - 1),
        ("y0 past the range", |rect| rect[1] = -COORDINATE - 1),
        ("x1 past the range", |rect| rect[2] = COORDINATE + 1),
        ("y1 past the range", |rect| rect[3] = COORDINATE + 1),
        ("the lowest number", |rect| rect[0] = i64::MIN),
        ("the highest number", |rect| rect[3] = i64::MAX),
        ("no width", |rect| rect[2] = rect[0]),
        ("no height", |rect| rect[3] = rect[1]),
        ("the width turned", |rect| rect[2] = rect[0] - 1),
        ("the height turned", |rect| rect[3] = rect[1] - 1),
    ];
    let mut list = Vec::new();
    for (what, put) in faults {
        for which in ["first", "second"] {
            let mut pair = ([0, 0, 4, 4], [4, 0, 8, 4]);
            put(if which == "first" { &mut pair.0 } else { &mut pair.1 });
            list.push((format!("contact, the {which}: {what}"), pair));
        }
    }
    list
}
