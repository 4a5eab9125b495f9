//! Points that are on no pitch: the largest pitch that fits them all, and the nearest places that fit one.

use super::unit::finite;
use super::Unclear;
use crate::{Pitch, Why};

/// A text whose lengths are multiples of another pitch.
#[derive(Clone, Debug, PartialEq)]
pub struct Snapped {
    /// The text, with that pitch in its line `pitch`.
    pub text: String,
    /// What was moved, in the text's order.
    pub moves: Vec<Move>,
}

/// A line whose lengths were no multiples.
#[derive(Clone, Debug, PartialEq)]
pub struct Move {
    /// Counted from 1.
    pub line: usize,
    /// Its lengths in millimetres: x and y of a point, or the cell of a layer.
    pub from: Vec<f64>,
    /// What they are now.
    pub to: Vec<f64>,
}

/// A length past this many millimetres is in no range.
const MOST: f64 = 1e6;

/// How far from a multiple a length may lie, in pitches.
const SLACK: f64 = 1e-6;

/// A text in millimetres with its points and its layers' cells at the nearest multiples of a pitch, which becomes the
/// text's. Links, terminals and what is refined or split stay: they needn't be multiples.
///
/// ```
/// let text = "pitch 0.5\npolygon 1 0 0.0005\n0 0\n4.1 0\n4.1 2\n0 2\n";
/// let snapped = leafmesh::text::snap(text, 0.25)?;
/// assert_eq!(snapped.text, "pitch 0.25\npolygon 1 0 0.0005\n0 0\n4 0\n4 2\n0 2\n");
/// assert_eq!(snapped.moves.len(), 2);
/// assert_eq!(snapped.moves[0].to_string(), "line 4: (4.1 mm, 0 mm) is moved to (4 mm, 0 mm)");
/// # Ok::<(), leafmesh::text::Unclear>(())
/// ```
///
/// # Errors
///
/// A text whose lengths are in ticks, by the first line that has one; a number that is none.
pub fn snap(text: &str, pitch: f64) -> Result<Snapped, Unclear> {
    let mut lines: Vec<String> = Vec::new();
    let mut moves = Vec::new();
    let mut is_in_millimetres = false;
    let text = text.strip_prefix('\u{feff}').unwrap_or(text);
    for (number, line) in (1..).zip(text.lines()) {
        let (meant, comment) = line.split_at(line.find('#').unwrap_or(line.len()));
        let words: Vec<&str> = meant.split_whitespace().collect();
        let (head, lengths) = match lengths_of(&words) {
            Lengths::None => {
                lines.push(line.to_string());
                continue;
            }
            Lengths::Pitch => {
                is_in_millimetres = true;
                lines.push(with_comment(format!("pitch {pitch}"), comment));
                continue;
            }
            Lengths::Of(head, lengths) => (head, lengths),
        };
        let line_of = |words: String| Unclear {
            line: Some(number),
            words,
        };
        if !is_in_millimetres {
            let words = "--snap moves points of a text in millimetres: a line `pitch MM` stands in front of its \
                         lengths";
            return Err(line_of(words.to_string()));
        }
        let from: Result<Vec<f64>, String> =
            lengths.iter().map(|word| finite("length", word)).collect();
        let from = from.map_err(line_of)?;
        let to: Vec<f64> = from
            .iter()
            .map(|&length| nearest(length, pitch, !head.is_empty()))
            .collect();
        // What is far out of range is left to be refused.
        if from.iter().any(|length| length.abs() > MOST) {
            lines.push(line.to_string());
            continue;
        }
        let is_moved = |(from, to): (&f64, &f64)| (from - to).abs() > SLACK * pitch;
        if from.iter().zip(&to).any(is_moved) {
            let all: Vec<String> = to.iter().map(f64::to_string).collect();
            let words = [&head[..], &[&all.join(" ")]].concat().join(" ");
            lines.push(with_comment(words, comment));
            moves.push(Move {
                line: number,
                from,
                to,
            });
        } else {
            lines.push(line.to_string());
        }
    }
    let end = if text.contains("\r\n") { "\r\n" } else { "\n" };
    lines.push(String::new());
    Ok(Snapped {
        text: lines.join(end),
        moves,
    })
}

/// What a line has of lengths that are to be multiples of the pitch.
enum Lengths<'a> {
    None,
    /// The pitch itself.
    Pitch,
    /// Behind these words.
    Of(Vec<&'a str>, Vec<&'a str>),
}

fn lengths_of<'a>(words: &[&'a str]) -> Lengths<'a> {
    match *words {
        ["pitch", _] => Lengths::Pitch,
        ["layer", layer, cell] => Lengths::Of(vec!["layer", layer], vec![cell]),
        [x, y] if x.parse::<f64>().is_ok() => Lengths::Of(Vec::new(), vec![x, y]),
        _ => Lengths::None,
    }
}

/// The nearest multiple of a pitch; a cell that isn't 0, which stands for the pitch, stays a cell.
fn nearest(length: f64, pitch: f64, is_cell: bool) -> f64 {
    let pitches = (length / pitch).round();
    let pitches = if is_cell && length > 0.0 {
        pitches.max(1.0)
    } else {
        pitches
    };
    rounded(pitches * pitch)
}

/// Without the digits that decimal fractions leave behind, and without -0.
fn rounded(millimetres: f64) -> f64 {
    (millimetres * 1e9).round() / 1e9 + 0.0
}

fn with_comment(words: String, comment: &str) -> String {
    match comment {
        "" => words,
        _ => format!("{words} {comment}"),
    }
}

impl std::fmt::Display for Move {
    fn fmt(&self, f: &mut std::fmt::Formatter<'_>) -> std::fmt::Result {
        let Move { line, from, to } = self;
        match [from, to].map(|all| {
            all.iter()
                .map(|&length| rounded(length))
                .collect::<Vec<f64>>()
        }) {
            [from, to] if from.len() == 2 => write!(
                f,
                "line {line}: ({} mm, {} mm) is moved to ({} mm, {} mm)",
                from[0], from[1], to[0], to[1]
            ),
            [from, to] => write!(
                f,
                "line {line}: a cell of {} mm becomes one of {} mm",
                from[0], to[0]
            ),
        }
    }
}

/// A length of decimal fractions in units of this one.
const UNIT: f64 = 1e-9;

/// The largest pitch of which all points and cells of a text in millimetres are multiples, if there is one at this
/// level.
pub(super) fn largest_pitch(text: &str, level: u64) -> Option<f64> {
    let mut common: u64 = 0;
    for line in text.lines() {
        let meant = line.split('#').next().unwrap_or("");
        let words: Vec<&str> = meant.split_whitespace().collect();
        if let Lengths::Of(_, lengths) = lengths_of(&words) {
            for word in lengths {
                let units = word.parse::<f64>().ok()? / UNIT;
                if !units.is_finite() || units.abs() > 1e15 {
                    return None;
                }
                common = common_divisor(common, units.abs().round() as u64);
            }
        }
    }
    let pitch = common as f64 * UNIT;
    let fits = common > 0 && Pitch::new(pitch, level).is_ok();
    fits.then(|| (pitch / UNIT).round() / 1e9)
}

fn common_divisor(a: u64, b: u64) -> u64 {
    if b == 0 {
        return a;
    }
    common_divisor(b, a % b)
}

/// What to do about a line that is refused since a length is no multiple of the text's pitch; nothing of any other
/// line. Where the layer has cells of its own size, the nearest multiple of these is told, too.
pub(super) fn way_out(
    text: &str,
    why: &str,
    words: &[&str],
    pitch: Option<Pitch>,
    level: u64,
    cell: Option<(u64, i64)>,
) -> String {
    let (Some(pitch), Lengths::Of(head, lengths)) = (pitch, lengths_of(words)) else {
        return String::new();
    };
    let lengths = lengths.iter().filter_map(|word| word.parse::<f64>().ok());
    let misfits = lengths.filter_map(|length| pitch.ticks(length).err());
    let mut off = misfits.filter(|misfit| matches!(misfit.why, Why::OffPitch { .. }));
    let Some(misfit) = off.find(|misfit| misfit.to_string() == why) else {
        return String::new();
    };
    let mut ways = Vec::new();
    if let (Some((layer, cell)), true) = (cell, head.is_empty()) {
        let cell = pitch.short(cell);
        let nearest = nearest(misfit.given, cell, false);
        ways.push(format!(
            "by the cell of layer {layer}, {cell} mm, it is {nearest} mm"
        ));
    }
    let largest = largest_pitch(text, level);
    ways.extend(
        largest.map(|largest| format!("the largest pitch that fits all points is {largest} mm")),
    );
    ways.push(format!(
        "`--snap {}` moves points to the nearest multiples",
        pitch.short(pitch.target() as i64)
    ));
    format!("; {}", ways.join("; "))
}
