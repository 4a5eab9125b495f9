//! What a picture shows of borders: a line along each, the wider the longer, and its length where there is room for it.

use crate::TICK;
use std::fmt::{self, Write};

/// A border in a panel.
#[derive(Clone, Copy, Debug)]
pub struct Line {
    /// The leaves' ids, the lower one first.
    pub leaves: [usize; 2],
    /// In ticks.
    pub length: u64,
    /// West or south end, then the other one, in the picture.
    pub ends: [[f64; 2]; 2],
    /// The leaf that its length is written in, in the picture: x0, y0, x1, y1.
    pub leaf: [f64; 4],
    /// Whether the leaves are on two layers.
    pub across: bool,
}

impl Line {
    fn is_long(&self) -> bool {
        let [[ax, ay], [bx, by]] = self.ends;
        (bx - ax).hypot(by - ay) >= LEAST
    }
}

/// Colours that neither the levels nor the scale of values have.
const COLOUR: &str = "#00b050";
const COLOUR_ACROSS: &str = "#0096e6";
/// Around a number, so that it is seen on any cell.
const HALO: &str = "#ffffff";

/// The longest border has a line as wide as this share of it, and no wider than WIDEST.
const SHARE: f64 = 0.18;
const WIDEST: f64 = 7.0;
/// A line across layers is narrower by this much, so that one below it is seen.
const NARROW: f64 = 0.45;
/// What a line leaves out at either end, as a share of its border and at most: so it is seen where borders end.
const TRIMMED: f64 = 0.08;
const MOST_TRIMMED: f64 = 5.0;

/// How long a line of the legend is.
pub const SAMPLE: f64 = 28.0;

/// The shortest line that has a number.
const LEAST: f64 = 44.0;
/// The height of a number, and room for one of its letters.
const SIZE: f64 = 9.0;
const LETTER: f64 = 6.0;
/// Between a line and its number.
const CLEAR: f64 = 2.0;

/// How wide lines are, and in which unit lengths are told.
pub struct Scale {
    /// In ticks.
    longest: u64,
    widest: f64,
    in_ticks: bool,
}

impl Scale {
    /// From the lengths of all borders, and how many picture units a tick has.
    pub fn of(lengths: impl Iterator<Item = u64>, unit: f64) -> Self {
        let longest = lengths.max().unwrap_or(0);
        Scale {
            longest,
            widest: (SHARE * longest as f64 * unit).min(WIDEST),
            in_ticks: (longest as f64) * TICK < 1e-9,
        }
    }

    fn width(&self, length: u64, across: bool) -> f64 {
        let narrow = if across { NARROW } else { 1.0 };
        narrow * self.widest * length as f64 / self.longest as f64
    }

    /// Without its unit.
    fn number(&self, length: u64) -> String {
        if self.in_ticks {
            length.to_string()
        } else {
            millimetres(length)
        }
    }

    fn unit(&self) -> &'static str {
        if self.in_ticks {
            "ticks"
        } else {
            "mm"
        }
    }

    /// Borders as long as the longest, and a half and a quarter of it; and one across layers, if there is any.
    pub fn samples(&self, any_across: bool) -> Vec<Sample> {
        let lengths = [1, 2, 4].map(|part| self.longest / part);
        let mut samples: Vec<Sample> = lengths
            .into_iter()
            .filter(|&length| length > 0)
            .map(|length| Sample {
                length,
                across: false,
                words: format!("{} {}", self.number(length), self.unit()),
            })
            .collect();
        samples.extend(any_across.then(|| Sample {
            length: self.longest,
            across: true,
            words: format!("{} across layers", samples[0].words),
        }));
        samples
    }
}

/// A line of the legend.
pub struct Sample {
    length: u64,
    across: bool,
    /// What stands behind it.
    pub words: String,
}

/// Four digits.
fn millimetres(ticks: u64) -> String {
    let rounded = format!("{:.3e}", ticks as f64 * TICK * 1e3);
    match rounded.parse::<f64>() {
        Ok(number) if number >= 1e-4 => number.to_string(),
        _ => rounded,
    }
}

/// The lines, those across layers above the others, and above all the numbers.
pub fn put(lines: &[Line], scale: &Scale, text: &mut String) -> fmt::Result {
    let (across, within): (Vec<Line>, Vec<Line>) = lines.iter().partition(|line| line.across);
    put_lines(&within, scale, text)?;
    put_lines(&across, scale, text)?;
    writeln!(
        text,
        "<g font-size=\"{SIZE}\" text-anchor=\"middle\" stroke=\"{HALO}\" stroke-width=\"2\" paint-order=\"stroke\">"
    )?;
    let mut taken = Vec::new();
    for line in within.iter().chain(&across) {
        put_number(line, scale, &mut taken, text)?;
    }
    writeln!(text, "</g>")
}

fn put_lines(lines: &[Line], scale: &Scale, text: &mut String) -> fmt::Result {
    for line in lines {
        let [first, second] = line.leaves;
        let length = millimetres(line.length);
        put_line(line.ends, line.length, line.across, scale, text)?;
        writeln!(
            text,
            "<title>leaves {first} and {second}: {length} mm</title></path>"
        )?;
    }
    Ok(())
}

/// A path that is still open.
fn put_line(
    [[ax, ay], [bx, by]]: [[f64; 2]; 2],
    length: u64,
    across: bool,
    scale: &Scale,
    text: &mut String,
) -> fmt::Result {
    let drawn = (bx - ax).hypot(by - ay);
    let trimmed = (TRIMMED * drawn).min(MOST_TRIMMED);
    let [dx, dy] = [bx - ax, by - ay].map(|along| trimmed * along / drawn);
    let width = scale.width(length, across);
    let colour = if across { COLOUR_ACROSS } else { COLOUR };
    write!(
        text,
        "<path d=\"M{:.4} {:.4}L{:.4} {:.4}\" stroke=\"{colour}\" stroke-width=\"{width:.4}\"",
        ax + dx,
        ay + dy,
        bx - dx,
        by - dy
    )?;
    if across {
        // Four dashes and three gaps.
        let dash = (drawn - 2.0 * trimmed) / 7.0;
        write!(text, " stroke-dasharray=\"{dash:.4}\"")?;
    }
    write!(text, ">")
}

pub fn put_sample(
    [x, y]: [f64; 2],
    sample: &Sample,
    scale: &Scale,
    text: &mut String,
) -> fmt::Result {
    let ends = [[x, y], [x + SAMPLE, y]];
    put_line(ends, sample.length, sample.across, scale, text)?;
    writeln!(text, "</path>")
}

/// The length of a border beside the middle of its line, where there is room between the numbers that stand there.
fn put_number(
    line: &Line,
    scale: &Scale,
    taken: &mut Vec<[f64; 4]>,
    text: &mut String,
) -> fmt::Result {
    let number = scale.number(line.length);
    let aside = scale.width(line.length, line.across) / 2.0 + CLEAR;
    let own = beside_line(line, LETTER * number.len() as f64, aside);
    let is_inside = line.is_long() && covers(line.leaf, own);
    if !is_inside || taken.iter().any(|&other| overlap(own, other)) {
        return Ok(());
    }
    taken.push(own);
    let [x0, _, x1, y1] = own;
    let (x, y) = ((x0 + x1) / 2.0, y1 - 1.0);
    let fill = if line.across {
        COLOUR_ACROSS
    } else {
        "#000000"
    };
    writeln!(
        text,
        "<text x=\"{x:.2}\" y=\"{y:.2}\" fill=\"{fill}\">{number}</text>"
    )
}

/// Where a number stands: on the side of the line that the leaf is on.
fn beside_line(line: &Line, long: f64, aside: f64) -> [f64; 4] {
    let [[ax, ay], [bx, by]] = line.ends;
    let [west, _, _, south] = line.leaf;
    let (x, y) = ((ax + bx - long) / 2.0, (ay + by - SIZE) / 2.0);
    let [x, y] = match ay == by {
        true if south <= ay => [x, ay - aside - SIZE],
        true => [x, ay + aside],
        false if ax <= west => [ax + aside, y],
        false => [ax - aside - long, y],
    };
    [x, y, x + long, y + SIZE]
}

fn covers(a: [f64; 4], b: [f64; 4]) -> bool {
    a[0] <= b[0] && b[2] <= a[2] && a[1] <= b[1] && b[3] <= a[3]
}

fn overlap(a: [f64; 4], b: [f64; 4]) -> bool {
    a[0] < b[2] && b[0] < a[2] && a[1] < b[3] && b[1] < a[3]
}
