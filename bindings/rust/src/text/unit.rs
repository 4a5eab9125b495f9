//! Numbers of a text, each refused in words: of which unit it is, and in which range.

use crate::limits::{HALF, RESISTANCE_HIGH, RESISTANCE_LOW};
use crate::tool::digits;
use crate::{Pitch, Point, Rect, COORDINATE};
use std::fmt::Display;
use std::ops::RangeInclusive;
use std::str::FromStr;

/// The unit of a text's lengths: millimetres on a pitch, or ticks where there is none.
#[derive(Clone, Copy, Debug)]
pub(super) struct Unit(pub Option<Pitch>);

impl Unit {
    /// A length in ticks; of a text with a pitch a multiple of it.
    pub fn length(self, name: &str, word: &str, range: RangeInclusive<i64>) -> Result<i64, String> {
        let Some(pitch) = self.0 else {
            return ticks(name, word, range);
        };
        let fitting = pitch.ticks(finite(name, word)?);
        self.in_range(name, word, fitting.map_err(|why| why.to_string())?, range)
    }

    /// A coordinate that needn't be on the pitch: the nearest tick.
    pub fn place(self, word: &str) -> Result<i64, String> {
        self.nearest("coordinate", word, -COORDINATE..=COORDINATE)
    }

    /// Half the size of a footprint: the nearest tick.
    pub fn half(self, word: &str) -> Result<i64, String> {
        if word.starts_with('-') && finite("half size", word)? < 0.0 {
            return Err(format!("half size {} is below 0", cut(word)));
        }
        self.nearest("half size", word, 0..=HALF)
    }

    fn nearest(self, name: &str, word: &str, range: RangeInclusive<i64>) -> Result<i64, String> {
        let Some(pitch) = self.0 else {
            return ticks(name, word, range);
        };
        let nearest = pitch.nearest_tick(finite(name, word)?);
        self.in_range(name, word, nearest.map_err(|why| why.to_string())?, range)
    }

    fn in_range(
        self,
        name: &str,
        word: &str,
        ticks: i64,
        range: RangeInclusive<i64>,
    ) -> Result<i64, String> {
        if range.contains(&ticks) {
            return Ok(ticks);
        }
        let [low, high] = [range.start(), range.end()].map(|&end| self.show(end));
        Err(format!(
            "{name} {} is out of range: {low} to {high}",
            cut(word)
        ))
    }

    /// A rectangle by any two of its opposite corners; it may be thin.
    pub fn rect(self, x: [&str; 2], y: [&str; 2]) -> Result<Rect, String> {
        let [ax, bx, ay, by] = [x[0], x[1], y[0], y[1]].map(|word| self.place(word));
        let (ax, ay, bx, by) = (ax?, ay?, bx?, by?);
        Ok([ax.min(bx), ay.min(by), ax.max(bx), ay.max(by)])
    }

    /// A length as the text would say it, with its unit.
    pub fn show(self, ticks: i64) -> String {
        match self.0 {
            Some(pitch) => format!("{} mm", pitch.short(ticks)),
            None => format!("{ticks} ticks"),
        }
    }

    /// What a base cell's side is a multiple of: in ticks, also where the text is in millimetres.
    pub fn show_step(self, step: u64) -> String {
        match self.0 {
            Some(_) => format!("{}, {step} ticks", self.show(step as i64)),
            None => format!("{step} ticks"),
        }
    }

    /// How far apart two places are, with six figures and the unit.
    pub fn show_distance(self, ticks: f64) -> String {
        match self.0 {
            Some(pitch) => format!("{} mm", digits(ticks * pitch.millimetres(1))),
            None => format!("{} ticks", digits(ticks)),
        }
    }

    /// Lengths as a line of the text has them, parted by blanks.
    pub fn words(self, all: &[i64]) -> String {
        let word = |&ticks: &i64| match self.0 {
            Some(pitch) => pitch.short(ticks).to_string(),
            None => ticks.to_string(),
        };
        all.iter().map(word).collect::<Vec<_>>().join(" ")
    }

    /// Width and height as the text would say them, with their unit.
    pub fn show_size(self, [width, height]: [i64; 2]) -> String {
        match self.0 {
            Some(pitch) => format!("{} by {} mm", pitch.short(width), pitch.short(height)),
            None => format!("{width} by {height} ticks"),
        }
    }

    /// A place as the text would say it.
    pub fn show_point(self, [x, y]: Point) -> String {
        match self.0 {
            Some(pitch) => format!("({} mm, {} mm)", pitch.short(x), pitch.short(y)),
            None => format!("({x}, {y})"),
        }
    }
}

/// A whole number of ticks.
fn ticks(name: &str, word: &str, range: RangeInclusive<i64>) -> Result<i64, String> {
    let is_decimal = word.contains('.') && word.parse::<f64>().is_ok_and(f64::is_finite);
    if is_decimal {
        let words = "a length with a point needs a pitch in front: lengths are in ticks";
        return Err(format!("{name} {}: {words}", cut(word)));
    }
    whole(name, word, range)
}

/// A whole number in its range.
pub(super) fn whole<T>(name: &str, word: &str, range: RangeInclusive<T>) -> Result<T, String>
where
    T: FromStr + PartialOrd + Display,
{
    match word.parse() {
        Ok(value) if range.contains(&value) => Ok(value),
        Ok(_) => Err(out_of_range(name, word, &range)),
        Err(_) if is_whole(word) => Err(out_of_range(name, word, &range)),
        Err(_) => Err(format!("{name} {} is no whole number", quoted(word))),
    }
}

/// Whether a word is a whole number of any size.
fn is_whole(word: &str) -> bool {
    let digits = word.strip_prefix(['+', '-']).unwrap_or(word);
    !digits.is_empty() && digits.bytes().all(|byte| byte.is_ascii_digit())
}

/// A number that is neither NaN nor infinite.
pub(super) fn finite(name: &str, word: &str) -> Result<f64, String> {
    let why = match word.parse::<f64>() {
        Ok(value) if value.is_finite() => return Ok(value),
        Ok(_) => "is no finite number",
        Err(_) if word.contains(',') => "is no number: the decimal sign is a point",
        Err(_) => "is no number",
    };
    Err(format!("{name} {} {why}", quoted(word)))
}

/// A resistance, of a sheet or of a link, in ohms.
pub(super) fn ohms(name: &str, word: &str) -> Result<f64, String> {
    let value = finite(name, word)?;
    if (RESISTANCE_LOW..=RESISTANCE_HIGH).contains(&value) {
        return Ok(value);
    }
    Err(format!(
        "{name} {} is out of range: 2^-40 to 2^40",
        cut(word)
    ))
}

pub(super) fn layer(word: &str) -> Result<u16, String> {
    whole("layer", word, 0..=u16::MAX)
}

pub(super) fn component(word: &str) -> Result<u32, String> {
    whole("component", word, 0..=u32::MAX)
}

fn out_of_range<T: Display>(name: &str, word: &str, range: &RangeInclusive<T>) -> String {
    let (low, high) = (range.start(), range.end());
    format!("{name} {} is out of range: {low} to {high}", cut(word))
}

/// The most characters of a text that a refusal repeats.
const REPEATED: usize = 60;

/// A part of the text, without its end where it is long.
pub(super) fn cut(words: &str) -> String {
    let mut shown: String = words.chars().take(REPEATED).collect();
    if shown.len() < words.len() {
        shown += "..";
    }
    shown
}

/// The same between quotes.
pub(super) fn quoted(words: &str) -> String {
    format!("\"{}\"", cut(words).escape_debug())
}

/// A number with a comma before each three digits.
pub(super) fn grouped(number: usize) -> String {
    let digits = number.to_string();
    let mut shown = String::new();
    for (at, digit) in digits.char_indices() {
        if at > 0 && (digits.len() - at) % 3 == 0 {
            shown.push(',');
        }
        shown.push(digit);
    }
    shown
}

#[cfg(test)]
mod tests {
    use super::*;

    #[test]
    fn numbers_are_grouped_by_threes() {
        let shown = [0, 999, 1_000, 16_384, 1_234_567].map(grouped);
        assert_eq!(shown, ["0", "999", "1,000", "16,384", "1,234,567"]);
    }

    #[test]
    fn long_words_are_cut_and_control_characters_shown() {
        assert_eq!(quoted("a\u{7}b"), "\"a\\u{7}b\"");
        assert_eq!(quoted(&"é".repeat(61)), format!("\"{}..\"", "é".repeat(60)));
        assert_eq!(quoted(&"é".repeat(60)), format!("\"{}\"", "é".repeat(60)));
    }
}
