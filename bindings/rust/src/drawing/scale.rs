//! Logarithmic scales, their colours, and the bar that shows them.

use super::figures::figures;
use super::layout::MARGIN;
use super::svg::put_words;
use std::fmt::{self, Write};

/// From the least to the largest value: ever lighter, and the lightest far from white and from the board.
const HEAT: [[f64; 3]; 7] = [
    [12.0, 8.0, 60.0],
    [75.0, 12.0, 107.0],
    [137.0, 34.0, 106.0],
    [193.0, 58.0, 80.0],
    [233.0, 100.0, 38.0],
    [249.0, 158.0, 20.0],
    [255.0, 221.0, 64.0],
];

/// The range of values that colours tell apart.
#[derive(Clone, Copy, Debug, PartialEq)]
pub struct Scale {
    least: f64,
    most: f64,
    /// Whether there are values below the least one.
    clipped: bool,
}

/// How deep a scale goes, as shares of its largest value.
#[derive(Clone, Copy, Debug)]
pub struct Depth {
    /// No deeper, whatever the values.
    pub most: f64,
    /// At least so deep, so that values that are nearly the same have nearly the same colour.
    pub least: f64,
}

/// That of power density, and of a caller's own values.
pub const DEPTH: Depth = Depth {
    most: 1e-6,
    least: 0.1,
};

impl Scale {
    /// Down to the least value above 0, within the depth; all 0 where nothing is above 0.
    pub fn of(values: impl Iterator<Item = f64> + Clone, depth: Depth) -> Self {
        let is_above = |value: &f64| *value > 0.0 && value.is_finite();
        let above = || values.clone().filter(is_above);
        let most = above().fold(0.0, f64::max);
        let least = above().fold(depth.least * most, f64::min);
        let least = least.max(depth.most * most);
        Scale {
            least,
            most,
            clipped: values.clone().any(|value| value < least),
        }
    }

    /// The scale of what another quantity is where this one is so much.
    pub fn by(self, other: impl Fn(f64) -> f64) -> Self {
        Scale {
            least: other(self.least),
            most: other(self.most),
            ..self
        }
    }

    /// Where a value stands, from 0 to 1.
    fn share(self, value: f64) -> f64 {
        if value.is_nan() || value <= self.least {
            return 0.0;
        }
        let all = (self.most / self.least).ln();
        ((value / self.least).ln() / all).clamp(0.0, 1.0)
    }

    pub fn colour(self, value: f64) -> String {
        heat(self.share(value))
    }

    /// Both ends, and round values that stand clear of them and of one another, powers of ten first.
    fn ticks(self) -> Vec<f64> {
        if self.most <= 0.0 {
            return vec![0.0];
        }
        let mut ticks = vec![self.least];
        if self.most > self.least {
            ticks.push(self.most);
        }
        let first = if self.clipped { WORDY } else { CLEAR };
        let lowest = self.least.log10().floor() as i32;
        let highest = self.most.log10().floor() as i32;
        for times in [1.0, 5.0, 2.0] {
            for power in lowest..=highest {
                let value = times * 10_f64.powi(power);
                let share = self.share(value);
                let is_clear = |&other: &f64| (share - self.share(other)).abs() > CLEAR;
                let is_inside = self.least < value && value < self.most && share > first;
                if is_inside && ticks.iter().all(is_clear) {
                    ticks.push(value);
                }
            }
        }
        ticks
    }

    fn words(self, tick: f64) -> String {
        let words = figures(tick);
        match self.clipped && tick <= self.least {
            true => format!("{words} and less"),
            false => words,
        }
    }
}

/// Between ticks, as shares of the bar; and behind a first one with more words.
const CLEAR: f64 = 0.12;
const WORDY: f64 = 0.28;

fn heat(share: f64) -> String {
    let at = share * (HEAT.len() - 1) as f64;
    let from = (at as usize).min(HEAT.len() - 2);
    let mix = |channel: usize| {
        let (a, b) = (HEAT[from][channel], HEAT[from + 1][channel]);
        (a + (b - a) * (at - from as f64)).round() as u8
    };
    format!("#{:02x}{:02x}{:02x}", mix(0), mix(1), mix(2))
}

/// A scale as it stands beside the bar.
pub struct Marked {
    pub scale: Scale,
    pub unit: &'static str,
}

const BAR: f64 = 480.0;
const HIGH: f64 = 16.0;
/// A tick goes so far into the bar and out of it.
const STROKE: f64 = 5.0;
/// Of a line of the bar's words.
const LINE: f64 = 20.0;

/// The bar, one scale below it and another one above, if there is one. Answers where its words end.
pub fn put_bar(
    below: &Marked,
    above: Option<&Marked>,
    y: f64,
    text: &mut String,
) -> Result<f64, fmt::Error> {
    let top = y + above.map_or(0.0, |_| LINE);
    put_gradient(text)?;
    writeln!(
        text,
        "<rect x=\"{MARGIN}\" y=\"{top:.2}\" width=\"{BAR}\" height=\"{HIGH}\" fill=\"url(#heat)\"/>"
    )?;
    if let Some(above) = above {
        put_ticks(above, [top + STROKE, -2.0 * STROKE], top - 8.0, text)?;
    }
    let bottom = top + HIGH;
    put_ticks(below, [bottom - STROKE, 2.0 * STROKE], bottom + 17.0, text)?;
    Ok(bottom + 17.0)
}

/// All colours, from the least value's to the largest one's.
fn put_gradient(text: &mut String) -> fmt::Result {
    write!(text, "<linearGradient id=\"heat\">")?;
    let last = HEAT.len() - 1;
    for stop in 0..=last {
        let share = stop as f64 / last as f64;
        let colour = heat(share);
        write!(
            text,
            "<stop offset=\"{share:.4}\" stop-color=\"{colour}\"/>"
        )?;
    }
    writeln!(text, "</linearGradient>")
}

/// Strokes from one height so far down, words at another one.
fn put_ticks(
    marked: &Marked,
    [from, down]: [f64; 2],
    words: f64,
    text: &mut String,
) -> fmt::Result {
    let Marked { scale, unit } = marked;
    for tick in scale.ticks() {
        let x = MARGIN + BAR * scale.share(tick);
        writeln!(
            text,
            "<path d=\"M{x:.2} {from:.2}v{down:.2}\" stroke=\"#000000\"/>"
        )?;
        let anchor = if x < MARGIN + 20.0 { "start" } else { "middle" };
        let anchor = format!(" text-anchor=\"{anchor}\"");
        put_words([x, words], &anchor, &scale.words(tick), text)?;
    }
    if unit.is_empty() {
        return Ok(());
    }
    put_words([MARGIN + BAR + 34.0, words], "", unit, text)
}

#[cfg(test)]
mod tests {
    use super::*;

    fn scale(values: &[f64]) -> Scale {
        Scale::of(values.iter().copied(), DEPTH)
    }

    #[test]
    fn a_scale_has_its_ends_and_round_values() {
        let wide = scale(&[3e-3, 40.0]);
        assert_eq!(wide.ticks(), [3e-3, 40.0, 1e-2, 1e-1, 1.0, 10.0]);
        assert_eq!(scale(&[0.5, 6.0]).ticks(), [0.5, 6.0, 1.0, 2.0]);
        assert_eq!(scale(&[0.0, f64::NAN]).ticks(), [0.0]);
        assert_eq!(scale(&[]).ticks(), [0.0]);
    }

    #[test]
    fn a_scale_goes_no_deeper_than_its_share() {
        let deep = scale(&[0.0, 1e-20, 1e-3, 1.0]);
        assert_eq!((deep.least, deep.most, deep.clipped), (1e-6, 1.0, true));
        assert_eq!(deep.words(1e-6), "1e-6 and less");
        assert_eq!(
            [1e-20, 1e-3, 2.0].map(|value| deep.share(value)),
            [0.0, 0.5, 1.0]
        );
    }

    #[test]
    fn values_that_are_nearly_the_same_have_nearly_the_same_colour() {
        let even = scale(&[20.0, 20.0 - 1e-12, 19.9]);
        assert_eq!(even.ticks(), [2.0, 20.0, 10.0, 5.0]);
        assert!(!even.clipped && even.share(20.0) == 1.0 && even.share(19.9) > 0.99);
    }

    #[test]
    fn a_quantity_that_goes_with_another_has_the_same_shares() {
        let scale = scale(&[1e-4, 1.0, 0.04]);
        let other = scale.by(f64::sqrt);
        assert!((scale.share(0.04) - other.share(0.2)).abs() < 1e-12);
    }
}
