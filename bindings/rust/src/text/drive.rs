//! What a terminal is held at: a number and its unit.

use super::unit::{cut, finite, quoted};
use crate::limits::{CURRENT, POTENTIAL};
use crate::solving::Drive;

/// Letters in front of a unit, and the power of ten that each stands for.
const PREFIXES: [(&str, i32); 9] = [
    ("k", 3),
    ("M", 6),
    ("m", -3),
    ("u", -6),
    ("\u{b5}", -6),
    ("\u{3bc}", -6),
    ("n", -9),
    ("c", -2),
    ("d", -1),
];

/// Nobody means less, in volts or amperes.
const LEAST: f64 = 1e-12;

/// A drive by its value and its unit, `V` or `A`; none of another word for the unit.
pub(super) fn drive_of(value: &str, unit: &str) -> Result<Option<Drive>, String> {
    let (drive, name, most) = match unit {
        "V" => (
            Drive::Volts(finite("potential", value)?),
            "potential",
            POTENTIAL,
        ),
        "A" => (
            Drive::Amperes(finite("current", value)?),
            "current",
            CURRENT,
        ),
        _ => return Ok(None),
    };
    if drive.is_in_range() {
        return Ok(Some(drive));
    }
    let value = cut(value);
    Err(format!("{name} {value} is out of range: -{most} to {most}"))
}

/// What to do about a value and a unit that aren't known: a unit with a letter in front, or stuck to its value.
pub(super) fn way_out(value: &str, unit: &str) -> Option<String> {
    let end = value
        .find(|c: char| c.is_alphabetic() && c != 'e' && c != 'E')
        .unwrap_or(value.len());
    let (number, stuck) = value.split_at(end);
    let number: f64 = number
        .parse()
        .ok()
        .filter(|number: &f64| number.is_finite())?;
    let (given, unit) = match stuck {
        "" => (format!("{} {}", cut(value), cut(unit)), unit),
        _ => (cut(value), stuck),
    };
    let (scaled, unit) = in_base_unit(number, unit)?;
    // One that is no drive, or has too many digits to be read, is none that was meant.
    if scaled != 0.0 && !(LEAST..=CURRENT).contains(&scaled.abs()) {
        return None;
    }
    Some(format!(
        "{}: a value and its unit are two words, volts as V or amperes as A: {scaled} {unit}",
        quoted(&given)
    ))
}

/// A number in volts or amperes.
fn in_base_unit(number: f64, unit: &str) -> Option<(f64, &'static str)> {
    let base = match unit.chars().last()? {
        'V' | 'v' => "V",
        'A' | 'a' => "A",
        _ => return None,
    };
    let prefix = &unit[..unit.len() - 1];
    let power = match prefix {
        "" => 0,
        _ => PREFIXES.iter().find(|(own, _)| *own == prefix)?.1,
    };
    // By a division where that is exact: 100 mA is 0.1 A.
    let scaled = match power {
        0.. => number * 10_f64.powi(power),
        _ => number / 10_f64.powi(-power),
    };
    Some((scaled, base))
}
