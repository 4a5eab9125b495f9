//! The lines of sheet resistances by place and temperature.

use super::form::senseless;
use super::reading::once;
use super::unit::{cut, finite, grouped, layer, Unit};
use super::{Lines, Warning};
use crate::{SheetRegion, Sheets, Temperature};
use std::fmt::{self, Write};

/// The most rectangles of a text.
const REGIONS: usize = 4_096;
/// The largest factor, and one over the smallest.
const FACTOR: f64 = 1_048_576.0;
/// In degrees Celsius: the least there is, and far above what a board stands.
const CELSIUS: [f64; 2] = [-273.15, 1_000.0];
/// A kelvin, up and down.
const COEFFICIENT: f64 = 1.0;

/// Takes a line `sheet` or `temperature`.
pub(super) fn take(
    sheets: &mut Sheets,
    lines: &mut Lines,
    line: usize,
    words: &[&str],
) -> Result<(), String> {
    let unit = Unit(lines.pitch);
    match *words {
        ["sheet", ref region @ ..] => {
            let region = region_of(region, unit)?.ok_or_else(|| senseless(words))?;
            if sheets.regions.len() == REGIONS {
                return Err(format!("more than {} rectangles", grouped(REGIONS)));
            }
            sheets.regions.push(region);
            lines.sheets.push(line);
        }
        ["temperature", celsius, ref coefficient @ ..] if coefficient.len() < 2 => {
            once("temperature", &mut lines.temperature, line)?;
            sheets.temperature = Some(temperature_of(celsius, coefficient.first().copied())?);
        }
        _ => return Err(senseless(words)),
    }
    Ok(())
}

/// None where the words make no sense.
fn region_of(words: &[&str], unit: Unit) -> Result<Option<SheetRegion>, String> {
    let [x0, y0, x1, y1, factor, ref on @ ..] = *words else {
        return Ok(None);
    };
    let on = match *on {
        [] => None,
        [on] => Some(layer(on)?),
        _ => return Ok(None),
    };
    let rect = unit.rect([x0, x1], [y0, y1])?;
    if rect[0] == rect[2] || rect[1] == rect[3] {
        return Err("the rectangle has no area".to_string());
    }
    let factor = within("factor", factor, [1.0 / FACTOR, FACTOR], "2^-20 to 2^20")?;
    Ok(Some(SheetRegion {
        rect,
        factor,
        layer: on,
    }))
}

fn temperature_of(celsius: &str, coefficient: Option<&str>) -> Result<Temperature, String> {
    let [low, high] = CELSIUS;
    let mut own = Temperature::of_copper(within(
        "temperature",
        celsius,
        CELSIUS,
        &format!("{low} to {high} degrees Celsius"),
    )?);
    if let Some(word) = coefficient {
        let range = [-COEFFICIENT, COEFFICIENT];
        own.coefficient = within("coefficient", word, range, "-1 to 1 a kelvin")?;
    }
    if own.factor() <= 0.0 {
        return Err(format!(
            "at {} degrees a coefficient of {} leaves no resistance: r_sheet is that at {}",
            own.celsius,
            own.coefficient,
            Temperature::REFERENCE
        ));
    }
    Ok(own)
}

fn within(name: &str, word: &str, [low, high]: [f64; 2], range: &str) -> Result<f64, String> {
    let value = finite(name, word)?;
    match (low..=high).contains(&value) {
        true => Ok(value),
        false => Err(format!("{name} {} is out of range: {range}", cut(word))),
    }
}

/// What a record leaves out of them.
pub(super) fn left_out(lines: &Lines) -> impl Iterator<Item = Warning> {
    let kinds = [
        (lines.sheets.first(), "a record has no r_sheet by place"),
        (lines.temperature.as_ref(), "a record has no temperature"),
    ];
    let warning = |(line, words): (Option<&usize>, &str)| {
        let (line, words) = (*line?, words.to_string());
        Some(Warning { line, words })
    };
    kinds.map(warning).into_iter().flatten()
}

/// Their lines, in ticks.
pub(super) fn put(sheets: &Sheets, text: &mut String) -> fmt::Result {
    for SheetRegion {
        rect: [x0, y0, x1, y1],
        factor,
        layer,
    } in &sheets.regions
    {
        write!(text, "sheet {x0} {y0} {x1} {y1} {factor:?}")?;
        match layer {
            Some(layer) => writeln!(text, " {layer}")?,
            None => writeln!(text)?,
        }
    }
    match sheets.temperature {
        Some(Temperature {
            celsius,
            coefficient,
        }) => writeln!(text, "temperature {celsius:?} {coefficient:?}"),
        None => Ok(()),
    }
}
