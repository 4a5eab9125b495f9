//! The line of a terminal.

use super::drive::{self, drive_of};
use super::form::senseless;
use super::linking::polygon;
use super::unit::{component, layer, Unit};
use crate::solving::{Drive, Spot, Terminal};
use crate::{Rect, Side};
use std::fmt::{self, Write};

fn word_of(side: Side) -> &'static str {
    match side {
        Side::South => "south",
        Side::East => "east",
        Side::North => "north",
        Side::West => "west",
    }
}

fn side_of(word: &str) -> Option<Side> {
    let sides = [Side::South, Side::East, Side::North, Side::West];
    sides.into_iter().find(|&side| word_of(side) == word)
}

/// What stands behind `terminal`.
pub(super) fn terminal_of(words: &[&str], unit: Unit) -> Result<Terminal, String> {
    let no_sense = || senseless(&[&["terminal"], words].concat());
    let [name, value, kind, spot @ ..] = words else {
        let stuck = words.get(1).and_then(|value| drive::way_out(value, ""));
        return Err(stuck.unwrap_or_else(no_sense));
    };
    let Some(drive) = drive_of(value, kind)? else {
        return Err(drive::way_out(value, kind).unwrap_or_else(no_sense));
    };
    Ok(Terminal {
        name: name.to_string(),
        spot: spot_of(spot, unit)?.ok_or_else(no_sense)?,
        drive,
    })
}

/// None where the words make no sense.
fn spot_of(words: &[&str], unit: Unit) -> Result<Option<Spot>, String> {
    let spot = match *words {
        ["end", on, of, to] => {
            let Some(side) = side_of(to) else {
                return Ok(None);
            };
            Spot::End {
                layer: layer(on)?,
                component: component(of)?,
                side,
            }
        }
        [kind @ ("edge" | "rect"), on, of, x0, y0, x1, y1] => {
            let rect = unit.rect([x0, x1], [y0, y1])?;
            judge_shape(kind == "edge", rect)?;
            Spot::Rect {
                layer: layer(on)?,
                component: component(of)?,
                rect,
            }
        }
        ["pad", number] => Spot::Pad {
            polygon: polygon(number)?,
        },
        _ => return Ok(None),
    };
    Ok(Some(spot))
}

/// Whether an edge is straight and longer than 0, and a rectangle has an area.
fn judge_shape(is_edge: bool, [x0, y0, x1, y1]: Rect) -> Result<(), String> {
    let thin = [x0 == x1, y0 == y1];
    let words = match (is_edge, thin) {
        (true, [true, true]) => "the edge has no length",
        (true, [false, false]) => "the edge is slanted: x0 = x1 or y0 = y1",
        (true, _) | (false, [false, false]) => return Ok(()),
        (false, _) => "the rectangle has no area: an edge may be so thin",
    };
    Err(words.to_string())
}

/// The line of a terminal, in ticks.
pub(super) fn put_terminal(terminal: &Terminal, text: &mut String) -> fmt::Result {
    let Terminal { name, spot, drive } = terminal;
    match drive {
        Drive::Volts(volts) => write!(text, "terminal {name} {volts:?} V ")?,
        Drive::Amperes(amperes) => write!(text, "terminal {name} {amperes:?} A ")?,
    }
    match *spot {
        Spot::End {
            layer,
            component,
            side,
        } => {
            writeln!(text, "end {layer} {component} {}", word_of(side))
        }
        Spot::Rect {
            layer,
            component,
            rect: [x0, y0, x1, y1],
        } => {
            let kind = if x0 == x1 || y0 == y1 { "edge" } else { "rect" };
            writeln!(text, "{kind} {layer} {component} {x0} {y0} {x1} {y1}")
        }
        Spot::Pad { polygon } => writeln!(text, "pad {polygon}"),
    }
}
