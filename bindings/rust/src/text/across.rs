//! The line of a straight line across copper.

use super::form::senseless;
use super::unit::{component, layer, Unit};
use crate::solving::{Across, Line};
use std::fmt::{self, Write};

/// What stands behind `across`: name, layer, component, and the line's ends.
pub(super) fn across_of(words: &[&str], unit: Unit) -> Result<Across, String> {
    let [name, on, of, x0, y0, x1, y1] = *words else {
        return Err(senseless(&[&["across"], words].concat()));
    };
    let rect = unit.rect([x0, x1], [y0, y1])?;
    let why = match [rect[0] == rect[2], rect[1] == rect[3]] {
        [true, true] => "the line has no length",
        [false, false] => "the line is slanted: x0 = x1 or y0 = y1",
        _ => {
            return Ok(Across {
                name: name.to_string(),
                line: Line {
                    layer: layer(on)?,
                    component: component(of)?,
                    rect,
                },
            })
        }
    };
    Err(why.to_string())
}

/// The line, in ticks.
pub(super) fn put_across(across: &Across, text: &mut String) -> fmt::Result {
    let Line {
        layer,
        component,
        rect: [x0, y0, x1, y1],
    } = across.line;
    let name = &across.name;
    writeln!(
        text,
        "across {name} {layer} {component} {x0} {y0} {x1} {y1}"
    )
}
