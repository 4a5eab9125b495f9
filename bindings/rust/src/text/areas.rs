//! The lines of links whose ends may have an area: `barrel` behind a via, `at` before the place of a channel's end.

use super::form::senseless;
use super::linking::{channel_of, via_of};
use super::unit::Unit;
use super::Lines;
use crate::{Area, Footprint, OwnedLinks};
use std::collections::{BTreeMap, BTreeSet};

/// Takes a line `via`.
pub(super) fn take_via(
    links: &mut OwnedLinks,
    lines: &mut Lines,
    line: usize,
    words: &[&str],
) -> Result<(), String> {
    let (via, is_barrel) = match *words {
        [ref via @ .., "barrel"] => (via, true),
        ref via => (via, false),
    };
    let via = via_of(via, Unit(lines.pitch))?;
    if is_barrel {
        if !via.footprint.has_area() {
            return Err("a barrel has an area: half width and half height above 0".to_string());
        }
        let via = links.vias.len();
        links.areas.push(Area::Barrel { via });
    }
    links.vias.push(via);
    lines.vias.push(line);
    Ok(())
}

/// Takes a line `channel`.
pub(super) fn take_channel(
    links: &mut OwnedLinks,
    lines: &mut Lines,
    line: usize,
    words: &[&str],
) -> Result<(), String> {
    let unit = Unit(lines.pitch);
    let no_sense = || senseless(&[&["channel"], words].concat());
    let (drain, behind) = end_of(words).ok_or_else(no_sense)?;
    let (source, behind) = end_of(behind).ok_or_else(no_sense)?;
    let &[resistance] = behind else {
        return Err(no_sense());
    };
    let ([dx, dy], [sx, sy]) = (drain.place, source.place);
    let words = [
        drain.component,
        dx,
        dy,
        source.component,
        sx,
        sy,
        resistance,
    ];
    let own = channel_of(&words, unit)?;
    let channel = links.channels.len();
    for (end, is_drain) in [(drain, true), (source, false)] {
        if let Some(footprint) = end.footprint(unit)? {
            links.areas.push(match is_drain {
                true => Area::Drain { channel, footprint },
                false => Area::Source { channel, footprint },
            });
        }
    }
    links.channels.push(own);
    lines.channels.push(line);
    Ok(())
}

/// An end of a channel in words.
struct End<'a> {
    component: &'a str,
    place: [&'a str; 2],
    halves: Option<[&'a str; 2]>,
}

/// The first end, and the words behind it.
fn end_of<'a, 'b>(words: &'b [&'a str]) -> Option<(End<'a>, &'b [&'a str])> {
    let (component, place, halves, behind) = match words {
        [component, "at", x, y, w, h, behind @ ..] => (component, [*x, *y], Some([*w, *h]), behind),
        [component, x, y, behind @ ..] => (component, [*x, *y], None, behind),
        _ => return None,
    };
    let end = End {
        component,
        place,
        halves,
    };
    Some((end, behind))
}

impl End<'_> {
    fn footprint(&self, unit: Unit) -> Result<Option<Footprint>, String> {
        let Some([w, h]) = self.halves else {
            return Ok(None);
        };
        let [x, y] = self.place;
        let footprint = Footprint {
            x: unit.place(x)?,
            y: unit.place(y)?,
            half_width: unit.half(w)?,
            half_height: unit.half(h)?,
        };
        match footprint.has_area() {
            true => Ok(Some(footprint)),
            false => Err("a footprint has an area: half width and half height above 0".to_string()),
        }
    }
}

/// The areas of links, to be shown with them.
pub(super) struct Areas {
    barrels: BTreeSet<usize>,
    /// By channel, then 0 for the drain and 1 for the source.
    feet: BTreeMap<(usize, usize), Footprint>,
}

impl Areas {
    pub fn of(all: &[Area]) -> Self {
        let mut areas = Areas {
            barrels: BTreeSet::new(),
            feet: BTreeMap::new(),
        };
        for area in all {
            match *area {
                Area::Barrel { via } => {
                    areas.barrels.insert(via);
                }
                Area::Drain { channel, footprint } => {
                    areas.feet.insert((channel, 0), footprint);
                }
                Area::Source { channel, footprint } => {
                    areas.feet.insert((channel, 1), footprint);
                }
            }
        }
        areas
    }

    /// What stands behind a via's line.
    pub fn behind_via(&self, via: usize) -> &'static str {
        match self.barrels.contains(&via) {
            true => " barrel",
            false => "",
        }
    }

    /// The place of a channel's end, in ticks.
    pub fn place(&self, channel: usize, end: usize, [x, y]: [i64; 2]) -> String {
        match self.feet.get(&(channel, end)) {
            Some(own) => format!(
                "at {} {} {} {}",
                own.x, own.y, own.half_width, own.half_height
            ),
            None => format!("{x} {y}"),
        }
    }
}
