//! The lines of links.

use super::form::senseless;
use super::unit::{component, layer, ohms, whole, Unit};
use crate::{Channel, ChannelEnd, Contact, Footprint, Via};

/// What stands behind `contact`: two polygons by their numbers.
pub(super) fn contact_of(from: &str, to: &str) -> Result<Contact, String> {
    Ok(Contact {
        from: polygon(from)?,
        to: polygon(to)?,
    })
}

/// The number of a polygon, which may stand further down.
pub(super) fn polygon(word: &str) -> Result<usize, String> {
    whole("polygon", word, 0..=usize::MAX)
}

/// What stands behind `via`: layers, component, centre, half sizes and ohms.
pub(super) fn via_of(words: &[&str], unit: Unit) -> Result<Via, String> {
    let [bottom, top, of, x, y, half_width, half_height, resistance] = *words else {
        return Err(senseless(&[&["via"], words].concat()));
    };
    Ok(Via {
        bottom: layer(bottom)?,
        top: layer(top)?,
        component: component(of)?,
        footprint: Footprint {
            x: unit.place(x)?,
            y: unit.place(y)?,
            half_width: unit.half(half_width)?,
            half_height: unit.half(half_height)?,
        },
        resistance: ohms("resistance", resistance)?,
    })
}

/// What stands behind `channel`: component and place of drain and source, and ohms.
pub(super) fn channel_of(words: &[&str], unit: Unit) -> Result<Channel, String> {
    let [drain, dx, dy, source, sx, sy, resistance] = *words else {
        return Err(senseless(&[&["channel"], words].concat()));
    };
    let end = |of: &str, x: &str, y: &str| -> Result<ChannelEnd, String> {
        Ok(ChannelEnd {
            component: component(of)?,
            x: unit.place(x)?,
            y: unit.place(y)?,
        })
    };
    Ok(Channel {
        drain: end(drain, dx, dy)?,
        source: end(source, sx, sy)?,
        resistance: ohms("resistance", resistance)?,
    })
}
