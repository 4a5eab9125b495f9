//! The links of a net as they are lent: contacts, vias and channels; when they are in range, and what the original is
//! handed for them.

use crate::limits::{coordinate_in_range, resistance_in_range, HALF};
use crate::sheets::LayerNames;
use crate::ticks::metres;
use original::geometry::Point;
use original::sheet::{SheetChannel, SheetVia};

/// Two polygon numbers, any.
#[derive(Clone, Copy, Debug, PartialEq, Eq)]
pub struct Contact {
    pub from: usize,
    pub to: usize,
}

/// Centre and half sizes, in ticks.
#[derive(Clone, Copy, Debug, PartialEq, Eq)]
pub struct Footprint {
    pub x: i64,
    pub y: i64,
    pub half_width: i64,
    pub half_height: i64,
}

#[derive(Clone, Copy, Debug, PartialEq)]
pub struct Via {
    pub bottom: u16,
    pub top: u16,
    pub component: u32,
    pub footprint: Footprint,
    pub resistance: f64,
}

#[derive(Clone, Copy, Debug, PartialEq, Eq)]
pub struct Terminal {
    pub component: u32,
    pub x: i64,
    pub y: i64,
}

#[derive(Clone, Copy, Debug, PartialEq)]
pub struct Channel {
    pub drain: Terminal,
    pub source: Terminal,
    pub resistance: f64,
}

#[derive(Clone, Debug, Default, PartialEq)]
pub struct Links {
    pub contacts: Vec<Contact>,
    pub vias: Vec<Via>,
    pub channel_layer: u16,
    pub channels: Vec<Channel>,
}

impl Footprint {
    pub fn point(x: i64, y: i64) -> Self {
        Footprint { x, y, half_width: 0, half_height: 0 }
    }

    fn in_range(&self) -> bool {
        let half = 0..=HALF;
        coordinate_in_range(self.x)
            && coordinate_in_range(self.y)
            && half.contains(&self.half_width)
            && half.contains(&self.half_height)
    }
}

impl Via {
    fn in_range(&self) -> bool {
        self.footprint.in_range() && resistance_in_range(self.resistance)
    }

    fn to_original(self, names: LayerNames) -> SheetVia {
        let Footprint { x, y, half_width, half_height } = self.footprint;
        SheetVia {
            bottom: names.of(self.bottom),
            top: names.of(self.top),
            center: Point { x: metres(x), y: metres(y) },
            resistance: self.resistance,
            component: self.component as usize,
            half_width: metres(half_width),
            half_height: metres(half_height),
        }
    }
}

impl Terminal {
    fn in_range(&self) -> bool {
        coordinate_in_range(self.x) && coordinate_in_range(self.y)
    }

    fn to_original(self) -> Point {
        Point { x: metres(self.x), y: metres(self.y) }
    }
}

impl Channel {
    fn in_range(&self) -> bool {
        self.drain.in_range() && self.source.in_range() && resistance_in_range(self.resistance)
    }

    fn to_original(self) -> SheetChannel {
        SheetChannel {
            drain: self.drain.to_original(),
            source: self.source.to_original(),
            drain_component: self.drain.component as usize,
            source_component: self.source.component as usize,
            resistance: self.resistance,
        }
    }
}

impl Links {
    pub fn is_empty(&self) -> bool {
        self.contacts.is_empty() && self.vias.is_empty() && self.channels.is_empty()
    }

    /// Those that are skipped are judged too; the numbers of contacts have no range.
    pub fn in_range(&self) -> bool {
        self.vias.iter().all(Via::in_range) && self.channels.iter().all(Channel::in_range)
    }

    pub fn contacts_to_original(&self) -> Vec<(usize, usize)> {
        self.contacts.iter().map(|contact| (contact.from, contact.to)).collect()
    }

    pub fn vias_to_original(&self, names: LayerNames) -> Vec<SheetVia> {
        self.vias.iter().map(|via| via.to_original(names)).collect()
    }

    pub fn channels_to_original(&self) -> Vec<SheetChannel> {
        self.channels.iter().map(|channel| channel.to_original()).collect()
    }
}
