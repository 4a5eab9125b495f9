//! The links of a net as the library has them in memory: contacts, vias and channels.

use crate::limits::{HALF, RESISTANCE_HIGH, RESISTANCE_LOW};
use crate::{Area, Rect, COORDINATE};
use std::fmt;
use std::mem::size_of;

/// Two polygons that touch, by number: one edge of 1 S from the first node of one to the nearest node of the other.
/// Where one of them isn't there, or has no leaf, nothing is joined.
#[repr(C)]
#[derive(Clone, Copy, Debug, Default, PartialEq, Eq)]
pub struct Contact {
    /// The polygon whose first node is the first end.
    pub from: usize,
    /// The polygon whose node nearest to that one is the second end.
    pub to: usize,
}

/// A rectangle by its centre and its half sizes, in ticks; a point where one of these is 0.
#[repr(C)]
#[derive(Clone, Copy, Debug, Default, PartialEq, Eq, PartialOrd, Ord)]
pub struct Footprint {
    /// Of the centre.
    pub x: i64,
    /// Of the centre.
    pub y: i64,
    /// 0 to 2^36.
    pub half_width: i64,
    /// 0 to 2^36.
    pub half_height: i64,
}

/// A via. On each of its layers it takes the nodes of its component inside its footprint, or the one nearest to the
/// centre where none is inside; every pair is an edge, and they share one over the resistance equally.
#[repr(C)]
#[derive(Clone, Copy, Debug, Default, PartialEq)]
pub struct Via {
    /// The layer of the first ends.
    pub bottom: u16,
    /// The layer of the second ends.
    pub top: u16,
    /// Of the nodes on both layers.
    pub component: u32,
    /// Where it stands.
    pub footprint: Footprint,
    /// In ohms.
    pub resistance: f64,
}

/// An end of a channel: the node of a component that is nearest to a place.
#[repr(C)]
#[derive(Clone, Copy, Debug, Default, PartialEq, Eq)]
pub struct ChannelEnd {
    /// Of the node.
    pub component: u32,
    /// In ticks.
    pub x: i64,
    /// In ticks.
    pub y: i64,
}

/// A channel between two components of the channel layer: one edge of one over its resistance.
#[repr(C)]
#[derive(Clone, Copy, Debug, Default, PartialEq)]
pub struct Channel {
    /// The first end.
    pub drain: ChannelEnd,
    /// The second end.
    pub source: ChannelEnd,
    /// In ohms.
    pub resistance: f64,
}

// The header says the same.
const _: () =
    assert!(size_of::<Contact>() == 16 && size_of::<Via>() == 48 && size_of::<Channel>() == 56);

/// What joins polygons and layers, as [`Table::linked_network`](crate::Table::linked_network) takes it. By default
/// there is nothing.
#[derive(Clone, Copy, Debug, Default, PartialEq)]
pub struct Links<'a> {
    /// The first of the links.
    pub contacts: &'a [Contact],
    /// The next.
    pub vias: &'a [Via],
    /// The layer of all channels.
    pub channel_layer: u16,
    /// The last.
    pub channels: &'a [Channel],
    /// Which of their ends have an area. The library knows nothing of them.
    pub areas: &'a [Area],
}

impl Links<'_> {
    /// Whether there is nothing to be joined.
    pub fn is_empty(&self) -> bool {
        self.contacts.is_empty() && self.vias.is_empty() && self.channels.is_empty()
    }
}

/// The same with rows of its own.
#[derive(Clone, Debug, Default, PartialEq)]
pub struct OwnedLinks {
    /// As in [`Links`].
    pub contacts: Vec<Contact>,
    /// As in [`Links`].
    pub vias: Vec<Via>,
    /// As in [`Links`].
    pub channel_layer: u16,
    /// As in [`Links`].
    pub channels: Vec<Channel>,
    /// As in [`Links`].
    pub areas: Vec<Area>,
}

impl OwnedLinks {
    /// The rows as the calls take them.
    pub fn rows(&self) -> Links<'_> {
        Links {
            contacts: &self.contacts,
            vias: &self.vias,
            channel_layer: self.channel_layer,
            channels: &self.channels,
            areas: &self.areas,
        }
    }
}

/// A link of one of the rows, by its index there.
#[derive(Clone, Copy, Debug, PartialEq, Eq, PartialOrd, Ord, Hash)]
pub enum Link {
    /// Of the contacts.
    Contact(usize),
    /// Of the vias.
    Via(usize),
    /// Of the channels.
    Channel(usize),
}

impl<'a> Links<'a> {
    /// Each by itself, in their order, without areas.
    pub fn each(self) -> impl Iterator<Item = (Link, Links<'a>)> {
        let none = Links {
            channel_layer: self.channel_layer,
            ..Links::default()
        };
        let contacts = self.contacts.chunks(1).enumerate();
        let vias = self.vias.chunks(1).enumerate();
        let channels = self.channels.chunks(1).enumerate();
        let contacts =
            contacts.map(move |(at, contacts)| (Link::Contact(at), Links { contacts, ..none }));
        let vias = vias.map(move |(at, vias)| (Link::Via(at), Links { vias, ..none }));
        let channels =
            channels.map(move |(at, channels)| (Link::Channel(at), Links { channels, ..none }));
        contacts.chain(vias).chain(channels)
    }
}

/// As texts and refusals call it: "via 3".
impl fmt::Display for Link {
    fn fmt(&self, f: &mut fmt::Formatter<'_>) -> fmt::Result {
        match self {
            Link::Contact(at) => write!(f, "contact {at}"),
            Link::Via(at) => write!(f, "via {at}"),
            Link::Channel(at) => write!(f, "channel {at}"),
        }
    }
}

impl Link {
    /// What all edges of this link conduct together, if it makes any: one over the resistance that it was given, and 1
    /// of a contact. None where it isn't among these links.
    pub fn siemens(self, links: Links) -> Option<f64> {
        match self {
            Link::Contact(at) => links.contacts.get(at).map(|_| 1.0),
            Link::Via(at) => links.vias.get(at).map(|via| 1.0 / via.resistance),
            Link::Channel(at) => links.channels.get(at).map(|one| 1.0 / one.resistance),
        }
    }
}

impl Footprint {
    /// Where it reaches, in ticks.
    pub fn rect(&self) -> Rect {
        let (w, h) = (self.half_width, self.half_height);
        [self.x - w, self.y - h, self.x + w, self.y + h]
    }

    /// Whether it has an area. Where it hasn't, only its centre counts.
    pub fn has_area(&self) -> bool {
        self.half_width > 0 && self.half_height > 0
    }

    pub(crate) fn in_range(&self) -> bool {
        let half = 0..=HALF;
        is_place(self.x, self.y)
            && half.contains(&self.half_width)
            && half.contains(&self.half_height)
    }
}

impl Via {
    /// Whether the library takes its values.
    pub fn in_range(&self) -> bool {
        self.footprint.in_range() && is_resistance(self.resistance)
    }
}

impl Channel {
    /// Whether the library takes its values.
    pub fn in_range(&self) -> bool {
        let is_there = |end: &ChannelEnd| is_place(end.x, end.y);
        is_there(&self.drain) && is_there(&self.source) && is_resistance(self.resistance)
    }
}

fn is_place(x: i64, y: i64) -> bool {
    let range = -COORDINATE..=COORDINATE;
    range.contains(&x) && range.contains(&y)
}

fn is_resistance(ohms: f64) -> bool {
    (RESISTANCE_LOW..=RESISTANCE_HIGH).contains(&ohms)
}
