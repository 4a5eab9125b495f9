//! What a picture shows of links: where they end, what they join within a layer, and the footprints of vias.

use super::cells::Sides;
use super::layout::Layout;
use super::Place;
use crate::{Edge, Link, Links, Rect};
use std::collections::BTreeSet;
use std::fmt::{self, Write};

/// Links as they are drawn, each place and pair once.
#[derive(Clone, Debug, Default, PartialEq)]
pub struct Marks {
    /// How many links there are.
    pub links: usize,
    /// Ends of links to another layer, or to the same node.
    pub ends: BTreeSet<Place>,
    /// Within a layer.
    pub pairs: BTreeSet<[Place; 2]>,
    /// Layer and rectangle.
    pub footprints: BTreeSet<(i64, Rect)>,
    /// Whether some of them are of channels.
    has_feet: bool,
    /// Ends of one node.
    pub lone: BTreeSet<Place>,
}

/// A colour that neither the levels nor the scale of values have.
const COLOUR: &str = "#0a58ff";
/// Under it, so that it is seen on any cell.
const HALO: &str = "#ffffff";

/// What the legend says of marks.
pub const END: &str = "link across layers, or at one place";
pub const PAIR: &str = "link within a layer";
const FOOTPRINT: &str = "footprint of a via";
const FEET: &str = "footprint of a via or of a channel's end";
pub const LONE: &str = "link of one node: no value as the mesh gets finer";

/// Of ends that are one node: that of a warning.
const WARNING: &str = "#d9480f";

impl Marks {
    /// `place` answers where a node is; links whose nodes have none are passed over.
    pub fn of(links: &[Edge], place: impl Fn(usize) -> Option<Place>) -> Self {
        let mut marks = Marks::default();
        for link in links {
            let (Some(from), Some(to)) = (place(link.from), place(link.to)) else {
                continue;
            };
            marks.links += 1;
            if from[0] != to[0] || from == to {
                marks.ends.extend([from, to]);
            } else {
                marks.pairs.insert([from.min(to), from.max(to)]);
            }
        }
        marks
    }

    /// Whether a footprint covers a place.
    fn is_covered(&self, [layer, x, y]: Place) -> bool {
        let covers = |&(own, [x0, y0, x1, y1]): &(i64, Rect)| {
            own == layer && (x0..=x1).contains(&x) && (y0..=y1).contains(&y)
        };
        self.footprints.iter().any(covers)
    }

    /// With ends of one node.
    pub fn with_lone(mut self, lone: impl Iterator<Item = Place>) -> Self {
        self.lone.extend(lone);
        self
    }

    /// What footprints are of.
    pub fn footprint_words(&self) -> &'static str {
        match self.has_feet {
            true => FEET,
            false => FOOTPRINT,
        }
    }

    /// With the footprints of vias and of channels' ends that have an area.
    pub fn with_footprints(mut self, links: Links) -> Self {
        for pad in links.pads().unwrap_or_default() {
            self.has_feet |= matches!(pad.end.0, Link::Channel(_));
            self.footprints.insert((i64::from(pad.layer), pad.rect));
        }
        for via in links.vias.iter().filter(|via| via.footprint.has_area()) {
            let rect = via.footprint.rect();
            let on = |layer: u16| (i64::from(layer), rect);
            self.footprints.extend([via.bottom, via.top].map(on));
        }
        self
    }
}

/// An end of a link is seen also where cells are small. Inside a footprint, which shows where to look, it leaves the
/// cells their colours.
const LONE_END: f64 = 2.6;
const SMALLEST_END: f64 = 1.0;
pub const LARGEST_END: f64 = 4.5;

/// Footprints below, then what is joined within a layer, then ends.
pub fn put(
    marks: &Marks,
    lone: &BTreeSet<Place>,
    layout: &Layout,
    sides: &Sides,
    text: &mut String,
) -> fmt::Result {
    for &(layer, rect) in &marks.footprints {
        if let Some(shown) = layout.clipped(layer, rect) {
            put_footprint(shown, text)?;
        }
    }
    for &pair in &marks.pairs {
        put_pair(pair.map(|place| layout.place(place)), text)?;
    }
    for &place in &marks.ends {
        let least = match marks.is_covered(place) {
            true => SMALLEST_END,
            false => LONE_END,
        };
        let half = (0.2 * sides.at(place)).clamp(least, LARGEST_END);
        put_end(layout.place(place), half, text)?;
    }
    lone.iter()
        .try_for_each(|&place| put_lone(layout.place(place), text))
}

/// A ring.
pub fn put_lone([x, y]: [f64; 2], text: &mut String) -> fmt::Result {
    let ring = |colour: &str, width: f64| {
        format!("<circle cx=\"{x:.2}\" cy=\"{y:.2}\" r=\"6\" fill=\"none\" stroke=\"{colour}\" stroke-width=\"{width}\"/>")
    };
    writeln!(text, "{}{}", ring(HALO, 3.4), ring(WARNING, 1.8))
}

/// A rectangle of the picture, dashed.
pub fn put_footprint([x0, y0, x1, y1]: [f64; 4], text: &mut String) -> fmt::Result {
    let (w, h) = (x1 - x0, y1 - y0);
    writeln!(
        text,
        "<rect x=\"{x0:.2}\" y=\"{y0:.2}\" width=\"{w:.2}\" height=\"{h:.2}\" fill=\"none\" stroke=\"{HALO}\" \
         stroke-width=\"2.2\"/><rect x=\"{x0:.2}\" y=\"{y0:.2}\" width=\"{w:.2}\" height=\"{h:.2}\" fill=\"none\" \
         stroke=\"{COLOUR}\" stroke-width=\"1\" stroke-dasharray=\"4 2\"/>"
    )
}

/// From one end to the other.
pub fn put_pair([[ax, ay], [bx, by]]: [[f64; 2]; 2], text: &mut String) -> fmt::Result {
    let path = format!("M{ax:.2} {ay:.2}L{bx:.2} {by:.2}");
    writeln!(
        text,
        "<path d=\"{path}\" stroke=\"{HALO}\" stroke-width=\"4\" stroke-linecap=\"round\"/><path d=\"{path}\" \
         stroke=\"{COLOUR}\" stroke-width=\"2\" stroke-linecap=\"round\"/>"
    )
}

/// A square on its corner.
pub fn put_end([x, y]: [f64; 2], half: f64, text: &mut String) -> fmt::Result {
    let rim = 0.3 * half;
    writeln!(
        text,
        "<path d=\"M{:.2} {y:.2}L{x:.2} {:.2}L{:.2} {y:.2}L{x:.2} {:.2}z\" fill=\"{COLOUR}\" stroke=\"{HALO}\" \
         stroke-width=\"{rim:.2}\"/>",
        x - half,
        y - half,
        x + half,
        y + half
    )
}
