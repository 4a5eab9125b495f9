//! Links that end where there is no copper.

use crate::links::{Link, Links};
use crate::unmeshed::Unmeshed;
use crate::{Pad, Point, Rect};
use std::collections::BTreeMap;
use std::fmt;

/// A via or a channel of which no copper of its layer and component lies at an end: the library takes the nearest node,
/// however far away that is. An end that has an area has to have a part of it in common with copper.
#[derive(Clone, Copy, Debug, PartialEq, Eq)]
pub struct Astray {
    /// Which one.
    pub link: Link,
    /// Its first end, or its second.
    pub end: usize,
    /// Of the copper that is missing.
    pub layer: u16,
    /// Of the copper that is missing.
    pub component: u32,
    /// Where the end is; of a footprint its centre.
    pub place: Point,
    /// Whether the end is a footprint.
    pub has_area: bool,
    /// The place nearest to it on such copper.
    pub nearest: Point,
}

/// A via from a layer to itself.
#[derive(Clone, Copy, Debug, PartialEq, Eq)]
pub struct SameLayer {
    /// Its index among the vias.
    pub via: usize,
    /// The layer.
    pub layer: u16,
}

/// An end of a link: where it asks for copper.
struct End {
    /// The first one of the link, or the second.
    number: usize,
    layer: u16,
    component: u32,
    place: Point,
    rect: Rect,
    /// Whether all of its area is one potential, so that it has to have an area in common with copper.
    is_pad: bool,
}

impl End {
    fn has_area(&self) -> bool {
        let [x0, y0, x1, y1] = self.rect;
        x0 < x1 && y0 < y1
    }

    /// Whether copper lies there: a footprint's border counts for nodes, and not for a pad.
    fn is_on(&self, copper: &Rect) -> bool {
        let common = |axis: usize| {
            let [low, high] = [axis, axis + 2];
            copper[high].min(self.rect[high]) - copper[low].max(self.rect[low])
        };
        let least = i64::from(self.is_pad);
        common(0) >= least && common(1) >= least
    }
}

/// The ends of one link that have a place, an end that has pads by each of them; a contact's have none.
fn ends_of(link: Link, one: Links, pads: &[Pad]) -> Vec<End> {
    let of_vias = one.vias.iter().flat_map(|via| {
        let footprint = via.footprint;
        let place = [footprint.x, footprint.y];
        let rect = if footprint.has_area() {
            footprint.rect()
        } else {
            point(place)
        };
        [via.bottom, via.top].map(|layer| (layer, via.component, place, rect))
    });
    let of_channels = one.channels.iter().flat_map(|channel| {
        [channel.drain, channel.source].map(|end| {
            let place = [end.x, end.y];
            (one.channel_layer, end.component, place, point(place))
        })
    });
    let mut ends = Vec::new();
    for (number, (layer, component, place, rect)) in of_vias.chain(of_channels).enumerate() {
        let own = pads.iter().filter(|pad| pad.end == (link, number));
        let own: Vec<(Point, Rect, bool)> =
            own.map(|pad| (middle(pad.rect), pad.rect, true)).collect();
        let all = if own.is_empty() {
            vec![(place, rect, false)]
        } else {
            own
        };
        ends.extend(all.into_iter().map(|(place, rect, is_pad)| End {
            number,
            layer,
            component,
            place,
            rect,
            is_pad,
        }));
    }
    ends
}

fn middle([x0, y0, x1, y1]: Rect) -> Point {
    [x0 + (x1 - x0) / 2, y0 + (y1 - y0) / 2]
}

fn point([x, y]: Point) -> Rect {
    [x, y, x, y]
}

/// The copper of a mesh, by layer and component.
pub(crate) struct Coppers(BTreeMap<(u16, u32), Vec<Rect>>);

impl Coppers {
    /// Of rectangles that are copper of a layer and a component.
    pub fn of(all: impl Iterator<Item = (u16, u32, Rect)>) -> Self {
        let mut coppers: BTreeMap<(u16, u32), Vec<Rect>> = BTreeMap::new();
        for (layer, component, rect) in all {
            coppers.entry((layer, component)).or_default().push(rect);
        }
        Coppers(coppers)
    }

    /// What is wrong with a link that finds copper of its layers and components somewhere: a via from a layer to
    /// itself, or an end that lies on none and on no side of any, or that is a pad and has no area of any.
    pub fn judge(&self, link: Link, one: Links, pads: &[Pad]) -> Result<(), Unmeshed> {
        if let (Link::Via(at), [via]) = (link, one.vias) {
            if via.bottom == via.top {
                let layer = via.bottom;
                return Err(Unmeshed::SameLayer(SameLayer { via: at, layer }));
            }
        }
        for end in ends_of(link, one, pads) {
            let nearest = self.nearest(&end);
            if let Some(nearest) = nearest {
                return Err(Unmeshed::Astray(Astray {
                    link,
                    end: end.number,
                    layer: end.layer,
                    component: end.component,
                    place: end.place,
                    has_area: end.has_area(),
                    nearest,
                }));
            }
        }
        Ok(())
    }

    /// The place on copper that is nearest to an end which lies on none.
    fn nearest(&self, end: &End) -> Option<Point> {
        let copper = self.0.get(&(end.layer, end.component))?;
        if copper.iter().any(|rect| end.is_on(rect)) {
            return None;
        }
        let on = |rect: &Rect| [0, 1].map(|axis| end.place[axis].clamp(rect[axis], rect[axis + 2]));
        let apart = |place: &Point| {
            let [x, y] = [0, 1].map(|axis| i128::from(place[axis] - end.place[axis]));
            x * x + y * y
        };
        copper.iter().map(on).min_by_key(apart)
    }
}

impl Astray {
    /// How far the copper is away from the place, in ticks.
    pub fn distance(&self) -> f64 {
        let [x, y] = [0, 1].map(|axis| (self.nearest[axis] - self.place[axis]) as f64);
        x.hypot(y)
    }

    /// Which of its ends has no copper.
    pub(crate) fn whose(&self) -> String {
        let end = match (self.link, self.end) {
            (Link::Channel(_), 0) if self.has_area => "drain's footprint",
            (Link::Channel(_), 0) => "drain",
            (Link::Channel(_), _) if self.has_area => "source's footprint",
            (Link::Channel(_), _) => "source",
            _ if self.has_area => "footprint",
            _ => "via",
        };
        format!(
            "no copper of layer {}, component {} lies at its {end}",
            self.layer, self.component
        )
    }
}

impl fmt::Display for Astray {
    fn fmt(&self, f: &mut fmt::Formatter<'_>) -> fmt::Result {
        let ([x, y], [u, v]) = (self.place, self.nearest);
        let link = self.link;
        write!(
            f,
            "{link}: {}, ({x}, {y}); the nearest is at ({u}, {v})",
            self.whose()
        )
    }
}

impl fmt::Display for SameLayer {
    fn fmt(&self, f: &mut fmt::Formatter<'_>) -> fmt::Result {
        write!(f, "via {}: {}", self.via, self.words())
    }
}

impl SameLayer {
    pub(crate) fn words(&self) -> String {
        format!("joins layer {} to itself: a via has two layers", self.layer)
    }
}
