//! Ends of links that have an area, and ends that are one node.

use crate::{Footprint, Leaf, Link, Links, Net, Node, Reason, Rect, Refusal};
use std::collections::{BTreeMap, BTreeSet};

/// What of a link is one potential over a rectangle, as a pad of solder or the foot of a via's barrel is. The net has
/// edges between nodes all the same; [`System::of_cells`](crate::solving::System::of_cells) takes the rectangle, and
/// what comes out converges as cells get finer, which that of a link of one node doesn't.
#[derive(Clone, Copy, Debug, PartialEq, Eq, PartialOrd, Ord)]
pub enum Area {
    /// Both ends of a via: its footprint on each of its layers.
    Barrel {
        /// By its index.
        via: usize,
    },
    /// A channel's first end.
    Drain {
        /// By its index.
        channel: usize,
        /// Where it is.
        footprint: Footprint,
    },
    /// A channel's second end.
    Source {
        /// By its index.
        channel: usize,
        /// Where it is.
        footprint: Footprint,
    },
}

/// One end of a link, 0 for the first and 1 for the second.
pub type LinkEnd = (Link, usize);

/// Where a link ends in an area: all copper of a layer and a component there is at one potential. Pads of one copper that
/// touch are one.
#[derive(Clone, Copy, Debug, PartialEq, Eq)]
pub struct Pad {
    /// Whose end it is.
    pub end: LinkEnd,
    /// Of the copper.
    pub layer: u16,
    /// Of the copper.
    pub component: u32,
    /// In ticks.
    pub rect: Rect,
}

impl Pad {
    /// Whether a leaf is of its copper, and has an area in common with it.
    pub fn covers(&self, leaf: &Leaf) -> bool {
        let ([x0, y0, x1, y1], [u0, v0, u1, v1]) = (self.rect, leaf.rect);
        let is_own = (self.layer, self.component) == (leaf.layer, leaf.component);
        is_own && x0.max(u0) < x1.min(u1) && y0.max(v0) < y1.min(v1)
    }

    /// Whether a node is of its copper, and lies in it or on its sides.
    pub fn has(&self, node: &Node) -> bool {
        let [x0, y0, x1, y1] = self.rect;
        (self.layer, self.component) == (node.layer, node.component)
            && (x0..=x1).contains(&node.x)
            && (y0..=y1).contains(&node.y)
    }
}

impl Links<'_> {
    /// The ends that have an area.
    ///
    /// # Errors
    ///
    /// [`Reason::OutOfRange`] for one of a link that isn't there, without an area, out of range, or given twice.
    pub fn pads(&self) -> Result<Vec<Pad>, Refusal> {
        let pads = self.areas.iter().map(|area| self.pads_of(area));
        let pads: Option<Vec<Vec<Pad>>> = pads.collect();
        let pads = pads.map(|pads| pads.concat());
        let is_once = |pads: &Vec<Pad>| {
            let ends: BTreeSet<LinkEnd> = pads.iter().map(|pad| pad.end).collect();
            ends.len() == pads.len()
        };
        pads.filter(is_once).ok_or(Refusal {
            reason: Reason::OutOfRange,
            place: 0,
        })
    }

    fn pads_of(&self, area: &Area) -> Option<Vec<Pad>> {
        let pad = |end: LinkEnd, layer: u16, component: u32, footprint: Footprint| {
            let is_good = footprint.has_area() && footprint.in_range();
            is_good.then(|| Pad {
                end,
                layer,
                component,
                rect: footprint.rect(),
            })
        };
        let foot = |at: usize, end: usize, footprint: Footprint| {
            let channel = self.channels.get(at)?;
            let component = [channel.drain, channel.source][end].component;
            let pad = pad(
                (Link::Channel(at), end),
                self.channel_layer,
                component,
                footprint,
            )?;
            Some(vec![pad])
        };
        match *area {
            Area::Barrel { via: at } => {
                let via = self.vias.get(at)?;
                let on = |end: usize| {
                    let layer = [via.bottom, via.top][end];
                    pad((Link::Via(at), end), layer, via.component, via.footprint)
                };
                Some(vec![on(0)?, on(1)?])
            }
            Area::Drain { channel, footprint } => foot(channel, 0, footprint),
            Area::Source { channel, footprint } => foot(channel, 1, footprint),
        }
    }
}

/// An end of a link that is one node and no area: what comes out there has no value as the mesh gets finer. The
/// resistance grows by r_sheet · ln 2 / 2π with each level, and the leaves at the node get hotter and hotter.
#[derive(Clone, Copy, Debug, PartialEq, Eq)]
pub struct Lone {
    /// Which one.
    pub end: LinkEnd,
    /// By its place in the net.
    pub node: usize,
}

impl Net {
    /// The links' ends that are one node and in no area of a link, by link, then end.
    pub fn lone(&self) -> Vec<Lone> {
        let mut nodes: BTreeMap<LinkEnd, Option<usize>> = BTreeMap::new();
        for (edge, joint) in self.links().iter().zip(&self.joints) {
            for (end, node) in [edge.from, edge.to].into_iter().enumerate() {
                let own = nodes.entry((joint.link, end)).or_insert(Some(node));
                *own = own.filter(|&first| first == node);
            }
        }
        let is_in_pad = |node: &usize| {
            let node = self.nodes.get(*node);
            node.is_some_and(|node| self.pads.iter().any(|pad| pad.has(node)))
        };
        let with_pads: BTreeSet<LinkEnd> = self.pads.iter().map(|pad| pad.end).collect();
        let lone = |(end, node): (LinkEnd, Option<usize>)| {
            let node = node.filter(|node| !with_pads.contains(&end) && !is_in_pad(node))?;
            Some(Lone { end, node })
        };
        nodes.into_iter().filter_map(lone).collect()
    }
}
