//! Which nodes are the corners of which leaf. leafnet's text doesn't say it, but it numbers nodes as the network call
//! does: leaf by leaf, corner by corner, a new one where its layer, component and place haven't been met.

use super::{Leaf, Printed};
use crate::sides::corners_of;
use crate::{Node, Point};
use std::collections::{BTreeMap, BTreeSet};

/// A layer and a component: what joins leaves.
#[derive(Clone, Copy, Debug, PartialEq, Eq, PartialOrd, Ord, Hash)]
pub struct Copper {
    /// Of leaves and nodes.
    pub layer: u16,
    /// As the layer.
    pub component: u32,
}

impl Copper {
    pub(super) fn of(node: &Node) -> Self {
        let Node {
            layer, component, ..
        } = *node;
        Copper { layer, component }
    }

    fn node(self, [x, y]: Point) -> Node {
        let Copper { layer, component } = self;
        Node {
            layer,
            component,
            x,
            y,
        }
    }
}

/// A polygon's leaves, and what the nodes say of it.
pub(super) struct Polygon<'a> {
    pub leaves: &'a [Leaf],
    /// What its copper can be. Each of several has all corners, and the first one is taken.
    pub coppers: Vec<Copper>,
    /// Of each leaf: SW, SE, NE, NW.
    pub corners: Vec<[usize; 4]>,
}

/// All polygons that have leaves, in order.
///
/// # Errors
///
/// In words: the text isn't leafnet's.
pub(super) fn polygons(printed: &Printed) -> Result<Vec<Polygon<'_>>, String> {
    let mut walk = Walk::of(&printed.nodes);
    let mut rest = &printed.leaves[..];
    let mut polygons: Vec<Polygon> = Vec::new();
    while let Some(first) = rest.first() {
        let is_other = |leaf: &Leaf| leaf.polygon != first.polygon;
        let (leaves, behind) = rest.split_at(rest.iter().position(is_other).unwrap_or(rest.len()));
        let is_in_order = leaves.windows(2).all(|two| two[0].id < two[1].id)
            && polygons
                .last()
                .map_or(true, |last| last.leaves[0].polygon < first.polygon);
        if !is_in_order {
            return Err(format!(
                "not leafnet's text: the leaves of polygon {} are out of order",
                first.polygon
            ));
        }
        polygons.push(walk.step(leaves)?);
        rest = behind;
    }
    match walk.met.len() {
        all if all == printed.nodes.len() => Ok(polygons),
        met => Err(format!(
            "not leafnet's text: no leaf has node {met} as its corner"
        )),
    }
}

/// The nodes that were met so far: as many as the number of the next one.
struct Walk<'a> {
    nodes: &'a [Node],
    /// What has a node at each place.
    coppers: BTreeMap<Point, BTreeSet<Copper>>,
    met: BTreeMap<Node, usize>,
}

/// Where a polygon's copper is taken to be one: its corners, and the nodes that are new.
type Try = (Vec<[usize; 4]>, BTreeMap<Node, usize>);

impl<'a> Walk<'a> {
    fn of(nodes: &'a [Node]) -> Self {
        let mut coppers: BTreeMap<Point, BTreeSet<Copper>> = BTreeMap::new();
        for node in nodes {
            let here = coppers.entry([node.x, node.y]).or_default();
            here.insert(Copper::of(node));
        }
        Walk {
            nodes,
            coppers,
            met: BTreeMap::new(),
        }
    }

    /// Goes over the leaves of a polygon. Its copper is that of the next node, if they agree: if it has another one
    /// after all, and lies on corners that were met, then the next nodes are those of a later polygon, and come in the
    /// same order. Otherwise all its corners were met, of one copper or of several.
    fn step<'b>(&mut self, leaves: &'b [Leaf]) -> Result<Polygon<'b>, String> {
        let next = self.nodes.get(self.met.len()).map(Copper::of);
        let own = next.and_then(|copper| Some((copper, self.tried(leaves, copper)?)));
        let all: Vec<(Copper, Try)> = match own.filter(|(_, (_, new))| !new.is_empty()) {
            Some(own) => vec![own],
            None => self.covering(leaves).collect(),
        };
        let coppers = all.iter().map(|(copper, _)| *copper).collect();
        let Some((_, (corners, new))) = all.into_iter().next() else {
            return Err(format!(
                "not leafnet's text: the nodes don't come as the corners of the leaves of polygon {} do",
                leaves[0].polygon
            ));
        };
        self.met.extend(new);
        Ok(Polygon {
            leaves,
            coppers,
            corners,
        })
    }

    /// The coppers of which all corners were met.
    fn covering<'b>(&'b self, leaves: &'b [Leaf]) -> impl Iterator<Item = (Copper, Try)> + 'b {
        let tried = |&copper: &Copper| Some((copper, self.tried(leaves, copper)?));
        let [south_west, ..] = corners_of(leaves[0].rect);
        let here = self.coppers.get(&south_west).into_iter().flatten();
        let all = here.filter_map(tried);
        all.filter(|(_, (_, new))| new.is_empty())
    }

    /// None where a corner is neither a node that was met nor the next one.
    fn tried(&self, leaves: &[Leaf], copper: Copper) -> Option<Try> {
        let mut new = BTreeMap::new();
        let mut corners = Vec::with_capacity(leaves.len());
        for leaf in leaves {
            let mut own = [0; 4];
            for (number, place) in own.iter_mut().zip(corners_of(leaf.rect)) {
                let node = copper.node(place);
                let next = self.met.len() + new.len();
                let found = self.met.get(&node).or_else(|| new.get(&node)).copied();
                *number =
                    found.or_else(|| (self.nodes.get(next) == Some(&node)).then_some(next))?;
                if *number == next {
                    new.insert(node, next);
                }
            }
            corners.push(own);
        }
        Some((corners, new))
    }
}
