//! Polygons as rows: what the network and the by-layer check take of them.

use crate::strips::{to_points, TickPoint};
use original::geometry::Point;
use original::sheet::SheetPolygon;

/// Layer, component and sheet resistance of each polygon. The first two hold any number of their
/// kind, so only the last can be out of range.
#[derive(Clone, Copy, Debug)]
pub struct Sheets<'a> {
    pub layer: &'a [u16],
    pub component: &'a [u32],
    pub r_sheet: &'a [f64],
}

impl Sheets<'_> {
    pub fn len(&self) -> usize {
        self.layer.len()
    }

    pub fn is_empty(&self) -> bool {
        self.len() == 0
    }

    pub fn rows_are_equal(&self) -> bool {
        self.layer.len() == self.component.len() && self.layer.len() == self.r_sheet.len()
    }

    /// The original's polygon, with the outline that it needs for build alone.
    pub fn to_original(&self, polygon: usize, ring: &[TickPoint]) -> SheetPolygon {
        self.named(polygon, ring, LayerNames::default())
    }

    /// The same where one layer has the name that the original looks for channels on.
    pub fn named(&self, polygon: usize, ring: &[TickPoint], names: LayerNames) -> SheetPolygon {
        let points: Vec<Point> = to_points(ring);
        SheetPolygon {
            physical: names.of(self.layer[polygon]),
            points,
            component: self.component[polygon] as usize,
            r_sheet: self.r_sheet[polygon],
        }
    }
}

/// The original knows layers by their text: their decimal number, but for the layer of the channels.
#[derive(Clone, Copy, Debug, Default)]
pub struct LayerNames {
    channel_layer: Option<u16>,
}

/// The layer on which the original looks for the ends of channels.
const CHANNELS: &str = "RX";

impl LayerNames {
    pub fn with_channels_on(layer: u16) -> Self {
        LayerNames { channel_layer: Some(layer) }
    }

    pub fn of(self, layer: u16) -> String {
        match self.channel_layer {
            Some(channel_layer) if channel_layer == layer => CHANNELS.to_string(),
            _ => layer.to_string(),
        }
    }

    pub fn layer(self, name: &str) -> u16 {
        match self.channel_layer {
            Some(channel_layer) if name == CHANNELS => channel_layer,
            _ => name.parse().expect("layers are numbers here"),
        }
    }
}
