//! Polygons with rows of their own.

use crate::{Board, Outlines, Point, Reason, Refusal};

/// Polygons by rows, owned: what [`Table::build`](crate::Table::build) and [`Table::network`](crate::Table::network)
/// take as [`Outlines`].
#[derive(Clone, Debug, Default, PartialEq)]
pub struct Polygons {
    /// The layer of each polygon.
    pub layers: Vec<u16>,
    /// The component of each.
    pub components: Vec<u32>,
    /// Ohms a square.
    pub sheets: Vec<f64>,
    /// Points of each polygon.
    pub counts: Vec<u64>,
    /// The points of all polygons, one polygon after another.
    pub points: Vec<Point>,
}

impl Polygons {
    /// The rows as the calls take them.
    pub fn outlines(&self) -> Outlines<'_> {
        Outlines {
            layers: &self.layers,
            components: &self.components,
            sheets: &self.sheets,
            counts: &self.counts,
            points: &self.points,
        }
    }

    /// Puts one more polygon behind the others.
    pub fn push(&mut self, layer: u16, component: u32, sheet: f64, ring: &[Point]) {
        self.layers.push(layer);
        self.components.push(component);
        self.sheets.push(sheet);
        self.counts.push(ring.len() as u64);
        self.points.extend_from_slice(ring);
    }
}

impl Board {
    /// The polygons of a board as [`Table::build`](crate::Table::build) takes them.
    ///
    /// # Errors
    ///
    /// [`Reason::OutOfRange`] with the polygon whose layer or component is too large. A board that
    /// [`read`](crate::read) handed out has none.
    pub fn polygons(&self) -> Result<Polygons, Refusal> {
        let mut rows = Polygons {
            sheets: self.sheets.clone(),
            points: self.points.clone(),
            ..Polygons::default()
        };
        for (place, &[layer, component, count]) in self.polygons.iter().enumerate() {
            let reason = Reason::OutOfRange;
            let too_large = |_| Refusal { reason, place };
            rows.layers.push(u16::try_from(layer).map_err(too_large)?);
            rows.components
                .push(u32::try_from(component).map_err(too_large)?);
            rows.counts.push(count);
        }
        Ok(rows)
    }
}
