//! Sheet resistances that differ from those of the polygons: by place, as where copper is worn, and by temperature.

use crate::limits::{RESISTANCE_HIGH, RESISTANCE_LOW};
use crate::{Leaf, Mesh, Net, Reason, Rect, Refusal};

/// A rectangle whose copper has so many times the sheet resistance of its polygon.
#[derive(Clone, Copy, Debug, PartialEq)]
pub struct SheetRegion {
    /// In ticks, x0 < x1 and y0 < y1.
    pub rect: Rect,
    /// Above 0.
    pub factor: f64,
    /// The layer, or all of them.
    pub layer: Option<u16>,
}

impl SheetRegion {
    /// Which share of a leaf's area lies in it, from 0 to 1.
    pub fn share(&self, leaf: &Leaf) -> f64 {
        if self.layer.is_some_and(|layer| layer != leaf.layer) {
            return 0.0;
        }
        let ([x0, y0, x1, y1], [u0, v0, u1, v1]) = (self.rect, leaf.rect);
        let share = |from: i64, to: i64, whole: i64| (to - from).max(0) as f64 / whole as f64;
        share(x0.max(u0), x1.min(u1), u1 - u0) * share(y0.max(v0), y1.min(v1), v1 - v0)
    }
}

/// How warm all copper of a board is. Sheet resistances are those at [`Temperature::REFERENCE`].
#[derive(Clone, Copy, Debug, PartialEq)]
pub struct Temperature {
    /// In degrees Celsius.
    pub celsius: f64,
    /// By which share of itself a resistance at the reference grows a kelvin.
    pub coefficient: f64,
}

impl Temperature {
    /// 20 degrees Celsius.
    pub const REFERENCE: f64 = 20.0;
    /// The coefficient of copper a kelvin, at 20 degrees (IEC 60028).
    pub const COPPER: f64 = 0.00393;

    /// Of copper.
    pub fn of_copper(celsius: f64) -> Self {
        let coefficient = Temperature::COPPER;
        Temperature {
            celsius,
            coefficient,
        }
    }

    /// How many times the sheet resistance is that at the reference.
    pub fn factor(&self) -> f64 {
        1.0 + self.coefficient * (self.celsius - Temperature::REFERENCE)
    }
}

/// All that makes sheet resistances differ from those of the polygons.
///
/// ```
/// use leafmesh::{text, Mesh, SheetRegion, Sheets, Temperature};
///
/// let board = text::parse("level 1\ntarget 8\npolygon 1 0 0.5\n0 0\n16 0\n16 8\n0 8\n")?;
/// let mesh = Mesh::of_board(&board)?;
/// let mut net = mesh.net()?;
/// // Half of the first of two cells is worn to a third of its thickness, and all are at 120 degrees.
/// let worn = SheetRegion { rect: [0, 0, 4, 8], factor: 3.0, layer: None };
/// let sheets = Sheets { regions: vec![worn], temperature: Some(Temperature::of_copper(120.0)) };
/// sheets.apply(&mesh, &mut net)?;
/// let own = [net.cells[0].sheet, net.cells[1].sheet];
/// assert!((own[0] - 0.5 * 2.0 * 1.393).abs() < 1e-12 && (own[1] - 0.5 * 1.393).abs() < 1e-12);
/// # Ok::<(), Box<dyn std::error::Error>>(())
/// ```
#[derive(Clone, Debug, Default, PartialEq)]
pub struct Sheets {
    /// By place. Where two lie over each other, both factors count.
    pub regions: Vec<SheetRegion>,
    /// Of the whole board; none: the reference.
    pub temperature: Option<Temperature>,
}

impl Sheets {
    /// Whether all sheet resistances are those of the polygons.
    pub fn is_empty(&self) -> bool {
        self.regions.is_empty() && self.temperature.is_none()
    }

    /// How many times a leaf's sheet resistance is that of its polygon. Of a leaf that lies in a rectangle in part, the
    /// factor counts by the share of its area there.
    pub fn factor(&self, leaf: &Leaf) -> f64 {
        let by_place = |one: &SheetRegion| 1.0 + (one.factor - 1.0) * one.share(leaf);
        let warm = self.temperature.map_or(1.0, |one| one.factor());
        self.regions.iter().map(by_place).product::<f64>() * warm
    }

    /// Gives each cell of a mesh's net its sheet resistance. Done twice it is done once, since it begins with that of
    /// the polygon. The net's conductances stay as they are: [`System::of_cells`](crate::solving::System::of_cells)
    /// takes the cells.
    ///
    /// # Errors
    ///
    /// [`Reason::OutOfRange`] with the polygon of the first leaf whose sheet resistance would be no number from 2^-40
    /// to 2^40, [`Reason::BadTable`] of another mesh's net; the net is as it was before.
    pub fn apply(&self, mesh: &Mesh, net: &mut Net) -> Result<(), Refusal> {
        if mesh.head().leaves != net.cells.len() {
            let reason = Reason::BadTable;
            return Err(Refusal { reason, place: 0 });
        }
        let own = |leaf: Leaf| {
            let sheet = leaf.sheet * self.factor(&leaf);
            let is_in = (RESISTANCE_LOW..=RESISTANCE_HIGH).contains(&sheet);
            is_in.then_some(sheet).ok_or(Refusal {
                reason: Reason::OutOfRange,
                place: leaf.polygon,
            })
        };
        let sheets: Vec<f64> = mesh.leaves().map(own).collect::<Result<_, _>>()?;
        let cells = net.cells.iter_mut().zip(sheets);
        cells.for_each(|(cell, sheet)| cell.sheet = sheet);
        Ok(())
    }

    /// The first rectangle in which no leaf has an area, by its index.
    pub fn first_without_copper(&self, mesh: &Mesh) -> Option<usize> {
        let leaves: Vec<Leaf> = mesh.leaves().collect();
        let is_bare = |one: &SheetRegion| !leaves.iter().any(|leaf| one.share(leaf) > 0.0);
        self.regions.iter().position(is_bare)
    }
}
