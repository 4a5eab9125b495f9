//! Sheet resistances by place and temperature, of a text.

use super::Given;
use crate::{Area, Mesh, Net};

impl Given {
    /// Gives the cells of a net their sheet resistances.
    ///
    /// # Errors
    ///
    /// In words: the first rectangle without copper, and the first polygon whose sheet resistance gets out of range.
    pub(super) fn put_sheets(&self, mesh: &Mesh, net: &mut Net) -> Result<(), String> {
        if self.sheets.is_empty() {
            return Ok(());
        }
        if let Some(at) = self.sheets.first_without_copper(mesh) {
            let region = self.sheets.regions[at];
            let [x0, y0, x1, y1] = region.rect;
            let on = region.layer.map(|layer| format!(" of layer {layer}"));
            let words = format!(
                "no copper{} lies between {} and {}",
                on.unwrap_or_default(),
                self.place([x0, y0]),
                self.place([x1, y1])
            );
            let line = self.lines().and_then(|lines| lines.sheets.get(at));
            return Err(self.said_of(line, &words));
        }
        self.sheets.apply(mesh, net).map_err(|why| {
            let words = "by sheet and temperature r_sheet gets out of range: 2^-40 to 2^40";
            let line = self.lines().and_then(|lines| lines.polygons.get(why.place));
            self.said_of(line, words)
        })
    }

    /// The net's conductances come from the polygons' sheet resistances alone, and its links are edges between nodes.
    ///
    /// # Errors
    ///
    /// In words: the first line that they know nothing of.
    pub(super) fn judge_for_net(&self) -> Result<(), String> {
        let Some(lines) = self.lines() else {
            return Ok(());
        };
        let line_of = |area: &Area| match *area {
            Area::Barrel { via } => lines.vias.get(via),
            Area::Drain { channel, .. } | Area::Source { channel, .. } => {
                lines.channels.get(channel)
            }
        };
        let sheet = lines.sheets.first().or(lines.temperature.as_ref());
        let area = self.links.areas.first().and_then(line_of);
        let (line, what) = match (sheet, area) {
            (Some(line), _) => (line, "sheet and no temperature"),
            (None, Some(line)) => (line, "area of a link's end"),
            (None, None) => return Ok(()),
        };
        let words = format!("the net's conductances know no {what}: solve on the cells");
        Err(self.said_of(Some(line), &words))
    }

    /// Behind the file's name and the line.
    fn said_of(&self, line: Option<&usize>, words: &str) -> String {
        match line {
            Some(line) => self.said(&format!("line {line}: {words}")),
            None => self.said(&words),
        }
    }
}
