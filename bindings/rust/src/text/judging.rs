//! What the lines of a text can only say together.

use super::rings::odd;
use super::unit::grouped;
use super::{Unclear, Warning, Whole};
use crate::solving::Spot;

/// Fewer points enclose nothing.
const LEAST_POINTS: u64 = 4;

impl Whole {
    pub(super) fn judge(&self) -> Result<(), Unclear> {
        if self.board.polygons.is_empty() {
            return Err(Unclear {
                line: None,
                words: "there is no polygon: a line `polygon LAYER COMPONENT OHMS`, and behind it a line for each point"
                    .to_string(),
            });
        }
        self.judge_rings()?;
        self.judge_numbers()
    }

    /// Build takes a ring of fewer points, and makes no cell of it: copper that was meant would be left out.
    fn judge_rings(&self) -> Result<(), Unclear> {
        for (&[_, _, points], &line) in self.board.polygons.iter().zip(&self.lines.polygons) {
            if points < LEAST_POINTS {
                let words = format!("a ring has {LEAST_POINTS} points or more, this one {points}");
                return unclear(line, words);
            }
        }
        Ok(())
    }

    /// The first line with the number of a polygon that isn't there.
    fn judge_numbers(&self) -> Result<(), Unclear> {
        let contacts = self.links.contacts.iter().zip(&self.lines.contacts);
        let of_contacts = contacts
            .flat_map(|(contact, &line)| [contact.from, contact.to].map(|polygon| (line, polygon)));
        let terminals = self.terminals.iter().zip(&self.lines.terminals);
        let of_pads = terminals.filter_map(|(terminal, &line)| match terminal.spot {
            Spot::Pad { polygon } => Some((line, polygon)),
            _ => None,
        });
        let count = self.board.polygons.len();
        let missing = of_contacts
            .chain(of_pads)
            .filter(|&(_, polygon)| polygon >= count);
        match missing.min() {
            None => Ok(()),
            Some((line, polygon)) => unclear(line, no_polygon(polygon, count)),
        }
    }

    /// That there is no link, which a record can't have.
    pub(super) fn judge_links_for_record(&self) -> Result<(), Unclear> {
        match self.lines.first_link() {
            Some(line) => unclear(line, "a record has no links".to_string()),
            None => Ok(()),
        }
    }

    /// Says what is odd, and no reason to refuse.
    pub(super) fn warn(&mut self) {
        let mut rest = &self.board.points[..];
        for (&[_, _, count], &line) in self.board.polygons.iter().zip(&self.lines.polygons) {
            let (ring, behind) = rest.split_at(count as usize);
            rest = behind;
            self.warnings.extend(odd(ring).map(|words| Warning {
                line,
                words: words.to_string(),
            }));
        }
    }
}

fn unclear(line: usize, words: String) -> Result<(), Unclear> {
    let line = Some(line);
    Err(Unclear { line, words })
}

fn no_polygon(polygon: usize, count: usize) -> String {
    let stand = match count {
        1 => "1 polygon stands here, 0".to_string(),
        _ => format!("{} polygons stand here, 0 to {}", grouped(count), count - 1),
    };
    format!("there is no polygon {polygon}: {stand}")
}
