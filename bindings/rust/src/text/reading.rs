//! A text, line by line.

use super::across::across_of;
use super::areas;
use super::form::senseless;
use super::linking::contact_of;
use super::sheets;
use super::splitting::{ids_of, region_of, Mark, Task};
use super::terminals::terminal_of;
use super::unit::{component, cut, finite, grouped, layer, ohms, whole, Unit};
use super::{snapping, Unclear, Whole};
use crate::limits::{CAP, CELL, LAYER_ENTRIES, MEANS_DEFAULT, POLYGONS, RING_POINTS, SPLITS};
use crate::{Board, Pitch, COORDINATE, MAX_LEVEL};

/// A text that is being read.
pub(super) struct Reading {
    whole: Whole,
    /// What is to be split, in the text's order.
    marks: Vec<Mark>,
    /// How many ids `split` has named.
    named: usize,
}

impl Reading {
    pub fn new() -> Self {
        let board = Board {
            max_level: MEANS_DEFAULT,
            cap: CAP,
            target: 1,
            ..Board::default()
        };
        Reading {
            whole: Whole {
                board,
                ..Whole::default()
            },
            marks: Vec::new(),
            named: 0,
        }
    }

    pub fn take_line(&mut self, line: usize, words: &[&str]) -> Result<(), String> {
        match *words {
            [] => Ok(()),
            ["level", n] => self.take_level(line, n),
            ["cap", n] => self.take_cap(line, n),
            ["target", n] => self.take_target(line, n),
            ["pitch", n] => self.take_pitch(line, n),
            ["layer", layer, cell] => self.take_layer(line, layer, cell),
            ["polygon", layer, component, sheet] => {
                self.take_polygon(line, layer, component, sheet)
            }
            ["split", ref ids @ ..] if !ids.is_empty() => {
                ids.iter().try_for_each(|word| self.take_split(line, word))
            }
            ["refine", ref region @ ..] => {
                let task = Task::Refine(region_of(region, self.unit())?);
                self.marks.push(Mark { line, task });
                Ok(())
            }
            ["terminal", ref terminal @ ..] => self.take_terminal(line, terminal),
            ["sheet" | "temperature", ..] => {
                let Whole { sheets, lines, .. } = &mut self.whole;
                sheets::take(sheets, lines, line, words)
            }
            ["across", ref across @ ..] => self.take_across(line, across),
            ["contact", ..] | ["via", ..] | ["channels", ..] | ["channel", ..] => {
                self.take_link(line, words)
            }
            [x, y] if is_number(x) && ![x, y].iter().any(|word| word.ends_with([',', ';'])) => {
                self.take_point(line, x, y)
            }
            _ => Err(senseless(words)),
        }
    }

    fn unit(&self) -> Unit {
        Unit(self.whole.lines.pitch)
    }

    /// The line of `pitch`, which is that of the target.
    fn pitch_line(&self) -> Option<usize> {
        self.whole.lines.pitch.and(self.whole.lines.target)
    }

    fn take_level(&mut self, line: usize, word: &str) -> Result<(), String> {
        once("level", &mut self.whole.lines.level, line)?;
        if let Some(pitch) = self.pitch_line() {
            return Err(format!(
                "level stands before pitch, which depends on it and is on line {pitch}"
            ));
        }
        // What stands for the default in a record does so here.
        if word.parse() != Ok(MEANS_DEFAULT) {
            self.whole.board.max_level = whole("level", word, 0..=MAX_LEVEL)?;
        }
        Ok(())
    }

    fn take_cap(&mut self, line: usize, word: &str) -> Result<(), String> {
        once("cap", &mut self.whole.lines.cap, line)?;
        self.whole.board.cap = whole("cap", word, 1..=CAP)?;
        Ok(())
    }

    fn take_target(&mut self, line: usize, word: &str) -> Result<(), String> {
        if let Some(pitch) = self.pitch_line() {
            return Err(format!("pitch, on line {pitch}, is the target already"));
        }
        once("target", &mut self.whole.lines.target, line)?;
        self.whole.board.target = whole("target", word, 1..=CELL)?;
        Ok(())
    }

    fn take_pitch(&mut self, line: usize, word: &str) -> Result<(), String> {
        match (self.pitch_line(), self.whole.lines.target) {
            (Some(first), _) => return Err(format!("pitch is on line {first} already")),
            (None, Some(target)) => {
                return Err(format!(
                    "pitch is the target, too, and target is on line {target}"
                ))
            }
            (None, None) => {}
        }
        if let Some(first) = self.first_length() {
            return Err(format!(
                "pitch stands before layers, polygons, links, terminals, sheet, refine and across, as on line {first}"
            ));
        }
        let level = self.whole.board.settings().max_level;
        let pitch = Pitch::new(finite("pitch", word)?, level).map_err(|why| why.to_string())?;
        self.whole.board.target = pitch.target();
        self.whole.lines.target = Some(line);
        self.whole.lines.pitch = Some(pitch);
        Ok(())
    }

    /// The first line whose lengths would be of another unit than those behind a pitch.
    fn first_length(&self) -> Option<usize> {
        let lines = &self.whole.lines;
        let is_region = |mark: &&Mark| matches!(mark.task, Task::Refine(_));
        let all = [
            lines.layers.first().copied(),
            lines.polygons.first().copied(),
            lines.first_link(),
            lines.terminals.first().copied(),
            lines.sheets.first().copied(),
            lines.across.first().copied(),
            self.marks.iter().find(is_region).map(|mark| mark.line),
        ];
        all.into_iter().flatten().min()
    }

    fn take_layer(&mut self, line: usize, word: &str, cell: &str) -> Result<(), String> {
        let own = u64::from(layer(word)?);
        let cell = self.unit().length("cell", cell, 0..=CELL as i64)?;
        let Whole { board, lines, .. } = &mut self.whole;
        let same = board.layers.iter().position(|entry| entry[0] == own);
        if let Some(at) = same {
            return Err(format!(
                "layer {own} is on line {} already",
                lines.layers[at]
            ));
        }
        if let Some([last, _]) = board.layers.last().filter(|entry| entry[0] > own) {
            return Err(format!("layer {own} doesn't rise: it stands behind {last}"));
        }
        at_most(board.layers.len() + 1, LAYER_ENTRIES, "layers")?;
        board.layers.push([own, cell as u64]);
        lines.layers.push(line);
        Ok(())
    }

    fn take_polygon(&mut self, line: usize, on: &str, of: &str, sheet: &str) -> Result<(), String> {
        let polygon = [layer(on)?.into(), component(of)?.into(), 0];
        let sheet = ohms("sheet resistance", sheet)?;
        let Whole { board, lines, .. } = &mut self.whole;
        at_most(board.polygons.len() + 1, POLYGONS, "polygons")?;
        board.polygons.push(polygon);
        board.sheets.push(sheet);
        lines.polygons.push(line);
        Ok(())
    }

    fn take_point(&mut self, line: usize, x: &str, y: &str) -> Result<(), String> {
        let range = -COORDINATE..=COORDINATE;
        let place = |word| self.unit().length("coordinate", word, range.clone());
        let point = [place(x)?, place(y)?];
        let Whole { board, lines, .. } = &mut self.whole;
        let Some([_, _, count]) = board.polygons.last_mut() else {
            return Err("a point of no polygon".to_string());
        };
        at_most(*count as usize + 1, RING_POINTS, "points of one polygon")?;
        *count += 1;
        board.points.push(point);
        lines.points.push(line);
        Ok(())
    }

    fn take_split(&mut self, line: usize, word: &str) -> Result<(), String> {
        let ids = ids_of(word)?;
        self.named = self
            .named
            .saturating_add((ids.end() - ids.start()) as usize + 1);
        at_most(self.named, SPLITS, "splits")?;
        let task = Task::Split(ids);
        self.marks.push(Mark { line, task });
        Ok(())
    }

    fn take_terminal(&mut self, line: usize, words: &[&str]) -> Result<(), String> {
        let terminal = terminal_of(words, self.unit())?;
        let Whole {
            terminals, lines, ..
        } = &mut self.whole;
        let same = terminals.iter().position(|own| own.name == terminal.name);
        if let Some(at) = same {
            let (name, first) = (cut(&terminal.name), lines.terminals[at]);
            return Err(format!("a terminal {name} is on line {first} already"));
        }
        terminals.push(terminal);
        lines.terminals.push(line);
        Ok(())
    }

    fn take_across(&mut self, line: usize, words: &[&str]) -> Result<(), String> {
        let own = across_of(words, self.unit())?;
        let Whole { across, lines, .. } = &mut self.whole;
        if let Some(at) = across.iter().position(|other| other.name == own.name) {
            let (name, first) = (cut(&own.name), lines.across[at]);
            return Err(format!("a line across {name} is on line {first} already"));
        }
        across.push(own);
        lines.across.push(line);
        Ok(())
    }

    fn take_link(&mut self, line: usize, words: &[&str]) -> Result<(), String> {
        let Whole { links, lines, .. } = &mut self.whole;
        match *words {
            ["contact", from, to] => {
                links.contacts.push(contact_of(from, to)?);
                lines.contacts.push(line);
            }
            ["via", ref via @ ..] => areas::take_via(links, lines, line, via)?,
            ["channels", own] => {
                once("channels", &mut lines.channel_layer, line)?;
                links.channel_layer = layer(own)?;
            }
            ["channel", ref channel @ ..] => areas::take_channel(links, lines, line, channel)?,
            _ => return Err(senseless(words)),
        }
        Ok(())
    }

    /// What to do about a line that isn't taken, where its lengths are no multiples of the pitch.
    pub fn way_out(&self, text: &str, why: &str, words: &[&str]) -> String {
        let Whole { board, lines, .. } = &self.whole;
        let layer = board.polygons.last().map(|&[layer, ..]| layer);
        let own = board
            .layers
            .iter()
            .find(|entry| Some(entry[0]) == layer && entry[1] > 0);
        let cell = own.map(|&[layer, cell]| (layer, cell as i64));
        snapping::way_out(
            text,
            why,
            words,
            lines.pitch,
            board.settings().max_level,
            cell,
        )
    }

    /// What the lines say together without what they split, and the lines that split cells by their ids.
    pub fn end_unsplit(self) -> Result<(Whole, Vec<usize>), Unclear> {
        self.whole.judge()?;
        let by_id = self
            .marks
            .iter()
            .filter(|mark| matches!(mark.task, Task::Split(_)));
        let mut lines: Vec<usize> = by_id.map(|mark| mark.line).collect();
        lines.dedup();
        Ok((self.whole, lines))
    }

    /// What the lines say together.
    pub fn end(self) -> Result<Whole, Unclear> {
        let Reading {
            mut whole, marks, ..
        } = self;
        // In an order that doesn't hang on that of the lines.
        whole.links.areas.sort_unstable();
        whole.judge()?;
        whole.carry_out(&marks)?;
        whole.warn();
        Ok(whole)
    }
}

/// Whether a line that begins with this word is meant for a point.
fn is_number(word: &str) -> bool {
    let sign_or_digit = |c: char| c.is_ascii_digit() || "+-.".contains(c);
    word.starts_with(sign_or_digit) || word.parse::<f64>().is_ok()
}

/// Keeps the line of what a text says once.
pub(super) fn once(name: &str, place: &mut Option<usize>, line: usize) -> Result<(), String> {
    match place.replace(line) {
        Some(first) => Err(format!("{name} is on line {first} already")),
        None => Ok(()),
    }
}

fn at_most(count: usize, most: usize, name: &str) -> Result<(), String> {
    if count > most {
        return Err(format!("more than {} {name}", grouped(most)));
    }
    Ok(())
}
