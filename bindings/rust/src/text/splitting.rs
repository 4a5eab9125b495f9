//! What a text splits: cells by their ids, and all in a rectangle.

use super::form::senseless;
use super::unit::{grouped, layer, quoted, whole, Unit};
use super::{Unclear, Whole};
use crate::{Board, Mesh, Pitch, Reason, Refusal, Region, Unmeshed, MAX_LEVEL, SLOTS};
use std::iter::repeat;
use std::ops::RangeInclusive;

/// A part of a line that splits cells.
pub(super) struct Mark {
    pub line: usize,
    pub task: Task,
}

pub(super) enum Task {
    /// These cells, in this order.
    Split(RangeInclusive<u64>),
    /// As `refine` says.
    Refine(Region),
}

/// An id, or a range of them with both its ends.
pub(super) fn ids_of(word: &str) -> Result<RangeInclusive<u64>, String> {
    let id = |word| whole("cell", word, 0..=u32::MAX).map(u64::from);
    let Some((first, last)) = word.split_once('-').filter(|(first, _)| !first.is_empty()) else {
        let only = id(word)?;
        return Ok(only..=only);
    };
    let (first, last) = (id(first)?, id(last)?);
    if first > last {
        return Err(format!("{} falls: a range rises", quoted(word)));
    }
    Ok(first..=last)
}

/// What stands behind `refine`: a rectangle, the least level of its leaves, and the layer if it is one alone.
pub(super) fn region_of(words: &[&str], unit: Unit) -> Result<Region, String> {
    let no_sense = || senseless(&[&["refine"], words].concat());
    let [x0, y0, x1, y1, level, ref on @ ..] = *words else {
        return Err(no_sense());
    };
    let on = match *on {
        [] => None,
        [on] => Some(layer(on)?),
        _ => return Err(no_sense()),
    };
    let rect = unit.rect([x0, x1], [y0, y1])?;
    if rect[0] == rect[2] || rect[1] == rect[3] {
        return Err("the rectangle has no area".to_string());
    }
    Ok(Region {
        rect,
        level: whole("level", level, 0..=MAX_LEVEL)?,
        layer: on,
    })
}

impl Whole {
    /// Finds the cells to be split, each with its line. A mesh is made only where a rectangle is to be refined, since
    /// what it splits are leaves.
    pub(super) fn carry_out(&mut self, marks: &[Mark]) -> Result<(), Unclear> {
        if marks
            .iter()
            .any(|mark| matches!(mark.task, Task::Refine(_)))
        {
            return self.carry_out_on_mesh(marks);
        }
        for mark in marks {
            if let Task::Split(ids) = &mark.task {
                self.board.splits.extend(ids.clone());
                self.lines.splits.extend(ids.clone().map(|_| mark.line));
            }
        }
        Ok(())
    }

    fn carry_out_on_mesh(&mut self, marks: &[Mark]) -> Result<(), Unclear> {
        let mesh = base_cells(&self.board);
        let mut mesh = mesh.map_err(|why| self.lines.fault(&self.board, &why))?;
        let unit = Unit(self.lines.pitch);
        for Mark { line, task } in marks {
            let before = mesh.head().count;
            task.carry_out(&mut mesh, unit).map_err(|words| Unclear {
                line: Some(*line),
                words,
            })?;
            let splits = (mesh.head().count - before) / 4;
            self.lines.splits.extend(repeat(line).take(splits));
        }
        self.board.splits = mesh.splits().map(|id| id as u64).collect();
        Ok(())
    }
}

impl Task {
    fn carry_out(&self, mesh: &mut Mesh, unit: Unit) -> Result<(), String> {
        match self {
            Task::Split(ids) => ids.clone().try_for_each(|id| split(mesh, id)),
            Task::Refine(region) => refine(mesh, *region, unit),
        }
    }
}

/// The mesh of a board before anything is split.
pub(super) fn base_cells(board: &Board) -> Result<Mesh, Unmeshed> {
    Mesh::new(board.settings(), &board.layers, board.polygons()?)
}

/// What a mesh refuses behind its base cells.
pub(super) enum Refused {
    /// A split, by its index, and why.
    Split(usize, String),
    Balance,
}

/// What the mesh of a board refuses first, by making it once more.
pub(super) fn first_refused(board: &Board) -> Option<Refused> {
    let mut mesh = base_cells(board).ok()?;
    for (at, &id) in board.splits.iter().enumerate() {
        if let Err(words) = split(&mut mesh, id) {
            return Some(Refused::Split(at, words));
        }
    }
    mesh.balance().err().map(|_| Refused::Balance)
}

/// Splits one cell, or says in words why it can't be split.
fn split(mesh: &mut Mesh, id: u64) -> Result<(), String> {
    let refused = mesh.refine(id as usize);
    refused.map_err(|why| why_not_split(mesh, id, why))
}

fn why_not_split(mesh: &Mesh, id: u64, why: Refusal) -> String {
    let head = mesh.head();
    match why.reason {
        Reason::NoSuchCell => match head.count {
            0 => format!("there is no cell {id}: no cell stands here"),
            1 => format!("there is no cell {id}: 1 cell stands here, 0"),
            count => format!(
                "there is no cell {id}: {} cells stand here, 0 to {}",
                grouped(count),
                count - 1
            ),
        },
        Reason::AlreadySplit => format!("cell {id} is split already"),
        Reason::FinestLevel => format!("cell {id} is at the finest level, {}", head.max_level),
        Reason::NoRoom => no_room(),
        _ => why.to_string(),
    }
}

pub(super) fn no_room() -> String {
    format!("more than {} cells", grouped(SLOTS))
}

fn refine(mesh: &mut Mesh, region: Region, unit: Unit) -> Result<(), String> {
    let Region { rect, level, layer } = region;
    let finest = mesh.head().max_level;
    if level > finest {
        return Err(format!(
            "level {level} is deeper than the board's, {finest}"
        ));
    }
    if !mesh.leaves().any(|leaf| region.covers(&leaf)) {
        let [from, to] = [[rect[0], rect[1]], [rect[2], rect[3]]].map(|end| unit.show_point(end));
        let on = layer.map_or(String::new(), |layer| format!(" of layer {layer}"));
        return Err(format!("no copper{on} lies between {from} and {to}"));
    }
    let refined = mesh.refine_region(region);
    refined.map_err(|why| match why.reason {
        Reason::NoRoom => no_room(),
        _ => why.to_string(),
    })?;
    Ok(())
}

/// The widest line of ids.
const COLUMNS: usize = 100;

/// The lines that split these cells, in this order; three or more that follow one another are a range.
pub(super) fn split_lines(ids: &[u64]) -> Vec<String> {
    let mut lines: Vec<String> = Vec::new();
    for word in id_words(ids) {
        match lines.last_mut() {
            Some(line) if line.len() + 1 + word.len() <= COLUMNS => {
                line.push(' ');
                line.push_str(&word);
            }
            _ => lines.push(format!("split {word}")),
        }
    }
    lines
}

fn id_words(ids: &[u64]) -> Vec<String> {
    let mut words = Vec::new();
    let mut rest = ids;
    while let [first, ..] = *rest {
        let follows = |(at, &id): (usize, &u64)| first.checked_add(at as u64) == Some(id);
        let run = (rest.iter().enumerate())
            .take_while(|&one| follows(one))
            .count();
        if run >= 3 {
            words.push(format!("{first}-{}", rest[run - 1]));
        } else {
            words.extend(rest[..run].iter().map(u64::to_string));
        }
        rest = &rest[run..];
    }
    words
}

/// A text as it stands, with lines behind it that split these cells, too, behind those that it splits already: as
/// [`Mesh::splits`] has them behind the text's own.
///
/// ```
/// let text = "target 8\npolygon 1 0 1\n0 0\n8 0\n8 8\n0 8 # the last corner";
/// let refined = leafmesh::text::with_splits(text, &[0, 1, 2, 3]);
/// assert_eq!(refined, format!("{text}\nsplit 0-3\n"));
/// assert_eq!(leafmesh::text::parse(&refined)?.splits, [0, 1, 2, 3]);
/// # Ok::<(), leafmesh::text::Unclear>(())
/// ```
pub fn with_splits(text: &str, ids: &[usize]) -> String {
    let ids: Vec<u64> = ids.iter().map(|&id| id as u64).collect();
    with_lines(text, &split_lines(&ids))
}

/// A text as it stands, with lines behind it that refine these regions, too, in this order. Lengths are in millimetres
/// where the text has a pitch, and otherwise in ticks.
///
/// ```
/// let text = "level 2\ntarget 8\npolygon 1 0 1\n0 0\n8 0\n8 8\n0 8 # the last corner";
/// let region = leafmesh::Region { rect: [0, 0, 8, 4], level: 2, layer: None };
/// let refined = leafmesh::text::with_regions(text, &[region], None);
/// assert_eq!(refined, format!("{text}\nrefine 0 0 8 4 2\n"));
/// assert_eq!(leafmesh::text::parse(&refined)?.splits, [0, 1, 2]);
/// # Ok::<(), leafmesh::text::Unclear>(())
/// ```
pub fn with_regions(text: &str, regions: &[Region], pitch: Option<Pitch>) -> String {
    let length = |ticks: i64| match pitch {
        Some(pitch) => pitch.short(ticks).to_string(),
        None => ticks.to_string(),
    };
    let line = |region: &Region| {
        let [x0, y0, x1, y1] = region.rect.map(length);
        let on = region
            .layer
            .map_or(String::new(), |layer| format!(" {layer}"));
        format!("refine {x0} {y0} {x1} {y1} {}{on}", region.level)
    };
    let lines: Vec<String> = regions.iter().map(line).collect();
    with_lines(text, &lines)
}

fn with_lines(text: &str, lines: &[String]) -> String {
    let end = if text.contains("\r\n") { "\r\n" } else { "\n" };
    let mut all = text.to_string();
    if !lines.is_empty() && !all.is_empty() && !all.ends_with('\n') {
        all.push_str(end);
    }
    for line in lines {
        all.push_str(line);
        all.push_str(end);
    }
    all
}
