//! A board as text that a person can write and read, and its record.
//!
//! ```
//! let board = leafmesh::text::parse("
//! ## what follows a hash sign is left out
//! level 2            # the deepest level; without this line it is 4
//! cap 256            # the most base cells a strip has each way
//! target 8           # the size wanted of a base cell, in ticks
//! layer 1 16         # layer 1 has base cells of 16 ticks
//! polygon 1 0 0.5    # layer, component, ohms a square; its points follow
//! 0 0
//! 16 0
//! 16 16
//! 0 16
//! split 0 1-3        # cells to split, in order; a range has both its ends
//! ")?;
//! assert_eq!((board.target, board.points.len(), board.splits.len()), (8, 4, 4));
//! # Ok::<(), leafmesh::text::Unclear>(())
//! ```
//!
//! A text can have links, which a record can't; so [`parse_whole`] reads them, and [`parse`] refuses them:
//!
//! ```
//! let whole = leafmesh::text::parse_whole("
//! target 8
//! polygon 1 0 0.5
//! 0 0
//! 16 0
//! 16 16
//! 0 16
//! polygon 2 0 0.5
//! 0 0
//! 16 0
//! 16 16
//! 0 16
//! contact 0 1                # polygons by their number, from 0 on
//! via 1 2 0 8 8 4 4 0.001    # layers, component, centre, half width and half height, ohms
//! channels 2                 # the layer of all channels
//! channel 0 0 8 0 16 8 0.5   # component and place of drain and source, ohms
//! ")?;
//! let links = whole.links.rows();
//! assert_eq!((links.contacts.len(), links.vias.len(), links.channels.len()), (1, 1, 1));
//! # Ok::<(), leafmesh::text::Unclear>(())
//! ```
//!
//! Terminals say where current enters a board and where it leaves (see [`solving`](crate::solving)), which a record
//! can't either. What `refine` splits is in [`Board::splits`] by its ids:
//!
//! ```
//! let whole = leafmesh::text::parse_whole("
//! level 2
//! target 8
//! polygon 1 0 0.5
//! 0 0
//! 24 0
//! 24 8
//! 0 8
//! refine 20 2 24 6 1             # a rectangle, and the least level of the leaves in it; a layer may follow
//! terminal in 10 A end 1 0 west  # the end of a component on a layer
//! terminal out 0 V edge 1 0 24 2 24 6    # or `rect`; or a polygon by its number: `pad 0`
//! ")?;
//! assert_eq!(whole.board.splits, [2]);
//! assert_eq!(whole.terminals[1].name, "out");
//! # Ok::<(), leafmesh::text::Unclear>(())
//! ```
//!
//! Lines across copper are told what flows through them (see [`Cuts`](crate::solving::Cuts)); no record has them:
//!
//! ```
//! let whole = leafmesh::text::parse_whole("
//! target 8
//! polygon 1 0 0.5
//! 0 0
//! 24 0
//! 24 8
//! 0 8
//! across middle 1 0 12 0 12 8    # a name, layer, component and both ends
//! ")?;
//! assert_eq!(whole.across[0].line.rect, [12, 0, 12, 8]);
//! # Ok::<(), leafmesh::text::Unclear>(())
//! ```
//!
//! Ends of links may have an area, and copper another sheet resistance than its polygon, by place and by temperature:
//!
//! ```
//! let whole = leafmesh::text::parse_whole("
//! target 8
//! polygon 1 0 0.5
//! 0 0
//! 16 0
//! 16 16
//! 0 16
//! polygon 1 1 0.5
//! 32 0
//! 48 0
//! 48 16
//! 32 16
//! channels 1
//! channel 0 at 8 8 4 4 1 at 40 8 4 4 0.5    # centre, half width and half height of drain and source
//! via 1 2 0 4 4 1 1 0.001 barrel            # one potential over its footprint on each layer
//! sheet 0 0 8 8 2                           # half of the thickness is gone there
//! temperature 85                            # r_sheet is that at 20 degrees
//! ")?;
//! assert_eq!((whole.links.areas.len(), whole.sheets.regions.len()), (3, 1));
//! # Ok::<(), leafmesh::text::Unclear>(())
//! ```
//!
//! With a `pitch` in millimetres all lengths behind it are in millimetres and must be multiples of it, and it is the
//! target (see [`Pitch`]); only links, terminals, lines across copper and what is refined may stand anywhere, at the nearest tick:
//!
//! ```
//! let board = leafmesh::text::parse("level 3\npitch 0.25\npolygon 1 0 0.0005\n0 0\n1.5 0\n1.5 2\n0 2\n")?;
//! assert_eq!(board.points[2], [6 * 68_719_472, 8 * 68_719_472]);
//! # Ok::<(), leafmesh::text::Unclear>(())
//! ```

mod across;
mod areas;
mod blaming;
mod bytes;
mod drive;
mod fields;
mod form;
mod judging;
mod linking;
mod merging;
mod packing;
mod reading;
mod rings;
mod sheets;
mod showing;
mod snapping;
mod splitting;
mod terminals;
mod unit;

use crate::solving::{Across, Terminal};
use crate::{Board, OwnedLinks, Pitch, Point, Sheets};
use reading::Reading;
use std::error::Error;
use std::fmt;
use unit::Unit;

pub use blaming::blame_record;
pub use bytes::{is_record, parse_bytes, read_record, text_of};
pub use merging::{merge, Merged};
pub use packing::{pack, pack_board, pack_whole, Packed};
pub use showing::{show, show_linked, show_whole};
pub use snapping::{snap, Move, Snapped};
pub use splitting::{with_regions, with_splits};

/// A line that is no part of a board, or says what a board can't have.
#[derive(Clone, Debug, PartialEq, Eq)]
pub struct Unclear {
    /// Counted from 1; none where no line is to blame.
    pub line: Option<usize>,
    /// What is wrong.
    pub words: String,
}

impl fmt::Display for Unclear {
    fn fmt(&self, f: &mut fmt::Formatter<'_>) -> fmt::Result {
        match self.line {
            Some(line) => write!(f, "line {line}: {}", self.words),
            None => f.write_str(&self.words),
        }
    }
}

impl Error for Unclear {}

/// A line that is taken, and hardly means what it says.
#[derive(Clone, Debug, PartialEq, Eq)]
pub struct Warning {
    /// Counted from 1.
    pub line: usize,
    /// What is odd.
    pub words: String,
}

impl fmt::Display for Warning {
    fn fmt(&self, f: &mut fmt::Formatter<'_>) -> fmt::Result {
        write!(f, "line {}: {}", self.line, self.words)
    }
}

/// The lines that a board's parts stand on, counted from 1; none for a setting that the text leaves out.
#[derive(Clone, Debug, Default, PartialEq)]
pub struct Lines {
    /// The pitch of a text in millimetres.
    pub pitch: Option<Pitch>,
    /// Of `level`.
    pub level: Option<usize>,
    /// Of `cap`.
    pub cap: Option<usize>,
    /// Of `target`, or of `pitch`.
    pub target: Option<usize>,
    /// Of each layer with cells of its own size.
    pub layers: Vec<usize>,
    /// Of each polygon.
    pub polygons: Vec<usize>,
    /// Of each point.
    pub points: Vec<usize>,
    /// Of each cell to be split: that of its `split` or `refine`.
    pub splits: Vec<usize>,
    /// Of each contact.
    pub contacts: Vec<usize>,
    /// Of each via.
    pub vias: Vec<usize>,
    /// Of `channels`.
    pub channel_layer: Option<usize>,
    /// Of each channel.
    pub channels: Vec<usize>,
    /// Of each terminal.
    pub terminals: Vec<usize>,
    /// Of each `sheet`.
    pub sheets: Vec<usize>,
    /// Of `temperature`.
    pub temperature: Option<usize>,
    /// Of each line across copper.
    pub across: Vec<usize>,
}

impl Lines {
    /// The first line with a link.
    pub fn first_link(&self) -> Option<usize> {
        let all = [&self.contacts, &self.vias, &self.channels];
        let firsts = all.into_iter().filter_map(|lines| lines.first());
        firsts.min().copied()
    }

    /// A place as the text would say it: in millimetres where it has a pitch, and otherwise in ticks.
    pub fn place(&self, point: Point) -> String {
        Unit(self.pitch).show_point(point)
    }
}

/// All that a text says.
#[derive(Clone, Debug, Default, PartialEq)]
pub struct Whole {
    /// What a record can hold.
    pub board: Board,
    /// What it can't: what joins polygons and layers.
    pub links: OwnedLinks,
    /// What it can't: where current enters and leaves.
    pub terminals: Vec<Terminal>,
    /// What it can't: where sheet resistances differ from those of the polygons.
    pub sheets: Sheets,
    /// What it can't: lines across copper, to be told what flows through.
    pub across: Vec<Across>,
    /// Where each part stands.
    pub lines: Lines,
    /// What is taken, and hardly means what it says.
    pub warnings: Vec<Warning>,
}

/// The board of a text, without its terminals.
///
/// ```
/// let board = leafmesh::text::parse("cap 4\npolygon 1 0 1.0\n0 0\n8 0\n8 8\n0 8\n")?;
/// assert_eq!(board.points.len(), 4);
/// assert_eq!(leafmesh::text::parse(&leafmesh::text::show(&board))?, board);
/// # Ok::<(), leafmesh::text::Unclear>(())
/// ```
///
/// # Errors
///
/// Those of [`parse_whole`], and the first line with a link, which no record has.
pub fn parse(text: &str) -> Result<Board, Unclear> {
    Ok(parse_with_lines(text)?.0)
}

/// The same with the line of each part.
///
/// # Errors
///
/// Those of [`parse`].
pub fn parse_with_lines(text: &str) -> Result<(Board, Lines), Unclear> {
    let whole = parse_whole(text)?;
    whole.judge_links_for_record()?;
    Ok((whole.board, whole.lines))
}

/// All that a text says, links and terminals too. A byte order mark in front is passed over.
///
/// # Errors
///
/// The first line that makes no sense or has a value that is out of range. Then, of the whole text: no polygon, a ring
/// of fewer than four points, the number of a polygon that isn't there; and, where a rectangle is to be refined, base
/// cells that can't be, and the first line that splits what can't be split.
pub fn parse_whole(text: &str) -> Result<Whole, Unclear> {
    reading_of(text)?.end()
}

/// The lines of a text, each by itself.
fn reading_of(text: &str) -> Result<Reading, Unclear> {
    let mut reading = Reading::new();
    let text = text.strip_prefix('\u{feff}').unwrap_or(text);
    for (index, line) in text.lines().enumerate() {
        let meant = line.split('#').next().unwrap_or("");
        let words: Vec<&str> = meant.split_whitespace().collect();
        let taken = reading.take_line(index + 1, &words);
        taken.map_err(|why| Unclear {
            line: Some(index + 1),
            words: format!("{why}{}", reading.way_out(text, &why, &words)),
        })?;
    }
    Ok(reading)
}

/// A terminal by what stands behind `terminal` in a text, as a command line may have it. Its lengths are in millimetres
/// where there is a pitch, and otherwise in ticks. Whether there is a polygon of its number isn't looked at.
///
/// ```
/// let terminal = leafmesh::text::terminal("in 10 A end 1 0 west", None)?;
/// assert_eq!((terminal.name.as_str(), terminal.drive.to_string().as_str()), ("in", "10 A"));
/// # Ok::<(), leafmesh::text::Unclear>(())
/// ```
///
/// # Errors
///
/// Words that make no sense, or a value that is out of range; no line is named.
pub fn terminal(words: &str, pitch: Option<Pitch>) -> Result<Terminal, Unclear> {
    let words: Vec<&str> = words.split_whitespace().collect();
    terminals::terminal_of(&words, Unit(pitch)).map_err(|words| Unclear { line: None, words })
}
