//! Why a board has no mesh or no net, in the words of its text.

use super::rings::first_slant;
use super::splitting::{base_cells, first_refused, no_room, Refused};
use super::unit::Unit;
use super::{Lines, Unclear};
use crate::limits::MEANS_DEFAULT;
use crate::merging::Overlap;
use crate::unmeshed::{strips_of, west_of, Loose, TooLong, Unmeshed};
use crate::{Astray, Board, Link, Point, Reason, Rect, Refusal, Settings, MAX_LEVEL};
use std::fmt;

/// What is wrong, and with which part of a board.
struct Fault {
    part: Option<Part>,
    words: String,
}

/// A part of a board, by its index.
enum Part {
    /// The target, or the pitch.
    Target,
    /// A layer with a cell of its own, by its index among these.
    Layer(usize),
    Polygon(usize),
    Point {
        polygon: usize,
        point: usize,
    },
    Split(usize),
    Link(Link),
}

impl fmt::Display for Part {
    fn fmt(&self, f: &mut fmt::Formatter<'_>) -> fmt::Result {
        match *self {
            Part::Target => f.write_str("target"),
            Part::Layer(entry) => write!(f, "layer of entry {entry}"),
            Part::Polygon(polygon) => write!(f, "polygon {polygon}"),
            Part::Point { polygon, point } => write!(f, "polygon {polygon}, point {point}"),
            Part::Split(at) => write!(f, "split {at}"),
            Part::Link(link) => link.fmt(f),
        }
    }
}

impl Lines {
    /// Why a board has no mesh, or no net, with the line of its text to blame.
    pub fn blame(&self, board: &Board, why: &Unmeshed) -> String {
        self.fault(board, why).to_string()
    }

    pub(super) fn fault(&self, board: &Board, why: &Unmeshed) -> Unclear {
        let Fault { part, words } = Fault::of(board, why, Some(self));
        let line = part.and_then(|part| self.of_part(board, &part));
        Unclear { line, words }
    }

    /// The line of a link.
    pub fn of_link(&self, link: Link) -> Option<usize> {
        let line = match link {
            Link::Contact(at) => self.contacts.get(at),
            Link::Via(at) => self.vias.get(at),
            Link::Channel(at) => self.channels.get(at),
        };
        line.copied()
    }

    fn of_part(&self, board: &Board, part: &Part) -> Option<usize> {
        match *part {
            Part::Target => self.target,
            Part::Layer(entry) => self.layers.get(entry).copied(),
            Part::Polygon(polygon) => self.polygons.get(polygon).copied(),
            Part::Point { polygon, point } => {
                let first = first_point(board, polygon);
                self.points.get(first.saturating_add(point)).copied()
            }
            Part::Split(at) => self.splits.get(at).copied(),
            Part::Link(link) => self.of_link(link),
        }
    }
}

/// Why a board that was given by its record has no mesh, or no net, in ticks and with the part that is to blame.
pub fn blame_record(board: &Board, why: &Unmeshed) -> String {
    let Fault { part, words } = Fault::of(board, why, None);
    match part {
        Some(part) => format!("{part}: {words}"),
        None => words,
    }
}

/// The index of a polygon's first point among those of the board.
fn first_point(board: &Board, polygon: usize) -> usize {
    let before = board.polygons.iter().take(polygon);
    before.fold(0, |sum: usize, &[_, _, points]| {
        sum.saturating_add(points as usize)
    })
}

impl Fault {
    /// By the lines of a text, in its unit.
    fn of(board: &Board, why: &Unmeshed, lines: Option<&Lines>) -> Self {
        let unit = Unit(lines.and_then(|lines| lines.pitch));
        match *why {
            Unmeshed::Refused(refusal) => Fault::of_refusal(board, refusal, unit),
            Unmeshed::TooLong(long) => Fault::of_long_strip(board, long, unit),
            Unmeshed::Loose(loose) => Fault::of_loose_node(board, loose, unit),
            Unmeshed::Overlap(overlap) => Fault::of_overlap(board, overlap, unit, lines),
            Unmeshed::Idle(idle) => Fault {
                part: Some(Part::Link(idle.link)),
                words: idle.words().to_string(),
            },
            Unmeshed::Astray(astray) => Fault::of_astray(astray, unit),
            Unmeshed::SameLayer(same) => Fault {
                part: Some(Part::Link(Link::Via(same.via))),
                words: same.words(),
            },
        }
    }

    fn of_astray(astray: Astray, unit: Unit) -> Self {
        let [place, nearest] = [astray.place, astray.nearest].map(|at| unit.show_point(at));
        let away = unit.show_distance(astray.distance());
        Fault {
            part: Some(Part::Link(astray.link)),
            words: format!(
                "{}, {place}: the nearest is at {nearest}, {away} away",
                astray.whose()
            ),
        }
    }

    fn of_refusal(board: &Board, refusal: Refusal, unit: Unit) -> Self {
        let found = match refusal.reason {
            Reason::Slanted => Fault::of_slant(board, refusal.place, unit),
            Reason::UnevenCell => Fault::of_uneven_cell(board, refusal.place, unit),
            Reason::NoSuchCell | Reason::AlreadySplit | Reason::FinestLevel | Reason::NoRoom => {
                Fault::of_cells(board)
            }
            _ => None,
        };
        found.unwrap_or(Fault {
            part: None,
            words: refusal.to_string(),
        })
    }

    /// The first point that differs in x and y from the one before it, or the last one from the first.
    fn of_slant(board: &Board, polygon: usize, unit: Unit) -> Option<Self> {
        let ring = ring(board, polygon)?;
        let (point, other) = first_slant(ring)?;
        let which = match other + 1 == point {
            true => "the point before it",
            false => "the first point",
        };
        let [own, other] = [point, other].map(|at| unit.show_point(ring[at]));
        Some(Fault {
            part: Some(Part::Point { polygon, point }),
            words: format!("{own} differs in both x and y from {which}, {other}"),
        })
    }

    /// The first strip whose base cells can't be split often enough: by the cell, where that is no multiple of what
    /// it has to be, and otherwise by the length.
    fn of_uneven_cell(board: &Board, polygon: usize, unit: Unit) -> Option<Self> {
        let cut = Cut::of(board, polygon)?;
        let ring = ring(board, polygon)?;
        let sides = |&[x0, y0, x1, y1]: &Rect| [x1 - x0, y1 - y0];
        let mut strips = strips_of(ring).into_iter();
        let strip = strips.find(|strip| !sides(strip).iter().all(|&long| cut.is_even(long)))?;
        let size = sides(&strip);
        let (step, level) = (unit.show_step(cut.step), level_in_words(board));
        let cell = cut.in_words(unit);
        if cut.cell % cut.step != 0 {
            let nearest = unit.show(nearest(cut.cell as i64, cut.step as i64));
            return Some(Fault {
                part: Some(cut.part(polygon)),
                words: format!(
                    "{cell}, is no multiple of {step} ({level}): the nearest is {nearest}"
                ),
            });
        }
        let (long, way) = size
            .into_iter()
            .zip(["wide", "high"])
            .find(|&(long, _)| !cut.is_even(long))?;
        let of = match long as u64 > cut.cell {
            true => cut.cell,
            false => cut.step,
        };
        let what = match long as u64 > cut.cell {
            true => cell,
            false => format!("{step} ({level})"),
        };
        let fitting = cut.fitting(ring).map_or(String::new(), |fitting| {
            format!(", and {} fit all sides of the ring", unit.show(fitting))
        });
        let nearest = unit.show(nearest(long, of as i64));
        let (size, long) = (unit.show_size(size), unit.show(long));
        Some(Fault {
            part: Some(Part::Point {
                polygon,
                point: west_of(ring, strip),
            }),
            words: format!(
                "a strip of {size} is {long} {way}, no multiple of {what}: the nearest is {nearest}{fitting}"
            ),
        })
    }

    /// Where a cell can't be split, or the cells get too many: at a polygon's base cells, at a split, or by balance.
    fn of_cells(board: &Board) -> Option<Self> {
        let (part, words) = match (first_without_room(board), first_refused(board)) {
            (Some(polygon), _) => (Some(Part::Polygon(polygon)), no_room()),
            (None, Some(Refused::Split(at, words))) => (Some(Part::Split(at)), words),
            (None, Some(Refused::Balance)) => (None, format!("balance needs {}", no_room())),
            (None, None) => return None,
        };
        Some(Fault { part, words })
    }

    /// With the three ways out.
    fn of_long_strip(board: &Board, long: TooLong, unit: Unit) -> Self {
        let own = unit.0.filter(|pitch| pitch.target() == long.cell);
        let name = own.map_or("base cells", |_| "pitches");
        let (cells, cap) = (long.cells, long.cap);
        let layer = board
            .polygons
            .get(long.polygon)
            .map_or(0, |polygon| polygon[0]);
        let larger = (long.cell * cells.div_ceil(cap)) as i64;
        let target = match (unit.0, own) {
            (Some(_), Some(_)) => format!("a larger pitch ({})", unit.show(larger)),
            (Some(_), None) => "a larger pitch".to_string(),
            (None, _) => format!("a larger target ({})", unit.show(larger)),
        };
        Fault {
            part: Some(Part::Point {
                polygon: long.polygon,
                point: long.point,
            }),
            words: format!(
                "{cells} {name} long; at most {cap} base cells: give layer {layer} a larger cell (layer {layer} {}), \
                 take {target}, or draw two polygons that touch",
                unit.words(&[larger])
            ),
        }
    }

    /// At the later polygon of the two.
    fn of_overlap(board: &Board, overlap: Overlap, unit: Unit, lines: Option<&Lines>) -> Self {
        let [first, second] = overlap.polygons;
        let other = match lines.and_then(|lines| lines.polygons.get(first)) {
            Some(line) => format!("the polygon of line {line}"),
            None => format!("polygon {first}"),
        };
        let way_out = match board.sheets.get(first) == board.sheets.get(second) {
            true => "`board merge` unites the two",
            false => "take it out of one of the two, whose sheet resistances differ",
        };
        Fault {
            part: Some(Part::Polygon(second)),
            words: format!(
                "overlaps {other} from {} on: copper of one layer and component is drawn once; {way_out}",
                unit.show_point(overlap.place)
            ),
        }
    }

    fn of_loose_node(board: &Board, loose: Loose, unit: Unit) -> Self {
        let [from, to] = loose.side.map(|end| unit.show_point(end));
        let misfit = Cut::of(board, loose.polygon).zip(ring(board, loose.polygon));
        let misfit = misfit.and_then(|(cut, ring)| cut.misfit(ring, unit));
        Fault {
            part: Some(Part::Polygon(loose.polygon)),
            words: format!(
                "a node at {} stands inside a leaf's side, from {from} to {to}, and isn't joined along it: make all \
                 coordinates multiples of the base cell, and draw copper once{}",
                unit.show_point(loose.place),
                misfit.unwrap_or_default()
            ),
        }
    }
}

/// How a polygon is cut into base cells.
struct Cut {
    layer: u64,
    /// Where the layer stands among those with a cell of their own.
    entry: Option<usize>,
    /// The size wanted of a cell.
    cell: u64,
    /// The most cells of a strip each way.
    cap: u64,
    /// What a cell's side must be a multiple of.
    step: u64,
}

impl Cut {
    fn of(board: &Board, polygon: usize) -> Option<Self> {
        let Settings {
            max_level,
            cap,
            target,
        } = board.settings();
        let layer = board.polygons.get(polygon)?[0];
        let is_own = |entry: &&[u64; 2]| entry[0] == layer && entry[1] > 0;
        let entry = board.layers.iter().position(|entry| is_own(&entry));
        let own = entry.map(|entry| board.layers[entry]);
        Some(Cut {
            layer,
            entry,
            cell: own.map_or(target, |entry| entry[1]).max(1),
            cap: cap.max(1),
            step: 2 << max_level.min(MAX_LEVEL),
        })
    }

    fn cells(&self, long: i64) -> u64 {
        (long as u64).div_ceil(self.cell).clamp(1, self.cap)
    }

    fn is_even(&self, long: i64) -> bool {
        long as u64 % (self.cells(long) * self.step) == 0
    }

    /// What says how large a cell is; of a text without a target the polygon.
    fn part(&self, polygon: usize) -> Part {
        match self.entry {
            Some(entry) => Part::Layer(entry),
            None if self.cell == 1 => Part::Polygon(polygon),
            None => Part::Target,
        }
    }

    /// "the cell of layer 1, 0.5 mm".
    fn in_words(&self, unit: Unit) -> String {
        let cell = unit.show(self.cell as i64);
        match (self.entry, unit.0) {
            (Some(_), _) => format!("the cell of layer {}, {cell}", self.layer),
            (None, Some(_)) => format!("the pitch, {cell}"),
            (None, None) if self.cell == 1 => {
                "the target, 1 tick where no line says it".to_string()
            }
            (None, None) => format!("the target, {cell}"),
        }
    }

    /// The largest cell of which all sides of a ring are multiples, if it can be split often enough.
    fn fitting(&self, ring: &[Point]) -> Option<i64> {
        let next = ring.iter().cycle().skip(1);
        let sides = ring.iter().zip(next);
        let long = |([ax, ay], [bx, by]): (&Point, &Point)| (ax - bx).abs() + (ay - by).abs();
        let common = sides.map(long).fold(0, divisor);
        (common > 0 && common % self.step as i64 == 0).then_some(common)
    }

    /// The first side of a ring that is longer than a cell and no multiple of it, with the nearest length that is.
    fn misfit(&self, ring: &[Point], unit: Unit) -> Option<String> {
        let cell = self.cell as i64;
        let next = ring.iter().cycle().skip(1);
        let mut sides = ring.iter().zip(next);
        let long = |[ax, ay]: &Point, [bx, by]: &Point| (ax - bx).abs() + (ay - by).abs();
        let (from, to) =
            sides.find(|(from, to)| long(from, to) > cell && long(from, to) % cell != 0)?;
        let own = long(from, to);
        Some(format!(
            "; its side from {} to {} is {} long, no multiple of {}: the nearest is {}",
            unit.show_point(*from),
            unit.show_point(*to),
            unit.show(own),
            self.in_words(unit),
            unit.show(nearest(own, cell))
        ))
    }
}

/// The nearest multiple of a length, itself at least.
fn nearest(long: i64, of: i64) -> i64 {
    let below = long / of;
    let whole = if 2 * (long % of) >= of {
        below + 1
    } else {
        below
    };
    whole.max(1) * of
}

/// The largest common divisor.
fn divisor(a: i64, b: i64) -> i64 {
    match b {
        0 => a,
        _ => divisor(b, a % b),
    }
}

/// "level 3", or that it is the default.
fn level_in_words(board: &Board) -> String {
    let whose = match board.max_level {
        MEANS_DEFAULT => ", the default",
        _ => "",
    };
    format!("level {}{whose}", board.settings().max_level)
}

fn ring(board: &Board, polygon: usize) -> Option<&[Point]> {
    let &[_, _, points] = board.polygons.get(polygon)?;
    board
        .points
        .get(first_point(board, polygon)..)?
        .get(..points as usize)
}

/// The first polygon with whose base cells there are more than there is room for.
fn first_without_room(board: &Board) -> Option<usize> {
    let has_room = |polygons: usize| {
        let mut part = board.clone();
        part.polygons.truncate(polygons);
        part.sheets.truncate(polygons);
        part.points.truncate(first_point(board, polygons));
        let made = base_cells(&part);
        !matches!(made, Err(Unmeshed::Refused(why)) if why.reason == Reason::NoRoom)
    };
    let polygons: Vec<usize> = (0..board.polygons.len()).collect();
    let full = polygons.partition_point(|&polygon| has_room(polygon + 1));
    polygons.get(full).copied()
}
