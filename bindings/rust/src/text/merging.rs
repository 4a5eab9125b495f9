//! A text whose copper is drawn once.

use super::reading::Reading;
use super::rings::first_slant;
use super::unit::{grouped, Unit};
use super::{reading_of, Unclear, Warning, Whole};
use crate::limits::POLYGONS;
use crate::merging::{cut, first_overlap, rings_of, unions, Bounds, Overlap, Union};
use crate::solving::{Spot, Terminal};
use crate::{Contact, Link, Links, Mesh, Point, Polygons, Reason, Refusal, Unmeshed};
use std::collections::HashMap;

/// A text whose polygons of one layer, component and sheet resistance have neither an area nor a border in common.
#[derive(Clone, Debug, PartialEq)]
pub struct Merged {
    /// The text; what isn't united stands as it stood.
    pub text: String,
    /// What is united, a sentence for each union.
    pub united: Vec<String>,
    /// What is left out, since it would mean something else: it stands in the text as a comment.
    pub warnings: Vec<Warning>,
}

/// A text with its copper drawn once: of polygons of one layer, component and sheet resistance that overlap or border
/// on each other there stands, in the place of the first, what they enclose together. That is a ring for each piece,
/// in which holes hang by a level side there and back; a ring that a record couldn't hold, or of a strip that is
/// longer than `cap` base cells, is cut into polygons that touch.
///
/// Contacts and pads name the new polygons: the contact between two that are one now is left out, and a pad that was a
/// rectangle becomes a `rect`. So are ids of cells to be split, which are others now; what `refine` says stands.
///
/// ```
/// let text = "pitch 1\npolygon 1 0 0.0005\n0 0\n4 0\n4 2\n0 2\npolygon 1 0 0.0005\n2 0\n6 0\n6 2\n2 2\n";
/// let merged = leafmesh::text::merge(text)?;
/// assert_eq!(merged.text, "pitch 1\npolygon 1 0 0.0005\n0 0\n6 0\n6 2\n0 2\n");
/// assert_eq!(merged.united, ["lines 2 and 7: one ring of 4 points on layer 1, component 0"]);
/// # Ok::<(), leafmesh::text::Unclear>(())
/// ```
///
/// # Errors
///
/// Those of [`parse_whole`](super::parse_whole), but for what is split; a slanted ring; polygons of two sheet
/// resistances that overlap, by the later one's line; more than 256 polygons; a contact that would begin or end
/// elsewhere, and a pad of another form than a rectangle.
pub fn merge(text: &str) -> Result<Merged, Unclear> {
    let (whole, splits) = reading_of(text)?.end_unsplit()?;
    let polygons = polygons_of(&whole)?;
    let unions = unions(polygons.outlines());
    let merging = Merging::of(&whole, &polygons, &unions);
    merging.judge(&polygons)?;
    if unions.is_empty() {
        let text = text.to_string();
        return Ok(Merged {
            text,
            united: Vec::new(),
            warnings: Vec::new(),
        });
    }
    let mut edits = Edits::default();
    merging.draw(&mut edits);
    merging.name_again(&polygons, &mut edits)?;
    for line in splits {
        edits.leave_out(line, "cells have other ids once copper is united");
    }
    let Edits { warnings, .. } = &edits;
    let mut warnings = warnings.clone();
    warnings.sort_by_key(|warning| warning.line);
    let merged = edits.of(text);
    merging.judge_contacts(&merged)?;
    Ok(Merged {
        text: merged,
        united: merging.in_words(),
        warnings,
    })
}

/// The polygons of a text, none of them slanted.
fn polygons_of(whole: &Whole) -> Result<Polygons, Unclear> {
    let refused = |refusal| whole.lines.fault(&whole.board, &Unmeshed::Refused(refusal));
    let polygons = whole.board.polygons().map_err(refused)?;
    let rings = rings_of(polygons.outlines());
    match rings.iter().position(|ring| first_slant(ring).is_some()) {
        Some(place) => Err(refused(Refusal {
            reason: Reason::Slanted,
            place,
        })),
        None => Ok(polygons),
    }
}

/// What becomes of a text's polygons.
struct Merging<'a> {
    whole: &'a Whole,
    unit: Unit,
    unions: &'a [Union],
    /// The rings of each union as a record takes them, by the piece that they are cut from.
    drawn: Vec<Vec<Vec<Vec<Point>>>>,
    /// Of each polygon the union that it is in.
    union_of: Vec<Option<usize>>,
    /// Of each polygon the number that it has now, or that of the first ring of the first piece that it is a part of.
    number: Vec<usize>,
    /// The first polygon of each that there is now.
    from: Vec<usize>,
}

impl<'a> Merging<'a> {
    fn of(whole: &'a Whole, polygons: &Polygons, unions: &'a [Union]) -> Self {
        let count = polygons.layers.len();
        let mut union_of = vec![None; count];
        for (number, union) in unions.iter().enumerate() {
            union
                .polygons
                .iter()
                .for_each(|&polygon| union_of[polygon] = Some(number));
        }
        let drawn: Vec<Vec<Vec<Vec<Point>>>> = unions
            .iter()
            .map(|union| {
                let bounds = bounds_of(whole, union.polygons[0]);
                let pieces = union.rings.iter();
                pieces.map(|ring| cut(ring.clone(), bounds)).collect()
            })
            .collect();
        let (mut number, mut from): (Vec<usize>, Vec<usize>) = (vec![0; count], Vec::new());
        for polygon in 0..count {
            match union_of[polygon] {
                None => {
                    number[polygon] = from.len();
                    from.push(polygon);
                }
                Some(at) if unions[at].polygons[0] == polygon => {
                    let union: &Union = &unions[at];
                    let mut first_of = Vec::new();
                    for rings in &drawn[at] {
                        first_of.push(from.len());
                        from.extend(rings.iter().map(|_| polygon));
                    }
                    for (&own, parts) in union.polygons.iter().zip(&union.parts) {
                        number[own] = parts.first().map_or(first_of[0], |&part| first_of[part]);
                    }
                }
                Some(_) => {}
            }
        }
        let unit = Unit(whole.lines.pitch);
        Merging {
            whole,
            unit,
            unions,
            drawn,
            union_of,
            number,
            from,
        }
    }

    /// That no copper is drawn twice any more, and that there aren't too many polygons.
    fn judge(&self, polygons: &Polygons) -> Result<(), Unclear> {
        if let Some(overlap) = first_overlap(self.polygons(polygons).outlines()) {
            return Err(self.why_two(polygons, overlap));
        }
        match self.from.len() {
            count if count > POLYGONS => Err(Unclear {
                line: None,
                words: format!(
                    "drawn once, the copper has {} polygons, more than {POLYGONS}: a ring of more than 1,024 points \
                     and a strip of more than cap base cells are cut; take a larger cell of the layer, or leave out \
                     holes",
                    grouped(count)
                ),
            }),
            _ => Ok(()),
        }
    }

    /// The polygons that there are now.
    fn polygons(&self, before: &Polygons) -> Polygons {
        let rings = rings_of(before.outlines());
        let mut now = Polygons::default();
        for (polygon, ring) in rings.iter().enumerate() {
            let mut push = |ring: &[Point]| {
                let (layer, component) = (before.layers[polygon], before.components[polygon]);
                now.push(layer, component, before.sheets[polygon], ring);
            };
            match self.union_of[polygon] {
                None => push(ring),
                Some(union) if self.unions[union].polygons[0] == polygon => {
                    self.drawn[union]
                        .iter()
                        .flatten()
                        .for_each(|ring| push(ring));
                }
                Some(_) => {}
            }
        }
        now
    }

    /// Two polygons of two sheet resistances, in the words of all that overlap.
    fn why_two(&self, before: &Polygons, overlap: Overlap) -> Unclear {
        let rings = rings_of(before.outlines());
        let mut own = overlap.polygons.map(|now| {
            let first = self.from[now];
            let parts = self.union_of[first]
                .map_or(vec![first], |union| self.unions[union].polygons.clone());
            let there = parts
                .iter()
                .find(|&&part| crate::merging::encloses(rings[part], overlap.place));
            there.copied().unwrap_or(first)
        });
        own.sort_unstable();
        let overlap = Overlap {
            polygons: own,
            ..overlap
        };
        self.whole
            .lines
            .fault(&self.whole.board, &Unmeshed::Overlap(overlap))
    }

    /// The rings of the unions, each in the place of the first of its polygons.
    fn draw(&self, edits: &mut Edits) {
        let lines = &self.whole.lines;
        let mut points = lines.points.iter();
        for (polygon, &[layer, component, count]) in self.whole.board.polygons.iter().enumerate() {
            let own: Vec<usize> = points.by_ref().take(count as usize).copied().collect();
            let Some(union) = self.union_of[polygon] else {
                continue;
            };
            own.into_iter().for_each(|line| edits.take_out(line));
            let line = lines.polygons[polygon];
            if self.unions[union].polygons[0] != polygon {
                edits.take_out(line);
                continue;
            }
            let sheet = self.whole.board.sheets[polygon];
            let head = format!("polygon {layer} {component} {sheet:?}");
            let rings = self.drawn[union].iter().flatten();
            let rings = rings.map(|ring| self.points(ring));
            let rings: Vec<Vec<String>> = rings.collect();
            edits.put_behind(line, rings.join(&head));
        }
    }

    fn points(&self, ring: &[Point]) -> Vec<String> {
        ring.iter().map(|&point| self.unit.words(&point)).collect()
    }

    /// Contacts and pads by the numbers that polygons have now.
    fn name_again(&self, before: &Polygons, edits: &mut Edits) -> Result<(), Unclear> {
        let lines = &self.whole.lines;
        for (&Contact { from, to }, &line) in self.whole.links.contacts.iter().zip(&lines.contacts)
        {
            if self.is_one(from, to) {
                edits.leave_out(line, "the two polygons of the contact are one now");
            } else {
                let now = [from, to].map(|polygon| self.number[polygon]);
                if now != [from, to] {
                    edits.say(line, format!("contact {} {}", now[0], now[1]));
                }
            }
        }
        for (terminal, &line) in self.whole.terminals.iter().zip(&lines.terminals) {
            if let Spot::Pad { polygon } = terminal.spot {
                if self.union_of[polygon].is_some() || self.number[polygon] != polygon {
                    edits.say(line, self.pad(before, terminal, polygon, line)?);
                }
            }
        }
        Ok(())
    }

    /// Whether two polygons are parts of one piece now.
    fn is_one(&self, from: usize, to: usize) -> bool {
        let Some(union) = self.union_of[from].map(|union| &self.unions[union]) else {
            return false;
        };
        let parts = |polygon: usize| {
            let place = union.polygons.iter().position(|&own| own == polygon);
            place.map_or(&[][..], |place| &union.parts[place])
        };
        from != to && parts(from).iter().any(|part| parts(to).contains(part))
    }

    fn pad(
        &self,
        before: &Polygons,
        terminal: &Terminal,
        polygon: usize,
        line: usize,
    ) -> Result<String, Unclear> {
        let drive = format!("terminal {} {}", terminal.name, terminal.drive);
        if self.union_of[polygon].is_none() {
            return Ok(format!("{drive} pad {}", self.number[polygon]));
        }
        let [west, south, east, north] = rectangle_of(rings_of(before.outlines())[polygon]).ok_or_else(|| Unclear {
            line: Some(line),
            words: format!(
                "polygon {polygon} is a part of a larger one once its copper is united, and no rectangle: name the \
                 terminal's place by end, edge or rect"
            ),
        })?;
        let (layer, component) = (before.layers[polygon], before.components[polygon]);
        let corners = self.unit.words(&[west, south, east, north]);
        Ok(format!("{drive} rect {layer} {component} {corners}"))
    }

    /// That each contact joins the same places as before.
    fn judge_contacts(&self, merged: &str) -> Result<(), Unclear> {
        let contacts = &self.whole.links.contacts;
        let kept =
            (0..contacts.len()).filter(|&at| !self.is_one(contacts[at].from, contacts[at].to));
        let kept: Vec<usize> = kept.collect();
        let is_in_union = |&at: &usize| {
            let Contact { from, to } = contacts[at];
            self.union_of[from].is_some() || self.union_of[to].is_some()
        };
        let Some(first) = kept.iter().copied().find(is_in_union) else {
            return Ok(());
        };
        let before: Vec<Contact> = kept.iter().map(|&at| contacts[at]).collect();
        // Before anything is split, both times.
        let now = reading_of(merged).and_then(Reading::end_unsplit);
        let moved = match (ends_of(self.whole, &before), now) {
            (Some(before), Ok((now, _))) => match ends_of(&now, &now.links.contacts) {
                Some(now) => before
                    .iter()
                    .zip(&now)
                    .position(|(a, b)| a != b)
                    .map(|at| kept[at]),
                None => Some(first),
            },
            _ => Some(first),
        };
        match moved {
            None => Ok(()),
            Some(at) => Err(Unclear {
                line: self.whole.lines.of_link(Link::Contact(at)),
                words: "the contact would begin or end elsewhere once the copper of its polygons is united: take it \
                        out, or unite that copper by hand"
                    .to_string(),
            }),
        }
    }

    fn in_words(&self) -> Vec<String> {
        let one = |(union, pieces): (&Union, &Vec<Vec<Vec<Point>>>)| {
            let polygon = union.polygons[0];
            let [layer, component, _] = self.whole.board.polygons[polygon];
            let lines = union
                .polygons
                .iter()
                .map(|&polygon| self.whole.lines.polygons[polygon]);
            let rings: Vec<&Vec<Point>> = pieces.iter().flatten().collect();
            let points: usize = rings.iter().map(|ring| ring.len()).sum();
            let rings = match rings.len() {
                1 => "one ring".to_string(),
                count => format!("{} rings", grouped(count)),
            };
            let (lines, points) = (listed(lines.collect()), grouped(points));
            format!("{lines}: {rings} of {points} points on layer {layer}, component {component}")
        };
        self.unions.iter().zip(&self.drawn).map(one).collect()
    }
}

/// The most lines that are listed.
const LISTED: usize = 8;

/// "lines 2 and 7"; of many the first.
fn listed(lines: Vec<usize>) -> String {
    let shown: Vec<String> = lines.iter().take(LISTED).map(usize::to_string).collect();
    let (last, others) = shown.split_last().expect("two polygons or more");
    match lines.len() - shown.len() {
        0 => format!("lines {} and {last}", others.join(", ")),
        more => format!("lines {} and {} more", shown.join(", "), grouped(more)),
    }
}

fn bounds_of(whole: &Whole, polygon: usize) -> Bounds {
    let [layer, ..] = whole.board.polygons[polygon];
    let own = whole
        .board
        .layers
        .iter()
        .find(|entry| entry[0] == layer && entry[1] > 0);
    Bounds {
        cell: own.map_or(whole.board.target, |entry| entry[1]),
        cap: whole.board.cap,
    }
}

/// A ring's sides, if it is a rectangle.
fn rectangle_of(ring: &[Point]) -> Option<[i64; 4]> {
    let range = |axis: usize| {
        let all = ring.iter().map(|point| point[axis]);
        Some([all.clone().min()?, all.max()?])
    };
    let ([west, east], [south, north]) = (range(0)?, range(1)?);
    let (strips, whole) = (crate::unmeshed::strips_of(ring), [west, south, east, north]);
    // Points inside its sides make several strips of one.
    let area = |[x0, y0, x1, y1]: [i64; 4]| i128::from(x1 - x0) * i128::from(y1 - y0);
    let enclosed: i128 = strips.into_iter().map(area).sum();
    (enclosed == area(whole)).then_some(whole)
}

/// Of each contact the places that it joins, if there is a mesh.
fn ends_of(whole: &Whole, contacts: &[Contact]) -> Option<Vec<[Point; 2]>> {
    let mesh = Mesh::unjudged(&whole.board).ok()?;
    let links = Links {
        contacts,
        ..Links::default()
    };
    let net = mesh.unjudged_linked_net(links).ok()?;
    let place = |node: usize| [net.nodes[node].x, net.nodes[node].y];
    let ends = net
        .links()
        .iter()
        .map(|edge| [place(edge.from), place(edge.to)]);
    (net.links == contacts.len()).then(|| ends.collect())
}

/// What is done to the lines of a text.
#[derive(Default)]
struct Edits {
    /// What a line says now; none where it is taken out.
    said: HashMap<usize, Option<String>>,
    /// Lines to be put behind one.
    behind: HashMap<usize, Vec<String>>,
    /// Lines that become comments.
    left_out: HashMap<usize, ()>,
    warnings: Vec<Warning>,
}

impl Edits {
    fn take_out(&mut self, line: usize) {
        self.said.insert(line, None);
    }

    fn say(&mut self, line: usize, words: String) {
        self.said.insert(line, Some(words));
    }

    fn put_behind(&mut self, line: usize, lines: Vec<String>) {
        self.behind.insert(line, lines);
    }

    fn leave_out(&mut self, line: usize, why: &str) {
        if self.left_out.insert(line, ()).is_none() {
            let words = format!("left out: {why}");
            self.warnings.push(Warning { line, words });
        }
    }

    /// The text with these edits; a comment behind a line that says something else stays.
    fn of(&self, text: &str) -> String {
        let end = if text.contains("\r\n") { "\r\n" } else { "\n" };
        let mut lines: Vec<String> = Vec::new();
        for (number, line) in (1..).zip(text.lines()) {
            if self.left_out.contains_key(&number) {
                lines.push(format!("# left out: {}", line.trim_start()));
            } else {
                match self.said.get(&number) {
                    None => lines.push(line.to_string()),
                    Some(None) => {}
                    Some(Some(words)) => lines.push(match line.split_once('#') {
                        Some((_, comment)) => format!("{words} #{comment}"),
                        None => words.clone(),
                    }),
                }
            }
            lines.extend(self.behind.get(&number).into_iter().flatten().cloned());
        }
        lines.push(String::new());
        lines.join(end)
    }
}
