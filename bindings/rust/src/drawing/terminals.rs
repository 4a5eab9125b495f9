//! Terminals: where they are, and what stands there.

use super::figures::with_unit;
use super::layout::Layout;
use super::outline::Outline;
use super::svg::{escaped, put_words, shortened, width_of};
use super::{Cell, Place};
use crate::solving::{given_by, Applied, Drive, Held};
use std::collections::{BTreeMap, BTreeSet};
use std::fmt::{self, Write};

/// All terminals of a picture.
#[derive(Clone, Debug, Default, PartialEq)]
pub struct Terminals {
    marks: Vec<Mark>,
    /// What the legend says of them, by parts that stay on one line.
    pub words: Vec<String>,
}

/// A terminal on one layer.
#[derive(Clone, Debug, PartialEq)]
struct Mark {
    outline: Outline,
    places: BTreeSet<Place>,
    /// For its label, and what is said when it is pointed at.
    label: String,
    title: String,
}

/// Longer names are cut where they are drawn.
const LONGEST_NAME: usize = 24;
/// A current or potential below this share of the largest is what the solver's iteration left.
const LEFT_OVER: f64 = 1e-9;

impl Terminals {
    /// `place` answers where a node is; one that has none is passed over. A terminal that nothing is known of says what
    /// it is held at.
    pub fn of(
        cells: &[Cell],
        held: &[Held],
        applied: &[Applied],
        place: impl Fn(usize) -> Option<Place>,
    ) -> Self {
        let applied = settled(applied);
        let mut marks = Vec::new();
        for (number, one) in held.iter().enumerate() {
            let said = beside(one, applied.get(number));
            let mut layers: BTreeMap<i64, BTreeSet<Place>> = BTreeMap::new();
            for place in one.nodes.iter().filter_map(|&node| place(node)) {
                layers.entry(place[0]).or_default().insert(place);
            }
            marks.extend(layers.into_iter().map(|(layer, places)| Mark {
                outline: Outline::of(cells, layer, &places),
                places,
                label: format!("{}: {said}", name_of(one)),
                title: format!("terminal {}: {said}", one.terminal),
            }));
        }
        let words = words_of(held, &applied);
        Terminals { marks, words }
    }

    /// Draws the terminals along their nodes.
    pub fn put(&self, layout: &Layout, text: &mut String) -> fmt::Result {
        self.marks
            .iter()
            .try_for_each(|mark| mark.put(layout, text))
    }
}

fn name_of(one: &Held) -> String {
    shortened(&one.terminal, LONGEST_NAME)
}

/// Without what the iteration left.
fn settled(applied: &[Applied]) -> Vec<Applied> {
    let most = |of: fn(&Applied) -> f64| applied.iter().map(of).fold(0.0, |a, b| b.abs().max(a));
    let (volts, amperes) = (most(|one| one.volts), most(|one| one.amperes));
    let clean = |value: f64, most: f64| match value.abs() < LEFT_OVER * most {
        true => 0.0,
        false => value,
    };
    let settle = |one: &Applied| Applied {
        terminal: one.terminal.clone(),
        volts: clean(one.volts, volts),
        amperes: clean(one.amperes, amperes),
    };
    applied.iter().map(settle).collect()
}

/// Potential and current, or what is known of them.
fn beside(one: &Held, applied: Option<&Applied>) -> String {
    match (applied, one.drive) {
        (Some(Applied { volts, amperes, .. }), _) => {
            format!("{}, {}", with_unit(*volts, "V"), with_unit(*amperes, "A"))
        }
        (None, Drive::Volts(volts)) => with_unit(volts, "V"),
        (None, Drive::Amperes(amperes)) => with_unit(amperes, "A"),
    }
}

/// What the legend says.
fn words_of(held: &[Held], applied: &[Applied]) -> Vec<String> {
    if held.is_empty() {
        return Vec::new();
    }
    let said = |(number, one): (usize, &Held)| match applied.get(number) {
        Some(Applied { volts, amperes, .. }) => {
            let [volts, amperes] = [with_unit(*volts, "V"), with_unit(*amperes, "A")];
            format!("{} {amperes} at {volts}", name_of(one))
        }
        None => format!("{} {}", name_of(one), beside(one, None)),
    };
    let mut words: Vec<String> = held.iter().enumerate().map(said).collect();
    if applied.len() >= held.len() {
        words.push(format!("{} in all", with_unit(given_by(applied), "W")));
    }
    let last = words.len().saturating_sub(1);
    words[..last].iter_mut().for_each(|part| part.push(';'));
    words[0].insert_str(0, "applied: ");
    words
}

/// Black on white: seen on pale and on dark cells.
const COLOUR: &str = "#000000";
const HALO: &str = "#ffffff";
const WIDE: f64 = 3.5;
const WIDE_HALO: f64 = 6.5;

impl Mark {
    fn put(&self, layout: &Layout, text: &mut String) -> fmt::Result {
        let mut path = String::new();
        for line in &self.outline.lines {
            let [[ax, ay], [bx, by]] = line.map(|place| layout.place(place));
            write!(path, "M{ax:.2} {ay:.2}L{bx:.2} {by:.2}")?;
        }
        // A line of no length is a square as wide as the line.
        for &dot in &self.outline.dots {
            let [x, y] = layout.place(dot);
            write!(path, "M{x:.2} {y:.2}h0.01")?;
        }
        writeln!(
            text,
            "<g fill=\"none\" stroke-linecap=\"square\"><title>{}</title><path d=\"{path}\" stroke=\"{HALO}\" \
             stroke-width=\"{WIDE_HALO}\"/><path d=\"{path}\" stroke=\"{COLOUR}\" stroke-width=\"{WIDE}\"/></g>",
            escaped(&self.title)
        )
    }

    /// The place that its label points at: in the middle of those farthest north or south.
    fn anchor(&self, is_above: bool) -> Option<Place> {
        let height = |place: &&Place| if is_above { place[2] } else { -place[2] };
        let top = self.places.iter().map(|place| height(&place)).max()?;
        let ends: Vec<&Place> = self
            .places
            .iter()
            .filter(|place| height(place) == top)
            .collect();
        let middle = (ends.first()?[1] + ends.last()?[1]) / 2;
        let nearest = ends
            .into_iter()
            .min_by_key(|place| (place[1] - middle).abs());
        nearest.copied()
    }

    /// Whether its label stands above its panel, and not below.
    fn is_above(&self, layout: &Layout) -> bool {
        let heights = || self.places.iter().map(|place| place[2]);
        let (low, high) = (heights().min(), heights().max());
        layout.is_north(low.unwrap_or(0), high.unwrap_or(0))
    }
}

/// The labels of terminals, in rows above and below the panels, where they hide no copper.
pub struct Labels(Vec<Label>);

struct Label {
    words: String,
    anchor: Place,
    is_above: bool,
    /// From the copper outwards.
    row: usize,
    /// From the west of its panel.
    left: f64,
    wide: f64,
}

/// Of a label's words.
const SIZE: f64 = 11.0;
/// Beside a label's words, on either hand.
const PAD: f64 = 4.0;
const HIGH: f64 = 16.0;
/// From one row of labels to the next, and between the first row and the copper.
const ROW: f64 = 20.0;
const CLEAR: f64 = 8.0;

impl Labels {
    /// Makes room for the labels.
    pub fn of(terminals: &Terminals, layout: &mut Layout) -> Self {
        let label = |mark: &Mark| {
            let is_above = mark.is_above(layout);
            Some(Label {
                words: mark.label.clone(),
                anchor: mark.anchor(is_above)?,
                is_above,
                row: 0,
                left: 0.0,
                wide: width_of(&mark.label, SIZE) + 2.0 * PAD,
            })
        };
        let mut labels: Vec<Label> = terminals.marks.iter().filter_map(label).collect();
        let widest = labels.iter().map(|label| label.wide).fold(0.0, f64::max);
        layout.make_room([0.0; 2], widest);
        labels.sort_by_key(|label| label.anchor);
        put_in_rows(&mut labels, layout);
        let room = [true, false].map(|is_above| {
            let own = labels.iter().filter(|label| label.is_above == is_above);
            let rows = own.map(|label| label.row + 1).max();
            rows.map_or(0.0, |rows| rows as f64 * ROW + CLEAR)
        });
        layout.make_room(room, widest);
        Labels(labels)
    }

    /// Lines to the terminals below, then the labels.
    pub fn put(&self, layout: &Layout, text: &mut String) -> fmt::Result {
        for label in &self.0 {
            let ([x0, y0, x1, y1], [x, y]) = (label.rect(layout), layout.place(label.anchor));
            let from = [
                x.clamp(x0 + PAD, x1 - PAD),
                if label.is_above { y1 } else { y0 },
            ];
            let path = format!("M{:.2} {:.2}L{x:.2} {y:.2}", from[0], from[1]);
            writeln!(
                text,
                "<path d=\"{path}\" stroke=\"{HALO}\" stroke-width=\"3\"/><path d=\"{path}\" stroke=\"{COLOUR}\"/>"
            )?;
        }
        self.0.iter().try_for_each(|label| label.put(layout, text))
    }
}

/// Each in the first row of its side of its panel that has room for it near its terminal. They come from west to east.
fn put_in_rows(labels: &mut [Label], layout: &Layout) {
    let mut rows: BTreeMap<(i64, bool), Vec<f64>> = BTreeMap::new();
    for label in labels {
        let layer = label.anchor[0];
        let ends = rows.entry((layer, label.is_above)).or_default();
        let x = layout.place(label.anchor)[0] - layout.corner(layer)[0];
        let most = (layout.panel_width() - label.wide).max(0.0);
        let wanted = (x - label.wide / 2.0).clamp(0.0, most);
        let is_free = |end: &f64| *end <= most.min(wanted + label.wide / 2.0);
        label.row = ends.iter().position(is_free).unwrap_or(ends.len());
        ends.resize(ends.len().max(label.row + 1), 0.0);
        label.left = wanted.max(ends[label.row]);
        ends[label.row] = label.left + label.wide + CLEAR;
    }
}

impl Label {
    fn rect(&self, layout: &Layout) -> [f64; 4] {
        let [x, top] = layout.corner(self.anchor[0]);
        let away = CLEAR + self.row as f64 * ROW;
        let y0 = match self.is_above {
            true => top - away - HIGH,
            false => top + layout.size[1] + away,
        };
        let x0 = x + self.left;
        [x0, y0, x0 + self.wide, y0 + HIGH]
    }

    fn put(&self, layout: &Layout, text: &mut String) -> fmt::Result {
        let [x0, y0, x1, _] = self.rect(layout);
        writeln!(
            text,
            "<rect x=\"{x0:.2}\" y=\"{y0:.2}\" width=\"{:.2}\" height=\"{HIGH}\" rx=\"3\" fill=\"{HALO}\" \
             stroke=\"{COLOUR}\" stroke-width=\"0.8\"/>",
            self.wide
        )?;
        let more = format!(" font-size=\"{SIZE}\" text-anchor=\"middle\"");
        put_words([(x0 + x1) / 2.0, y0 + 12.0], &more, &self.words, text)
    }
}
