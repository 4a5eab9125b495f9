//! What stands below the panels: a length, the scale of the colours, what is applied, and what the signs mean.

use super::borders::scale_of;
use super::cells::{colour_of, put_hanging, put_target, LINE};
use super::figures::round_length;
use super::flow::{Flows, Quantity};
use super::layout::{Layout, MARGIN};
use super::scale::{put_bar, Marked, Scale};
use super::svg::{put_words, width_of};
use super::{border_lines, marks, Colouring, Picture};
use std::collections::BTreeSet;
use std::fmt::{self, Write};

/// Of its words.
const SIZE: f64 = 12.0;
/// From one line of the legend to the next.
const ROW: f64 = 22.0;

/// Where the next thing of the legend goes.
struct Pen {
    x: f64,
    y: f64,
    /// Of the whole picture.
    width: f64,
}

impl Pen {
    /// Begins a line, if there is anything on this one.
    fn break_line(&mut self) {
        if self.x > MARGIN {
            self.x = MARGIN;
            self.y += ROW;
        }
    }

    /// Where words go that stand so far behind a sign: here, or on the next line.
    fn entry(&mut self, sign: f64, words: &str) -> [f64; 2] {
        let wide = sign + width_of(words, SIZE);
        if self.x + wide > self.width - MARGIN {
            self.break_line();
        }
        let at = [self.x, self.y];
        self.x += wide + 17.0;
        at
    }

    /// On lines of their own, parts that hold together.
    fn put_parts(&mut self, parts: &[String], text: &mut String) -> fmt::Result {
        let most = self.width - 2.0 * MARGIN;
        let mut line = String::new();
        for part in parts {
            let longer = match line.as_str() {
                "" => part.clone(),
                line => format!("{line} {part}"),
            };
            if !line.is_empty() && width_of(&longer, SIZE) > most {
                self.put_line(&line, text)?;
                line = part.clone();
            } else {
                line = longer;
            }
        }
        match line.as_str() {
            "" => Ok(()),
            line => self.put_line(line, text),
        }
    }

    /// A bar with words over it.
    fn put_bar(
        &mut self,
        words: &str,
        below: &Marked,
        above: Option<&Marked>,
        text: &mut String,
    ) -> fmt::Result {
        let parts: Vec<String> = words.split_whitespace().map(str::to_string).collect();
        self.put_parts(&parts, text)?;
        self.y = put_bar(below, above, self.y - 12.0, text)? + ROW + 4.0;
        Ok(())
    }

    fn put_line(&mut self, words: &str, text: &mut String) -> fmt::Result {
        self.break_line();
        put_words([self.x, self.y], "", words, text)?;
        self.y += ROW;
        Ok(())
    }
}

/// Answers how high the picture is.
pub fn put(picture: &Picture, layout: &Layout, text: &mut String) -> Result<f64, fmt::Error> {
    let mut pen = Pen {
        x: MARGIN,
        y: layout.bottom() + 4.0,
        width: layout.width(),
    };
    put_length(layout, &mut pen, text)?;
    match (&picture.colouring, picture.colouring.scale()) {
        (Colouring::Values { words, .. }, Some(scale)) => {
            put_values(words, scale, &mut pen, text)?;
        }
        (Colouring::Flows(flows), _) => put_flows(flows, picture, &mut pen, text)?,
        _ => {}
    }
    pen.put_parts(&picture.terminals.words, text)?;
    put_levels(picture, &mut pen, text)?;
    put_signs(picture, &mut pen, text)?;
    put_borders(picture, layout, &mut pen, text)?;
    let words = counts_of(picture);
    let at = pen.entry(0.0, &words);
    put_words(at, "", &words, text)?;
    Ok(pen.y + MARGIN)
}

/// Without a panel there is no length.
fn put_length(layout: &Layout, pen: &mut Pen, text: &mut String) -> fmt::Result {
    if layout.layers.is_empty() {
        return Ok(());
    }
    let (ticks, words) = round_length(layout.size[0] / layout.unit / 4.0);
    let (x, y, length) = (pen.x, pen.y, ticks * layout.unit);
    writeln!(
        text,
        "<path d=\"M{x:.2} {:.2}v8m0 -4h{length:.2}m0 -4v8\" fill=\"none\" stroke=\"#000000\" stroke-width=\"1.5\"/>",
        y - 4.0
    )?;
    put_words([x + length + 8.0, y + 4.0], "", &words, text)?;
    pen.y += 28.0;
    Ok(())
}

fn put_values(words: &str, scale: Scale, pen: &mut Pen, text: &mut String) -> fmt::Result {
    let unit = "";
    pen.put_bar(
        &format!("{words}, logarithmic"),
        &Marked { scale, unit },
        None,
        text,
    )
}

/// Both quantities beside one bar, and the cells with the most of each.
fn put_flows(flows: &Flows, picture: &Picture, pen: &mut Pen, text: &mut String) -> fmt::Result {
    let named = |quantity: Quantity| format!("{} in {}", quantity.words(), quantity.unit());
    let marked = |scale: Scale, quantity: Quantity| Marked {
        scale,
        unit: quantity.unit(),
    };
    let (own, other) = (flows.quantity, flows.quantity.other());
    let above = flows.other_scale().map(|scale| marked(scale, other));
    let more = match above {
        Some(_) => format!("above: {}", named(other)),
        None => format!("no scale in {}: sheet resistances differ", other.unit()),
    };
    let words = format!("{}, logarithmic ({more})", named(own));
    pen.put_bar(&words, &marked(flows.scale(), own), above.as_ref(), text)?;
    put_most(flows, picture, pen, text)
}

/// The hottest cell, with its target; and the one with the most current, where a sheet resistance of its own makes it
/// another one.
fn put_most(flows: &Flows, picture: &Picture, pen: &mut Pen, text: &mut String) -> fmt::Result {
    let said = |at: usize| {
        let (cell, flowing) = (&picture.cells[at], flows.cells[at].words());
        format!("leaf {} (layer {}), {flowing}", cell.id, cell.layer)
    };
    let Some(hottest) = picture.hottest() else {
        let words = match (flows.cells.is_empty(), flows.left_out.contains(&true)) {
            (true, _) => "hottest: not known, since the solution has no power of a leaf",
            (_, true) => "hottest: none but leaves at links of one node",
            (false, false) => "hottest: none, since no leaf takes power",
        };
        return pen.put_line(words, text);
    };
    put_target([pen.x + 7.0, pen.y - 4.0], 4.5, text)?;
    pen.x += SIGN;
    put_words(
        [pen.x, pen.y],
        "",
        &format!("hottest: {}", said(hottest)),
        text,
    )?;
    pen.break_line();
    match flows.left_out.iter().filter(|&&is_out| is_out).count() {
        0 => {}
        count => {
            let words = format!("left out: {count} leaves in base cells at links of one node");
            pen.put_line(&words, text)?;
        }
    }
    let most = flows.most(Quantity::SheetCurrent);
    let is_other = |at: &usize| *at != hottest && *at < picture.cells.len();
    match most.filter(is_other) {
        Some(at) if flows.other_scale().is_none() => {
            pen.put_line(&format!("most current: {}", said(at)), text)
        }
        _ => Ok(()),
    }
}

fn put_levels(picture: &Picture, pen: &mut Pen, text: &mut String) -> fmt::Result {
    if !matches!(picture.colouring, Colouring::Levels) {
        return Ok(());
    }
    let levels: BTreeSet<u64> = picture.cells.iter().map(|cell| cell.level).collect();
    for level in levels {
        let words = format!("level {level}");
        let [x, y] = pen.entry(SIGN, &words);
        writeln!(
            text,
            "<rect x=\"{x:.0}\" y=\"{:.0}\" width=\"14\" height=\"14\" fill=\"{}\" stroke=\"{LINE}\" \
             stroke-width=\"0.5\"/>",
            y - 11.0,
            colour_of(level)
        )?;
        put_words([x + SIGN, y], "", &words, text)?;
    }
    Ok(())
}

/// From the start of a sign to its words.
const SIGN: f64 = 19.0;

/// A sign of the legend: whether the picture has any, what it means, and how it looks at a place.
type Sign = (bool, &'static str, fn([f64; 2], &mut String) -> fmt::Result);

fn put_signs(picture: &Picture, pen: &mut Pen, text: &mut String) -> fmt::Result {
    let marks = &picture.marks;
    let signs: [Sign; 5] = [
        (
            !picture.hanging.is_empty(),
            "node at the middle of a leaf's side",
            |[x, y], text| put_hanging([x + 7.0, y - 4.0], 5.0, text),
        ),
        (
            !marks.footprints.is_empty(),
            marks.footprint_words(),
            |[x, y], text| marks::put_footprint([x, y - 11.0, x + 14.0, y + 3.0], text),
        ),
        (!marks.pairs.is_empty(), marks::PAIR, |[x, y], text| {
            marks::put_pair([[x, y - 4.0], [x + 14.0, y - 4.0]], text)
        }),
        (!marks.ends.is_empty(), marks::END, |[x, y], text| {
            marks::put_end([x + 7.0, y - 4.0], marks::LARGEST_END, text)
        }),
        (!picture.lone().is_empty(), marks::LONE, |[x, y], text| {
            marks::put_lone([x + 7.0, y - 4.0], text)
        }),
    ];
    for (_, words, put) in signs.into_iter().filter(|sign| sign.0) {
        let [x, y] = pen.entry(SIGN, words);
        put([x, y], text)?;
        put_words([x + SIGN, y], "", words, text)?;
    }
    Ok(())
}

/// Lines of some lengths, on a row of their own.
fn put_borders(
    picture: &Picture,
    layout: &Layout,
    pen: &mut Pen,
    text: &mut String,
) -> fmt::Result {
    let borders = picture.borders.as_deref().unwrap_or_default();
    if borders.is_empty() {
        return Ok(());
    }
    let scale = scale_of(borders, layout);
    pen.break_line();
    let words = "borders:";
    let at = pen.entry(0.0, words);
    put_words(at, "", words, text)?;
    for sample in scale.samples(picture.borders_across() > 0) {
        let behind = border_lines::SAMPLE + 5.0;
        let [x, y] = pen.entry(behind, &sample.words);
        border_lines::put_sample([x, y - 4.0], &sample, &scale, text)?;
        put_words([x + behind, y], "", &sample.words, text)?;
    }
    Ok(())
}

fn counts_of(picture: &Picture) -> String {
    let mut words = format!("{} leaves", picture.cells.len());
    if let Some(borders) = &picture.borders {
        words += &format!(", {} borders", borders.len());
        match picture.borders_across() {
            0 => {}
            across => words += &format!(", {across} of them across layers"),
        }
    }
    match picture.marks.links {
        0 => {}
        links => words += &format!(", {links} links"),
    }
    words
}
