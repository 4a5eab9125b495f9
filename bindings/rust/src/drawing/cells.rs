//! The cells with their colours, what a cell says under the pointer, and the nodes.

use super::layout::Layout;
use super::svg::put_words;
use super::{Colouring, Picture, Place};
use std::collections::BTreeMap;
use std::fmt::{self, Write};

/// One colour a level, from 0 to 12.
pub const LEVELS: [&str; 13] = [
    "#f4f1e8", "#fbe3a2", "#f6b95d", "#e98a4b", "#d65a4e", "#b23a68", "#8a2f86", "#5f3a9e",
    "#3f55b5", "#2b7bb9", "#1f9ea3", "#2f8a55", "#1f4f33",
];

/// The colour of a level.
pub fn colour_of(level: u64) -> &'static str {
    LEVELS[(level as usize).min(LEVELS.len() - 1)]
}

/// Of what separates cells, and of dots.
pub const LINE: &str = "#1c2733";

/// Where there is no copper: pale leaves are seen on it as well as dark ones.
const BOARD: &str = "#c9ced6";

/// What lies below the cells.
pub fn put_boards(layout: &Layout, text: &mut String) -> fmt::Result {
    let [w, h] = layout.size;
    for &layer in &layout.layers {
        let [x, y] = layout.corner(layer);
        writeln!(
            text,
            "<rect x=\"{x:.2}\" y=\"{y:.2}\" width=\"{w:.2}\" height=\"{h:.2}\" fill=\"{BOARD}\"/>"
        )?;
        if layout.layers.len() > 1 || layer != 0 {
            let words = format!("layer {layer}");
            put_words(layout.heading(layer), " font-size=\"13\"", &words, text)?;
        }
    }
    Ok(())
}

pub fn put_cells(picture: &Picture, layout: &Layout, text: &mut String) -> fmt::Result {
    let colouring = &picture.colouring;
    let scale = colouring.scale();
    // Below borders the cells' own lines are thin, so that they aren't taken for these.
    let outline = if picture.borders.is_some() { 0.5 } else { 1.0 };
    writeln!(text, "<g stroke=\"{LINE}\">")?;
    for (at, cell) in picture.cells.iter().enumerate() {
        let [x0, y0, x1, y1] = layout.rect(cell.layer, cell.rect);
        let (w, h) = (x1 - x0, y1 - y0);
        let line = outline * line_of(w.min(h));
        let fill = colouring.colour(at, cell, scale);
        writeln!(
            text,
            "<rect x=\"{x0:.4}\" y=\"{y0:.4}\" width=\"{w:.4}\" height=\"{h:.4}\" fill=\"{fill}\" \
             stroke-width=\"{line:.4}\"><title>leaf {}, level {}{}</title></rect>",
            cell.id,
            cell.level,
            colouring.words(at)
        )?;
    }
    writeln!(text, "</g>")
}

/// How wide a line between cells of a size is. Where they are small it leaves them their colour.
fn line_of(side: f64) -> f64 {
    const SMALL: f64 = 3.0;
    (0.06 * side * (side / SMALL).min(1.0)).min(0.8)
}

/// The smallest side of the cells at each place, in picture units.
pub struct Sides(BTreeMap<Place, f64>);

impl Sides {
    pub fn of(picture: &Picture, unit: f64) -> Self {
        let mut sides: BTreeMap<Place, f64> = BTreeMap::new();
        for cell in &picture.cells {
            let [x0, y0, x1, y1] = cell.rect;
            let side = (x1 - x0).min(y1 - y0) as f64 * unit;
            for place in cell.corners() {
                let least = sides.entry(place).or_insert(side);
                *least = least.min(side);
            }
        }
        Sides(sides)
    }

    /// 0 where no cell has a corner.
    pub fn at(&self, place: Place) -> f64 {
        self.0.get(&place).copied().unwrap_or(0.0)
    }
}

/// Smaller dots than this are left out, but for those of hanging nodes, which whoever looks closer wants.
const SMALLEST_DOT: f64 = 1.0;

pub fn put_nodes(
    picture: &Picture,
    layout: &Layout,
    sides: &Sides,
    text: &mut String,
) -> fmt::Result {
    let by_level = matches!(picture.colouring, Colouring::Levels);
    for &place in &picture.nodes {
        let side = sides.at(place);
        let [x, y] = layout.place(place);
        if picture.hanging.contains(&place) {
            put_hanging([x, y], (0.17 * side).min(5.0), text)?;
        } else if by_level && 0.07 * side > SMALLEST_DOT {
            let radius = (0.07 * side).min(2.5);
            writeln!(
                text,
                "<circle cx=\"{x:.2}\" cy=\"{y:.2}\" r=\"{radius:.2}\" fill=\"{LINE}\"/>"
            )?;
        }
    }
    Ok(())
}

/// White with a black rim: seen on pale and on dark cells.
pub fn put_hanging([x, y]: [f64; 2], radius: f64, text: &mut String) -> fmt::Result {
    let rim = 0.35 * radius;
    writeln!(
        text,
        "<circle cx=\"{x:.4}\" cy=\"{y:.4}\" r=\"{radius:.4}\" fill=\"#ffffff\" stroke=\"#000000\" \
         stroke-width=\"{rim:.4}\"/>"
    )
}

/// A target round the hottest leaf, so that it is found where leaves are small.
pub fn put_hottest(picture: &Picture, layout: &Layout, text: &mut String) -> fmt::Result {
    let Some(at) = picture.hottest() else {
        return Ok(());
    };
    let cell = &picture.cells[at];
    let [x0, y0, x1, y1] = layout.rect(cell.layer, cell.rect);
    let radius = (0.8 * (x1 - x0).max(y1 - y0)).max(SMALLEST_TARGET);
    put_target([(x0 + x1) / 2.0, (y0 + y1) / 2.0], radius, text)
}

const SMALLEST_TARGET: f64 = 8.0;

/// A ring with four strokes out of it, black on white.
pub fn put_target([x, y]: [f64; 2], radius: f64, text: &mut String) -> fmt::Result {
    let (west, north) = (x - radius, y - radius);
    let (around, out) = (2.0 * radius, 0.6 * radius);
    for (colour, wide) in [("#ffffff", 4.0), ("#000000", 1.5)] {
        writeln!(
            text,
            "<path d=\"M{west:.2} {y:.2}a{radius:.2} {radius:.2} 0 1 1 0 0.01z\
             m0 0h-{out:.2}M{:.2} {y:.2}h{out:.2}M{x:.2} {north:.2}v-{out:.2}m0 {:.2}v{out:.2}\" fill=\"none\" \
             stroke=\"{colour}\" stroke-width=\"{wide}\"/>",
            west + around,
            around + out
        )?;
    }
    Ok(())
}
