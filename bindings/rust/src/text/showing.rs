//! The text of a board.

use super::across::put_across;
use super::areas::Areas;
use super::sheets;
use super::splitting::split_lines;
use super::terminals::put_terminal;
use super::Whole;
use crate::limits::MEANS_DEFAULT;
use crate::{Board, Contact, Footprint, Links};
use std::fmt::{self, Write};

/// All that a text says, in ticks: [`parse_whole`](super::parse_whole) gives the same, on other lines.
pub fn show_whole(whole: &Whole) -> String {
    let mut text = show_linked(&whole.board, whole.links.rows());
    for terminal in &whole.terminals {
        put_terminal(terminal, &mut text).expect("a string takes all text");
    }
    sheets::put(&whole.sheets, &mut text).expect("a string takes all text");
    for across in &whole.across {
        put_across(across, &mut text).expect("a string takes all text");
    }
    text
}

/// The text of a board, in ticks: [`parse`](super::parse) gives the same board.
pub fn show(board: &Board) -> String {
    show_linked(board, Links::default())
}

/// The text of a board and its links, in ticks: [`parse_whole`](super::parse_whole) gives the same.
pub fn show_linked(board: &Board, links: Links) -> String {
    let mut text = String::new();
    put(board, &mut text).expect("a string takes all text");
    put_links(links, &mut text).expect("a string takes all text");
    text
}

fn put_links(links: Links, text: &mut String) -> fmt::Result {
    for Contact { from, to } in links.contacts {
        writeln!(text, "contact {from} {to}")?;
    }
    let areas = Areas::of(links.areas);
    for (at, via) in links.vias.iter().enumerate() {
        let Footprint {
            x,
            y,
            half_width,
            half_height,
        } = via.footprint;
        writeln!(
            text,
            "via {} {} {} {x} {y} {half_width} {half_height} {:?}{}",
            via.bottom,
            via.top,
            via.component,
            via.resistance,
            areas.behind_via(at)
        )?;
    }
    if !links.channels.is_empty() || links.channel_layer > 0 {
        writeln!(text, "channels {}", links.channel_layer)?;
    }
    for (at, channel) in links.channels.iter().enumerate() {
        let [drain, source] = [(channel.drain, 0), (channel.source, 1)].map(|(end, number)| {
            let place = areas.place(at, number, [end.x, end.y]);
            format!("{} {place}", end.component)
        });
        writeln!(text, "channel {drain} {source} {:?}", channel.resistance)?;
    }
    Ok(())
}

fn put(board: &Board, text: &mut String) -> fmt::Result {
    // Without a level it is the default.
    if board.max_level != MEANS_DEFAULT {
        writeln!(text, "level {}", board.max_level)?;
    }
    writeln!(text, "cap {}\ntarget {}", board.cap, board.target)?;
    for [layer, cell] in &board.layers {
        writeln!(text, "layer {layer} {cell}")?;
    }
    let mut points = board.points.iter();
    for ([layer, component, count], sheet) in board.polygons.iter().zip(&board.sheets) {
        writeln!(text, "polygon {layer} {component} {sheet:?}")?;
        for [x, y] in points.by_ref().take(*count as usize) {
            writeln!(text, "{x} {y}")?;
        }
    }
    for line in split_lines(&board.splits) {
        writeln!(text, "{line}")?;
    }
    Ok(())
}
