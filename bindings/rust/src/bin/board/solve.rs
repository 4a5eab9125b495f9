//! What flows between a board's terminals, as tables to be read.

use crate::cuts::{Shown, Tables};
use crate::{given, TERMINAL};
use leafmesh::solving::Flow;
use leafmesh::tool::{
    digits, By, Command, Given, Solved, Stop, Switch, Takes, Words, ONE_NODE, SNAP,
};
use leafmesh::{Leaf, Link, Refusal};
use std::fmt::{self, Write};

/// By conductances.
const NET: Switch = ("--net", Takes::Nothing);
/// How many necks are shown.
const NECKS: Switch = ("--necks", Takes::Word);
/// With the leaves at links of one node.
const ALL: Switch = ("--all", Takes::Nothing);

pub const SOLVE: Command = Command {
    name: "solve",
    help: concat!(
        "\
usage: board solve [FILE] [--net] [--all] [--necks N|all] [--terminal WORDS] ..
                   [--snap PITCH] [-o FILE]

What flows between a board's terminals: their volts and amperes, the power in
all, the hottest leaf, what flows through the lines that the text names
(`across`) and through the necks of its copper, and of each link the current
from its first end to its second.

  --necks N|all     so many necks, those of the largest mean sheet current, or
                    all; 10 without it
  --net             by the net's conductances (docs/CONDUCTANCES.md) and not by
                    elements on its cells; without lines and necks
  --all             the hottest of all leaves; without it those at a link of one
                    node are left out, since they get hotter with each level
",
        terminal_help!(),
        snap_help!()
    ),
    switches: &[NET, ALL, NECKS, TERMINAL, SNAP],
    make: solve,
};

fn solve(words: &Words) -> Result<Vec<u8>, Stop> {
    let shown = shown(words)?;
    let given = given(words)?;
    let by = if words.has(NET.0) { By::Net } else { By::Cells };
    let solved = given.solved(by, "board solve")?;
    let tables = match by {
        By::Cells => Some(Tables::of(&given, &solved)?),
        By::Net => None,
    };
    let currents = currents_of(&given, &solved).map_err(|why| given.said(&why))?;
    let mut text = String::new();
    put_terminals(&solved, &mut text).expect(TAKES_ALL);
    put_power(&given, &solved, words.has(ALL.0), &mut text).expect(TAKES_ALL);
    if let Some(tables) = tables {
        let put = tables.put(&given, &solved, shown, &mut text);
        put.expect(TAKES_ALL);
    }
    put_currents(&currents, &solved, &mut text).expect(TAKES_ALL);
    Ok(text.into_bytes())
}

const TAKES_ALL: &str = "a string takes all text";

/// How many necks are asked for.
fn shown(words: &Words) -> Result<Shown, Stop> {
    let Some(word) = words.one(NECKS.0) else {
        return Ok(Shown::First(10));
    };
    if words.has(NET.0) {
        return Err(Stop::Senseless(
            "--necks says nothing beside --net".to_string(),
        ));
    }
    match word.parse() {
        Ok(count) => Ok(Shown::First(count)),
        Err(_) if word == "all" => Ok(Shown::All),
        Err(_) => Err(Stop::Senseless(format!(
            "--necks takes a whole number or all, not {word}"
        ))),
    }
}

fn put_terminals(solved: &Solved, text: &mut String) -> fmt::Result {
    let all = &solved.solution.terminals;
    let names = all.iter().map(|one| one.terminal.chars().count());
    let wide = names.max().unwrap_or(0).max(12);
    writeln!(text, "{:<wide$} {:>12} {:>12}", "terminal", "V", "A")?;
    for (name, applied) in solved.applied() {
        let [volts, amperes] = applied.map(digits);
        writeln!(text, "{name:<wide$} {volts:>12} {amperes:>12}")?;
    }
    Ok(())
}

fn put_power(given: &Given, solved: &Solved, of_all: bool, text: &mut String) -> fmt::Result {
    let links: f64 = solved.link_watts().iter().sum();
    let solution = &solved.solution;
    write!(text, "\npower     {} W", digits(solution.watts()))?;
    if solved.net.links > 0 {
        write!(text, ", {} W of it in links", digits(links))?;
    }
    writeln!(text, "\nV x A     {} W", digits(solution.given()))?;
    if let Some(ohms) = solved.ohms() {
        writeln!(text, "V / A     {} ohm", digits(ohms))?;
    }
    let hottest = match of_all {
        true => solved.hottest_of_all(),
        false => solved.hottest(),
    };
    if let Some((leaf, flow)) = hottest {
        writeln!(text, "hottest   {}", hot(given, solved, &leaf, &flow))?;
    }
    let left_out = solved.left_out();
    if left_out > 0 && !of_all {
        let words = "leaves in base cells at links of one node; --all takes them, too";
        writeln!(text, "left out  {left_out} {words}")?;
    }
    Ok(())
}

/// A leaf by its names and its place, with its power.
fn hot(given: &Given, solved: &Solved, leaf: &Leaf, flow: &Flow) -> String {
    let [x0, y0, x1, y1] = leaf.rect;
    let place = given.place([x0 + (x1 - x0) / 2, y0 + (y1 - y0) / 2]);
    let name = solved.mesh.name(leaf.id).map(|name| name.to_string());
    let density = digits(flow.watts / leaf.area() * 1e-6);
    let current = digits(flow.sheet_current * 1e-3);
    format!(
        "leaf {} ({}), layer {}, component {}, at {place}: {density} W/mm2, {current} A/mm",
        leaf.id,
        name.unwrap_or_default(),
        leaf.layer,
        leaf.component
    )
}

/// A link, how many edges it makes, and the current from its first end to its second.
struct Current {
    link: Link,
    edges: usize,
    amperes: f64,
}

fn currents_of(given: &Given, solved: &Solved) -> Result<Vec<Current>, Refusal> {
    let links = given.links.rows();
    let mut rest = solved.link_amperes();
    let mut all = Vec::new();
    for ((link, _), edges) in links.each().zip(solved.mesh.edges_of_links(links)?) {
        let (own, behind) = rest.split_at(edges);
        let amperes = solved.without_rest(own.iter().sum());
        all.push(Current {
            link,
            edges,
            amperes,
        });
        rest = behind;
    }
    Ok(all)
}

fn put_currents(all: &[Current], solved: &Solved, text: &mut String) -> fmt::Result {
    if all.is_empty() {
        return Ok(());
    }
    writeln!(text, "\n{:<12} {:>12} {:>12}", "link", "edges", "A")?;
    for one in all {
        let (edges, amperes) = (one.edges, digits(one.amperes));
        let note = match solved.is_lone(one.link) {
            true => format!("  {ONE_NODE}"),
            false => String::new(),
        };
        let link = one.link.to_string();
        writeln!(text, "{link:<12} {edges:>12} {amperes:>12}{note}")?;
    }
    Ok(())
}
