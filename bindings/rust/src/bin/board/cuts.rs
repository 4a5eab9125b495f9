//! What doesn't hang on the mesh: what flows through the lines that a text names, and through the necks of its copper.

use leafmesh::necks::{self, Neck, Runs};
use leafmesh::solving::{Crossing, Cuts};
use leafmesh::tool::{digits, say, Given, Solved};
use leafmesh::TICK;
use std::cmp::Reverse;
use std::fmt::{self, Write};

/// Why a line has no current.
const UNDER_LINK: &str =
    "meets cells in which a link's end has an area: it is at one potential, and no current is known there";
/// Means that differ by no more than this share of the largest are alike.
const ALIKE: f64 = 1e-9;

/// How many necks are shown.
#[derive(Clone, Copy, Debug, PartialEq, Eq)]
pub enum Shown {
    All,
    First(usize),
}

/// Lines and necks with what flows through them.
pub struct Tables {
    /// By the place of the line in the text.
    across: Vec<Crossing>,
    /// The one with the largest mean first.
    necks: Vec<(Neck, Crossing)>,
    /// How many necks run through the area of a link's end.
    under_links: usize,
}

impl Tables {
    /// What a board's lines and necks carry. A line that crosses less copper than it is long is told on standard error.
    ///
    /// # Errors
    ///
    /// In words: a line that crosses no copper, or the area of a link's end, behind its own.
    pub fn of(given: &Given, solved: &Solved) -> Result<Self, String> {
        let cuts = Cuts::of(&solved.net, &solved.solution);
        let cuts = cuts.map_err(|why| given.said(&why))?;
        let mut across = Vec::new();
        for (at, own) in given.across.iter().enumerate() {
            if cuts.meets_area(&own.line) {
                return Err(given.refused_across(at, UNDER_LINK));
            }
            let Some(crossing) = cuts.through(&own.line) else {
                let (layer, component) = (own.line.layer, own.line.component);
                let why = format!("crosses no copper of layer {layer}, component {component}");
                return Err(given.refused_across(at, &why));
            };
            if crossing.copper < own.line.length() {
                let [copper, all] =
                    [crossing.copper, own.line.length()].map(|ticks| given.length(ticks));
                let why = format!("of its {all} {} {copper} cross copper", unit(given));
                say(&given.warned_of_across(at, &why));
            }
            across.push(crossing);
        }
        let all = necks::of(solved.mesh.polygons().outlines());
        let under_links = |neck: &&Neck| cuts.meets_area(&neck.cut());
        let under_links = all.iter().filter(under_links).count();
        let mut necks: Vec<(Neck, Crossing)> = all
            .into_iter()
            .filter_map(|neck| Some((neck, cuts.through(&neck.cut())?)))
            .collect();
        // Those alike, but for what the iteration leaves, by their place.
        let most = necks
            .iter()
            .map(|(_, crossing)| crossing.mean())
            .fold(f64::MIN_POSITIVE, f64::max);
        let rank = |crossing: &Crossing| (crossing.mean() / most / ALIKE).round() as i64;
        necks.sort_by_key(|(neck, crossing)| (Reverse(rank(crossing)), *neck));
        Ok(Tables {
            across,
            necks,
            under_links,
        })
    }

    pub fn put(
        &self,
        given: &Given,
        solved: &Solved,
        shown: Shown,
        text: &mut String,
    ) -> fmt::Result {
        if !self.across.is_empty() {
            self.put_across(given, solved, text)?;
        }
        self.put_necks(given, solved, shown, text)?;
        match self.under_links {
            0 => Ok(()),
            count => writeln!(
                text,
                "{count} under areas of links: no current is known there"
            ),
        }
    }

    fn put_across(&self, given: &Given, solved: &Solved, text: &mut String) -> fmt::Result {
        let names = given.across.iter().map(|own| own.name.chars().count());
        let wide = names.max().unwrap_or(0).max(12);
        let copper = format!("copper {}", unit(given));
        writeln!(
            text,
            "\n{:<wide$} {copper:>12} {:>12} {:>12} {:>12}",
            "across", "A", "mean A/mm", "most A/mm"
        )?;
        for (own, crossing) in given.across.iter().zip(&self.across) {
            let [amperes, mean, most] = figures(solved, crossing);
            let copper = given.length(crossing.copper);
            let name = &own.name;
            writeln!(
                text,
                "{name:<wide$} {copper:>12} {amperes:>12} {mean:>12} {most:>12}"
            )?;
        }
        Ok(())
    }

    fn put_necks(
        &self,
        given: &Given,
        solved: &Solved,
        shown: Shown,
        text: &mut String,
    ) -> fmt::Result {
        let count = match shown {
            Shown::All => self.necks.len(),
            Shown::First(count) => count.min(self.necks.len()),
        };
        if self.necks.is_empty() {
            return writeln!(text, "\nnecks     none");
        }
        if count == 0 {
            return writeln!(text, "\nnecks     {}", self.necks.len());
        }
        let names: Vec<String> = self.necks[..count]
            .iter()
            .map(|(neck, _)| name_of(given, neck))
            .collect();
        let wide = names
            .iter()
            .map(|name| name.chars().count())
            .max()
            .unwrap_or(0);
        let [width, length] = ["width", "length"].map(|size| format!("{size} {}", unit(given)));
        writeln!(
            text,
            "\n{:<wide$} {width:>12} {length:>12} {:>12} {:>12}",
            "neck", "A", "mean A/mm"
        )?;
        for (name, (neck, crossing)) in names.iter().zip(&self.necks) {
            let [amperes, mean, _] = figures(solved, crossing);
            let [width, length] = [neck.width(), neck.length()].map(|ticks| given.length(ticks));
            writeln!(
                text,
                "{name:<wide$} {width:>12} {length:>12} {amperes:>12} {mean:>12}"
            )?;
        }
        match self.necks.len() - count {
            0 => Ok(()),
            more => writeln!(text, "{more} more: --necks all"),
        }
    }
}

fn unit(given: &Given) -> &'static str {
    given.pitch().map_or("ticks", |_| "mm")
}

fn name_of(given: &Given, neck: &Neck) -> String {
    let runs = match neck.runs {
        Runs::AlongX => "x",
        Runs::AlongY => "y",
    };
    let place = given.place(neck.middle());
    format!(
        "layer {}, component {}, at {place}, along {runs}",
        neck.layer, neck.component
    )
}

/// Amperes, and the mean and the largest amperes a millimetre; what the iteration leaves is none.
fn figures(solved: &Solved, crossing: &Crossing) -> [String; 3] {
    let metres = crossing.copper as f64 * TICK;
    let through = [
        crossing.amperes,
        metres * crossing.mean(),
        metres * crossing.largest,
    ];
    let [amperes, mean, most] = through.map(|amperes| solved.without_rest(amperes));
    [amperes, mean * 1e-3 / metres, most * 1e-3 / metres].map(digits)
}
