//! A board split where its current is least even, round by round.

use crate::{given, TERMINAL};
use leafmesh::tool::{digits, say, By, Command, Given, Solved, Stop, Switch, Takes, Words, SNAP};
use leafmesh::{record_length, text, write, Board, Mesh, Reason, Region, SLOTS};
use std::str::FromStr;

const ROUNDS: Switch = ("--rounds", Takes::Word);
const UNTIL: Switch = ("--until", Takes::Word);
const SHARE: Switch = ("--share", Takes::Word);
const LEAVES: Switch = ("--leaves", Takes::Word);

pub const REFINE: Command = Command {
    name: "refine",
    help: concat!(
        "\
usage: board refine [FILE] (--rounds N | --until S) [--share S] [--leaves M]
                    [--terminal WORDS] .. [--snap PITCH] [-o FILE]

The board split where its current is least even: of a text the text as it
stands and lines `refine` behind it, of a record a record. A round solves on the
cells, splits the leaves in which, and round which, the current changes most,
and balances; a line on standard error tells what came of it. Where no more is
to be split, or there is no more room, what was reached by then is written.

  --rounds N        so many rounds at most
  --until S         a round that moves the resistance by less than this share,
                    as 0.1% or 0.001, is the last; of more than two terminals
                    the power
  --share S         a round splits this share of the leaves that can be split,
                    as 0.25 or 1/4; 1/6 without it
  --leaves M        the mesh before the round that would pass so many leaves is
                    the last
",
        terminal_help!(),
        snap_help!()
    ),
    switches: &[ROUNDS, UNTIL, SHARE, LEAVES, TERMINAL, SNAP],
    make: refine,
};

/// What was asked for.
struct Plan {
    rounds: usize,
    /// A round that moves what is measured by less is the last.
    until: Option<f64>,
    share: f64,
    leaves: usize,
}

fn refine(words: &Words) -> Result<Vec<u8>, Stop> {
    let plan = Plan::of(words)?;
    let given = given(words)?;
    let mesh = plan.carry_out(&given)?;
    Ok(kept(&given, &mesh)?)
}

impl Plan {
    fn of(words: &Words) -> Result<Self, Stop> {
        let until = words.one(UNTIL.0).map(|word| share(UNTIL, &word));
        let until = until.transpose()?;
        let rounds = match words.one(ROUNDS.0) {
            Some(word) => whole(ROUNDS, &word)?,
            None if until.is_some() => usize::MAX,
            None => return Err(senseless(ROUNDS, "or --until is missing")),
        };
        Ok(Plan {
            rounds,
            until,
            share: words
                .one(SHARE.0)
                .map_or(Ok(1.0 / 6.0), |word| share(SHARE, &word))?,
            leaves: words
                .one(LEAVES.0)
                .map_or(Ok(SLOTS), |word| whole(LEAVES, &word))?,
        })
    }

    /// Round by round, each told on standard error.
    fn carry_out(&self, given: &Given) -> Result<Mesh, String> {
        let mut solved = given.solved(By::Cells, "board refine")?;
        say(&round_in_words(0, &solved, None));
        for round in 1..=self.rounds {
            let mesh = match self.next(&solved) {
                Ok(mesh) => mesh,
                Err(why) => {
                    say(&format!("no round {round}: {why}"));
                    break;
                }
            };
            let next = given.solved_mesh(mesh, By::Cells)?;
            say(&round_in_words(round, &next, Some(&solved)));
            let moved = change(&next, &solved);
            solved = next;
            if let Some(until) = self.until.filter(|until| moved.abs() < *until) {
                let in_100 = digits(100.0 * until);
                say(&format!(
                    "no round {}: the last one moved it by less than {in_100} in 100",
                    round + 1
                ));
                break;
            }
        }
        Ok(solved.mesh)
    }

    /// The mesh behind one more round, or why there is none.
    fn next(&self, solved: &Solved) -> Result<Mesh, String> {
        let ids = self.least_even(solved)?;
        let mut mesh = solved.mesh.clone();
        let balanced = mesh.refine_many(ids).and_then(|()| mesh.balance());
        let leaves = mesh.head().leaves;
        match balanced {
            Ok(_) if leaves > self.leaves => Err(format!(
                "it would have {leaves} leaves, more than {}",
                self.leaves
            )),
            Ok(_) => Ok(mesh),
            Err(why) if why.reason == Reason::NoRoom => {
                Err("it would have more than 16,384 cells".to_string())
            }
            Err(why) => Err(why.to_string()),
        }
    }

    /// The leaves in which the current is least even: so many as the share has of those that can be split. Where it is
    /// even nothing is gained by a split, however much flows there.
    fn least_even(&self, solved: &Solved) -> Result<Vec<usize>, String> {
        let finest = solved.mesh.head().max_level;
        let uneven = solved.solution.uneven_watts(&solved.mesh, &solved.net);
        let all = solved.mesh.leaves().zip(uneven);
        let mut open: Vec<(f64, usize)> = all
            .filter(|(leaf, _)| leaf.level < finest)
            .map(|(leaf, watts)| (watts, leaf.id))
            .collect();
        if open.is_empty() {
            return Err("all leaves are at the finest level".to_string());
        }
        let count = (open.len() as f64 * self.share) as usize;
        if count == 0 {
            let open = open.len();
            return Err(format!(
                "the share of {open} leaves that can be split is less than one"
            ));
        }
        open.retain(|(watts, _)| *watts > 0.0);
        if open.is_empty() {
            return Err("the current is even in each leaf that can be split".to_string());
        }
        open.sort_by(|a, b| b.0.total_cmp(&a.0));
        open.truncate(count);
        Ok(open.into_iter().map(|(_, id)| id).collect())
    }
}

fn whole(switch: Switch, word: &str) -> Result<usize, Stop> {
    match usize::from_str(word) {
        Ok(number) if number > 0 => Ok(number),
        _ => Err(senseless(
            switch,
            &format!("takes a whole number from 1 on, not {word}"),
        )),
    }
}

/// As a fraction, with a point, or in 100.
fn share(switch: Switch, word: &str) -> Result<f64, Stop> {
    let (number, whole) = word
        .strip_suffix('%')
        .map_or((word, 1.0), |in_100| (in_100, 100.0));
    let (above, below) = number.split_once('/').unwrap_or((number, "1"));
    let share = above
        .parse()
        .ok()
        .zip(below.parse().ok())
        .map(|(a, b): (f64, f64)| a / b / whole);
    match share {
        Some(share) if share > 0.0 && share <= 1.0 => Ok(share),
        _ => Err(senseless(
            switch,
            &format!("takes a share above 0, 1 at most, not {word}"),
        )),
    }
}

fn senseless(switch: Switch, why: &str) -> Stop {
    Stop::Senseless(format!("{} {why}", switch.0))
}

/// What a round has come to: ohms between two terminals, otherwise what stands at each; and how that differs from the
/// round before.
fn round_in_words(round: usize, solved: &Solved, before: Option<&Solved>) -> String {
    let words = match solved.ohms() {
        Some(ohms) => format!("{} ohm", digits(ohms)),
        None => {
            let each = solved.applied().map(|(name, applied)| {
                let [volts, amperes] = applied.map(digits);
                format!("{name} {volts} V {amperes} A, ")
            });
            format!("{}{} W", each.collect::<String>(), digits(measure(solved)))
        }
    };
    let moved = before.map(|before| 100.0 * change(solved, before));
    let moved = match moved {
        Some(moved) if moved.is_finite() => format!(", {moved:+.3} in 100"),
        _ => String::new(),
    };
    format!(
        "round {round}: {} leaves, {words}{moved}",
        solved.net.cells.len()
    )
}

/// The resistance between two terminals, otherwise the power.
fn measure(solved: &Solved) -> f64 {
    solved.ohms().unwrap_or_else(|| solved.solution.watts())
}

/// By which share that differs; no number where there was none.
fn change(solved: &Solved, before: &Solved) -> f64 {
    measure(solved) / measure(before) - 1.0
}

/// The board with what was split, in the form in which it was given.
fn kept(given: &Given, mesh: &Mesh) -> Result<Vec<u8>, String> {
    match given.text() {
        Some(own) => text_of(given, own, mesh),
        None => record_of(&mesh.board()).map_err(|why| given.said(&why)),
    }
}

/// The text as it stands, with regions behind it; with ids where no regions give the same mesh.
fn text_of(given: &Given, own: &str, mesh: &Mesh) -> Result<Vec<u8>, String> {
    let first = Mesh::unjudged(&given.board).map_err(|why| given.blame(&why))?;
    let text = match first.regions_to(mesh) {
        Some(mut regions) => {
            if has_one_layer(mesh) {
                let everywhere = |region: &mut Region| region.layer = None;
                regions.iter_mut().for_each(everywhere);
            }
            text::with_regions(own, &regions, given.pitch())
        }
        None => {
            let more: Vec<usize> = mesh.splits().skip(given.board.splits.len()).collect();
            text::with_splits(own, &more)
        }
    };
    Ok(text.into_bytes())
}

fn has_one_layer(mesh: &Mesh) -> bool {
    let layers = &mesh.polygons().layers;
    layers.iter().all(|layer| *layer == layers[0])
}

fn record_of(board: &Board) -> Result<Vec<u8>, leafmesh::Refusal> {
    let mut record = vec![0; record_length(board)];
    let length = write(board, &mut record)?;
    record.truncate(length);
    Ok(record)
}
