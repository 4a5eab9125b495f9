//! Holds the port and the original side by side, in one process, on the same inputs.
//!
//! `compare [CALLS [COUNT [SEED]]]` runs one group of calls, or `all`; `compare bench CALLS` takes
//! times. The exit status says whether anything differed.

mod bench;
mod build;
mod checks;
mod contact;
mod even;
mod hostile;
mod indexed;
mod large;
mod later;
mod leafnet;
mod links;
mod network;
mod port;
mod power;
mod record;
mod report;
mod rows;
mod strips;
mod table;

use std::env;
use std::process::ExitCode;
use std::time::Instant;

const DEFAULT_SEED: u64 = 1;

/// A group of calls: its name, how many inputs it runs unless told otherwise, and its comparison.
struct Group {
    name: &'static str,
    count: u64,
    compare: fn(u64, u64) -> bool,
    bench: Option<fn() -> bool>,
}

const GROUPS: &[Group] = &[
    Group { name: "contact", count: 2_000_000, compare: contact::compare, bench: None },
    Group {
        name: "table",
        count: 120_000,
        compare: table::compare,
        bench: Some(bench::table::run),
    },
    Group { name: "even", count: 60_000, compare: even::compare, bench: Some(bench::even::run) },
    Group { name: "later", count: 20_000, compare: later::compare, bench: None },
    Group { name: "large", count: 300, compare: large::compare, bench: Some(bench::hostile::run) },
    Group { name: "strips", count: 200_000, compare: strips::compare, bench: None },
    Group {
        name: "build",
        count: 150_000,
        compare: build::compare,
        bench: Some(bench::build::run),
    },
    Group { name: "record", count: 400_000, compare: record::compare, bench: None },
    Group { name: "power", count: 60_000, compare: power::compare, bench: Some(bench::power::run) },
    Group {
        name: "network",
        count: 60_000,
        compare: network::compare,
        bench: Some(bench::network::run),
    },
    Group { name: "links", count: 70_000, compare: links::compare, bench: Some(bench::links::run) },
    Group {
        name: "checks",
        count: 40_000,
        compare: checks::compare,
        bench: Some(bench::checks::run),
    },
    Group { name: "leafnet", count: 6_000, compare: leafnet::compare, bench: None },
];

fn main() -> ExitCode {
    let words: Vec<String> = env::args().skip(1).collect();
    let done = match words.first().map(String::as_str) {
        Some("bench") => run_benches(&words[1..]),
        _ => run_comparisons(&words),
    };
    match done {
        Ok(true) => ExitCode::SUCCESS,
        Ok(false) => ExitCode::FAILURE,
        Err(complaint) => {
            eprintln!("{complaint}");
            ExitCode::from(2)
        }
    }
}

/// True if nothing differed; words that make no sense are an error.
fn run_comparisons(words: &[String]) -> Result<bool, String> {
    let groups = named(words.first())?;
    let count = words.get(1).map(|word| number(word)).transpose()?;
    let seed = words.get(2).map(|word| number(word)).transpose()?.unwrap_or(DEFAULT_SEED);
    let mut same = true;
    for group in groups {
        let start = Instant::now();
        let count = count.unwrap_or(group.count);
        same &= (group.compare)(count, seed);
        let seconds = start.elapsed().as_secs_f64();
        println!("{}: {seconds:.1} s, count {count}, seed {seed}", group.name);
    }
    Ok(same)
}

fn run_benches(words: &[String]) -> Result<bool, String> {
    let benches: Vec<fn() -> bool> =
        named(words.first())?.into_iter().filter_map(|group| group.bench).collect();
    if benches.is_empty() {
        return Err("these calls have no benchmark".to_string());
    }
    let mut same = true;
    for bench in benches {
        same &= bench();
    }
    Ok(same)
}

fn named(word: Option<&String>) -> Result<Vec<&'static Group>, String> {
    let name = word.map_or("all", String::as_str);
    let groups: Vec<&Group> =
        GROUPS.iter().filter(|group| name == "all" || name == group.name).collect();
    if groups.is_empty() {
        return Err(format!("no calls are named {name}"));
    }
    Ok(groups)
}

fn number(word: &str) -> Result<u64, String> {
    word.parse().map_err(|_| format!("{word} is no number"))
}
