//! The program `leafnet`: what it prints for a whole record, byte for byte, what it says, and its status.

use crate::port::outcome_of;
use crate::report::Report;
use calls::leafnet::{mesh, printed};
use calls::record::MEANS_DEFAULT;
use calls::Refusal;
use inputs::default_levels::{default_levels, default_rectangles};
use inputs::whole_boards::{boundary_records, random_whole_record};
use inputs::Random;
use leafmesh::Reason;
use std::env;
use std::io::{ErrorKind, Write};
use std::path::PathBuf;
use std::process::{Command, Output, Stdio};

/// Seen from this crate. `LEAFMESH_PROGRAM` names another file.
const DEFAULT_PROGRAM: &str = "../../crates/leafnet/out/leafnet";

/// Where a record has its level.
const LEVEL_AT: usize = 5;
/// The refusal of a base cell whose sides are no multiples.
const UNEVEN_CELL: u64 = 5;

/// The reasons of the rules.
const REASONS: [Reason; 10] = [
    Reason::WrongVersion,
    Reason::WrongLength,
    Reason::OutOfRange,
    Reason::Slanted,
    Reason::UnevenCell,
    Reason::NoRoom,
    Reason::BadTable,
    Reason::NoSuchCell,
    Reason::AlreadySplit,
    Reason::FinestLevel,
];

/// What was run, and how many of the accepted boards have hanging nodes or were split by balance.
struct Tally {
    report: Report,
    accepted: u64,
    hanging: u64,
    balanced: u64,
    by_default: ByDefault,
}

/// Of the records with 255 for their level: how many were run, accepted, and refused for a base cell.
#[derive(Default)]
struct ByDefault {
    run: u64,
    accepted: u64,
    uneven: u64,
}

/// Records that show one thing each, then `count` random ones.
pub fn compare(count: u64, seed: u64) -> bool {
    let mut random = Random::new(seed);
    let report = Report::new("leafnet");
    let by_default = ByDefault::default();
    let mut tally = Tally { report, accepted: 0, hanging: 0, balanced: 0, by_default };
    boundary_records().iter().for_each(|record| tally.run(record));
    default_levels().iter().for_each(|(_, record)| tally.run(record));
    default_rectangles().iter().for_each(|record| tally.run(record));
    for _ in 0..count {
        tally.run(&random_whole_record(&mut random));
    }
    tally.print()
}

/// The program with this for standard input. Words of `LEAFMESH_RUNNER` stand in front of it, where
/// it has to be emulated.
fn run_program(input: &[u8]) -> Output {
    let runner = env::var("LEAFMESH_RUNNER").unwrap_or_default();
    let mut words: Vec<PathBuf> = runner.split_whitespace().map(PathBuf::from).collect();
    words.push(program());
    let mut child = Command::new(&words[0])
        .args(&words[1..])
        .stdin(Stdio::piped())
        .stdout(Stdio::piped())
        .stderr(Stdio::piped())
        .spawn()
        .unwrap_or_else(|why| panic!("{words:?} can't be run: {why}"));
    let mut pipe = child.stdin.take().expect("it was asked for");
    // Of longer input the program reads only the front, so the pipe may break.
    if let Err(why) = pipe.write_all(input) {
        assert_eq!(why.kind(), ErrorKind::BrokenPipe, "{why}");
    }
    drop(pipe);
    child.wait_with_output().expect("it was started")
}

/// What the program says of a refusal: the words are the Rust crate's.
fn said_of(why: &Refusal) -> String {
    let known = REASONS.into_iter().find(|reason| reason.number() == why.number);
    let reason = known.unwrap_or_else(|| panic!("the rules have no refusal {}", why.number));
    let refusal = leafmesh::Refusal { reason, place: why.place as usize };
    format!("leafnet: {refusal}\n")
}

fn program() -> PathBuf {
    match env::var_os("LEAFMESH_PROGRAM") {
        Some(file) => PathBuf::from(file),
        None => PathBuf::from(env!("CARGO_MANIFEST_DIR")).join(DEFAULT_PROGRAM),
    }
}

impl Tally {
    fn run(&mut self, input: &[u8]) {
        let answer = mesh(input);
        let expected = printed(&answer);
        let got = run_program(input);
        let (status, said) = match &answer {
            Ok(_) => (0, String::new()),
            Err(why) => (1, said_of(why)),
        };
        let same = got.stdout == expected.as_bytes()
            && got.stderr == said.as_bytes()
            && got.status.code() == Some(status);
        if let Ok(meshed) = &answer {
            self.accepted += 1;
            self.hanging += u64::from(meshed.net.has_hanging_nodes());
            self.balanced += u64::from(meshed.splits > 0);
        }
        if input.get(LEVEL_AT) == Some(&(MEANS_DEFAULT as u8)) {
            self.by_default.count(answer.as_ref().err());
        }
        // What is counted as a value is whether there are cells.
        let value = answer.map(|meshed| meshed.net.cells.len() as u64);
        self.report.ran(outcome_of(value), same, || {
            let words = format!("{}; {}", hex(input), first_difference(&expected, &got));
            (input.len() as u128, words)
        });
    }

    /// Says what was run; true if nothing differed.
    fn print(&self) -> bool {
        println!(
            "leafnet: {} boards accepted, {} of them ({:.1} in 100) with hanging nodes, {} split \
             by balance",
            self.accepted,
            self.hanging,
            self.hanging as f64 * 100.0 / self.accepted.max(1) as f64,
            self.balanced
        );
        let ByDefault { run, accepted, uneven } = self.by_default;
        println!(
            "leafnet: {run} boards of the default level, {accepted} of them accepted, {uneven} \
             refused for a base cell's side"
        );
        self.report.print()
    }
}

impl ByDefault {
    fn count(&mut self, refusal: Option<&Refusal>) {
        self.run += 1;
        self.accepted += u64::from(refusal.is_none());
        self.uneven += u64::from(refusal.is_some_and(|refusal| refusal.number == UNEVEN_CELL));
    }
}

fn hex(input: &[u8]) -> String {
    const MOST: usize = 400;
    let digits: String = input.iter().take(MOST).map(|byte| format!("{byte:02x}")).collect();
    format!("record of {} bytes {digits}", input.len())
}

fn first_difference(expected: &str, got: &Output) -> String {
    let printed = String::from_utf8_lossy(&got.stdout);
    let (mut lines, mut port_lines) = (expected.lines(), printed.lines());
    loop {
        match (lines.next(), port_lines.next()) {
            (Some(line), Some(port_line)) if line == port_line => {}
            (line, port_line) => {
                let said = String::from_utf8_lossy(&got.stderr);
                return format!("original {line:?}, port {port_line:?}, {}, {said:?}", got.status);
            }
        }
    }
}
