//! Writes the two files of crates/replay_boards: `stdin`, a sequence of records for `leafnet`, each with
//! its length in front as four bytes big-endian; and `stdout`, what the program has to write for them
//! one after the other. The original makes the second; the port has no part in it.
//!
//! `replay_boards FOLDER [COUNT [SEED]]`: so many beside the records at the limits, which come first

use calls::leafnet::{mesh, printed, LONGEST_INPUT};
use inputs::limit_records::limit_records;
use inputs::whole_boards::{boundary_records, random_whole_record};
use inputs::Random;
use std::collections::BTreeSet;
use std::fmt::Write;
use std::path::Path;
use std::{env, fs};

const DEFAULT_COUNT: usize = 300;
const DEFAULT_SEED: u64 = 1;
/// The program's buffer.
const MOST_BYTES: usize = 200_000;
/// One boundary record in so many, since most are cuts of one record; the first ones, which aren't, are
/// all taken.
const CUTS_ONE_IN: usize = 8;
const NO_CUTS: usize = 40;
/// Of long records only a few are taken, just as long as is read and one byte longer.
const LONG: usize = 4_000;
const MOST_LONG: usize = 5;
/// Where the names of the records at the limits are written, each with its line of `stdout`; seen from
/// oracle/.
const NAMES: &str = "names";

/// What the records come to.
#[derive(Default)]
struct Replay {
    stdin: Vec<u8>,
    stdout: String,
    taken: BTreeSet<Vec<u8>>,
    long: usize,
    hanging: usize,
    refused: [usize; 11],
    names: String,
}

impl Replay {
    /// Takes the record unless it was taken before or there are enough long ones.
    fn push(&mut self, record: &[u8]) {
        let long = record.len() > LONG;
        let fits = (LONGEST_INPUT..=LONGEST_INPUT + 1).contains(&record.len());
        if long && (!fits || self.long == MOST_LONG) || self.taken.contains(record) {
            return;
        }
        self.long += usize::from(long);
        self.take(record);
    }

    /// The next record has this name.
    fn name(&mut self, name: &str) {
        let line = self.stdout.lines().count() + 1;
        writeln!(self.names, "{line} {name}").expect("a string takes text");
    }

    fn take(&mut self, record: &[u8]) {
        self.taken.insert(record.to_vec());
        let answer = mesh(record);
        self.stdin.extend((record.len() as u32).to_be_bytes());
        self.stdin.extend(record);
        self.stdout.push_str(&printed(&answer));
        match answer {
            Ok(meshed) => self.hanging += usize::from(meshed.net.has_hanging_nodes()),
            Err(refusal) => self.refused[refusal.number as usize] += 1,
        }
    }

    fn has_room(&self) -> bool {
        self.stdin.len() + 4 + LONG <= MOST_BYTES
    }

    fn write(&self, folder: &Path) {
        let put = |name: &str, bytes: &[u8]| {
            fs::write(folder.join(name), bytes).unwrap_or_else(|why| panic!("{name}: {why}"));
        };
        put("stdin", &self.stdin);
        put("stdout", self.stdout.as_bytes());
        fs::create_dir_all(NAMES).expect("a folder can be made");
        fs::write(Path::new(NAMES).join("replay_boards"), &self.names)
            .expect("names can be written");
        let refused: usize = self.refused.iter().sum();
        println!(
            "{} records of {} bytes: {} accepted, {} of them with hanging nodes, {refused} refused; \
             {} bytes are to be written",
            self.taken.len(),
            self.stdin.len(),
            self.taken.len() - refused,
            self.hanging,
            self.stdout.len()
        );
        for (number, count) in self.refused.iter().enumerate().filter(|&(_, &count)| count > 0) {
            println!("  {count} refused by {number}");
        }
    }
}

fn main() {
    let words: Vec<String> = env::args().skip(1).collect();
    let folder = words.first().expect("a folder is named");
    let number = |at: usize| words.get(at).map(|word| word.parse().expect("a number"));
    let count = number(1).map_or(DEFAULT_COUNT, |count: u64| count as usize);
    let mut random = Random::new(number(2).unwrap_or(DEFAULT_SEED));
    let mut replay = Replay::default();
    for (name, record) in limit_records() {
        replay.name(&name);
        replay.take(&record);
    }
    let count = count + replay.taken.len();
    replay.name("a record that shows one thing");
    for (at, record) in boundary_records().iter().enumerate() {
        if at < NO_CUTS || at % CUTS_ONE_IN == 0 {
            replay.push(record);
        }
    }
    replay.name("a drawn record");
    while replay.taken.len() < count && replay.has_room() {
        replay.push(&random_whole_record(&mut random));
    }
    replay.write(Path::new(folder));
}
