//! One replay: the stream of cases and the text of their answers, as crates/cases reads and prints
//! them.

use calls::table::Head;
use calls::Answer;
use std::collections::BTreeMap;
use std::fmt::Write;
use std::fs;
use std::path::Path;

/// Where the names of named cases are written, each with its line of `stdout`; seen from oracle/.
const NAMES: &str = "names";

/// The longest stream that a program reads.
const STREAM: usize = 262_144;

/// A case before it is kept: its numbers and its text.
#[derive(Default)]
pub struct Case {
    bytes: Vec<u8>,
    text: String,
}

impl Case {
    pub fn of_kind(kind: u64) -> Self {
        let mut case = Case::default();
        case.number(kind);
        case
    }

    /// A byte, how many follow, then these, the highest first; a 0 has none.
    pub fn number(&mut self, number: u64) {
        let width = 8 - number.leading_zeros() as usize / 8;
        self.bytes.push(width as u8);
        self.bytes.extend_from_slice(&number.to_be_bytes()[8 - width..]);
    }

    pub fn numbers(&mut self, row: impl IntoIterator<Item = u64>) {
        row.into_iter().for_each(|number| self.number(number));
    }

    /// Its length, then its numbers.
    pub fn row(&mut self, row: &[u64]) {
        self.number(row.len() as u64);
        self.numbers(row.iter().copied());
    }

    pub fn signed_row(&mut self, row: &[i64]) {
        self.number(row.len() as u64);
        self.numbers(row.iter().map(|&number| number as u64));
    }

    pub fn fraction_row(&mut self, row: &[f64]) {
        self.number(row.len() as u64);
        self.numbers(row.iter().map(|number| number.to_bits()));
    }

    /// The call's name and its values, or the refusal.
    pub fn answer(&mut self, call: &str, answer: Answer<Vec<u64>>) {
        self.text.push_str(call);
        match answer {
            Ok(values) => self.print(values.iter()),
            Err(why) => {
                self.text.push_str(" refused");
                self.print([why.number, why.place].iter());
            }
        }
    }

    /// A lent row after the call.
    pub fn print<T: std::fmt::Display>(&mut self, row: impl IntoIterator<Item = T>) {
        for number in row {
            write!(self.text, " {number}").expect("a string takes text");
        }
        self.text.push('\n');
    }

    /// Without the zeros at its end.
    pub fn print_filled(&mut self, row: &[u64]) {
        let filled = row.iter().rposition(|&number| number != 0).map_or(0, |last| last + 1);
        self.print(&row[..filled]);
    }

    pub fn print_fractions(&mut self, row: &[f64]) {
        self.print(row.iter().map(|&number| match number.is_nan() {
            true => "nan".to_string(),
            false => format!("{:016x}", number.to_bits()),
        }));
    }
}

/// A head as a case has it and as a program prints it.
pub fn head_numbers(Head { count, leaves, max_level }: Head) -> [u64; 3] {
    [count as u64, leaves as u64, max_level]
}

/// What is counted: the call, the refusal or 0, and what else tells cases apart.
pub type Class = (&'static str, u64, u64);

pub struct Replay {
    name: &'static str,
    /// Cases of each class.
    most: u64,
    kept: BTreeMap<Class, u64>,
    /// Boundary cases, which come first and are all kept.
    boundary: u64,
    drawing: bool,
    bytes: Vec<u8>,
    text: String,
    names: String,
}

impl Replay {
    pub fn new(name: &'static str, most: u64) -> Self {
        Replay {
            name,
            most,
            kept: BTreeMap::new(),
            boundary: 0,
            drawing: false,
            bytes: Vec::new(),
            text: String::new(),
            names: String::new(),
        }
    }

    /// The next case has this name.
    pub fn name(&mut self, name: &str) {
        let line = self.text.lines().count() + 1;
        writeln!(self.names, "{line} {name}").expect("a string takes text");
    }

    /// From here on a case is kept only if its class isn't full.
    pub fn draw(&mut self) {
        self.name("a drawn case");
        self.drawing = true;
    }

    /// From here on every case is kept again.
    pub fn keep(&mut self) {
        self.drawing = false;
    }

    pub fn offer(&mut self, class: Class, case: Case) {
        if !self.drawing {
            self.boundary += 1;
        } else {
            let kept = self.kept.entry(class).or_insert(0);
            if *kept == self.most {
                return;
            }
            *kept += 1;
        }
        self.bytes.extend(case.bytes);
        self.text += &case.text;
    }

    /// Writes stdin, stdout and the names, and says what they hold.
    pub fn write(&self, crates: &Path) {
        let cases: u64 = self.boundary + self.kept.values().sum::<u64>();
        let mut stream = Case::default();
        stream.number(cases);
        stream.bytes.extend_from_slice(&self.bytes);
        assert!(stream.bytes.len() <= STREAM, "{}: the program reads no more", self.name);

        let folder = crates.join(self.name);
        fs::write(folder.join("stdin"), &stream.bytes).expect("stdin can be written");
        fs::write(folder.join("stdout"), &self.text).expect("stdout can be written");
        fs::create_dir_all(NAMES).expect("a folder can be made");
        fs::write(Path::new(NAMES).join(self.name), &self.names).expect("names can be written");
        let (bytes, text) = (stream.bytes.len(), self.text.len());
        println!("{}: {cases} cases, {bytes} bytes, {text} bytes of text", self.name);
        println!("  boundary cases: {}", self.boundary);
        for ((call, number, more), kept) in &self.kept {
            println!("  {call}: refusal {number}, class {more}: {kept}");
        }
    }
}

/// The refusal's number, or 0 with a class of the value.
pub fn class<T>(call: &'static str, answer: &Answer<T>, value: impl Fn(&T) -> u64) -> Class {
    match answer {
        Ok(answer) => (call, 0, value(answer)),
        Err(why) => (call, why.number, 0),
    }
}
