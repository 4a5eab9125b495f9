//! The words behind a tool's name.

use super::{say, End};
use std::borrow::Cow;
use std::env;
use std::ffi::{OsStr, OsString};
use std::process::ExitCode;

/// A program.
#[derive(Clone, Copy, Debug)]
pub struct Tool {
    /// As it is called.
    pub name: &'static str,
    /// What it does: one command without a name, or several by their names.
    pub commands: &'static [Command],
    /// What `--help` shows where no command is named: how the tool is called, an empty line, and what it does.
    pub help: &'static str,
}

/// One thing that a tool does. It reads a file or standard input, and writes what it makes.
#[derive(Clone, Copy, Debug)]
pub struct Command {
    /// The word that asks for it; empty where the tool does nothing else.
    pub name: &'static str,
    /// As of a tool.
    pub help: &'static str,
    /// What it may be given beside a file's name and `-o`.
    pub switches: &'static [Switch],
    /// What it makes.
    pub make: fn(&Words) -> Result<Vec<u8>, Stop>,
}

/// A name with its dashes, and what stands behind it.
pub type Switch = (&'static str, Takes);

/// What stands behind a switch.
#[derive(Clone, Copy, Debug, PartialEq, Eq)]
pub enum Takes {
    /// Nothing.
    Nothing,
    /// A word; the switch is given once.
    Word,
    /// A word; the switch may be given several times.
    Words,
}

const OUTPUT: Switch = ("-o", Takes::Word);

/// Why a command ends before it has made anything.
#[derive(Clone, Debug, PartialEq, Eq)]
pub enum Stop {
    /// Its words make no sense.
    Senseless(String),
    /// It was asked how it is called.
    Help,
    /// It was asked for its version.
    Version,
    /// Something is refused or fails.
    Failed(String),
}

impl From<String> for Stop {
    fn from(why: String) -> Self {
        Stop::Failed(why)
    }
}

/// What a command was given.
#[derive(Clone, Debug, Default)]
pub struct Words {
    file: Option<OsString>,
    switches: Vec<(&'static str, OsString)>,
}

impl Words {
    /// The file, or standard input.
    pub fn input(&self) -> End {
        End::of(self.file.as_deref())
    }

    /// The file's name, if there is one.
    pub fn file(&self) -> Option<&OsStr> {
        self.file.as_deref()
    }

    /// Whether a switch is there.
    pub fn has(&self, name: &'static str) -> bool {
        self.raw(name).next().is_some()
    }

    /// The file that a switch names.
    pub fn file_of(&self, name: &'static str) -> Option<End> {
        self.raw(name).next().map(|file| End::of(Some(file)))
    }

    /// The words behind a switch, wherever it is given.
    pub fn all(&self, name: &'static str) -> Vec<Cow<'_, str>> {
        self.raw(name).map(OsStr::to_string_lossy).collect()
    }

    /// The word behind a switch.
    pub fn one(&self, name: &'static str) -> Option<Cow<'_, str>> {
        self.raw(name).next().map(OsStr::to_string_lossy)
    }

    fn raw(&self, name: &'static str) -> impl Iterator<Item = &OsStr> {
        let own = self.switches.iter().filter(move |(own, _)| *own == name);
        own.map(|(_, word)| word.as_os_str())
    }

    /// What a command is given by words. Behind `--` every word is a file's name.
    fn of(command: &Command, mut words: impl Iterator<Item = OsString>) -> Result<Self, Stop> {
        let mut given = Words::default();
        while let Some(word) = words.next() {
            match word.to_str() {
                Some("--") => {
                    words.by_ref().try_for_each(|word| given.take_file(word))?;
                }
                Some("--help") => return Err(Stop::Help),
                Some("--version") => return Err(Stop::Version),
                Some(name) if name.starts_with('-') && name != "-" => {
                    given.take_switch(command, name, &mut words)?;
                }
                _ => given.take_file(word)?,
            }
        }
        Ok(given)
    }

    fn take_file(&mut self, word: OsString) -> Result<(), Stop> {
        match self.file {
            Some(_) => Err(senseless("one file too many", &word)),
            None => {
                self.file = Some(word);
                Ok(())
            }
        }
    }

    /// A switch, and its word, which stands behind it or behind an equals sign.
    fn take_switch(
        &mut self,
        command: &Command,
        word: &str,
        words: &mut impl Iterator<Item = OsString>,
    ) -> Result<(), Stop> {
        let (name, own) = match word.split_once('=') {
            Some((name, own)) => (name, Some(OsString::from(own))),
            None => (word, None),
        };
        let mut known = command.switches.iter().chain([&OUTPUT]);
        let Some(&(name, takes)) = known.find(|(known, _)| *known == name) else {
            return Err(Stop::Senseless(format!("unknown option: {name}")));
        };
        if takes != Takes::Words && self.has(name) {
            return Err(Stop::Senseless(format!("{name} is given twice")));
        }
        let value = match (takes, own) {
            (Takes::Nothing, None) => Ok(OsString::new()),
            (Takes::Nothing, Some(_)) => Err("takes no word"),
            (_, own) => own.or_else(|| words.next()).ok_or("wants a word"),
        };
        let value = value.map_err(|why| Stop::Senseless(format!("{name} {why}")))?;
        self.switches.push((name, value));
        Ok(())
    }
}

fn senseless(what: &str, word: &OsStr) -> Stop {
    Stop::Senseless(format!("{what}: {}", word.to_string_lossy()))
}

impl Command {
    fn done(&self, words: &[OsString]) -> Result<(), Stop> {
        let words = Words::of(self, words.iter().cloned())?;
        let made = (self.make)(&words)?;
        let output = words.file_of(OUTPUT.0).unwrap_or_default();
        Ok(output.write(&made)?)
    }
}

impl Tool {
    /// Does what the program's words ask for, or says why not.
    pub fn main(&self) -> ExitCode {
        let words: Vec<OsString> = env::args_os().skip(1).collect();
        let (help, done) = match self.command(&words) {
            Ok((command, words)) => (command.help, command.done(words)),
            Err(stop) => (self.help, Err(stop)),
        };
        done.map_or_else(|stop| self.end(help, stop), |()| ExitCode::SUCCESS)
    }

    fn end(&self, help: &str, stop: Stop) -> ExitCode {
        let (words, status) = match stop {
            Stop::Help => return shown(help),
            Stop::Version => {
                return shown(&format!("{} {}\n", self.name, env!("CARGO_PKG_VERSION")))
            }
            Stop::Senseless(why) => (format!("{}: {why}\n{}", self.name, usage(help)), 2),
            Stop::Failed(why) => (why, 1),
        };
        say(&words);
        ExitCode::from(status)
    }

    /// The command that is asked for, and its own words.
    fn command<'a>(&self, words: &'a [OsString]) -> Result<(&Command, &'a [OsString]), Stop> {
        if let [only] = self.commands {
            return Ok((only, words));
        }
        let Some((name, rest)) = words.split_first() else {
            return Err(Stop::Senseless("which command?".to_string()));
        };
        match name.to_str() {
            Some("--help") => Err(Stop::Help),
            Some("--version") => Err(Stop::Version),
            _ => match self.commands.iter().find(|command| name == command.name) {
                Some(command) => Ok((command, rest)),
                None => Err(senseless("unknown command", name)),
            },
        }
    }
}

/// How a tool is called, without what it does.
fn usage(help: &str) -> &str {
    help.split("\n\n").next().unwrap_or(help)
}

/// Shows on standard output what was asked for.
fn shown(text: &str) -> ExitCode {
    match End::default().write(text.as_bytes()) {
        Ok(()) => ExitCode::SUCCESS,
        Err(why) => {
            say(&why);
            ExitCode::FAILURE
        }
    }
}
