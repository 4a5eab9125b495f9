//! The terminals that a tool is given: those of a board's text, and those that are named beside it.

use super::ground::missing_copper;
use crate::solving::{Terminal, Unsolved};
use crate::{text, Board, Pitch};
use std::borrow::Cow;
use std::fmt;

/// Terminals in their order, and where each was named.
#[derive(Clone, Debug, Default)]
pub struct Terminals {
    all: Vec<Terminal>,
    /// The line of each in a text; none where `--terminal` named it.
    lines: Vec<Option<usize>>,
}

impl Terminals {
    /// Those of a text, with their lines.
    pub fn of_text(all: Vec<Terminal>, lines: &[usize]) -> Self {
        let lines = lines.iter().copied().map(Some).collect();
        Terminals { all, lines }
    }

    /// All of them.
    pub fn all(&self) -> &[Terminal] {
        &self.all
    }

    /// Takes more of them, in the words of a text's line. One with the name of another takes its place.
    ///
    /// # Errors
    ///
    /// In words: the first that makes no sense.
    pub fn take(&mut self, all: &[Cow<str>], pitch: Option<Pitch>) -> Result<(), String> {
        for words in all {
            let terminal = text::terminal(words, pitch)
                .map_err(|why| format!("--terminal \"{words}\": {why}"))?;
            match self.place_of(&terminal.name) {
                Some(at) => (self.all[at], self.lines[at]) = (terminal, None),
                None => {
                    self.all.push(terminal);
                    self.lines.push(None);
                }
            }
        }
        Ok(())
    }

    fn place_of(&self, name: &str) -> Option<usize> {
        self.all.iter().position(|own| own.name == name)
    }

    /// Whether there are any: nothing flows without.
    ///
    /// # Errors
    ///
    /// In words: what asks for them, and how they are named.
    pub fn judge(&self, asker: &str) -> Result<(), String> {
        if !self.all.is_empty() {
            return Ok(());
        }
        Err(format!(
            "{asker} needs terminals: where current enters and leaves (a line `terminal` in the text, or --terminal)"
        ))
    }

    /// The first that is on copper which isn't there, behind its line.
    ///
    /// # Errors
    ///
    /// In words: what is missing, and where copper lies.
    pub fn judge_ground(&self, board: &Board) -> Result<(), String> {
        let missing = |(at, one)| missing_copper(board, one).map(|why| self.behind_line(at, &why));
        self.all
            .iter()
            .enumerate()
            .find_map(missing)
            .map_or(Ok(()), Err)
    }

    fn behind_line(&self, at: usize, why: &dyn fmt::Display) -> String {
        match self.lines[at] {
            Some(line) => format!("line {line}: {why}"),
            None => format!("--terminal: {why}"),
        }
    }

    /// Why they bring about nothing, behind the line of the one to blame, or the switch that named it.
    pub fn blame(&self, why: &Unsolved) -> String {
        let place = why.terminal().and_then(|name| self.place_of(name));
        place.map_or_else(|| why.to_string(), |at| self.behind_line(at, why))
    }
}
