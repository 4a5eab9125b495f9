//! A table that both sides are lent for one call after the other.

use crate::port::{self, evening_outcome_of, head_outcome_of};
use crate::table::first_difference;
use calls::coarsest::{id_of, leaves_by_name, Name, NamedLeaf, Splitting};
use calls::even::{even, Allowed};
use calls::table::{refine, Head};
use calls::Refusal;
use inputs::tables::Table;
use leafmesh::ffi::TableOutcome;
use std::collections::BTreeSet;

/// Refine's refusal of a cell that is split.
const SPLIT_ALREADY: u64 = 9;

/// Why a table goes no further.
#[derive(Clone, Debug, PartialEq, Eq)]
pub enum Stop {
    /// By both sides.
    Refused(Refusal),
    /// Port and original don't do the same, or what is claimed of the rows doesn't hold; in words.
    Differs(String),
}

impl Stop {
    /// Where nothing is to be refused.
    pub fn unexpected(self) -> Self {
        match self {
            Stop::Refused(refusal) => Stop::Differs(format!("{refusal:?} by both")),
            differs => differs,
        }
    }
}

/// The table as port and original hold it.
pub struct Lent {
    row: Vec<i64>,
    port_row: Vec<i64>,
    head: Head,
    /// How many splits each call made. A cell that was passed over is a call without any.
    splits: Vec<u64>,
}

impl Lent {
    pub fn in_slots(table: &Table, slots: usize) -> Self {
        let mut roomy = table.clone();
        roomy.set_slots(slots);
        let (row, port_row) = (roomy.row.clone(), roomy.row);
        Lent { row, port_row, head: table.head(), splits: Vec::new() }
    }

    pub fn even(&mut self, allowed: Allowed) -> Result<(), Stop> {
        let answer = even(&mut self.row, self.head, allowed);
        let got = port::even::even(&mut self.port_row, self.head, allowed);
        self.hold(evening_outcome_of(answer), got)?;
        let made = answer.map_err(Stop::Refused)?;
        self.went_on(made.head, made.splits);
        Ok(())
    }

    /// Splits the cell of that name, or passes over it where it is split already. For a name without a cell the first
    /// id is asked that has none.
    fn split(&mut self, name: Name) -> Result<(), Stop> {
        let id = id_of(&self.port_row, self.head.count, name).unwrap_or(self.head.count);
        let answer = refine(&mut self.row, self.head, id);
        let got = port::table::refine(&mut self.port_row, self.head, id);
        self.hold(head_outcome_of(answer), got)?;
        match answer {
            Ok(head) => self.went_on(head, 1),
            Err(Refusal { number: SPLIT_ALREADY, .. }) => self.went_on(self.head, 0),
            Err(refusal) => return Err(Stop::Refused(refusal)),
        }
        Ok(())
    }

    /// The names in turn, then an evening.
    pub fn at_once(&mut self, names: &[Name], allowed: Allowed) -> Result<(), Stop> {
        names.iter().try_for_each(|&name| self.split(name))?;
        self.even(allowed)
    }

    /// With an evening before the names, too.
    pub fn in_parts(&mut self, names: &[Name], allowed: Allowed) -> Result<(), Stop> {
        self.even(allowed)?;
        self.at_once(names, allowed)
    }

    /// Holds what the port answered and left in its row to the original's.
    fn hold(&self, expected: TableOutcome, got: TableOutcome) -> Result<(), Stop> {
        if got == expected && self.port_row == self.row {
            return Ok(());
        }
        let rows = first_difference(&self.row, &self.port_row);
        let calls = self.splits.len();
        let words = format!("after {calls} calls: original {expected:?}, port {got:?}; {rows}");
        Err(Stop::Differs(words))
    }

    fn went_on(&mut self, head: Head, splits: u64) {
        self.head = head;
        self.splits.push(splits);
    }

    pub fn head(&self) -> Head {
        self.head
    }

    /// What the port's row has split.
    pub fn splitting(&self) -> Splitting {
        Splitting::of_table(&self.port_row, self.head.count)
    }

    /// The leaves of the port's row.
    pub fn leaves(&self) -> BTreeSet<NamedLeaf> {
        leaves_by_name(&self.port_row, self.head.count)
    }

    pub fn splits(&self) -> &[u64] {
        &self.splits
    }

    /// The place of the last call that made a split.
    pub fn last_to_split(&self) -> Option<usize> {
        self.splits.iter().rposition(|&splits| splits > 0)
    }
}
