//! Why a call is refused.

use crate::ffi::{BorderOutcome, CheckOutcome, NetOutcome, Outcome, ReadOutcome, TableOutcome};
use crate::{Border, Counts, Hanging, Head, Side};
use std::error::Error;
use std::fmt;

/// A refused call: why, and where. The place is a byte offset for a record, a polygon's index for its
/// values and rings, a cell's id for the cell that was asked for, and 0 otherwise.
#[derive(Clone, Copy, Debug, PartialEq, Eq)]
pub struct Refusal {
    /// Why.
    pub reason: Reason,
    /// Where, or 0.
    pub place: usize,
}

/// Why, by the refusal's number. A later library may have more of them.
#[derive(Clone, Copy, Debug, PartialEq, Eq, PartialOrd, Ord)]
#[non_exhaustive]
pub enum Reason {
    /// 1: the record is not of version 1.
    WrongVersion,
    /// 2: a field of a record is cut short, a length is wrong, or bytes are left over.
    WrongLength,
    /// 3: a value is out of range.
    OutOfRange,
    /// 4: neighbouring points of a ring differ in both x and y.
    Slanted,
    /// 5: a base cell's side is no multiple of 2^(max_level+1) ticks.
    UnevenCell,
    /// 6: a lent row is too short.
    NoRoom,
    /// 7: a bad table or net, or polygons' rows that don't fit together.
    BadTable,
    /// 8: there is no cell with this id.
    NoSuchCell,
    /// 9: the cell is split already.
    AlreadySplit,
    /// 10: the cell is at the finest level.
    FinestLevel,
    /// A number that this crate doesn't know.
    Other(u64),
}

/// The reasons that have words, from number 1 on.
const KNOWN: [(Reason, &str); 10] = [
    (Reason::WrongVersion, "the record is not of version 1"),
    (
        Reason::WrongLength,
        "the record is cut short, too long, or gives a wrong length",
    ),
    (Reason::OutOfRange, "a value is out of range"),
    (
        Reason::Slanted,
        "two neighbouring points of a ring differ in both x and y",
    ),
    (
        Reason::UnevenCell,
        "a base cell's side is no multiple of 2^(max_level+1) ticks",
    ),
    (Reason::NoRoom, "a lent row is too short"),
    (
        Reason::BadTable,
        "the table or net is not well formed, or rows of polygons do not fit together",
    ),
    (Reason::NoSuchCell, "there is no cell with this id"),
    (Reason::AlreadySplit, "the cell is split already"),
    (Reason::FinestLevel, "the cell is at the finest level"),
];

impl Reason {
    fn of_number(number: u64) -> Self {
        let known = number.checked_sub(1).and_then(|at| KNOWN.get(at as usize));
        known.map_or(Reason::Other(number), |entry| entry.0)
    }

    /// As the library and leafnet give it.
    pub fn number(self) -> u64 {
        match self {
            Reason::Other(number) => number,
            known => KNOWN
                .iter()
                .position(|entry| entry.0 == known)
                .map_or(0, |at| at as u64 + 1),
        }
    }

    /// What is wrong, in words, without the place.
    pub fn words(self) -> &'static str {
        let known = KNOWN.iter().find(|entry| entry.0 == self);
        known.map_or("a refusal of a later version", |entry| entry.1)
    }
}

impl fmt::Display for Refusal {
    fn fmt(&self, f: &mut fmt::Formatter<'_>) -> fmt::Result {
        write!(
            f,
            "refused {} {}: {}",
            self.reason.number(),
            self.place,
            self.reason.words()
        )
    }
}

impl Error for Refusal {}

fn refused(number: u64, place: u64) -> Result<(), Refusal> {
    match number {
        0 => Ok(()),
        n => Err(Refusal {
            reason: Reason::of_number(n),
            place: place as usize,
        }),
    }
}

pub fn judged(outcome: Outcome) -> Result<u64, Refusal> {
    refused(outcome.number, outcome.place)?;
    Ok(outcome.value)
}

pub fn judged_border(outcome: BorderOutcome) -> Result<Option<Border>, Refusal> {
    refused(outcome.number, outcome.place)?;
    let length = outcome.length;
    if length == 0 {
        return Ok(None);
    }
    let side = match outcome.side {
        0 => Side::South,
        1 => Side::East,
        2 => Side::North,
        3 => Side::West,
        other => unreachable!(
            "of a border the library is proved to answer one of four sides, not {other}"
        ),
    };
    Ok(Some(Border { side, length }))
}

/// The splits and the new head.
pub fn judged_table(outcome: TableOutcome) -> Result<(usize, Head), Refusal> {
    refused(outcome.number, outcome.place)?;
    let head = Head {
        count: outcome.count as usize,
        leaves: outcome.leaves as usize,
        max_level: outcome.max_level,
    };
    Ok((outcome.splits as usize, head))
}

pub fn judged_read(outcome: ReadOutcome) -> Result<ReadOutcome, Refusal> {
    refused(outcome.number, outcome.place)?;
    Ok(outcome)
}

pub fn judged_net(outcome: NetOutcome) -> Result<Counts, Refusal> {
    refused(outcome.number, outcome.place)?;
    Ok(Counts {
        nodes: outcome.nodes as usize,
        edges: outcome.edges as usize,
        cells: outcome.cells as usize,
        links: outcome.links as usize,
    })
}

pub fn judged_check(outcome: CheckOutcome) -> Result<Option<Hanging>, Refusal> {
    refused(outcome.number, outcome.place)?;
    let hanging = Hanging {
        node: outcome.node as usize,
        from: outcome.from as usize,
        to: outcome.to as usize,
    };
    Ok((outcome.broken == 1).then_some(hanging))
}

#[cfg(test)]
mod tests {
    use super::*;

    #[test]
    fn numbers_there_and_back() {
        for number in 1..=10 {
            let reason = Reason::of_number(number);
            assert_eq!(
                (reason.number(), reason),
                (number, KNOWN[number as usize - 1].0)
            );
        }
        for number in [11, 255, u64::MAX] {
            let outcome = Outcome {
                number,
                place: 7,
                value: 0,
            };
            let refusal = judged(outcome).expect_err("a refusal");
            assert_eq!(refusal.reason, Reason::Other(number));
            assert_eq!(
                refusal.to_string(),
                format!("refused {number} 7: a refusal of a later version")
            );
        }
        assert_eq!(judged(Outcome::default()), Ok(0));
    }

    #[test]
    fn sides_by_their_numbers() {
        for (number, side) in [Side::South, Side::East, Side::North, Side::West]
            .into_iter()
            .enumerate()
        {
            let outcome = BorderOutcome {
                side: number as u64,
                length: 1 << 37,
                ..BorderOutcome::default()
            };
            let border = Border {
                side,
                length: 1 << 37,
            };
            assert_eq!(judged_border(outcome), Ok(Some(border)));
            let none = BorderOutcome {
                length: 0,
                ..outcome
            };
            assert_eq!(judged_border(none), Ok(None));
            let refused = BorderOutcome { number: 3, ..none };
            assert_eq!(
                judged_border(refused).map_err(|why| why.reason),
                Err(Reason::OutOfRange)
            );
        }
    }
}
