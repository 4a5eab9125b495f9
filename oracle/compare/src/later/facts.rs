//! The two facts, each of rows that both sides' calls have left.

use super::lent::{Lent, Stop};
use calls::coarsest::{Name, Splitting};
use calls::even::Allowed;
use calls::Refusal;
use inputs::tables::Table;

const NO_ROOM: Stop = Stop::Refused(Refusal { number: 6, place: 0 });
/// Refine's refusals of an id without a cell and of a cell at the last level.
const CANNOT_SPLIT: [u64; 2] = [8, 10];

/// Two tables of the same roots, with few splits and with more.
pub struct Pair<'a> {
    pub few: &'a Table,
    pub more: &'a Table,
}

impl Pair<'_> {
    /// Whether the second table has all splits of the first.
    pub fn is_one(&self) -> bool {
        splitting_of(self.more).contains(&splitting_of(self.few))
    }

    /// The first fact: evens both, each in so many slots. Says whether the second evened form has splits more.
    pub fn evened(&self, allowed: Allowed, [few, more]: [usize; 2]) -> Result<bool, Stop> {
        let few = evened(self.few, allowed, few).map_err(Stop::unexpected)?;
        let more = evened(self.more, allowed, more).map_err(Stop::unexpected)?;
        if more.contains(&few) {
            Ok(!few.contains(&more))
        } else {
            Err(Stop::Differs("the evened form of more splits lacks splits".to_string()))
        }
    }

    /// What is too little room for the few is too little for more. Ends in that refusal.
    pub fn refused(&self, allowed: Allowed, slots: usize) -> Stop {
        let ends = [self.few, self.more].map(|table| evened(table, allowed, slots));
        let differs = ends.into_iter().find(|end| end.as_ref().err() != Some(&NO_ROOM));
        differs.map_or(NO_ROOM, |end| Stop::Differs(format!("in {slots} slots: {end:?}")))
    }
}

pub fn splitting_of(table: &Table) -> Splitting {
    Splitting::of_table(&table.row, table.count)
}

/// What an evening leaves split.
fn evened(table: &Table, allowed: Allowed, slots: usize) -> Result<Splitting, Stop> {
    let mut lent = Lent::in_slots(table, slots);
    lent.even(allowed)?;
    Ok(lent.splitting())
}

/// A table after a list of names was split in turn, by either order of work.
pub struct Orders {
    /// The whole list, then an evening.
    at_once: Ran,
    /// An evening before the list, too.
    in_parts: Ran,
}

struct Ran {
    lent: Lent,
    end: Result<(), Stop>,
}

impl Orders {
    pub fn run(table: &Table, names: &[Name], allowed: Allowed, slots: usize) -> Self {
        let in_order = |work: fn(&mut Lent, &[Name], Allowed) -> Result<(), Stop>| {
            let mut lent = Lent::in_slots(table, slots);
            let end = work(&mut lent, names, allowed);
            Ran { lent, end }
        };
        Orders { at_once: in_order(Lent::at_once), in_parts: in_order(Lent::in_parts) }
    }

    /// The second fact: how many splits either order made. It is silent where a name of the list can't be split in its
    /// turn, and the end is that refusal then.
    pub fn end(&self) -> Result<u64, Stop> {
        match (&self.at_once.end, &self.in_parts.end) {
            (Err(stop @ Stop::Differs(_)), _) | (_, Err(stop @ Stop::Differs(_))) => {
                Err(stop.clone())
            }
            (Err(Stop::Refused(why)), _) if CANNOT_SPLIT.contains(&why.number) => {
                Err(Stop::Refused(*why))
            }
            (Ok(()), Ok(())) => self.same_end(),
            (once, parts) => {
                Err(Stop::Differs(format!("at once it ends by {once:?}, in parts by {parts:?}")))
            }
        }
    }

    fn same_end(&self) -> Result<u64, Stop> {
        let [once, parts] = [&self.at_once, &self.in_parts].map(|ran| &ran.lent);
        if once.head() != parts.head() {
            let heads = format!("at once {:?}, in parts {:?}", once.head(), parts.head());
            return Err(Stop::Differs(heads));
        }
        let (left, right) = (once.leaves(), parts.leaves());
        match left.symmetric_difference(&right).next() {
            None => Ok(once.splits().iter().sum()),
            Some(leaf) => Err(Stop::Differs(format!("of one order only: {leaf:?}"))),
        }
    }

    /// In too little room for any call after those that `short` made, each order is refused at its last call that
    /// makes a split. Ends in that refusal.
    pub fn refused(&self, short: &Orders) -> Stop {
        let orders = [(&self.at_once, &short.at_once), (&self.in_parts, &short.in_parts)];
        for (ran, Ran { lent, end }) in orders {
            let calls = lent.splits().len();
            if *end != Err(NO_ROOM) || ran.lent.last_to_split() != Some(calls) {
                return Stop::Differs(format!("four slots less, after {calls} calls: {end:?}"));
            }
        }
        NO_ROOM
    }

    /// Whether a name could be split at first and was passed over after the first evening.
    pub fn passed_over_later(&self) -> bool {
        let [once, parts] = [&self.at_once, &self.in_parts].map(|ran| ran.lent.splits());
        let Some((_, names)) = once.split_last() else { return false };
        names.iter().zip(&parts[1..]).any(|(&at_once, &later)| at_once > 0 && later == 0)
    }

    /// Whether the evening behind the list made splits in parts, too.
    pub fn evened_again(&self) -> bool {
        self.in_parts.lent.splits().last().map_or(false, |&splits| splits > 0)
    }
}
