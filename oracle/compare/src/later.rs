//! More splits, finer mesh: two facts of what balance and conform leave in the rows, each held while port and original
//! make the same calls. Cells are named by root and quadrants, not by id.
//!
//! - If a table splits every cell that another splits, so do their evened forms.
//! - Names that are split in turn, those of split cells passed over, end in the same leaves and the same head whether
//!   the table is evened before and after, or after only.

mod facts;
mod lent;

use crate::port::outcome_of;
use crate::report::Report;
use crate::table::table_words;
use calls::coarsest::{coarsest, Splitting};
use calls::even::Allowed;
use facts::{splitting_of, Orders, Pair};
use inputs::later::{steep_table, table_to_even, MoreSplits, SplitList};
use inputs::tables::Table;
use inputs::Random;
use lent::Stop;

/// How a table is drawn, and how many cells its evened form has at most: what has more is too wide to be run.
#[derive(Clone, Copy)]
struct Draw {
    table: fn(&mut Random) -> Table,
    widest: usize,
}

const ORDINARY: Draw = Draw { table: |random| table_to_even(28, random), widest: 180 };
const LARGE: Draw = Draw { table: |random| table_to_even(500, random), widest: 1_500 };
/// Conform makes all of a root as deep as its deepest cell, so these are drawn for it.
const STEEP: Draw = Draw { table: steep_table, widest: 1_500 };

fn any_draw(random: &mut Random) -> Draw {
    match random.below(300) {
        0 => LARGE,
        1..=2 => STEEP,
        _ => ORDINARY,
    }
}

/// What is counted as a table of hundreds of cells, and as a deep one.
const HUNDREDS: usize = 200;
const DEEP: i64 = 5;
/// How often a pair or a list is also run in four slots less than it needs.
const SHORT_ONE_IN: u64 = 8;

/// `count` random tables each for balance and for conform, with one that has more splits and with a list of names.
pub fn compare(count: u64, seed: u64) -> bool {
    let mut random = Random::new(seed);
    let mut balance =
        Evening::new(Allowed::One, ["balance, more splits", "balance, splits in parts"]);
    let mut conform =
        Evening::new(Allowed::None, ["conform, more splits", "conform, splits in parts"]);
    for _ in 0..count {
        balance.run(&mut random);
        conform.run(&mut random);
    }
    println!("later: balance: {}", balance.in_words());
    println!("later: conform: {}", conform.in_words());
    let same = balance.print();
    conform.print() && same
}

/// Balance or conform, and what was run by it.
struct Evening {
    allowed: Allowed,
    more: Report,
    parts: Report,
    tables: Tables,
    pairs: Pairs,
    lists: Lists,
}

#[derive(Default)]
struct Tables {
    all: u64,
    overlapping: u64,
    deep: u64,
    hundreds: u64,
}

#[derive(Default)]
struct Pairs {
    all: u64,
    overlapping: u64,
    finer: u64,
    short: u64,
    /// Beside a table that doesn't have all their splits.
    none: u64,
    too_wide: u64,
}

#[derive(Default)]
struct Lists {
    all: u64,
    overlapping: u64,
    passed_over: u64,
    evened_again: u64,
    short: u64,
    silent: u64,
    too_wide: u64,
}

impl Evening {
    fn new(allowed: Allowed, [more, parts]: [&'static str; 2]) -> Self {
        Evening {
            allowed,
            more: Report::new(more),
            parts: Report::new(parts),
            tables: Tables::default(),
            pairs: Pairs::default(),
            lists: Lists::default(),
        }
    }

    /// Both facts, of one random table.
    fn run(&mut self, random: &mut Random) {
        let draw = any_draw(random);
        let (table, evened) = self.any_table(draw, random);
        self.tables.count(&table);
        self.more_splits(&table, evened.cells(), draw.widest, random);
        let list = SplitList::random(&table, &evened, random);
        self.splits_in_parts(&table, &list, draw.widest, random);
    }

    /// A table that isn't too wide, and its evened form.
    fn any_table(&self, draw: Draw, random: &mut Random) -> (Table, Splitting) {
        loop {
            let table = (draw.table)(random);
            if let Some(evened) = self.evened(&table, draw.widest) {
                return (table, evened);
            }
        }
    }

    fn evened(&self, table: &Table, widest: usize) -> Option<Splitting> {
        coarsest(&table.row, table.count, self.allowed.levels(), widest)
    }

    fn more_splits(&mut self, few: &Table, few_need: usize, widest: usize, random: &mut Random) {
        let MoreSplits { table: more, of_its_own } = MoreSplits::than(few, random);
        let pair = Pair { few, more: &more };
        if !pair.is_one() {
            assert!(of_its_own, "more splits are all of the few and some");
            self.pairs.none += 1;
            return;
        }
        let Some(evened) = self.evened(&more, widest) else {
            self.pairs.too_wide += 1;
            return;
        };
        let slots = [few_need, evened.cells()].map(|need| need + any_spare(random));
        let finer = pair.evened(self.allowed, slots);
        self.pairs.all += 1;
        self.pairs.overlapping += u64::from(splitting_of(few).roots_overlap());
        self.pairs.finer += u64::from(finer == Ok(true));
        let words = || format!("{}; {}", table_words(few), table_words(&more));
        report(&mut self.more, few, finer.map(u64::from), words);

        if few_need >= more.count + 4 && random.one_in(SHORT_ONE_IN) {
            self.pairs.short += 1;
            report(&mut self.more, few, Err(pair.refused(self.allowed, few_need - 4)), words);
        }
    }

    fn splits_in_parts(
        &mut self,
        table: &Table,
        list: &SplitList,
        widest: usize,
        random: &mut Random,
    ) {
        let Some(evened) = self.evened(&list.after, widest) else {
            self.lists.too_wide += 1;
            return;
        };
        let (names, need) = (&list.names, evened.cells());
        let orders = Orders::run(table, names, self.allowed, need + any_spare(random));
        let words = || format!("{}; {names:?}", table_words(table));
        let end = orders.end();
        report(&mut self.parts, table, end.clone(), words);
        if let Err(stop) = end {
            self.lists.silent += u64::from(matches!(stop, Stop::Refused(_)));
            return;
        }
        self.lists.all += 1;
        self.lists.overlapping += u64::from(splitting_of(table).roots_overlap());
        self.lists.passed_over += u64::from(orders.passed_over_later());
        self.lists.evened_again += u64::from(orders.evened_again());

        if need > table.count && random.one_in(SHORT_ONE_IN) {
            self.lists.short += 1;
            let short = Orders::run(table, names, self.allowed, need - 4);
            report(&mut self.parts, table, Err(orders.refused(&short)), words);
        }
    }

    fn in_words(&self) -> String {
        format!("{}; {}; {}", self.tables.in_words(), self.pairs.in_words(), self.lists.in_words())
    }

    /// True if nothing differed.
    fn print(&self) -> bool {
        let more = self.more.print();
        self.parts.print() && more
    }
}

impl Tables {
    fn count(&mut self, table: &Table) {
        self.all += 1;
        self.overlapping += u64::from(splitting_of(table).roots_overlap());
        self.deep += u64::from((0..table.count).any(|id| table.slot(id).level >= DEEP));
        self.hundreds += u64::from(table.count >= HUNDREDS);
    }

    fn in_words(&self) -> String {
        format!(
            "{} tables ({} with roots that overlap, {} with cells at level {DEEP} or deeper, {} of {HUNDREDS} cells or \
             more)",
            self.all, self.overlapping, self.deep, self.hundreds
        )
    }
}

impl Pairs {
    fn in_words(&self) -> String {
        format!(
            "{} pairs ({} with roots that overlap), {} of them with evened forms that aren't the same, {} also in too \
             little room, {} tables beside one that lacks their splits, {} beside one too wide",
            self.all, self.overlapping, self.finer, self.short, self.none, self.too_wide
        )
    }
}

impl Lists {
    fn in_words(&self) -> String {
        format!(
            "{} lists ({} with roots that overlap), {} of them with a name that could be split at first and was passed \
             over after the first evening, {} evened by more splits behind the list, {} also in four slots less, {} \
             lists with a name that can't be split in its turn, {} too wide",
            self.all,
            self.overlapping,
            self.passed_over,
            self.evened_again,
            self.short,
            self.silent,
            self.too_wide
        )
    }
}

/// Slots past those that are needed.
fn any_spare(random: &mut Random) -> usize {
    random.pick(&[0, 0, 0, 1, 4, 11])
}

/// One input of a report: a value, a refusal by both sides, or what differs.
fn report(
    report: &mut Report,
    table: &Table,
    end: Result<u64, Stop>,
    words: impl FnOnce() -> String,
) {
    let (answer, why) = match end {
        Ok(value) => (Ok(value), None),
        Err(Stop::Refused(refusal)) => (Err(refusal), None),
        Err(Stop::Differs(why)) => (Ok(0), Some(why)),
    };
    report.ran(outcome_of(answer), why.is_none(), || {
        (table.row.len() as u128, format!("{}; {}", words(), why.unwrap_or_default()))
    });
}
