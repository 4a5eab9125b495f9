//! Contact of two rectangles, each pair both ways round.

use crate::port::{self, border_outcome_of};
use crate::report::Report;
use calls::contact::{contact, Border};
use inputs::rectangles::{
    is_whole_side, near_miss, random_neighbours, random_pair, small_pair, Miss, Pair, SMALL_PAIRS,
};
use inputs::Random;
use leafmesh::ffi::Outcome;

/// What was run, and what the borders and the near misses were like.
#[derive(Default)]
struct Tally {
    borders: u64,
    on_side: [u64; 4],
    one_tick: u64,
    whole_side: u64,
    long: u64,
    none: u64,
    gaps: u64,
    overlaps: u64,
    corners: u64,
}

/// All small pairs, then `count` random ones, every other of neighbours.
pub fn compare(count: u64, seed: u64) -> bool {
    let mut report = Report::new("contact");
    let mut tally = Tally::default();
    let mut both_ways = |(a, b): Pair| {
        run((a, b), &mut report, &mut tally);
        run((b, a), &mut report, &mut tally);
    };
    for n in 0..SMALL_PAIRS {
        both_ways(small_pair(n));
    }
    let mut random = Random::new(seed);
    for n in 0..count {
        both_ways(match n % 2 {
            0 => random_pair(&mut random),
            _ => random_neighbours(&mut random),
        });
    }
    tally.print();
    report.print()
}

fn run(pair: Pair, report: &mut Report, tally: &mut Tally) {
    let (a, b) = pair;
    let answer = contact(a, b);
    match answer {
        Ok(Some(border)) => tally.look(pair, border),
        Ok(None) => tally.miss(pair),
        Err(_) => {}
    }
    let expected = border_outcome_of(answer);
    let got = port::contact(a, b);
    let counted =
        Outcome { number: expected.number, place: expected.place, value: expected.length };
    report.ran(counted, got == expected, || {
        let words = format!("{a:?} and {b:?}: original {expected:?}, port {got:?}");
        (size(pair), words)
    });
}

/// Pairs near the origin are the small ones.
fn size((a, b): Pair) -> u128 {
    a.iter().chain(&b).map(|number| u128::from(number.unsigned_abs())).sum()
}

impl Tally {
    fn look(&mut self, pair: Pair, border: Border) {
        self.borders += 1;
        self.on_side[border.side.number() as usize] += 1;
        self.one_tick += u64::from(border.length == 1);
        self.whole_side += u64::from(is_whole_side(pair, border));
        self.long += u64::from(border.length > 1 << 32);
    }

    fn miss(&mut self, pair: Pair) {
        self.none += 1;
        match near_miss(pair) {
            Some(Miss::Gap) => self.gaps += 1,
            Some(Miss::Overlap) => self.overlaps += 1,
            Some(Miss::Corner) => self.corners += 1,
            None => {}
        }
    }

    fn print(&self) {
        let [south, east, north, west] = self.on_side;
        println!(
            "contact: {} borders, {south} on the south side, {east} east, {north} north, {west} west; {} of one tick, \
             {} along a whole side, {} longer than 2^32 ticks",
            self.borders, self.one_tick, self.whole_side, self.long
        );
        println!(
            "contact: {} times no border, {} of them a gap of one tick, {} an overlap of one tick, {} a corner",
            self.none, self.gaps, self.overlaps, self.corners
        );
    }
}
