//! A sweep from west to east over rectangles: which upright chords their union has, and where one is shorter than the
//! chords before and behind it.

use crate::Rect;
use std::collections::BTreeMap;

/// From south to north.
#[derive(Clone, Copy, Debug, PartialEq, Eq, PartialOrd, Ord)]
struct Span {
    low: i64,
    high: i64,
}

impl Span {
    /// How far it lies beside another one.
    fn common(self, other: Span) -> Span {
        Span {
            low: self.low.max(other.low),
            high: self.high.min(other.high),
        }
    }
}

/// A chord that is the same from a place on.
#[derive(Clone, Copy, Debug)]
struct Chord {
    span: Span,
    from: i64,
    /// Whether all of it opens into a longer one, where it begins and where it ends.
    opens: [bool; 2],
}

/// The rectangles in which the union's upright chord is a shortest one: all of it opens into a longer chord on the
/// west, and into one on the east. Thin ones are where two chords meet along less than either.
pub(super) fn narrows(rects: &[Rect]) -> Vec<Rect> {
    let mut changes: BTreeMap<i64, BTreeMap<Span, i32>> = BTreeMap::new();
    for &[x0, y0, x1, y1] in rects {
        let span = Span { low: y0, high: y1 };
        for (x, by) in [(x0, 1), (x1, -1)] {
            *changes.entry(x).or_default().entry(span).or_default() += by;
        }
    }
    let mut sweep = Sweep::default();
    for (x, mut spans) in changes {
        // What goes on beside itself is no change.
        spans.retain(|_, by| *by != 0);
        sweep.go_on(x, &spans);
    }
    sweep.found
}

#[derive(Default)]
struct Sweep {
    /// By how much the count of rectangles grows at a height; none by 0.
    steps: BTreeMap<i64, i32>,
    /// By their low ends. No two touch.
    chords: BTreeMap<i64, Chord>,
    found: Vec<Rect>,
}

impl Sweep {
    fn go_on(&mut self, x: i64, spans: &BTreeMap<Span, i32>) {
        for (span, by) in spans {
            self.step(span.low, *by);
            self.step(span.high, -*by);
        }
        for hull in self.hulls(spans.keys()) {
            let old = self.taken(hull);
            let new = self.chords_in(hull, x);
            self.pass(x, old, new);
        }
    }

    fn step(&mut self, at: i64, by: i32) {
        let step = self.steps.entry(at).or_default();
        *step += by;
        if *step == 0 {
            self.steps.remove(&at);
        }
    }

    /// The spans with the chords that they touch, each with what it touches itself; they rise.
    fn hulls<'a>(&self, spans: impl Iterator<Item = &'a Span>) -> Vec<Span> {
        let mut all: Vec<Span> = Vec::new();
        for span in spans {
            let own = Span {
                low: self
                    .touched(span.low)
                    .map_or(span.low, |chord| chord.span.low),
                high: self
                    .touched(span.high)
                    .map_or(span.high, |chord| chord.span.high.max(span.high)),
            };
            match all.last_mut() {
                Some(last) if own.low <= last.high => last.high = last.high.max(own.high),
                _ => all.push(own),
            }
        }
        all
    }

    /// The chord that a height is on or at an end of; of none, or two, the upper.
    fn touched(&self, at: i64) -> Option<&Chord> {
        let (_, chord) = self.chords.range(..=at).next_back()?;
        (at <= chord.span.high).then_some(chord)
    }

    /// The chords in a span, which there are no more.
    fn taken(&mut self, hull: Span) -> Vec<Chord> {
        let in_hull = self.chords.range(hull.low..=hull.high);
        let all: Vec<Chord> = in_hull.map(|(_, chord)| *chord).collect();
        for chord in &all {
            self.chords.remove(&chord.span.low);
        }
        all
    }

    /// The chords in a span by what lies there now. Nothing lies right below it.
    fn chords_in(&self, hull: Span, from: i64) -> Vec<Chord> {
        let mut all = Vec::new();
        let (mut count, mut low) = (0, hull.low);
        for (&at, by) in self.steps.range(hull.low..=hull.high) {
            if count == 0 {
                low = at;
            }
            count += by;
            if count == 0 {
                all.push(Chord {
                    span: Span { low, high: at },
                    from,
                    opens: [false; 2],
                });
            }
        }
        all
    }

    /// Old chords end and new ones begin, but for those that are both.
    fn pass(&mut self, x: i64, mut old: Vec<Chord>, mut new: Vec<Chord>) {
        let (mut a, mut b) = (0, 0);
        while let (Some(before), Some(after)) = (old.get_mut(a), new.get_mut(b)) {
            let mouth = before.span.common(after.span);
            let is_past = before.span.high <= after.span.high;
            if before.span == after.span {
                // It goes on, and hasn't ended.
                *after = *before;
                before.opens[0] = false;
            } else if mouth.low < mouth.high {
                match (mouth == before.span, mouth == after.span) {
                    (true, _) => before.opens[1] = true,
                    (_, true) => after.opens[0] = true,
                    _ => self.found.push([x, mouth.low, x, mouth.high]),
                }
            }
            if is_past {
                a += 1;
            } else {
                b += 1;
            }
        }
        for Chord { span, from, opens } in old {
            if opens == [true; 2] {
                self.found.push([from, span.low, x, span.high]);
            }
        }
        for chord in new {
            self.chords.insert(chord.span.low, chord);
        }
    }
}

#[cfg(test)]
mod tests {
    use super::narrows;
    use crate::Rect;

    /// The same by trying: the union's chords between any two neighbouring places, and at the places between them.
    fn tried(rects: &[Rect], size: i64) -> Vec<Rect> {
        let is_in = |x: i64, y: i64| {
            let has = |&[x0, y0, x1, y1]: &Rect| x0 <= x && x < x1 && y0 <= y && y < y1;
            rects.iter().any(has)
        };
        // Chords in each unit of x.
        let chords = |x: i64| -> Vec<[i64; 2]> {
            let mut all: Vec<[i64; 2]> = Vec::new();
            for y in (0..size).filter(|&y| is_in(x, y)) {
                match all.last_mut() {
                    Some(last) if last[1] == y => last[1] = y + 1,
                    _ => all.push([y, y + 1]),
                }
            }
            all
        };
        let mouths = |x: i64, [low, high]: [i64; 2]| -> Vec<([i64; 2], [i64; 2])> {
            let own = |other: [i64; 2]| (other, [other[0].max(low), other[1].min(high)]);
            let all = chords(x).into_iter().map(own);
            all.filter(|(_, mouth)| mouth[0] < mouth[1]).collect()
        };
        let long = |[low, high]: [i64; 2]| high - low;
        let mut found = Vec::new();
        for x in 0..size {
            for own in chords(x) {
                for (other, mouth) in mouths(x - 1, own) {
                    if long(mouth) < long(own) && long(mouth) < long(other) {
                        found.push([x, mouth[0], x, mouth[1]]);
                    }
                }
                // A run of one chord, seen from where it begins.
                let opens = |x: i64, own: [i64; 2]| {
                    mouths(x, own)
                        .iter()
                        .any(|&(other, mouth)| mouth == own && long(other) > long(own))
                };
                if opens(x - 1, own) {
                    let end = (x..)
                        .find(|&end| !chords(end).contains(&own))
                        .expect("an end");
                    if opens(end, own) {
                        found.push([x, own[0], end, own[1]]);
                    }
                }
            }
        }
        found.sort_unstable();
        found
    }

    #[test]
    fn the_sweep_finds_what_trying_finds() {
        let mut seed: u64 = 7;
        let mut below = |most: u64| {
            seed = seed
                .wrapping_mul(6_364_136_223_846_793_005)
                .wrapping_add(1_442_695_040_888_963_407);
            ((seed >> 33) % most) as i64
        };
        let mut necks = 0;
        for _ in 0..3000 {
            let rects: Vec<Rect> = (0..below(9))
                .map(|_| {
                    let [x, y] = [0, 0].map(|_| below(12));
                    [x, y, x + 1 + below(5), y + 1 + below(5)]
                })
                .collect();
            let mut found = narrows(&rects);
            found.sort_unstable();
            assert_eq!(found, tried(&rects, 20), "{rects:?}");
            necks += found.len();
        }
        assert!(necks > 500, "{necks}");
    }

    #[test]
    fn chords_are_those_of_the_union() {
        // A neck in two strips above each other, one in two strips beside each other, and one that is drawn twice.
        let pads = [[0, 0, 4, 8], [8, 0, 12, 8]];
        for neck in [
            vec![[4, 2, 8, 3], [4, 3, 8, 4]],
            vec![[4, 2, 5, 4], [5, 2, 8, 4]],
            vec![[4, 2, 8, 4], [4, 2, 8, 4], [3, 2, 9, 4]],
        ] {
            assert_eq!(narrows(&[&pads[..], &neck[..]].concat()), [[4, 2, 8, 4]]);
        }
        // Two pads that touch along half a side.
        assert_eq!(narrows(&[[0, 0, 4, 8], [4, 4, 8, 12]]), [[4, 4, 4, 8]]);
        // A stub and a fork aren't necks.
        assert_eq!(narrows(&[pads[0], [4, 2, 8, 4]]), [[0; 4]; 0]);
        assert_eq!(
            narrows(&[[0, 0, 4, 8], [4, 0, 8, 2], [4, 6, 8, 8]]),
            [[0; 4]; 0]
        );
        assert_eq!(narrows(&[]), [[0; 4]; 0]);
    }
}
