//! Contact by a second reading, and what the generators of pairs claim.

use calls::contact::{contact, Border, Rect, Side};
use calls::Refusal;
use inputs::limit_pairs::limit_pairs;
use inputs::rectangles::{
    is_whole_side, near_miss, random_neighbours, random_pair, small_pair, turned, Pair, SMALL_PAIRS,
};
use inputs::Random;
use std::collections::HashSet;

/// A tick of a border, from a point to a point.
type Step = [(i64, i64); 2];

/// Once around a rectangle, anticlockwise, tick by tick.
fn steps([x0, y0, x1, y1]: Rect) -> impl Iterator<Item = (Side, Step)> {
    let south = (x0..x1).map(move |x| (Side::South, [(x, y0), (x + 1, y0)]));
    let east = (y0..y1).map(move |y| (Side::East, [(x1, y), (x1, y + 1)]));
    let north = (x0..x1).map(move |x| (Side::North, [(x + 1, y1), (x, y1)]));
    let west = (y0..y1).map(move |y| (Side::West, [(x0, y + 1), (x0, y)]));
    south.chain(east).chain(north).chain(west)
}

/// Two rectangles share those steps that one goes forwards and the other backwards: they lie on both sides of it.
fn counted(a: Rect, b: Rect) -> Option<Border> {
    let backwards: HashSet<Step> = steps(b).map(|(_, [from, to])| [to, from]).collect();
    let shared = steps(a).filter(|(_, step)| backwards.contains(step));
    let sides: Vec<Side> = shared.map(|(side, _)| side).collect();
    let side = *sides.first()?;
    assert!(sides.iter().all(|&other| other == side), "{a:?} and {b:?}: {sides:?}");
    Some(Border { side, length: sides.len() as u64 })
}

/// Of five coordinates three can be those of two ranges that meet in 10 ways, and two ranges overlap in 70.
#[test]
fn small_pairs_share_as_many_steps_as_their_border_is_long() {
    let (mut borders, mut none) = ([0; 4], 0);
    for (a, b) in (0..SMALL_PAIRS).map(small_pair) {
        let Ok(border) = contact(a, b) else {
            assert!([a, b].iter().any(|[x0, y0, x1, y1]| x0 >= x1 || y0 >= y1));
            continue;
        };
        assert_eq!(border, counted(a, b), "{a:?} and {b:?}");
        match border {
            Some(Border { side, .. }) => borders[side.number() as usize] += 1,
            None => none += 1,
        }
    }
    assert_eq!((borders, none), ([10 * 70; 4], 100 * 100 - 4 * 10 * 70));
}

#[test]
fn random_pairs_share_as_many_steps_as_their_border_is_long() {
    const PAIRS: usize = 20_000;
    let mut random = Random::new(51);
    let (mut borders, mut longest) = (0, 0);
    for _ in 0..PAIRS {
        let mut rect = || {
            let (x, y) = (random.within(-20, 20), random.within(-20, 20));
            [x, y, x + random.within(1, 30), y + random.within(1, 30)]
        };
        let (a, b) = (rect(), rect());
        let border = contact(a, b).expect("both are cells");
        assert_eq!(border, counted(a, b), "{a:?} and {b:?}");
        borders += usize::from(border.is_some());
        longest = longest.max(border.map_or(0, |border| border.length));
    }
    assert!(borders > PAIRS / 40 && longest > 20, "{borders} {longest}");
}

/// Seen from the other rectangle it is the opposite side, and as long; with both turned it is the next side.
#[test]
fn a_border_is_the_same_from_the_other_side_and_turned() {
    let mut random = Random::new(52);
    for _ in 0..100_000 {
        let (a, b) = random_neighbours(&mut random);
        let Ok(border) = contact(a, b) else { continue };
        let on = |side: fn(Side) -> Side| {
            border.map(|Border { side: of, length }| Border { side: side(of), length })
        };
        assert_eq!(contact(b, a), Ok(on(Side::opposite)));
        let next = |side: Side| Side::ALL[(side.number() as usize + 1) % 4];
        assert_eq!(contact(turned(a), turned(b)), Ok(on(next)));
    }
}

#[test]
fn random_pairs_have_borders_and_near_misses_of_each_kind() {
    const PAIRS: usize = 100_000;
    for (draw, seed) in [(random_pair as fn(&mut Random) -> Pair, 53), (random_neighbours, 54)] {
        let mut random = Random::new(seed);
        let (mut sides, mut misses) = ([0; 4], [0; 3]);
        let (mut one_tick, mut whole, mut long) = (0, 0, 0);
        for _ in 0..PAIRS {
            let pair = draw(&mut random);
            if let Ok(Some(border)) = contact(pair.0, pair.1) {
                sides[border.side.number() as usize] += 1;
                one_tick += usize::from(border.length == 1);
                whole += usize::from(is_whole_side(pair, border));
                long += usize::from(border.length > 1 << 32);
            }
            if let Some(miss) = near_miss(pair) {
                misses[miss as usize] += 1;
            }
        }
        assert!(sides.into_iter().all(|borders| borders > PAIRS / 25), "{sides:?}");
        assert!(misses.into_iter().all(|near| near > PAIRS / 25), "{misses:?}");
        assert!(
            one_tick > PAIRS / 20 && whole > PAIRS / 20 && long > PAIRS / 500,
            "{one_tick} {whole} {long}"
        );
    }
}

/// What the names say of the east side, and that the others are the same turned.
#[test]
fn limit_pairs_are_what_their_names_say() {
    const EAST: [u64; 19] =
        [6, 6, 3, 2, 3, 1, 1, 0, 0, 0, 0, 0, 0, 0, 1 << 37, 1 << 37, 1, 1, (1 << 32) + 1];
    let pairs = limit_pairs();
    let names: HashSet<&String> = pairs.iter().map(|(name, _)| name).collect();
    assert_eq!(names.len(), pairs.len());
    let of = |word: &str| {
        let named: Vec<_> = pairs.iter().filter(|(name, _)| name.contains(word)).collect();
        named.into_iter().map(|(_, (a, b))| contact(*a, *b)).collect::<Vec<_>>()
    };
    let words = ["contact, south:", "contact, east:", "contact, north:", "contact, west:"];
    for (side, word) in Side::ALL.into_iter().zip(words) {
        let border = |&length: &u64| Ok((length > 0).then_some(Border { side, length }));
        assert_eq!(of(word), EAST.iter().map(border).collect::<Vec<_>>());
    }
    for word in ["the first:", "the second:"] {
        assert_eq!(of(word), [Err(Refusal { number: 3, place: 0 }); 10]);
    }
}
