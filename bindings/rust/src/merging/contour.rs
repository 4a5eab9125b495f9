//! The outline of what several rings enclose together.

use super::coverage::Coverage;
use super::sweep::{places_of, steps, Step};
use crate::Point;
use std::collections::{BTreeMap, HashMap};

/// The outline of what rings enclose together: corners, each with the next one as one goes round with the copper on the
/// left. Pieces that only touch at a corner are apart.
pub(super) struct Contour {
    corners: Vec<Point>,
    next: Vec<usize>,
    /// The lowest, of these the westmost corner of each turn: of a piece or of a hole.
    turns: Vec<Turn>,
}

#[derive(Clone, Copy)]
struct Turn {
    first: usize,
    is_hole: bool,
}

/// A level side of the outline: copper above it, as on a floor, or below it.
#[derive(Clone, Copy)]
struct Level {
    y: i64,
    x: [i64; 2],
    is_floor: bool,
}

/// The level sides, from the lowest up, at one height from the west.
fn levels_of(rings: &[&[Point]]) -> Vec<Level> {
    let places = rings.iter().flat_map(|ring| places_of(ring)).collect();
    let mut coverage = Coverage::over(places);
    let mut levels = Vec::new();
    for (y, Step { begun, ended }) in steps(rings.iter().copied()) {
        let (mut floors, mut ceilings) = (Vec::new(), Vec::new());
        for stretch in begun {
            coverage.bare(stretch, &mut floors);
            coverage.add(stretch, 1);
        }
        for stretch in ended {
            coverage.add(stretch, -1);
            coverage.bare(stretch, &mut ceilings);
        }
        let start = levels.len();
        for (all, is_floor) in [(floors, true), (ceilings, false)] {
            levels.extend(joined(all).into_iter().map(|x| Level { y, x, is_floor }));
        }
        levels[start..].sort_unstable_by_key(|level| level.x);
    }
    levels
}

/// Stretches that touch are one.
fn joined(mut all: Vec<[i64; 2]>) -> Vec<[i64; 2]> {
    all.sort_unstable();
    let mut found: Vec<[i64; 2]> = Vec::with_capacity(all.len());
    for stretch in all {
        match found.last_mut() {
            Some(last) if last[1] == stretch[0] => last[1] = stretch[1],
            _ => found.push(stretch),
        }
    }
    found
}

/// How the level sides are joined by upright ones: which of them have an end at a corner, and where an upright side
/// leads from it.
struct Joints {
    /// The level side that has its west end, or its east end there.
    level: [HashMap<Point, usize>; 2],
    /// The other end of the upright side below, or above.
    upright: [HashMap<Point, Point>; 2],
}

const WEST: usize = 0;
const EAST: usize = 1;
const BELOW: usize = 0;
const ABOVE: usize = 1;

impl Joints {
    /// At each x the ends of level sides pair up from below.
    fn of(levels: &[Level]) -> Self {
        let mut level = [HashMap::new(), HashMap::new()];
        let mut columns: BTreeMap<i64, Vec<i64>> = BTreeMap::new();
        for (number, &Level { y, x, .. }) in levels.iter().enumerate() {
            for end in [WEST, EAST] {
                level[end].insert([x[end], y], number);
                columns.entry(x[end]).or_default().push(y);
            }
        }
        let mut upright = [HashMap::new(), HashMap::new()];
        for (x, ys) in columns {
            for pair in ys.chunks_exact(2) {
                let [low, high] = [[x, pair[0]], [x, pair[1]]];
                upright[ABOVE].insert(low, high);
                upright[BELOW].insert(high, low);
            }
        }
        Joints { level, upright }
    }

    /// Where an upright side leads from the end of a level one. Of two at a corner the one to the left is taken, so
    /// that pieces that touch there stay apart.
    fn turn_upright(&self, from: Point, left: usize) -> Option<(Point, bool)> {
        let to = |side: usize| self.upright[side].get(&from).map(|&to| (to, side == ABOVE));
        to(left).or_else(|| to(1 - left))
    }

    fn turn_level(&self, from: Point, left: usize) -> Option<usize> {
        let to = |end: usize| self.level[end].get(&from).copied();
        to(left).or_else(|| to(1 - left))
    }
}

impl Contour {
    pub fn of(rings: &[&[Point]]) -> Self {
        let levels = levels_of(rings);
        let joints = Joints::of(&levels);
        let mut contour = Contour {
            corners: Vec::new(),
            next: Vec::new(),
            turns: Vec::new(),
        };
        let mut is_done = vec![false; levels.len()];
        for start in 0..levels.len() {
            if is_done[start] {
                continue;
            }
            let first = contour.corners.len();
            contour.turns.push(Turn {
                first,
                is_hole: !levels[start].is_floor,
            });
            let mut at = Some(start);
            while let Some(number) = at {
                is_done[number] = true;
                let Level { y, x, is_floor } = levels[number];
                let [from, to] = if is_floor { x } else { [x[EAST], x[WEST]] };
                contour.corners.extend([[from, y], [to, y]]);
                let left = if is_floor { ABOVE } else { BELOW };
                at = joints
                    .turn_upright([to, y], left)
                    .and_then(|(corner, goes_up)| {
                        let left = if goes_up { EAST } else { WEST };
                        joints.turn_level(corner, left)
                    });
                at = at.filter(|&level| !is_done[level]);
            }
            contour.close(first);
        }
        contour
    }

    /// The corners from `first` on are a turn of their own.
    fn close(&mut self, first: usize) {
        let count = self.corners.len();
        self.next.extend(first + 1..count);
        self.next.push(first);
    }

    /// A ring for each piece, and of some places the piece that lies north-east of each, next to it, by its number.
    ///
    /// Each hole hangs on the upright side next to it in the west, by a level side there and back from the lowest of
    /// its westmost corners: by even and odd that counts for nothing, and it makes no band of its own.
    pub fn into_pieces(mut self, places: &[Point]) -> (Vec<Vec<Point>>, Vec<usize>) {
        let holes: Vec<Hole> = self.holes();
        let corners: Vec<Point> = holes.iter().map(|hole| self.corners[hole.corner]).collect();
        let sides = self.west_of(&corners, |side, hole| side < hole);
        let piece_of = self.pieces_of_turns(&holes, &sides);
        let at = self.west_of(places, |side, place| side <= place);
        let at = at
            .into_iter()
            .map(|side| piece_of[self.turn_of(side)])
            .collect();
        self.hang_all(&holes, &sides);
        let pieces = self.turns.iter().filter(|turn| !turn.is_hole);
        (pieces.map(|turn| self.ring(turn.first)).collect(), at)
    }

    /// The turn that a corner belongs to, before holes hang.
    fn turn_of(&self, corner: usize) -> usize {
        self.turns.partition_point(|turn| turn.first <= corner) - 1
    }

    /// The number of the piece of each turn: a hole's is that of the side that it hangs on.
    fn pieces_of_turns(&self, holes: &[Hole], sides: &[usize]) -> Vec<usize> {
        let mut count = 0;
        let mut piece_of: Vec<usize> = Vec::with_capacity(self.turns.len());
        for turn in &self.turns {
            piece_of.push(count);
            count += usize::from(!turn.is_hole);
        }
        // A hole further in the west comes first: others hang on it.
        let mut by_place: Vec<(Point, usize, usize)> = Vec::with_capacity(holes.len());
        for (hole, &side) in holes.iter().zip(sides) {
            by_place.push((self.corners[hole.corner], hole.turn, self.turn_of(side)));
        }
        by_place.sort_unstable();
        for (_, turn, on) in by_place {
            piece_of[turn] = piece_of[on];
        }
        piece_of
    }

    fn hang_all(&mut self, holes: &[Hole], sides: &[usize]) {
        let mut hung: BTreeMap<usize, Vec<Hole>> = BTreeMap::new();
        for (&hole, &side) in holes.iter().zip(sides) {
            hung.entry(side).or_default().push(hole);
        }
        for (side, mut holes) in hung {
            let goes_up = self.corners[side][1] < self.corners[self.next[side]][1];
            holes.sort_by_key(|hole| self.corners[hole.corner][1]);
            if !goes_up {
                holes.reverse();
            }
            holes.into_iter().fold(side, |at, hole| self.hang(at, hole));
        }
    }

    fn ring(&self, first: usize) -> Vec<Point> {
        let mut ring = vec![self.corners[first]];
        let mut at = self.next[first];
        while at != first {
            if ring.last() != Some(&self.corners[at]) {
                ring.push(self.corners[at]);
            }
            at = self.next[at];
        }
        ring
    }

    fn holes(&self) -> Vec<Hole> {
        let turns = self.turns.iter().enumerate();
        let holes = turns.filter(|(_, turn)| turn.is_hole);
        holes
            .map(|(number, turn)| self.hole(number, turn.first))
            .collect()
    }

    fn hole(&self, turn: usize, first: usize) -> Hole {
        let mut before = first;
        let mut hole = Hole {
            turn,
            before,
            corner: self.next[first],
        };
        while self.next[before] != first {
            before = self.next[before];
            let corner = self.next[before];
            if self.corners[corner] < self.corners[hole.corner] {
                hole = Hole {
                    turn,
                    before,
                    corner,
                };
            }
        }
        hole
    }

    /// A way from the upright side behind a corner to a hole, round it and back; answers the corner that the rest of
    /// the side begins at.
    fn hang(&mut self, side: usize, Hole { before, corner, .. }: Hole) -> usize {
        let [_, y] = self.corners[corner];
        let foot = [self.corners[side][0], y];
        let [to, back, end] = [0, 1, 2].map(|more| self.corners.len() + more);
        self.corners.extend([foot, self.corners[corner], foot]);
        self.next.extend([corner, end, self.next[side]]);
        self.next[side] = to;
        // The hole's last side leads to a second corner at the place of its first.
        self.next[before] = back;
        end
    }

    /// The upright side next to each place in the west, at the height just above it, by the corner that it begins at.
    /// Copper lies between the two.
    fn west_of(&self, places: &[Point], is_west: impl Fn(i64, i64) -> bool) -> Vec<usize> {
        let mut sides: Vec<(i64, i64, i64, usize)> = Vec::new();
        for (at, &next) in self.next.iter().enumerate() {
            let ([x, y], [_, to]) = (self.corners[at], self.corners[next]);
            if y != to {
                sides.push((y.min(to), y.max(to), x, at));
            }
        }
        let mut ending = sides.clone();
        sides.sort_unstable();
        ending.sort_unstable_by_key(|side| side.1);
        let mut asked: Vec<usize> = (0..places.len()).collect();
        asked.sort_unstable_by_key(|&at| places[at][1]);
        let (mut sides, mut ending) = (sides.into_iter().peekable(), ending.into_iter().peekable());
        let mut standing: BTreeMap<i64, usize> = BTreeMap::new();
        let mut found = vec![0; places.len()];
        for at in asked {
            let [x, y] = places[at];
            // One that ends where another begins, at the same x, is followed by it.
            while let Some(low) = sides.peek().map(|side| side.0).filter(|&low| low <= y) {
                while let Some(side) = ending.next_if(|side| side.1 <= low) {
                    standing.remove(&side.2);
                }
                let side = sides.next().expect("peeked at");
                standing.insert(side.2, side.3);
            }
            while let Some(side) = ending.next_if(|side| side.1 <= y) {
                standing.remove(&side.2);
            }
            let nearest = standing.range(..=x).rev().find(|(&own, _)| is_west(own, x));
            found[at] = nearest.map(|(_, &side)| side).expect("copper lies there");
        }
        found
    }
}

/// A hole by the corner that it hangs by, and the one before that.
#[derive(Clone, Copy)]
struct Hole {
    turn: usize,
    before: usize,
    corner: usize,
}
