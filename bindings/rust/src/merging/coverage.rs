//! How many polygons cover each part of a line.

/// A tree over the parts between rising places: each of its nodes says how often what lies below it is covered at least
/// and at most, so that a stretch is covered, bared and searched in steps of the logarithm of how many parts there are.
pub(super) struct Coverage {
    places: Vec<i64>,
    nodes: Vec<Node>,
    #[cfg(test)]
    pub steps: usize,
}

#[derive(Clone, Copy, Default)]
struct Node {
    /// How often all of it is covered, beside what its halves say.
    added: i32,
    /// `added`, and the less covered of its halves.
    least: i32,
    /// `added`, and the more covered of its halves.
    most: i32,
}

/// A node of the tree, and which of the parts lie below it.
#[derive(Clone, Copy)]
struct Below {
    node: usize,
    from: usize,
    to: usize,
}

impl Below {
    fn halves(self) -> [Below; 2] {
        let Below { node, from, to } = self;
        let middle = from + (to - from) / 2;
        [(2 * node + 1, from, middle), (2 * node + 2, middle, to)].map(|(node, from, to)| Below {
            node,
            from,
            to,
        })
    }
}

impl Coverage {
    /// Nothing is covered. All stretches end at some of these places.
    pub fn over(mut places: Vec<i64>) -> Self {
        places.sort_unstable();
        places.dedup();
        let parts = places.len().saturating_sub(1).max(1);
        Coverage {
            places,
            nodes: vec![Node::default(); 2 * parts.next_power_of_two()],
            #[cfg(test)]
            steps: 0,
        }
    }

    fn all(&self) -> Below {
        let to = self.places.len().saturating_sub(1);
        Below {
            node: 0,
            from: 0,
            to,
        }
    }

    fn parts(&self, stretch: [i64; 2]) -> [usize; 2] {
        stretch.map(|end| self.places.partition_point(|&place| place < end))
    }

    /// Covers a stretch once more, or once less.
    pub fn add(&mut self, stretch: [i64; 2], times: i32) {
        let parts = self.parts(stretch);
        self.add_below(self.all(), parts, times);
    }

    fn add_below(&mut self, below: Below, [from, to]: [usize; 2], times: i32) {
        self.count_step();
        if to <= below.from || below.to <= from {
            return;
        }
        if from <= below.from && below.to <= to {
            let node = &mut self.nodes[below.node];
            node.added += times;
            node.least += times;
            node.most += times;
            return;
        }
        let halves = below.halves();
        for half in halves {
            self.add_below(half, [from, to], times);
        }
        let [a, b] = halves.map(|half| self.nodes[half.node]);
        let node = &mut self.nodes[below.node];
        node.least = node.added + a.least.min(b.least);
        node.most = node.added + a.most.max(b.most);
    }

    /// Where a stretch is covered first.
    pub fn first_covered(&mut self, stretch: [i64; 2]) -> Option<i64> {
        let parts = self.parts(stretch);
        self.first_below(self.all(), parts, 0)
            .map(|part| self.places[part])
    }

    fn first_below(&mut self, below: Below, [from, to]: [usize; 2], above: i32) -> Option<usize> {
        self.count_step();
        let node = self.nodes[below.node];
        if to <= below.from || below.to <= from || above + node.most <= 0 {
            return None;
        }
        if above + node.least > 0 {
            return Some(from.max(below.from));
        }
        let mut halves = below.halves().into_iter();
        halves.find_map(|half| self.first_below(half, [from, to], above + node.added))
    }

    /// The parts of a stretch that nothing covers, from the first to the last, behind those found already: two that
    /// touch are one.
    pub fn bare(&mut self, stretch: [i64; 2], found: &mut Vec<[i64; 2]>) {
        let parts = self.parts(stretch);
        self.bare_below(self.all(), parts, 0, found);
    }

    fn bare_below(
        &mut self,
        below: Below,
        [from, to]: [usize; 2],
        above: i32,
        found: &mut Vec<[i64; 2]>,
    ) {
        self.count_step();
        let node = self.nodes[below.node];
        if to <= below.from || below.to <= from || above + node.least > 0 {
            return;
        }
        if above + node.most <= 0 {
            let [start, end] =
                [from.max(below.from), to.min(below.to)].map(|part| self.places[part]);
            match found.last_mut() {
                Some(last) if last[1] == start => last[1] = end,
                _ => found.push([start, end]),
            }
            return;
        }
        for half in below.halves() {
            self.bare_below(half, [from, to], above + node.added, found);
        }
    }

    #[cfg(test)]
    fn count_step(&mut self) {
        self.steps += 1;
    }

    #[cfg(not(test))]
    fn count_step(&mut self) {}
}
