//! Rows of numbers, as replay_net reads and prints a net's: any lengths, any numbers. Where a layer
//! or a component has too many bits, or rows don't fit together, they are no net, and what is lent
//! them is refused by 7.

use crate::replay::Case;
use calls::limits::COORDINATE;
use calls::net::{Cell, Edge, Net, Node};
use calls::network::NetRoom;
use calls::outcome::require;
use calls::{Answer, Refusal};
use inputs::plan_faults::bad_sheets;
use inputs::ring_faults::some_place;
use inputs::Random;

#[derive(Clone, Debug)]
pub struct Rows {
    /// Layer, component, x and y of each node.
    pub nodes: Vec<i64>,
    /// Two nodes an edge.
    pub ends: Vec<u64>,
    pub conductances: Vec<f64>,
    /// Four nodes a cell: SW, SE, NE, NW.
    pub corners: Vec<u64>,
    pub sheets: Vec<f64>,
}

impl Rows {
    pub fn of(net: &Net) -> Self {
        let node = |node: &Node| [i64::from(node.layer), i64::from(node.component), node.x, node.y];
        let ends = |edge: &Edge| edge.ends().map(|end| end as u64);
        let corners = |cell: &Cell| cell.corners.map(|corner| corner as u64);
        Rows {
            nodes: net.nodes.iter().flat_map(node).collect(),
            ends: net.edges.iter().flat_map(ends).collect(),
            conductances: net.edges.iter().map(|edge| edge.conductance).collect(),
            corners: net.cells.iter().flat_map(corners).collect(),
            sheets: net.cells.iter().map(|cell| cell.r_sheet).collect(),
        }
    }

    pub fn lengths(&self) -> NetLengths {
        NetLengths {
            nodes: self.nodes.len(),
            ends: self.ends.len(),
            conductances: self.conductances.len(),
            corners: self.corners.len(),
            sheets: self.sheets.len(),
            work: 0,
        }
    }

    /// The net of these numbers, or 7 where they are none.
    pub fn net(&self) -> Answer<Net> {
        self.lengths().room()?;
        let nodes: Answer<Vec<Node>> = self.nodes.chunks(4).map(node_of).collect();
        let ends = self.ends.chunks(2).zip(&self.conductances);
        let corners = self.corners.chunks(4).zip(&self.sheets);
        let name = |&number: &u64| number as usize;
        Ok(Net {
            nodes: nodes?,
            edges: ends
                .map(|(ends, &conductance)| {
                    let [from, to] = [0, 1].map(|end| name(&ends[end]));
                    Edge { from, to, conductance }
                })
                .collect(),
            cells: corners
                .map(|(corners, &r_sheet)| {
                    let corners = [0, 1, 2, 3].map(|corner| name(&corners[corner]));
                    Cell { corners, r_sheet }
                })
                .collect(),
        })
    }

    /// As the program prints them.
    pub fn print(&self, case: &mut Case) {
        case.print(&self.nodes);
        case.print(&self.ends);
        case.print_fractions(&self.conductances);
        case.print(&self.corners);
        case.print_fractions(&self.sheets);
    }

    /// Puts a net over the front.
    pub fn put(&mut self, net: &Net) {
        fn front<T: Copy>(row: &mut [T], numbers: &[T]) {
            row[..numbers.len()].copy_from_slice(numbers);
        }
        let net = Rows::of(net);
        front(&mut self.nodes, &net.nodes);
        front(&mut self.ends, &net.ends);
        front(&mut self.conductances, &net.conductances);
        front(&mut self.corners, &net.corners);
        front(&mut self.sheets, &net.sheets);
    }

    /// One damage: a number, an end, a corner, a sheet resistance, or a row's length. Now and then it
    /// leaves a sound net.
    pub fn damage(&mut self, random: &mut Random) {
        match random.below(10) {
            0..=3 => damage_number(&mut self.nodes, random),
            4 => damage_name(&mut self.ends, random),
            5..=6 => damage_name(&mut self.corners, random),
            7 => damage_sheet(&mut self.sheets, random),
            8 => self.exchange_corners(random),
            _ => self.damage_length(random),
        }
    }

    /// Two corners of a cell change places, or all of them move round by one.
    fn exchange_corners(&mut self, random: &mut Random) {
        if self.sheets.is_empty() {
            return self.damage_length(random);
        }
        let cell = some_place(random, self.sheets.len());
        let corners = &mut self.corners[4 * cell..4 * cell + 4];
        if random.one_in(3) {
            corners.rotate_left(1 + random.index(3));
        } else {
            corners.swap(random.index(4), random.index(4));
        }
    }

    /// One number less or more in one row.
    fn damage_length(&mut self, random: &mut Random) {
        match random.below(10) {
            0 => drop(self.nodes.pop()),
            1 => drop(self.ends.pop()),
            2 => drop(self.conductances.pop()),
            3 => drop(self.corners.pop()),
            4 => drop(self.sheets.pop()),
            5 => self.nodes.push(0),
            6 => self.ends.push(0),
            7 => self.conductances.push(1.0),
            8 => self.corners.push(0),
            _ => self.sheets.push(1.0),
        }
    }
}

const NO_NET: Refusal = Refusal { number: 7, place: 0 };

fn node_of(numbers: &[i64]) -> Answer<Node> {
    Ok(Node {
        layer: numbers[0].try_into().map_err(|_| NO_NET)?,
        component: numbers[1].try_into().map_err(|_| NO_NET)?,
        x: numbers[2],
        y: numbers[3],
    })
}

/// A number of a node becomes a neighbour, a limit, or one that fewer bits would hide.
fn damage_number(nodes: &mut Vec<i64>, random: &mut Random) {
    if nodes.is_empty() {
        return nodes.push(0);
    }
    let at = some_place(random, nodes.len());
    let number = nodes[at];
    let mut list: Vec<i64> =
        [1, -1, 2, -2, 1 << 16, 1 << 32, i64::MIN].map(|off| number.wrapping_add(off)).to_vec();
    list.extend([0, -1, 65_535, 65_536, 4_294_967_295, 4_294_967_296, number.wrapping_neg()]);
    list.extend([COORDINATE, COORDINATE + 1, -COORDINATE, -COORDINATE - 1, i64::MIN, i64::MAX]);
    list.retain(|&other| other != number);
    nodes[at] = random.pick(&list);
}

/// An end or a corner names another node, or none.
fn damage_name(names: &mut Vec<u64>, random: &mut Random) {
    if names.is_empty() {
        return names.push(0);
    }
    let at = some_place(random, names.len());
    let name = names[at];
    let count = names.iter().max().map_or(0, |&most| most.saturating_add(1));
    let hidden = [1 << 32 | name, 1 << 63 | name, 1 << 62 | name, u64::MAX, 4_294_967_295];
    let mut list = vec![0, count / 2, count, count.saturating_sub(1), name ^ 1, name ^ 2];
    list.extend(hidden);
    list.retain(|&other| other != name);
    names[at] = random.pick(&list);
}

fn damage_sheet(sheets: &mut Vec<f64>, random: &mut Random) {
    if sheets.is_empty() {
        return sheets.push(1.0);
    }
    let at = some_place(random, sheets.len());
    sheets[at] = random.pick(&bad_sheets());
}

/// How many numbers each lent row has; the net's five rows, then the work room.
#[derive(Clone, Copy, Debug, PartialEq, Eq)]
pub struct NetLengths {
    pub nodes: usize,
    pub ends: usize,
    pub conductances: usize,
    pub corners: usize,
    pub sheets: usize,
    pub work: usize,
}

impl NetLengths {
    pub fn of(room: &NetRoom) -> Self {
        NetLengths {
            nodes: 4 * room.nodes,
            ends: 2 * room.edges,
            conductances: room.edges,
            corners: 4 * room.cells,
            sheets: room.cells,
            work: room.work,
        }
    }

    /// How many nodes, edges and cells these are: whole nodes, two ends an edge, four corners a cell;
    /// otherwise 7.
    pub fn room(&self) -> Answer<NetRoom> {
        let fit = self.nodes % 4 == 0
            && self.ends == 2 * self.conductances
            && self.corners == 4 * self.sheets;
        require(fit, NO_NET.number, NO_NET.place)?;
        Ok(NetRoom {
            nodes: self.nodes / 4,
            edges: self.conductances,
            cells: self.sheets,
            work: self.work,
        })
    }
}

#[cfg(test)]
mod tests {
    use super::*;

    fn square() -> Rows {
        Rows {
            nodes: vec![65_535, 4_294_967_295, 0, 0, 1, 0, 4, 0, 1, 0, 4, 4, 1, 0, 0, 4],
            ends: vec![0, 1],
            conductances: vec![0.5],
            corners: vec![0, 1, 2, 3],
            sheets: vec![1.0],
        }
    }

    #[test]
    fn a_nets_rows_are_its_own() {
        let net = square().net().expect("a net");
        assert!(net.is_sound());
        assert_eq!(net.nodes[0], Node { layer: 65_535, component: u32::MAX, x: 0, y: 0 });
        assert_eq!(Rows::of(&net).net(), Ok(net));
    }

    #[test]
    fn what_no_net_has_is_refused() {
        let changes: [fn(&mut Rows); 9] = [
            |rows| rows.nodes.push(0),
            |rows| rows.ends.push(0),
            |rows| rows.conductances.push(1.0),
            |rows| rows.corners.truncate(3),
            |rows| rows.sheets.push(1.0),
            |rows| rows.nodes[0] = 65_536,
            |rows| rows.nodes[4] = -1,
            |rows| rows.nodes[1] = 4_294_967_296,
            |rows| rows.nodes[5] = -1,
        ];
        for change in changes {
            let mut rows = square();
            change(&mut rows);
            assert_eq!(rows.net(), Err(NO_NET), "{rows:?}");
        }
    }

    #[test]
    fn lengths_are_those_of_a_room() {
        let room = NetRoom::for_leaves(2);
        let lengths = NetLengths::of(&room);
        assert_eq!(lengths.room(), Ok(room));
        assert_eq!(NetLengths { nodes: lengths.nodes + 1, ..lengths }.room(), Err(NO_NET));
    }
}
