//! Tables together with the polygons that they name: what the network and the by-layer check are
//! lent.

use crate::boards::{random_board, random_mesh};
use crate::nets::any_sheet;
use crate::random::Random;
use crate::tables::{random_table, Table};
use calls::even::balance;
use calls::limits::{COORDINATE, POLYGONS, R_SHEET, WIDEST_LEVEL};
use calls::net::Net;
use calls::network::{network, NetRoom};
use calls::record::Board;
use calls::sheets::Sheets;
use calls::table::Slot;
use calls::Answer;

/// Most cells of an ordinary mesh before it is balanced, and slots for its balance.
const CELLS: usize = 60;
const BALANCED: usize = 400;
const BOARD_SLOTS: usize = 100;
const BOARD_SPLITS: u64 = 8;
const MANY_ONE_IN: u64 = 100;

/// A lent table and a row each of layers, components and sheet resistances.
#[derive(Clone, Debug)]
pub struct Mesh {
    pub table: Table,
    pub layers: Vec<u16>,
    pub components: Vec<u32>,
    pub sheets: Vec<f64>,
}

impl Mesh {
    /// Without polygons yet.
    pub fn of_table(table: Table) -> Self {
        Mesh { table, layers: Vec::new(), components: Vec::new(), sheets: Vec::new() }
    }

    /// With polygons as the board has them.
    pub fn of_board(table: Table, board: &Board) -> Self {
        let Sheets { layer, component, r_sheet } = board.sheets();
        Mesh {
            table,
            layers: layer.to_vec(),
            components: component.to_vec(),
            sheets: r_sheet.to_vec(),
        }
    }

    pub fn push_polygon(&mut self, layer: u16, component: u32, sheet: f64) {
        self.layers.push(layer);
        self.components.push(component);
        self.sheets.push(sheet);
    }

    pub fn polygons(&self) -> Sheets<'_> {
        Sheets { layer: &self.layers, component: &self.components, r_sheet: &self.sheets }
    }

    fn cells(&self) -> impl Iterator<Item = Slot> + '_ {
        (0..self.table.count).map(|id| self.table.slot(id))
    }

    /// How many leaves an undamaged table has.
    pub fn leaves(&self) -> usize {
        self.cells().filter(Slot::is_leaf).count()
    }

    /// One past the highest polygon that an undamaged table names.
    pub fn polygons_named(&self) -> usize {
        self.cells().map(|cell| cell.polygon as usize + 1).max().unwrap_or(0)
    }

    /// Balances in up to so many slots, or leaves the table as it is.
    pub fn balance_within(&mut self, slots: usize) {
        let mut after = self.table.clone();
        after.set_slots(slots.max(after.count));
        let head = after.head();
        if let Ok(even) = balance(&mut after.row, head) {
            after.set_head(even.head);
            after.set_slots(after.count);
            self.table = after;
        }
    }

    /// The original's net, in exactly the room that it needs.
    pub fn net(&self) -> Answer<Net> {
        let room = NetRoom::for_leaves(self.leaves());
        network(&self.table.row, self.table.head(), &self.polygons(), &room)
    }
}

/// A sound mesh, often with hanging nodes, now and then balanced or with spare slots.
pub fn any_mesh(random: &mut Random) -> Mesh {
    let mut mesh = match random.below(8) {
        0..=2 => polygons_for(random_table(random, CELLS), random),
        3..=5 => corner_mesh(random),
        _ => board_mesh(random),
    };
    if random.one_in(3) {
        mesh.balance_within(BALANCED);
    }
    if random.one_in(MANY_ONE_IN) {
        let most = random.pick(&[POLYGONS - 1, POLYGONS]);
        add_polygons(&mut mesh, most, random);
    }
    let spare = random.pick(&[0, 0, 0, 1, 5]);
    mesh.table.set_slots(mesh.table.count + spare);
    mesh
}

/// The mesh of a random board that has roots, split here and there.
fn board_mesh(random: &mut Random) -> Mesh {
    loop {
        let board = random_board(random);
        match random_mesh(&board, random, BOARD_SLOTS, BOARD_SPLITS) {
            Some(table) if table.count > 0 => return Mesh::of_board(table, &board),
            _ => {}
        }
    }
}

/// One root or a few that touch or overlap, split down to the widest level at a corner or two.
fn corner_mesh(random: &mut Random) -> Mesh {
    let max_level = random.pick(&[1, 2, 3, 3, 5, 8, WIDEST_LEVEL, WIDEST_LEVEL]);
    let mut table = Table::new(max_level);
    let (polygons, roots) = (random.pick(&[1, 1, 2, 3]), random.within(1, 5));
    let ground = Ground::random(random, max_level);
    for _ in 0..roots {
        let root = ground.root(random, polygons);
        table.push(root);
    }
    for _ in 0..random.within(1, 2) {
        let root = random.within(0, roots - 1) as usize;
        split_towards(&mut table, root, random.index(4), max_level);
    }
    polygons_for(table, random)
}

/// Splits the cell, then its quadrant and so on, up to so many times.
pub fn split_towards(table: &mut Table, mut id: usize, quadrant: usize, times: u64) {
    for _ in 0..times {
        if !table.can_split(id) {
            return;
        }
        table.split(id);
        id = table.slot(id).first as usize + quadrant;
    }
}

/// Where the roots of one mesh lie, on a raster of half sides or a few ticks off it.
struct Ground {
    corner: [i64; 2],
    sides: [i64; 2],
    most_off: i64,
}

impl Ground {
    fn random(random: &mut Random, max_level: u64) -> Self {
        let unit = 1i64 << (max_level + 1);
        let widest = random.below(33 - max_level);
        let scale = random.pick(&[0, 0, 0, 1, widest]);
        let sides = [0, 1].map(|_| (unit << scale) * random.within(1, 3));
        let most_off = if random.one_in(4) { 3 } else { 0 };
        let near = random.within(-99, 99);
        // Roots reach from three ticks before the corner to two sides and three ticks behind it.
        let corner = sides.map(|side| {
            let far = COORDINATE - 2 * side - 3;
            random.pick(&[0, 0, near, far, 3 - COORDINATE])
        });
        Ground { corner, sides, most_off }
    }

    fn root(&self, random: &mut Random, polygons: i64) -> Slot {
        let mut span = |axis: usize| {
            let half = self.sides[axis] / 2;
            let off = random.within(-self.most_off, self.most_off);
            let low = self.corner[axis] + random.pick(&[0, 0, 1, 2, 2]) * half + off;
            [low, low + self.sides[axis]]
        };
        let ([x0, x1], [y0, y1]) = (span(0), span(1));
        Slot::root([x0, y0, x1, y1], random.within(0, polygons - 1))
    }
}

/// As many polygons as the table names, now and then more, on a few layers and components.
pub fn polygons_for(table: Table, random: &mut Random) -> Mesh {
    let mut mesh = Mesh::of_table(table);
    let spare = random.pick(&[0, 0, 0, 1, 3]);
    let most = (mesh.polygons_named() + spare).min(POLYGONS);
    add_polygons(&mut mesh, most, random);
    mesh
}

/// Polygons up to so many, on one to three layers and of one to three components.
pub fn add_polygons(mesh: &mut Mesh, most: usize, random: &mut Random) {
    let layers = few(random, [1, 0, 65_535, 2]);
    let components = few(random, [0, 1, u32::MAX, 7]);
    let ordinary = random.one_in(2);
    while mesh.layers.len() < most {
        let sheet = if ordinary { ordinary_sheet(random) } else { any_sheet(random) };
        let (layer, component) = (random.pick(&layers), random.pick(&components));
        mesh.push_polygon(layer, component, sheet);
    }
}

/// One of the numbers, or up to three of them.
fn few<T: Copy>(random: &mut Random, numbers: [T; 4]) -> Vec<T> {
    let first = random.index(2);
    numbers[first..first + random.pick(&[1, 1, 2, 3])].to_vec()
}

fn ordinary_sheet(random: &mut Random) -> f64 {
    random.pick(&[1.0, 1.0, 0.5, 3.0, 0.1, R_SHEET, 1.0 / R_SHEET])
}

/// Meshes that show one thing each.
pub fn boundary_meshes() -> Vec<Mesh> {
    let far = COORDINATE;
    let squares = |offset: [i64; 2]| {
        let [x, y] = offset;
        vec![[0, 0, 2, 2], [x, y, x + 2, y + 2]]
    };
    let mut list = vec![
        Mesh::of_table(Table::new(3)),
        one_each(0, &[], &[(1, 0)]),
        // Odd gaps: the first edge is 0.25.
        one_each(0, &squares([0, 1]), &[(1, 0), (1, 0)]),
        // One pair of nodes of two polygons: two edges.
        one_each(0, &squares([2, 0]), &[(1, 0), (1, 0)]),
        // Two and three components at one place: faces of 0.
        one_each(0, &squares([0, 0]), &[(1, 0), (1, 1)]),
        one_each(0, &[[0, 0, 2, 2]; 3], &[(1, 2), (1, 0), (1, 1)]),
        // Two layers over each other, and the same polygon twice.
        one_each(0, &squares([0, 0]), &[(1, 0), (2, 0)]),
        one_each(0, &squares([0, 0]), &[(1, 0), (1, 0)]),
        one_each(12, &[[-far, -far, far, far]], &[(65_535, u32::MAX)]),
        one_each(0, &[[far - 2, -far, far, 2 - far]], &[(0, 0)]),
    ];
    list.extend([1, 12].map(deep_corner));
    list.push(p2());
    list
}

/// Roots, each of a polygon of its own.
fn one_each(max_level: u64, roots: &[[i64; 4]], polygons: &[(u16, u32)]) -> Mesh {
    let mut mesh = Mesh::of_table(Table::new(max_level));
    for (polygon, &rect) in (0..).zip(roots) {
        mesh.table.push(Slot::root(rect, polygon));
    }
    for (n, &(layer, component)) in polygons.iter().enumerate() {
        mesh.push_polygon(layer, component, [1.0, 3.0, 0.1][n % 3]);
    }
    mesh
}

/// Two roots side by side, the first split down to the level at its south-east corner.
fn deep_corner(level: u64) -> Mesh {
    let side = 1i64 << (level + 1);
    let mut table = Table::with(level, &[[0, 0, side, side], [side, 0, 2 * side, side]], &[]);
    split_towards(&mut table, 0, 1, level);
    let mut mesh = Mesh::of_table(table);
    mesh.push_polygon(1, 0, 1.0);
    mesh
}

/// P2 of docs/RULES.md, unbalanced.
fn p2() -> Mesh {
    let mut mesh = Mesh::of_table(Table::with(2, &[[0, 0, 8, 8], [8, 0, 16, 8]], &[0, 3]));
    mesh.push_polygon(1, 0, 1.0);
    mesh
}
