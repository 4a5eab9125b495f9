//! Safe calls of leafmesh, a proved quadtree mesher: from copper outlines to a net of conductances.
//!
//! Coordinates are whole ticks of 2^-38 m, so that a board lies within a quarter of a metre each way; [`Pitch`] takes
//! millimetres there and back. Sheet resistance is in ohms a square, potential in volts, power in watts, conductance in
//! siemens. Every call takes any input and answers `Ok`, or `Err` with a [`Refusal`]; a refused call changes nothing
//! that it was lent. No call of the library allocates or keeps anything, so any number of threads may call at once;
//! what is lent stands in the caller's rows. [`Mesh`], [`read`], [`borders`], [`Table::borders`], [`Table::network`],
//! [`Table::linked_network`] and the two checks take rows from the heap; [`Table::network_with`],
//! [`Table::check_network_conforming_with`] and [`Table::check_by_layer_with`] take lent ones.
//! [`limits`] has the ranges, [`columns`] the places of numbers in a slot and of corners in a cell. [`Links`] are what
//! joins polygons and layers: contacts, vias and channels.
//!
//! **The net's conductances are the original's, bit for bit, and not the copper's at a change of level**, beside other
//! copper of the layer and where two polygons of a component meet: see docs/CONDUCTANCES.md. [`solving`] solves on the
//! cells instead, between [`Terminal`](solving::Terminal)s at a potential or with a current.
//!
//! **Where bands of a ring get cells of unequal width the net is wrong**, and [`Table::check_by_layer`] names a node
//! that isn't joined: [`Mesh`] and the tools refuse such a board ([`Unmeshed`]). It is proved not to happen where all
//! coordinates of a polygon are multiples of its base cell, which a [`Pitch`] sees to, no strip is longer than
//! [`Settings::cap`] of them, and no two polygons of one layer and component touch.
//!
//! [`Table`] holds a lent row and its head, which every call keeps; [`Mesh`] holds a row of its own, its polygons and
//! the calls in one, is refined by place and by heat, and is written back as a board ([`Mesh::board`]). The library's
//! own calls, over any row and any head, are in [`ffi`].
//!
//! **Maps of one board compare by name.** An id says when a cell was made, so a board that is marked and balanced every
//! week has other ids than one with the same marks that is balanced once. A [`CellName`], the root and the quadrants
//! down from it, is the same in both; and it is proved that both have the same leaves, and that more marks make no leaf
//! coarser. [`CellName`] shows it with an example; [`Table::name`] and [`Table::id_of`] go there and back.
//!
//! The build links `libleafmesh.a` from crates/leafmesh/out under the repository's root, where
//! bindings/library.sh leaves it, or from the folder that `LEAFMESH_LIBRARY` names.
//!
//! # From an outline to a picture
//!
//! ```
//! use leafmesh::drawing::{Picture, Quantity};
//! use leafmesh::solving::{Drive, Spot, System, Terminal};
//! use leafmesh::{Mesh, Pitch, Polygons, Region, Settings, Side};
//!
//! // Outline: two pads of 3 by 2 mm and a neck of 1 by 0.5 mm that lies across, of 0.5 milliohms a square. Its base
//! // cells are squares of 0.5 mm and can be split four times.
//! let pitch = Pitch::new(0.5, 4)?;
//! let ring = [
//!     [0.0, 0.0], [3.0, 0.0], [3.0, 1.0], [4.0, 1.0], [4.0, 0.0], [7.0, 0.0],
//!     [7.0, 2.0], [4.0, 2.0], [4.0, 1.5], [3.0, 1.5], [3.0, 2.0], [0.0, 2.0],
//! ];
//! let mut polygons = Polygons::default();
//! polygons.push(1, 0, 0.5e-3, &pitch.ring(&ring)?);
//!
//! // Build, refine round the neck, balance.
//! let settings = Settings { max_level: 4, cap: 256, target: pitch.target() };
//! let mut mesh = Mesh::new(settings, &[], polygons)?;
//! let ([x0, y0], [x1, y1]) = (pitch.point([2.5, 0.5])?, pitch.point([4.5, 2.0])?);
//! mesh.refine_region(Region { rect: [x0, y0, x1, y1], level: 2, layer: None })?;
//! mesh.balance()?;
//!
//! // Network, and 10 A from the left to the right, solved on the cells.
//! let net = mesh.net()?;
//! let end = |side| Spot::End { layer: 1, component: 0, side };
//! let terminals = [
//!     Terminal::new("in", end(Side::West), Drive::Amperes(10.0)),
//!     Terminal::new("out", end(Side::East), Drive::Volts(0.0)),
//! ];
//! let held = mesh.held(&net, &terminals);
//! let solution = System::of_cells(&net)?.solve(&held)?;
//!
//! // Power: all cells together take V times I, and the hottest leaf lies in the neck.
//! let into = &solution.terminals[0];
//! assert!((solution.watts() / (into.volts * into.amperes) - 1.0).abs() < 1e-9);
//! let (hottest, flow) = solution.hottest(&mesh).expect("leaves");
//! let [west, east] = [hottest.rect[0], hottest.rect[2]].map(|x| pitch.millimetres(x));
//! assert!(3.0 <= west && east <= 4.0 && flow.sheet_current > 20e3);
//!
//! // Picture: power density, with what the terminals apply.
//! let picture = Picture::of_mesh("A neck between two pads", &mesh, net.rows())?
//!     .by_flow(&mesh, &solution, Quantity::PowerDensity)
//!     .with_terminals(&net.nodes, &held, &solution.terminals);
//! assert!(picture.svg().starts_with("<svg"));
//! # Ok::<(), Box<dyn std::error::Error>>(())
//! ```
//!
//! # In lent rows
//!
//! ```
//! use leafmesh::{power, Outlines, Settings, Table};
//!
//! // One square of 8 by 8 ticks, in base cells of 8: one cell, split once.
//! let outlines = Outlines {
//!     layers: &[1],
//!     components: &[0],
//!     sheets: &[1.0],
//!     counts: &[4],
//!     points: &[[0, 0], [8, 0], [8, 8], [0, 8]],
//! };
//! let settings = Settings { max_level: 2, cap: 256, target: 8 };
//! let mut row = vec![0; 8 * 64];
//! let mut table = Table::build(settings, &[], outlines, &mut row)?;
//! table.refine(0)?;
//! assert_eq!(table.balance()?, 0);
//! assert_eq!((table.head().count, table.leaf_count()), (5, 4));
//!
//! let net = table.network(outlines)?;
//! assert_eq!((net.nodes.len(), net.edges.len(), net.cells.len()), (9, 12, 4));
//!
//! // One volt along x, over two cells of one ohm in line, twice.
//! let volts: Vec<f64> = net.nodes.iter().map(|node| node.x as f64 / 8.0).collect();
//! let mut watts = [0.0; 4];
//! power(net.rows(), &volts, &mut watts)?;
//! assert_eq!(watts, [0.25; 4]);
//! # Ok::<(), leafmesh::Refusal>(())
//! ```

#![warn(missing_docs)]

/// The examples of the first pages are compiled and run with the tests.
#[cfg(doctest)]
mod first_pages {
    #[doc = include_str!("../../../README.md")]
    struct Repository;
    #[doc = include_str!("../README.md")]
    struct Crate;
}

mod areas;
mod astray;
mod borders;
mod covering;
pub mod csv;
pub mod drawing;
pub mod ffi;
pub mod field;
mod grid;
mod leaf;
mod lent;
mod links;
pub mod merging;
mod mesh;
pub mod msh;
mod name;
pub mod necks;
mod net;
mod pitch;
mod polygons;
pub mod printed;
mod refusal;
mod sheets;
pub mod sides;
pub mod solving;
mod table;
pub mod text;
#[doc(hidden)]
pub mod tool;
mod unmeshed;
pub mod vtk;

pub use areas::{Area, LinkEnd, Lone, Pad};
pub use astray::{Astray, SameLayer};
pub use borders::{borders, Border, LeafBorder, Side};
pub use leaf::{Leaf, Region};
pub use links::{Channel, ChannelEnd, Contact, Footprint, Link, Links, OwnedLinks, Via};
pub use mesh::Mesh;
pub use name::{CellName, NoName, Quadrant};
pub use net::{Cell, Counts, Edge, Joint, Net, NetRoom, NetRows, Node};
pub use pitch::{Misfit, Pitch, Why};
pub use polygons::Polygons;
use refusal::{judged, judged_border, judged_read};
pub use refusal::{Reason, Refusal};
pub use sheets::{SheetRegion, Sheets, Temperature};
pub use table::Table;
pub use unmeshed::{Idle, Loose, TooLong, Unmeshed};

/// x and y in ticks.
pub type Point = [i64; 2];

/// x0, y0, x1, y1 in ticks.
pub type Rect = [i64; 4];

/// One tick in metres: 2^-38.
pub const TICK: f64 = 1.0 / 274_877_906_944.0;

/// Marks no parent and no child in a table.
pub const NO_CELL: i64 = 4_294_967_295;

/// How many numbers a slot of a table has: x0, y0, x1, y1, level, parent, first child, polygon.
pub const SLOT: usize = 8;

pub mod limits;

pub use limits::{COORDINATE, DEFAULT_LEVEL, MAX_LEVEL, MEANS_DEFAULT, SLOTS};

/// The places of numbers in a slot of a table, and of the corners in a cell of a net.
pub mod columns {
    /// The west side, in ticks.
    pub const X0: usize = 0;
    /// The south side.
    pub const Y0: usize = 1;
    /// The east side.
    pub const X1: usize = 2;
    /// The north side.
    pub const Y1: usize = 3;
    /// 0 of a base cell, one more of each quarter.
    pub const LEVEL: usize = 4;
    /// The id of the cell that it is a quarter of, or [`NO_CELL`](crate::NO_CELL).
    pub const PARENT: usize = 5;
    /// The id of the first of its four quarters, SW, SE, NW, NE, or [`NO_CELL`](crate::NO_CELL) of a leaf.
    pub const FIRST_CHILD: usize = 6;
    /// The index of its polygon.
    pub const POLYGON: usize = 7;

    /// South-west.
    pub const SW: usize = 0;
    /// South-east.
    pub const SE: usize = 1;
    /// North-east.
    pub const NE: usize = 2;
    /// North-west.
    pub const NW: usize = 3;
}

/// What a table has beside its row: how many cells, how many of them are leaves, and how deep they may be split.
#[derive(Clone, Copy, Debug, Default, PartialEq, Eq)]
pub struct Head {
    /// How many cells, split ones among them.
    pub count: usize,
    /// How many of them are leaves: every call refuses a table that has another number of them.
    pub leaves: usize,
    /// The deepest level, 0 to 12.
    pub max_level: u64,
}

/// What a board is cut by: the deepest level, the most base cells a strip has each way, and the size
/// wanted of a base cell in ticks.
#[derive(Clone, Copy, Debug, PartialEq, Eq)]
pub struct Settings {
    /// The deepest level, 0 to 12.
    pub max_level: u64,
    /// The most base cells that a strip has each way, 1 to 256.
    pub cap: u64,
    /// The size wanted of a base cell, in ticks.
    pub target: u64,
}

/// Polygons by rows: layer, component, sheet resistance in ohms a square and number of points of each, and all
/// points, one polygon after another. [`Polygons`] holds such rows.
#[derive(Clone, Copy, Debug)]
pub struct Outlines<'a> {
    /// The layer of each polygon.
    pub layers: &'a [u16],
    /// The component of each.
    pub components: &'a [u32],
    /// Ohms a square of each.
    pub sheets: &'a [f64],
    /// How many points each has.
    pub counts: &'a [u64],
    /// The points of all.
    pub points: &'a [Point],
}

/// A node inside a leaf edge that isn't joined along it: at the middle, and not to both ends
/// ([`Table::check_network_conforming`]), or anywhere, and not to the points before and after it
/// ([`Table::check_by_layer`]).
#[derive(Clone, Copy, Debug, PartialEq, Eq)]
pub struct Hanging {
    /// The node.
    pub node: usize,
    /// The first end of the edge, walking anticlockwise round the leaf.
    pub from: usize,
    /// The other end.
    pub to: usize,
}

// SAFETY, of every call below: each pointer comes with the length of the slice that it was taken from;
// the slices outlive the call, and those that are written are borrowed mutably, so none overlaps another.

/// The border that two rectangles share: the side of a that it lies on, and its length. None where they share none, as
/// at a corner.
///
/// ```
/// use leafmesh::{contact, Border, Side};
///
/// let (a, b) = ([0, 0, 4, 4], [4, 3, 8, 8]);
/// assert_eq!(contact(a, b), Ok(Some(Border { side: Side::East, length: 1 })));
/// assert_eq!(contact(b, a), Ok(Some(Border { side: Side::West, length: 1 })));
/// assert_eq!(contact(a, [4, 4, 8, 8]), Ok(None));
/// ```
///
/// # Errors
///
/// [`Reason::OutOfRange`] for a coordinate out of range or a side that isn't positive.
pub fn contact(a: Rect, b: Rect) -> Result<Option<Border>, Refusal> {
    let outcome = unsafe { ffi::leafmesh_contact(a[0], a[1], a[2], a[3], b[0], b[1], b[2], b[3]) };
    judged_border(outcome)
}

/// The strips of a ring into the front of `out`, from the bottom, then left to right. Answers how many.
///
/// ```
/// let ring = [[0, 0], [8, 0], [8, 4], [4, 4], [4, 8], [0, 8]];
/// let mut out = [[0; 4]; 4];
/// assert_eq!(leafmesh::strips(&ring, &mut out), Ok(2));
/// assert_eq!(out[..2], [[0, 0, 8, 4], [0, 4, 4, 8]]);
/// ```
///
/// # Errors
///
/// [`Reason::OutOfRange`] (more than 1,024 points among it), [`Reason::Slanted`], [`Reason::NoRoom`].
pub fn strips(ring: &[Point], out: &mut [Rect]) -> Result<usize, Refusal> {
    let (to, room) = (out.as_mut_ptr(), out.len());
    let outcome = unsafe { ffi::leafmesh_strips(ring.as_ptr(), ring.len(), to, room) };
    Ok(judged(outcome)? as usize)
}

/// The power of each cell of a net in watts, from the potential of each node in volts, into the front of `answers`.
/// Cell i is [`Table::leaf_order`]'s i-th leaf. With its area A in square metres a cell of power P carries, on average,
/// a sheet current of J = sqrt(P / (A · r_sheet)) amperes a metre.
///
/// # Errors
///
/// [`Reason::BadTable`] for a bad net, [`Reason::OutOfRange`] for potentials that aren't as many as the nodes or
/// past 2^20 V, [`Reason::NoRoom`].
pub fn power(net: NetRows, potentials: &[f64], answers: &mut [f64]) -> Result<(), Refusal> {
    let outcome = unsafe {
        ffi::leafmesh_power(
            net.nodes.as_ptr(),
            net.nodes.len(),
            net.edges.as_ptr(),
            net.edges.len(),
            net.cells.as_ptr(),
            net.cells.len(),
            potentials.as_ptr(),
            potentials.len(),
            answers.as_mut_ptr(),
            answers.len(),
        )
    };
    judged(outcome).map(|_| ())
}

/// A board as a record holds it.
#[derive(Clone, Debug, Default, PartialEq)]
pub struct Board {
    /// [`MEANS_DEFAULT`], 255, stands for the default, 4: a board that was read has that.
    pub max_level: u64,
    /// As in [`Settings`].
    pub cap: u64,
    /// As in [`Settings`], in ticks.
    pub target: u64,
    /// Layer and cell size.
    pub layers: Vec<[u64; 2]>,
    /// Layer, component and point count.
    pub polygons: Vec<[u64; 3]>,
    /// Ohms a square of each polygon.
    pub sheets: Vec<f64>,
    /// The points of all polygons, one polygon after another.
    pub points: Vec<Point>,
    /// The ids of the cells to be split, in order.
    pub splits: Vec<u64>,
}

impl Board {
    /// What [`Table::build`] takes: the level that is meant. Build itself knows no default.
    pub fn settings(&self) -> Settings {
        let max_level = match self.max_level {
            MEANS_DEFAULT => DEFAULT_LEVEL,
            level => level,
        };
        Settings {
            max_level,
            cap: self.cap,
            target: self.target,
        }
    }
}

/// A board record. Rooms are as large as a record of this length could need.
///
/// # Errors
///
/// [`Reason::WrongVersion`], [`Reason::WrongLength`], [`Reason::OutOfRange`], each with an offset.
pub fn read(bytes: &[u8]) -> Result<Board, Refusal> {
    let n = bytes.len();
    let mut board = Board {
        layers: vec![[0; 2]; n / 10],
        polygons: vec![[0; 3]; n / 16],
        sheets: vec![0.0; n / 16],
        points: vec![[0; 2]; n / 16],
        splits: vec![0; n / 4],
        ..Board::default()
    };
    let outcome = unsafe {
        ffi::leafmesh_read(
            bytes.as_ptr(),
            n,
            board.layers.as_mut_ptr(),
            board.layers.len(),
            board.polygons.as_mut_ptr(),
            board.polygons.len(),
            board.sheets.as_mut_ptr(),
            board.sheets.len(),
            board.points.as_mut_ptr(),
            board.points.len(),
            board.splits.as_mut_ptr(),
            board.splits.len(),
        )
    };
    let read = judged_read(outcome)?;
    board.max_level = read.level;
    board.cap = read.cap;
    board.target = read.target;
    board.layers.truncate(read.layers as usize);
    board.polygons.truncate(read.polygons as usize);
    board.sheets.truncate(read.polygons as usize);
    board.points.truncate(read.points as usize);
    board.splits.truncate(read.splits as usize);
    Ok(board)
}

/// The record of a board, from the start of `out`. Answers its length.
///
/// # Errors
///
/// [`Reason::BadTable`] for polygon rows that don't fit together, [`Reason::OutOfRange`] for too many rows,
/// [`Reason::NoRoom`]. Values are not judged: one out of range is written by its low bytes, so read the record
/// back and compare, as [`text::pack`] does.
pub fn write(board: &Board, out: &mut [u8]) -> Result<usize, Refusal> {
    let outcome = unsafe {
        ffi::leafmesh_write(
            board.max_level,
            board.cap,
            board.target,
            board.layers.as_ptr(),
            board.layers.len(),
            board.polygons.as_ptr(),
            board.polygons.len(),
            board.sheets.as_ptr(),
            board.sheets.len(),
            board.points.as_ptr(),
            board.points.len(),
            board.splits.as_ptr(),
            board.splits.len(),
            out.as_mut_ptr(),
            out.len(),
        )
    };
    Ok(judged(outcome)? as usize)
}

/// How many bytes the record of a board takes.
pub fn record_length(board: &Board) -> usize {
    22 + 10 * board.layers.len()
        + 16 * board.polygons.len()
        + 16 * board.points.len()
        + 4 * board.splits.len()
}
