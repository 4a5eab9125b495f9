//! A mesh as a picture (SVG): leaves by level, by what flows in them, or by a value of one's own on a logarithmic
//! scale; one panel a layer, the nodes that stand at the middle of a leaf's side marked, a scale bar and a legend.
//! Links are shown where they end, borders along the sides that leaves share, terminals along their nodes.
//!
//! ```
//! use leafmesh::drawing::{Picture, Quantity};
//! use leafmesh::solving::{Drive, Spot, System, Terminal};
//! use leafmesh::{text, Mesh, Side};
//!
//! // A strip of two squares, one ohm a square: 3 A from its north end to its south end.
//! let board = text::parse("level 2\ntarget 8\npolygon 1 0 1\n0 0\n8 0\n8 16\n0 16\nsplit 0\n")?;
//! let mesh = Mesh::of_board(&board)?;
//! let net = mesh.net()?;
//! let end = |side| Spot::End { layer: 1, component: 0, side };
//! let terminals = [
//!     Terminal::new("in", end(Side::North), Drive::Amperes(3.0)),
//!     Terminal::new("out", end(Side::South), Drive::Volts(0.0)),
//! ];
//! let held = mesh.held(&net, &terminals);
//! let solution = System::of_cells(&net)?.solve(&held)?;
//!
//! let picture = Picture::of_mesh("A strip", &mesh, net.rows())?
//!     .by_flow(&mesh, &solution, Quantity::PowerDensity)
//!     .with_terminals(&net.nodes, &held, &solution.terminals);
//! assert!(picture.svg().contains("applied: in 3 A at 6 V; out -3 A at 0 V; 18 W in all"));
//! # Ok::<(), Box<dyn std::error::Error>>(())
//! ```

mod border_lines;
mod borders;
mod cells;
mod colouring;
mod figures;
mod flow;
mod layout;
mod legend;
mod marks;
mod outline;
mod scale;
mod svg;
mod terminals;

pub use cells::LEVELS;
pub use flow::{densities, Quantity};

use crate::printed::{belongs_to, Printed};
use crate::sides::{corners_of, hanging};
use crate::solving::{Applied, Held, Solution};
use crate::{
    borders as borders_of, Board, LeafBorder, Links, Mesh, Net, NetRows, Node, Reason, Rect,
    Refusal,
};
use colouring::Colouring;
use flow::Flows;
use layout::{Layout, MARGIN, TITLE_SIZE};
use marks::Marks;
use std::collections::BTreeSet;
use std::fmt::{self, Write};
use terminals::{Labels, Terminals};

/// A leaf as it is drawn.
#[derive(Clone, Copy, Debug, PartialEq)]
struct Cell {
    /// Its id in the table.
    id: usize,
    /// Its panel.
    layer: i64,
    level: u64,
    /// In ticks.
    rect: Rect,
}

impl Cell {
    /// SW, SE, NE, NW.
    fn corners(&self) -> [Place; 4] {
        corners_of(self.rect).map(|[x, y]| [self.layer, x, y])
    }
}

/// Layer, x and y.
type Place = [i64; 3];

fn place_of(node: &Node) -> Place {
    [i64::from(node.layer), node.x, node.y]
}

/// All that a picture shows.
#[derive(Clone, Debug, PartialEq)]
pub struct Picture {
    title: String,
    cells: Vec<Cell>,
    nodes: BTreeSet<Place>,
    hanging: BTreeSet<Place>,
    colouring: Colouring,
    marks: Marks,
    /// By the cells' places, if they are to be shown.
    borders: Option<Vec<LeafBorder>>,
    terminals: Terminals,
    /// The nodes of terminals that have several.
    held: BTreeSet<Place>,
}

impl Picture {
    /// The leaves of a mesh, with the nodes of its net.
    ///
    /// # Errors
    ///
    /// Those of [`NetRows::judge`]; [`Reason::BadTable`] of another mesh's net.
    pub fn of_mesh(title: &str, mesh: &Mesh, net: NetRows) -> Result<Self, Refusal> {
        let cells = mesh.leaves().map(|leaf| Cell {
            id: leaf.id,
            layer: i64::from(leaf.layer),
            level: leaf.level,
            rect: leaf.rect,
        });
        Picture::of_cells(title, cells.collect(), net)
    }

    /// What leafnet printed. With a board it is seen whether it is that board's.
    ///
    /// # Errors
    ///
    /// In words: those of [`Printed::corners`]; the text is of another board.
    pub fn of_printed(
        title: &str,
        printed: &Printed,
        board: Option<&Board>,
    ) -> Result<Self, String> {
        if let Some(board) = board {
            belongs_to(printed, board)?;
        }
        let net = printed.net()?;
        let leaves = printed.leaves.iter().zip(&net.cells);
        let cells = leaves.map(|(leaf, cell)| Cell {
            id: leaf.id,
            layer: i64::from(net.nodes[cell.corners[0]].layer),
            level: leaf.level,
            rect: leaf.rect,
        });
        let picture = Picture::of_cells(title, cells.collect(), net.rows());
        let picture = picture.map_err(|why| format!("not leafnet's text: {why}"))?;
        Ok(picture.with_links(&net, Links::default()))
    }

    /// Cell i of the net is the i-th of the cells.
    fn of_cells(title: &str, cells: Vec<Cell>, net: NetRows) -> Result<Self, Refusal> {
        let hanging = hanging(net)?;
        if cells.len() != net.cells.len() {
            let reason = Reason::BadTable;
            return Err(Refusal { reason, place: 0 });
        }
        let place = |node: usize| place_of(&net.nodes[node]);
        Ok(Picture {
            title: title.to_string(),
            cells,
            nodes: net.nodes.iter().map(place_of).collect(),
            hanging: hanging.into_iter().map(place).collect(),
            colouring: Colouring::Levels,
            marks: Marks::default(),
            borders: None,
            terminals: Terminals::default(),
            held: BTreeSet::new(),
        })
    }

    /// Marks the links of a net where they end, the footprints of vias and of channels' ends, and ends of one node. A
    /// link to a node that the picture doesn't have is passed over.
    pub fn with_links(mut self, net: &Net, links: Links) -> Self {
        let place = |node: usize| self.place(&net.nodes, node);
        let lone = net.lone().into_iter().filter_map(|one| place(one.node));
        self.marks = Marks::of(net.links(), place)
            .with_footprints(links)
            .with_lone(lone);
        self
    }

    /// Where one of some nodes is, if the picture has it.
    fn place(&self, nodes: &[Node], node: usize) -> Option<Place> {
        let place = nodes.get(node).map(place_of);
        place.filter(|place| self.nodes.contains(place))
    }

    /// Draws every border that two cells share, over their colours: a line along it, the longer the wider, and its
    /// length in figures where there is room. A border of cells on two layers is dashed, and in both panels.
    ///
    /// # Errors
    ///
    /// Those of [`borders`](borders_of), of cells that leafnet never prints.
    pub fn with_borders(mut self) -> Result<Self, Refusal> {
        let rects = self.cells.iter().map(|cell| cell.rect).enumerate();
        self.borders = Some(borders_of(&rects.collect::<Vec<_>>())?);
        Ok(self)
    }

    /// Colours the cells by what flows in them: cell i of the solution is leaf i of the mesh. Power over area and sheet
    /// current stand beside each other, with every leaf and in the legend, whichever gives the colours. A cell that the
    /// solution has no power of has the colour of none. A solution of [`System::of_net`] has no power of any, and the
    /// legend says so.
    ///
    /// [`System::of_net`]: crate::solving::System::of_net
    pub fn by_flow(mut self, mesh: &Mesh, solution: &Solution, quantity: Quantity) -> Self {
        self.colouring = Colouring::Flows(Flows::of(mesh, solution, quantity));
        self
    }

    /// Colours the cells by a value each, in the order of the cells, on a logarithmic scale.
    pub fn by_value(mut self, words: &str, all: &[f64]) -> Self {
        self.colouring = Colouring::Values {
            words: words.to_string(),
            all: all.to_vec(),
        };
        self
    }

    /// Marks where terminals are, and says what stands there. `nodes` are those of the net, `held` names some of them
    /// for each terminal, and `applied` is a solution's, in the same order. A node that the picture doesn't have is
    /// passed over, and a terminal that nothing is applied to says what it is held at.
    pub fn with_terminals(mut self, nodes: &[Node], held: &[Held], applied: &[Applied]) -> Self {
        let place = |node: usize| self.place(nodes, node);
        let wide = held.iter().filter(|one| one.nodes.len() > 1);
        let wide = wide.flat_map(|one| one.nodes.iter().filter_map(|&node| place(node)));
        let wide = wide.collect();
        self.terminals = Terminals::of(&self.cells, held, applied, place);
        self.held = wide;
        self
    }

    /// Links' ends of one node, but for those that a terminal takes with others.
    fn lone(&self) -> BTreeSet<Place> {
        &self.marks.lone - &self.held
    }

    /// The cell with the largest power over area, by its place.
    fn hottest(&self) -> Option<usize> {
        let Colouring::Flows(flows) = &self.colouring else {
            return None;
        };
        let most = flows.most(Quantity::PowerDensity);
        most.filter(|&cell| cell < self.cells.len())
    }

    /// How many borders are of cells on two layers.
    fn borders_across(&self) -> usize {
        let layer = |at: usize| self.cells[at].layer;
        let is_across = |one: &&LeafBorder| layer(one.first) != layer(one.second);
        self.borders.iter().flatten().filter(is_across).count()
    }

    /// The picture as a text that browsers show.
    pub fn svg(&self) -> String {
        let mut text = String::new();
        self.put(&mut text).expect("a string takes all text");
        text
    }

    fn put(&self, text: &mut String) -> fmt::Result {
        let mut layout = Layout::of(&self.cells, &self.title);
        let labels = Labels::of(&self.terminals, &mut layout);
        let mut body = String::new();
        self.put_panels(&layout, &mut body)?;
        labels.put(&layout, &mut body)?;
        let height = legend::put(self, &layout, &mut body)?;
        let width = layout.width();
        writeln!(
            text,
            "<svg xmlns=\"http://www.w3.org/2000/svg\" viewBox=\"0 0 {width:.0} {height:.0}\" width=\"{width:.0}\" \
             height=\"{height:.0}\" font-family=\"sans-serif\" font-size=\"12\">"
        )?;
        writeln!(
            text,
            "<rect width=\"100%\" height=\"100%\" fill=\"#ffffff\"/>"
        )?;
        let size = format!(" font-size=\"{TITLE_SIZE}\"");
        svg::put_words([MARGIN, MARGIN + 12.0], &size, &self.title, text)?;
        text.push_str(&body);
        writeln!(text, "</svg>")
    }

    /// From what lies lowest upwards.
    fn put_panels(&self, layout: &Layout, text: &mut String) -> fmt::Result {
        let sides = cells::Sides::of(self, layout.unit);
        cells::put_boards(layout, text)?;
        cells::put_cells(self, layout, text)?;
        borders::put(self, layout, text)?;
        cells::put_nodes(self, layout, &sides, text)?;
        marks::put(&self.marks, &self.lone(), layout, &sides, text)?;
        self.terminals.put(layout, text)?;
        cells::put_hottest(self, layout, text)
    }
}
