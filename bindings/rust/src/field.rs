//! Values that go with a mesh into its files.

use crate::solving::{Flow, Solution};
use crate::{Leaf, Mesh};

/// Values of the cells, or of the nodes: so many as there are of one or the other.
#[derive(Clone, Copy, Debug)]
pub enum Field<'a> {
    /// A name, and one value a cell; then, if there are more, one a link.
    Cells(&'a str, &'a [f64]),
    /// A name, and what of a cell has a size along x and one along y.
    Vectors(&'a str, &'a [[f64; 2]]),
    /// A name, and one value a node.
    Nodes(&'a str, &'a [f64]),
}

/// What flows in the cells of a mesh and in its links, as columns for its files.
///
/// ```
/// use leafmesh::field::Flows;
/// use leafmesh::solving::{Drive, Spot, System, Terminal};
/// use leafmesh::{text, vtk, Mesh, Side};
///
/// let board = text::parse("target 32\npolygon 1 0 0.0005\n0 0\n32 0\n32 64\n0 64\n")?;
/// let mesh = Mesh::of_board(&board)?;
/// let net = mesh.net()?;
/// let end = |side| Spot::End { layer: 1, component: 0, side };
/// let terminals = [
///     Terminal::new("in", end(Side::North), Drive::Amperes(2.0)),
///     Terminal::new("out", end(Side::South), Drive::Volts(0.0)),
/// ];
/// let solution = System::of_cells(&net)?.solve(&mesh.held(&net, &terminals))?;
/// let flows = Flows::of(&mesh, &solution);
/// assert!((flows.watts.iter().sum::<f64>() - 0.004).abs() < 1e-12);
/// assert!(vtk::of_linked_mesh(&mesh, &net, &flows.fields())?.contains("\nVECTORS current_A_per_mm double\n"));
/// # Ok::<(), Box<dyn std::error::Error>>(())
/// ```
#[derive(Clone, Debug, Default, PartialEq)]
pub struct Flows {
    /// Of each cell, then of each link. They add up to what the terminals give.
    pub watts: Vec<f64>,
    /// Of each cell its power over its area, in watts a square millimetre.
    pub densities: Vec<f64>,
    /// Of each cell the sheet current that its power stands for, in amperes a millimetre.
    pub sheet_currents: Vec<f64>,
    /// Of each cell the sheet current at its centre, along x and along y, in amperes a millimetre.
    pub currents: Vec<[f64; 2]>,
    /// Of each cell 0, then of each link the current from its first node to its second, in amperes.
    pub amperes: Vec<f64>,
    /// Of each node.
    pub volts: Vec<f64>,
}

impl Flows {
    /// Of a solution on the cells of a mesh's net.
    pub fn of(mesh: &Mesh, solution: &Solution) -> Self {
        let cells = || mesh.leaves().zip(&solution.cells);
        let watts = solution.cells.iter().map(|cell| cell.watts);
        let zeros = solution.cells.iter().map(|_| 0.0);
        let density = |(leaf, cell): (Leaf, &Flow)| cell.watts / leaf.area() * 1e-6;
        let currents = solution.cells.iter().map(|cell| cell.sheet_current * 1e-3);
        Flows {
            watts: watts.chain(solution.edge_watts.iter().copied()).collect(),
            densities: cells().map(density).collect(),
            sheet_currents: currents.collect(),
            currents: cells()
                .map(|(_, cell)| cell.current.map(|a| a * 1e-3))
                .collect(),
            amperes: zeros.chain(solution.edges.iter().copied()).collect(),
            volts: solution.volts.clone(),
        }
    }

    /// The columns with their names; the currents of links where there are any.
    pub fn fields(&self) -> Vec<Field<'_>> {
        let mut fields = vec![
            Field::Cells("watts", &self.watts),
            Field::Cells("W_per_mm2", &self.densities),
            Field::Cells("A_per_mm", &self.sheet_currents),
            Field::Vectors("current_A_per_mm", &self.currents),
            Field::Nodes("volts", &self.volts),
        ];
        if self.amperes.len() > self.densities.len() {
            fields.push(Field::Cells("link_amperes", &self.amperes));
        }
        fields
    }
}
