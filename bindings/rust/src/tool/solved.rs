//! A board that is solved between its terminals.

use super::Given;
use crate::solving::{place_of_most, Flow, Held, Solution, System, Unsolved};
use crate::{Leaf, Lone, Mesh, Net};
use std::collections::BTreeSet;

/// A current or a potential below this share of the largest one at a terminal is what the iteration leaves.
const LEFT: f64 = 1e-9;
/// One below this share of what the largest potential would drive through a square is, too.
const ROUNDED: f64 = 1e-11;

/// What a net is solved by.
#[derive(Clone, Copy, Debug, PartialEq, Eq)]
pub enum By {
    /// Its cells, as elements.
    Cells,
    /// Its conductances.
    Net,
}

/// A mesh, its net, and what its terminals bring about.
pub struct Solved {
    pub mesh: Mesh,
    pub net: Net,
    pub held: Vec<Held>,
    pub solution: Solution,
    /// Of each cell: the element's own, or by the slope at its centre where the net's conductances are taken.
    pub watts: Vec<f64>,
    /// The links' ends of one node: what comes out there has no value as the mesh gets finer.
    pub lone: Vec<Lone>,
    /// Currents up to this are none.
    rest: f64,
}

impl Given {
    /// The board's mesh and net, solved between its terminals, which are asked for by name.
    ///
    /// # Errors
    ///
    /// In words: there is no mesh, no net, no terminal or no solution.
    pub fn solved(&self, by: By, asker: &str) -> Result<Solved, String> {
        let (mesh, net) = self.mesh()?;
        let judged = self.terminals.judge(asker);
        let judged = judged.and_then(|()| self.terminals.judge_ground(&self.board));
        judged.map_err(|why| self.said(&why))?;
        let solved = self.solved_net(mesh, net, by)?;
        self.say_of_lone(&solved);
        Ok(solved)
    }

    /// The same of its mesh when that was split further.
    ///
    /// # Errors
    ///
    /// In words: there is no net or no solution.
    pub fn solved_mesh(&self, mesh: Mesh, by: By) -> Result<Solved, String> {
        let net = self.net(&mesh)?;
        self.solved_net(mesh, net, by)
    }

    fn solved_net(&self, mesh: Mesh, net: Net, by: By) -> Result<Solved, String> {
        if by == By::Net {
            self.judge_for_net()?;
        }
        let held = mesh.held(&net, self.terminals.all());
        let solved = || -> Result<(Solution, Vec<f64>), Unsolved> {
            match by {
                By::Cells => {
                    let solution = System::of_cells(&net)?.solve(&held)?;
                    let watts = solution.cells.iter().map(|cell| cell.watts).collect();
                    Ok((solution, watts))
                }
                By::Net => {
                    let solution = System::of_net(net.rows())?.solve(&held)?;
                    let watts = mesh.power(net.rows(), &solution.volts)?;
                    Ok((solution, watts))
                }
            }
        };
        let (solution, watts) = solved().map_err(|why| self.blame_unsolved(&mesh, &net, &why))?;
        Ok(Solved {
            rest: rest_of(&net, &solution),
            lone: lone_of(&net, &held),
            mesh,
            net,
            held,
            solution,
            watts,
        })
    }
}

/// A terminal of several nodes takes what comes in at one of them.
fn lone_of(net: &Net, held: &[Held]) -> Vec<Lone> {
    let wide = held.iter().filter(|one| one.nodes.len() > 1);
    let held: BTreeSet<usize> = wide.flat_map(|one| one.nodes.iter().copied()).collect();
    let mut lone = net.lone();
    lone.retain(|one| !held.contains(&one.node));
    lone
}

fn rest_of(net: &Net, solution: &Solution) -> f64 {
    let largest = |all: &mut dyn Iterator<Item = f64>| all.map(f64::abs).fold(0.0, f64::max);
    let amperes = largest(&mut solution.terminals.iter().map(|one| one.amperes));
    let volts = || solution.terminals.iter().map(|one| one.volts);
    let [lowest, highest] = [volts().reduce(f64::min), volts().reduce(f64::max)];
    let volts = highest.unwrap_or(0.0) - lowest.unwrap_or(0.0);
    let siemens = largest(&mut net.cells.iter().map(|cell| 1.0 / cell.sheet));
    (LEFT * amperes).max(ROUNDED * volts * siemens)
}

impl Solved {
    /// The leaf of the largest power over area, and what flows in it, as [`Solution::hottest`].
    pub fn hottest(&self) -> Option<(Leaf, Flow)> {
        let left_out = self.solution.left_out(&self.mesh);
        self.hottest_of(|at| !left_out[at])
    }

    /// The same of all leaves, as [`Solution::hottest_of_all`].
    pub fn hottest_of_all(&self) -> Option<(Leaf, Flow)> {
        self.hottest_of(|_| true)
    }

    fn hottest_of(&self, is_in: impl Fn(usize) -> bool) -> Option<(Leaf, Flow)> {
        let leaves: Vec<Leaf> = self.mesh.leaves().collect();
        let density = |(at, leaf): (usize, &Leaf)| match is_in(at) {
            true => self.watts[at] / leaf.area(),
            false => 0.0,
        };
        let densities: Vec<f64> = leaves.iter().enumerate().map(density).collect();
        let at = place_of_most(densities.into_iter())?;
        let (leaf, watts, sheet) = (leaves[at], self.watts[at], self.net.cells[at].sheet);
        // The net's conductances give no current of a cell.
        let by_power = || Flow {
            watts,
            sheet_current: leaf.sheet_current(watts, sheet),
            sheet,
            ..Flow::default()
        };
        let flow = self.solution.cells.get(at).copied();
        Some((leaf, flow.unwrap_or_else(by_power)))
    }

    /// The currents of the links' edges.
    pub fn link_amperes(&self) -> &[f64] {
        let edges = &self.solution.edges;
        &edges[edges.len() - self.net.links..]
    }

    /// The powers of the links' edges.
    pub fn link_watts(&self) -> &[f64] {
        let edges = &self.solution.edge_watts;
        &edges[edges.len() - self.net.links..]
    }

    /// The resistance between two terminals. None where there are more, or no current.
    pub fn ohms(&self) -> Option<f64> {
        let [from, to] = &self.solution.terminals[..] else {
            return None;
        };
        let flows = from.amperes.abs() > self.rest;
        flows.then(|| (from.volts - to.volts) / from.amperes)
    }

    /// Name, potential and current of each terminal, 0 where they are no more than what iteration and rounding leave.
    pub fn applied(&self) -> impl Iterator<Item = (&str, [f64; 2])> + '_ {
        let all = &self.solution.terminals;
        let most = all.iter().map(|one| one.volts.abs()).fold(0.0, f64::max);
        all.iter().map(move |one| {
            let is_left = one.volts.abs() < LEFT * most;
            let volts = if is_left { 0.0 } else { one.volts };
            (&one.terminal[..], [volts, self.without_rest(one.amperes)])
        })
    }

    /// A current, or 0 where it is no more than what iteration and rounding leave.
    pub fn without_rest(&self, amperes: f64) -> f64 {
        if amperes.abs() > self.rest {
            amperes
        } else {
            0.0
        }
    }
}
