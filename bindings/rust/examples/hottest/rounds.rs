//! A neck 0.2 mm wide that lies across, between two pads, refined round by round where the net's power is largest.

use leafmesh::solving::{Drive, Solution, Spot, System, Terminal};
use leafmesh::{Mesh, Net, Pitch, Polygons, Settings, Side};
use std::error::Error;

/// In millimetres.
const PITCH: f64 = 0.1;
const MAX_LEVEL: u64 = 6;
const ROUNDS: usize = 5;
/// A round splits so many of the leaves, those of the largest power.
const ONE_IN: usize = 6;

/// Pads of 1 by 1 mm and a neck of 1 by 0.2 mm between them, r_sheet 1.
const OUTLINE: [[f64; 2]; 12] = [
    [0.0, 0.0],
    [1.0, 0.0],
    [1.0, 0.4],
    [2.0, 0.4],
    [2.0, 0.0],
    [3.0, 0.0],
    [3.0, 1.0],
    [2.0, 1.0],
    [2.0, 0.6],
    [1.0, 0.6],
    [1.0, 1.0],
    [0.0, 1.0],
];

/// A mesh with its net, and the cells that were split since the round before.
#[allow(dead_code)] // the oracle makes the same mesh from them
pub struct Round {
    pub splits: Vec<usize>,
    pub mesh: Mesh,
    pub net: Net,
}

/// All rounds, from the base cells on.
pub fn rounds() -> Result<Vec<Round>, Box<dyn Error>> {
    let mut mesh = base_cells()?;
    let mut rounds = Vec::new();
    let mut splits = Vec::new();
    for _ in 0..=ROUNDS {
        mesh.balance()?;
        let net = mesh.net()?;
        let next = hottest(&mesh, &net)?;
        rounds.push(Round {
            splits,
            mesh: mesh.clone(),
            net,
        });
        mesh.refine_many(next.iter().copied())?;
        splits = next;
    }
    Ok(rounds)
}

fn base_cells() -> Result<Mesh, Box<dyn Error>> {
    let pitch = Pitch::new(PITCH, MAX_LEVEL)?;
    let settings = Settings {
        max_level: MAX_LEVEL,
        cap: 256,
        target: pitch.target(),
    };
    let mut polygons = Polygons::default();
    polygons.push(1, 0, 1.0, &pitch.ring(&OUTLINE)?);
    Ok(Mesh::new(settings, &[], polygons)?)
}

/// The leaves of the largest power by the net, those at the last level left out.
fn hottest(mesh: &Mesh, net: &Net) -> Result<Vec<usize>, Box<dyn Error>> {
    let watts = mesh.power(net.rows(), &by_net(mesh, net)?.volts)?;
    let mut by_heat: Vec<_> = watts.into_iter().zip(mesh.leaves()).collect();
    by_heat.sort_by(|a, b| b.0.total_cmp(&a.0));
    by_heat.truncate(by_heat.len() / ONE_IN);
    by_heat.retain(|(_, leaf)| leaf.level < MAX_LEVEL);
    Ok(by_heat.into_iter().map(|(_, leaf)| leaf.id).collect())
}

/// 1 V from the left to the right.
fn terminals() -> [Terminal; 2] {
    let end = |side| Spot::End {
        layer: 1,
        component: 0,
        side,
    };
    [
        Terminal::new("left", end(Side::West), Drive::Volts(0.0)),
        Terminal::new("right", end(Side::East), Drive::Volts(1.0)),
    ]
}

/// By the net's conductances.
fn by_net(mesh: &Mesh, net: &Net) -> Result<Solution, Box<dyn Error>> {
    Ok(System::of_net(net.rows())?.solve(&mesh.held(net, &terminals()))?)
}

/// By the elements on its cells.
fn by_cells(mesh: &Mesh, net: &Net) -> Result<Solution, Box<dyn Error>> {
    Ok(System::of_cells(net)?.solve(&mesh.held(net, &terminals()))?)
}

/// The table of the page: a line a round.
pub fn table(rounds: &[Round]) -> Result<String, Box<dyn Error>> {
    let mut lines = String::from(
        "| Round | leaves | net's hottest cell: its power by the net / by elements | power of all cells / V²G |\n\
         |---|---|---|---|\n",
    );
    for (number, Round { mesh, net, .. }) in rounds.iter().enumerate() {
        let own = by_net(mesh, net)?;
        let net_watts = mesh.power(net.rows(), &own.volts)?;
        let cell_watts = mesh.power(net.rows(), &by_cells(mesh, net)?.volts)?;
        let hotter = |a: &usize, b: &usize| net_watts[*a].total_cmp(&net_watts[*b]);
        let hottest = (0..net_watts.len()).max_by(hotter).ok_or("no cells")?;
        let times = net_watts[hottest] / cell_watts[hottest];
        let share = net_watts.iter().sum::<f64>() / own.watts();
        let leaves = net_watts.len();
        lines += &format!("| {number} | {leaves} | {times:.2} | {share:.3} |\n");
    }
    Ok(lines)
}
