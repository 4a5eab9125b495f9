//! Current from one layer to the next: boards/vias.txt, two layers in millimetres joined by vias, with switches and a
//! sense line. It is solved twice, by bilinear elements and by the net's conductances, each with the links between the
//! layers; then the current that each link carries.
//!
//! `cargo run --release --example layers FOLDER` leaves pictures there, layers.svg (the mesh and its links) and
//! layers-power.svg (power density at 10 A), and layers.vtk for ParaView; without a folder it prints only.

#[path = "../shared/output.rs"]
mod output;

use leafmesh::drawing::{densities, Picture, Quantity};
use leafmesh::solving::{Held, Solution, System};
use leafmesh::text::{self, Whole};
use leafmesh::vtk::{self, Field};
use leafmesh::{Link, Links, Mesh, Net, Refusal};
use output::Output;
use std::env;
use std::error::Error;
use std::fs;
use std::io::Write;
use std::path::Path;
use std::process::ExitCode;

const BOARD: &str = include_str!("../../../../boards/vias.txt");

fn main() -> ExitCode {
    output::end("layers", run())
}

fn run() -> Result<(), Box<dyn Error>> {
    let mut out = Output;
    let Whole {
        board,
        links,
        terminals,
        ..
    } = text::parse_whole(BOARD)?;
    let links = links.rows();
    let mesh = Mesh::of_board(&board)?;
    let net = mesh.linked_net(links)?;
    writeln!(
        out,
        "{} leaves, {} nodes, {} edges, {} of them links",
        net.cells.len(),
        net.nodes.len(),
        net.edges.len(),
        net.links
    )?;

    let held = mesh.held(&net, &terminals);
    let mut solved = |name: &str, system: System, held: &[Held]| -> Result<_, Box<dyn Error>> {
        let solution = system.solve(held)?;
        let into = &solution.terminals[0];
        let ohms = into.volts / into.amperes;
        writeln!(
            out,
            "{:.4} mOhm from the bottom to the top, by {name}",
            1e3 * ohms
        )?;
        Ok(solution)
    };
    solved("the net's conductances", System::of_net(net.rows())?, &held)?;
    let solution = solved("bilinear elements", System::of_cells(&net)?, &held)?;

    let amperes = solution.terminals[0].amperes;
    writeln!(out, "at {amperes:.0} A, by bilinear elements:")?;
    let currents = currents_of(&mesh, links, &solution)?;
    for one in &currents {
        // What is nearly nothing has no sign.
        let amperes = (1e4 * one.amperes).round() / 1e4 + 0.0;
        let (link, edges) = (words(one.link), one.edges);
        writeln!(out, "{link:<10} {edges:4} edges {amperes:8.4} A")?;
    }
    let sum = |is_one: fn(&Link) -> bool| -> f64 {
        let own = currents.iter().filter(|one| is_one(&one.link));
        own.map(|one| one.amperes).sum()
    };
    let vias = sum(|link| matches!(link, Link::Via(_)));
    let switches = sum(|link| matches!(link, Link::Channel(_)));
    writeln!(
        out,
        "{vias:.4} A through all vias, {switches:.4} A through all switches"
    )?;
    match env::args().nth(1) {
        Some(folder) => put(Path::new(&folder), &mesh, (&net, links), &held, &solution),
        None => Ok(()),
    }
}

fn words(link: Link) -> String {
    match link {
        Link::Contact(at) => format!("contact {at}"),
        Link::Via(at) => format!("via {at}"),
        Link::Channel(at) => format!("channel {at}"),
    }
}

/// Of a link how many edges it makes, and the current from their first ends to their second.
struct Current {
    link: Link,
    edges: usize,
    amperes: f64,
}

fn currents_of(mesh: &Mesh, links: Links, solution: &Solution) -> Result<Vec<Current>, Refusal> {
    let mut rest = &solution.edges[..];
    let mut currents = Vec::new();
    for ((link, _), edges) in links.each().zip(mesh.edges_of_links(links)?) {
        let (own, behind) = rest.split_at(edges);
        currents.push(Current {
            link,
            edges,
            amperes: own.iter().sum(),
        });
        rest = behind;
    }
    Ok(currents)
}

fn put(
    folder: &Path,
    mesh: &Mesh,
    (net, links): (&Net, Links),
    held: &[Held],
    solution: &Solution,
) -> Result<(), Box<dyn Error>> {
    let watts: Vec<f64> = solution.cells.iter().map(|cell| cell.watts).collect();
    let densities = densities(mesh, &watts);
    let fields = [
        Field::Cells("W_per_mm2", &densities),
        Field::Nodes("volts", &solution.volts),
    ];
    let picture = |title: &str| Picture::of_mesh(title, mesh, net.rows());
    let levels = picture("Two plates joined by vias: leaves by level")?;
    let heat = picture("Two plates joined by vias: power density")?
        .by_flow(mesh, solution, Quantity::PowerDensity)
        .with_terminals(&net.nodes, held, &solution.terminals);
    let svg = |picture: Picture| picture.with_links(net, links).svg();
    let file = vtk::of_linked_mesh(mesh, net, &fields)?;
    fs::create_dir_all(folder).map_err(|why| format!("{}: {why}", folder.display()))?;
    let keep = |name: &str, text: String| {
        let file = folder.join(name);
        fs::write(&file, text).map_err(|why| format!("{}: {why}", file.display()))
    };
    keep("layers.svg", svg(levels))?;
    keep("layers-power.svg", svg(heat))?;
    keep("layers.vtk", file)?;
    Ok(())
}
