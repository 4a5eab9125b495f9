//! Prints the first two tables of docs/CONDUCTANCES.md, after holding every table and net in them to the original's,
//! number by number and bit by bit. Ends with 1 if one differs.

#[path = "../../../bindings/rust/examples/conductances/boards.rs"]
#[rustfmt::skip] // formatted where it stands
mod boards;
#[path = "../../../bindings/rust/examples/hottest/rounds.rs"]
#[rustfmt::skip]
mod rounds;

use boards::{Meshed, CASES};
use calls::build::{build, Outlines, Settings};
use calls::even::balance;
use calls::net::Net;
use calls::network::{network, NetRoom};
use calls::sheets::Sheets;
use calls::table::{leaf_count, refine};
use calls::{Answer, Refusal};
use leafmesh::{text, Mesh, SLOT, SLOTS};
use std::error::Error;
use std::io::{stdout, Write};

fn main() -> Result<(), Box<dyn Error>> {
    let all: Result<Vec<Meshed>, _> = CASES.into_iter().map(boards::meshed).collect();
    let all = all?;
    let mut numbers = 0;
    for meshed in &all {
        let splits = text::parse(meshed.case.board)?.splits;
        let splits = splits.into_iter().map(|id| id as usize).collect();
        let original = original(&meshed.mesh, &[splits]);
        numbers += held(meshed.case.words, &meshed.mesh, &meshed.net, original)?;
    }
    let rounds = rounds::rounds()?;
    let mut splits = Vec::new();
    for round in &rounds {
        splits.push(round.splits.clone());
        numbers += held("the neck", &round.mesh, &round.net, original(&round.mesh, &splits))?;
    }
    let mut out = stdout();
    writeln!(out, "{}\n{}", boards::table(&all)?, rounds::table(&rounds)?)?;
    let nets = all.len() + rounds.len();
    writeln!(out, "{nets} nets, {numbers} numbers: each is the original's, bit for bit")?;
    Ok(())
}

/// How many numbers of a table and a net were compared; the first that differs is an error.
fn held(
    words: &str,
    mesh: &Mesh,
    made: &leafmesh::Net,
    original: Answer<(Vec<i64>, Net)>,
) -> Result<usize, Box<dyn Error>> {
    let (table, net) = original.map_err(|Refusal { number, place }| {
        format!("{words}: the original's side refuses {number} {place}")
    })?;
    let nodes = net.nodes.iter().map(|n| (n.layer, n.component, n.x, n.y));
    let edges = net.edges.iter().map(|e| (e.from, e.to, e.conductance.to_bits()));
    let cells = net.cells.iter().map(|c| (c.corners, c.r_sheet.to_bits()));
    let same = table == mesh.row()
        && nodes.eq(made.nodes.iter().map(|n| (n.layer, n.component, n.x, n.y)))
        && edges.eq(made.edges.iter().map(|e| (e.from, e.to, e.conductance.to_bits())))
        && cells.eq(made.cells.iter().map(|c| (c.corners, c.sheet.to_bits())));
    if !same {
        return Err(format!("{words}: another net than the original's").into());
    }
    let net = 4 * net.nodes.len() + 3 * net.edges.len() + 5 * net.cells.len();
    Ok(SLOT * mesh.head().count + net)
}

/// The table and the net that the original makes of a mesh's board, split in rounds, each balanced.
fn original(mesh: &Mesh, rounds: &[Vec<usize>]) -> Answer<(Vec<i64>, Net)> {
    let polygons = mesh.polygons();
    let sheets = Sheets {
        layer: &polygons.layers,
        component: &polygons.components,
        r_sheet: &polygons.sheets,
    };
    let outlines = Outlines { sheets, point_count: &polygons.counts, points: &polygons.points };
    let max_level = mesh.settings().max_level;
    let target = mesh.settings().target as i64;
    let settings = Settings { max_level, cap: mesh.settings().cap, target, layers: &[] };
    let mut table = vec![0; SLOT * SLOTS];
    let mut head = build(&settings, &outlines, &mut table)?;
    for splits in rounds {
        for &id in splits {
            head = refine(&mut table, head, id)?;
        }
        head = balance(&mut table, head)?.head;
    }
    let room = NetRoom::for_leaves(leaf_count(head) as usize);
    let net = network(&table, head, &sheets, &room)?;
    Ok((table, net))
}
