//! Potentials of what leafnet printed, by the net's conductances, which are not the copper's everywhere
//! (docs/CONDUCTANCES.md): for pictures, not for judging a board. `relax --help` says how.

use leafmesh::printed::{self, Printed};
use leafmesh::solving::{Held, System};
use leafmesh::tool::{By, Command, End, Given, Stop, Switch, Takes, Terminals, Tool, Words};
use leafmesh::{looks_at_its_ends, NetRows};
use std::fmt::Write;
use std::process::ExitCode;

looks_at_its_ends!();

const BOARD: Switch = ("--board", Takes::Word);
const TERMINAL: Switch = ("--terminal", Takes::Words);

const RELAX: Tool = Tool {
    name: "relax",
    commands: &[Command {
        name: "",
        help: HELP,
        switches: &[BOARD, TERMINAL],
        make: relax,
    }],
    help: HELP,
};

const HELP: &str = "\
usage: relax [FILE] [--board FILE] [--terminal WORDS] .. [-o FILE]
       relax --help | --version

The potential of each node of what leafnet printed, from a file or from standard
input: one number a line, in volts, by the net's conductances.

  --board FILE      the board that leafnet printed, its text or its record, with
                    the text's terminals
  --terminal WORDS  where current enters or leaves, as in a line of the text:
                    \"NAME VALUE V|A end LAYER COMPONENT west|east|south|north\",
                    \".. edge|rect LAYER COMPONENT X0 Y0 X1 Y1\" or
                    \".. pad POLYGON\"; instead of one with the same name;
                    without --board in ticks, and no pad
";

fn main() -> ExitCode {
    RELAX.main()
}

fn relax(words: &Words) -> Result<Vec<u8>, Stop> {
    let input = words.input();
    let printed = printed::read_sound(&input.read_text()?).map_err(|why| input.said(&why))?;
    let volts = match words.file_of(BOARD.0) {
        Some(board) => of_board(&printed, &input, &board, words)?,
        None => of_text(&printed, words)?,
    };
    let mut text = String::new();
    for volt in volts {
        writeln!(text, "{volt:?}").expect("a string takes all text");
    }
    Ok(text.into_bytes())
}

/// With the terminals of the board, whose mesh tells pads.
fn of_board(printed: &Printed, input: &End, board: &End, words: &Words) -> Result<Vec<f64>, Stop> {
    let given = Given::read(words, board)?.with_terminals(&words.all(TERMINAL.0))?;
    let solved = given.solved(By::Net, "relax")?;
    let own = printed::show_mesh(&given.board, &solved.mesh, &solved.net);
    printed::is_of(printed, &own).map_err(|why| input.said(&why))?;
    Ok(solved.solution.volts)
}

fn of_text(printed: &Printed, words: &Words) -> Result<Vec<f64>, String> {
    let mut terminals = Terminals::default();
    terminals.take(&words.all(TERMINAL.0), None)?;
    terminals.judge("relax")?;
    let held = terminals.all().iter().map(|one| {
        let held = one.held_among(&printed.nodes);
        held.ok_or_else(|| format!("--terminal: terminal {}: a pad needs --board", one.name))
    });
    let held: Vec<Held> = held.collect::<Result<_, _>>()?;
    let net = NetRows {
        nodes: &printed.nodes,
        edges: &printed.edges,
        cells: &[],
    };
    let solved = System::of_net(net).and_then(|system| system.solve(&held));
    Ok(solved.map_err(|why| terminals.blame(&why))?.volts)
}
