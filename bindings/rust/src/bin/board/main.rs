//! A board's text or record, made into something else: `board --help` has the list.

/// What `--help` says of `--terminal`.
macro_rules! terminal_help {
    () => {
        "  --terminal WORDS  where current enters or leaves, as in a line of the text:
                    \"NAME VALUE V|A end LAYER COMPONENT west|east|south|north\",
                    \".. edge|rect LAYER COMPONENT X0 Y0 X1 Y1\" or
                    \".. pad POLYGON\"; instead of one with the same name
"
    };
}

/// What `--help` says of `--snap`.
macro_rules! snap_help {
    () => {
        "  --snap PITCH      with a text's points moved to multiples of this pitch, in
                    millimetres; each move is told on standard error
"
    };
}

mod cuts;
mod files;
mod merge;
mod refine;
mod solve;

use leafmesh::tool::{board_file, say, Command, Given, Stop, Switch, Takes, Tool, Words, SNAP};
use leafmesh::{looks_at_its_ends, printed, text, Mesh, Unmeshed};
use std::fmt::Display;
use std::process::ExitCode;

looks_at_its_ends!();

const BOARD: Tool = Tool {
    name: "board",
    commands: &[
        PACK,
        UNPACK,
        NET,
        files::VTK,
        files::MSH,
        files::CSV,
        solve::SOLVE,
        refine::REFINE,
        merge::MERGE,
    ],
    help: "\
usage: board COMMAND [FILE] [OPTION ..] [-o FILE]
       board [COMMAND] --help
       board --version

Reads a board's text or record from a file or from standard input (no file, or
-), and writes what it makes to standard output or to the file behind -o.

  pack     the record of a text
  unpack   the text of a record, in ticks
  net      what leafnet prints of it, with no bound of 64 cells
  vtk      a file for ParaView
  msh      a file for Gmsh
  csv      a table of its leaves
  solve    what flows between its terminals, as tables to be read
  refine   the board split where its current is least even, round by round
  merge    the text with its copper drawn once
",
};

const PACK: Command = Command {
    name: "pack",
    help: concat!(
        "\
usage: board pack [FILE] [--snap PITCH] [-o FILE]

The record of a board's text. A text with links is refused, since a record has
none; terminals are left out with a warning.

",
        snap_help!()
    ),
    switches: &[SNAP],
    make: pack,
};

const UNPACK: Command = Command {
    name: "unpack",
    help: "\
usage: board unpack [FILE] [-o FILE]

The text of a board's record, in ticks.
",
    switches: &[],
    make: unpack,
};

const NET: Command = Command {
    name: "net",
    help: concat!(
        "\
usage: board net [FILE] [--snap PITCH] [-o FILE]

Leaves, nodes and edges of a board's text or record, as leafnet prints them, of
a board of any size and with links.

",
        snap_help!()
    ),
    switches: &[SNAP],
    make: net,
};

/// Names a terminal beside those of a text, or instead of one.
const TERMINAL: Switch = ("--terminal", Takes::Words);

fn main() -> ExitCode {
    BOARD.main()
}

/// A record is a record also where its net would be wrong, which leafnet doesn't say.
fn pack(words: &Words) -> Result<Vec<u8>, Stop> {
    let input = words.input();
    let said = |why: &dyn Display| input.said(&why.to_string());
    let bytes = board_file(words, &input)?;
    let whole = text::parse_bytes(&bytes).map_err(|why| said(&why))?;
    let packed = text::pack_whole(&whole).map_err(|why| said(&why))?;
    let mut warnings: Vec<String> = packed.warnings.iter().map(ToString::to_string).collect();
    match Mesh::of_board(&whole.board) {
        Ok(_) | Err(Unmeshed::Refused(_)) => {}
        Err(why) => warnings.push(whole.lines.blame(&whole.board, &why)),
    }
    for warning in warnings {
        say(&said(&format!("warning: {warning}")));
    }
    Ok(packed.record)
}

fn unpack(words: &Words) -> Result<Vec<u8>, Stop> {
    let input = words.input();
    let board = text::read_record(&input.read()?).map_err(|why| input.said(&why.to_string()))?;
    Ok(text::show(&board).into_bytes())
}

fn net(words: &Words) -> Result<Vec<u8>, Stop> {
    let given = Given::read(words, &words.input())?;
    let (mesh, net) = given.mesh()?;
    Ok(printed::show_mesh(&given.board, &mesh, &net).into_bytes())
}

/// The board that is asked for, with the terminals that are named beside it.
fn given(words: &Words) -> Result<Given, Stop> {
    let given = Given::read(words, &words.input())?;
    Ok(given.with_terminals(&words.all(TERMINAL.0))?)
}
