//! A mesh as a picture: of a board, or of what leafnet printed. `draw --help` says how.

use leafmesh::drawing::{densities, Picture, Quantity};
use leafmesh::limits::POTENTIAL;
use leafmesh::tool::{By, Command, End, Given, Stop, Switch, Takes, Tool, Words, SNAP};
use leafmesh::{looks_at_its_ends, printed, Mesh, Net};
use std::process::ExitCode;

looks_at_its_ends!();

const BOARD: Switch = ("--board", Takes::Word);
const POWER: Switch = ("--power", Takes::Nothing);
const CURRENT: Switch = ("--current", Takes::Nothing);
const TERMINAL: Switch = ("--terminal", Takes::Words);
const BORDERS: Switch = ("--borders", Takes::Nothing);
const TITLE: Switch = ("--title", Takes::Word);
const RECORD: Switch = ("--record", Takes::Word);
const POTENTIALS: Switch = ("--potentials", Takes::Word);
const PRINTED: Switch = ("--printed", Takes::Word);

const DRAW: Tool = Tool {
    name: "draw",
    commands: &[Command {
        name: "",
        help: HELP,
        switches: &[
            BOARD, POWER, CURRENT, TERMINAL, BORDERS, TITLE, RECORD, POTENTIALS, PRINTED, SNAP,
        ],
        make: draw,
    }],
    help: HELP,
};

const HELP: &str = "\
usage: draw BOARD [--power | --current] [--terminal WORDS] .. [--borders]
            [--snap PITCH] [--title WORDS] [-o FILE]
       draw [--printed FILE] [--record FILE [--potentials FILE]] [--borders]
            [--title WORDS] [-o FILE]
       draw --help | --version

A picture (SVG) of a board's text or record, of any size; without a board, of
what leafnet printed, from standard input.

  BOARD             the board's file, or - for standard input; --board FILE says
                    the same
  --power           leaves by power density, as it flows between the terminals;
                    otherwise by level
  --current         leaves by sheet current
  --terminal WORDS  where current enters or leaves, as in a line of the text:
                    \"NAME VALUE V|A end LAYER COMPONENT west|east|south|north\",
                    \".. edge|rect LAYER COMPONENT X0 Y0 X1 Y1\" or
                    \".. pad POLYGON\"; instead of one with the same name
  --snap PITCH      with a text's points on another pitch in millimetres; each
                    move is told
  --borders         a line on every border that two leaves share, the longer the
                    wider
  --title WORDS     words over the picture; without them the board's file
  --printed FILE    what leafnet printed, from a file
  --record FILE     the board that leafnet printed, its record or its text
  --potentials FILE one number a node, in volts, as relax writes them: leaves by
                    the power that they bring about
";

fn main() -> ExitCode {
    DRAW.main()
}

fn draw(words: &Words) -> Result<Vec<u8>, Stop> {
    let mut picture = match board_of(words)? {
        Some(board) => of_board(&board, words)?,
        None => of_printed(words)?,
    };
    if words.has(BORDERS.0) {
        picture = picture.with_borders().map_err(|why| why.to_string())?;
    }
    Ok(picture.svg().into_bytes())
}

/// The board that is to be drawn; none where what leafnet printed is.
fn board_of(words: &Words) -> Result<Option<End>, Stop> {
    let senseless = |why: &str| Err(Stop::Senseless(why.to_string()));
    let board = words.file_of(BOARD.0);
    if board.is_some() && words.file().is_some() {
        return senseless("one board too many");
    }
    let board = board.or_else(|| words.file().map(|_| words.input()));
    let flows = [POWER, CURRENT].map(|(name, _)| words.has(name));
    let of_printed = [RECORD, POTENTIALS, PRINTED].map(|(name, _)| words.has(name));
    if flows == [true, true] {
        return senseless("--power or --current, not both");
    }
    match board {
        Some(_) if of_printed.contains(&true) => {
            senseless("a board, or what leafnet printed, not both")
        }
        Some(_) if words.has(TERMINAL.0) && !flows.contains(&true) => {
            senseless("--terminal says nothing without --power or --current")
        }
        None if flows.contains(&true) || words.has(TERMINAL.0) => {
            senseless("--power, --current and --terminal need a board")
        }
        None if words.has(POTENTIALS.0) && !words.has(RECORD.0) => {
            senseless("--potentials need a --record")
        }
        board => Ok(board),
    }
}

fn of_board(board: &End, words: &Words) -> Result<Picture, Stop> {
    let given = Given::read(words, board)?.with_terminals(&words.all(TERMINAL.0))?;
    let name = board.name();
    let title = words.one(TITLE.0);
    let title = title.as_deref().or(name.as_deref()).unwrap_or("a board");
    let (quantity, asker) = match (words.has(POWER.0), words.has(CURRENT.0)) {
        (true, _) => (Quantity::PowerDensity, POWER.0),
        (_, true) => (Quantity::SheetCurrent, CURRENT.0),
        _ => {
            let (mesh, net) = given.mesh()?;
            return Ok(of_mesh(title, &given, &mesh, &net)?);
        }
    };
    let solved = given.solved(By::Cells, asker)?;
    let picture = of_mesh(title, &given, &solved.mesh, &solved.net)?;
    let solution = &solved.solution;
    Ok(picture
        .by_flow(&solved.mesh, solution, quantity)
        .with_terminals(&solved.net.nodes, &solved.held, &solution.terminals))
}

/// With the links that were given.
fn of_mesh(title: &str, given: &Given, mesh: &Mesh, net: &Net) -> Result<Picture, String> {
    let picture = Picture::of_mesh(title, mesh, net.rows()).map_err(|why| given.said(&why))?;
    Ok(picture.with_links(net, given.links.rows()))
}

fn of_printed(words: &Words) -> Result<Picture, Stop> {
    let input = words.file_of(PRINTED.0).unwrap_or_default();
    let text = input.read_text()?;
    let title = words.one(TITLE.0);
    let title = title.as_deref().unwrap_or("leafnet's mesh");
    let said = |why: String| input.said(&why);
    let Some(record) = words.file_of(RECORD.0) else {
        let printed = printed::read_sound(&text).map_err(said)?;
        return Ok(Picture::of_printed(title, &printed, None).map_err(said)?);
    };
    let given = Given::read(words, &record)?;
    let printed = printed::read(&text).map_err(said)?;
    let (mesh, net) = given.mesh()?;
    let own = printed::show_mesh(&given.board, &mesh, &net);
    printed::is_of(&printed, &own).map_err(said)?;
    let picture = of_mesh(title, &given, &mesh, &net)?;
    let Some(potentials) = words.file_of(POTENTIALS.0) else {
        return Ok(picture);
    };
    let volts = potentials_of(&potentials, net.nodes.len())?;
    let watts = mesh.power(net.rows(), &volts);
    let watts = watts.map_err(|why| potentials.said(&why.to_string()))?;
    Ok(picture.by_value("power density in W/mm2", &densities(&mesh, &watts)))
}

/// One number a node, parted by blanks or lines.
fn potentials_of(file: &End, nodes: usize) -> Result<Vec<f64>, String> {
    let text = file.read_text()?;
    let mut all = Vec::new();
    for (line, words) in (1..).zip(text.lines()) {
        for word in words.split_whitespace() {
            let volts: Option<f64> = word.parse().ok();
            let volts = volts.filter(|volts| volts.abs() <= POTENTIAL);
            all.push(volts.ok_or_else(|| {
                file.said(&format!("line {line}: {word} is no potential: a number from -{POTENTIAL} to {POTENTIAL}"))
            })?);
        }
    }
    match all.len() {
        count if count == nodes => Ok(all),
        count => Err(file.said(&format!("{count} potentials for {nodes} nodes"))),
    }
}
