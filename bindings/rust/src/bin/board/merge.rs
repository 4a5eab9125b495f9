//! A text whose copper is drawn once.

use leafmesh::text;
use leafmesh::tool::{board_file, say, Command, Stop, Words, SNAP};

pub const MERGE: Command = Command {
    name: "merge",
    help: concat!(
        "\
usage: board merge [FILE] [--snap PITCH] [-o FILE]

The text with its copper drawn once: polygons of one layer, component and sheet
resistance that overlap or border on each other are united, which is told on
standard error. What can't mean the same any more is left out with a warning.

",
        snap_help!()
    ),
    switches: &[SNAP],
    make: merge,
};

fn merge(words: &Words) -> Result<Vec<u8>, Stop> {
    let input = words.input();
    let said = |why: &str| input.said(why);
    let bytes = board_file(words, &input)?;
    if text::is_record(&bytes) {
        let why = "this is a record: `board unpack` makes the text that merge takes";
        return Err(said(why).into());
    }
    let own = text::text_of(&bytes).map_err(|why| said(&why.to_string()))?;
    let merged = text::merge(own).map_err(|why| said(&why.to_string()))?;
    for union in &merged.united {
        say(&said(&format!("united: {union}")));
    }
    for warning in &merged.warnings {
        say(&said(&format!("warning: {warning}")));
    }
    Ok(merged.text.into_bytes())
}
