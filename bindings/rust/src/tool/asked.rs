//! The file of a board that a tool is asked for, with its points moved if that is asked for, too.

use super::{say, End, Stop, Switch, Takes, Words};
use crate::text;

/// A text's points are moved to multiples of the pitch behind it.
pub const SNAP: Switch = ("--snap", Takes::Word);

/// What stands in a file; of a text whose points are to be moved what it says then, each move told on standard error.
///
/// # Errors
///
/// In words: it can't be read, there is nothing in it, or it has no points that could be moved.
pub fn board_file(words: &Words, from: &End) -> Result<Vec<u8>, Stop> {
    let bytes = from.read()?;
    if bytes.is_empty() {
        return Err(nothing(from).into());
    }
    let Some(pitch) = words.one(SNAP.0) else {
        return Ok(bytes);
    };
    let pitch: f64 = match pitch.parse() {
        Ok(pitch) if pitch > 0.0 && pitch < f64::INFINITY => pitch,
        _ => {
            return Err(Stop::Senseless(format!(
                "{} takes a pitch in millimetres, not {pitch}",
                SNAP.0
            )))
        }
    };
    let said = |why: &text::Unclear| from.said(&why.to_string());
    if text::is_record(&bytes) {
        return Err(from
            .said("--snap moves the points of a text, and this is a record")
            .into());
    }
    let snapped = text::text_of(&bytes).and_then(|text| text::snap(text, pitch));
    let snapped = snapped.map_err(|why| said(&why))?;
    snapped
        .moves
        .iter()
        .for_each(|one| say(&from.said(&one.to_string())));
    Ok(snapped.text.into_bytes())
}

fn nothing(from: &End) -> String {
    let wanted = "a board's text or record is wanted";
    match from.name() {
        Some(_) => from.said(&format!("the file is empty: {wanted}")),
        None => format!("standard input is empty: {wanted}"),
    }
}
