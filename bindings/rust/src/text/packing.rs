//! The record of a board's text, read back and compared.

use super::{parse_whole, sheets, Lines, Unclear, Warning, Whole};
use crate::{read, record_length, write, Board, Refusal};
use std::fmt::Debug;
use std::slice;

/// The record of a text.
#[derive(Clone, Debug, PartialEq)]
pub struct Packed {
    /// Its bytes.
    pub record: Vec<u8>,
    /// Those of the text, and what the record leaves out of it.
    pub warnings: Vec<Warning>,
}

/// The record of a board's text, without its terminals and its lines across copper. It is read back, and what it says is compared with the text.
///
/// # Errors
///
/// Those of [`parse_whole`], and the first line with a link, which no record has.
pub fn pack(text: &str) -> Result<Vec<u8>, Unclear> {
    Ok(pack_whole(&parse_whole(text)?)?.record)
}

/// The record of what a text says, as [`pack`] makes it.
///
/// # Errors
///
/// The first line with a link, and those of [`pack_board`].
pub fn pack_whole(whole: &Whole) -> Result<Packed, Unclear> {
    whole.judge_links_for_record()?;
    let lines = &whole.lines;
    let parts = [
        (&lines.terminals, "a record has no terminals"),
        (&lines.across, "a record has no lines across copper"),
    ];
    let left_out = parts.into_iter().filter_map(|(lines, words)| {
        Some(Warning {
            line: *lines.first()?,
            words: words.to_string(),
        })
    });
    Ok(Packed {
        record: pack_board(&whole.board, &whole.lines)?,
        warnings: (whole.warnings.iter().cloned().chain(left_out))
            .chain(sheets::left_out(&whole.lines))
            .collect(),
    })
}

/// The record of a board that was read with its lines.
///
/// # Errors
///
/// The first line with what the record would say otherwise. Of a board that was read from a text there is none.
pub fn pack_board(board: &Board, lines: &Lines) -> Result<Vec<u8>, Unclear> {
    let refused = |why: Refusal| Unclear {
        line: None,
        words: why.to_string(),
    };
    let mut record = vec![0; record_length(board)];
    let length = write(board, &mut record).map_err(refused)?;
    record.truncate(length);
    let again = read(&record).map_err(refused)?;
    compare(board, &again, lines)?;
    Ok(record)
}

/// Whether a record read back says what the text does; the first line that it says otherwise.
fn compare(board: &Board, again: &Board, lines: &Lines) -> Result<(), Unclear> {
    let level = board.settings().max_level;
    same(&[level], &[again.max_level], row(&lines.level))?;
    same(&[board.cap], &[again.cap], row(&lines.cap))?;
    same(&[board.target], &[again.target], row(&lines.target))?;
    same(&board.layers, &again.layers, &lines.layers)?;
    same(&board.polygons, &again.polygons, &lines.polygons)?;
    let bits = |sheets: &[f64]| -> Vec<u64> { sheets.iter().map(|ohms| ohms.to_bits()).collect() };
    same(&bits(&board.sheets), &bits(&again.sheets), &lines.polygons)?;
    same(&board.points, &again.points, &lines.points)?;
    same(&board.splits, &again.splits, &lines.splits)
}

/// The line of a setting, if it has one, as a row.
fn row(line: &Option<usize>) -> &[usize] {
    line.as_ref().map_or(&[], slice::from_ref)
}

fn same<T: PartialEq + Debug>(own: &[T], again: &[T], lines: &[usize]) -> Result<(), Unclear> {
    let differ = |at: &usize| own.get(*at) != again.get(*at);
    match (0..own.len().max(again.len())).find(differ) {
        Some(at) => Err(Unclear {
            line: lines.get(at).copied(),
            words: format!("the record reads back as {:?}", again.get(at)),
        }),
        None => Ok(()),
    }
}

#[cfg(test)]
mod tests {
    use super::*;
    use crate::text::parse_with_lines;

    /// What a damaged record would say: every part is compared, and its line named.
    #[test]
    fn another_board_is_told_by_its_line() {
        let text = "level 2\ncap 8\ntarget 16\nlayer 1 8\npolygon 1 0 0.5\n0 0\n16 0\n16 16\n0 16\nsplit 0\n";
        let (board, lines) = parse_with_lines(text).expect("a board");
        assert_eq!(compare(&board, &board, &lines), Ok(()));
        type Damage = fn(&mut Board);
        let damages: [(usize, Damage); 9] = [
            (1, |b| b.max_level = 3),
            (2, |b| b.cap = 9),
            (3, |b| b.target = 17),
            (4, |b| b.layers[0][1] = 9),
            (5, |b| b.polygons[0][1] = 1),
            (5, |b| b.sheets[0] = 0.25),
            (8, |b| b.points[2][0] = 15),
            (10, |b| b.splits[0] = 1),
            (0, |b| b.splits.push(1)),
        ];
        for (line, damage) in damages {
            let mut again = board.clone();
            damage(&mut again);
            let why = compare(&board, &again, &lines).expect_err("another board");
            assert_eq!(why.line.unwrap_or(0), line, "{why}");
        }
    }
}
