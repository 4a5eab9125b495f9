//! What stands in a file: a board's text, or its record.

use super::fields::why_refused;
use super::{parse_whole, Unclear, Whole};
use crate::limits::MEANS_DEFAULT;
use crate::{read, Board};

/// The only version of a record that there is.
const VERSION: u8 = 1;

/// Where a record has its level.
const LEVEL: usize = 5;

/// Whether the bytes are a record, of this version or another one: its first byte is none that a text begins with.
pub fn is_record(bytes: &[u8]) -> bool {
    let is_version = |&byte: &u8| byte < b' ' && !char::from(byte).is_whitespace();
    bytes.first().is_some_and(is_version)
}

/// All that the text in a file says.
///
/// # Errors
///
/// Those of [`parse_whole`]; a record; the first line that isn't UTF-8.
pub fn parse_bytes(bytes: &[u8]) -> Result<Whole, Unclear> {
    parse_whole(text_of(bytes)?)
}

/// The text in a file.
///
/// # Errors
///
/// A record; the first line that isn't UTF-8.
pub fn text_of(bytes: &[u8]) -> Result<&str, Unclear> {
    if is_record(bytes) {
        return Err(Unclear {
            line: None,
            words: "this is a record already, not a board's text".to_string(),
        });
    }
    std::str::from_utf8(bytes).map_err(|why| {
        let before = &bytes[..why.valid_up_to()];
        let newlines = before.iter().filter(|&&byte| byte == b'\n').count();
        Unclear {
            line: Some(newlines + 1),
            words: "this isn't UTF-8".to_string(),
        }
    })
}

/// The board of the record in a file: what [`read`] answers, with words for what is none. Where the record asks for the
/// default level so does the board, and is packed to the same bytes again.
///
/// # Errors
///
/// A text; another version; what [`read`] refuses.
pub fn read_record(bytes: &[u8]) -> Result<Board, Unclear> {
    judge_version(bytes)
        .and_then(|()| read(bytes).map_err(|why| why_refused(bytes, why)))
        .map(|board| match bytes.get(LEVEL).copied().map(u64::from) {
            Some(MEANS_DEFAULT) => Board {
                max_level: MEANS_DEFAULT,
                ..board
            },
            _ => board,
        })
        .map_err(|words| Unclear { line: None, words })
}

/// No bytes at all are left to [`read`].
fn judge_version(bytes: &[u8]) -> Result<(), String> {
    match bytes.first() {
        Some(_) if !is_record(bytes) => Err("this is a board's text, not a record".to_string()),
        Some(&version) if version != VERSION => Err(format!(
            "a record of version {version}; this reader takes version {VERSION}"
        )),
        _ => Ok(()),
    }
}
