//! What pieces stand for (`docs/JOURNAL.md`, "The journal of a server").

use super::JournalFileError;

/// What the first piece says of those behind it.
#[derive(Clone, Copy, Debug, PartialEq, Eq)]
pub enum Form {
    Entries,
    /// Chunks up to an empty piece, and then entries.
    Store,
}

/// With this the first piece begins.
const MARK: u8 = 2;

impl Form {
    /// What this first piece says. Lines have none such.
    pub fn of(piece: &[u8]) -> Result<Form, JournalFileError> {
        match piece {
            [MARK, b'E'] => Ok(Form::Entries),
            [MARK, b'S'] => Ok(Form::Store),
            _ => Err(JournalFileError::OtherJournal),
        }
    }
}

/// What says that the byte behind it stands for something else.
const ESCAPE: u8 = 3;

/// The byte behind it that stands for a line feed.
const LINE_FEED: u8 = 2;

/// The byte behind it that stands for a 1.
const ONE: u8 = 4;

/// By so much the byte that stands for zeros is above their number.
const ZEROS_ABOVE: u8 = 10;

/// The bytes for which a piece stands; none where it stands for none.
pub fn unstuffed(piece: &[u8]) -> Option<Vec<u8>> {
    let mut bytes = Vec::with_capacity(piece.len());
    let mut rest = piece;
    while let Some(place) = memchr::memchr(ESCAPE, rest) {
        bytes.extend_from_slice(&rest[..place]);
        match rest.get(place + 1).copied()? {
            ESCAPE => bytes.push(ESCAPE),
            LINE_FEED => bytes.push(b'\n'),
            ONE => bytes.push(1),
            zeros if zeros > ZEROS_ABOVE => bytes.resize(bytes.len() + usize::from(zeros - ZEROS_ABOVE), 0),
            _ => return None,
        }
        rest = &rest[place + 2..];
    }
    bytes.extend_from_slice(rest);
    Some(bytes)
}
