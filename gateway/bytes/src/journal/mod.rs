//! Reads the file in which a server keeps its entries (`docs/JOURNAL.md`), also while it runs. Nothing is locked or written.
//!
//! A file has a root (`root`), which names regions. Each of these is a log of frames (`frames`), whose records are pieces, and
//! what a piece stands for is a chunk of a store or an entry (`pieces`).

mod frames;
mod pieces;
mod root;
#[cfg(test)]
mod tests;

use std::fs::File;
use std::io;
use std::ops::Range;
use std::os::unix::fs::FileExt;

use thiserror::Error;

use frames::record_at;
use pieces::{unstuffed, Form};
use root::Root;

/// How often a journal is read anew whose root has changed meanwhile.
const TRIES: u32 = 100;

/// The lengths that stand nowhere in a file, in bytes.
#[derive(Clone, Copy, Debug)]
pub struct Lengths {
    pub half: usize,
    pub region: usize,
}

/// Those of a server's file.
pub const SERVER: Lengths = Lengths { half: 524_288, region: 16_777_216 };

/// Why nothing more is read of a file.
#[derive(Debug, Error)]
pub enum JournalFileError {
    #[error(transparent)]
    Io(#[from] io::Error),
    #[error("it has no root that this build reads")]
    NotAJournal,
    #[error("it has the lines of a session")]
    OtherJournal,
    #[error("it is damaged at byte {0}")]
    Damaged(u64),
    #[error("its records were written anew while it was read: read a copy of it")]
    Changed,
}

/// What stands in a file, in its order.
#[derive(Clone, Debug, PartialEq, Eq)]
pub enum Kept {
    /// Of the store that stands for earlier entries.
    Chunk(Vec<u8>),
    /// Behind the last chunk.
    EndOfStore,
    Entry(Vec<u8>),
}

/// A file as it was at one moment. It has one of its regions in memory.
pub struct JournalFile {
    file: File,
    lengths: Lengths,
    root: Root,
    /// How many of the root's regions were begun.
    begun: usize,
    region: Region,
    /// What the first piece says of those behind it.
    form: Option<Form>,
}

/// The bytes of a region, and what isn't read of them yet.
#[derive(Default)]
struct Region {
    bytes: Vec<u8>,
    /// Where it begins in the file.
    start: u64,
    /// Where the frame begins that was begun, and where it ends.
    frame: Range<usize>,
    /// What isn't read of its record.
    record: Range<usize>,
}

impl JournalFile {
    /// Reads the root of a file that was opened, and its first region. Whatever is no journal of entries is refused.
    pub fn read(file: &File, lengths: Lengths) -> Result<JournalFile, JournalFileError> {
        for _ in 0..TRIES {
            match JournalFile::begin(file.try_clone()?, lengths) {
                Err(JournalFileError::Changed) => {}
                begun => return begun,
            }
        }
        Err(JournalFileError::Changed)
    }

    fn begin(file: File, lengths: Lengths) -> Result<JournalFile, JournalFileError> {
        let root = Root::read(&file, lengths)?;
        let mut begun = JournalFile { file, lengths, root, begun: 0, region: Region::default(), form: None };
        begun.next_region()?;
        begun.form = begun.next_piece()?.map(|piece| Form::of(&piece)).transpose()?;
        Ok(begun)
    }

    /// Whether chunks of a store come next, which stands for earlier entries.
    pub fn has_store(&self) -> bool {
        self.form == Some(Form::Store)
    }

    /// The next thing that stands there; none behind the last. What the file's server adds from its opening on may be left out.
    /// Where it puts its store in the place of all entries meanwhile, that is `Changed`.
    pub fn next_kept(&mut self) -> Result<Option<Kept>, JournalFileError> {
        let Some(piece) = self.next_piece()? else {
            // A store has an end.
            return if self.form == Some(Form::Store) { Err(self.damaged()) } else { Ok(None) };
        };
        if self.form == Some(Form::Store) && piece.is_empty() {
            self.form = Some(Form::Entries);
            return Ok(Some(Kept::EndOfStore));
        }
        let bytes = unstuffed(&piece).ok_or_else(|| self.damaged())?;
        Ok(Some(if self.form == Some(Form::Store) { Kept::Chunk(bytes) } else { Kept::Entry(bytes) }))
    }

    /// That what was told last, or what is next, is none: it says where the record begins that has it.
    pub fn damaged(&self) -> JournalFileError {
        JournalFileError::Damaged(self.region.place())
    }

    /// The next piece as it stands there, without its line feed.
    fn next_piece(&mut self) -> Result<Option<Vec<u8>>, JournalFileError> {
        loop {
            if let Some(piece) = self.region.next_piece()? {
                return Ok(Some(piece.to_vec()));
            }
            if !self.next_region()? {
                return Ok(None);
            }
        }
    }

    /// Reads the next region, and then the root again: where that names the same regions still, what was read is of this region.
    /// Tells whether there is one.
    fn next_region(&mut self) -> Result<bool, JournalFileError> {
        let Some(start) = self.root.places.get(self.begun).copied() else { return Ok(false) };
        let mut bytes = std::mem::take(&mut self.region.bytes);
        bytes.resize(self.lengths.region, 0);
        self.file.read_exact_at(&mut bytes, start)?;
        if !Root::read(&self.file, self.lengths)?.has_grown_from(&self.root) {
            return Err(JournalFileError::Changed);
        }
        self.region = Region { bytes, start, ..Region::default() };
        self.begun += 1;
        Ok(true)
    }
}

impl Region {
    /// Where the frame begins in the file that was begun.
    fn place(&self) -> u64 {
        self.start + self.frame.start as u64
    }

    /// The next piece of its records.
    fn next_piece(&mut self) -> Result<Option<&[u8]>, JournalFileError> {
        while self.record.is_empty() {
            self.frame.start = self.frame.end;
            let found =
                record_at(&self.bytes, self.frame.start).map_err(|_| JournalFileError::Damaged(self.place()))?;
            let Some(record) = found else { return Ok(None) };
            (self.frame.end, self.record) = (record.end, record);
        }
        let rest = &self.bytes[self.record.clone()];
        // No piece goes over two records.
        let length = memchr::memchr(b'\n', rest).ok_or(JournalFileError::Damaged(self.place()))?;
        self.record.start += length + 1;
        Ok(Some(&rest[..length]))
    }
}
