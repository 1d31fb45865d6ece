//! The root of a file, which says which regions count.

use std::collections::HashSet;
use std::fs::File;
use std::os::unix::fs::FileExt;

use super::frames::{number, record_at};
use super::{JournalFileError, Lengths};

/// How many digits a number and a place have.
const DIGITS: usize = 5;

/// Where the places begin, behind the number and the byte that says how the last region is written.
const PLACES: usize = DIGITS + 1;

/// A root that was read.
#[derive(Clone, Debug, PartialEq, Eq)]
pub struct Root {
    /// Each change gives it the next one. It is above 0.
    number: u64,
    /// Where the regions begin that count, in their order.
    pub places: Vec<u64>,
}

impl Root {
    /// Reads the one that counts. Where one half is damaged, both are read once more: one may have been read while it was changed.
    pub fn read(file: &File, lengths: Lengths) -> Result<Root, JournalFileError> {
        match Root::read_once(file, lengths) {
            Err(JournalFileError::Damaged(_)) => Root::read_once(file, lengths),
            read => read,
        }
    }

    fn read_once(file: &File, lengths: Lengths) -> Result<Root, JournalFileError> {
        let length = file.metadata()?.len();
        let half = lengths.half as u64;
        if length < 2 * half {
            return Err(JournalFileError::NotAJournal);
        }
        let (first, second) = (read_half(file, 0, lengths)?, read_half(file, half, lengths)?);
        let root = match (first, second) {
            (Some(first), Some(second)) if first.number == second.number => {
                return Err(JournalFileError::Damaged(0));
            }
            (Some(first), Some(second)) if first.number < second.number => second,
            (Some(first), _) => first,
            (None, Some(second)) => second,
            (None, None) => return Err(JournalFileError::NotAJournal),
        };
        root.test_places(length, lengths)?;
        Ok(root)
    }

    /// Refuses regions that no journal has: they lie in steps behind the root, within the file, and apart.
    fn test_places(&self, length: u64, lengths: Lengths) -> Result<(), JournalFileError> {
        let (front, region) = (2 * lengths.half as u64, lengths.region as u64);
        let is_good = |place: &u64| *place >= front && (place - front) % region == 0 && place + region <= length;
        let apart: HashSet<_> = self.places.iter().collect();
        let are_good = self.places.iter().all(is_good) && apart.len() == self.places.len();
        (are_good && !self.places.is_empty()).then_some(()).ok_or(JournalFileError::NotAJournal)
    }

    /// Whether it names all regions that the earlier one does, in their order, and each change between the two named one more: then what
    /// the earlier one names has stayed where it was. A change takes two numbers, and either root may be in the midst of one.
    pub fn has_grown_from(&self, earlier: &Root) -> bool {
        let changes = self.places.len().checked_sub(earlier.places.len()).map(|more| more as u64);
        let (Some(changes), Some(numbers)) = (changes, self.number.checked_sub(earlier.number)) else { return false };
        let fits = ((2 * changes).saturating_sub(1)..=2 * changes + 1).contains(&numbers);
        fits && self.places.starts_with(&earlier.places)
    }
}

/// The root of the half that begins there, if it has one.
fn read_half(file: &File, start: u64, lengths: Lengths) -> Result<Option<Root>, JournalFileError> {
    let mut half = vec![0; lengths.half];
    file.read_exact_at(&mut half, start)?;
    let damaged = || JournalFileError::Damaged(start);
    let Some(record) = record_at(&half, 0).map_err(|_| damaged())? else { return Ok(None) };
    let record = &half[record];
    if record.len() < PLACES || (record.len() - PLACES) % DIGITS != 0 {
        return Err(damaged());
    }
    let first = number(&record[..DIGITS]);
    Ok((first > 0).then(|| Root { number: first, places: record[PLACES..].chunks(DIGITS).map(number).collect() }))
}
