//! Frames of records, and the numbers in them (`docs/JOURNAL.md`, "The file").

use std::ops::Range;

/// The bytes of a frame before its record.
const HEAD_BYTES: usize = 9;

/// The first byte of each frame.
const GATE: u8 = 2;

/// The byte before the record: that of the first frame of a batch, and that of those behind it.
const MARKS: [u8; 2] = [1, 2];

/// The place of that byte in the head.
const MARK_PLACE: usize = HEAD_BYTES - 1;

/// How many values a digit has.
const BASE: u64 = 254;

/// Checksums are kept modulo this, which is the base to the fourth.
const SUMS: u64 = BASE.pow(4);

/// A whole frame has another checksum than its record's.
#[derive(Clone, Copy, Debug, PartialEq, Eq)]
pub struct Damaged;

/// The number of these digits, the lowest first, none of which is 0 or 1. There are five at most.
pub fn number(digits: &[u8]) -> u64 {
    digits.iter().rev().fold(0, |number, digit| number * BASE + u64::from(digit - 2))
}

/// Where the record of the frame stands that begins there. None: there is no whole one, so the log ends.
pub fn record_at(log: &[u8], at: usize) -> Result<Option<Range<usize>>, Damaged> {
    let Some(head) = log.get(at..at + HEAD_BYTES).filter(|head| is_head(head)) else { return Ok(None) };
    let start = at + HEAD_BYTES;
    let end = start + number(&head[1..4]) as usize;
    match log.get(start..end).filter(|record| is_plain(record)) {
        None => Ok(None),
        Some(record) if u64::from(crc32fast::hash(record)) % SUMS == number(&head[4..MARK_PLACE]) => {
            Ok(Some(start..end))
        }
        Some(_) => Err(Damaged),
    }
}

fn is_head(head: &[u8]) -> bool {
    head[0] == GATE && MARKS.contains(&head[MARK_PLACE]) && is_plain(&head[..MARK_PLACE])
}

/// Whether no byte is 0 or 1.
fn is_plain(bytes: &[u8]) -> bool {
    memchr::memchr2(0, 1, bytes).is_none()
}
