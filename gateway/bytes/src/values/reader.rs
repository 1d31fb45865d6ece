//! The parts of values, from left to right (`docs/WIRE.md`, "Parts").

use crate::parts::VERSION;

use super::Fault;
use crate::characters::{is_of_xml, is_short_and_printable};
use crate::moment::Moment;

/// The longest text that the store takes as a body, in bytes of UTF-8.
pub const STORE_LIMIT_BYTES: usize = 262_144;

/// The latest moment.
const LATEST: Moment = 1 << 60;

const LONGEST_TIMEOUT_SECONDS: u32 = 43_200;

/// The most messages that a receive asks for.
const MOST_WANTED: u32 = 10;

const LONGEST_NAME_BYTES: usize = 80;

/// What isn't read yet of some bytes.
pub(super) struct ValueReader<'a>(&'a [u8]);

impl<'a> ValueReader<'a> {
    pub(super) fn of(bytes: &'a [u8]) -> ValueReader<'a> {
        ValueReader(bytes)
    }

    /// Of a whole, whose version is read.
    pub(super) fn of_whole(bytes: &'a [u8]) -> Result<ValueReader<'a>, Fault> {
        let mut reader = ValueReader(bytes);
        match reader.byte()? {
            VERSION => Ok(reader),
            _ => Err(Fault::OtherVersion),
        }
    }

    pub(super) fn rest(&self) -> &'a [u8] {
        self.0
    }

    pub(super) fn is_empty(&self) -> bool {
        self.0.is_empty()
    }

    /// Nothing is left.
    pub(super) fn end(self) -> Result<(), Fault> {
        self.is_empty().then_some(()).ok_or(Fault::BytesLeft)
    }

    fn take(&mut self, count: usize) -> Result<&'a [u8], Fault> {
        if count > self.0.len() {
            return Err(Fault::Truncated);
        }
        let (taken, rest) = self.0.split_at(count);
        self.0 = rest;
        Ok(taken)
    }

    fn array<const COUNT: usize>(&mut self) -> Result<[u8; COUNT], Fault> {
        let mut array = [0; COUNT];
        array.copy_from_slice(self.take(COUNT)?);
        Ok(array)
    }

    pub(super) fn byte(&mut self) -> Result<u8, Fault> {
        self.array().map(|[byte]| byte)
    }

    pub(super) fn number32(&mut self) -> Result<u32, Fault> {
        self.array().map(u32::from_le_bytes)
    }

    pub(super) fn number64(&mut self) -> Result<u64, Fault> {
        self.array().map(u64::from_le_bytes)
    }

    pub(super) fn flag(&mut self) -> Result<bool, Fault> {
        match self.byte()? {
            0 => Ok(false),
            1 => Ok(true),
            _ => Err(Fault::BadTag),
        }
    }

    pub(super) fn moment(&mut self) -> Result<Moment, Fault> {
        self.number64().and_then(|moment| at_most(moment, LATEST))
    }

    pub(super) fn timeout(&mut self) -> Result<u32, Fault> {
        self.number32().and_then(|timeout| at_most(timeout, LONGEST_TIMEOUT_SECONDS))
    }

    pub(super) fn size(&mut self) -> Result<u32, Fault> {
        match self.number32()? {
            size @ 1..=MOST_WANTED => Ok(size),
            _ => Err(Fault::BadNumber),
        }
    }

    pub(super) fn optional<T>(&mut self, read: impl FnOnce(&mut Self) -> Result<T, Fault>) -> Result<Option<T>, Fault> {
        if self.flag()? {
            read(self).map(Some)
        } else {
            Ok(None)
        }
    }

    fn text(&mut self, fits: impl FnOnce(&str) -> bool) -> Result<&'a str, Fault> {
        let length = self.number32()?;
        let bytes = self.take(usize::try_from(length).map_err(|_| Fault::Truncated)?)?;
        let text = std::str::from_utf8(bytes).map_err(|_| Fault::BadText)?;
        fits(text).then_some(text).ok_or(Fault::BadText)
    }

    pub(super) fn name(&mut self) -> Result<&'a str, Fault> {
        self.text(is_queue_name)
    }

    pub(super) fn id(&mut self) -> Result<&'a str, Fault> {
        self.text(is_short_and_printable)
    }

    pub(super) fn body(&mut self) -> Result<&'a str, Fault> {
        self.text(|text| (1..=STORE_LIMIT_BYTES).contains(&text.len()) && is_of_xml(text))
    }
}

fn at_most<T: PartialOrd>(number: T, most: T) -> Result<T, Fault> {
    (number <= most).then_some(number).ok_or(Fault::BadNumber)
}

/// Whether the store takes it as a queue's name.
fn is_queue_name(text: &str) -> bool {
    let is_good = |byte: u8| byte.is_ascii_alphanumeric() || byte == b'-' || byte == b'_';
    let stem = text.strip_suffix(".fifo").filter(|_| text.len() <= LONGEST_NAME_BYTES);
    stem.is_some_and(|stem| !stem.is_empty() && stem.bytes().all(is_good))
}
