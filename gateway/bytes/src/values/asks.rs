//! What is asked of a store: asks, requests, entries and queries.

use std::fmt::Display;
use std::io::Write;

use crate::parts::Parts;

use super::reader::ValueReader;
use super::{Fault, Receipt};
use crate::moment::Moment;

/// What is asked of a queue. Timeouts are in seconds.
#[derive(Clone, Debug, PartialEq, Eq)]
pub enum StoreAsk<T = String> {
    Create { timeout: u32, makes_ids: bool },
    Remove,
    Send { group: T, dedup: Option<T>, body: T },
    Receive { size: u32, timeout: Option<u32> },
    Delete { receipt: Receipt },
    Change { receipt: Receipt, timeout: u32 },
}

/// Their bytes. There are so many.
const CREATE: u8 = 0;
const REMOVE: u8 = 1;
const SEND: u8 = 2;
const RECEIVE: u8 = 3;
const DELETE: u8 = 4;
const CHANGE: u8 = 5;
const KINDS: u8 = 6;

/// No ask of a queue that the gateway named has more bytes beside its texts.
const MOST_BYTES_BESIDE_TEXTS: usize = 64;

impl<T: AsRef<str>> StoreAsk<T> {
    /// The bytes of this ask of the queue of that name.
    pub fn written(&self, queue: impl Display) -> Vec<u8> {
        let mut out = Vec::with_capacity(MOST_BYTES_BESIDE_TEXTS + self.length_of_texts());
        out.push(self.kind());
        append_name(&mut out, queue);
        match self {
            StoreAsk::Create { timeout, makes_ids } => {
                out.number32(*timeout);
                out.flag(*makes_ids);
            }
            StoreAsk::Remove => {}
            StoreAsk::Send { group, dedup, body } => {
                out.run(group.as_ref().as_bytes());
                out.flag(dedup.is_some());
                dedup.iter().for_each(|dedup| out.run(dedup.as_ref().as_bytes()));
                out.run(body.as_ref().as_bytes());
            }
            StoreAsk::Receive { size, timeout } => {
                out.number32(*size);
                out.flag(timeout.is_some());
                timeout.iter().for_each(|timeout| out.number32(*timeout));
            }
            StoreAsk::Delete { receipt } => receipt.append(&mut out),
            StoreAsk::Change { receipt, timeout } => {
                receipt.append(&mut out);
                out.number32(*timeout);
            }
        }
        out
    }

    fn kind(&self) -> u8 {
        match self {
            StoreAsk::Create { .. } => CREATE,
            StoreAsk::Remove => REMOVE,
            StoreAsk::Send { .. } => SEND,
            StoreAsk::Receive { .. } => RECEIVE,
            StoreAsk::Delete { .. } => DELETE,
            StoreAsk::Change { .. } => CHANGE,
        }
    }

    fn length_of_texts(&self) -> usize {
        let StoreAsk::Send { group, dedup, body } = self else { return 0 };
        let texts = [Some(group), dedup.as_ref(), Some(body)];
        texts.into_iter().flatten().map(|text| text.as_ref().len()).sum()
    }
}

impl<'a, T: From<&'a str>> StoreAsk<T> {
    /// An ask, and the name of its queue.
    pub(super) fn read(from: &mut ValueReader<'a>) -> Result<(T, StoreAsk<T>), Fault> {
        let kind = from.byte()?;
        if kind >= KINDS {
            return Err(Fault::BadTag);
        }
        let queue = from.name()?.into();
        let ask = match kind {
            CREATE => StoreAsk::Create { timeout: from.timeout()?, makes_ids: from.flag()? },
            REMOVE => StoreAsk::Remove,
            SEND => StoreAsk::Send {
                group: from.id()?.into(),
                dedup: from.optional(ValueReader::id)?.map(T::from),
                body: from.body()?.into(),
            },
            RECEIVE => StoreAsk::Receive { size: from.size()?, timeout: from.optional(ValueReader::timeout)? },
            DELETE => StoreAsk::Delete { receipt: Receipt::read(from)? },
            _ => StoreAsk::Change { receipt: Receipt::read(from)?, timeout: from.timeout()? },
        };
        Ok((queue, ask))
    }
}

#[cfg(any(test, feature = "testing"))]
impl<'a, T: From<&'a str>> StoreAsk<T> {
    /// An ask that was written by itself, and the name of its queue.
    pub fn read_whole(bytes: &'a [u8]) -> Result<(T, StoreAsk<T>), Fault> {
        let mut from = ValueReader::of(bytes);
        let read = StoreAsk::read(&mut from)?;
        from.end()?;
        Ok(read)
    }
}

fn append_name(out: &mut Vec<u8>, name: impl Display) {
    let start = out.len();
    out.number32(0);
    write!(out, "{name}").expect("a vector takes whatever is written");
    let length = (out.len() - start - 4) as u32;
    out[start..start + 4].copy_from_slice(&length.to_le_bytes());
}

/// What a request is known by: it begins with this.
#[derive(Clone, Copy, Debug, PartialEq, Eq)]
pub struct RequestName {
    pub client: u32,
    pub number: u64,
}

impl RequestName {
    /// That of a request as it is written; nothing where that is too short to be one.
    pub fn of(request: &[u8]) -> Option<RequestName> {
        RequestName::read(&mut ValueReader::of(request)).ok()
    }

    fn read(from: &mut ValueReader<'_>) -> Result<RequestName, Fault> {
        Ok(RequestName { client: from.number32()?, number: from.number64()? })
    }
}

/// A request of a client.
#[derive(Clone, Debug, PartialEq, Eq)]
pub struct StoreRequest<T = String> {
    pub client: u32,
    pub number: u64,
    /// The name of a queue in the store.
    pub queue: T,
    pub ask: StoreAsk<T>,
}

impl<'a, T: From<&'a str>> StoreRequest<T> {
    fn read(from: &mut ValueReader<'a>) -> Result<StoreRequest<T>, Fault> {
        let RequestName { client, number } = RequestName::read(from)?;
        let (queue, ask) = StoreAsk::read(from)?;
        Ok(StoreRequest { client, number, queue, ask })
    }
}

/// Appends a request, by the bytes of its ask.
pub fn append_request(out: &mut Vec<u8>, client: u32, number: u64, ask: &[u8]) {
    out.number32(client);
    out.number64(number);
    out.extend_from_slice(ask);
}

/// Appends a query for the counts of a queue.
pub fn append_query(out: &mut Vec<u8>, client: u32, tag: u64, queue: impl Display) {
    out.number32(client);
    out.number64(tag);
    append_name(out, queue);
}

/// A request as a server took it, and as it is written.
#[derive(Clone, Debug, PartialEq, Eq)]
pub struct StoreEntry<'a, T = String> {
    pub moment: Moment,
    pub request: StoreRequest<T>,
    pub written: &'a [u8],
}

impl<'a, T: From<&'a str>> StoreEntry<'a, T> {
    /// Reads a whole.
    pub fn read(bytes: &'a [u8]) -> Result<StoreEntry<'a, T>, Fault> {
        let mut from = ValueReader::of_whole(bytes)?;
        let moment = from.moment()?;
        let written = from.rest();
        let request = StoreRequest::read(&mut from)?;
        from.end()?;
        Ok(StoreEntry { moment, request, written })
    }
}
