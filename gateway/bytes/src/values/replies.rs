//! What a store answers.

use std::sync::Arc;

use super::reader::ValueReader;
use super::{Fault, Receipt};
use crate::messages::ANSWER;

/// A reply of a store. `R`: what stands for the messages that a receive was handed.
#[derive(Clone, Debug, PartialEq, Eq)]
pub enum StoreReply<R = Vec<Delivery>> {
    /// The number of the incarnation.
    Created(u64),
    Removed,
    /// The message's sequence number.
    Sent(u64),
    Received(R),
    /// Whether anything was deleted.
    Deleted(bool),
    Changed,
    Counts {
        visible: u64,
        in_flight: u64,
    },
    Refused(u32),
}

/// A message as a store hands it out. Its body has memory of its own, which all share to whom it goes: it outlives the frame
/// in which it came, and that one may be far longer.
#[derive(Clone, Debug, PartialEq, Eq)]
pub struct Delivery {
    pub receipt: Receipt,
    pub group: String,
    pub body: Arc<str>,
}

/// Their bytes.
pub(super) const CREATED: u8 = 0;
pub(super) const REMOVED: u8 = 1;
pub(super) const SENT: u8 = 2;
pub(super) const RECEIVED: u8 = 3;
pub(super) const DELETED: u8 = 4;
pub(super) const CHANGED: u8 = 5;
pub(super) const COUNTS: u8 = 6;
pub(super) const REFUSED: u8 = 7;

const MOST_REFUSALS: u32 = 8;

impl<R> StoreReply<R> {
    /// Reads a reply, by what reads the messages in it.
    pub(super) fn read_by<'a>(
        from: &mut ValueReader<'a>,
        received: impl FnOnce(&mut ValueReader<'a>) -> Result<R, Fault>,
    ) -> Result<StoreReply<R>, Fault> {
        Ok(match from.byte()? {
            CREATED => StoreReply::Created(from.number64()?),
            REMOVED => StoreReply::Removed,
            SENT => StoreReply::Sent(from.number64()?),
            RECEIVED => StoreReply::Received(received(from)?),
            DELETED => StoreReply::Deleted(from.flag()?),
            CHANGED => StoreReply::Changed,
            COUNTS => StoreReply::Counts { visible: from.number64()?, in_flight: from.number64()? },
            REFUSED => StoreReply::Refused(refusal(from)?),
            _ => return Err(Fault::BadTag),
        })
    }
}

fn refusal(from: &mut ValueReader<'_>) -> Result<u32, Fault> {
    match from.number32()? {
        refusal @ 1..=MOST_REFUSALS => Ok(refusal),
        _ => Err(Fault::BadNumber),
    }
}

impl Delivery {
    fn read(from: &mut ValueReader<'_>) -> Result<Delivery, Fault> {
        Ok(Delivery { receipt: Receipt::read(from)?, group: from.id()?.into(), body: from.body()?.into() })
    }
}

/// The count in front of them isn't believed: each is read from bytes that are there.
fn deliveries(from: &mut ValueReader<'_>) -> Result<Vec<Delivery>, Fault> {
    let count = from.number64()?;
    let mut deliveries = Vec::new();
    for _ in 0..count {
        deliveries.push(Delivery::read(from)?);
    }
    Ok(deliveries)
}

/// An answer to a request or a query.
#[derive(Clone, Debug, PartialEq, Eq)]
pub struct StoreAnswer {
    pub client: u32,
    /// Of the request, or the tag of the query.
    pub number: u64,
    pub is_of_query: bool,
    /// The place of the request's entry, or how many entries the server had.
    pub length: u64,
    pub reply: StoreReply,
}

impl StoreAnswer {
    /// Reads a message that is an answer, as its server put it.
    pub fn read(message: &[u8]) -> Result<StoreAnswer, Fault> {
        let mut from = ValueReader::of_whole(message)?;
        if from.byte()? != ANSWER {
            return Err(Fault::BadTag);
        }
        let (client, number) = (from.number32()?, from.number64()?);
        let (is_of_query, length) = (from.flag()?, from.number64()?);
        let reply = StoreReply::read_by(&mut from, deliveries)?;
        from.end()?;
        Ok(StoreAnswer { client, number, is_of_query, length, reply })
    }
}
