//! Looks at messages as they stand in a queue. A look receives nothing and changes nothing.

use std::fmt;
use std::str::FromStr;
use std::sync::Arc;

use hobbychair_bytes::moment::Moment;
use hobbychair_sqs::errors::SqsError;

use super::delayed::Place;
use super::message::Message;
use super::{Applied, State};
use crate::ask::{Ask, Outcome};

/// Where a look goes on: behind a message by its sequence number, or behind a delayed one of a standard queue, by when
/// that is due and its number in the queue where it stands.
#[derive(Clone, Copy, Debug, PartialEq, Eq)]
pub enum Cursor {
    Stored(u64),
    Delayed(Moment, u64),
}

impl Cursor {
    /// Ahead of all messages.
    pub const FIRST: Cursor = Cursor::Stored(0);
}

/// As operators are told it.
impl fmt::Display for Cursor {
    fn fmt(&self, formatter: &mut fmt::Formatter<'_>) -> fmt::Result {
        match self {
            Cursor::Stored(sequence) => write!(formatter, "stored-{sequence}"),
            Cursor::Delayed(due, added) => write!(formatter, "delayed-{due}-{added}"),
        }
    }
}

/// The cursor of a text that they were told; any other is `InvalidParameterValue`.
impl FromStr for Cursor {
    type Err = SqsError;

    fn from_str(text: &str) -> Result<Cursor, SqsError> {
        let parts: Vec<_> = text.split('-').collect();
        let cursor = match parts[..] {
            ["stored", sequence] => sequence.parse().ok().map(Cursor::Stored),
            ["delayed", due, added] => {
                due.parse().ok().zip(added.parse().ok()).map(|(due, added)| Cursor::Delayed(due, added))
            }
            _ => None,
        };
        cursor.ok_or_else(|| SqsError::InvalidParameterValue("NextToken is none that was given out.".into()))
    }
}

/// Why a receive can't be handed a message, or that it can, if nothing before the message is in its way.
#[derive(Clone, Copy, Debug, PartialEq, Eq)]
pub enum Visibility {
    Visible,
    InFlight,
    Delayed,
}

/// A message as it stands in its queue.
#[derive(Clone, Debug)]
pub struct Peeked {
    pub cursor: Cursor,
    pub visibility: Visibility,
    pub sequence: u64,
    /// The group by which the store has it.
    pub group: String,
    /// How often it was handed out to clients, and when for the first time.
    pub count: u64,
    pub first: Option<Moment>,
    pub envelope: Arc<str>,
}

/// A part of a queue's messages.
pub struct Chunk {
    /// In the order of their sends, and behind these delayed ones in the order in which they are due.
    pub peeked: Vec<Peeked>,
    /// Where to go on; nowhere where these were the last ones.
    pub next: Option<Cursor>,
}

impl State {
    /// Keeps what was sent, so that it can be looked at.
    pub(crate) fn keep_copy(&mut self, ask: &Ask, applied: &Applied) {
        let (Ask::Send { group, envelope, .. }, Outcome::Sent { sequence, .. }) = (ask, &applied.outcome) else {
            return;
        };
        let Some(message) = self.messages.get_mut(*sequence).filter(|message| message.group_id.is_none()) else {
            return;
        };
        let bytes = group.as_str().len() as u64 + envelope.bytes();
        (message.group_id, message.envelope) = (Some(group.as_str().into()), Some(envelope.text().into()));
        self.sizes.remove(message.bytes);
        message.bytes += bytes;
        self.sizes.add(message.bytes);
        self.envelope_bytes += bytes;
    }

    pub(crate) fn peek(&self, after: Cursor, most: usize, now: Moment) -> Chunk {
        match after {
            Cursor::Stored(sequence) => self.peek_at_stored(sequence, most, now),
            Cursor::Delayed(due, sequence) => self.peek_at_delayed((due, sequence), most, now),
        }
    }

    fn peek_at_stored(&self, after: u64, most: usize, now: Moment) -> Chunk {
        let found: Vec<_> = self.messages.from(after.saturating_add(1)).take(most).collect();
        let next = match found.last() {
            Some((sequence, _)) if found.len() == most => Cursor::Stored(*sequence),
            _ => Cursor::Delayed(0, 0),
        };
        let peeked = found.into_iter().filter_map(|(sequence, message)| self.stored(sequence, message, now)).collect();
        Chunk { peeked, next: Some(next) }
    }

    /// None where it isn't kept.
    fn stored(&self, sequence: u64, message: &Message, now: Moment) -> Option<Peeked> {
        let visibility = match () {
            () if message.until() > now => Visibility::InFlight,
            () if message.sent + self.delay > now => Visibility::Delayed,
            () => Visibility::Visible,
        };
        Some(Peeked {
            cursor: Cursor::Stored(sequence),
            visibility,
            sequence,
            group: message.group_id.as_deref()?.into(),
            count: message.ordinal,
            first: message.last.map(|last| last.first),
            envelope: message.envelope.clone()?,
        })
    }

    fn peek_at_delayed(&self, after: Place, most: usize, now: Moment) -> Chunk {
        let found: Vec<_> = self.due.behind(after).take(most).collect();
        let next = found.last().filter(|_| found.len() == most).map(|(due, sequence)| Cursor::Delayed(*due, *sequence));
        let peeked = found.into_iter().filter_map(|(due, sequence)| {
            Some(Peeked {
                cursor: Cursor::Delayed(due, sequence),
                visibility: if due <= now { Visibility::Visible } else { Visibility::Delayed },
                sequence,
                group: String::new(),
                count: 0,
                first: None,
                envelope: self.messages.get(sequence)?.envelope.clone()?,
            })
        });
        Chunk { peeked: peeked.collect(), next }
    }
}
