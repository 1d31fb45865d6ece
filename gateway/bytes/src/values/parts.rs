//! One part of a store after another.

use sha2::Sha256;

use super::reader::ValueReader;
use super::replies::StoreReply;
use super::{Fault, Receipt};
use crate::moment::Moment;

/// The most handings and uses.
const MOST_USES: u64 = 1 << 62;

/// A part of a store. Of kept replies what they handed out is told.
#[derive(Clone, Copy, Debug, PartialEq, Eq)]
pub enum Part<'a> {
    /// How many entries the store took, and the moment of the last, or 0.
    Start {
        entries: u64,
        last: Moment,
    },
    /// A client and its largest number.
    Client {
        client: u32,
        number: u64,
        handed: KeptHandings<'a>,
    },
    /// `removed` is the last removal.
    Name {
        name: &'a str,
        creations: u64,
        removed: Option<Moment>,
        queue: Option<QueuePart>,
    },
    /// `handed`: when last, or 0. `until`: up to when it is hidden, or 0.
    Message {
        sequence: u64,
        group: &'a str,
        body: &'a str,
        handings: u64,
        handed: Moment,
        until: Moment,
    },
    Accepted {
        id: &'a str,
        moment: Moment,
        sequence: u64,
    },
    End,
}

/// What the reply to a client's last request handed out, by the bytes in which it stands.
#[derive(Clone, Copy, Debug, Default, PartialEq, Eq)]
pub struct KeptHandings<'a>(pub(super) &'a [u8]);

impl KeptHandings<'_> {
    /// One for each message; none where the reply is of another kind.
    pub fn receipts(self) -> Vec<Receipt> {
        let mut bytes = ValueReader::of(self.0);
        let receipt = || kept_delivery(&mut bytes).ok().map(|(receipt, _)| receipt);
        std::iter::from_fn(receipt).collect()
    }
}

/// A queue that lives.
#[derive(Clone, Copy, Debug, PartialEq, Eq)]
pub struct QueuePart {
    pub incarnation: u64,
    pub timeout: u32,
    pub makes_ids: bool,
    /// How many sends were accepted.
    pub sent: u64,
    /// How many sends and receives came to it.
    pub uses: u64,
    /// The moment of the last send, receive or effective change, or 0.
    pub last: Moment,
}

/// What stands for a body that was mentioned.
pub(super) type Digest = [u8; 32];

/// How a kept delivery mentions its body.
pub(super) enum Mention {
    First(Digest),
    Again(u64),
}

/// The next part, and what its kept reply mentions.
pub(super) fn next_part<'a>(from: &mut ValueReader<'a>, mentions: &mut Vec<Mention>) -> Result<Part<'a>, Fault> {
    Ok(match from.byte()? {
        0 => Part::Start { entries: from.number64()?, last: from.moment()? },
        1 => Part::Client { client: from.number32()?, number: from.number64()?, handed: kept_reply(from, mentions)? },
        2 => Part::Name {
            name: from.name()?,
            creations: from.number64()?,
            removed: from.optional(ValueReader::moment)?,
            queue: from.optional(queue)?,
        },
        3 => message(from)?,
        4 => Part::Accepted { id: from.id()?, moment: from.moment()?, sequence: from.number64()? },
        5 => Part::End,
        _ => return Err(Fault::BadTag),
    })
}

fn queue(from: &mut ValueReader<'_>) -> Result<QueuePart, Fault> {
    let queue = QueuePart {
        incarnation: from.number64()?,
        timeout: from.timeout()?,
        makes_ids: from.flag()?,
        sent: from.number64()?,
        uses: from.number64()?,
        last: from.moment()?,
    };
    let is_good = queue.incarnation > 0 && queue.sent <= queue.uses && queue.uses <= MOST_USES;
    is_good.then_some(queue).ok_or(Fault::BadNumber)
}

fn message<'a>(from: &mut ValueReader<'a>) -> Result<Part<'a>, Fault> {
    let (sequence, group, body) = (from.number64()?, from.id()?, from.body()?);
    let (handings, handed, until) = (from.number64()?, from.moment()?, from.number64()?);
    if sequence == 0 || handings > MOST_USES {
        return Err(Fault::BadNumber);
    }
    Ok(Part::Message { sequence, group, body, handings, handed, until })
}

/// Passes over a kept reply, but for what it mentions and hands out.
fn kept_reply<'a>(from: &mut ValueReader<'a>, mentions: &mut Vec<Mention>) -> Result<KeptHandings<'a>, Fault> {
    Ok(match StoreReply::read_by(from, |from| kept_handings(from, mentions))? {
        StoreReply::Received(handed) => handed,
        _ => KeptHandings::default(),
    })
}

fn kept_handings<'a>(from: &mut ValueReader<'a>, mentions: &mut Vec<Mention>) -> Result<KeptHandings<'a>, Fault> {
    let count = from.number64()?;
    let bytes = from.rest();
    for _ in 0..count {
        mentions.push(kept_delivery(from)?.1);
    }
    Ok(KeptHandings(&bytes[..bytes.len() - from.rest().len()]))
}

/// A receipt, and the body that it mentions.
fn kept_delivery(from: &mut ValueReader<'_>) -> Result<(Receipt, Mention), Fault> {
    let receipt = Receipt::read(from)?;
    from.id()?;
    let mention = match from.byte()? {
        0 => Mention::First(digest(from.body()?)),
        1 => Mention::Again(from.number64()?),
        _ => return Err(Fault::BadTag),
    };
    Ok((receipt, mention))
}

fn digest(body: &str) -> Digest {
    <Sha256 as sha2::Digest>::digest(body.as_bytes()).into()
}
