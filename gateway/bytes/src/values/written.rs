//! Writes what stores answer, and stores, as bytes, for tests.

use crate::messages::ANSWER;
use crate::parts::{Parts, VERSION};

use super::replies::{CHANGED, COUNTS, CREATED, DELETED, RECEIVED, REFUSED, REMOVED, SENT};
use super::{Delivery, KeptHandings, Part, Receipt, StoreAnswer, StoreReply};

impl<R> StoreReply<R> {
    /// Appends its bytes, by what writes the messages in it.
    fn append_by(&self, out: &mut Vec<u8>, received: impl FnOnce(&mut Vec<u8>, &R)) {
        out.push(self.kind());
        match self {
            StoreReply::Created(number) | StoreReply::Sent(number) => out.number64(*number),
            StoreReply::Removed | StoreReply::Changed => {}
            StoreReply::Received(given) => received(out, given),
            StoreReply::Deleted(removed) => out.flag(*removed),
            StoreReply::Counts { visible, in_flight } => {
                [*visible, *in_flight].into_iter().for_each(|count| out.number64(count));
            }
            StoreReply::Refused(refusal) => out.number32(*refusal),
        }
    }

    fn kind(&self) -> u8 {
        match self {
            StoreReply::Created(_) => CREATED,
            StoreReply::Removed => REMOVED,
            StoreReply::Sent(_) => SENT,
            StoreReply::Received(_) => RECEIVED,
            StoreReply::Deleted(_) => DELETED,
            StoreReply::Changed => CHANGED,
            StoreReply::Counts { .. } => COUNTS,
            StoreReply::Refused(_) => REFUSED,
        }
    }
}

fn append_deliveries(out: &mut Vec<u8>, deliveries: &[Delivery]) {
    out.number64(deliveries.len() as u64);
    for Delivery { receipt, group, body } in deliveries {
        receipt.append(out);
        [group.as_str(), body].into_iter().for_each(|text| out.run(text.as_bytes()));
    }
}

impl StoreAnswer {
    /// The bytes of this message.
    pub fn written(&self) -> Vec<u8> {
        let mut out = vec![VERSION, ANSWER];
        out.number32(self.client);
        out.number64(self.number);
        out.flag(self.is_of_query);
        out.number64(self.length);
        self.reply.append_by(&mut out, |out, deliveries| append_deliveries(out, deliveries));
        out
    }
}

impl KeptHandings<'_> {
    /// The kept reply that hands this out, or one that hands nothing out.
    fn append(self, out: &mut Vec<u8>) {
        let reply = if self.0.is_empty() { StoreReply::Changed } else { StoreReply::Received(self) };
        reply.append_by(out, |out, handed| {
            out.number64(handed.receipts().len() as u64);
            out.extend(handed.0);
        });
    }

    /// What handed out these messages, of one body that no other reply mentions.
    pub fn written<'b>(receipts: &[Receipt], bytes: &'b mut Vec<u8>) -> KeptHandings<'b> {
        for (place, receipt) in receipts.iter().enumerate() {
            receipt.append(bytes);
            bytes.run(b"g");
            if place == 0 {
                bytes.push(0);
                bytes.run(b"body");
            } else {
                bytes.push(1);
                bytes.number64(0);
            }
        }
        KeptHandings(bytes)
    }
}

/// A chunk that has nothing yet.
pub fn chunk() -> Vec<u8> {
    vec![VERSION]
}

/// The bytes of a part. A client has the shortest reply, or one that hands out what it says.
pub fn append(out: &mut Vec<u8>, part: &Part<'_>) {
    match part {
        Part::Start { entries, last } => {
            out.push(0);
            [*entries, *last].into_iter().for_each(|one| out.number64(one));
        }
        Part::Client { client, number, handed } => {
            out.push(1);
            out.number32(*client);
            out.number64(*number);
            handed.append(out);
        }
        Part::Name { name, creations, removed, queue } => {
            out.push(2);
            out.run(name.as_bytes());
            out.number64(*creations);
            out.flag(removed.is_some());
            removed.iter().for_each(|moment| out.number64(*moment));
            out.flag(queue.is_some());
            if let Some(queue) = queue {
                out.number64(queue.incarnation);
                out.number32(queue.timeout);
                out.flag(queue.makes_ids);
                [queue.sent, queue.uses, queue.last].into_iter().for_each(|one| out.number64(one));
            }
        }
        Part::Message { sequence, group, body, handings, handed, until } => {
            out.push(3);
            out.number64(*sequence);
            [group, body].into_iter().for_each(|one| out.run(one.as_bytes()));
            [*handings, *handed, *until].into_iter().for_each(|one| out.number64(one));
        }
        Part::Accepted { id, moment, sequence } => {
            out.push(4);
            out.run(id.as_bytes());
            [*moment, *sequence].into_iter().for_each(|one| out.number64(one));
        }
        Part::End => out.push(5),
    }
}
