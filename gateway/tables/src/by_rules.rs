//! A store by the rules of `docs/QUEUES.md`, and its bytes, for tests.

use std::collections::{BTreeMap, BTreeSet};
use std::sync::Arc;

use hobbychair_bytes::moment::Moment;
use hobbychair_bytes::values::written::{append, chunk};
use hobbychair_bytes::values::{Delivery, KeptHandings, Part, QueuePart, Receipt, StoreAsk, StoreReply};

use crate::store_name::StoreName;

const WINDOW_MILLISECONDS: u64 = 300_000;

/// A store that keeps to the rules.
#[derive(Clone, Default)]
pub struct StoreByRules {
    entries: u64,
    last: Moment,
    names: BTreeMap<StoreName, NameByRules>,
}

#[derive(Clone, Default)]
struct NameByRules {
    creations: u64,
    removed: Option<Moment>,
    queue: Option<LivingQueue>,
}

#[derive(Clone, Default)]
struct LivingQueue {
    incarnation: u64,
    timeout: u32,
    sent: u64,
    uses: u64,
    last: Moment,
    messages: BTreeMap<u64, MessageByRules>,
    accepted: Vec<(String, Moment, u64)>,
}

#[derive(Clone)]
struct MessageByRules {
    group: String,
    body: Arc<str>,
    handings: u64,
    handed: Moment,
    until: Moment,
}

impl StoreByRules {
    /// The names whose queues live.
    pub fn there(&self) -> BTreeSet<StoreName> {
        self.names.iter().filter(|(_, name)| name.queue.is_some()).map(|(name, _)| *name).collect()
    }

    /// The reply to an ask of this moment, by the bytes of it.
    pub fn reply(&mut self, written: &[u8], now: Moment) -> StoreReply {
        let (queue, ask) = StoreAsk::<&str>::read_whole(written).unwrap();
        (self.entries, self.last) = (self.entries + 1, now);
        let name = self.names.entry(StoreName::parse(queue).unwrap()).or_default();
        match (ask, &mut name.queue) {
            (StoreAsk::Create { timeout, .. }, _) => name.create(timeout, now),
            (_, None) => StoreReply::Refused(1),
            (StoreAsk::Remove, _) => {
                (name.queue, name.removed) = (None, Some(now));
                StoreReply::Removed
            }
            (ask, Some(queue)) => queue.reply(ask, now),
        }
    }

    /// Its bytes, so many parts in a chunk.
    pub fn bytes(&self, parts: usize, largest_number: u64) -> Vec<Vec<u8>> {
        let (mut chunks, mut written) = (vec![chunk()], 0);
        let mut write = |part: &Part<'_>| {
            if written == parts {
                chunks.push(chunk());
                written = 0;
            }
            append(chunks.last_mut().unwrap(), part);
            written += 1;
        };
        write(&Part::Start { entries: self.entries, last: self.last });
        write(&Part::Client { client: 1, number: largest_number, handed: KeptHandings::default() });
        // In which order names stand isn't said.
        let mut names: Vec<_> = self.names.iter().collect();
        if self.entries % 2 == 0 {
            names.reverse();
        }
        names.into_iter().for_each(|(store, name)| name.write(&store.to_string(), &mut write));
        write(&Part::End);
        chunks
    }
}

impl NameByRules {
    fn create(&mut self, timeout: u32, now: Moment) -> StoreReply {
        match &self.queue {
            Some(queue) if queue.timeout == timeout => StoreReply::Created(queue.incarnation),
            Some(_) => StoreReply::Refused(2),
            None if self.removed.is_some_and(|removed| now < removed + 60_000) => StoreReply::Refused(3),
            None => {
                self.creations += 1;
                let incarnation = self.creations;
                self.queue = Some(LivingQueue { incarnation, timeout, ..LivingQueue::default() });
                StoreReply::Created(incarnation)
            }
        }
    }

    fn write(&self, text: &str, write: &mut impl FnMut(&Part<'_>)) {
        let queue = self.queue.as_ref().map(|queue| {
            let LivingQueue { incarnation, timeout, sent, uses, last, .. } = *queue;
            QueuePart { incarnation, timeout, makes_ids: false, sent, uses, last }
        });
        let (creations, removed) = (self.creations, self.removed);
        write(&Part::Name { name: text, creations, removed, queue });
        let Some(queue) = &self.queue else { return };
        for (sequence, message) in &queue.messages {
            let MessageByRules { group, body, handings, handed, until } = message;
            let (handings, handed, until) = (*handings, *handed, *until);
            write(&Part::Message { sequence: *sequence, group, body, handings, handed, until });
        }
        for (id, moment, sequence) in &queue.accepted {
            write(&Part::Accepted { id, moment: *moment, sequence: *sequence });
        }
    }
}

impl LivingQueue {
    fn reply(&mut self, ask: StoreAsk<&str>, now: Moment) -> StoreReply {
        match ask {
            StoreAsk::Send { group, dedup, body } => self.send(group, dedup.unwrap(), body, now),
            StoreAsk::Receive { size, timeout } => self.receive(size as usize, timeout, now),
            StoreAsk::Delete { receipt } => self.delete(receipt, now),
            StoreAsk::Change { receipt, timeout } => self.change(receipt, timeout, now),
            StoreAsk::Create { .. } | StoreAsk::Remove => unreachable!("its name replies to it"),
        }
    }

    fn send(&mut self, group: &str, id: &str, body: &str, now: Moment) -> StoreReply {
        (self.uses, self.last) = (self.uses + 1, now);
        self.accepted.retain(|(_, moment, _)| now < moment + WINDOW_MILLISECONDS);
        if let Some((_, _, first)) = self.accepted.iter().find(|(own, ..)| own == id) {
            return StoreReply::Sent(*first);
        }
        self.sent += 1;
        let message = MessageByRules { group: group.into(), body: body.into(), handings: 0, handed: 0, until: 0 };
        self.messages.insert(self.sent, message);
        self.accepted.push((id.into(), now, self.sent));
        StoreReply::Sent(self.sent)
    }

    /// The messages of open groups, in the order in which they are handed out.
    fn in_order(&self, now: Moment) -> Vec<u64> {
        let mut groups: BTreeMap<&str, Vec<u64>> = BTreeMap::new();
        self.messages.iter().for_each(|(sequence, one)| groups.entry(&one.group).or_default().push(*sequence));
        let is_open = |own: &Vec<u64>| own.iter().all(|sequence| self.messages[sequence].until <= now);
        let mut open: Vec<_> = groups.into_values().filter(is_open).collect();
        open.sort_unstable();
        open.concat()
    }

    fn receive(&mut self, size: usize, timeout: Option<u32>, now: Moment) -> StoreReply {
        (self.uses, self.last) = (self.uses + 1, now);
        let until = now + 1000 * u64::from(timeout.unwrap_or(self.timeout));
        let next: Vec<_> = self.in_order(now).into_iter().take(size).collect();
        let hand = |sequence| {
            let message = self.messages.get_mut(&sequence).unwrap();
            (message.handings, message.handed, message.until) = (message.handings + 1, now, until);
            let receipt = Receipt { incarnation: self.incarnation, sequence, ordinal: message.handings };
            Delivery { receipt, group: message.group.clone(), body: message.body.clone() }
        };
        StoreReply::Received(next.into_iter().map(hand).collect())
    }

    fn delete(&mut self, receipt: Receipt, now: Moment) -> StoreReply {
        let Receipt { incarnation, sequence, ordinal } = receipt;
        if incarnation != self.incarnation {
            return StoreReply::Refused(4);
        }
        let is_deleted = match self.messages.get(&sequence) {
            None if sequence <= self.sent => false,
            Some(message) if ordinal <= message.handings => ordinal == message.handings,
            _ => return StoreReply::Refused(4),
        };
        if is_deleted {
            self.messages.remove(&sequence);
            self.last = now;
        }
        StoreReply::Deleted(is_deleted)
    }

    fn change(&mut self, receipt: Receipt, visibility: u32, now: Moment) -> StoreReply {
        let (Receipt { incarnation, sequence, ordinal }, until) = (receipt, now + 1000 * u64::from(visibility));
        if incarnation != self.incarnation {
            return StoreReply::Refused(4);
        }
        match self.messages.get_mut(&sequence) {
            None if sequence <= self.sent => StoreReply::Refused(5),
            Some(message) if ordinal != message.handings || ordinal == 0 => StoreReply::Refused(4),
            Some(message) if message.until <= now => StoreReply::Refused(5),
            Some(message) if until > message.handed + 43_200_000 => StoreReply::Refused(6),
            Some(message) => {
                (message.until, self.last) = (until, now);
                StoreReply::Changed
            }
            None => StoreReply::Refused(4),
        }
    }
}
