//! A queue of a store, as the rules have it behind the requests that came to this incarnation of it (`docs/QUEUES.md`).

use std::collections::{BTreeMap, BTreeSet, HashMap, VecDeque};
use std::rc::Rc;
use std::sync::Arc;

use hobbychair_bytes::values::{Delivery, QueuePart, Receipt, StoreReply};
use hobbychair_sqs::texts::DedupId;

use crate::history::stored::{BAD_RECEIPT, BEYOND_LIMIT, NOT_IN_FLIGHT, NO_ID};

/// A send with the id of an earlier one adds nothing for so long, in milliseconds.
const REMEMBERED_MILLISECONDS: u64 = 300_000;

/// From its last handing on a message is hidden for at most so long, in milliseconds.
const LONGEST_HIDDEN_MILLISECONDS: u64 = 43_200_000;

/// A queue that lives.
pub struct StoreQueue {
    pub incarnation: u64,
    timeout: u32,
    makes_ids: bool,
    /// How many sends were accepted.
    sent: u64,
    /// Those that aren't deleted, by their sequence numbers.
    messages: HashMap<u64, StoreMessage>,
    groups: HashMap<Rc<str>, Group>,
    /// Groups of which nothing was in flight when they were looked at last, by their oldest message.
    open: BTreeMap<u64, Rc<str>>,
    /// The others, by the moment at which they are open again.
    closed: BTreeSet<(u64, Rc<str>)>,
    /// When an id was accepted, and for which message.
    accepted: HashMap<Rc<str>, (u64, u64)>,
    /// These ids in the order in which they were accepted.
    ids: VecDeque<Rc<str>>,
}

struct StoreMessage {
    group: Rc<str>,
    body: Arc<str>,
    /// How often it was handed out, when last, and until when it is hidden.
    handings: u64,
    handed: u64,
    until: u64,
}

/// What a message has that is loaded, beside its group.
pub struct Loaded<'a> {
    pub body: &'a str,
    pub handings: u64,
    pub handed: u64,
    pub until: u64,
}

/// The messages of a group that aren't deleted, in order. Those that were handed out come first.
#[derive(Default)]
struct Group {
    messages: VecDeque<u64>,
    /// Under which it stands among the open ones or the closed ones.
    oldest: u64,
    until: u64,
}

impl StoreQueue {
    pub fn new(incarnation: u64, timeout: u32, makes_ids: bool) -> StoreQueue {
        StoreQueue {
            incarnation,
            timeout,
            makes_ids,
            sent: 0,
            messages: HashMap::new(),
            groups: HashMap::new(),
            open: BTreeMap::new(),
            closed: BTreeSet::new(),
            accepted: HashMap::new(),
            ids: VecDeque::new(),
        }
    }

    /// One that is loaded: its messages and accepted sends follow.
    pub fn of(part: &QueuePart) -> StoreQueue {
        StoreQueue { sent: part.sent, ..StoreQueue::new(part.incarnation, part.timeout, part.makes_ids) }
    }

    /// Takes up a message behind those that it has, at this moment.
    pub fn load(&mut self, sequence: u64, group: &str, message: Loaded<'_>, now: u64) {
        let Loaded { body, handings, handed, until } = message;
        self.add(sequence, group, |group| StoreMessage { group, body: body.into(), handings, handed, until }, now);
    }

    /// Remembers the id of a send that was accepted at this moment.
    pub fn accept(&mut self, id: Rc<str>, at: u64, sequence: u64) {
        self.accepted.insert(id.clone(), (at, sequence));
        self.ids.push_back(id);
    }

    fn add(&mut self, sequence: u64, group: &str, message: impl FnOnce(Rc<str>) -> StoreMessage, now: u64) {
        let group: Rc<str> = self.groups.get_key_value(group).map_or_else(|| group.into(), |(known, _)| known.clone());
        self.groups.entry(group.clone()).or_default().messages.push_back(sequence);
        self.messages.insert(sequence, message(group.clone()));
        self.place(&group, now);
    }

    pub fn has(&self, timeout: u32, makes_ids: bool) -> bool {
        (self.timeout, self.makes_ids) == (timeout, makes_ids)
    }

    pub fn send(&mut self, group: &str, dedup: Option<&str>, body: &str, now: u64) -> StoreReply {
        let id: Rc<str> = match dedup {
            Some(dedup) => dedup.into(),
            None if self.makes_ids => DedupId::of_body(body).as_str().into(),
            None => return StoreReply::Refused(NO_ID),
        };
        self.forget_ids(now);
        if let Some((_, first)) = self.accepted.get(&id) {
            return StoreReply::Sent(*first);
        }
        self.sent += 1;
        self.accept(id, now, self.sent);
        let message = |group| StoreMessage { group, body: body.into(), handings: 0, handed: 0, until: 0 };
        self.add(self.sent, group, message, now);
        StoreReply::Sent(self.sent)
    }

    fn forget_ids(&mut self, now: u64) {
        while let Some(id) = self.ids.front() {
            if self.accepted.get(id).is_some_and(|(at, _)| now.saturating_sub(*at) < REMEMBERED_MILLISECONDS) {
                return;
            }
            self.accepted.remove(id);
            self.ids.pop_front();
        }
    }

    pub fn receive(&mut self, size: u32, timeout: Option<u32>, now: u64) -> StoreReply {
        self.open_groups(now);
        let until = after(now, timeout.unwrap_or(self.timeout));
        let in_order = self.open.values().flat_map(|group| self.groups[group].messages.iter().copied());
        let next: Vec<u64> = in_order.take(size as usize).collect();
        let mut handed = Vec::new();
        for sequence in next {
            let Some(message) = self.messages.get_mut(&sequence) else { continue };
            message.handings += 1;
            (message.handed, message.until) = (now, until);
            let receipt = Receipt { incarnation: self.incarnation, sequence, ordinal: message.handings };
            let group = message.group.clone();
            handed.push(Delivery { receipt, group: group.to_string(), body: message.body.clone() });
            self.place(&group, now);
        }
        StoreReply::Received(handed)
    }

    /// Groups whose last message in flight has become visible again are open.
    fn open_groups(&mut self, now: u64) {
        while let Some((until, group)) = self.closed.first().cloned() {
            if until > now {
                return;
            }
            self.place(&group, now);
        }
    }

    pub fn delete(&mut self, receipt: Receipt, now: u64) -> StoreReply {
        if !self.knows(receipt) {
            return StoreReply::Refused(BAD_RECEIPT);
        }
        match self.messages.get(&receipt.sequence) {
            None => StoreReply::Deleted(false),
            Some(message) if receipt.ordinal > message.handings => StoreReply::Refused(BAD_RECEIPT),
            Some(message) if receipt.ordinal < message.handings => StoreReply::Deleted(false),
            Some(message) => {
                let group = message.group.clone();
                self.messages.remove(&receipt.sequence);
                if let Some(found) = self.groups.get_mut(&group) {
                    let place = found.messages.binary_search(&receipt.sequence);
                    place.ok().and_then(|place| found.messages.remove(place));
                }
                self.place(&group, now);
                StoreReply::Deleted(true)
            }
        }
    }

    pub fn change(&mut self, receipt: Receipt, timeout: u32, now: u64) -> StoreReply {
        if !self.knows(receipt) {
            return StoreReply::Refused(BAD_RECEIPT);
        }
        let until = after(now, timeout);
        let Some(message) = self.messages.get_mut(&receipt.sequence) else {
            return StoreReply::Refused(NOT_IN_FLIGHT);
        };
        if receipt.ordinal != message.handings {
            return StoreReply::Refused(BAD_RECEIPT);
        }
        if now >= message.until {
            return StoreReply::Refused(NOT_IN_FLIGHT);
        }
        if until > message.handed.saturating_add(LONGEST_HIDDEN_MILLISECONDS) {
            return StoreReply::Refused(BEYOND_LIMIT);
        }
        message.until = until;
        let group = message.group.clone();
        self.place(&group, now);
        StoreReply::Changed
    }

    /// Whether it is of this incarnation and of a message that was sent.
    fn knows(&self, receipt: Receipt) -> bool {
        receipt.incarnation == self.incarnation && receipt.sequence <= self.sent
    }

    /// Puts a group where it belongs now.
    fn place(&mut self, name: &Rc<str>, now: u64) {
        let Some(group) = self.groups.get_mut(name) else { return };
        self.open.remove(&group.oldest);
        self.closed.remove(&(group.until, name.clone()));
        let Some(oldest) = group.messages.front().copied() else {
            self.groups.remove(name);
            return;
        };
        let messages = group.messages.iter().filter_map(|sequence| self.messages.get(sequence));
        let until = messages.take_while(|message| message.handings > 0).map(|message| message.until).max();
        (group.oldest, group.until) = (oldest, until.unwrap_or(0));
        if group.until > now {
            self.closed.insert((group.until, name.clone()));
        } else {
            self.open.insert(oldest, name.clone());
        }
    }
}

/// The moment so many seconds later.
fn after(now: u64, seconds: u32) -> u64 {
    now.saturating_add(1000 * u64::from(seconds))
}
