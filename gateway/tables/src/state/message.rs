//! The messages of a queue as the tables have them, and which of them are in flight.
//!
//! What is counted or looked for is kept in order as it changes, so that nothing walks over all of a queue.

use std::collections::HashMap;
use std::sync::Arc;

use hobbychair_bytes::moment::Moment;
use hobbychair_sqs::texts::QueueName;

use super::numbers::Numbers;
use crate::groups::{Group, Groups};

/// A message that isn't deleted.
#[derive(Debug)]
pub(super) struct Message {
    pub(super) sent: Moment,
    pub(super) group: Group,
    /// How often the store has handed it out.
    pub(super) ordinal: u64,
    /// The last handing.
    pub(super) last: Option<Handing>,
    /// It is hidden until then.
    until: Moment,
    /// Its envelope, where operators look at messages.
    pub(super) envelope: Option<Arc<str>>,
    /// The id of its group, where operators look at messages.
    pub(super) group_id: Option<Box<str>>,
    /// What its envelope takes, here and in the store.
    pub(super) bytes: u64,
    /// Of a dead letter: the queue from which it was moved here.
    pub(super) source: Option<Arc<QueueName>>,
    /// The number of the queue that has the parts of its envelope, where it is too long for the store.
    pub(super) parts: Option<u64>,
}

impl Message {
    /// A message that nobody was handed yet.
    pub(super) fn new(sent: Moment, group: Group, source: Option<Arc<QueueName>>, bytes: u64) -> Message {
        Message {
            sent,
            group,
            ordinal: 0,
            last: None,
            until: VISIBLE,
            envelope: None,
            group_id: None,
            bytes,
            source,
            parts: None,
        }
    }

    pub(super) fn in_parts(self, parts: Option<u64>) -> Message {
        Message { parts, ..self }
    }

    pub(super) fn until(&self) -> Moment {
        self.until
    }
}

/// The last handing of a message.
#[derive(Clone, Copy, Debug)]
pub(super) struct Handing {
    pub(super) moment: Moment,
    pub(super) first: Moment,
    /// A client has changed the timeout since.
    pub(super) touched: bool,
}

/// Messages with this end of a timeout are visible.
const VISIBLE: Moment = 0;

/// The messages of a queue that aren't deleted, by their sequence numbers.
#[derive(Debug, Default)]
pub(super) struct Messages {
    by_sequence: HashMap<u64, Message>,
    order: Numbers<()>,
    /// By the ends of timeouts that weren't found to be over. All others are [`VISIBLE`].
    by_end: Numbers<Moment>,
    /// How many have such an end.
    hidden: usize,
    /// All messages up to this one were found to be due.
    due: u64,
    /// How many visible ones are behind it.
    visible_behind: u64,
}

impl Messages {
    pub(super) fn len(&self) -> usize {
        self.by_sequence.len()
    }

    pub(super) fn has(&self, sequence: u64) -> bool {
        self.by_sequence.contains_key(&sequence)
    }

    pub(super) fn get(&self, sequence: u64) -> Option<&Message> {
        self.by_sequence.get(&sequence)
    }

    pub(super) fn get_mut(&mut self, sequence: u64) -> Option<&mut Message> {
        self.by_sequence.get_mut(&sequence)
    }

    pub(super) fn take_parts(&mut self) -> Vec<u64> {
        self.by_sequence.values_mut().filter_map(|message| message.parts.take()).collect()
    }

    /// So many more will be added.
    pub(super) fn expect(&mut self, count: usize) {
        self.by_sequence.reserve(count);
    }

    /// How many have this number or a larger one.
    pub(super) fn count_from(&self, sequence: u64) -> u64 {
        self.order.count_from((), sequence)
    }

    /// Their groups.
    pub(super) fn groups(&self) -> Groups {
        let mut groups = Groups::default();
        for (sequence, message) in self.from(0) {
            groups.add(message.group, sequence, message.until);
        }
        groups
    }

    pub(super) fn first(&self) -> Option<&Message> {
        let ((), sequence) = self.order.first()?;
        self.get(sequence)
    }

    /// Messages from this number on, in order.
    pub(super) fn from(&self, sequence: u64) -> impl Iterator<Item = (u64, &Message)> {
        self.order.from((), sequence).filter_map(|((), sequence)| Some((sequence, self.get(sequence)?)))
    }

    /// Adds a message that isn't hidden.
    pub(super) fn add(&mut self, sequence: u64, message: Message) {
        self.by_sequence.insert(sequence, message);
        self.order.insert((), sequence);
        self.put_in(sequence, VISIBLE);
    }

    pub(super) fn remove(&mut self, sequence: u64) -> Option<Message> {
        let message = self.by_sequence.remove(&sequence)?;
        self.order.remove((), sequence);
        self.take_out(sequence, message.until);
        Some(message)
    }

    /// Hides a message until then, and tells until when it was hidden before.
    pub(super) fn hide(&mut self, sequence: u64, until: Moment) -> Option<Moment> {
        let message = self.by_sequence.get_mut(&sequence)?;
        let before = std::mem::replace(&mut message.until, until);
        self.take_out(sequence, before);
        self.put_in(sequence, until);
        Some(before)
    }

    /// Puts a message that is hidden until then into the order of ends.
    fn put_in(&mut self, sequence: u64, until: Moment) {
        self.by_end.insert(until, sequence);
        if until == VISIBLE {
            self.visible_behind += u64::from(sequence > self.due);
        } else {
            self.hidden += 1;
        }
    }

    /// Takes a message that was hidden until then out of the order of ends.
    fn take_out(&mut self, sequence: u64, until: Moment) {
        if until != VISIBLE && self.by_end.remove(until, sequence) {
            self.hidden -= 1;
        } else if self.by_end.remove(VISIBLE, sequence) {
            self.visible_behind -= u64::from(sequence > self.due);
        }
    }

    /// Takes up which timeouts are over by now. Each is found once.
    fn look(&mut self, now: Moment) {
        while let Some(end) = self.by_end.first_key_from(VISIBLE + 1).filter(|end| *end <= now) {
            let shown = self.by_end.move_first(end, VISIBLE);
            self.hidden -= shown.count();
            self.visible_behind += shown.count_above(self.due);
        }
    }

    /// How many messages are in flight.
    pub(super) fn count_in_flight(&mut self, now: Moment) -> usize {
        self.look(now);
        self.hidden
    }

    /// Those whose timeout wasn't found to be over.
    pub(super) fn in_flight(&self) -> impl Iterator<Item = (u64, &Message)> {
        self.by_end.from(VISIBLE + 1, 0).filter_map(|(_, sequence)| Some((sequence, self.get(sequence)?)))
    }

    /// The first end of a timeout that is still to come.
    pub(super) fn next_end(&mut self, now: Moment) -> Option<Moment> {
        self.look(now);
        self.by_end.first_key_from(VISIBLE + 1)
    }

    /// Those that aren't in flight, in order.
    pub(super) fn visible(&mut self, now: Moment) -> impl Iterator<Item = (u64, &Message)> {
        self.look(now);
        let visible = self.by_end.from(VISIBLE, 0).take_while(|(end, _)| *end == VISIBLE);
        visible.filter_map(|(_, sequence)| Some((sequence, self.get(sequence)?)))
    }

    /// None counts as due any more.
    pub(super) fn forget_due(&mut self) {
        self.due = 0;
        self.visible_behind = (self.len() - self.hidden) as u64;
    }

    /// Finds those that are due, which are the first ones, and tells the first one that isn't. Each is found once.
    pub(super) fn look_for_due(&mut self, is_due: impl Fn(&Message) -> bool) -> Option<&Message> {
        for ((), sequence) in self.order.from((), self.due + 1) {
            let message = self.by_sequence.get(&sequence)?;
            if !is_due(message) {
                return Some(message);
            }
            self.due = sequence;
            self.visible_behind -= u64::from(self.by_end.has(VISIBLE, sequence));
        }
        None
    }

    /// How many messages are neither found to be due nor in flight.
    pub(super) fn count_not_due(&mut self, now: Moment) -> u64 {
        self.look(now);
        self.visible_behind
    }
}
