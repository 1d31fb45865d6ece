//! Which messages the store hands out next. Whoever asks for some of them alone knows it before.

use std::sync::Arc;

use hobbychair_bytes::moment::Moment;
use hobbychair_sqs::texts::{QueueKind, QueueName};

use super::message::Message;
use super::State;
use crate::groups::Groups;
use crate::jumps::Jumps;

/// So long groups are kept that nobody needs, in milliseconds.
const KEPT_MILLISECONDS: u64 = 60_000;

impl State {
    /// The messages that the store would hand out next at `now`, in its order, up to the first one that isn't wanted, and
    /// at most so many.
    fn next_while(&mut self, most: usize, now: Moment, is_wanted: impl Fn(u64, &Message) -> bool) -> Vec<u64> {
        if self.kind == QueueKind::Standard {
            // In the store each message is a group by itself.
            let wanted = self.messages.visible(now).take_while(|(sequence, message)| is_wanted(*sequence, message));
            return wanted.take(most).map(|(sequence, _)| sequence).collect();
        }
        self.groups_needed = now;
        let messages = &self.messages;
        let groups = self.groups.get_or_insert_with(|| messages.groups());
        let is_wanted = |sequence: &u64| messages.get(*sequence).is_some_and(|message| is_wanted(*sequence, message));
        groups.next(now).take_while(is_wanted).take(most).collect()
    }

    /// The next messages that are due, where all are delayed.
    pub fn next_due(&mut self, most: usize, now: Moment) -> Vec<u64> {
        let Some(horizon) = now.checked_sub(self.delay) else { return Vec::new() };
        self.next_while(most, now, |_, message| message.sent <= horizon)
    }

    /// The next messages that are older than the queue keeps messages.
    pub fn next_old(&mut self, most: usize, jumps: &Jumps, now: Moment) -> Vec<u64> {
        let Some(horizon) = self.horizon(jumps, now) else { return Vec::new() };
        self.next_while(most, now, |_, message| message.sent <= horizon)
    }

    /// The next messages up to this number.
    pub fn next_up_to(&mut self, last: u64, most: usize, now: Moment) -> Vec<u64> {
        self.next_while(most, now, |sequence, _| sequence <= last)
    }

    /// How many of the next messages are among these.
    pub fn count_next_among(&mut self, these: &[u64], now: Moment) -> usize {
        self.next_while(these.len(), now, |sequence, _| these.contains(&sequence)).len()
    }

    /// The queue from which a dead letter came, if it was moved here.
    pub fn source_of(&self, sequence: u64) -> Option<Arc<QueueName>> {
        self.messages.get(sequence)?.source.clone()
    }

    /// Forgets the groups, if nobody needed them for a while.
    pub fn forget_groups(&mut self, now: Moment) {
        if self.delay == 0 && self.groups_needed + KEPT_MILLISECONDS <= now {
            self.groups = None;
        }
    }

    /// The groups of what is there, where all messages are delayed.
    pub(super) fn groups_of_delayed(&self) -> Option<Groups> {
        (self.delay > 0).then(|| self.messages.groups())
    }
}
