//! Delays: which messages are due.

use hobbychair_bytes::moment::Moment;
use hobbychair_bytes::values::Receipt;
use hobbychair_sqs::texts::DedupId;
use uuid::Uuid;

use super::delayed::First;
use super::message::Message;
use super::State;
use crate::ask::Outcome;

impl State {
    pub(super) fn set_delay(&mut self, delay: u64) {
        if delay == self.delay {
            return;
        }
        self.delay = delay;
        self.messages.forget_due();
        self.groups = self.groups_of_delayed();
        // What was delayed may be due now.
        self.open();
    }

    /// Whether all messages of the queue are delayed, as in a FIFO queue.
    pub fn has_delay(&self) -> bool {
        self.delay > 0
    }

    /// The first message that isn't due, of a queue that delays all. Messages are due in their order.
    fn first_delayed(&mut self, now: Moment) -> Option<&Message> {
        let delay = self.delay;
        if delay == 0 {
            return None;
        }
        self.messages.look_for_due(|message| message.sent + delay <= now)
    }

    /// The first messages that are due and have no copy yet, in the order in which they are due, at most so many. Of a
    /// queue beside a standard one.
    pub fn due(&self, now: Moment, most: usize) -> Vec<u64> {
        self.due.due(now, most)
    }

    /// The last receipts of those of these messages that are hidden.
    pub fn receipts_of_hidden(&self, these: &[u64], now: Moment) -> Vec<Receipt> {
        let is_hidden = |sequence: &u64| self.messages.get(*sequence).is_some_and(|message| message.until() > now);
        these.iter().filter(|sequence| is_hidden(sequence)).filter_map(|one| self.last_receipt_of(*one)).collect()
    }

    /// A message has a copy in the queue beside this one.
    pub fn has_copy(&mut self, sequence: u64) {
        self.due.remove(sequence);
    }

    /// A due message couldn't be moved. It is tried again at `next`, or not any more: then this is true.
    pub fn refused_due(&mut self, sequence: u64, next: Moment) -> bool {
        self.due.refused(sequence, next)
    }

    /// How many delayed messages can't be moved, so that they aren't tried before the next start.
    pub fn count_set_aside(&self) -> u64 {
        self.due.count_set_aside() as u64
    }

    /// How many delayed messages there are, and how many of these are due.
    pub fn count_due(&self, now: Moment) -> [u64; 2] {
        self.due.count(now).map(|count| count as u64)
    }

    /// When somebody has to look for messages that are due, if nobody does by then.
    pub fn next_alarm(&mut self) -> Option<Moment> {
        self.due.next_alarm()
    }

    /// An alarm has come.
    pub fn forget_alarm(&mut self) {
        self.due.forget_alarm();
    }

    /// This call has sent a message with a delay.
    pub fn remember_delayed(&mut self, call: &DedupId, id: Uuid, moment: Moment) {
        self.calls.remember(call, First::Delayed(id), moment);
    }

    /// What this call has sent in the last five minutes, with a delay or without.
    pub fn sent_by(&self, call: &DedupId, now: Moment) -> Option<Outcome> {
        Some(match self.calls.find(call, now)? {
            First::Delayed(id) => Outcome::Sent { sequence: 0, id: Some(id) },
            First::Stored(sequence) => Outcome::Sent { sequence, id: None },
        })
    }

    /// How many messages of the store are neither due nor in flight.
    pub fn count_delayed(&mut self, now: Moment) -> u64 {
        match self.first_delayed(now) {
            Some(_) => self.messages.count_not_due(now),
            None => 0,
        }
    }

    /// When the next message is due, if one is delayed.
    pub fn next_due_moment(&mut self, now: Moment) -> Option<Moment> {
        let sent = self.first_delayed(now)?.sent;
        Some(sent + self.delay)
    }
}
