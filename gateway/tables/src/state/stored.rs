//! Takes up what the store has of a queue, as its bytes tell it.

use std::collections::HashMap;
use std::sync::atomic::{AtomicU64, Ordering};
use std::sync::Arc;

use hobbychair_bytes::moment::Moment;
use hobbychair_bytes::values::Receipt;
use hobbychair_sqs::envelope::message_id;
use hobbychair_sqs::handles::{Mark, Origin};
use hobbychair_sqs::texts::{AttemptId, CallKey, QueueKind};

use super::attempts::Attempt;
use super::delayed::First;
use super::message::{Handing, Message};
use super::recent::RecentSend;
use super::{State, WINDOW_MILLISECONDS};
use crate::ask::Handed;
use crate::book::AttemptEntry;
use crate::stored::{AcceptedSend, Named, StoredMessage, StoredQueue};
#[cfg(test)]
use crate::tasks::MoveTask;

impl State {
    /// Takes up the messages that the store has, whose last entry is of the moment `last`, and counts each in `far`. Tells what they
    /// name.
    pub(crate) fn take_up(
        &mut self,
        stored: StoredQueue,
        (last, far): (Moment, &AtomicU64),
        keeps_copies: bool,
    ) -> Named {
        self.incarnation = stored.incarnation;
        self.last_sequence = stored.sent;
        let (mut named, mut texts) = (Named::default(), HashMap::new());
        self.messages.expect(stored.messages.len());
        for mut message in stored.messages {
            let text = if keeps_copies { message.text.clone() } else { message.text.take() };
            texts.extend(text.map(|text| (message.sequence, text)));
            let (part, origin) = self.take_up_message(message);
            named.parts.extend(part);
            named.origins.extend(origin);
            far.fetch_add(1, Ordering::Relaxed);
        }
        self.groups = self.groups_of_delayed();
        for attempt in stored.attempts {
            self.take_up_attempt(&attempt, &texts);
        }
        for (id, receipts) in stored.untold {
            if let Some(attempt) = self.untold_attempt(id, receipts) {
                self.take_up_attempt(&attempt, &texts);
            }
        }
        self.take_up_sends(&stored.accepted);
        if self.kind == QueueKind::Standard && self.entry.store.main().is_none() {
            self.calls.take_up(calls_of(&stored.accepted, last, First::Stored));
        }
        named
    }

    /// Takes up a message. Tells its parts, and what it is the copy of.
    fn take_up_message(&mut self, stored: StoredMessage) -> (Option<u64>, Option<Origin>) {
        let StoredMessage { sequence, group, head, handings, handed, until, text, bytes } = stored;
        let head = head.into_head();
        let source = head.source.map(Arc::new);
        let bytes = bytes + head.bytes.unwrap_or(0);
        let mut message = Message::new(head.sent, group, source, bytes).in_parts(head.parts);
        message.ordinal = handings;
        // Of the handings the store has the last one alone.
        message.last = (handings > 0).then_some(Handing { moment: handed, first: handed, touched: false });
        if let Some((group_id, envelope)) = text {
            message.bytes += (group_id.len() + envelope.len()) as u64;
            (message.group_id, message.envelope) = (Some(group_id), Some(envelope));
        }
        self.envelope_bytes += message.bytes;
        self.sizes.add(message.bytes);
        self.messages.add(sequence, message);
        if until > 0 {
            self.messages.hide(sequence, until);
        }
        if let Some(due) = head.due {
            self.due.add(sequence, due);
        }
        (head.parts, head.of)
    }

    /// Takes up what an attempt was given, if that is all in flight by these handings, and nobody has changed it since.
    fn take_up_attempt(&mut self, entry: &AttemptEntry, texts: &HashMap<u64, (Box<str>, Arc<str>)>) {
        let handed_by = |(sequence, ordinal): &(u64, u64)| {
            let message = self.messages.get(*sequence)?;
            let is_held = message.ordinal == *ordinal && message.until() == entry.until;
            let (last, (group, envelope)) = (message.last.filter(|_| is_held)?, texts.get(sequence)?);
            let receipt = self.receipt(*sequence, *ordinal);
            let (moment, first, group) = (last.moment, last.first, group.to_string());
            Some(Handed { receipt, moment, first, group, envelope: envelope.clone() })
        };
        let handed: Option<Vec<_>> = entry.handed.iter().map(handed_by).collect();
        if let Some(handed) = handed {
            let (moment, until) = (entry.moment, entry.until);
            let bytes = self.bytes_of_copies(&handed);
            self.attempts.insert(&entry.id, Attempt { moment, until, handed, bytes });
        }
    }

    /// What an attempt was given by a request that handed out these messages, if they are all in flight since then. What wasn't
    /// for the client isn't among them: it comes back by itself.
    fn untold_attempt(&self, id: AttemptId, receipts: Vec<Receipt>) -> Option<AttemptEntry> {
        let (moment, until) = receipts.iter().find_map(|receipt| {
            let message = self.messages.get(receipt.sequence)?;
            Some((message.last?.moment, message.until()))
        })?;
        let handed = receipts.into_iter().map(|Receipt { sequence, ordinal, .. }| (sequence, ordinal));
        let handed = handed.filter(|(sequence, ordinal)| self.is_for_client(*sequence, *ordinal, moment)).collect();
        Some(AttemptEntry { mark: self.entry.mark, id, moment, until, handed })
    }

    /// Whether a message that was handed out so often by then is for clients. A jump of the clock may make it younger.
    fn is_for_client(&self, sequence: u64, ordinal: u64, moment: Moment) -> bool {
        let Some(message) = self.messages.get(sequence) else { return true };
        let is_dead = self.redrive().is_some_and(|policy| ordinal > u64::from(policy.most));
        let is_old = message.sent + self.entry.attributes.retention() <= moment;
        let is_early = message.sent + self.delay > moment;
        !(is_dead || is_old || is_early)
    }

    /// Takes up the sends whose ids may count: the last ones.
    fn take_up_sends(&mut self, sends: &[AcceptedSend]) {
        self.last_send = sends.last().map_or(0, |last| last.moment);
        for send in sends.iter().rev() {
            if send.sequence + 1 != self.first_recent() {
                break;
            }
            let fingerprint = if self.kind == QueueKind::Fifo { send.fingerprint } else { 0 };
            self.recent.push_front(RecentSend { moment: send.moment, fingerprint });
        }
        let recent_left = self.messages.count_from(self.first_recent());
        self.left_ids = (self.recent.len() as u64).saturating_sub(recent_left);
    }

    /// Takes up which calls have sent messages to the queue beside this one, of this mark.
    pub(crate) fn take_up_delayed_calls(&mut self, delays: Mark, sends: &[AcceptedSend], last: Moment) {
        self.calls.take_up(calls_of(sends, last, |sequence| First::Delayed(message_id(delays, sequence))));
        self.last_send = sends.last().map_or(0, |send| send.moment).max(self.last_send);
    }
}

#[cfg(test)]
impl State {
    /// What attempts were given, as far as the bytes tell it, and how many bytes that takes.
    pub fn attempts_told(&self) -> (u64, Vec<String>) {
        let of_handed = |handed: &Handed| (handed.receipt, handed.moment, handed.envelope.clone());
        let told = self.attempts.all().map(|(id, attempt)| {
            let handed: Vec<_> = attempt.handed.iter().map(of_handed).collect();
            format!("{id:?} {} {} {} {handed:?}", attempt.moment, attempt.until, attempt.bytes)
        });
        (self.attempts.bytes(), told.collect())
    }

    /// What the tables have that the store's bytes tell, too, at this moment.
    pub fn told_by_bytes(&mut self, now: Moment) -> String {
        self.look_at_ages(now);
        let groups_needed = self.groups_needed;
        let messages: Vec<_> = self.messages.from(0).map(|(sequence, message)| told_of(sequence, message)).collect();
        let next = self.next_up_to(u64::MAX, usize::MAX, now);
        (self.groups, self.groups_needed) = (self.groups_of_delayed(), groups_needed);
        // How many messages a task has moved is told as of its last entry.
        let tasks: Vec<_> = self.tasks.iter().map(|task| MoveTask { moved: 0, ..task.clone() }).collect();
        let said_in: std::collections::BTreeMap<_, _> = self.tasks_said_in.iter().collect();
        // No book says anything of the queue beside another.
        let entry = self.entry.store.main().is_none().then_some(&self.entry);
        let of_entries = (self.said_in, self.entry_size, said_in);
        let sends = (self.last_sequence, &self.recent, self.left_ids, self.calls.told());
        let incarnation = self.incarnation;
        format!(
            "{entry:?} {incarnation} {of_entries:?} {tasks:?} {sends:?} {:?} {next:?} {messages:?}",
            self.due.told()
        )
    }
}

/// Of several handings the bytes tell the last one alone.
#[cfg(test)]
fn told_of(sequence: u64, message: &Message) -> String {
    let Message { sent, group, ordinal, last, bytes, source, parts, .. } = message;
    let handed = last.map(|last| (last.moment, (*ordinal == 1).then_some(last.first)));
    let rest = (bytes, source, parts, &message.envelope, &message.group_id);
    format!("{sequence}: {sent} {group:?} {ordinal} {handed:?} {} {rest:?}", message.until())
}

/// The calls among these sends that count at the moment `last`.
fn calls_of(
    sends: &[AcceptedSend],
    last: Moment,
    first: impl Fn(u64) -> First,
) -> impl Iterator<Item = (Moment, CallKey, First)> + '_ {
    let counting = sends.iter().filter(move |send| send.moment + WINDOW_MILLISECONDS > last);
    let calls: Vec<_> = counting.filter_map(|send| Some((send.moment, send.call?, first(send.sequence)))).collect();
    calls.into_iter()
}
