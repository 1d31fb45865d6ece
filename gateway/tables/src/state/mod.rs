//! What is kept of one queue. It follows the answers of the store.

mod age;
mod attempts;
mod delay;
mod delayed;
mod message;
mod next;
mod numbers;
mod peek;
mod receipts;
mod recent;
mod said;
mod sizes;
mod stored;
#[cfg(test)]
mod tests;

use std::collections::{HashMap, VecDeque};
use std::sync::Arc;

use hobbychair_bytes::moment::Moment;
use hobbychair_bytes::values::{Delivery, Receipt, StoreReply};
use hobbychair_sqs::attributes::QueueAttributes;
use hobbychair_sqs::envelope::{has_parts, Envelope, EnvelopeHead};
use hobbychair_sqs::errors::SqsError;
use hobbychair_sqs::redrive::RedrivePolicy;
use hobbychair_sqs::texts::{AttemptId, GroupId, QueueKind};
use uuid::Uuid;

use crate::ask::{Ask, Cause, Changer, Fate, Handed, Outcome, Reach};
use crate::book::{AttemptEntry, AttemptRequest, Entry, QueueEntry};
use crate::groups::{Group, Groups};
use crate::jumps::Jumps;
use crate::limits::{ID_BYTES, MESSAGE_BYTES, QUEUE_BYTES, STORED_ID_BYTES, STORED_MESSAGE_BYTES, STORED_QUEUE_BYTES};
use crate::tasks::{MoveTask, Status};
use attempts::{Attempt, Attempts};
use delayed::{Calls, DueMessages, First};
use message::{Handing, Message, Messages};
pub use peek::{Chunk, Cursor, Peeked, Visibility};
use recent::{RecentSend, SendsById};
use said::bytes_of_queue;
use sizes::Sizes;

/// So long a deduplication id counts, in milliseconds. A repeated attempt id is given the same messages as long.
pub const WINDOW_MILLISECONDS: u64 = 300_000;

/// The most messages of a standard queue that are in flight at once.
const MOST_IN_FLIGHT: usize = 120_000;

/// What an answer shows of a message beside its envelope has fewer bytes.
const SHOWN_BYTES: usize = 1_280;

/// What a queue takes in the bytes of a store.
#[derive(Clone, Copy, Debug, Default, PartialEq, Eq)]
pub struct Stored {
    pub messages: u64,
    /// What the book says of it, and the queue itself.
    pub entries: u64,
}

/// What all messages of a receive have in common.
struct Receiving<'a> {
    reach: &'a Reach,
    most: Option<u32>,
    moment: Moment,
    until: Moment,
    /// What was sent by then is too old.
    horizon: Option<Moment>,
    /// What was sent by then is due; none of it is where there is no such moment.
    due: Option<Moment>,
}

/// What is known of one incarnation of a queue.
#[derive(Debug)]
pub struct State {
    kind: QueueKind,
    /// What the book says of it.
    pub entry: QueueEntry,
    /// Which queue of its name in the store it is.
    pub incarnation: u64,
    /// The number of the book that says it, and the size of the entry. The same of each of its tasks.
    pub said_in: u64,
    entry_size: u64,
    tasks_said_in: HashMap<Uuid, (u64, u64)>,
    /// What the queue takes without its messages.
    own_bytes: u64,
    tasks: Vec<MoveTask>,
    pub removed: bool,
    pub last_sequence: u64,
    pub last_send: Moment,
    /// How often something happened that can open a group.
    pub openings: u64,
    messages: Messages,
    /// The sends of the messages whose deduplication ids count, in order; the last of them is `last_sequence`.
    recent: VecDeque<RecentSend>,
    sends_by_id: SendsById,
    /// How many of these messages were deleted.
    left_ids: u64,
    /// What the envelopes of the messages take.
    envelope_bytes: u64,
    /// How long these are.
    sizes: Sizes,
    attempts: Attempts,
    /// What the attributes say of dead letters.
    redrive: Option<RedrivePolicy>,
    /// So long all messages of a FIFO queue are delayed, in milliseconds.
    delay: u64,
    /// Of a FIFO queue that delays its messages, or where somebody asks for some of the next messages alone.
    groups: Option<Groups>,
    /// When somebody did so the last time.
    groups_needed: Moment,
    /// Of a queue beside a standard one.
    due: DueMessages,
    /// Of a standard queue.
    calls: Calls,
    /// How many openings there were at a sweep that found nothing to delete, and when the next timeout ended.
    vain_sweep: Option<(u64, Option<Moment>)>,
}

/// What a reply of the store or a change did.
pub struct Applied {
    pub outcome: Outcome,
    /// Something happened that can open a group.
    pub opened: bool,
    /// The parts of the message that was sent or deleted.
    pub parts: Option<u64>,
}

impl Applied {
    fn unchanged(outcome: Outcome) -> Applied {
        Applied { outcome, opened: false, parts: None }
    }

    fn done(opened: bool) -> Applied {
        Applied { outcome: Outcome::Done, opened, parts: None }
    }
}

/// The store's refusal of a change of a message that isn't in flight, or that is deleted.
const NOT_IN_FLIGHT: u32 = 5;

/// The store answered an ask with what never answers it.
fn misfit() -> SqsError {
    SqsError::InternalFailure("The store's answer doesn't fit the request.".into())
}

impl State {
    pub fn new(entry: &QueueEntry) -> State {
        let kind = entry.name.kind();
        let delay = delay_of_all(kind, &entry.attributes);
        State {
            kind,
            entry: entry.clone(),
            incarnation: 1,
            said_in: 0,
            entry_size: 0,
            tasks_said_in: HashMap::new(),
            own_bytes: bytes_of_queue(&entry.attributes, &entry.tags),
            tasks: Vec::new(),
            removed: false,
            last_sequence: 0,
            last_send: 0,
            openings: 0,
            messages: Messages::default(),
            recent: VecDeque::new(),
            sends_by_id: SendsById::default(),
            left_ids: 0,
            envelope_bytes: 0,
            sizes: Sizes::default(),
            attempts: Attempts::default(),
            redrive: entry.attributes.redrive(),
            delay,
            groups: (delay > 0).then(Groups::default),
            groups_needed: 0,
            due: DueMessages::default(),
            calls: Calls::default(),
            vain_sweep: None,
        }
    }

    /// Applies the store's reply to an ask of `moment`.
    pub fn apply_reply(
        &mut self,
        ask: &Ask,
        reply: StoreReply,
        moment: Moment,
        jumps: &Jumps,
    ) -> Result<Applied, SqsError> {
        match (ask, reply) {
            (Ask::ChangeVisibility { receipt, .. }, StoreReply::Refused(NOT_IN_FLIGHT))
                if !self.has_message(*receipt) =>
            {
                Err(SqsError::of_no_message())
            }
            (_, StoreReply::Refused(code)) => Err(SqsError::of_refusal(code)),
            (Ask::Send { group, dedup, envelope, cause }, StoreReply::Sent(sequence)) => {
                let fingerprint = self.fingerprint_of(dedup);
                let applied = self.sent(group, envelope, *cause, sequence, RecentSend { moment, fingerprint })?;
                if *cause == Cause::Client && self.kind == QueueKind::Standard && self.entry.store.main().is_none() {
                    self.calls.remember(dedup, First::Stored(sequence), moment);
                }
                Ok(applied)
            }
            (Ask::Receive { visibility, attempt, most, reach, .. }, StoreReply::Received(given)) => {
                let until = moment + 1000 * u64::from(*visibility);
                let (horizon, due) = (self.horizon(jumps, moment), moment.checked_sub(self.delay));
                let receiving = Receiving { reach, most: *most, moment, until, horizon, due };
                self.received(given, attempt.as_ref(), &receiving)
            }
            (Ask::Delete { receipt, .. }, StoreReply::Deleted(removed)) => Ok(self.deleted(*receipt, removed)),
            (Ask::ChangeVisibility { receipt, visibility, by }, StoreReply::Changed) => {
                Ok(self.changed(*receipt, *visibility, *by, moment))
            }
            _ => Err(misfit()),
        }
    }

    fn open(&mut self) {
        self.openings += 1;
    }

    fn sent(
        &mut self,
        group: &GroupId,
        envelope: &Envelope,
        cause: Cause,
        sequence: u64,
        send: RecentSend,
    ) -> Result<Applied, SqsError> {
        let moment = send.moment;
        if sequence <= self.last_sequence {
            return Ok(Applied::unchanged(Outcome::Sent { sequence, id: None }));
        }
        if sequence != self.last_sequence + 1 {
            return Err(misfit());
        }
        let needs_head =
            self.kind == QueueKind::Standard || matches!(cause, Cause::Move(_)) || has_parts(envelope.text());
        let head = needs_head.then(|| EnvelopeHead::of(envelope.text()).ok_or_else(misfit)).transpose()?;
        let sent = match (self.kind, &head) {
            // It may have been delayed, or be moved with the age that it has.
            (QueueKind::Standard, Some(head)) => head.sent.min(moment),
            _ => moment,
        };
        let (parts, bytes_of_parts) = head.as_ref().map_or((None, None), |head| (head.parts, head.bytes));
        if let Some(due) = head.as_ref().and_then(|head| head.due) {
            self.due.add(sequence, due);
        }
        let source = head.and_then(|head| head.source).map(Arc::new);
        self.remember(send, sequence);
        self.last_sequence = sequence;
        self.last_send = moment;
        let bytes = envelope.bytes() + bytes_of_parts.unwrap_or(0);
        self.envelope_bytes += bytes;
        self.sizes.add(bytes);
        let group = Group::of(group.as_str());
        if let Some(groups) = &mut self.groups {
            groups.add(group, sequence, 0);
        }
        self.messages.add(sequence, Message::new(sent, group, source, bytes).in_parts(parts));
        self.open();
        Ok(Applied { outcome: Outcome::Sent { sequence, id: None }, opened: true, parts })
    }

    /// Takes up the send of the next message, of this number.
    fn remember(&mut self, send: RecentSend, sequence: u64) {
        self.forget_old_sends(send.moment);
        self.recent.push_back(send);
        self.sent_by_id(send, sequence);
    }

    /// Forgets the sends that are too old at this moment.
    fn forget_old_sends(&mut self, now: Moment) {
        while self.recent.front().is_some_and(|sent| sent.moment + WINDOW_MILLISECONDS <= now) {
            if !self.messages.has(self.first_recent()) {
                self.left_ids = self.left_ids.saturating_sub(1);
            }
            self.recent.pop_front();
        }
    }

    /// The number of the first message whose deduplication id counts, or of the next one where there is none.
    fn first_recent(&self) -> u64 {
        self.last_sequence + 1 - self.recent.len() as u64
    }

    fn received(
        &mut self,
        given: Vec<Delivery>,
        attempt: Option<&AttemptId>,
        receiving: &Receiving<'_>,
    ) -> Result<Applied, SqsError> {
        let (moment, until) = (receiving.moment, receiving.until);
        let opened = !given.is_empty() && until <= moment;
        let (mut handed, mut set_aside) = (Vec::with_capacity(given.len()), Vec::new());
        for one in given {
            match self.hand(one, receiving)? {
                (one, None) => handed.push(one),
                (one, Some(fate)) => set_aside.push((one, fate)),
            }
        }
        attempt.into_iter().for_each(|attempt| self.attempts.answer(attempt));
        if let (Some(attempt), false) = (attempt, handed.is_empty()) {
            let bytes = self.bytes_of_copies(&handed);
            self.attempts.insert(attempt, Attempt { moment, until, handed: handed.clone(), bytes });
        }
        if opened {
            self.open();
        }
        let outcome = Outcome::Received { handed, set_aside, openings: self.openings };
        Ok(Applied { outcome, opened, parts: None })
    }

    /// What the envelopes of these messages take that aren't kept with them: what the store has no room for is.
    fn bytes_of_copies(&self, handed: &[Handed]) -> u64 {
        let is_copy = |one: &&Handed| self.messages.get(one.receipt.sequence).is_some_and(|own| own.envelope.is_none());
        handed.iter().filter(is_copy).map(|one| one.envelope.len() as u64).sum()
    }

    fn attempt_entry(&self, id: &AttemptId, attempt: &Attempt) -> AttemptEntry {
        let handed = attempt.handed.iter().map(|one| (one.receipt.sequence, one.receipt.ordinal)).collect();
        let (moment, until) = (attempt.moment, attempt.until);
        AttemptEntry { mark: self.entry.mark, id: id.clone(), moment, until, handed }
    }

    /// What a book is to say of what this attempt was given at the last, if it still counts.
    pub fn entry_of_attempt(&self, id: &AttemptId, now: Moment) -> Option<AttemptEntry> {
        self.attempts.find(id, now).map(|attempt| self.attempt_entry(id, attempt))
    }

    /// The same of all attempts, and by which requests those ask that aren't answered.
    pub fn entries_of_attempts(&self) -> Vec<Entry> {
        let given = self.attempts.all().map(|(id, attempt)| Entry::Attempt(self.attempt_entry(id, attempt)));
        given.chain(self.attempts.asked().into_iter().map(Entry::Asked)).collect()
    }

    /// An attempt is about to ask by a request.
    pub fn attempt_asks(&mut self, request: &AttemptRequest) {
        self.attempts.ask(request);
    }

    fn hand(&mut self, given: Delivery, receiving: &Receiving<'_>) -> Result<(Handed, Option<Fate>), SqsError> {
        let (moment, receipt) = (receiving.moment, given.receipt);
        if receipt.incarnation != self.incarnation {
            return Err(misfit());
        }
        self.hide(receipt.sequence, receiving.until);
        let message = self.messages.get_mut(receipt.sequence).ok_or_else(misfit)?;
        let first = message.last.map_or(moment, |last| last.first);
        let is_old = receiving.horizon.is_some_and(|horizon| message.sent <= horizon);
        let is_dead = receiving.most.is_some_and(|most| receipt.ordinal > u64::from(most));
        let is_due = receiving.due.is_some_and(|due| message.sent <= due);
        let fates = [(Fate::Old, is_old), (Fate::Early, !is_due), (Fate::Dead, is_dead)];
        let is_for_client = receiving.reach.is_for_client();
        let fate = fates.into_iter().find(|(_, applies)| *applies && is_for_client).map(|(fate, _)| fate);
        self.attempts.forget_with(receipt.sequence);
        message.ordinal = receipt.ordinal;
        message.last = Some(Handing { moment, first, touched: false });
        let envelope = message.envelope.clone().unwrap_or(given.body);
        Ok((Handed { receipt, moment, first, group: given.group, envelope }, fate))
    }

    fn deleted(&mut self, receipt: Receipt, removed: bool) -> Applied {
        if !removed {
            return Applied::unchanged(Outcome::Done);
        }
        let mut parts = None;
        if let Some(message) = self.messages.remove(receipt.sequence) {
            parts = message.parts;
            if let Some(groups) = &mut self.groups {
                groups.remove(message.group, receipt.sequence, message.until());
            }
            self.attempts.forget_with(receipt.sequence);
            if !self.due.is_empty() {
                self.due.remove(receipt.sequence);
            }
            self.envelope_bytes -= message.bytes;
            self.sizes.remove(message.bytes);
            if receipt.sequence >= self.first_recent() {
                self.left_ids += 1;
            }
        }
        self.open();
        Applied { parts, ..Applied::done(true) }
    }

    /// The queue is removed. Tells the parts of all messages, which are named no more.
    pub fn take_out(&mut self) -> Vec<u64> {
        self.removed = true;
        self.due.clear();
        self.messages.take_parts()
    }

    fn changed(&mut self, receipt: Receipt, visibility: u32, by: Changer, moment: Moment) -> Applied {
        let until = moment + 1000 * u64::from(visibility);
        self.hide(receipt.sequence, until);
        if let Some(last) = self.messages.get_mut(receipt.sequence).and_then(|message| message.last.as_mut()) {
            last.touched |= by != Changer::Attempt;
        }
        if by == Changer::Attempt {
            self.attempts.put_off(receipt.sequence, until);
        } else {
            self.attempts.forget_with(receipt.sequence);
        }
        self.open();
        Applied::done(true)
    }

    /// Hides a message, if it is there.
    fn hide(&mut self, sequence: u64, until: Moment) {
        let Some(before) = self.messages.hide(sequence, until) else { return };
        if let (Some(groups), Some(message)) = (&mut self.groups, self.messages.get(sequence)) {
            groups.hide(message.group, sequence, before, until);
        }
    }

    /// Whether so many messages are in flight that none may be added (Developer Guide, "Amazon SQS message quotas"). Of
    /// a FIFO queue nobody is told so.
    pub fn has_most_in_flight(&mut self, now: Moment) -> bool {
        self.messages.count_in_flight(now) >= MOST_IN_FLIGHT
    }

    /// The first end of a timeout that is still to come.
    pub fn next_end(&mut self, now: Moment) -> Option<Moment> {
        self.messages.next_end(now)
    }

    /// Finds what counts no more at this moment: ids, and what attempts were given.
    pub fn look_at_ages(&mut self, now: Moment) {
        self.forget_old_sends(now);
        self.attempts.forget_old(now);
        self.calls.forget_old(now);
    }

    /// What the queue and its messages take of memory, in bytes; nothing once it is removed.
    pub fn bytes_of_all(&self) -> u64 {
        if self.removed {
            return 0;
        }
        self.own_bytes + self.bytes_in_use()
    }

    /// What its messages take of memory, in bytes: envelopes, and estimates for messages and ids that outlive theirs.
    pub fn bytes_in_use(&self) -> u64 {
        if self.removed {
            return 0;
        }
        let messages = MESSAGE_BYTES * self.messages.len() as u64;
        let tables = self.attempts.bytes() + self.calls.bytes();
        self.envelope_bytes + tables + messages + ID_BYTES * self.left_ids
    }

    /// What the queue and its messages take in the bytes of a store, by estimates for what stands beside texts.
    pub fn bytes_stored(&self, keeps_copies: bool) -> Stored {
        if self.removed {
            return Stored::default();
        }
        // The copies are kept here alone. What a book says may stand there twice.
        let envelopes = self.envelope_bytes / if keeps_copies { 2 } else { 1 };
        let entries = 2 * self.own_bytes.saturating_sub(QUEUE_BYTES) + STORED_QUEUE_BYTES;
        let (messages, ids) = (self.messages.len() as u64, self.left_ids);
        Stored { messages: envelopes + STORED_MESSAGE_BYTES * messages + STORED_ID_BYTES * ids, entries }
    }

    /// How many bytes a receive of `size` messages takes at most until it is answered: their envelopes, what is shown of
    /// them, and the answer.
    pub fn most_handed(&self, size: u8) -> usize {
        usize::try_from(3 * self.most_envelopes(size)).unwrap_or(usize::MAX)
    }

    /// How many bytes the answer to a receive of `size` messages has at most, but for characters of bodies that have to be
    /// escaped in more than one of two.
    pub fn most_answered(&self, size: u8) -> usize {
        usize::try_from(2 * self.most_envelopes(size))
            .unwrap_or(usize::MAX)
            .saturating_add(SHOWN_BYTES * usize::from(size))
    }

    /// How many bytes the envelopes of `size` messages have at most.
    fn most_envelopes(&self, size: u8) -> u64 {
        self.envelope_bytes.min(self.sizes.longest().saturating_mul(u64::from(size)))
    }

    /// What the attempt was given, if that is still all in the hands of who asked
    /// (API Reference, ReceiveMessage, `ReceiveRequestAttemptId`).
    pub fn attempt(&self, id: &AttemptId, now: Moment) -> Option<Vec<Handed>> {
        let found = self.attempts.find(id, now)?;
        let is_held = |handed: &Handed| {
            let message = self.messages.get(handed.receipt.sequence);
            let is_touched = message.and_then(|message| message.last).map_or(true, |last| last.touched);
            self.is_last(handed.receipt) && !is_touched
        };
        found.handed.iter().all(is_held).then(|| found.handed.clone())
    }

    /// The last tasks that move messages out of the queue, in order of their starts.
    pub fn tasks(&self) -> &[MoveTask] {
        &self.tasks
    }

    /// How many messages a task has moved.
    pub fn moved_by(&self, id: Uuid) -> u64 {
        self.tasks.iter().find(|task| task.id == id).map_or(0, |task| task.moved)
    }

    pub fn running_task(&self) -> Option<&MoveTask> {
        self.tasks.iter().find(|task| task.status == Status::Running)
    }

    /// How many messages there are.
    pub fn count(&self) -> u64 {
        self.messages.len() as u64
    }

    /// What the queue's policy says of dead letters, if it has one.
    pub fn redrive(&self) -> Option<&RedrivePolicy> {
        self.redrive.as_ref()
    }
}

/// So long all messages of a queue are delayed, in milliseconds. In a standard queue each has the delay of its own send
/// (Developer Guide, "Amazon SQS delay queues").
fn delay_of_all(kind: QueueKind, attributes: &QueueAttributes) -> u64 {
    match kind {
        QueueKind::Fifo => attributes.delay(),
        QueueKind::Standard => 0,
    }
}
