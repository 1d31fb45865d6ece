//! Starts operations: which are asked of what keeps the store, and which are answered without it.

use std::sync::Arc;

use hobbychair_bytes::moment::Moment;
use hobbychair_bytes::values::Receipt;
use hobbychair_sqs::errors::SqsError;
use hobbychair_sqs::texts::{DedupId, QueueKind};
use hobbychair_tables::ask::{Ask, Cause, Outcome, TableChange};
use hobbychair_tables::book::{self, AttemptRequest};
use hobbychair_tables::limits::{GONE_NAME_BYTES, REMOVAL_BYTES, STORED_NAME_BYTES, STORED_REMOVAL_BYTES};
use hobbychair_tables::queue::Queue;
use hobbychair_tables::store_name::StoreName;

use super::{Task, PIECE_BYTES};
use crate::backend::Ended;
use crate::exchange::{Entry, Open, OpenAsk};
use crate::jobs::{Answer, AnswerSender, Operation};
use crate::room::{adds, refusal_for_room};

/// What came of trying to start an operation.
pub(super) enum StartOutcome {
    /// Its answer is due.
    Open(Entry),
    /// Another operation, whose answer is still due, decides what is to be answered.
    WaitsForAnswer(Arc<Queue>, Operation),
    /// Several answers are due.
    Begun,
}

impl StartOutcome {
    /// It is answered without the program.
    pub(super) fn ready(answer: Answer) -> StartOutcome {
        StartOutcome::Open(Entry::Ready(Some(answer)))
    }
}

/// An operation that waits until there is a free client.
pub(super) struct Pending {
    pub(super) queue: Option<Arc<Queue>>,
    /// None where only the answers to earlier operations are waited for.
    pub(super) operation: Option<Operation>,
    /// If it is for a client, it isn't started behind this moment.
    pub(super) until: Option<Moment>,
    pub(super) sender: Option<AnswerSender>,
}

impl Task {
    /// Starts the operations that wait, as long as there are free clients.
    pub(super) fn start_pending(&mut self) -> Result<(), Ended> {
        let mut has_asked = false;
        while self.may_start() {
            let Some(Pending { queue, operation, until, mut sender }) = self.pending.pop_front() else { break };
            let is_for_client = operation.as_ref().is_some_and(Operation::is_for_client);
            let is_late = is_for_client && until.is_some_and(|until| until < self.shared.clock.now());
            // Where the tables are old by now, nothing is answered of this.
            let may_be_of_tables = operation.as_ref().map_or(true, Operation::may_be_of_tables);
            let is_of_tables = self.backend.may_be_superseded() && may_be_of_tables && !is_late;
            let started = match (queue, operation) {
                _ if is_late => StartOutcome::ready(Err(too_late())),
                (Some(queue), Some(Operation::Ask(ask))) => self.start_ask(queue, ask)?,
                (Some(queue), Some(Operation::AskBeside(ask))) => match queue.delays() {
                    Some(delays) => self.start_ask(delays, ask)?,
                    None => StartOutcome::ready(Err(SqsError::QueueDoesNotExist)),
                },
                (Some(queue), Some(Operation::Change(change))) => self.start_change(queue, change)?,
                (Some(queue), Some(Operation::Say(entry))) => self.start_saying(queue, entry, 0)?,
                (Some(queue), Some(Operation::Count)) => StartOutcome::Open(self.count(queue)),
                (Some(queue), Some(Operation::Move { target, copies })) => {
                    self.start_move(queue, target, copies, &mut sender)
                }
                (Some(_), Some(Operation::Hold | Operation::HoldForMove | Operation::Release)) => {
                    StartOutcome::ready(Ok(Outcome::Done))
                }
                (_, Some(Operation::Moment)) => {
                    let moment = self.next_moment();
                    StartOutcome::Open(self.given(moment))
                }
                _ => StartOutcome::Open(Entry::Ready(None)),
            };
            match started {
                StartOutcome::Open(entry @ Entry::Ready(_)) if is_of_tables => {
                    // All that is started here came before this one request.
                    if !std::mem::replace(&mut has_asked, true) {
                        let moment = self.next_moment();
                        self.open_entry(moment);
                    }
                    self.exchange.open.push_back(Open { entry, sender });
                }
                StartOutcome::Open(entry) => self.exchange.open.push_back(Open { entry, sender }),
                StartOutcome::Begun => {}
                StartOutcome::WaitsForAnswer(queue, operation) => {
                    let (queue, operation) = (Some(queue), Some(operation));
                    self.pending.push_front(Pending { queue, operation, until, sender });
                    self.waits_for_answer = true;
                }
            }
        }
        Ok(())
    }

    fn may_start(&self) -> bool {
        let has_to_wait = self.waits_for_answer || self.moving.is_some() || self.backend.is_stopped();
        !has_to_wait && self.clients.has(false) && self.exchange.out.bytes.len() < PIECE_BYTES
    }

    fn start_ask(&mut self, queue: Arc<Queue>, ask: Ask) -> Result<StartOutcome, Ended> {
        let ready = |answer| Ok(StartOutcome::ready(answer));
        let moment = self.shared.clock.now();
        let (store, removed, is_rescoped) = {
            let state = queue.state();
            let is_rescoped = state.has_ids_of_other_scope(moment);
            (state.entry.store, state.removed, is_rescoped)
        };
        // The store may have it for a while.
        if removed {
            return ready(Err(SqsError::QueueDoesNotExist));
        }
        let ask = match within_reach(ask, &queue, moment) {
            Ok(ask) => ask,
            Err(nothing) => return ready(Ok(nothing)),
        };
        if let Some(first) = repeated(&ask, &queue, moment) {
            return ready(Ok(first));
        }
        if is_rescoped {
            let other = ask.id_of_other_scope();
            if let Some(first) = other.as_ref().and_then(|id| queue.state().sent_with(id, moment)) {
                return ready(Ok(first));
            }
            if other.is_some_and(|id| self.is_being_sent(&queue, &id)) {
                return Ok(StartOutcome::WaitsForAnswer(queue, ask.into()));
            }
        }
        if self.is_repeated_beside(&ask, &queue) {
            return Ok(StartOutcome::WaitsForAnswer(queue, ask.into()));
        }
        if let (Ask::Delete { receipt, by_client: true }, QueueKind::Fifo) = (&ask, queue.name.kind()) {
            let receipt = *receipt;
            let has_expired = queue.state().has_expired(receipt, moment);
            if self.is_decided_by_others(&queue, receipt, has_expired) {
                return Ok(StartOutcome::WaitsForAnswer(queue, ask.into()));
            }
            // A receive that is open and hands the message out again counts as later than this.
            if has_expired {
                return ready(Err(SqsError::of_expiry()));
            }
        }
        let ask = stamped(ask, &queue, moment);
        let written = ask.written(store);
        if !self.takes_gone(&ask, moment) {
            self.shared.counters.count_lack_of_room();
            return ready(Err(SqsError::OverLimit("There is no room for the names of more queues.".into())));
        }
        if !self.has_space(&ask, written.len() as u64, moment) {
            self.shared.counters.count_lack_of_room();
            return ready(Err(refusal_for_room(true)));
        }
        let weight = match self.shared.admission.admit(&ask, moment) {
            Ok(weight) => weight,
            Err(error) => return ready(Err(error)),
        };
        self.ask_admitted(queue, ask, written, moment, weight)
    }

    /// Whether what is kept of queues that are gone leaves room for this one, if this makes a queue: their removals, for a minute, and
    /// their names, if it has a name that the store hasn't had.
    fn takes_gone(&self, ask: &Ask, now: Moment) -> bool {
        let (names, place) = (self.shared.queues.names(), self.shard.place());
        let Ask::Create { store, .. } = ask else { return true };
        if !adds(ask) {
            return true;
        }
        let (space, memory) = (&self.space, &self.shared.admission.memory);
        let removals = self.shared.queues.count_removals(now);
        if !space.takes_gone(STORED_REMOVAL_BYTES * removals) || !memory.takes_gone(REMOVAL_BYTES * removals) {
            return false;
        }
        let (gone, all_gone) = (names.gone(place), names.all_gone());
        !names.is_new(place, *store)
            || space.takes_gone(STORED_NAME_BYTES * gone) && memory.takes_gone(GONE_NAME_BYTES * all_gone)
    }

    /// Whether the program's file has space for so many bytes more that stay, if this adds them.
    fn has_space(&mut self, ask: &Ask, bytes: u64, now: Moment) -> bool {
        if !adds(ask) {
            return true;
        }
        let (queues, shard, admission, open) =
            (&self.shared.queues, self.shard, &self.shared.admission, &self.exchange.open);
        self.space.take(bytes, || {
            // Ids that count no more are in the count until then.
            admission.look_at_ages(now);
            queues.bytes_stored(shard) + open.iter().map(Open::bytes_added).sum::<u64>()
        })
    }

    /// Asks what was admitted with this weight, if a client is free for it.
    fn ask_admitted(
        &mut self,
        queue: Arc<Queue>,
        ask: Ask,
        written: Vec<u8>,
        moment: Moment,
        weight: u64,
    ) -> Result<StartOutcome, Ended> {
        let Some(client) = self.clients.take(ask.reads_parts()) else {
            self.shared.admission.answered(weight);
            return Ok(StartOutcome::WaitsForAnswer(queue, ask.into()));
        };
        let number = self.backend.next_number();
        // Where nothing is kept, no other gateway goes on with it.
        if let Some(id) = ask.attempt().filter(|_| self.backend.is_kept()) {
            let request = AttemptRequest { mark: queue.mark.0, id: id.clone(), moment, client, number };
            if !self.say_ahead(&queue, book::Entry::Asked(request), moment)? {
                self.clients.give_back(client);
                self.shared.admission.answered(weight);
                return Ok(StartOutcome::WaitsForAnswer(queue, ask.into()));
            }
        }
        self.open_visibility_changes += usize::from(matches!(ask, Ask::ChangeVisibility { .. }));
        let ask = ask.without_text();
        let asked =
            OpenAsk { queue, ask, written, moment, client, number, weight, ends: 0, is_done: false, original: None };
        Ok(StartOutcome::Open(self.given(Entry::Ask(Box::new(asked)))))
    }

    /// Has the book say something ahead of what is asked next, where there is a book. False if no client is free for that.
    fn say_ahead(&mut self, queue: &Arc<Queue>, entry: book::Entry, moment: Moment) -> Result<bool, Ended> {
        let Some(book) = self.shared.queues.books().current(self.shard.place()) else { return Ok(true) };
        let Some(client) = self.clients.take(false) else { return Ok(false) };
        let ask = Ask::Say { book, text: entry.text()?, entry: Arc::new(entry) };
        let written = ask.written(StoreName::of_book(book));
        let (queue, number) = (queue.clone(), self.backend.next_number());
        let asked =
            OpenAsk { queue, ask, written, moment, client, number, weight: 0, ends: 0, is_done: false, original: None };
        self.open_entry(Entry::Ask(Box::new(asked)));
        Ok(true)
    }

    /// Whether the same call sends its message with a delay and without, and one of both isn't answered yet. Takes time in
    /// proportion to the open requests, where a queue has had something that is delayed.
    fn is_repeated_beside(&self, ask: &Ask, queue: &Queue) -> bool {
        let Ask::Send { dedup, cause: Cause::Client, .. } = ask else { return false };
        let Some(other) = queue.delays().or_else(|| queue.main()) else { return false };
        let is_same = |asked: &OpenAsk| match &asked.ask {
            Ask::Send { dedup: first, .. } => asked.queue.mark == other.mark && first == dedup,
            _ => false,
        };
        dedup.call_key().is_some() && self.is_asked(is_same)
    }

    /// Whether a send to this queue with this id isn't answered yet. Takes time in proportion to the open requests.
    fn is_being_sent(&self, queue: &Queue, id: &DedupId) -> bool {
        self.is_asked(|asked| match &asked.ask {
            Ask::Send { dedup, .. } => asked.queue.mark == queue.mark && dedup == id,
            _ => false,
        })
    }

    /// Whether such an ask isn't answered yet.
    fn is_asked(&self, is_such: impl Fn(&OpenAsk) -> bool) -> bool {
        self.exchange.open.iter().any(|open| matches!(&open.entry, Entry::Ask(asked) if is_such(asked)))
    }

    /// Gives what an entry asks to what keeps the store.
    fn give(&mut self, entry: &Entry) {
        self.backend.give(entry, &mut self.exchange.out.bytes);
    }

    /// The same, and gives the entry back.
    pub(super) fn given(&mut self, entry: Entry) -> Entry {
        self.give(&entry);
        entry
    }

    /// Gives what an entry asks that is the last one of no job. It is open from now on.
    pub(super) fn open_entry(&mut self, entry: Entry) {
        self.give(&entry);
        self.exchange.open.push_back(Open { entry, sender: None });
    }

    /// An entry that moves the store's moment on, and is still to be given.
    fn next_moment(&mut self) -> Entry {
        Entry::Moment { number: self.backend.next_number(), moment: self.shared.clock.now() }
    }

    fn count(&mut self, queue: Arc<Queue>) -> Entry {
        let moment = self.next_moment();
        self.open_entry(moment);
        let tag = self.backend.next_number();
        self.given(Entry::Count { tag, queue, least: None })
    }

    /// Whether a change or a delete of this message isn't answered yet. Takes time in proportion to the open requests,
    /// where the message has expired or changes are open.
    fn is_decided_by_others(&self, queue: &Queue, receipt: Receipt, has_expired: bool) -> bool {
        let is_of_message = |asked: &OpenAsk| match asked.ask {
            Ask::ChangeVisibility { receipt: other, .. } | Ask::Delete { receipt: other, .. } => {
                asked.queue.mark == queue.mark && other.sequence == receipt.sequence
            }
            _ => false,
        };
        (has_expired || self.open_visibility_changes > 0) && self.is_asked(is_of_message)
    }

    /// Has the book say what changes, when it has said all that was to be said of the queue before.
    fn start_change(&mut self, queue: Arc<Queue>, change: TableChange) -> Result<StartOutcome, Ended> {
        if queue.state().removed {
            return Ok(StartOutcome::ready(Err(SqsError::QueueDoesNotExist)));
        }
        if self.is_being_said(&queue) {
            return Ok(StartOutcome::WaitsForAnswer(queue, change.into()));
        }
        if change == TableChange::Created && self.shared.queues.find(&queue.name).is_some() {
            let message = "The queue was created by another request meanwhile.";
            return Ok(StartOutcome::ready(Err(SqsError::ServiceUnavailable(message.into()))));
        }
        let moment = self.shared.clock.now();
        let Some(entry) = queue.entry_after(&change, moment) else {
            return Ok(StartOutcome::ready(Ok(Outcome::Done)));
        };
        let weight = match self.shared.admission.admit_entry(&queue, &entry, moment) {
            Ok(weight) => weight,
            Err(error) => return Ok(StartOutcome::ready(Err(error))),
        };
        Ok(match self.start_saying(queue, entry, weight)? {
            StartOutcome::WaitsForAnswer(queue, _) => StartOutcome::WaitsForAnswer(queue, change.into()),
            other => other,
        })
    }

    /// Whether an entry about a queue of this name isn't answered yet. Takes time in proportion to the open requests.
    fn is_being_said(&self, queue: &Queue) -> bool {
        self.is_asked(|asked| matches!(asked.ask, Ask::Say { .. }) && asked.queue.name == queue.name)
    }

    fn start_saying(&mut self, queue: Arc<Queue>, entry: book::Entry, weight: u64) -> Result<StartOutcome, Ended> {
        let Some(book) = self.shared.queues.books().current(self.shard.place()) else {
            self.shared.admission.answered(weight);
            return Ok(StartOutcome::ready(Err(without_book())));
        };
        let text = entry.text()?;
        let ask = Ask::Say { book, entry: Arc::new(entry), text };
        let written = ask.written(StoreName::of_book(book));
        self.ask_admitted(queue, ask, written, self.shared.clock.now(), weight)
    }
}

/// What the call sent that this repeats, with a delay or without: meanwhile the queue may have got another one.
fn repeated(ask: &Ask, queue: &Queue, now: Moment) -> Option<Outcome> {
    match ask {
        Ask::Send { dedup, cause: Cause::Client, .. } if queue.name.kind() == QueueKind::Standard => {
            let main = queue.main();
            let state = main.as_deref().unwrap_or(queue).state();
            state.sent_by(dedup, now)
        }
        _ => None,
    }
}

/// The ask, whose message says that it was sent at this moment. In a FIFO queue moments rise with sequence numbers then,
/// and the message tells what the tables have.
pub(super) fn stamped(mut ask: Ask, queue: &Queue, moment: Moment) -> Ask {
    if let (Ask::Send { envelope, .. }, QueueKind::Fifo) = (&mut ask, queue.name.kind()) {
        envelope.stamp(moment);
    }
    ask
}

/// Whoever asked for it has asked somebody else by now, or has given up.
fn too_late() -> SqsError {
    SqsError::ServiceUnavailable("The time is over in which an answer was wanted.".into())
}

/// Why no book can say anything.
fn without_book() -> SqsError {
    SqsError::ServiceUnavailable("The journal has had no room for a book so far.".into())
}

/// The receive of as many messages as it may be handed at this moment, or its answer where there are none.
fn within_reach(mut ask: Ask, queue: &Queue, now: Moment) -> Result<Ask, Outcome> {
    if let Ask::Receive { size, reach, .. } = &mut ask {
        let count = reach.named().map(|named| {
            let mut state = queue.state();
            (state.count_next_among(named, now), state.openings)
        });
        match count {
            Some((0, openings)) => {
                return Err(Outcome::Received { handed: Vec::new(), set_aside: Vec::new(), openings })
            }
            Some((count, _)) => *size = (*size).min(count as u8),
            None => {}
        }
    }
    Ok(ask)
}
