//! All queues, and what is known of the stores that have them.

use std::collections::{BTreeMap, HashMap};
use std::sync::atomic::{AtomicU64, Ordering};
use std::sync::{Arc, Mutex, MutexGuard, OnceLock, PoisonError, RwLock, Weak};

use hobbychair_bytes::moment::Moment;
use hobbychair_bytes::values::StoreReply;
use hobbychair_sqs::envelope::{message_id, own_id};
use hobbychair_sqs::errors::SqsError;
use hobbychair_sqs::handles::{HandleKey, Origin};
use hobbychair_sqs::texts::QueueName;
use uuid::Uuid;

use crate::alarms::Alarms;
use crate::ask::{Ask, Cause, Outcome};
use crate::book::{size_of_text, Books, Entry, LeftOver, ProgramEntry, QueueEntry, Removal};
use crate::copies::Copies;
use crate::jumps::Jumps;
use crate::limits::STORED_NAME_BYTES;
use crate::names::Names;
use crate::parts::Parts;
use crate::queue::Queue;
use crate::removals::RecentRemovals;
use crate::shards::{Shard, Shards};
use crate::state::State;
use crate::store_name::StoreName;

/// All queues by their names.
#[derive(Default)]
pub struct Queues {
    by_name: RwLock<BTreeMap<QueueName, Arc<Queue>>>,
    /// The removals of names whose pause may not be over.
    removed: Mutex<RecentRemovals>,
    last_store_name: AtomicU64,
    last_book: AtomicU64,
    pub(crate) books: Books,
    pub(crate) left_over: LeftOver,
    pub(crate) names: Names,
    /// What all queues take of memory, in bytes.
    bytes_in_use: AtomicU64,
    pub(crate) jumps: Jumps,
    pub(crate) copies: Copies,
    pub(crate) parts: Parts,
    /// Of programs that keep their entries themselves, by their places.
    secrets: Mutex<HashMap<usize, Uuid>>,
    /// What books are to say of programs of which none says a secret yet.
    new_secret: OnceLock<Uuid>,
    /// Queues that tasks have moved messages out of, by their marks, and the places of the programs that have them.
    tasked: Mutex<HashMap<u64, (usize, Weak<Queue>)>>,
    pub(crate) alarms: Alarms,
    /// Operators look at messages, so these are kept here as well.
    pub(crate) keeps_copies: bool,
    /// Stands for all queues that have parts, for books, and for those that aren't there. It isn't among those that have
    /// names.
    nameless: OnceLock<Arc<Queue>>,
}

impl Queues {
    /// No queues. `keeps_copies`: messages are to be looked at.
    pub fn new(keeps_copies: bool) -> Queues {
        Queues { keeps_copies, ..Queues::default() }
    }

    /// The queue of which is asked what concerns none that has a name.
    pub fn nameless(&self) -> Option<Arc<Queue>> {
        if let Some(queue) = self.nameless.get() {
            return Some(queue.clone());
        }
        let entry = QueueEntry::plain(StoreName(0), QueueName::parse("nameless.fifo")?, 0);
        Some(self.nameless.get_or_init(|| Arc::new(Queue::new(&entry))).clone())
    }

    /// The books of all programs.
    pub fn books(&self) -> &Books {
        &self.books
    }

    /// Names that the stores have had.
    pub fn names(&self) -> &Names {
        &self.names
    }

    /// Names that go from the store.
    pub fn left_over(&self) -> &LeftOver {
        &self.left_over
    }

    /// The queue of this name, if there is one.
    pub fn find(&self, name: &QueueName) -> Option<Arc<Queue>> {
        self.by_name.read().unwrap_or_else(PoisonError::into_inner).get(name).cloned()
    }

    /// The queue of this name, or `QueueDoesNotExist`.
    pub fn get(&self, name: &QueueName) -> Result<Arc<Queue>, SqsError> {
        self.find(name).ok_or(SqsError::QueueDoesNotExist)
    }

    /// Where the queue's dead letters go, if that is there, and how often a message is handed out before it is one.
    pub fn target_of(&self, queue: &Queue) -> Option<(Arc<Queue>, u32)> {
        let policy = queue.state().redrive().cloned()?;
        Some((self.find(&policy.target.name)?, policy.most))
    }

    /// The jumps of the clock.
    pub fn jumps(&self) -> &Jumps {
        &self.jumps
    }

    /// Messages that are on their way to dead-letter queues.
    pub fn copies(&self) -> &Copies {
        &self.copies
    }

    /// The parts of messages that are too long for the store.
    pub fn parts(&self) -> &Parts {
        &self.parts
    }

    /// When delayed messages are due.
    pub fn alarms(&self) -> &Alarms {
        &self.alarms
    }

    /// All queues, in order of their names.
    pub fn all(&self) -> Vec<Arc<Queue>> {
        self.by_name.read().unwrap_or_else(PoisonError::into_inner).values().cloned().collect()
    }

    /// The same, and the queues beside them that have what is delayed.
    pub fn all_and_delays(&self) -> Vec<Arc<Queue>> {
        self.all().into_iter().flat_map(|queue| [queue.delays(), Some(queue)]).flatten().collect()
    }

    /// Up to `most` names behind `after` that begin with `prefix` and that `sees` lets through, in order, and whether
    /// there are more.
    pub fn page(
        &self,
        prefix: &str,
        after: &str,
        most: usize,
        sees: impl Fn(&QueueName) -> bool,
    ) -> (Vec<QueueName>, bool) {
        let queues = self.by_name.read().unwrap_or_else(PoisonError::into_inner);
        let fits = |name: &&QueueName| name.as_str().starts_with(prefix) && name.as_str() > after && sees(name);
        let mut names: Vec<_> = queues.keys().filter(fits).take(most + 1).cloned().collect();
        let has_more = names.len() > most;
        names.truncate(most);
        (names, has_more)
    }

    /// Refuses a name whose queue was removed less than a minute before.
    pub fn test_pause(&self, name: &QueueName, now: Moment) -> Result<(), SqsError> {
        match self.recent_removals().has(name, now) {
            true => Err(SqsError::QueueDeletedRecently),
            false => Ok(()),
        }
    }

    /// The removals whose pause isn't over.
    pub fn removals(&self, now: Moment) -> Vec<Removal> {
        self.recent_removals().all(now)
    }

    /// How many names they are of.
    pub fn count_removals(&self, now: Moment) -> u64 {
        let mut removals = self.recent_removals();
        removals.forget_until(now);
        removals.count()
    }

    fn recent_removals(&self) -> MutexGuard<'_, RecentRemovals> {
        self.removed.lock().unwrap_or_else(PoisonError::into_inner)
    }

    /// A name of the store for a queue of the program at this place: one that is free again by this moment, or that no queue has
    /// had.
    pub fn next_store_name(&self, shards: Shards, place: usize, now: Moment) -> StoreName {
        let again = self.names.take(place, now);
        again.unwrap_or_else(|| StoreName(next_number(&self.last_store_name, shards, place)))
    }

    /// The number of the next book of the program at this place. Its name may be one that is free again by this moment, if the book
    /// before it says its order.
    pub fn next_book(&self, shards: Shards, place: usize, now: Moment) -> u64 {
        let may_be_again = self.books.order_to_say(place).is_none();
        let again = may_be_again.then(|| self.names.take_book(place, now)?.book()).flatten();
        again.unwrap_or_else(|| next_number(&self.last_book, shards, place))
    }

    /// The last numbers that names of the store have: of queues, of books and of parts.
    #[cfg(test)]
    pub fn last_numbers(&self) -> [u64; 3] {
        let [queue, book] = [&self.last_store_name, &self.last_book].map(|last| last.load(Ordering::Relaxed));
        [queue, book, self.parts.last_number()]
    }

    /// From now on this name of the store counts as used.
    pub fn saw_store_name(&self, name: StoreName) {
        let name = name.main().unwrap_or(name);
        match (name.parts(), name.book()) {
            (Some(number), _) => self.parts.saw_number(number),
            (None, Some(number)) => drop(self.last_book.fetch_max(number, Ordering::Relaxed)),
            (None, None) => drop(self.last_store_name.fetch_max(name.0, Ordering::Relaxed)),
        }
    }

    /// Applies the reply of the program at this place to an ask of this queue.
    pub fn apply_reply(
        &self,
        place: usize,
        queue: &Arc<Queue>,
        ask: &Ask,
        reply: StoreReply,
        moment: Moment,
    ) -> Result<Outcome, SqsError> {
        match (ask, reply) {
            (Ask::Parts { number, ask }, reply) => self.parts.apply_reply(*number, ask, reply, moment),
            (_, StoreReply::Refused(code)) if !matches!(ask, Ask::ChangeVisibility { .. }) => {
                Err(SqsError::of_refusal(code))
            }
            (Ask::Create { store, .. }, StoreReply::Created(incarnation)) => {
                self.name_created(place, queue, *store, incarnation)?;
                self.created(place, queue, *store);
                Ok(Outcome::Done)
            }
            (Ask::Remove { store }, StoreReply::Removed) => {
                // From now on it may be another queue's.
                self.left_over.remove(place, *store);
                self.names.removed(place, *store, moment);
                if let Some(number) = store.book() {
                    let bytes = self.books.remove(place, number);
                    self.bytes_in_use.fetch_sub(bytes, Ordering::Relaxed);
                }
                Ok(Outcome::Done)
            }
            (Ask::Say { book, entry, text }, StoreReply::Sent(_)) => {
                let size = size_of_text(text);
                self.count_entry(place, *book, size);
                self.said(place, queue, entry, *book, size);
                Ok(Outcome::Done)
            }
            (_, reply) => self.apply_to_messages(place, queue, ask, reply, moment),
        }
    }

    /// An entry of this size stands in this book.
    pub(crate) fn count_entry(&self, place: usize, book: u64, size: u64) {
        let bytes = self.books.count(place, book, size);
        self.bytes_in_use.fetch_add(bytes, Ordering::Relaxed);
    }

    /// The store has made a queue of this name. One that nobody knew of goes.
    fn name_created(&self, place: usize, queue: &Queue, store: StoreName, incarnation: u64) -> Result<(), SqsError> {
        let in_use = if store.book().is_some() { Weak::new() } else { Arc::downgrade(&queue.in_use) };
        if !self.names.created(place, store, incarnation, in_use) {
            self.left_over.add(place, [store]);
            return Err(SqsError::InternalFailure("The store has another queue of this name.".into()));
        }
        queue.state().incarnation = incarnation;
        Ok(())
    }

    /// The store has this name. Of a queue the book says so later.
    pub(crate) fn created(&self, place: usize, queue: &Arc<Queue>, store: StoreName) {
        if let Some(number) = store.book() {
            self.books.add(place, number);
        }
        if let Some(main) = queue.main() {
            *main.delays_slot() = Some(queue.clone());
            self.bytes_in_use.fetch_add(queue.state().bytes_of_all(), Ordering::Relaxed);
        }
    }

    /// The book of this number, of the program at this place, has this entry of this size, about this queue.
    pub fn said(&self, place: usize, queue: &Arc<Queue>, entry: &Entry, book: u64, size: u64) {
        match entry {
            Entry::Queue(entry) => self.said_of_queue(queue, entry, book, size),
            Entry::Removed(removal) => self.remove(place, queue, removal),
            Entry::Task(_, task) => {
                self.counted(queue, |state| state.said_of_task(task, book, size));
                self.remember_tasked(place, queue);
            }
            // The tables have it.
            Entry::Attempt(_) => {}
            Entry::Asked(asked) => queue.state().attempt_asks(asked),
            Entry::Program(program) => self.program_said(program, book),
            Entry::Jump(moment, uncounted) => self.jumps.add(*moment, *uncounted),
            Entry::Book(order) => self.books.order_said(place, book, *order),
        }
    }

    /// The book of this number says which program has it.
    pub(crate) fn program_said(&self, program: &ProgramEntry, book: u64) {
        self.books.program_said(program.place, book);
        self.secrets().insert(program.place, program.secret);
    }

    fn secrets(&self) -> MutexGuard<'_, HashMap<usize, Uuid>> {
        self.secrets.lock().unwrap_or_else(PoisonError::into_inner)
    }

    /// The secret of the program at this place, if a book says it.
    pub fn secret(&self, place: usize) -> Option<Uuid> {
        self.secrets().get(&place).copied()
    }

    /// The same, or the one that its book is to say.
    pub fn secret_to_say(&self, place: usize) -> Uuid {
        self.secret(place).unwrap_or_else(|| *self.new_secret.get_or_init(Uuid::new_v4))
    }

    /// The key of a queue's handles: the same one for all gateways that have what the books say.
    pub fn handle_key(&self, queue: &Queue, place: impl FnOnce() -> usize) -> HandleKey {
        *queue.handle_key.get_or_init(|| HandleKey::of(self.secret_to_say(place())))
    }

    fn tasked(&self) -> MutexGuard<'_, HashMap<u64, (usize, Weak<Queue>)>> {
        self.tasked.lock().unwrap_or_else(PoisonError::into_inner)
    }

    fn remember_tasked(&self, place: usize, queue: &Arc<Queue>) {
        let mut tasked = self.tasked();
        if !tasked.contains_key(&queue.mark.0) {
            tasked.retain(|_, (_, queue)| queue.strong_count() > 0);
            tasked.insert(queue.mark.0, (place, Arc::downgrade(queue)));
        }
    }

    /// The program at this place has the copy of a message that a task moves. It counts where the message was with the same
    /// program: what another one has stands in no order with what the book says of the task.
    fn count_moved(&self, place: usize, origin: Origin) {
        let tasked =
            self.tasked().get(&origin.mark).filter(|(own, _)| *own == place).and_then(|(_, queue)| queue.upgrade());
        if let Some(queue) = tasked {
            queue.state().count_moved();
        }
    }

    fn said_of_queue(&self, queue: &Arc<Queue>, entry: &QueueEntry, book: u64, size: u64) {
        let is_new = !self.find(&queue.name).is_some_and(|found| Arc::ptr_eq(&found, queue));
        let said = if is_new {
            let said = queue.state().said(entry, book, size);
            self.insert(queue);
            said
        } else {
            self.counted(queue, |state| state.said(entry, book, size))
        };
        if let (Some(purging), Some(delays)) = (said.purging, queue.delays()) {
            delays.state().purge_with(purging);
        }
        if said.has_opened {
            queue.opened.notify_one();
        }
    }

    fn apply_to_messages(
        &self,
        place: usize,
        queue: &Arc<Queue>,
        ask: &Ask,
        reply: StoreReply,
        moment: Moment,
    ) -> Result<Outcome, SqsError> {
        let applied = self.counted(queue, |state| {
            let applied = state.apply_reply(ask, reply, moment, &self.jumps)?;
            if self.keeps_copies {
                state.keep_copy(ask, &applied);
            }
            Ok(applied)
        })?;
        if let Ask::Send { cause: Cause::Move(origin), envelope, .. } = ask {
            self.copies.mark_copied(*origin);
            // What a task moves is a new message. All others keep their ids.
            if own_id(envelope.text()).is_none() {
                self.count_moved(place, *origin);
            }
            if let Some(delays) = queue.delays().filter(|delays| delays.mark.0 == origin.mark) {
                delays.state().has_copy(origin.sequence);
            }
        }
        match (ask, applied.parts) {
            (Ask::Send { .. }, Some(number)) => self.parts.name(number),
            (_, Some(number)) => self.parts.unname(number),
            (_, None) => {}
        }
        if applied.opened {
            queue.opened.notify_one();
        }
        Ok(match (queue.main(), ask) {
            (Some(main), Ask::Send { .. }) => self.delayed(queue, &main, ask, applied.outcome, moment),
            _ => applied.outcome,
        })
    }

    /// A message was sent to the queue beside `main`: others find it by its call, and it is due some day.
    fn delayed(&self, delays: &Arc<Queue>, main: &Queue, ask: &Ask, outcome: Outcome, moment: Moment) -> Outcome {
        let (Ask::Send { dedup, cause, .. }, Outcome::Sent { sequence, id }) = (ask, &outcome) else {
            return outcome;
        };
        let told = id.unwrap_or_else(|| message_id(delays.mark, *sequence));
        self.counted(main, |state| {
            if *cause == Cause::Client {
                state.remember_delayed(dedup, told, moment);
            }
            state.last_send = moment;
        });
        self.alarms.set_next(delays);
        Outcome::Sent { sequence: *sequence, id: Some(told) }
    }

    /// Does something to a queue, and counts what it takes of memory from then on.
    pub(crate) fn counted<T>(&self, queue: &Queue, act: impl FnOnce(&mut State) -> T) -> T {
        let mut state = queue.state();
        let before = state.bytes_of_all();
        let done = act(&mut state);
        // The difference may be below zero: it wraps, and the sum wraps back.
        self.bytes_in_use.fetch_add(state.bytes_of_all().wrapping_sub(before), Ordering::Relaxed);
        done
    }

    /// What all queues take of memory, in bytes. What has become too old to count may be in it until `look_at_ages`.
    pub fn bytes_in_use(&self) -> u64 {
        self.bytes_in_use.load(Ordering::Relaxed)
    }

    /// What the queues of this program, its books and the names that it keeps take in the bytes of a store, by an estimate. Takes time
    /// in proportion to the number of queues.
    pub fn bytes_stored(&self, shard: Shard) -> u64 {
        let queues = self.all_and_delays().into_iter().filter(|queue| shard.has(&queue.name));
        let (of_messages, of_entries) = queues.fold((0, 0), |(messages, entries), queue| {
            let stored = queue.state().bytes_stored(self.keeps_copies);
            (messages + stored.messages, entries + stored.entries)
        });
        let names = STORED_NAME_BYTES * self.names.gone(shard.place());
        of_messages + of_entries.max(self.books.bytes_stored(shard.place())) + names
    }

    /// Takes out of the count what counts no more at this moment. Takes time in proportion to the number of queues.
    pub fn look_at_ages(&self, now: Moment) {
        for queue in self.all_and_delays() {
            self.counted(&queue, |state| state.look_at_ages(now));
        }
    }

    /// How many queues there are.
    pub fn count(&self) -> usize {
        self.by_name.read().unwrap_or_else(PoisonError::into_inner).len()
    }

    fn insert(&self, queue: &Arc<Queue>) {
        let mut queues = self.by_name.write().unwrap_or_else(PoisonError::into_inner);
        queues.insert(queue.name.clone(), queue.clone());
        self.bytes_in_use.fetch_add(queue.state().own_bytes(), Ordering::Relaxed);
    }

    fn remove(&self, place: usize, queue: &Arc<Queue>, removal: &Removal) {
        let is_nameless = self.nameless.get().is_some_and(|nameless| Arc::ptr_eq(nameless, queue));
        // Another queue may have its names once they have gone.
        let is_gone = queue.state().removed;
        if !is_nameless && !is_gone && queue.mark.0 == removal.mark {
            self.left_over.add(place, queue.store_names());
            self.forget(queue);
            queue.opened.notify_one();
        }
        self.remember_removal(removal);
    }

    /// This queue isn't there, whatever has the name by now.
    fn forget(&self, queue: &Arc<Queue>) {
        self.take_out(queue);
        let mut queues = self.by_name.write().unwrap_or_else(PoisonError::into_inner);
        if queues.get(&queue.name).is_some_and(|found| Arc::ptr_eq(found, queue)) {
            queues.remove(&queue.name);
        }
    }

    /// A queue is removed, and with it what is delayed of it.
    fn take_out(&self, queue: &Queue) {
        for queue in queue.delays().iter().map(Arc::as_ref).chain([queue]) {
            let parts = self.counted(queue, State::take_out);
            parts.into_iter().for_each(|number| self.parts.unname(number));
        }
    }

    /// A queue was removed.
    pub fn remember_removal(&self, removal: &Removal) {
        self.recent_removals().add(removal);
    }
}

fn next_number(last: &AtomicU64, shards: Shards, place: usize) -> u64 {
    let above = |number: u64| Some(shards.number_above(number, place));
    let before = last.fetch_update(Ordering::Relaxed, Ordering::Relaxed, above);
    shards.number_above(before.unwrap_or_else(|last| last), place)
}
