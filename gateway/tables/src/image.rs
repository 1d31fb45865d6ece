//! Tables that are made of a store's bytes. All that the gateway has to know of queues and messages stands there: what is
//! said of queues in books, and of messages in their places.

#[cfg(test)]
mod tests;

use std::collections::{BTreeMap, HashMap};
use std::sync::atomic::{AtomicU64, Ordering};
use std::sync::Arc;

use hobbychair_bytes::moment::Moment;
use hobbychair_bytes::values::{Fault, Part, QueuePart, Receipt, StoreReader};
use hobbychair_sqs::envelope::EnvelopeHead;
use hobbychair_sqs::handles::Origin;
use hobbychair_sqs::texts::{fingerprint_of, AttemptId, CallKey};
use thiserror::Error;

use crate::book::{form_said_by, size_of_text, AttemptEntry, AttemptRequest, Entry, FORM};
use crate::copies::CopyId;
use crate::groups::Group;
use crate::queue::Queue;
use crate::queues::Queues;
use crate::shards::Shard;
use crate::store_name::StoreName;
use crate::stored::{AcceptedSend, Named, StoredHead, StoredMessage, StoredQueue};
use crate::tasks::MoveTask;

/// Why there are no tables of a store's bytes.
#[derive(Debug, Error)]
pub enum ImageError {
    #[error("the store's bytes can't be read: {0}")]
    Bytes(#[from] Fault),
    #[error("the store has {0} as no gateway leaves it: {1}")]
    Foreign(String, &'static str),
    #[error("its book has the form {0}, and those of this build have {own}", own = FORM)]
    OtherForm(u32),
}

/// Of clients whose last request handed messages out: its number, and the receipts.
type HandedReceipts = HashMap<u32, (u64, Vec<Receipt>)>;

/// What the bytes of one program's store say, as far as the tables need it.
#[derive(Default)]
pub struct Image {
    reader: StoreReader,
    /// Messages are to be looked at, so their texts are kept.
    keeps_copies: bool,
    last: Moment,
    largest_number: u64,
    handed: HandedReceipts,
    /// The names that the store has had, and those of their queues that live.
    names: BTreeMap<StoreName, StoredName>,
    current: Option<StoreName>,
    /// The numbers of parts that were removed, and when.
    removed_parts: Vec<(u64, Moment)>,
    /// A queue that has a message which is no envelope. In the store of another build there may be such, and its book says of which.
    foreign: Option<StoreName>,
    /// How many bytes of messages in flight are kept, since attempts may have been given them.
    in_flight: usize,
    /// Rises by each byte that is read and each message of the tables, so that others see that this moves on.
    far: Arc<AtomicU64>,
}

/// Numbers of requests rise by one, and so far none comes.
const LARGEST: u64 = u64::MAX / 2;

/// No more of these are kept. Whatever attempt was given others is forgotten.
const MOST_BYTES_IN_FLIGHT: usize = 64 << 20;

/// A name as the store has it.
struct StoredName {
    /// How many queues of this name there have been, and when the last one was removed that was.
    creations: u64,
    removed: Option<Moment>,
    queue: Option<StoredQueue>,
}

impl StoredName {
    /// When it went; nothing where it is there.
    fn gone(&self) -> Option<Moment> {
        self.queue.is_none().then(|| self.removed.unwrap_or(0))
    }
}

impl Image {
    /// `keeps_copies`: messages are to be looked at.
    pub fn new(keeps_copies: bool) -> Image {
        Image { keeps_copies, ..Image::default() }
    }

    /// The same, which counts how far it is, and how far its tables are, by this.
    pub fn counted_by(self, far: Arc<AtomicU64>) -> Image {
        Image { far, ..self }
    }

    /// Takes up a chunk of the store.
    pub fn feed(&mut self, chunk: &[u8]) -> Result<(), ImageError> {
        self.far.fetch_add(chunk.len() as u64, Ordering::Relaxed);
        let mut reader = std::mem::take(&mut self.reader);
        reader.feed(chunk, |part| self.take(&part))?;
        self.reader = reader;
        Ok(())
    }

    /// The moment of the last entry that the store took, or 0.
    pub fn last(&self) -> Moment {
        self.last
    }

    /// The largest number that a client has used, or 0.
    pub fn largest_number(&self) -> u64 {
        self.largest_number
    }

    fn take(&mut self, part: &Part<'_>) {
        match part {
            Part::Start { last, .. } => self.last = *last,
            Part::Client { client, number, handed } => {
                self.largest_number = self.largest_number.max(*number);
                let receipts = handed.receipts();
                if !receipts.is_empty() {
                    self.handed.insert(*client, (*number, receipts));
                }
            }
            Part::Name { .. } => self.take_name(part),
            Part::Message { .. } => self.take_message(part),
            Part::Accepted { id, moment, sequence } => {
                if let Some(queue) = self.current_queue() {
                    let (call, copy) = (CallKey::of(id), CopyId::read(id));
                    let (fingerprint, moment, sequence) = (fingerprint_of(id), *moment, *sequence);
                    queue.accepted.push(AcceptedSend { call, fingerprint, copy, moment, sequence });
                }
            }
            Part::End => {}
        }
    }

    /// Names that aren't the gateway's are passed over.
    fn take_name(&mut self, part: &Part<'_>) {
        let Part::Name { name, creations, removed, queue } = *part else { return };
        self.current = StoreName::parse(name);
        if let Some(store) = self.current {
            if let (Some(number), Some(removed), None) = (store.parts(), removed, queue) {
                self.removed_parts.push((number, removed));
            }
            let of_queue = |queue: QueuePart| {
                let QueuePart { incarnation, sent, .. } = queue;
                StoredQueue { incarnation, sent, ..StoredQueue::default() }
            };
            self.names.insert(store, StoredName { creations, removed, queue: queue.map(of_queue) });
        }
    }

    fn current_queue(&mut self) -> Option<&mut StoredQueue> {
        self.names.get_mut(&self.current?)?.queue.as_mut()
    }

    fn take_message(&mut self, part: &Part<'_>) {
        let Part::Message { sequence, group, body, handings, handed, until } = *part else { return };
        let is_in_flight = until > self.last && self.in_flight + body.len() <= MOST_BYTES_IN_FLIGHT;
        if is_in_flight {
            self.in_flight += body.len();
        }
        let (is_kept, store) = (self.keeps_copies || is_in_flight, self.current);
        let (Some(store), Some(queue)) = (store, self.current_queue()) else { return };
        if store.book().is_some() {
            queue.entries.push(body.into());
        } else if store.parts().is_none() {
            let Some(head) = EnvelopeHead::of(body) else {
                self.foreign = Some(store);
                return;
            };
            queue.messages.push(StoredMessage {
                sequence,
                group: Group::of(group),
                head: StoredHead::of(head),
                bytes: body.len() as u64,
                handings,
                handed,
                until,
                text: is_kept.then(|| (group.into(), body.into())),
            });
        }
    }
}

impl Queues {
    /// An image for these tables, of a store that is still to be told.
    pub fn new_image(&self) -> Image {
        Image::new(self.keeps_copies)
    }

    /// Takes up what the store of a program has. Of no queue of it anything was known.
    pub fn take_up(&self, shard: Shard, image: Image) -> Result<(), ImageError> {
        let place = shard.place();
        image.reader.end()?;
        if image.largest_number > LARGEST {
            return Err(ImageError::Foreign(image.largest_number.to_string(), "no request has such a number"));
        }
        image.names.keys().for_each(|name| self.saw_store_name(*name));
        let names = image.names.iter().filter(|(name, stored)| name.parts().is_none() && stored.creations > 0);
        self.names.find(place, names.map(|(name, stored)| (*name, stored.creations, stored.gone())));
        let living = image.names.into_iter().filter_map(|(name, stored)| Some((name, stored.queue?)));
        let (books, mut living): (BTreeMap<_, _>, BTreeMap<_, _>) = living.partition(|(name, _)| name.book().is_some());
        test_forms(&books)?;
        if let Some(store) = image.foreign {
            return Err(ImageError::Foreign(store.to_string(), "a message of it is no envelope"));
        }
        let BookContents { by_mark, mut attempts, mut asked, .. } = self.take_up_books(shard, books)?;
        let is_there = |queue: &Arc<Queue>| self.find(&queue.name).is_some_and(|found| Arc::ptr_eq(&found, queue));
        for (mark, queue) in by_mark.into_iter().filter(|(_, queue)| is_there(queue)) {
            let store = queue.state().entry.store;
            let not_there = || ImageError::Foreign(store.to_string(), "a book says of it, and it isn't there");
            let mut stored = living.remove(&store).ok_or_else(not_there)?;
            stored.attempts = attempts.remove(&mark).unwrap_or_default();
            let asked = asked.remove(&mark).unwrap_or_default();
            stored.untold = asked.into_iter().filter_map(|asked| untold(&image.handed, asked)).collect();
            self.take_up_copies(place, &stored.accepted);
            self.names.use_by(place, store, &queue.in_use);
            let copied = self.take_up_messages(&queue, stored, (image.last, &image.far));
            if let Some(stored) = living.remove(&store.of_delays()) {
                let delays = Arc::new(Queue::beside(&queue, store).0);
                self.names.use_by(place, store.of_delays(), &delays.in_use);
                self.created(place, &delays, store.of_delays());
                self.take_up_delayed(&queue, &delays, stored, (image.last, &image.far));
                let mut state = delays.state();
                let of_delayed = copied.iter().filter(|origin| origin.mark == delays.mark.0);
                of_delayed.for_each(|origin| state.has_copy(origin.sequence));
            }
        }
        living.keys().filter_map(|name| name.parts()).for_each(|number| self.parts.found(number));
        image.removed_parts.into_iter().for_each(|(number, moment)| self.parts.was_removed(number, moment));
        // No queue goes by the others.
        self.left_over.set(place, living.into_keys().filter(|name| name.parts().is_none()));
        Ok(())
    }

    /// Takes up what books say, in their order.
    fn take_up_books(
        &self,
        shard: Shard,
        books: BTreeMap<StoreName, StoredQueue>,
    ) -> Result<BookContents<'_>, ImageError> {
        let place = shard.place();
        let mut told = BookContents::new(self, place);
        for (_, number, entries) in in_order(shard, books)? {
            self.books.add(place, number);
            for (entry, size) in entries {
                self.count_entry(place, number, size);
                told.take(&entry, number, size);
            }
        }
        Ok(told)
    }

    /// Takes up which messages have copies here, also where these are gone by now.
    fn take_up_copies(&self, place: usize, accepted: &[AcceptedSend]) {
        let Some(secret) = self.secret(place) else { return };
        let copies = accepted.iter().filter_map(|send| send.copy.as_ref()?.origin(secret));
        copies.for_each(|origin| self.copies.mark_copied(origin));
    }

    /// Takes up the messages of a queue, and counts them. Tells of which messages they are copies.
    fn take_up_messages(
        &self,
        queue: &Arc<Queue>,
        stored: StoredQueue,
        (last, far): (Moment, &AtomicU64),
    ) -> Vec<Origin> {
        let taken_up = self.counted(queue, |state| state.take_up(stored, (last, far), self.keeps_copies));
        let Named { parts, origins } = taken_up;
        parts.into_iter().for_each(|number| self.parts.name(number));
        origins.iter().for_each(|origin| self.copies.mark_copied(*origin));
        origins
    }

    /// The same of a queue beside another, which has what is delayed.
    fn take_up_delayed(
        &self,
        queue: &Arc<Queue>,
        delays: &Arc<Queue>,
        stored: StoredQueue,
        (last, far): (Moment, &AtomicU64),
    ) {
        self.counted(queue, |state| state.take_up_delayed_calls(delays.mark, &stored.accepted, last));
        self.take_up_messages(delays, stored, (last, far));
        let purging = queue.state().entry.purging;
        delays.state().purge_with(purging);
        self.alarms.set_next(delays);
    }
}

/// Refuses books of another build, before anything of that is read as if it were of this one.
fn test_forms(books: &BTreeMap<StoreName, StoredQueue>) -> Result<(), ImageError> {
    let entries = books.values().flat_map(|book| &book.entries);
    let other = entries.filter_map(|text| form_said_by(text)).find(|form| *form != FORM);
    other.map_or(Ok(()), |form| Err(ImageError::OtherForm(form)))
}

/// What an attempt was given by a request that is its client's last one.
fn untold(handed: &HandedReceipts, asked: AttemptRequest) -> Option<(AttemptId, Vec<Receipt>)> {
    let (_, receipts) = handed.get(&asked.client).filter(|(number, _)| *number == asked.number)?;
    Some((asked.id, receipts.clone()))
}

/// Books in the order in which they were begun, with their numbers and their entries, and what each of these takes of memory.
type ReadBooks = Vec<(u64, u64, Vec<(Entry, u64)>)>;

/// The last is the one that doesn't say which one it is.
fn in_order(shard: Shard, books: BTreeMap<StoreName, StoredQueue>) -> Result<ReadBooks, ImageError> {
    let mut read = ReadBooks::new();
    for (name, book) in books {
        let Some(number) = name.book() else { continue };
        let entries = entries_of(shard, name, book)?;
        let orders = entries.iter().filter_map(|(entry, _)| match entry {
            Entry::Book(order) => Some(*order),
            _ => None,
        });
        read.push((orders.max().unwrap_or(u64::MAX), number, entries));
    }
    read.sort_unstable_by_key(|(order, ..)| *order);
    Ok(read)
}

fn entries_of(shard: Shard, name: StoreName, book: StoredQueue) -> Result<Vec<(Entry, u64)>, ImageError> {
    let no_entry = |_| ImageError::Foreign(name.to_string(), "a message of it is no entry of a book");
    let read = |text: &String| Ok((serde_json::from_str(text).map_err(no_entry)?, size_of_text(text)));
    let entries = book.entries.iter().map(read).collect::<Result<Vec<(Entry, u64)>, ImageError>>()?;
    if !entries.iter().all(|(entry, _)| is_of_program(entry, shard)) {
        let why = "it is that of another program, or of another number of programs (--shards)";
        return Err(ImageError::Foreign(name.to_string(), why));
    }
    Ok(entries)
}

/// Whether an entry that says which program has its book says that of this one.
fn is_of_program(entry: &Entry, shard: Shard) -> bool {
    match entry {
        Entry::Program(program) => (program.place, program.count) == (shard.place(), shard.count()),
        _ => true,
    }
}

/// What books have said so far.
struct BookContents<'a> {
    queues: &'a Queues,
    place: usize,
    by_mark: HashMap<u64, Arc<Queue>>,
    /// Tasks of queues of which nothing was said yet: where a book was begun anew, they stand before their queue.
    tasks: HashMap<u64, Vec<(MoveTask, u64, u64)>>,
    attempts: HashMap<u64, Vec<AttemptEntry>>,
    asked: HashMap<u64, Vec<AttemptRequest>>,
}

impl BookContents<'_> {
    fn new(queues: &Queues, place: usize) -> BookContents<'_> {
        let (by_mark, tasks, attempts, asked) = Default::default();
        BookContents { queues, place, by_mark, tasks, attempts, asked }
    }

    fn take(&mut self, entry: &Entry, book: u64, size: u64) {
        let (queues, place) = (self.queues, self.place);
        match entry {
            Entry::Queue(said) => {
                let queue = self.by_mark.entry(said.mark).or_insert_with(|| Arc::new(Queue::new(said))).clone();
                queues.said(place, &queue, entry, book, size);
                for (task, book, size) in self.tasks.remove(&said.mark).unwrap_or_default() {
                    queues.said(place, &queue, &Entry::Task(said.mark, task), book, size);
                }
            }
            Entry::Removed(removal) => match self.by_mark.get(&removal.mark) {
                Some(queue) => queues.said(place, queue, entry, book, size),
                None => queues.remember_removal(removal),
            },
            Entry::Task(mark, task) => match self.by_mark.get(mark) {
                Some(queue) => queues.said(place, queue, entry, book, size),
                None => self.tasks.entry(*mark).or_default().push((task.clone(), book, size)),
            },
            Entry::Attempt(attempt) => self.attempts.entry(attempt.mark).or_default().push(attempt.clone()),
            Entry::Asked(asked) => self.asked.entry(asked.mark).or_default().push(asked.clone()),
            Entry::Program(program) => queues.program_said(program, book),
            Entry::Jump(moment, uncounted) => queues.jumps.add(*moment, *uncounted),
            Entry::Book(order) => queues.books.order_said(place, book, *order),
        }
    }
}
