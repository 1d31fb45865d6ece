//! The book: a queue of the gateway's own in the store, in which stands what is said of queues. Each program has one.
//!
//! A message of it is an entry, one line of JSON. Of several entries about one thing the last counts.

use std::collections::{BTreeMap, BTreeSet};
use std::sync::{Mutex, MutexGuard, PoisonError};

use hobbychair_bytes::moment::Moment;
use hobbychair_sqs::attributes::QueueAttributes;
use hobbychair_sqs::texts::{AttemptId, QueueName};
use serde::{Deserialize, Serialize};
use uuid::Uuid;

use crate::limits::{MESSAGE_BYTES, STORED_MESSAGE_BYTES};
use crate::store_name::StoreName;
use crate::tasks::MoveTask;

/// What an entry says.
#[derive(Clone, Debug, PartialEq, Eq, Serialize, Deserialize)]
#[serde(rename_all = "lowercase")]
pub enum Entry {
    Queue(QueueEntry),
    Removed(Removal),
    /// How a task stands that moves messages out of the queue of this mark.
    Task(u64, MoveTask),
    /// Which program has the book, where programs keep their entries themselves.
    Program(ProgramEntry),
    /// Where programs do so: what a receive with an attempt id was given.
    Attempt(AttemptEntry),
    /// Where programs do so: by which request a receive with an attempt id asks, ahead of that.
    Asked(AttemptRequest),
    /// Where programs do so: of the time before a start at this moment so many milliseconds make no message older.
    Jump(Moment, u64),
    /// Which one of its program's books this is, from 1: their names are used again, and don't tell their order. Each says so
    /// before the next one is begun, so that the last is one that doesn't.
    Book(u64),
}

/// How a queue stands. A queue is there from its first entry on; its name in the store is created before.
#[derive(Clone, Debug, PartialEq, Eq, Serialize, Deserialize)]
pub struct QueueEntry {
    pub store: StoreName,
    pub name: QueueName,
    pub mark: u64,
    pub attributes: QueueAttributes,
    #[serde(default, skip_serializing_if = "BTreeMap::is_empty")]
    pub tags: BTreeMap<String, String>,
    pub created: Moment,
    pub modified: Moment,
    /// When its `DeduplicationScope` was changed the last time.
    #[serde(default, skip_serializing_if = "Option::is_none")]
    pub rescoped: Option<Moment>,
    #[serde(default, skip_serializing_if = "Option::is_none")]
    pub purged: Option<Moment>,
    #[serde(default, skip_serializing_if = "Option::is_none")]
    pub purging: Option<Purging>,
}

/// A purge that goes on: all messages up to these are being deleted.
#[derive(Clone, Copy, Debug, PartialEq, Eq, Serialize, Deserialize)]
pub struct Purging {
    pub up_to: u64,
    /// Of the queue beside a standard one, which has what is delayed.
    #[serde(default, skip_serializing_if = "is_zero")]
    pub delayed_up_to: u64,
}

/// A queue was removed at this moment. What the store has of it still goes after that.
#[derive(Clone, Debug, PartialEq, Eq, Serialize, Deserialize)]
pub struct Removal {
    pub name: QueueName,
    pub mark: u64,
    pub at: Moment,
}

/// A program that keeps its entries itself.
#[derive(Clone, Debug, PartialEq, Eq, Serialize, Deserialize)]
pub struct ProgramEntry {
    pub place: usize,
    /// How many share the queues.
    pub count: u32,
    /// By this the sends of copies to its queues are known from those of clients.
    pub secret: Uuid,
    /// That of the book, and of all else that the gateway has in the store.
    pub form: u32,
}

/// The form that books have which this build writes. It reads no others.
pub const FORM: u32 = 1;

impl ProgramEntry {
    /// That of the program at this place, whose book has this build's form.
    pub fn new(place: usize, count: u32, secret: Uuid) -> ProgramEntry {
        ProgramEntry { place, count, secret, form: FORM }
    }
}

/// The form of a book, as an entry of any build says it: 0 where it says which program has the book, and no form.
pub fn form_said_by(entry: &str) -> Option<u32> {
    #[derive(Deserialize)]
    struct FormEntry {
        program: Program,
    }
    #[derive(Deserialize)]
    struct Program {
        #[serde(default)]
        form: u32,
    }
    let may_say = entry.starts_with("{\"program\":");
    may_say.then(|| serde_json::from_str::<FormEntry>(entry).ok()).flatten().map(|said| said.program.form)
}

/// What a receive with an attempt id was given, out of the queue of this mark. It counts as long as its messages are in
/// flight by these handings, and up to this moment.
#[derive(Clone, Debug, PartialEq, Eq, Serialize, Deserialize)]
pub struct AttemptEntry {
    pub mark: u64,
    pub id: AttemptId,
    pub moment: Moment,
    pub until: Moment,
    /// Sequence numbers, and which handing of each this was.
    pub handed: Vec<(u64, u64)>,
}

/// The request by which a receive with an attempt id asks, of the queue of this mark. If the store has it as the client's last
/// one, its kept reply says what the attempt was given: nobody may have been told that.
#[derive(Clone, Debug, PartialEq, Eq, Serialize, Deserialize)]
pub struct AttemptRequest {
    pub mark: u64,
    pub id: AttemptId,
    pub moment: Moment,
    pub client: u32,
    pub number: u64,
}

fn is_zero(number: &u64) -> bool {
    *number == 0
}

impl QueueEntry {
    /// That of a queue of which nothing is said.
    pub fn plain(store: StoreName, name: QueueName, mark: u64) -> QueueEntry {
        let attributes = QueueAttributes::defaults(name.kind());
        QueueEntry::new(store, name, mark, attributes, BTreeMap::new(), 0)
    }

    /// That of a queue that is created at this moment.
    pub fn new(
        store: StoreName,
        name: QueueName,
        mark: u64,
        attributes: QueueAttributes,
        tags: BTreeMap<String, String>,
        created: Moment,
    ) -> QueueEntry {
        let modified = created;
        let (rescoped, purged, purging) = (None, None, None);
        QueueEntry { store, name, mark, attributes, tags, created, modified, rescoped, purged, purging }
    }
}

impl Entry {
    /// What stands in a book.
    pub fn text(&self) -> serde_json::Result<String> {
        serde_json::to_string(self)
    }

    /// What it takes of memory in a book, in bytes.
    pub fn size(&self) -> u64 {
        // Nothing in an entry can't be written.
        self.text().map_or(0, |text| size_of_text(&text))
    }
}

/// What an entry of this text takes of memory, in bytes.
pub fn size_of_text(text: &str) -> u64 {
    text.len() as u64 + MESSAGE_BYTES
}

/// One that the store has.
#[derive(Clone, Copy, Debug, Default)]
struct Book {
    number: u64,
    /// What its entries take of memory, and how many there are.
    size: u64,
    entries: u64,
    /// It says which program has it.
    has_program: bool,
    /// Which one it says that it is.
    order: Option<u64>,
}

/// The books of all programs, by their places: the last of each is the one that is written to, and the others are to be
/// removed once all that counts stands in it.
#[derive(Debug, Default)]
pub struct Books(Mutex<BTreeMap<usize, Vec<Book>>>);

impl Books {
    fn books(&self) -> MutexGuard<'_, BTreeMap<usize, Vec<Book>>> {
        self.0.lock().unwrap_or_else(PoisonError::into_inner)
    }

    /// The store has this one, and from now on it is written to.
    pub fn add(&self, place: usize, number: u64) {
        self.books().entry(place).or_default().push(Book { number, ..Book::default() });
    }

    /// The store hasn't got it any more. Tells what its entries took of memory.
    pub fn remove(&self, place: usize, number: u64) -> u64 {
        let mut books = self.books();
        let books = books.entry(place).or_default();
        let removed: u64 = books.iter().filter(|book| book.number == number).map(|book| book.size).sum();
        books.retain(|book| book.number != number);
        removed
    }

    /// An entry of this size stands in it. Tells what it takes of memory, if the book is there.
    pub fn count(&self, place: usize, number: u64, size: u64) -> u64 {
        if let Some(book) = self.books().entry(place).or_default().iter_mut().find(|book| book.number == number) {
            book.size += size;
            book.entries += 1;
            return size;
        }
        0
    }

    /// The book of this number says which one of its program's it is.
    pub fn order_said(&self, place: usize, number: u64, order: u64) {
        let mut books = self.books();
        let found = books.entry(place).or_default().iter_mut().find(|book| book.number == number);
        found.into_iter().for_each(|book| book.order = Some(order));
    }

    /// Which one the book that is written to is, where that is to be said before the next one is begun.
    pub fn order_to_say(&self, place: usize) -> Option<u64> {
        let books = self.books();
        let (current, earlier) = books.get(&place)?.split_last()?;
        let before = earlier.iter().filter_map(|book| book.order).max().unwrap_or(0);
        current.order.is_none().then_some(before + 1)
    }

    /// The book of this number says which program has it.
    pub fn program_said(&self, place: usize, number: u64) {
        let mut books = self.books();
        let found = books.entry(place).or_default().iter_mut().find(|book| book.number == number);
        found.into_iter().for_each(|book| book.has_program = true);
    }

    /// The one that is written to is to say once more which program has it, and what is said with that.
    pub fn program_is_unsaid(&self, place: usize) {
        self.books().entry(place).or_default().iter_mut().last().into_iter().for_each(|book| book.has_program = false);
    }

    /// Whether the one that is written to says which program has it.
    pub fn has_program(&self, place: usize) -> bool {
        self.books().get(&place).and_then(|books| books.last()).is_some_and(|book| book.has_program)
    }

    /// The number of the one that is written to.
    pub fn current(&self, place: usize) -> Option<u64> {
        self.books().get(&place)?.last().map(|book| book.number)
    }

    /// What its entries take of memory.
    pub fn bytes_of_current(&self, place: usize) -> u64 {
        self.books().get(&place).and_then(|books| books.last()).map_or(0, |book| book.size)
    }

    /// What those of this program take in the bytes of a store, by an estimate for what stands beside texts.
    pub fn bytes_stored(&self, place: usize) -> u64 {
        let less = MESSAGE_BYTES - STORED_MESSAGE_BYTES;
        self.books().get(&place).map_or(0, |books| books.iter().map(|book| book.size - less * book.entries).sum())
    }

    /// The numbers of those before it, the first one first. They go in this order: an earlier one alone would say of queues that
    /// are gone by a later one that they are there.
    pub fn earlier(&self, place: usize) -> Vec<u64> {
        let books = self.books();
        let (_, earlier) = books.get(&place).and_then(|books| books.split_last()).unzip();
        earlier.map_or(Vec::new(), |books| books.iter().map(|book| book.number).collect())
    }
}

/// Names that the store has and that no queue goes by, and the places of the programs that have them. They are to go.
#[derive(Debug, Default)]
pub struct LeftOver(Mutex<BTreeSet<(usize, StoreName)>>);

impl LeftOver {
    fn names(&self) -> MutexGuard<'_, BTreeSet<(usize, StoreName)>> {
        self.0.lock().unwrap_or_else(PoisonError::into_inner)
    }

    /// These are to go of this program, too.
    pub fn add(&self, place: usize, names: impl IntoIterator<Item = StoreName>) {
        self.names().extend(names.into_iter().map(|name| (place, name)));
    }

    /// These, and no others, are to go of this program.
    pub fn set(&self, place: usize, names: impl IntoIterator<Item = StoreName>) {
        self.names().retain(|(own, _)| *own != place);
        self.add(place, names);
    }

    /// This one has gone.
    pub fn remove(&self, place: usize, name: StoreName) {
        self.names().remove(&(place, name));
    }

    /// Whether this one is to go.
    pub fn has(&self, place: usize, name: StoreName) -> bool {
        self.names().contains(&(place, name))
    }

    /// Those that are to go of this program.
    pub fn of(&self, place: usize) -> Vec<StoreName> {
        self.names().iter().filter(|(own, _)| *own == place).map(|(_, name)| *name).collect()
    }
}

#[cfg(test)]
mod tests {
    use hobbychair_bytes::values::STORE_LIMIT_BYTES;
    use hobbychair_sqs::texts::QueueKind;

    use super::*;

    #[test]
    fn the_longest_entry_of_a_queue_fits_into_the_store() {
        let padded = |rest: &str| format!("{{{}{rest}}}", "\n".repeat(8_190 - rest.len()));
        let target = "\"deadLetterTargetArn\":\"arn:aws:sqs:x:000000000000:dead.fifo\"";
        let given = [
            ("Policy", padded("\"Statement\":{}")),
            ("RedrivePolicy", padded(target)),
            ("RedriveAllowPolicy", padded("\"redrivePermission\":\"allowAll\"")),
            ("FifoQueue", "true".into()),
            ("KmsMasterKeyId", "k".repeat(2_048)),
        ];
        let given: Vec<_> = given.into_iter().map(|(name, value)| (name.to_string(), value)).collect();
        let given = hobbychair_sqs::attributes::GivenAttributes::read(QueueKind::Fifo, &given).unwrap();
        let attributes = QueueAttributes::for_creation(QueueKind::Fifo, &given).unwrap();
        let tags = (0..50).map(|place| (format!("{place:0>2}{}", "\u{10400}".repeat(126)), "\u{10400}".repeat(256)));
        let name = QueueName::parse(&format!("{}.fifo", "q".repeat(75))).unwrap();
        let entry = QueueEntry::new(StoreName(u64::MAX >> 3), name, u64::MAX, attributes, tags.collect(), u64::MAX);
        let text = serde_json::to_string(&Entry::Queue(entry.clone())).unwrap();
        assert!((120_000..STORE_LIMIT_BYTES).contains(&text.len()), "{}", text.len());
        assert_eq!(serde_json::from_str::<Entry>(&text).unwrap(), Entry::Queue(entry));
    }

    #[test]
    fn the_last_book_is_written_to_and_each_is_counted_until_it_goes() {
        let books = Books::default();
        assert_eq!((books.current(0), books.earlier(0)), (None, vec![]));
        books.add(0, 2);
        books.add(1, 3);
        assert_eq!((books.count(0, 2, 10), books.count(0, 4, 10)), (10, 0));
        books.add(0, 4);
        assert_eq!((books.current(0), books.earlier(0), books.current(1)), (Some(4), vec![2], Some(3)));
        // One that was asked before.
        assert_eq!(books.count(0, 2, 15), 15);
        books.add(0, 6);
        assert_eq!(books.earlier(0), [2, 4], "the first one goes first");
        books.remove(0, 6);
        assert_eq!((books.bytes_of_current(0), books.remove(0, 2)), (0, 25));
        assert_eq!((books.current(0), books.earlier(0), books.remove(0, 2)), (Some(4), vec![], 0));
    }

    #[test]
    fn each_book_says_which_one_it_is_before_the_next_is_begun() {
        let books = Books::default();
        assert_eq!(books.order_to_say(0), None);
        books.add(0, 2);
        assert_eq!(books.order_to_say(0), Some(1));
        books.order_said(0, 2, 1);
        assert_eq!(books.order_to_say(0), None, "it says so");
        books.add(0, 1);
        assert_eq!(books.order_to_say(0), Some(2));
        books.remove(0, 2);
        books.order_said(0, 1, 2);
        books.add(0, 2);
        assert_eq!(books.order_to_say(0), Some(3));
    }
}
