//! Tables that live beside stores by the rules, and random work on both, for tests.

use std::collections::{BTreeMap, BTreeSet};
use std::sync::Arc;

use hobbychair_bytes::moment::Moment;
use hobbychair_bytes::values::{Receipt, StoreReply};
use hobbychair_sqs::attributes::GivenAttributes;
use hobbychair_sqs::envelope::{parts_of, Envelope, EnvelopeHead};
use hobbychair_sqs::errors::SqsError;
use hobbychair_sqs::handles::Origin;
use hobbychair_sqs::texts::{AttemptId, DedupId, GroupId, QueueKind, QueueName};
use proptest::prelude::*;
use proptest::sample::{select, Index};
use uuid::Uuid;

use crate::ask::{Ask, Cause, Changer, Handed, Outcome, PartsAsk, PartsCause, Reach, TableChange};
use crate::book::{Entry, ProgramEntry, QueueEntry};
use crate::by_rules::StoreByRules;
use crate::copies::CopyId;
use crate::queue::Queue;
use crate::queues::Queues;
use crate::shards::Shards;
use crate::store_name::StoreName;
use crate::tasks::{MoveTask, Status};

const NAMES: [&str; 4] = ["a", "b.fifo", "c", "d.fifo"];

#[derive(Clone, Debug)]
pub enum Step {
    Create,
    Remove,
    Tag(u8),
    Untag(u8),
    Timeout(u8),
    Purging,
    Purged,
    /// The last task, or a new one, stands so.
    Task(bool, u64),
    /// The first message is moved to the other queue of its kind, as a task does it.
    Move,
    /// The same, as a dead letter.
    MoveDead,
    /// Where the other queue is with another program, all is received and deleted there before the original goes.
    MoveAndConsume,
    /// The first delayed message is moved into its queue.
    MoveDue,
    Send,
    /// A call sends it, which may be repeated.
    SendByCall(u8),
    /// It is too long for the store.
    SendLarge,
    Delay,
    /// All messages of a FIFO queue are delayed so long.
    DelayAll(u32),
    /// So many messages are received, and hidden for so many seconds.
    Receive(u8, u32),
    /// Some messages of a FIFO queue are received under an attempt id, or once more.
    Attempt(u8),
    /// A message that was received is hidden for so many seconds from now on.
    Change(Index, u32),
    /// It is deleted.
    Delete(Index),
    /// Parts go that no message names.
    RemoveParts,
    /// The first message is received, and deleted or not.
    Take(bool),
    BeginBook,
    EndBook,
    RemoveLeftOver,
    Wait(u64),
}

/// What is done to a queue of this name, or to the books of the program that has it.
pub type Steps = Vec<(&'static str, Step)>;

pub fn steps() -> impl Strategy<Value = Steps> {
    let step = prop_oneof![
        6 => Just(Step::Create),
        2 => Just(Step::Remove),
        2 => (0..3u8).prop_map(Step::Tag),
        1 => (0..3u8).prop_map(Step::Untag),
        2 => (0..3u8).prop_map(Step::Timeout),
        2 => Just(Step::Purging),
        1 => Just(Step::Purged),
        2 => (any::<bool>(), 0..9u64).prop_map(|(is_new, moved)| Step::Task(is_new, moved)),
        4 => Just(Step::Move),
        2 => Just(Step::MoveDead),
        2 => Just(Step::MoveAndConsume),
        2 => Just(Step::MoveDue),
        6 => Just(Step::Send),
        3 => (0..3u8).prop_map(Step::SendByCall),
        1 => Just(Step::SendLarge),
        3 => Just(Step::Delay),
        1 => select(vec![0u32, 5, 60]).prop_map(Step::DelayAll),
        4 => (1..=3u8, select(vec![0u32, 1, 30, 43_200])).prop_map(|(size, visibility)| Step::Receive(size, visibility)),
        3 => (0..2u8).prop_map(Step::Attempt),
        2 => (any::<Index>(), select(vec![0u32, 30])).prop_map(|(which, visibility)| Step::Change(which, visibility)),
        3 => any::<Index>().prop_map(Step::Delete),
        1 => Just(Step::RemoveParts),
        4 => any::<bool>().prop_map(Step::Take),
        2 => Just(Step::BeginBook),
        2 => Just(Step::EndBook),
        2 => Just(Step::RemoveLeftOver),
        2 => select(vec![1u64, 1000, 30_000, 60_000, 240_000, 360_000]).prop_map(Step::Wait),
    ];
    proptest::collection::vec((select(NAMES.to_vec()), step), 1..60)
}

/// All that the tables tell of queues, as far as the bytes of the stores tell it, and what it is used for.
#[derive(Clone, Debug, PartialEq)]
pub struct Told {
    queues: Vec<String>,
    removals: BTreeSet<String>,
    books: Vec<(Option<u64>, Vec<u64>, u64)>,
    parts: Vec<String>,
    names: Vec<String>,
    /// The last numbers of names.
    numbers: [u64; 3],
    /// Without what attempts were given, and that.
    bytes: u64,
    pub attempts: Vec<(u64, Vec<String>)>,
}

pub fn told(queues: &Queues, shards: Shards, now: Moment) -> Told {
    queues.look_at_ages(now);
    let of_queue = |queue: &Arc<Queue>| {
        let delays = queue.delays().map(|delays| {
            let purging = delays.state().purging().unwrap_or(0);
            (purging, delays.mark, delays.state().told_by_bytes(now))
        });
        format!("{} {:?} {delays:?}", queue.state().told_by_bytes(now), queue.mark)
    };
    let attempts: Vec<_> = queues.all().iter().map(|queue| queue.state().attempts_told()).collect();
    let book = |place| {
        let books = queues.books();
        (books.current(place), books.earlier(place), books.bytes_of_current(place))
    };
    Told {
        queues: queues.all().iter().map(of_queue).collect(),
        removals: queues.removals(now).iter().map(|removal| format!("{removal:?}")).collect(),
        books: (0..shards.count() as usize).map(book).collect(),
        parts: queues.parts().told(),
        names: queues.names().told(),
        numbers: queues.last_numbers(),
        bytes: queues.bytes_in_use() - attempts.iter().map(|(bytes, _)| bytes).sum::<u64>(),
        attempts,
    }
}

/// The secret of the program at this place.
fn secret_of(place: usize) -> Uuid {
    Uuid::from_u128(place as u128)
}

/// What was there behind a request.
pub struct Seen {
    pub now: Moment,
    /// The names by which queues go.
    pub used: BTreeSet<StoreName>,
    /// What the bytes of the stores tell of the tables, and these stores.
    pub told: Told,
    pub stores: Vec<StoreByRules>,
    /// The last request belongs to an attempt, and no book says that yet.
    pub is_attempt_unsaid: bool,
    /// The messages that had a copy by then.
    pub copied: Vec<Origin>,
}

impl Seen {
    pub fn there(&self) -> BTreeSet<StoreName> {
        self.stores.iter().flat_map(StoreByRules::there).collect()
    }
}

/// Tables that live beside stores, which keep their own journals.
pub struct Living {
    pub queues: Queues,
    pub shards: Shards,
    stores: Vec<StoreByRules>,
    now: Moment,
    sends: u64,
    tasks: u64,
    /// What was there behind each request that did something.
    pub seen: Vec<Seen>,
    is_attempt_unsaid: bool,
    copied: Vec<Origin>,
}

impl Living {
    /// `keeps_copies`: messages are to be looked at.
    pub fn new(shards: Shards, keeps_copies: bool) -> Living {
        let stores = vec![StoreByRules::default(); shards.count() as usize];
        let (queues, seen, copied) = (Queues::new(keeps_copies), Vec::new(), Vec::new());
        let (now, sends, tasks, is_attempt_unsaid) = (1000, 0, 0, false);
        let mut living = Living { queues, shards, stores, now, sends, tasks, seen, is_attempt_unsaid, copied };
        shards.all().for_each(|shard| living.begin_book(shard.place()));
        living
    }

    fn ask(&mut self, queue: &Arc<Queue>, ask: Ask) -> Result<Outcome, SqsError> {
        let (place, own) = (self.shards.place_of(&queue.name), queue.state().entry.store);
        let place = match &ask {
            Ask::Create { store, .. } | Ask::Remove { store } if store.book().is_some() => {
                self.shards.place_of_number(store.book().unwrap())
            }
            Ask::Remove { store } => self.shards.place_of_number(store.main().unwrap_or(*store).0),
            Ask::Say { book: number, .. } | Ask::Parts { number, .. } => self.shards.place_of_number(*number),
            _ => place,
        };
        let reply = self.stores[place].reply(&ask.written(own), self.now);
        let refused = matches!(reply, StoreReply::Refused(_));
        let outcome = self.queues.apply_reply(place, queue, &ask, reply, self.now)?;
        if !refused {
            self.see();
        }
        Ok(outcome)
    }

    fn see(&mut self) {
        let used = self.queues.all().iter().flat_map(|queue| queue.store_names()).collect();
        let (now, told) = (self.now, told(&self.queues, self.shards, self.now));
        let (stores, copied, is_attempt_unsaid) = (self.stores.clone(), self.copied.clone(), self.is_attempt_unsaid);
        self.seen.push(Seen { now, used, told, stores, is_attempt_unsaid, copied });
    }

    fn nameless(&self) -> Arc<Queue> {
        self.queues.nameless().unwrap()
    }

    fn say(&mut self, queue: &Arc<Queue>, place: usize, entry: Entry) {
        let book = self.queues.books().current(place).unwrap();
        let text = entry.text().unwrap();
        self.ask(queue, Ask::Say { book, entry: Arc::new(entry), text }).unwrap();
    }

    fn change(&mut self, queue: &Arc<Queue>, change: TableChange) {
        if let Some(entry) = queue.entry_after(&change, self.now) {
            self.say(queue, self.shards.place_of(&queue.name), entry);
        }
    }

    fn begin_book(&mut self, place: usize) {
        let order = self.queues.books().order_to_say(place);
        order.into_iter().for_each(|order| self.say(&self.nameless(), place, Entry::Book(order)));
        let number = self.queues.next_book(self.shards, place, self.now);
        let store = StoreName::of_book(number);
        self.ask(&self.nameless(), Ask::Create { store, visibility: 0, bytes: 0 }).unwrap();
        let attempts: Vec<_> = self.queues.all().iter().flat_map(|queue| queue.state().entries_of_attempts()).collect();
        let of_place = attempts.into_iter().filter(|entry| {
            let Entry::Attempt(attempt) = entry else { return false };
            let of_mark = self.queues.all().into_iter().find(|queue| queue.mark.0 == attempt.mark);
            of_mark.is_some_and(|queue| self.shards.place_of(&queue.name) == place)
        });
        of_place.collect::<Vec<_>>().into_iter().for_each(|entry| self.say(&self.nameless(), place, entry));
        let program = ProgramEntry::new(place, self.shards.count(), secret_of(place));
        self.say(&self.nameless(), place, Entry::Program(program));
    }

    fn end_book(&mut self, place: usize) {
        let current = self.queues.books().current(place);
        for queue in self.queues.all() {
            let unsaid = queue.state().unsaid_in(current.unwrap());
            if self.shards.place_of(&queue.name) == place {
                unsaid.into_iter().for_each(|change| self.change(&queue, change));
            }
        }
        let earlier = self.queues.books().earlier(place);
        if !earlier.is_empty() {
            for removal in self.queues.removals(self.now) {
                if self.shards.place_of(&removal.name) == place {
                    self.say(&self.nameless(), place, Entry::Removed(removal));
                }
            }
        }
        for number in earlier {
            self.ask(&self.nameless(), Ask::Remove { store: StoreName::of_book(number) }).unwrap();
        }
    }

    fn create(&mut self, name: &QueueName, place: usize) {
        let store = self.queues.next_store_name(self.shards, place, self.now);
        let entry = QueueEntry::plain(store, name.clone(), rand::random());
        let queue = Arc::new(Queue::new(&entry));
        self.ask(&queue, Ask::Create { store, visibility: 30, bytes: 1 }).unwrap();
        self.change(&queue, TableChange::Created);
    }

    /// The group of the next message. In a standard queue each has its own.
    fn next_group(&self, queue: &Queue) -> GroupId {
        let group = match queue.name.kind() {
            QueueKind::Fifo => self.sends % 3,
            QueueKind::Standard => self.sends,
        };
        GroupId::parse(&group.to_string()).unwrap()
    }

    fn send(&mut self, queue: &Arc<Queue>, due: Option<Moment>) {
        self.sends += 1;
        let dedup = DedupId::parse(&self.sends.to_string()).unwrap();
        self.send_by(queue, dedup, due);
    }

    fn send_by(&mut self, queue: &Arc<Queue>, dedup: DedupId, due: Option<Moment>) {
        let due = due.map_or(String::new(), |due| format!(",\"due\":{due}"));
        let envelope = Envelope::from(format!("{{\"sent\":{}{due}}}\nbody {}", self.now, self.sends));
        let group = self.next_group(queue);
        let _ = self.ask(queue, Ask::Send { group, dedup, envelope, cause: Cause::Client });
    }

    fn send_by_call(&mut self, queue: &Arc<Queue>, call: u8) {
        self.sends += 1;
        let dedup = DedupId::of_call(&[call; 32], None);
        if queue.name.kind() == QueueKind::Standard && queue.state().sent_by(&dedup, self.now).is_some() {
            return;
        }
        match queue.delays() {
            Some(delays) if self.sends % 2 == 0 => self.send_by(&delays, dedup, Some(self.now + 5000)),
            _ => self.send_by(queue, dedup, None),
        }
    }

    fn send_large(&mut self, queue: &Arc<Queue>) {
        self.sends += 1;
        let place = self.shards.place_of(&queue.name);
        let number = self.queues.parts().next_number(self.shards, place, Some(self.now));
        let whole = format!("{{\"sent\":{}}}\nlarge {}", self.now, self.sends);
        let head = EnvelopeHead::of(&whole).unwrap();
        let mut asks = vec![PartsAsk::Create(PartsCause::Client)];
        let part = |(place, text): (usize, &str)| PartsAsk::Add(PartsCause::Client, place, text.into());
        asks.extend(parts_of(&whole).into_iter().enumerate().map(part));
        for ask in asks {
            self.ask(&self.nameless(), Ask::Parts { number, ask }).unwrap();
        }
        let (group, dedup) = (self.next_group(queue), DedupId::parse(&self.sends.to_string()).unwrap());
        let envelope = head.in_place(number, whole.len()).unwrap();
        let _ = self.ask(queue, Ask::Send { group, dedup, envelope, cause: Cause::Client });
        self.queues.parts().settle(number);
    }

    fn receive(&mut self, queue: &Arc<Queue>, size: u8, visibility: u32) -> Vec<Handed> {
        let ask = Ask::Receive { size, visibility, attempt: None, most: None, reach: Reach::All };
        match self.ask(queue, ask) {
            Ok(Outcome::Received { handed, set_aside, .. }) => {
                handed.into_iter().chain(set_aside.into_iter().map(|(handed, _)| handed)).collect()
            }
            _ => Vec::new(),
        }
    }

    /// Receives under an attempt id, or gives once more what it was given. Then the book says it.
    fn receive_by_attempt(&mut self, queue: &Arc<Queue>, id: u8) {
        let (id, visibility) = (AttemptId::parse(&id.to_string()).unwrap(), 7);
        self.is_attempt_unsaid = true;
        let given = queue.state().attempt(&id, self.now);
        match given {
            Some(given) => given.into_iter().for_each(|handed| {
                let (receipt, by) = (handed.receipt, Changer::Attempt);
                let _ = self.ask(queue, Ask::ChangeVisibility { receipt, visibility, by });
            }),
            None => {
                let (size, attempt, most, reach) = (2, Some(id.clone()), None, Reach::All);
                let _ = self.ask(queue, Ask::Receive { size, visibility, attempt, most, reach });
            }
        }
        self.is_attempt_unsaid = false;
        let entry = queue.state().entry_of_attempt(&id, self.now);
        if let Some(entry) = entry {
            self.say(&self.nameless(), self.shards.place_of(&queue.name), Entry::Attempt(entry));
        }
    }

    fn take(&mut self, queue: &Arc<Queue>, is_deleted: bool) {
        for handed in self.receive(queue, 1, 0).into_iter().filter(|_| is_deleted) {
            self.ask(queue, Ask::Delete { receipt: handed.receipt, by_client: false }).unwrap();
        }
    }

    fn delete_all(&mut self, queue: &Arc<Queue>) {
        let handed = queue.state().receipts_between(0, u64::MAX, usize::MAX);
        for receipt in handed.map_or(Vec::new(), |(receipts, _)| receipts) {
            self.ask(queue, Ask::Delete { receipt, by_client: false }).unwrap();
        }
        while queue.state().count() > 0 {
            self.take(queue, true);
        }
    }

    /// The last receipt of one of the messages that were handed out.
    fn receipt(&self, queue: &Queue, which: &Index) -> Option<Receipt> {
        let (receipts, _) = queue.state().receipts_between(0, u64::MAX, usize::MAX)?;
        (!receipts.is_empty()).then(|| receipts[which.index(receipts.len())])
    }

    /// Where messages of this queue are moved, if that is there.
    fn target_of(&self, queue: &Queue) -> Option<Arc<Queue>> {
        let place = NAMES.iter().position(|name| *name == queue.name.as_str())?;
        self.queues.find(&QueueName::parse(NAMES[(place + 2) % 4])?)
    }

    /// Moves the first message of a queue. One that keeps its id is no task's.
    fn move_first(&mut self, queue: &Arc<Queue>, target: &Arc<Queue>, keeps_id: bool, is_consumed: bool) {
        for Handed { receipt, envelope, group, .. } in self.receive(queue, 1, 0) {
            self.sends += 1;
            let origin = Origin { mark: queue.mark.0, sequence: receipt.sequence };
            let head = EnvelopeHead::of(&envelope).unwrap();
            let sent = if queue.name.kind() == QueueKind::Fifo { self.now } else { head.sent };
            let (id, source) = (keeps_id.then(Uuid::new_v4), keeps_id.then(|| queue.name.clone()));
            let head = EnvelopeHead { id, of: Some(origin), sent, due: None, source, ..head };
            let envelope = match head.parts {
                Some(_) => head.as_line().unwrap(),
                None => Envelope::from(head.over(&envelope).unwrap()),
            };
            let place = self.shards.place_of(&target.name);
            let dedup = DedupId::parse(&CopyId::text(origin, secret_of(place))).unwrap();
            let (group, cause) = (GroupId::parse(&group).unwrap(), Cause::Move(origin));
            self.copied.push(origin);
            self.ask(target, Ask::Send { group, dedup, envelope, cause }).unwrap();
            if is_consumed && self.shards.place_of(&queue.name) != place {
                self.delete_all(target);
            }
            self.ask(queue, Ask::Delete { receipt, by_client: false }).unwrap();
        }
    }

    pub fn step(&mut self, name: &str, step: &Step) {
        let name = QueueName::parse(name).unwrap();
        let place = self.shards.place_of(&name);
        match step {
            Step::BeginBook => return self.begin_book(place),
            Step::EndBook => return self.end_book(place),
            Step::Wait(time) => return self.now += time,
            Step::RemoveLeftOver => {
                for store in self.queues.left_over().of(place) {
                    let _ = self.ask(&self.nameless(), Ask::Remove { store });
                    self.queues.left_over().remove(place, store);
                }
                return;
            }
            Step::RemoveParts => {
                for number in self.queues.parts().take_those_freed() {
                    let _ = self.ask(&self.nameless(), Ask::Parts { number, ask: PartsAsk::Remove });
                }
                return;
            }
            _ => {}
        }
        match (self.queues.find(&name), step) {
            (None, Step::Create) => self.create(&name, place),
            (None, _) | (_, Step::Create) => {}
            (Some(queue), step) => self.step_of_queue(&queue, step),
        }
    }

    fn step_of_queue(&mut self, queue: &Arc<Queue>, step: &Step) {
        let key = |key: &u8| format!("key {key}");
        match step {
            Step::Remove => self.change(queue, TableChange::Removed),
            Step::Tag(of) => self.change(queue, TableChange::Tag(BTreeMap::from([(key(of), self.now.to_string())]))),
            Step::Untag(of) => self.change(queue, TableChange::Untag(vec![key(of)])),
            Step::Timeout(value) => {
                let given = [("VisibilityTimeout".to_string(), value.to_string())];
                let given = GivenAttributes::read(queue.name.kind(), &given).unwrap();
                self.change(queue, TableChange::Attributes(given));
            }
            Step::Purging => {
                let last = queue.state().last_sequence;
                self.change(queue, TableChange::Purging(last));
            }
            Step::Purged => {
                if queue.state().purging().is_some() {
                    queue.delays().into_iter().for_each(|delays| self.delete_all(&delays));
                    self.delete_all(queue);
                }
                self.change(queue, TableChange::Purged);
            }
            Step::Task(is_new, moved) => {
                let (destination, rate, failure, starter) = (None, None, None, None);
                let status = if *moved == 8 { Status::Completed } else { Status::Running };
                self.tasks += u64::from(*is_new);
                let (moved, started) = (*moved, queue.state().tasks().last().map_or(0, |last| last.started));
                let started = if *is_new || started == 0 { self.tasks } else { started };
                let id = Uuid::from_u128(u128::from(started));
                let (up_to, to_move) = (9, 9);
                let task = MoveTask { id, destination, rate, up_to, to_move, moved, started, status, failure, starter };
                self.change(queue, TableChange::Task(task));
            }
            Step::Send => self.send(queue, None),
            Step::Delay if queue.name.kind() == QueueKind::Standard => {
                if queue.delays().is_none() {
                    let (delays, create) = Queue::beside(queue, queue.state().entry.store);
                    self.ask(&Arc::new(delays), create).unwrap();
                }
                self.send(&queue.delays().unwrap(), Some(self.now + 5000));
            }
            Step::Move | Step::MoveDead | Step::MoveAndConsume => {
                if let Some(target) = self.target_of(queue) {
                    let is_consumed = matches!(step, Step::MoveAndConsume);
                    self.move_first(queue, &target, matches!(step, Step::MoveDead), is_consumed);
                }
            }
            Step::MoveDue => {
                if let Some(delays) = queue.delays() {
                    self.move_first(&delays, queue, true, false);
                }
            }
            Step::SendByCall(call) => self.send_by_call(queue, *call),
            Step::SendLarge => self.send_large(queue),
            Step::DelayAll(seconds) if queue.name.kind() == QueueKind::Fifo => {
                let given = [("DelaySeconds".to_string(), seconds.to_string())];
                let given = GivenAttributes::read(queue.name.kind(), &given).unwrap();
                self.change(queue, TableChange::Attributes(given));
            }
            Step::Receive(size, visibility) => drop(self.receive(queue, *size, *visibility)),
            Step::Attempt(id) if queue.name.kind() == QueueKind::Fifo => self.receive_by_attempt(queue, *id),
            Step::Change(which, visibility) => {
                if let Some(receipt) = self.receipt(queue, which) {
                    let (visibility, by) = (*visibility, Changer::Client);
                    let _ = self.ask(queue, Ask::ChangeVisibility { receipt, visibility, by });
                }
            }
            Step::Delete(which) => {
                if let Some(receipt) = self.receipt(queue, which) {
                    self.ask(queue, Ask::Delete { receipt, by_client: false }).unwrap();
                }
            }
            Step::Take(is_deleted) => {
                self.take(queue, *is_deleted);
                queue.delays().into_iter().for_each(|delays| self.take(&delays, *is_deleted));
            }
            _ => {}
        }
    }
}
