//! Whether there is memory for one more message: sends and creations are refused where its bound is full.

use std::sync::atomic::{AtomicBool, AtomicU64, Ordering};
use std::sync::Arc;

use hobbychair_bytes::moment::Moment;
use hobbychair_sqs::errors::SqsError;

use hobbychair_tables::ask::{Ask, Cause, PartsAsk, PartsCause};
use hobbychair_tables::book::Entry;
use hobbychair_tables::limits::{Bound, GONE_NAME_BYTES, MESSAGE_BYTES, QUEUE_BYTES};
use hobbychair_tables::queue::Queue;
use hobbychair_tables::queues::Queues;

/// A queue that takes no more without its messages gets attributes and tags also where the bound is full.
const ORDINARY_BYTES: u64 = QUEUE_BYTES + 4_096;

/// Where the bound is full, ages are looked at again after so many milliseconds.
const LOOK_AGAIN_MILLISECONDS: u64 = 1000;

/// The bound of memory, and what is to be counted beside the tables.
pub struct Admission {
    queues: Arc<Queues>,
    /// The bound that the gateway was given.
    own: Option<u64>,
    pub memory: Bound,
    /// Bytes of sends that are with the program. The tables don't have them yet.
    coming: AtomicU64,
    /// When ages were looked at last.
    looked: AtomicU64,
    /// The disk of a server of the chain has too little room.
    is_disk_short: AtomicBool,
}

impl Admission {
    /// A bound of so many bytes for what these tables count, or none.
    pub fn new(queues: Arc<Queues>, limit: Option<u64>) -> Admission {
        let memory = Bound::default();
        memory.set(limit);
        let (coming, looked, is_disk_short) = Default::default();
        Admission { queues, own: limit, memory, coming, looked, is_disk_short }
    }

    /// Messages may use so many bytes at each server of a chain: the lower bound counts. And whether the disk of one of them has
    /// too little room for more of them.
    pub fn bound_by_chain(&self, bytes: u64, is_disk_short: bool) {
        self.memory.set(Some(self.own.map_or(bytes, |own| own.min(bytes))));
        self.is_disk_short.store(is_disk_short, Ordering::Relaxed);
    }

    /// Whether the disk of a server of the chain has too little room for more messages.
    pub fn is_disk_short(&self) -> bool {
        self.is_disk_short.load(Ordering::Relaxed)
    }

    /// What is in use of memory, in bytes.
    pub fn bytes_in_use(&self) -> u64 {
        let names = GONE_NAME_BYTES * self.queues.names().all_gone();
        self.queues.bytes_in_use() + names + self.coming.load(Ordering::Relaxed)
    }

    /// Lets an ask pass, or refuses what adds something where the bound is full. Tells how many bytes it was counted
    /// with; they are to be given back to `answered`.
    pub fn admit(&self, ask: &Ask, now: Moment) -> Result<u64, SqsError> {
        let bytes = match ask {
            Ask::Send { envelope, cause: Cause::Client, .. } => envelope.bytes() + MESSAGE_BYTES,
            // What is moved goes from where it was, and what is due was counted before.
            Ask::Send { .. } => return Ok(0),
            Ask::Parts { ask: PartsAsk::Add(PartsCause::Client, _, text), .. } => text.len() as u64,
            Ask::Create { bytes, .. } if *bytes > 0 => *bytes,
            _ => return Ok(0),
        };
        self.admit_bytes(bytes, now)
    }

    /// Lets an entry of the book pass, as `admit` does an ask.
    pub fn admit_entry(&self, queue: &Queue, entry: &Entry, now: Moment) -> Result<u64, SqsError> {
        let Entry::Queue(entry) = entry else { return Ok(0) };
        // Whoever looks at ages locks the queue's state, so nobody holds it meanwhile.
        let (more, whole) = queue.state().growth(entry);
        // A queue of ordinary size stays what operators can change, so that memory comes free by other attributes.
        if more == 0 || whole <= ORDINARY_BYTES {
            return Ok(0);
        }
        self.admit_bytes(more, now)
    }

    /// Refuses what would be refused as a message of so many bytes.
    pub fn test(&self, bytes: u64, now: Moment) -> Result<(), SqsError> {
        self.admit_bytes(bytes + MESSAGE_BYTES, now).map(|weight| self.answered(weight))
    }

    fn admit_bytes(&self, bytes: u64, now: Moment) -> Result<u64, SqsError> {
        if self.is_disk_short() {
            return Err(SqsError::OverLimit("The disk of a server has too little room for more messages.".into()));
        }
        if self.is_full(bytes, now) {
            return Err(SqsError::OverLimit("The memory for messages is full.".into()));
        }
        self.coming.fetch_add(bytes, Ordering::Relaxed);
        Ok(bytes)
    }

    /// A send was answered: from now on the tables count it.
    pub fn answered(&self, bytes: u64) {
        self.coming.fetch_sub(bytes, Ordering::Relaxed);
    }

    fn is_full(&self, more: u64, now: Moment) -> bool {
        if !self.memory.is_full(self.bytes_in_use() + more) {
            return false;
        }
        self.look_at_ages(now);
        self.memory.is_full(self.bytes_in_use() + more)
    }

    /// Takes out of the count what has become too old, at most once a second.
    pub fn look_at_ages(&self, now: Moment) {
        let looked = self.looked.load(Ordering::Relaxed);
        let is_due = now >= looked.saturating_add(LOOK_AGAIN_MILLISECONDS);
        if is_due && self.looked.compare_exchange(looked, now, Ordering::Relaxed, Ordering::Relaxed).is_ok() {
            self.queues.look_at_ages(now);
        }
    }
}

#[cfg(test)]
mod tests {
    use std::collections::BTreeMap;

    use hobbychair_sqs::envelope::Envelope;
    use hobbychair_sqs::handles::Origin;
    use hobbychair_sqs::texts::{DedupId, GroupId, QueueName};
    use hobbychair_tables::ask::Reach;
    use hobbychair_tables::book::QueueEntry;
    use hobbychair_tables::store_name::StoreName;

    use super::*;

    #[test]
    fn a_large_queue_gets_no_tags_where_memory_is_full_and_nobody_waits_for_himself() {
        let name = QueueName::parse("q").unwrap();
        let tags = |length: usize| BTreeMap::from([("a".to_string(), "v".repeat(length))]);
        let entry = QueueEntry { tags: tags(10_000), ..QueueEntry::plain(StoreName(1), name, 1) };
        let queues = Arc::<Queues>::default();
        let queue = Arc::new(Queue::new(&entry));
        queues.said(0, &queue, &Entry::Queue(entry.clone()), 1, 0);
        let admission = Admission::new(queues, Some(10_000));
        let (sender, answer) = std::sync::mpsc::channel();
        std::thread::spawn(move || {
            let admitted = [9_000, 11_000].map(|length| {
                let entry = Entry::Queue(QueueEntry { tags: tags(length), ..entry.clone() });
                admission.admit_entry(&queue, &entry, LOOK_AGAIN_MILLISECONDS).is_ok()
            });
            sender.send(admitted)
        });
        assert_eq!(answer.recv_timeout(std::time::Duration::from_secs(20)), Ok([true, false]));
    }

    #[test]
    fn of_a_chains_bound_and_its_own_the_lower_one_counts() {
        for (own, told, counts) in [(None, 7, 7), (Some(5), 7, 5), (Some(9), 7, 7)] {
            let admission = Admission::new(Arc::default(), own);
            assert_eq!(admission.memory.limit(), own);
            admission.bound_by_chain(told, false);
            assert_eq!(admission.memory.limit(), Some(counts));
        }
    }

    fn send(cause: Cause) -> Ask {
        let (group, dedup) = (GroupId::parse("g").unwrap(), DedupId::parse("d").unwrap());
        Ask::Send { group, dedup, envelope: Envelope::from("x".repeat(1000)), cause }
    }

    #[test]
    fn where_the_disk_of_a_server_is_short_of_room_clients_sends_are_refused_and_moves_go_on() {
        let admission = Admission::new(Arc::default(), None);
        admission.bound_by_chain(1 << 30, true);
        let moved = send(Cause::Move(Origin { mark: 1, sequence: 2 }));
        let receive = Ask::Receive { size: 1, visibility: 0, attempt: None, most: None, reach: Reach::All };
        assert!(admission.admit(&send(Cause::Client), 0).is_err());
        assert_eq!((admission.admit(&moved, 0), admission.admit(&receive, 0)), (Ok(0), Ok(0)));
        admission.bound_by_chain(1 << 30, false);
        assert!(admission.admit(&send(Cause::Client), 0).is_ok());
    }

    #[test]
    fn sends_that_are_on_their_way_count_and_those_that_were_answered_do_not() {
        let send = send(Cause::Client);
        let one = 1000 + MESSAGE_BYTES;
        let admission = Admission::new(Arc::default(), Some(4 * one));
        let admitted: Vec<_> = (0..5).map_while(|_| admission.admit(&send, 0).ok()).collect();
        assert_eq!(admitted, [one; 3], "a fourth is above 95 %");
        let receive = Ask::Receive { size: 1, visibility: 0, attempt: None, most: None, reach: Reach::All };
        assert_eq!(admission.admit(&receive, 0), Ok(0));
        admission.answered(one);
        assert_eq!(admission.bytes_in_use(), 2 * one);
        assert!(admission.admit(&send, 0).is_ok(), "75 % are below 90 %");
    }
}
