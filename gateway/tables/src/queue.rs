//! A queue that lives.

use std::sync::{Arc, Mutex, MutexGuard, OnceLock, PoisonError, Weak};

use hobbychair_bytes::moment::Moment;
use hobbychair_bytes::values::Receipt;
use hobbychair_sqs::envelope::message_id;
use hobbychair_sqs::errors::SqsError;
use hobbychair_sqs::handles::{Handle, HandleKey, Mark};
use hobbychair_sqs::texts::{QueueKind, QueueName};
use tokio::sync::Notify;

use crate::ask::{Ask, TableChange};
use crate::book::{Entry, QueueEntry};
use crate::names::InUse;
use crate::state::{Chunk, Cursor, State};
use crate::store_name::StoreName;
use crate::waiting::Polls;

/// One incarnation of a queue.
pub struct Queue {
    pub name: QueueName,
    pub mark: Mark,
    /// Whoever has the queue has its name in the store.
    pub(crate) in_use: InUse,
    state: Mutex<State>,
    /// The key of its handles, once one was given out or shown.
    pub(crate) handle_key: OnceLock<HandleKey>,
    /// Told when something happened that can open a group.
    pub opened: Notify,
    pub polls: Polls,
    /// Of a standard queue: the one beside it, which has what is delayed, once there was something.
    delays: Mutex<Option<Arc<Queue>>>,
    /// Of such a queue: the one beside which it stands.
    main: Option<Weak<Queue>>,
}

impl Queue {
    /// A queue of which the book is to say this.
    pub fn new(entry: &QueueEntry) -> Queue {
        Queue {
            name: entry.name.clone(),
            mark: Mark(entry.mark),
            in_use: InUse::default(),
            state: Mutex::new(State::new(entry)),
            handle_key: OnceLock::new(),
            opened: Notify::new(),
            polls: Polls::default(),
            delays: Mutex::new(None),
            main: None,
        }
    }

    /// The queue for what is delayed of a standard one that has this name in the store, and its creation.
    ///
    /// Its mark follows from the other's: it is made as a MessageId is, of a number that no message has.
    pub fn beside(main: &Arc<Queue>, store: StoreName) -> (Queue, Ask) {
        let store = store.of_delays();
        let (mark, _) = message_id(main.mark, store.0).as_u64_pair();
        let entry = QueueEntry::plain(store, main.name.clone(), mark);
        let queue = Queue { main: Some(Arc::downgrade(main)), ..Queue::new(&entry) };
        (queue, Ask::Create { store, visibility: 0, bytes: 0 })
    }

    pub(crate) fn delays_slot(&self) -> MutexGuard<'_, Option<Arc<Queue>>> {
        self.delays.lock().unwrap_or_else(PoisonError::into_inner)
    }

    /// The queue beside this one, which has what is delayed, if there is one.
    pub fn delays(&self) -> Option<Arc<Queue>> {
        self.delays_slot().clone()
    }

    /// The queue beside which this one stands, if it stands beside one that is there.
    pub fn main(&self) -> Option<Arc<Queue>> {
        self.main.as_ref()?.upgrade()
    }

    /// The names by which it stands in the store: its own, and that of the queue beside it.
    pub fn store_names(&self) -> Vec<StoreName> {
        let of_delays = self.delays().map(|delays| delays.state().entry.store);
        [self.state().entry.store].into_iter().chain(of_delays).collect()
    }

    /// What the book has to say once something has changed, at this moment; none where nothing changes.
    pub fn entry_after(&self, change: &TableChange, moment: Moment) -> Option<Entry> {
        let delayed_up_to = self.delays().map_or(0, |delays| delays.state().last_sequence);
        self.state().entry_after(change, delayed_up_to, moment)
    }

    /// How many messages are visible, in flight and delayed, by the counts of the store.
    pub fn counts(&self, visible: u64, in_flight: u64, now: Moment) -> [u64; 3] {
        if self.name.kind() == QueueKind::Fifo {
            let delayed = self.state().count_delayed(now).min(visible);
            return [visible - delayed, in_flight, delayed];
        }
        let [all, due] = self.delays().map_or([0, 0], |delays| delays.state().count_due(now));
        [visible + due, in_flight, all - due]
    }

    /// How many delayed messages can't be sent.
    pub fn count_set_aside(&self) -> u64 {
        self.delays().map_or(0, |delays| delays.state().count_set_aside())
    }

    /// What is known of it. Whoever holds this does nothing else meanwhile.
    pub fn state(&self) -> MutexGuard<'_, State> {
        self.state.lock().unwrap_or_else(PoisonError::into_inner)
    }

    /// The receipt of a handle that was given out for this queue with this key.
    pub fn receipt_of(&self, handle: &str, key: &HandleKey) -> Result<Receipt, SqsError> {
        let handle = Handle::read(handle, key)?;
        if handle.mark != self.mark {
            return Err(SqsError::ReceiptHandleIsInvalid);
        }
        self.state().receipt_of(&handle)
    }

    /// The next messages behind a cursor, at most `most`, and the queue where they stand. Takes time in proportion to
    /// their number.
    pub fn peek(self: &Arc<Queue>, after: Cursor, most: usize, now: Moment) -> (Arc<Queue>, Chunk) {
        let beside = self.delays().filter(|_| matches!(after, Cursor::Delayed(..)));
        let place = beside.unwrap_or_else(|| self.clone());
        let chunk = place.state().peek(after, most, now);
        (place, chunk)
    }
}
