//! What is asked of the store, and what comes of it.

use std::collections::BTreeMap;
use std::sync::Arc;

use hobbychair_bytes::moment::Moment;
use hobbychair_bytes::values::Receipt;
use hobbychair_sqs::attributes::GivenAttributes;
use hobbychair_sqs::envelope::{read_envelope, Envelope};
use hobbychair_sqs::handles::Origin;
use hobbychair_sqs::texts::{AttemptId, DedupId, GroupId};
use uuid::Uuid;

use crate::book::Entry;
use crate::store_name::StoreName;
use crate::tasks::MoveTask;

/// One thing to ask of a queue.
#[derive(Clone, Debug)]
pub enum Ask {
    /// `bytes` is what it adds to memory, of a queue that a client creates.
    Create {
        store: StoreName,
        visibility: u32,
        bytes: u64,
    },
    Remove {
        store: StoreName,
    },
    /// Has an entry stand in the book of this number. `text` is what stands there.
    Say {
        book: u64,
        entry: Arc<Entry>,
        text: String,
    },
    Send {
        group: GroupId,
        dedup: DedupId,
        envelope: Envelope,
        cause: Cause,
    },
    Receive {
        size: u8,
        visibility: u32,
        attempt: Option<AttemptId>,
        /// What was handed out so often is for the dead-letter queue. Who asks leaves it out: it counts as it is when the
        /// answer comes.
        most: Option<u32>,
        reach: Reach,
    },
    /// `by_client`: in a FIFO queue it is refused when the timeout is over. A purge deletes what is there.
    Delete {
        receipt: Receipt,
        by_client: bool,
    },
    ChangeVisibility {
        receipt: Receipt,
        visibility: u32,
        by: Changer,
    },
    /// Of the queue that has the parts of a message, by its number.
    Parts {
        number: u64,
        ask: PartsAsk,
    },
}

impl Ask {
    /// What it is, for operators.
    pub fn kind(&self) -> &'static str {
        match self {
            Ask::Create { .. } => "a creation",
            Ask::Remove { .. } => "a removal",
            Ask::Say { .. } => "an entry of a book",
            Ask::Send { .. } => "a send",
            Ask::Receive { .. } => "a receive",
            Ask::Delete { .. } => "a deletion",
            Ask::ChangeVisibility { .. } => "a change of a timeout",
            Ask::Parts { .. } => "a part of a message",
        }
    }
}

/// What is asked of a queue that has the parts of a message.
#[derive(Clone, Debug, PartialEq, Eq)]
pub enum PartsAsk {
    Create(PartsCause),
    /// Which part it is, from 0, and its text.
    Add(PartsCause, usize, String),
    /// All parts at once. Nobody sees that they were handed out.
    Read,
    Remove,
}

/// Why parts are sent to the store.
#[derive(Clone, Copy, Debug, PartialEq, Eq)]
pub enum PartsCause {
    Client,
    /// The gateway has the message already.
    Move,
}

impl Ask {
    /// Whether this sends an envelope that has to be put in parts before.
    pub fn is_too_long(&self) -> bool {
        matches!(self, Ask::Send { envelope, .. } if envelope.is_too_long())
    }

    /// The id that a client's send to a FIFO queue would have in the store if `DeduplicationScope` were the other one.
    pub fn id_of_other_scope(&self) -> Option<DedupId> {
        let Ask::Send { group, dedup, envelope, cause: Cause::Client } = self else { return None };
        let (metadata, _) = read_envelope(envelope.text())?;
        let given = metadata.dedup?;
        [given.within(group), given].into_iter().find(|id| id != dedup)
    }

    /// The attempt that it belongs to, if it does to one.
    pub fn attempt(&self) -> Option<&AttemptId> {
        match self {
            Ask::Receive { attempt, .. } => attempt.as_ref(),
            _ => None,
        }
    }

    /// Whether this reads the parts of a message.
    pub fn reads_parts(&self) -> bool {
        matches!(self, Ask::Parts { ask: PartsAsk::Read, .. })
    }

    /// The ask without a text that is nowhere needed once the ask is written.
    pub fn without_text(self) -> Ask {
        match self {
            Ask::Parts { number, ask: PartsAsk::Add(cause, place, _) } => {
                Ask::Parts { number, ask: PartsAsk::Add(cause, place, String::new()) }
            }
            other => other,
        }
    }
}

/// Which messages a receive may be handed. Whoever names some has the queue to itself, and asks for no more than the
/// next ones of the store that are among them.
#[derive(Clone, Debug)]
pub enum Reach {
    /// A client is handed whatever comes next.
    All,
    /// A client is handed these, which are due.
    Due(Vec<u64>),
    /// The gateway is handed these, and deletes or moves them.
    Own(Vec<u64>),
}

impl Reach {
    /// The messages that are named, where some are.
    pub fn named(&self) -> Option<&[u64]> {
        match self {
            Reach::Due(named) | Reach::Own(named) => Some(named),
            Reach::All => None,
        }
    }

    /// Whether what is handed out is a client's.
    pub fn is_for_client(&self) -> bool {
        matches!(self, Reach::All | Reach::Due(_))
    }
}

/// Who asks for a change of a timeout.
#[derive(Clone, Copy, Debug, PartialEq, Eq)]
pub enum Changer {
    Client,
    /// A receive that is repeated under its attempt id.
    Attempt,
    /// The gateway gives back what it was handed.
    Gateway,
}

/// Why a message is sent to the store.
#[derive(Clone, Copy, Debug, PartialEq, Eq)]
pub enum Cause {
    /// A client sends it.
    Client,
    /// It is moved here, and this is the message that it copies.
    Move(Origin),
}

/// A change of what is said of a queue.
#[derive(Clone, Debug, PartialEq, Eq)]
pub enum TableChange {
    /// The store has its name, and from now on it is there.
    Created,
    Attributes(GivenAttributes),
    Tag(BTreeMap<String, String>),
    Untag(Vec<String>),
    /// All messages up to this one are being deleted. Delayed messages of a standard queue go with this.
    Purging(u64),
    /// They are deleted.
    Purged,
    /// How a task stands that moves messages.
    Task(MoveTask),
    Removed,
    /// Nothing is new, and it is said once more: how the queue stands, or this task of it.
    Again(Option<Uuid>),
}

/// A message as it is handed out.
#[derive(Clone, Debug)]
pub struct Handed {
    /// Its ordinal says how often it was handed out, this time among them.
    pub receipt: Receipt,
    /// When it was handed out, and when for the first time.
    pub moment: Moment,
    pub first: Moment,
    pub group: String,
    /// Its whole envelope.
    pub envelope: Arc<str>,
}

/// Why a message that the store handed out isn't for the client that asked.
#[derive(Clone, Copy, Debug, PartialEq, Eq)]
pub enum Fate {
    /// It is older than its queue keeps messages, and is to be deleted.
    Old,
    /// It was handed out as often as it may be, and is to be moved to the dead-letter queue.
    Dead,
    /// It is delayed still, and is to be given back.
    Early,
}

/// What came of something asked.
#[derive(Clone, Debug)]
pub enum Outcome {
    /// It was done, and there is nothing to tell.
    Done,
    /// The sequence number of the message; that of the first send where this one repeats it. The id is made of it,
    /// unless one stands here.
    Sent {
        sequence: u64,
        id: Option<Uuid>,
    },
    /// `openings` counts what happened to the queue by then that can open a group.
    Received {
        handed: Vec<Handed>,
        /// What isn't for the client. The gateway has to see to it.
        set_aside: Vec<(Handed, Fate)>,
        openings: u64,
    },
    Counts {
        visible: u64,
        in_flight: u64,
    },
    /// The text that stands in parts.
    Parts(String),
}
