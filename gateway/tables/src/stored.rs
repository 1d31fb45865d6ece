//! What the bytes of a store say of a queue, as far as its tables need it.

use std::sync::Arc;

use hobbychair_bytes::moment::Moment;
use hobbychair_bytes::values::Receipt;
use hobbychair_sqs::envelope::EnvelopeHead;
use hobbychair_sqs::handles::Origin;
use hobbychair_sqs::texts::{AttemptId, CallKey};

use crate::book::AttemptEntry;
use crate::copies::CopyId;
use crate::groups::Group;

/// A queue as the store has it.
#[derive(Default)]
pub(crate) struct StoredQueue {
    /// Which one of its name it is.
    pub(crate) incarnation: u64,
    /// How many sends were accepted.
    pub(crate) sent: u64,
    pub(crate) messages: Vec<StoredMessage>,
    /// The entries of a book, by their sequence numbers.
    pub(crate) entries: Vec<String>,
    pub(crate) accepted: Vec<AcceptedSend>,
    /// What attempts were given, in the order in which books say it.
    pub(crate) attempts: Vec<AttemptEntry>,
    /// What attempts were given by requests of which no book says that.
    pub(crate) untold: Vec<(AttemptId, Vec<Receipt>)>,
}

pub(crate) struct StoredMessage {
    pub(crate) sequence: u64,
    pub(crate) group: Group,
    pub(crate) head: StoredHead,
    pub(crate) bytes: u64,
    pub(crate) handings: u64,
    /// When it was handed out last, and up to when it is hidden, or 0.
    pub(crate) handed: Moment,
    pub(crate) until: Moment,
    /// The id of its group and its envelope, where operators look at messages, or where an attempt may have been given it.
    pub(crate) text: Option<(Box<str>, Arc<str>)>,
}

/// What the head of an envelope says, in little room: in most of them there is nothing but the moment of the send.
pub(crate) enum StoredHead {
    Plain(Moment),
    Other(Box<EnvelopeHead>),
}

impl StoredHead {
    pub(crate) fn of(head: EnvelopeHead) -> StoredHead {
        match head {
            EnvelopeHead { parts: None, bytes: None, id: None, of: None, sent, due: None, source: None } => {
                StoredHead::Plain(sent)
            }
            other => StoredHead::Other(other.into()),
        }
    }

    pub(crate) fn into_head(self) -> EnvelopeHead {
        match self {
            StoredHead::Plain(sent) => EnvelopeHead { sent, ..EnvelopeHead::default() },
            StoredHead::Other(head) => *head,
        }
    }
}

pub(crate) struct AcceptedSend {
    pub(crate) call: Option<CallKey>,
    pub(crate) fingerprint: u64,
    /// What it seems to be the copy of.
    pub(crate) copy: Option<CopyId>,
    pub(crate) moment: Moment,
    pub(crate) sequence: u64,
}

/// What the messages of a queue name.
#[derive(Default)]
pub(crate) struct Named {
    pub(crate) parts: Vec<u64>,
    pub(crate) origins: Vec<Origin>,
}
