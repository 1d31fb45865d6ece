//! What goes to and fro on a pipe, and the entries that are open: they wait for their answers, in the order in which they were asked.

use std::collections::VecDeque;
use std::sync::Arc;

use hobbychair_bytes::moment::Moment;
use hobbychair_bytes::parts::Cutter;
use hobbychair_tables::ask::Ask;
use hobbychair_tables::queue::Queue;

use crate::jobs::{Answer, AnswerSender};
use crate::room::adds;

/// What goes to and fro on a pipe.
#[derive(Default)]
pub(crate) struct Exchange {
    /// What has come, and isn't heard yet.
    pub(crate) incoming: Cutter,
    pub(crate) out: Outgoing,
    /// Answers are given in this order.
    pub(crate) open: VecDeque<Open>,
}

/// Something whose answer is due.
pub(crate) struct Open {
    pub(crate) entry: Entry,
    /// In the last entry of a job.
    pub(crate) sender: Option<AnswerSender>,
}

impl Open {
    /// How many bytes that stay it asks to add.
    pub(crate) fn bytes_added(&self) -> u64 {
        match &self.entry {
            Entry::Ask(asked) if adds(&asked.ask) => asked.written.len() as u64,
            _ => 0,
        }
    }
}

pub(crate) enum Entry {
    Ask(Box<OpenAsk>),
    /// The request that moves the store's moment on, to this one, before a count.
    Moment {
        moment: Moment,
        number: u64,
    },
    Count {
        tag: u64,
        queue: Arc<Queue>,
        /// Of a chain: how many entries the server that answers has to have. None: it isn't known yet, and nothing is asked.
        least: Option<u64>,
    },
    /// A count that nobody waits for. Its answer tells that the program doesn't end at whatever it is asked.
    Probe {
        tag: u64,
        queue: Arc<Queue>,
    },
    Ready(Option<Answer>),
}

impl Entry {
    /// By which its answer is known. No two that are open have the same.
    pub(crate) fn number(&self) -> Option<u64> {
        match self {
            Entry::Ask(asked) => Some(asked.number),
            Entry::Moment { number, .. } => Some(*number),
            Entry::Count { tag, .. } | Entry::Probe { tag, .. } => Some(*tag),
            Entry::Ready(_) => None,
        }
    }
}

/// An ask that is with the program.
pub(crate) struct OpenAsk {
    pub(crate) queue: Arc<Queue>,
    pub(crate) ask: Ask,
    /// The ask as it is written.
    pub(crate) written: Vec<u8>,
    pub(crate) moment: Moment,
    pub(crate) client: u32,
    pub(crate) number: u64,
    /// Bytes of memory that it was counted with.
    pub(crate) weight: u64,
    /// How often it was asked again.
    pub(crate) ends: u32,
    /// The program has done it, and was started again before it was answered.
    pub(crate) is_done: bool,
    /// Of a copy: the sequence number of the message that it is one of.
    pub(crate) original: Option<u64>,
}

/// Bytes that are still to be written.
#[derive(Default)]
pub(crate) struct Outgoing {
    pub(crate) bytes: Vec<u8>,
    written: usize,
}

impl Outgoing {
    pub(crate) fn rest(&self) -> &[u8] {
        &self.bytes[self.written..]
    }

    pub(crate) fn is_empty(&self) -> bool {
        self.bytes.is_empty()
    }

    pub(crate) fn advance(&mut self, count: usize) {
        self.written += count;
        if self.written == self.bytes.len() {
            self.clear();
        }
    }

    pub(crate) fn clear(&mut self) {
        self.bytes.clear();
        self.written = 0;
    }
}
