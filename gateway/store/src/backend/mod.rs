//! What keeps the store: a program `cq server`, or the chain of servers behind a node.
//!
//! A backend is given entries in the order in which they were asked, and hears what comes of them. It knows how both are said
//! on its pipe, and what of all that is open has to be given again. Who asks is nothing to it.

mod chain;
mod ended;
mod program;
mod start;

use std::collections::HashMap;
use std::path::Path;

use hobbychair_bytes::values::{append_query, append_request, StoreAnswer, StoreAsk, StoreReply};
use hobbychair_tables::queue::Queue;
use tokio::time::Instant;

use crate::cq::Cq;
use crate::exchange::{Entry, Exchange, OpenAsk};
use chain::ChainBackend;
pub use ended::Ended;
use program::ProgramBackend;
pub use start::{start, Keeper, Programs, StartError, Started, StartedPipe};

/// The client under which counts and moments are asked for.
const COUNTER: u32 = 0;

/// No queue of the store has this name: theirs have numbers. A receive of it does nothing but move the store's moment on.
const NO_QUEUE: &str = "none.fifo";

/// What keeps the store of a task.
pub(crate) enum Backend {
    Program(ProgramBackend),
    Chain(ChainBackend),
}

/// What comes of something that was heard.
pub(crate) enum Heard {
    /// Nothing is answered.
    Nothing,
    /// The answer to the entry at the front.
    Answer(StoreReply),
    /// These asks did nothing, and their entries have their answers. There are none where an entry of another kind was refused.
    Refused(Vec<OpenAsk>),
}

/// The number of the last request that each client's reply is kept of.
pub(crate) type KeptNumbers = HashMap<u32, u64>;

/// Has a backend do something, whichever it is.
macro_rules! either {
    ($backend:expr, $it:ident => $does:expr) => {
        match $backend {
            Backend::Program($it) => $does,
            Backend::Chain($it) => $does,
        }
    };
}

impl Backend {
    /// The number by which the answer to the next request or query is known.
    pub(crate) fn next_number(&mut self) -> u64 {
        either!(self, it => it.next_number())
    }

    /// Gives what is asked for the first time, or for the first time by a program that was started again. What waits is given
    /// later, and what is ready isn't.
    pub(crate) fn give(&mut self, entry: &Entry, out: &mut Vec<u8>) {
        either!(self, it => it.give(entry, out));
    }

    /// Takes one thing out of what has come. Nothing: no whole one is there.
    pub(crate) fn hear(&mut self, exchange: &mut Exchange) -> Result<Option<Heard>, Ended> {
        either!(self, it => it.hear(exchange))
    }

    /// When there is something to do.
    pub(crate) fn due(&self) -> Option<Instant> {
        either!(self, it => it.due())
    }

    /// Does what is due: gives again what is open, or asks for answers that wait.
    pub(crate) fn tick(&mut self, exchange: &mut Exchange) {
        either!(self, it => it.tick(exchange));
    }

    /// Whether nothing new is to be asked for now: what is open comes first.
    pub(crate) fn is_stopped(&self) -> bool {
        either!(self, it => it.is_stopped())
    }

    /// Whether another gateway may ask already, as of a chain. What the tables show is old then, unless something is answered
    /// behind it.
    pub(crate) fn may_be_superseded(&self) -> bool {
        matches!(self, Backend::Chain(_))
    }

    /// The file in which it keeps what it is told. Where there is one, another backend can be started in its place.
    pub(crate) fn file(&self) -> Option<&Path> {
        match self {
            Backend::Program(program) => program.file(),
            Backend::Chain(_) => None,
        }
    }

    /// Whether another gateway goes on with what it keeps, once this one has ended.
    pub(crate) fn is_kept(&self) -> bool {
        self.may_be_superseded() || self.file().is_some()
    }

    /// Ends what has the other end of the pipe, and starts another one on its file. All that is open is to be given to that
    /// one. Tells which replies it has kept.
    pub(crate) async fn start_again(&mut self, pipe: &mut Cq) -> Result<KeptNumbers, Ended> {
        match self {
            Backend::Program(program) => program.start_again(pipe).await,
            Backend::Chain(_) => Err(pipe.end().await.into()),
        }
    }
}

/// Whether it is the answer to that entry.
fn is_answer_to(answer: &StoreAnswer, entry: &Entry) -> bool {
    let (client, is_of_query) = match entry {
        Entry::Ask(asked) => (asked.client, false),
        Entry::Moment { .. } => (COUNTER, false),
        Entry::Count { .. } | Entry::Probe { .. } => (COUNTER, true),
        Entry::Ready(_) => return false,
    };
    entry.number() == Some(answer.number) && (client, is_of_query) == (answer.client, answer.is_of_query)
}

/// Whether the moment is there. Then it is taken out.
fn take_due(moment: &mut Option<Instant>, now: Instant) -> bool {
    let is_due = moment.is_some_and(|moment| moment <= now);
    if is_due {
        *moment = None;
    }
    is_due
}

fn append_ask(out: &mut Vec<u8>, asked: &OpenAsk) {
    append_request(out, asked.client, asked.number, &asked.written);
}

/// Appends the request that moves the store's moment on.
fn append_moment(out: &mut Vec<u8>, number: u64) {
    let ask = StoreAsk::<&str>::Receive { size: 1, timeout: None }.written(NO_QUEUE);
    append_request(out, COUNTER, number, &ask);
}

fn append_count(out: &mut Vec<u8>, tag: u64, queue: &Queue) {
    append_query(out, COUNTER, tag, queue.state().entry.store);
}
