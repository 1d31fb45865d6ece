//! What tasks are given to do, and what they answer.

use std::collections::{HashMap, VecDeque};
use std::sync::Arc;

use hobbychair_bytes::moment::Moment;
use hobbychair_sqs::errors::SqsError;
use hobbychair_sqs::handles::Mark;
use hobbychair_tables::ask::{Ask, Cause, Outcome, TableChange};
use hobbychair_tables::book::Entry;
use hobbychair_tables::budget::Share;
use hobbychair_tables::queue::Queue;
use tokio::sync::oneshot;

use crate::room::is_for_client;

/// Operations that are performed one after the other, and where their answers go.
pub(crate) struct Job {
    pub(crate) queue: Option<Arc<Queue>>,
    pub(crate) operations: Vec<Operation>,
    /// It doesn't wait where its queue is held.
    pub(crate) ignores_hold: bool,
    /// What it asks for by itself isn't wanted behind this moment.
    pub(crate) until: Option<Moment>,
    pub(crate) sender: AnswerSender,
}

/// Where the answers to a job go, and what its request counts until they are there, also where its client has gone.
pub struct AnswerSender {
    pub(crate) answers: oneshot::Sender<Answers>,
    pub(crate) _share: Option<Arc<Share>>,
}

impl AnswerSender {
    /// Gives the answers to who waits for them, if anybody does.
    pub fn send(self, answers: Answers) {
        // A client that has gone hears nothing.
        let _ = self.answers.send(answers);
    }
}

impl From<oneshot::Sender<Answers>> for AnswerSender {
    fn from(answers: oneshot::Sender<Answers>) -> AnswerSender {
        AnswerSender { answers, _share: None }
    }
}

/// What a task can do to a queue.
pub enum Operation {
    /// The program does it.
    Ask(Ask),
    /// The program does it to the queue beside this one, which has what is delayed.
    AskBeside(Ask),
    /// The book says what changes.
    Change(TableChange),
    /// The book says this, which is about no queue that is there.
    Say(Entry),
    /// Counts visible messages and those in flight.
    Count,
    /// Moves the store's moment on.
    Moment,
    /// Keeps all other jobs of the queue waiting until it is released.
    Hold,
    /// The same, so that messages of the queue can be moved. Copies that come into it don't wait: two queues may move
    /// messages to each other.
    HoldForMove,
    /// Sends copies to another queue of the same program, and behind them deletes the originals of those that are there.
    /// Nothing else is asked between the two.
    Move {
        target: Arc<Queue>,
        copies: Vec<Copy>,
    },
    Release,
}

impl Operation {
    pub(crate) fn holds(&self) -> bool {
        matches!(self, Operation::Hold | Operation::HoldForMove)
    }

    /// Whether the tables may answer it.
    pub(crate) fn may_be_of_tables(&self) -> bool {
        !matches!(self, Operation::Hold | Operation::HoldForMove | Operation::Release)
    }

    /// Whether it is of no use once who asks for it waits no more.
    pub(crate) fn is_for_client(&self) -> bool {
        match self {
            Operation::Ask(ask) | Operation::AskBeside(ask) => is_for_client(ask),
            Operation::Change(_) => true,
            _ => false,
        }
    }

    /// Whether it sends a copy of a message that another program has.
    pub(crate) fn is_copy(&self) -> bool {
        matches!(self, Operation::Ask(Ask::Send { cause: Cause::Move(_), .. }))
    }
}

impl From<Ask> for Operation {
    fn from(ask: Ask) -> Operation {
        Operation::Ask(ask)
    }
}

impl From<TableChange> for Operation {
    fn from(change: TableChange) -> Operation {
        Operation::Change(change)
    }
}

/// The send of a copy, and the number of the message that it is of.
pub struct Copy {
    pub sequence: u64,
    pub ask: Ask,
}

/// What comes of an operation, or why it isn't done.
pub type Answer = Result<Outcome, SqsError>;
/// Those to operations, in their order.
pub type Answers = Vec<Answer>;

/// What waits until a queue is released, in order.
#[derive(Default)]
pub(crate) struct Hold {
    pub(crate) is_for_move: bool,
    pub(crate) waiting: VecDeque<Job>,
}

/// Of which queues others wait, by their marks.
pub(crate) type Holds = HashMap<Mark, Hold>;
