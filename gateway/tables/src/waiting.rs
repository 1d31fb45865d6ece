//! Receives that wait at a queue for a message, in order of arrival.

use std::collections::VecDeque;
use std::sync::{Arc, Mutex, MutexGuard, PoisonError};

use hobbychair_sqs::errors::SqsError;
use tokio::sync::oneshot;
use tokio::time::Instant;

use crate::ask::{Ask, Handed};
use crate::budget::Share;
use crate::presence::Presence;

/// What a receive that waited is handed.
pub type PollResult = Result<Vec<Handed>, SqsError>;

/// For how many bytes of an answer there is room where it goes; as many as can be where nothing is said of that.
#[derive(Clone, Copy)]
pub struct Room(pub Option<usize>);

/// What a receive keeps of the memory of requests. While it waits that is the request alone.
pub struct AnswerMemory {
    pub share: Arc<Share>,
    /// In bytes.
    pub request: usize,
}

impl AnswerMemory {
    /// Gives back what was taken for the answer.
    pub fn give_back(&self) {
        self.share.set(self.request);
    }
}

/// A receive that waits.
pub struct Poll {
    /// By this it is known among those at its queue, which give it.
    pub number: u64,
    pub ask: Ask,
    pub room: Room,
    pub memory: AnswerMemory,
    pub presence: Presence,
    /// Up to when it waits.
    pub deadline: Instant,
    /// Where its answer goes.
    pub done: oneshot::Sender<PollResult>,
}

impl Poll {
    /// Nobody is there any more who could be handed anything.
    fn is_gone(&self) -> bool {
        self.done.is_closed() || self.presence.is_gone()
    }
}

/// Those who wait at one queue.
#[derive(Default)]
pub struct Polls(Mutex<WaitingPolls>);

#[derive(Default)]
struct WaitingPolls {
    polls: VecDeque<Poll>,
    last_number: u64,
    /// A task serves them.
    is_served: bool,
}

impl Polls {
    fn waiting(&self) -> MutexGuard<'_, WaitingPolls> {
        self.0.lock().unwrap_or_else(PoisonError::into_inner)
    }

    /// One more waits, behind all others. Tells its number, and whether no task serves them yet: then who asks has to start one.
    pub fn add(&self, poll: Poll) -> (u64, bool) {
        let mut waiting = self.waiting();
        waiting.last_number += 1;
        let number = waiting.last_number;
        waiting.polls.push_back(Poll { number, ..poll });
        let was_served = std::mem::replace(&mut waiting.is_served, true);
        (number, !was_served)
    }

    /// Takes out a poll that isn't being tried.
    pub fn withdraw(&self, number: u64) -> bool {
        let mut waiting = self.waiting();
        let place = waiting.polls.iter().position(|poll| poll.number == number);
        place.map(|place| waiting.polls.remove(place)).is_some()
    }

    /// Takes the first polls, to try them. Those of them whose clients have gone without anybody's notice are answered with nothing.
    pub fn take(&self, count: u64) -> Vec<Poll> {
        let mut waiting = self.waiting();
        waiting.polls.retain(|poll| !poll.is_gone());
        let mut taken = Vec::new();
        while (taken.len() as u64) < count {
            let Some(poll) = waiting.polls.pop_front() else { break };
            if poll.presence.has_left() {
                let _ = poll.done.send(Ok(Vec::new()));
            } else {
                taken.push(poll);
            }
        }
        taken
    }

    /// One that was tried waits again, before all others.
    pub fn put_back(&self, poll: Poll) {
        poll.memory.give_back();
        self.waiting().polls.push_front(poll);
    }

    /// Answers all who wait with nothing.
    pub fn let_go(&self) {
        let polls = std::mem::take(&mut self.waiting().polls);
        for poll in polls {
            let _ = poll.done.send(Ok(Vec::new()));
        }
    }

    /// Whether anybody is left. If nobody is, the task that serves them ends.
    pub fn goes_on(&self) -> bool {
        let mut waiting = self.waiting();
        waiting.polls.retain(|poll| !poll.is_gone());
        waiting.is_served = !waiting.polls.is_empty();
        waiting.is_served
    }
}
