//! What receives with an attempt id were given (API Reference, ReceiveMessage, `ReceiveRequestAttemptId`).

use std::cmp::Reverse;
use std::collections::{BinaryHeap, HashMap};

use hobbychair_bytes::moment::Moment;
use hobbychair_sqs::texts::AttemptId;

use super::WINDOW_MILLISECONDS;
use crate::ask::Handed;
use crate::book::AttemptRequest;

/// What a receive with an attempt id was given.
#[derive(Clone, Debug)]
pub(super) struct Attempt {
    pub(super) moment: Moment,
    /// When the timeouts of what it was given end.
    pub(super) until: Moment,
    pub(super) handed: Vec<Handed>,
    /// What the envelopes take that nobody else keeps.
    pub(super) bytes: u64,
}

impl Attempt {
    /// From then on it is worth nothing.
    fn end(&self) -> Moment {
        self.until.min(self.moment + WINDOW_MILLISECONDS)
    }
}

/// The attempts of the last five minutes whose messages are all still in flight by the receipts that they gave. So a
/// message is in one attempt at most.
#[derive(Debug, Default)]
pub(super) struct Attempts {
    by_id: HashMap<AttemptId, Attempt>,
    /// The attempt that a message is in, by its sequence number.
    by_message: HashMap<u64, AttemptId>,
    /// By which requests attempts ask that may not be answered yet.
    asked: HashMap<AttemptId, AttemptRequest>,
    /// When attempts end. One whose timeouts have changed has other entries, too.
    ends: BinaryHeap<Reverse<(Moment, AttemptId)>>,
    bytes: u64,
}

impl Attempts {
    /// Keeps what an attempt was given. What its messages were in before is over.
    pub(super) fn insert(&mut self, id: &AttemptId, attempt: Attempt) {
        self.forget_old(attempt.moment);
        self.forget(id);
        for handed in &attempt.handed {
            self.forget_with(handed.receipt.sequence);
            self.by_message.insert(handed.receipt.sequence, id.clone());
        }
        self.remember_end(id, attempt.end());
        self.bytes += attempt.bytes;
        self.by_id.insert(id.clone(), attempt);
    }

    /// An attempt is about to ask by a request.
    pub(super) fn ask(&mut self, request: &AttemptRequest) {
        self.asked.retain(|_, earlier| request.moment < earlier.moment + WINDOW_MILLISECONDS);
        self.asked.insert(request.id.clone(), request.clone());
    }

    /// An attempt was answered.
    pub(super) fn answer(&mut self, id: &AttemptId) {
        self.asked.remove(id);
    }

    /// By which requests attempts ask that aren't answered, in order of their ids.
    pub(super) fn asked(&self) -> Vec<AttemptRequest> {
        let mut asked: Vec<_> = self.asked.values().cloned().collect();
        asked.sort_unstable_by(|one, other| one.id.cmp(&other.id));
        asked
    }

    /// A message was deleted, changed or handed out again: the attempt that it is in is over.
    pub(super) fn forget_with(&mut self, sequence: u64) {
        if let Some(id) = self.by_message.get(&sequence).cloned() {
            self.forget(&id);
        }
    }

    /// The attempt that a message is in was repeated, and its timeouts begin anew.
    pub(super) fn put_off(&mut self, sequence: u64, until: Moment) {
        let Some(id) = self.by_message.get(&sequence).cloned() else { return };
        if let Some(attempt) = self.by_id.get_mut(&id).filter(|attempt| attempt.until != until) {
            attempt.until = until;
            let end = attempt.end();
            self.remember_end(&id, end);
        }
    }

    fn remember_end(&mut self, id: &AttemptId, end: Moment) {
        self.ends.push(Reverse((end, id.clone())));
        if self.ends.len() > 64 + 2 * self.by_id.len() {
            let current = |Reverse((end, id)): &Reverse<(Moment, AttemptId)>| is_end(&self.by_id, id, *end);
            let kept: BinaryHeap<_> = self.ends.drain().filter(current).collect();
            self.ends = kept;
            self.ends.push(Reverse((end, id.clone())));
        }
    }

    fn forget(&mut self, id: &AttemptId) {
        let Some(attempt) = self.by_id.remove(id) else { return };
        self.bytes -= attempt.bytes;
        for handed in &attempt.handed {
            self.by_message.remove(&handed.receipt.sequence);
        }
    }

    pub(super) fn forget_old(&mut self, now: Moment) {
        while self.ends.peek().is_some_and(|Reverse((end, _))| *end <= now) {
            let Some(Reverse((end, id))) = self.ends.pop() else { return };
            if is_end(&self.by_id, &id, end) {
                self.forget(&id);
            }
        }
    }

    pub(super) fn find(&self, id: &AttemptId, now: Moment) -> Option<&Attempt> {
        self.by_id.get(id).filter(|found| now < found.end())
    }

    /// What each was given, in order of their ids.
    pub(super) fn all(&self) -> impl Iterator<Item = (&AttemptId, &Attempt)> {
        let mut all: Vec<_> = self.by_id.iter().collect();
        all.sort_unstable_by_key(|(id, _)| *id);
        all.into_iter()
    }

    pub(super) fn bytes(&self) -> u64 {
        self.bytes
    }
}

fn is_end(by_id: &HashMap<AttemptId, Attempt>, id: &AttemptId, end: Moment) -> bool {
    by_id.get(id).is_some_and(|attempt| attempt.end() == end)
}

#[cfg(test)]
mod tests {
    use super::*;

    use hobbychair_bytes::values::Receipt;

    fn attempt(moment: Moment, until: Moment, sequences: &[u64]) -> Attempt {
        let handed = |sequence: &u64| Handed {
            receipt: Receipt { incarnation: 1, sequence: *sequence, ordinal: 1 },
            moment,
            first: moment,
            group: "g".into(),
            envelope: "form".into(),
        };
        Attempt { moment, until, handed: sequences.iter().map(handed).collect(), bytes: 4 * sequences.len() as u64 }
    }

    fn id(text: &str) -> AttemptId {
        AttemptId::parse(text).unwrap()
    }

    #[test]
    fn an_attempt_is_over_with_the_first_of_its_messages() {
        let mut attempts = Attempts::default();
        attempts.insert(&id("a"), attempt(0, 30_000, &[1, 2]));
        attempts.insert(&id("b"), attempt(1, 30_001, &[3]));
        assert_eq!(attempts.bytes(), 12);
        attempts.forget_with(2);
        assert!(attempts.find(&id("a"), 2).is_none() && attempts.find(&id("b"), 2).is_some());
        assert_eq!((attempts.bytes(), attempts.by_message.len()), (4, 1));
        // The same message by another attempt: it is handed out again.
        attempts.insert(&id("c"), attempt(40_000, 70_000, &[3]));
        assert!(attempts.find(&id("b"), 40_000).is_none() && attempts.find(&id("c"), 40_000).is_some());
        attempts.insert(&id("c"), attempt(80_000, 90_000, &[1]));
        assert_eq!((attempts.bytes(), attempts.by_message.len()), (4, 1));
    }

    #[test]
    fn an_attempt_ends_with_its_timeouts_or_after_five_minutes() {
        let mut attempts = Attempts::default();
        attempts.insert(&id("a"), attempt(0, 30_000, &[1]));
        attempts.put_off(1, 2 * WINDOW_MILLISECONDS);
        attempts.forget_old(WINDOW_MILLISECONDS - 1);
        assert!(
            attempts.find(&id("a"), WINDOW_MILLISECONDS - 1).is_some()
                && attempts.find(&id("a"), WINDOW_MILLISECONDS).is_none()
        );
        attempts.put_off(1, 50_000);
        attempts.forget_old(50_000);
        assert_eq!((attempts.bytes(), attempts.by_id.len(), attempts.by_message.len()), (0, 0, 0));
        for place in 0..10_000 {
            attempts.insert(&id("b"), attempt(place, 60_000 + place, &[2]));
        }
        assert!(attempts.ends.len() < 100);
    }
}
