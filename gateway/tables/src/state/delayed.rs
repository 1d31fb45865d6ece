//! Which delayed messages are due. Those of a standard queue stand in a queue of the store beside it, and the tables of
//! that one have these.

use std::collections::{BTreeSet, HashMap, VecDeque};
use std::ops::Bound;

use hobbychair_bytes::moment::Moment;
use hobbychair_sqs::texts::{CallKey, DedupId};
use uuid::Uuid;

use super::WINDOW_MILLISECONDS;
use crate::limits::CALL_BYTES;

/// When a message is due, and its sequence number.
pub(super) type Place = (Moment, u64);

/// So often a message is tried that can't be moved.
const MOST_TRIES: u32 = 3;

/// Delayed messages that have no copy yet, in the order in which they are due, and of those that are due together in the
/// order of their sends.
#[derive(Debug, Default)]
pub(super) struct DueMessages {
    in_order: BTreeSet<Place>,
    moments: HashMap<u64, Moment>,
    /// How often messages were tried that couldn't be moved.
    tries: HashMap<u64, u32>,
    /// Those that aren't tried any more.
    set_aside: BTreeSet<u64>,
    /// The alarm that is set.
    alarm: Option<Moment>,
}

impl DueMessages {
    pub(super) fn add(&mut self, sequence: u64, due: Moment) {
        self.moments.insert(sequence, due);
        self.in_order.insert((due, sequence));
    }

    /// It has a copy, or is deleted.
    pub(super) fn remove(&mut self, sequence: u64) {
        self.tries.remove(&sequence);
        self.set_aside.remove(&sequence);
        self.take(sequence);
    }

    fn take(&mut self, sequence: u64) -> bool {
        let due = self.moments.remove(&sequence);
        due.is_some_and(|due| self.in_order.remove(&(due, sequence)))
    }

    /// A message couldn't be moved. It is tried again at `next`, or not any more: then this is true.
    pub(super) fn refused(&mut self, sequence: u64, next: Moment) -> bool {
        if !self.take(sequence) {
            return false;
        }
        let tries = self.tries.entry(sequence).or_default();
        *tries += 1;
        let is_last = *tries == MOST_TRIES;
        if is_last {
            self.tries.remove(&sequence);
            self.set_aside.insert(sequence);
        } else {
            self.add(sequence, next);
        }
        is_last
    }

    /// How many messages aren't tried any more.
    pub(super) fn count_set_aside(&self) -> usize {
        self.set_aside.len()
    }

    /// The first messages that are due, at most so many. One that couldn't be moved with others is tried alone.
    pub(super) fn due(&self, now: Moment, most: usize) -> Vec<u64> {
        let mut due = self.in_order.range(..=(now, u64::MAX)).map(|(_, sequence)| *sequence).peekable();
        let was_tried = |sequence: &u64| self.tries.contains_key(sequence);
        match due.next_if(was_tried) {
            Some(first) => vec![first],
            None => due.take_while(|sequence| !was_tried(sequence)).take(most).collect(),
        }
    }

    /// Messages behind a place, in order. Those that aren't tried any more are the last ones, as if they were never due.
    pub(super) fn behind(&self, after: Place) -> impl Iterator<Item = Place> + '_ {
        let in_order = self.in_order.range((Bound::Excluded(after), Bound::Unbounded)).copied();
        let set_aside = self.set_aside.iter().map(|sequence| (Moment::MAX, *sequence));
        in_order.chain(set_aside.filter(move |place| *place > after))
    }

    /// The alarm that has to be set for the first message, if none before it is.
    pub(super) fn next_alarm(&mut self) -> Option<Moment> {
        let (first, _) = *self.in_order.first()?;
        if self.alarm.is_some_and(|alarm| alarm <= first) {
            return None;
        }
        self.alarm = Some(first);
        self.alarm
    }

    pub(super) fn forget_alarm(&mut self) {
        self.alarm = None;
    }

    /// How many there are, and how many of these are due.
    pub(super) fn count(&self, now: Moment) -> [usize; 2] {
        let due = self.in_order.range(..=(now, u64::MAX)).count();
        [self.in_order.len() + self.set_aside.len(), due]
    }

    pub(super) fn is_empty(&self) -> bool {
        self.in_order.is_empty() && self.set_aside.is_empty()
    }

    /// Those that are to be moved, in order.
    #[cfg(test)]
    pub(super) fn told(&self) -> Vec<Place> {
        self.in_order.iter().copied().collect()
    }

    /// Those up to this one aren't moved any more.
    pub(super) fn remove_up_to(&mut self, last: u64) {
        let going: Vec<_> = self.moments.keys().chain(&self.set_aside).filter(|own| **own <= last).copied().collect();
        going.into_iter().for_each(|sequence| self.remove(sequence));
    }

    /// None of them is moved any more.
    pub(super) fn clear(&mut self) {
        *self = DueMessages { alarm: self.alarm, ..DueMessages::default() };
    }
}

/// What a call sent.
#[derive(Clone, Copy, Debug, PartialEq, Eq)]
pub(super) enum First {
    /// A delayed message, by its id.
    Delayed(Uuid),
    /// One that isn't delayed, by its sequence number.
    Stored(u64),
}

/// The calls of the last five minutes that can be told from others, and what they sent. The store knows a call only in the
/// queue to which it sent its message, and the queue's delay may have changed since.
#[derive(Debug, Default)]
pub(super) struct Calls {
    firsts: HashMap<CallKey, (Moment, First)>,
    by_age: VecDeque<(Moment, CallKey)>,
}

impl Calls {
    /// Takes up what a call sent, if it is the first one's.
    pub(super) fn remember(&mut self, call: &DedupId, first: First, moment: Moment) {
        let Some(key) = call.call_key() else { return };
        self.forget_old(moment);
        if let std::collections::hash_map::Entry::Vacant(entry) = self.firsts.entry(key) {
            entry.insert((moment, first));
            self.by_age.push_back((moment, key));
        }
    }

    /// Takes up what calls sent, of which nothing was known.
    pub(super) fn take_up(&mut self, sends: impl Iterator<Item = (Moment, CallKey, First)>) {
        for (moment, key, first) in sends {
            self.firsts.insert(key, (moment, first));
            self.by_age.push_back((moment, key));
        }
        self.by_age.make_contiguous().sort_by_key(|(moment, _)| *moment);
    }

    /// What a call sent. Nothing is forgotten here, since nobody counts it here.
    pub(super) fn find(&self, call: &DedupId, now: Moment) -> Option<First> {
        let (moment, first) = self.firsts.get(&call.call_key()?)?;
        (now < moment + WINDOW_MILLISECONDS).then_some(*first)
    }

    pub(super) fn forget_old(&mut self, now: Moment) {
        while let Some((_, call)) = self.by_age.front().filter(|(moment, _)| moment + WINDOW_MILLISECONDS <= now) {
            self.firsts.remove(call);
            self.by_age.pop_front();
        }
    }

    /// The calls and what they sent, in the order of their moments.
    #[cfg(test)]
    pub(super) fn told(&self) -> Vec<String> {
        let mut told: Vec<_> =
            self.by_age.iter().map(|(moment, key)| format!("{moment:>20} {key:?} {:?}", self.firsts[key].1)).collect();
        told.sort_unstable();
        told
    }

    /// What they take of memory, in bytes.
    pub(super) fn bytes(&self) -> u64 {
        CALL_BYTES * self.by_age.len() as u64
    }
}

#[cfg(test)]
mod tests {
    use super::*;

    fn due_at(moments: &[Moment]) -> DueMessages {
        let mut messages = DueMessages::default();
        (1..).zip(moments).for_each(|(sequence, due)| messages.add(sequence, *due));
        messages
    }

    #[test]
    fn messages_are_due_in_order() {
        let mut messages = due_at(&[50, 20, 50, 51]);
        assert_eq!(
            [messages.due(19, 9), messages.due(50, 9), messages.due(99, 2)],
            [vec![], vec![2, 1, 3], vec![2, 1]]
        );
        messages.remove(1);
        messages.remove(9);
        assert_eq!((messages.due(50, 9), messages.count(50)), (vec![2, 3], [3, 2]));
        messages.clear();
        assert!(messages.is_empty() && messages.count(50) == [0, 0]);
    }

    #[test]
    fn an_alarm_is_set_once() {
        let mut messages = DueMessages::default();
        assert_eq!(messages.next_alarm(), None);
        let mut add = |sequence, due| {
            messages.add(sequence, due);
            messages.next_alarm()
        };
        assert_eq!([add(1, 50), add(2, 60), add(3, 50), add(4, 40)], [Some(50), None, None, Some(40)]);
        messages.remove(4);
        assert_eq!(messages.next_alarm(), None, "the one before it comes first");
        messages.forget_alarm();
        assert_eq!((messages.next_alarm(), messages.next_alarm()), (Some(50), None));
    }

    #[test]
    fn a_message_that_cannot_be_moved_holds_nobody_up() {
        let mut messages = due_at(&[50, 50, 50]);
        assert!(!messages.refused(1, 60));
        assert_eq!([messages.due(50, 1), messages.due(60, 9)], [vec![2], vec![2, 3]], "it is tried alone");
        messages.remove(2);
        messages.remove(3);
        assert_eq!(messages.due(60, 9), [1]);
        assert!(!messages.refused(1, 70) && messages.refused(1, 80) && !messages.refused(1, 90));
        assert_eq!((messages.due(99, 9), messages.count(99), messages.count_set_aside()), (vec![], [1, 0], 1));
        assert_eq!(messages.behind((50, 0)).collect::<Vec<_>>(), [(Moment::MAX, 1)]);
        messages.remove(1);
        assert!(messages.is_empty());
    }

    #[test]
    fn a_call_is_known_for_five_minutes() {
        let call = |name: &str| DedupId::of_call(&[0; 32], Some(name));
        let id = Uuid::from_u128(7);
        let mut calls = Calls::default();
        calls.remember(&call("a"), First::Delayed(id), 10);
        calls.remember(&call("b"), First::Stored(3), 20);
        calls.remember(&call("a"), First::Stored(4), 30);
        calls.remember(&DedupId::parse("other").unwrap(), First::Stored(5), 30);
        assert_eq!(calls.bytes(), 2 * CALL_BYTES);
        let firsts = ["a", "b", "c"].map(|name| calls.find(&call(name), 9 + WINDOW_MILLISECONDS));
        assert_eq!(firsts, [Some(First::Delayed(id)), Some(First::Stored(3)), None]);
        assert_eq!(calls.find(&call("a"), 10 + WINDOW_MILLISECONDS), None);
        calls.forget_old(20 + WINDOW_MILLISECONDS);
        assert_eq!(calls.bytes(), 0);
    }
}
