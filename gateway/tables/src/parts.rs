//! Which queues of the store have the parts of messages, and how many messages name each. A message that is moved and its
//! copy name the same parts for a moment.

use std::collections::{BTreeSet, HashMap, HashSet};
use std::sync::{Mutex, MutexGuard, PoisonError};

use hobbychair_bytes::moment::Moment;
use hobbychair_bytes::values::StoreReply;
use hobbychair_sqs::errors::SqsError;
use tokio::sync::Notify;

use crate::ask::{Outcome, PartsAsk};
use crate::names::REMOVAL_PAUSE_MILLISECONDS;
use crate::shards::Shards;

/// A queue that has parts.
#[derive(Debug, Default)]
struct PartsQueue {
    is_there: bool,
    /// How many messages name it.
    named: u64,
}

#[derive(Debug, Default)]
struct PartsQueues {
    by_number: HashMap<u64, PartsQueue>,
    /// Those that no message names any more.
    freed: HashSet<u64>,
    last_number: u64,
    /// Numbers that had parts, by when these were removed. Where none is used again, nobody counts them.
    removed: BTreeSet<(Moment, u64)>,
    are_used_again: bool,
}

impl PartsQueues {
    fn free_unless_named(&mut self, number: u64) {
        if self.by_number.get(&number).is_some_and(|entry| entry.is_there && entry.named == 0) {
            self.freed.insert(number);
        }
    }
}

/// All of them.
#[derive(Debug, Default)]
pub struct Parts {
    entries: Mutex<PartsQueues>,
    some_freed: Notify,
}

impl Parts {
    fn entries(&self) -> MutexGuard<'_, PartsQueues> {
        self.entries.lock().unwrap_or_else(PoisonError::into_inner)
    }

    /// A number that no parts have had, for the program at this place. Where a moment is given, it may be one whose parts were
    /// removed so long before that its name is free again: such a store never forgets a name.
    pub fn next_number(&self, shards: Shards, place: usize, now: Option<Moment>) -> u64 {
        let mut entries = self.entries();
        entries.are_used_again |= now.is_some();
        let is_free = |removed: Moment| now.is_some_and(|now| removed + REMOVAL_PAUSE_MILLISECONDS <= now);
        let mut free = entries.removed.iter().take_while(|(removed, _)| is_free(*removed));
        if let Some(found) = free.find(|(_, number)| shards.place_of_number(*number) == place).copied() {
            entries.removed.remove(&found);
            return found.1;
        }
        entries.last_number = shards.number_above(entries.last_number, place);
        entries.last_number
    }

    /// From now on this number counts as used.
    pub fn saw_number(&self, number: u64) {
        let mut entries = self.entries();
        entries.last_number = entries.last_number.max(number);
    }

    /// Applies the store's reply.
    pub fn apply_reply(
        &self,
        number: u64,
        ask: &PartsAsk,
        reply: StoreReply,
        moment: Moment,
    ) -> Result<Outcome, SqsError> {
        match (ask, reply) {
            (_, StoreReply::Refused(code)) => Err(SqsError::of_refusal(code)),
            (PartsAsk::Create(_), StoreReply::Created(_)) => {
                self.found(number);
                Ok(Outcome::Done)
            }
            (PartsAsk::Add(..), StoreReply::Sent(_)) => Ok(Outcome::Done),
            (PartsAsk::Read, StoreReply::Received(parts)) => {
                let texts: Vec<_> = parts.into_iter().map(|part| part.body).collect();
                Ok(Outcome::Parts(texts.concat()))
            }
            (PartsAsk::Remove, StoreReply::Removed) => {
                let mut entries = self.entries();
                entries.by_number.remove(&number);
                if entries.are_used_again {
                    entries.removed.insert((moment, number));
                }
                Ok(Outcome::Done)
            }
            _ => Err(SqsError::InternalFailure("The store's answer doesn't fit the request.".into())),
        }
    }

    /// All of them, in the order of their numbers.
    #[cfg(test)]
    pub fn told(&self) -> Vec<String> {
        let mut told: Vec<_> =
            self.entries().by_number.iter().map(|(number, entry)| format!("{number}: {entry:?}")).collect();
        told.sort_unstable();
        told.push(format!("{:?}", self.entries().removed));
        told
    }

    /// The last number that counts as used.
    #[cfg(test)]
    pub fn last_number(&self) -> u64 {
        self.entries().last_number
    }

    /// The store has them.
    pub fn found(&self, number: u64) {
        self.entries().by_number.entry(number).or_default().is_there = true;
    }

    /// The store had them, and they were removed at this moment. Their number is used again.
    pub fn was_removed(&self, number: u64, moment: Moment) {
        let mut entries = self.entries();
        entries.are_used_again = true;
        entries.removed.insert((moment, number));
    }

    /// A message names them.
    pub fn name(&self, number: u64) {
        let mut entries = self.entries();
        entries.by_number.entry(number).or_default().named += 1;
        // What another program has of them may be taken up later.
        entries.freed.remove(&number);
    }

    /// A message that named them is gone.
    pub fn unname(&self, number: u64) {
        let mut entries = self.entries();
        let Some(entry) = entries.by_number.get_mut(&number) else { return };
        entry.named = entry.named.saturating_sub(1);
        if entry.named == 0 && !entry.is_there {
            entries.by_number.remove(&number);
        }
        entries.free_unless_named(number);
        drop(entries);
        self.some_freed.notify_one();
    }

    /// Nobody will send a message that names them: where none does by now, they can go.
    pub fn settle(&self, number: u64) {
        self.entries().free_unless_named(number);
        self.some_freed.notify_one();
    }

    /// The same for all, before anybody sends.
    pub fn settle_all(&self) {
        let numbers: Vec<_> = self.entries().by_number.keys().copied().collect();
        numbers.into_iter().for_each(|number| self.settle(number));
    }

    /// Takes the parts that no message names any more.
    pub fn take_those_freed(&self) -> Vec<u64> {
        std::mem::take(&mut self.entries().freed).into_iter().collect()
    }

    /// Waits for such parts, and takes them.
    pub async fn take_freed(&self) -> Vec<u64> {
        loop {
            let freed = self.take_those_freed();
            if !freed.is_empty() {
                return freed;
            }
            self.some_freed.notified().await;
        }
    }
}

#[cfg(test)]
mod tests {
    use hobbychair_bytes::values::{Delivery, Receipt};

    use super::*;
    use crate::ask::PartsCause;

    fn freed(parts: &Parts) -> Vec<u64> {
        let mut freed = parts.take_those_freed();
        freed.sort_unstable();
        freed
    }

    fn create(parts: &Parts, number: u64) {
        parts.apply_reply(number, &PartsAsk::Create(PartsCause::Client), StoreReply::Created(1), 0).unwrap();
    }

    #[test]
    fn parts_go_with_the_last_message_that_names_them() {
        let parts = Parts::default();
        create(&parts, 1);
        parts.name(1);
        parts.settle(1);
        // A copy, and then its original goes.
        parts.name(1);
        parts.unname(1);
        assert!(freed(&parts).is_empty());
        parts.unname(1);
        assert_eq!(freed(&parts), [1]);
        parts.apply_reply(1, &PartsAsk::Remove, StoreReply::Removed, 0).unwrap();
        parts.settle(1);
        assert_eq!((freed(&parts), parts.entries().by_number.len()), (vec![], 0));
    }

    #[test]
    fn parts_that_no_message_names_are_found() {
        let parts = Parts::default();
        [1, 2, 3].into_iter().for_each(|number| create(&parts, number));
        parts.name(2);
        // Parts that aren't there.
        parts.name(4);
        parts.settle_all();
        assert_eq!(freed(&parts), [1, 3]);
        parts.unname(4);
        assert_eq!((freed(&parts), parts.entries().by_number.len()), (vec![], 3));
    }

    #[test]
    fn parts_stay_where_one_program_is_taken_up_before_another() {
        let parts = Parts::default();
        create(&parts, 1);
        parts.name(1);
        parts.unname(1);
        // The copy is with the other program.
        parts.name(1);
        parts.settle_all();
        assert!(freed(&parts).is_empty());
        // So is that of parts of which nothing is known yet.
        parts.name(2);
        create(&parts, 2);
        parts.name(2);
        parts.unname(2);
        parts.settle_all();
        assert!(freed(&parts).is_empty());
    }

    #[test]
    fn numbers_are_of_their_programs_and_new() {
        for count in 1..=16 {
            let (parts, shards) = (Parts::default(), Shards::new(count).unwrap());
            parts.saw_number(100);
            let mut last = 100;
            for place in (0..count as usize).chain(0..count as usize) {
                let number = parts.next_number(shards, place, None);
                assert!(number > last && shards.place_of_number(number) == place, "{number} of {count}");
                last = number;
            }
        }
    }

    #[test]
    fn a_number_is_used_again_once_its_name_is_free_by_its_program_alone() {
        let (parts, shards) = (Parts::default(), Shards::new(2).unwrap());
        let numbers: Vec<_> = [0, 1, 0, 1].map(|place| parts.next_number(shards, place, Some(0))).to_vec();
        for (number, moment) in numbers.iter().zip([5, 6, 7, 8]) {
            parts.apply_reply(*number, &PartsAsk::Remove, StoreReply::Removed, moment).unwrap();
        }
        let next = |place, now| parts.next_number(shards, place, now);
        let fresh = [
            next(0, None),
            next(1, Some(REMOVAL_PAUSE_MILLISECONDS + 5)),
            next(0, Some(REMOVAL_PAUSE_MILLISECONDS + 4)),
        ];
        assert!(fresh.iter().all(|number| !numbers.contains(number)));
        let again =
            [(1, 6), (0, 7), (0, 7)].map(|(place, since)| next(place, Some(REMOVAL_PAUSE_MILLISECONDS + since)));
        assert_eq!(again, [numbers[1], numbers[0], numbers[2]]);
        assert!(!numbers.contains(&next(0, Some(u64::MAX))));
    }

    #[test]
    fn a_text_comes_back_from_its_parts() {
        let parts = Parts::default();
        let receipt = Receipt { incarnation: 1, sequence: 1, ordinal: 1 };
        let given = ["one", "two"].map(|body| Delivery { receipt, group: "parts".into(), body: body.into() });
        let read = parts.apply_reply(1, &PartsAsk::Read, StoreReply::Received(given.to_vec()), 0).unwrap();
        assert!(matches!(read, Outcome::Parts(text) if text == "onetwo"));
    }
}
