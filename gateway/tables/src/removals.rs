//! The removals of the last minute: for so long a name isn't free, and a book says them.

use std::collections::{HashMap, VecDeque};

use hobbychair_bytes::moment::Moment;
use hobbychair_sqs::texts::QueueName;

use crate::book::Removal;
use crate::names::REMOVAL_PAUSE_MILLISECONDS;

/// The removals whose pause may not be over.
#[derive(Default)]
pub(crate) struct RecentRemovals {
    by_name: HashMap<QueueName, Removal>,
    /// When each name went, in the order in which that was said.
    in_order: VecDeque<(Moment, QueueName)>,
}

impl RecentRemovals {
    pub(crate) fn add(&mut self, removal: &Removal) {
        self.forget_until(removal.at);
        self.in_order.push_back((removal.at, removal.name.clone()));
        self.by_name.insert(removal.name.clone(), removal.clone());
    }

    /// Forgets those whose pause is over by this moment. Each is looked at once in all.
    pub(crate) fn forget_until(&mut self, now: Moment) {
        while let Some((at, name)) = self.in_order.front() {
            if now < at + REMOVAL_PAUSE_MILLISECONDS {
                return;
            }
            // A queue of the same name may have gone later.
            if self.by_name.get(name).is_some_and(|removal| removal.at == *at) {
                self.by_name.remove(name);
            }
            self.in_order.pop_front();
        }
    }

    /// Whether a queue of this name was removed less than a minute before this moment.
    pub(crate) fn has(&self, name: &QueueName, now: Moment) -> bool {
        self.by_name.get(name).is_some_and(|removal| now < removal.at + REMOVAL_PAUSE_MILLISECONDS)
    }

    /// Those whose pause isn't over. O(removals of a minute).
    pub(crate) fn all(&self, now: Moment) -> Vec<Removal> {
        self.by_name.values().filter(|removal| now < removal.at + REMOVAL_PAUSE_MILLISECONDS).cloned().collect()
    }

    /// How many names they are of.
    pub(crate) fn count(&self) -> u64 {
        self.by_name.len() as u64
    }
}

#[cfg(test)]
mod tests {
    use super::*;

    fn removal(name: &str, at: Moment) -> Removal {
        Removal { name: QueueName::parse(name).unwrap(), mark: at, at }
    }

    #[test]
    fn a_removal_counts_for_a_minute_and_the_last_one_of_a_name_alone() {
        let mut removals = RecentRemovals::default();
        for (name, at) in [("a", 1), ("b", 2), ("a", 3)] {
            removals.add(&removal(name, at));
        }
        let a = QueueName::parse("a").unwrap();
        assert_eq!((removals.count(), removals.all(REMOVAL_PAUSE_MILLISECONDS).len()), (2, 2));
        assert!(removals.has(&a, REMOVAL_PAUSE_MILLISECONDS + 2) && !removals.has(&a, REMOVAL_PAUSE_MILLISECONDS + 3));
        assert_eq!(removals.all(REMOVAL_PAUSE_MILLISECONDS + 2), [removal("a", 3)]);
        removals.forget_until(REMOVAL_PAUSE_MILLISECONDS + 2);
        assert_eq!((removals.count(), removals.in_order.len()), (1, 1));
        removals.add(&removal("c", REMOVAL_PAUSE_MILLISECONDS + 3));
        assert_eq!(removals.all(0), [removal("c", REMOVAL_PAUSE_MILLISECONDS + 3)]);
    }

    #[test]
    fn one_that_is_said_late_goes_with_those_before_it() {
        let mut removals = RecentRemovals::default();
        removals.add(&removal("late", 9));
        removals.add(&removal("early", 5));
        assert_eq!(removals.all(REMOVAL_PAUSE_MILLISECONDS + 6), [removal("late", 9)]);
        removals.forget_until(REMOVAL_PAUSE_MILLISECONDS + 9);
        assert_eq!(removals.count(), 0);
    }
}
