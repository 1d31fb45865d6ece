//! The groups of a FIFO queue, in the order in which the store hands them out. They are kept where it has to be known which
//! messages are next.

use std::collections::hash_map::RandomState;
use std::collections::{BTreeMap, BTreeSet, HashMap};
use std::hash::BuildHasher;
use std::sync::OnceLock;

use hobbychair_bytes::moment::Moment;

/// What stands for a group's id in the tables: a hash with a key that each process draws. So nobody can look for two groups that are
/// one here.
#[derive(Clone, Copy, Debug, PartialEq, Eq, Hash, PartialOrd, Ord)]
pub struct Group(u64);

impl Group {
    pub fn of(id: &str) -> Group {
        static KEY: OnceLock<RandomState> = OnceLock::new();
        Group(KEY.get_or_init(RandomState::new).hash_one(id))
    }
}

#[derive(Debug, Default)]
struct GroupMembers {
    sequences: BTreeSet<u64>,
    /// Until when messages are hidden. While the group is among the open ones, none is.
    hidden: BTreeSet<(Moment, u64)>,
}

impl GroupMembers {
    /// None of them is hidden from this moment on.
    fn end(&self) -> Option<Moment> {
        self.hidden.last().map(|(until, _)| *until)
    }
}

/// The groups that have messages. The store hands out all of the first open one, by its oldest message, then all of the
/// next, each in order (`docs/QUEUES.md`, Receive).
#[derive(Debug, Default)]
pub struct Groups {
    members: HashMap<Group, GroupMembers>,
    /// By their oldest message.
    open: BTreeMap<u64, Group>,
    /// Those of which a message is hidden, by the last end of a timeout.
    closed: BTreeSet<(Moment, Group)>,
}

impl Groups {
    /// Adds a message that is hidden until then.
    pub fn add(&mut self, group: Group, sequence: u64, until: Moment) {
        self.change(group, |members| {
            members.sequences.insert(sequence);
            if until > 0 {
                members.hidden.insert((until, sequence));
            }
        });
    }

    /// Takes out a message that was hidden until then.
    pub fn remove(&mut self, group: Group, sequence: u64, until: Moment) {
        self.change(group, |members| {
            members.sequences.remove(&sequence);
            members.hidden.remove(&(until, sequence));
        });
    }

    /// A message is hidden until then; `before` says until when it was before.
    pub fn hide(&mut self, group: Group, sequence: u64, before: Moment, until: Moment) {
        self.change(group, |members| {
            members.hidden.remove(&(before, sequence));
            members.hidden.insert((until, sequence));
        });
    }

    /// Changes a group, and finds its place anew.
    fn change(&mut self, group: Group, change: impl FnOnce(&mut GroupMembers)) {
        let members = self.members.entry(group).or_default();
        match (members.end(), members.sequences.first()) {
            (Some(end), _) => drop(self.closed.remove(&(end, group))),
            (None, Some(oldest)) => drop(self.open.remove(oldest)),
            (None, None) => {}
        }
        change(members);
        match (members.end(), members.sequences.first()) {
            (Some(end), Some(_)) => drop(self.closed.insert((end, group))),
            (None, Some(oldest)) => drop(self.open.insert(*oldest, group)),
            (_, None) => drop(self.members.remove(&group)),
        }
    }

    /// Takes up which groups are open by now. Each is found once after each handing.
    fn look(&mut self, now: Moment) {
        while let Some((_, group)) = self.closed.first().copied().filter(|(end, _)| *end <= now) {
            self.change(group, |members| members.hidden.clear());
        }
    }

    /// The messages that the store would hand out at `now`, in its order.
    pub fn next(&mut self, now: Moment) -> impl Iterator<Item = u64> + '_ {
        self.look(now);
        let open = self.open.values().filter_map(|group| self.members.get(group));
        open.flat_map(|members| members.sequences.iter().copied())
    }
}

#[cfg(test)]
mod tests {
    use super::*;

    use std::collections::hash_map::DefaultHasher;
    use std::hash::{Hash, Hasher};

    /// Whoever knows the function looks for two groups with the same value by himself.
    #[test]
    fn nobody_else_can_tell_what_stands_for_a_group() {
        let elsewhere = |id: &str| {
            let mut hasher = DefaultHasher::new();
            id.hash(&mut hasher);
            Group(hasher.finish())
        };
        for id in ["a", "b", "group"] {
            assert!(Group::of(id) == Group::of(id) && Group::of(id) != elsewhere(id), "{id}");
        }
        assert_ne!(Group::of("a"), Group::of("b"));
    }
}
