//! What operators look at.

use std::sync::atomic::{AtomicBool, AtomicU64, AtomicUsize, Ordering};

/// Figures of a store at one moment. How many messages a queue has is told by `Store::count`.
#[derive(Clone, Copy, Debug, PartialEq, Eq)]
pub struct Figures {
    /// How many queues there are.
    pub queues: usize,
    /// What is in use of memory, in bytes, by the count that the bound is about.
    pub memory_bytes: u64,
    pub memory_bound: Option<u64>,
    /// Whether sends are refused since the disk of a server of the chain has too little room.
    pub is_disk_short: bool,
    /// How often a request was refused since a program's journal had no room for it.
    pub lacked_room: u64,
    /// How often a program `cq` that had ended was started again.
    pub restarts: u64,
    /// How far the clock is ahead of this machine's, in whole seconds.
    pub clock_lead: u64,
    /// Requests that were asked and aren't answered by the store. Polls between two tries don't count.
    pub open: usize,
}

/// What the tasks count.
#[derive(Default)]
pub(crate) struct Counters {
    pub(crate) restarts: AtomicU64,
    pub(crate) lacked_room: AtomicU64,
    pub(crate) open: AtomicUsize,
    pub(crate) serves: AtomicBool,
}

impl Counters {
    /// Whether clients are served by now.
    pub fn serves(&self) -> bool {
        self.serves.load(Ordering::Relaxed)
    }

    /// A program was started again.
    pub fn count_restart(&self) {
        self.restarts.fetch_add(1, Ordering::Relaxed);
    }

    /// A request was refused since a journal had no room.
    pub fn count_lack_of_room(&self) {
        self.lacked_room.fetch_add(1, Ordering::Relaxed);
    }

    /// The number of open requests of a task has become `now`; it was `before`.
    pub fn count_open(&self, before: usize, now: usize) {
        // The difference may be below zero: it wraps, and the sum wraps back.
        self.open.fetch_add(now.wrapping_sub(before), Ordering::Relaxed);
    }
}

#[cfg(test)]
mod tests {
    use super::*;

    #[test]
    fn open_requests_of_several_tasks_are_added_up() {
        let counters = Counters::default();
        counters.count_open(0, 7);
        counters.count_open(0, 2);
        counters.count_open(7, 1);
        assert_eq!(counters.open.load(Ordering::Relaxed), 3);
    }
}
