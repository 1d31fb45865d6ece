//! Bounds: how much of memory may be in use.

use std::sync::atomic::{AtomicBool, AtomicU64, Ordering};

/// A bound is full from this share of it on, in percent.
const FULL_PERCENT: u64 = 95;

/// One that was full is so until less than this share is in use, in percent.
const FREE_PERCENT: u64 = 90;

/// What a message takes in the tables and in the store beside its envelope, its deduplication id among it, in bytes. With
/// 50,000 messages in as many groups both processes grew by 1,899 bytes each, and their envelopes had 214.
pub const MESSAGE_BYTES: u64 = 1_700;

/// What a queue takes in the tables and in the store beside the texts of its attributes and tags, in bytes.
pub const QUEUE_BYTES: u64 = 4_096;

/// What is left of a message that was received and deleted, as long as its deduplication id counts, in bytes. With
/// 50,000 of them both processes grew by 3,405 bytes each, and with 4,000 by 3,535: the store's maps don't shrink.
pub const ID_BYTES: u64 = 3_500;

/// What a message takes in the bytes of a store beside its envelope (`docs/WIRE.md`, "A store"): 62 bytes, its group and its
/// deduplication id.
pub const STORED_MESSAGE_BYTES: u64 = 200;
/// The same of what is left of a message as long as its id counts.
pub const STORED_ID_BYTES: u64 = 100;
/// The same of a queue, beside the texts of its entries.
pub const STORED_QUEUE_BYTES: u64 = 2_000;

/// What a store keeps for good of the name of a queue or a book that is gone, in bytes of memory.
pub const GONE_NAME_BYTES: u64 = 1_700;
/// The same in bytes of a file.
pub const STORED_NAME_BYTES: u64 = 100;

/// What the removal of a queue takes of memory for the minute of its pause: an entry of the book, of up to 150 bytes beside what
/// a message takes.
pub const REMOVAL_BYTES: u64 = MESSAGE_BYTES + 150;
/// The same in bytes of a file, by an estimate: its entry, as much that a book may have beside what counts, and once more while a
/// fresh book is written.
pub const STORED_REMOVAL_BYTES: u64 = 3 * (STORED_MESSAGE_BYTES + 100);

/// Where names that are gone take so large a part of a bound, or removals do, no more queues are made: messages have the rest.
const PART_FOR_GONE: u64 = 4;

/// What is left of the call of a send to a standard queue for five minutes, in bytes: a part of its digest, kept twice,
/// and which message it sent.
pub const CALL_BYTES: u64 = 120;

/// A bound that begins to be full at 95 % of it, and ends to be so below 90 %.
#[derive(Debug, Default)]
pub struct Bound {
    /// 0 where there is none.
    limit: AtomicU64,
    is_full: AtomicBool,
}

impl Bound {
    /// From now on this is the bound, in bytes, or there is none.
    pub fn set(&self, limit: Option<u64>) {
        self.limit.store(limit.map_or(0, |limit| limit.max(1)), Ordering::Relaxed);
    }

    /// The bound in bytes, if there is one.
    pub fn limit(&self) -> Option<u64> {
        Some(self.limit.load(Ordering::Relaxed)).filter(|limit| *limit > 0)
    }

    /// Whether what is kept of queues that are gone, their names or their removals, may take so many bytes of it where another one is
    /// made.
    pub fn takes_gone(&self, bytes: u64) -> bool {
        self.limit().map_or(true, |limit| bytes < limit / PART_FOR_GONE)
    }

    /// Whether it is full, now that so many bytes are in use.
    pub fn is_full(&self, used: u64) -> bool {
        let Some(limit) = self.limit() else { return false };
        let share = if self.is_full.load(Ordering::Relaxed) { FREE_PERCENT } else { FULL_PERCENT };
        let is_full = u128::from(used) * 100 >= u128::from(limit) * u128::from(share);
        self.is_full.store(is_full, Ordering::Relaxed);
        is_full
    }
}

#[cfg(test)]
mod tests {
    use super::*;

    #[test]
    fn what_is_gone_has_a_quarter_of_a_bound() {
        let bound = Bound::default();
        assert!(bound.takes_gone(u64::MAX));
        bound.set(Some(400));
        assert!(bound.takes_gone(99) && !bound.takes_gone(100));
    }

    #[test]
    fn a_bound_is_full_from_95_percent_on_until_it_is_below_90() {
        let bound = Bound::default();
        assert!(!bound.is_full(u64::MAX), "there is no bound");
        bound.set(Some(1000));
        let told = [949, 950, 949, 900, 899, 900, 949, 950, u64::MAX, 0].map(|used| bound.is_full(used));
        assert_eq!(told, [false, true, true, true, false, false, false, true, true, false]);
        bound.set(None);
        assert!(!bound.is_full(u64::MAX));
    }
}
