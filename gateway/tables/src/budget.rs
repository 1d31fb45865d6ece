//! One count of bytes for all that requests keep in memory, from the first byte that is read to the last one of the
//! answer that is written.

use std::sync::atomic::{AtomicUsize, Ordering};
use std::sync::Arc;

/// So many bytes of a request count with its connection, of which there is a bound as well.
const FREE_BYTES: usize = 1 << 10;

/// A request with no more bytes is a small one.
const SMALL_BYTES: usize = 16 << 10;

/// Small ones may take more than the bound by this part of it: whoever sends large ones and never ends them keeps no ordinary one
/// out.
const RESERVE: usize = 4;

/// The bound of what all requests keep in memory, and what they keep.
#[derive(Clone, Debug)]
pub struct Budget {
    used: Arc<AtomicUsize>,
    most: usize,
    /// So many bytes of each request count nothing.
    free: usize,
    /// With no more bytes a request may be counted beyond `most`, up to `most_with_small`.
    small: usize,
    most_with_small: usize,
}

impl Budget {
    /// All requests keep so many bytes at most, and small ones a quarter more.
    pub fn new(most: usize) -> Budget {
        Budget {
            small: SMALL_BYTES,
            most_with_small: most.saturating_add(most / RESERVE),
            ..Budget::of(most, FREE_BYTES)
        }
    }

    /// The same for requests of any length, of each of which so many bytes count nothing.
    pub fn of(most: usize, free: usize) -> Budget {
        Budget { used: Arc::default(), most, free, small: 0, most_with_small: most }
    }

    /// What a connection's request has of the budget: nothing yet.
    pub fn share(&self) -> Share {
        Share { budget: self.clone(), bytes: AtomicUsize::new(0) }
    }

    /// The bytes that count.
    pub fn used(&self) -> usize {
        self.used.load(Ordering::Relaxed)
    }
}

/// What the request of a connection has of the budget, one after the other. It goes back when this is dropped.
#[derive(Debug)]
pub struct Share {
    budget: Budget,
    bytes: AtomicUsize,
}

impl Share {
    /// Counts so many bytes from now on, and no others. False if that isn't there: what was counted before stays.
    pub fn try_set(&self, length: usize) -> bool {
        let before = self.bytes.load(Ordering::Relaxed);
        let wanted = length.saturating_sub(self.budget.free);
        let most = if length <= self.budget.small { self.budget.most_with_small } else { self.budget.most };
        if wanted > before && self.budget.used().saturating_add(wanted - before) > most {
            return false;
        }
        self.set(length);
        true
    }

    /// Counts so many bytes from now on, whether they are there or not: they are in memory already.
    pub fn set(&self, length: usize) {
        let wanted = length.saturating_sub(self.budget.free);
        // What all connections share isn't touched by requests that count nothing.
        if self.bytes.load(Ordering::Relaxed) == wanted {
            return;
        }
        let before = self.bytes.swap(wanted, Ordering::Relaxed);
        // The difference may be below zero: it wraps, and the sum wraps back.
        self.budget.used.fetch_add(wanted.wrapping_sub(before), Ordering::Relaxed);
    }
}

impl Drop for Share {
    fn drop(&mut self) {
        self.set(0);
    }
}

#[cfg(test)]
mod tests {
    use super::*;

    #[test]
    fn shares_have_a_bound_in_all_and_go_back() {
        let budget = Budget::of(10, 3);
        let (first, second) = (budget.share(), budget.share());
        assert!(first.try_set(11) && budget.used() == 8);
        assert!(!second.try_set(6) && second.try_set(5) && budget.used() == 10);
        assert!(second.try_set(3), "what is free is there at all times");
        assert!(!first.try_set(14) && first.try_set(11), "what it had stays");
        second.set(100);
        assert_eq!(budget.used(), 8 + 97);
        assert!(first.try_set(10) && !first.try_set(11), "less is always granted");
        drop(second);
        assert_eq!(budget.used(), 7);
        drop(first);
        assert_eq!(budget.used(), 0);
    }

    #[test]
    fn large_requests_keep_no_small_one_out_and_many_small_ones_have_a_bound() {
        let most = 64 << 20;
        let budget = Budget::new(most);
        let large = budget.share();
        assert!(large.try_set(most) && !budget.share().try_set(SMALL_BYTES + 1));
        let small: Vec<Share> = (0..10_000).map(|_| budget.share()).collect();
        let counted = small.iter().filter(|share| share.try_set(SMALL_BYTES)).count();
        assert!((1000..1200).contains(&counted) && budget.used() <= most + most / RESERVE, "{counted}");
        // What counts with connections is there at all times, and what went back is there again.
        assert!(budget.share().try_set(FREE_BYTES) && !budget.share().try_set(SMALL_BYTES));
        drop(large);
        let counted = small.iter().filter(|share| share.try_set(SMALL_BYTES)).count();
        assert!((5000..6000).contains(&counted) && budget.used() <= most + most / RESERVE, "{counted}");
        drop(small);
        assert_eq!(budget.used(), 0);
    }
}
