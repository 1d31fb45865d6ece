//! Jumps of the clock between the last record of a journal and the start that finds it.

use std::sync::{PoisonError, RwLock};

use hobbychair_bytes::moment::Moment;

/// A start that found the clock far ahead of the last record.
#[derive(Clone, Copy, Debug, PartialEq, Eq)]
struct Jump {
    /// When the start was.
    moment: Moment,
    /// So many milliseconds before it don't count.
    uncounted: u64,
}

/// The jumps of all starts, in order.
#[derive(Debug, Default)]
pub struct Jumps(RwLock<Vec<Jump>>);

impl Jumps {
    /// Of the time before a start at `moment` so many milliseconds make no message older. A jump that is known already
    /// is passed over.
    pub fn add(&self, moment: Moment, uncounted: u64) {
        let mut jumps = self.0.write().unwrap_or_else(PoisonError::into_inner);
        if jumps.last().map_or(true, |last| last.moment < moment) {
            jumps.push(Jump { moment, uncounted });
        }
    }

    /// All of them, in order: when each start was, and how many milliseconds before it don't count.
    pub fn all(&self) -> Vec<(Moment, u64)> {
        let jumps = self.0.read().unwrap_or_else(PoisonError::into_inner);
        jumps.iter().map(|jump| (jump.moment, jump.uncounted)).collect()
    }

    /// The last moment of a send whose message is too old at `now`, where messages are kept for `period` milliseconds.
    pub fn horizon(&self, now: Moment, period: u64) -> Option<Moment> {
        let mut horizon = now.checked_sub(period)?;
        let jumps = self.0.read().unwrap_or_else(PoisonError::into_inner);
        for jump in jumps.iter().rev().filter(|jump| jump.moment <= now) {
            if horizon >= jump.moment {
                break;
            }
            horizon = horizon.checked_sub(jump.uncounted)?;
        }
        Some(horizon)
    }
}

#[cfg(test)]
mod tests {
    use super::*;

    #[test]
    fn time_that_does_not_count_makes_no_message_older() {
        let jumps = Jumps::default();
        assert_eq!((jumps.horizon(99, 100), jumps.horizon(100, 100)), (None, Some(0)));
        // A start at 1,000 of which 300 don't count, and one at 5,000 of which 1,000 don't.
        jumps.add(1000, 300);
        jumps.add(5000, 1000);
        jumps.add(5000, 1000);
        let age = |sent: Moment, now: Moment| {
            let after = |moment: Moment| sent < moment && moment <= now;
            now - sent - if after(1000) { 300 } else { 0 } - if after(5000) { 1000 } else { 0 }
        };
        for (period, sent, now) in
            [(100, 599, 999), (100, 500, 1000), (100, 601, 1000), (100, 1000, 1100), (100, 1001, 1100)]
        {
            let is_old = jumps.horizon(now, period).is_some_and(|horizon| sent <= horizon);
            assert_eq!(is_old, age(sent, now) >= period, "{period} {sent} {now}");
        }
        for (sent, now) in [(0, 5699), (0, 5700), (3999, 5000), (4000, 5399), (4000, 5400), (5000, 9399), (5000, 9400)]
        {
            for period in [400, 1000, 4400] {
                let is_old = jumps.horizon(now, period).is_some_and(|horizon| sent <= horizon);
                assert_eq!(is_old, age(sent, now) >= period, "{period} {sent} {now}");
            }
        }
    }
}
