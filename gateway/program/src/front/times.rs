//! The cluster's time, as gateways that act tell it.

use std::sync::{Mutex, PoisonError};
use std::time::Duration;

use tokio::time::Instant;

/// What was told is good for so long: the cluster's clock goes a hundredth faster or slower at most.
const GOOD: Duration = Duration::from_secs(10);

/// The last time that was told, and by which server's gateway.
#[derive(Default)]
pub struct Times(Mutex<Option<Told>>);

#[derive(Clone, Copy)]
struct Told {
    server: u32,
    /// In milliseconds.
    time: u64,
    /// When the answer came that has it.
    at: Instant,
}

impl Times {
    /// An answer came at that moment, and tells this time.
    pub fn learn(&self, server: u32, time: u64, at: Instant) {
        *self.0.lock().unwrap_or_else(PoisonError::into_inner) = Some(Told { server, time, at });
    }

    /// The time at a moment, in milliseconds, as a server told it: not ahead of what its clock shows by then, since it was
    /// later there when the answer came. Nothing where that server told none of late.
    pub fn of(&self, server: u32, moment: Instant) -> Option<u64> {
        let told = (*self.0.lock().unwrap_or_else(PoisonError::into_inner)).filter(|told| told.server == server)?;
        let passed = moment.saturating_duration_since(told.at);
        let before = told.at.saturating_duration_since(moment);
        (passed < GOOD).then(|| told.time.saturating_add(milliseconds(passed)).saturating_sub(milliseconds(before)))
    }
}

/// So many whole ones.
pub fn milliseconds(duration: Duration) -> u64 {
    u64::try_from(duration.as_millis()).unwrap_or(u64::MAX)
}

#[cfg(test)]
mod tests {
    use super::*;

    #[test]
    fn the_time_goes_on_from_what_a_server_told_last_and_is_that_servers() {
        let (times, start) = (Times::default(), Instant::now());
        let after = |milliseconds| start + Duration::from_millis(milliseconds);
        assert_eq!(times.of(1, start), None);
        times.learn(1, 5_000, start);
        assert_eq!((times.of(1, after(1_999)), times.of(2, after(1))), (Some(6_999), None));
        // The clock there goes slower, or the answer took longer: what is told last counts.
        times.learn(1, 6_900, after(2_000));
        assert_eq!(times.of(1, after(2_050)), Some(6_950));
        assert_eq!(times.of(1, start), Some(4_900), "of an earlier moment");
        times.learn(2, 6_000, after(2_100));
        assert_eq!((times.of(1, after(2_100)), times.of(2, after(2_100))), (None, Some(6_000)));
        assert_eq!(times.of(2, after(2_100) + GOOD), None, "that is too long ago");
    }
}
