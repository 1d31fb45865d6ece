//! Lines of the log that strangers may cause as often as they like.

use std::sync::Mutex;
use std::time::{Duration, Instant};

use crate::lock;

/// So many lines may be written in each of these times.
const MOST_LINES: u32 = 10;
const TIME: Duration = Duration::from_secs(1);

/// Counts events of one kind, so that ten lines a second tell of all of them.
#[derive(Debug, Default)]
pub struct LogLimit {
    state: Mutex<LimitState>,
}

#[derive(Debug, Default)]
struct LimitState {
    /// Events since the last line.
    count: u64,
    /// When the first line of this second was written, and how many were since then.
    begun: Option<Instant>,
    written: u32,
}

impl LogLimit {
    /// Counts one more event. How many a line has to tell of, this one too, if one may be written now.
    pub fn count(&self) -> Option<u64> {
        let mut state = lock(&self.state);
        state.count += 1;
        if !state.begun.is_some_and(|begun| begun.elapsed() < TIME) {
            (state.begun, state.written) = (Some(Instant::now()), 0);
        }
        if state.written == MOST_LINES {
            return None;
        }
        state.written += 1;
        Some(std::mem::take(&mut state.count))
    }
}

#[cfg(test)]
mod tests {
    use super::*;

    #[test]
    fn ten_lines_a_second_tell_of_all() {
        let limit = LogLimit::default();
        for _ in 0..MOST_LINES {
            assert_eq!(limit.count(), Some(1));
        }
        assert_eq!((limit.count(), limit.count()), (None, None));
        lock(&limit.state).begun = Instant::now().checked_sub(TIME);
        assert_eq!((limit.count(), limit.count()), (Some(3), Some(1)));
    }
}
