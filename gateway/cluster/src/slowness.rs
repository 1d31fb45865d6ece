//! How long the slowest answer took lately.

use std::time::Duration;

use tokio::time::Instant;

/// An answer counts for so long at least, and at most for twice as long.
const SPAN: Duration = Duration::from_secs(5);

/// The slowest answer of this span, and of the one before. Both take the same few bytes, however many answers come.
#[derive(Debug, Default)]
pub struct Slowest {
    /// When this span began.
    since: Option<Instant>,
    current: Duration,
    before: Duration,
}

impl Slowest {
    /// An answer came now, and took so long.
    pub fn note(&mut self, took: Duration, now: Instant) {
        self.turn(now);
        self.current = self.current.max(took);
    }

    /// How long the slowest one took, of those that count still; zero where there is none.
    pub fn longest(&mut self, now: Instant) -> Duration {
        self.turn(now);
        self.current.max(self.before)
    }

    fn turn(&mut self, now: Instant) {
        let age = now.saturating_duration_since(*self.since.get_or_insert(now));
        if age >= SPAN {
            self.before = if age < 2 * SPAN { self.current } else { Duration::ZERO };
            (self.since, self.current) = (Some(now), Duration::ZERO);
        }
    }
}

#[cfg(test)]
mod tests {
    use super::*;

    #[test]
    fn an_answer_counts_for_five_to_ten_seconds() {
        let (mut slowest, start) = (Slowest::default(), Instant::now());
        let second = |seconds: u64| start + Duration::from_secs(seconds);
        let milliseconds = Duration::from_millis;
        assert_eq!(slowest.longest(start), Duration::ZERO);
        slowest.note(milliseconds(700), second(4));
        slowest.note(milliseconds(20), second(4));
        assert_eq!(slowest.longest(second(4)), milliseconds(700));
        slowest.note(milliseconds(30), second(6));
        assert_eq!(slowest.longest(second(9)), milliseconds(700));
        assert_eq!(slowest.longest(second(11)), milliseconds(30));
        assert_eq!(slowest.longest(second(100)), Duration::ZERO);
    }
}
