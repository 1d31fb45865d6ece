//! The cluster's time: what the head stamps requests with.
//!
//! It is a clock of the system that never steps, and an offset. The head takes its offset from the wall clock once, when
//! nobody has told it a time before, and then goes towards the wall clock slowly. All others follow their predecessor.
//! So a wall clock that is wrong changes nothing at once, and a new head goes on where the old one was. No time is
//! part of what keeps data safe.

use std::time::SystemTime;

use rustix::time::{clock_gettime, clock_gettime_dynamic, ClockId, DynamicClockId, Timespec};

/// Of a hundred parts of time that pass, the offset changes by one at most.
const SLOWEST: u64 = 100;

/// A wall clock that is off by more is worth a line in the log, in milliseconds.
const WORTH_SAYING_MILLISECONDS: u64 = 5_000;

/// It is said again where it is off otherwise by more than that.
const WORTH_REPEATING_MILLISECONDS: u64 = 60_000;

/// The cluster's time, as one server knows it. All times are in milliseconds.
#[derive(Debug, Default)]
pub struct Clock {
    /// What is added to the time since the system's start; nothing before a time was told.
    offset: Option<i64>,
    /// The moment of the last entry.
    last: u64,
    /// When the offset was changed slowly, by the time since the system's start.
    changed: u64,
    /// By how much the wall clock was off when that was last logged.
    said: Option<i64>,
}

impl Clock {
    /// The time at that moment since the system's start. It is never before the last entry.
    pub fn now(&self, since_start: u64) -> u64 {
        let offset = self.offset.unwrap_or_else(|| difference(0, since_start));
        sum(since_start, offset).max(self.last)
    }

    /// An entry has this moment.
    pub fn took(&mut self, moment: u64, since_start: u64) {
        self.last = self.last.max(moment);
        if moment > 0 && self.is_behind(moment, since_start) {
            self.set(moment, since_start);
        }
    }

    /// Time begins: with the wall clock, or with the last entry's moment if that is later.
    pub fn go_on_from(&mut self, last: u64, wall: u64, since_start: u64) {
        self.last = self.last.max(last);
        self.set(last.max(wall), since_start);
    }

    /// The predecessor says that it is this time.
    pub fn follow(&mut self, time: u64, since_start: u64) {
        if self.is_behind(time, since_start) {
            self.set(time, since_start);
        } else {
            self.go_towards(time, since_start);
        }
    }

    /// Of the head: the wall clock shows this time.
    pub fn lead(&mut self, wall: u64, since_start: u64) {
        if self.offset.is_none() {
            return self.set(wall, since_start);
        }
        self.go_towards(wall, since_start);
    }

    /// Of each server: the wall clock shows this time. How far it is off, if that is worth a line of the log.
    pub fn compare(&mut self, wall: u64, since_start: u64) -> Option<i64> {
        self.offset?;
        let off = difference(wall, self.now(since_start));
        if off.unsigned_abs() <= WORTH_SAYING_MILLISECONDS {
            self.said = None;
            return None;
        }
        if self.said.is_some_and(|said| said.abs_diff(off) <= WORTH_REPEATING_MILLISECONDS) {
            return None;
        }
        self.said = Some(off);
        self.said
    }

    fn is_behind(&self, time: u64, since_start: u64) -> bool {
        self.offset.map_or(true, |offset| sum(since_start, offset) < time)
    }

    fn set(&mut self, time: u64, since_start: u64) {
        self.offset = Some(difference(time, since_start));
        self.changed = since_start;
    }

    fn go_towards(&mut self, time: u64, since_start: u64) {
        let most = since_start.saturating_sub(self.changed) / SLOWEST;
        if most == 0 {
            return;
        }
        self.changed = since_start;
        let most = i64::try_from(most).unwrap_or(i64::MAX);
        if let Some(offset) = &mut self.offset {
            *offset = offset.saturating_add(difference(time, sum(since_start, *offset)).clamp(-most, most));
        }
    }
}

fn difference(one: u64, other: u64) -> i64 {
    let difference = i128::from(one) - i128::from(other);
    difference.clamp(i64::MIN.into(), i64::MAX.into()) as i64
}

fn sum(time: u64, offset: i64) -> u64 {
    if offset >= 0 {
        time.saturating_add(offset.unsigned_abs())
    } else {
        time.saturating_sub(offset.unsigned_abs())
    }
}

/// The time since the system's start, while it slept, too.
pub fn since_start() -> u64 {
    milliseconds(clock_gettime_dynamic(DynamicClockId::Boottime).unwrap_or_else(|_| clock_gettime(ClockId::Monotonic)))
}

/// What the wall clock shows, by the C library's call, so that a test can step it (libfaketime).
pub fn wall() -> u64 {
    let since = SystemTime::now().duration_since(SystemTime::UNIX_EPOCH).unwrap_or_default();
    u64::try_from(since.as_millis()).unwrap_or(u64::MAX)
}

fn milliseconds(time: Timespec) -> u64 {
    u64::try_from(time.tv_sec).unwrap_or(0) * 1000 + u64::try_from(time.tv_nsec).unwrap_or(0) / 1_000_000
}

#[cfg(test)]
mod tests {
    use super::*;

    const WALL_MILLISECONDS: u64 = 1_700_000_000_000;
    const HOUR_MILLISECONDS: u64 = 3_600_000;

    #[test]
    fn a_head_begins_at_the_wall_clock_and_never_steps() {
        let mut clock = Clock::default();
        clock.lead(WALL_MILLISECONDS, 1_000);
        assert_eq!(clock.now(1_500), WALL_MILLISECONDS + 500);
        // The wall clock steps by an hour, either way: a second later the clock is off by ten milliseconds at most.
        clock.lead(WALL_MILLISECONDS + HOUR_MILLISECONDS, 2_000);
        assert_eq!(clock.now(2_000), WALL_MILLISECONDS + 1_000 + 10);
        clock.lead(WALL_MILLISECONDS - HOUR_MILLISECONDS, 3_000);
        assert_eq!(clock.now(3_000), WALL_MILLISECONDS + 2_000);
    }

    #[test]
    fn a_wall_clock_that_is_off_is_told_and_told_again_where_it_steps() {
        let mut clock = Clock::default();
        assert_eq!(clock.compare(WALL_MILLISECONDS, 1_000), None, "nobody has told a time yet");
        clock.follow(WALL_MILLISECONDS, 1_000);
        let mut shows = |wall, since_start| clock.compare(wall, since_start);
        assert_eq!(shows(WALL_MILLISECONDS + 6_000, 2_000), None);
        assert_eq!(shows(WALL_MILLISECONDS + HOUR_MILLISECONDS, 1_000), Some(HOUR_MILLISECONDS as i64));
        assert_eq!(shows(WALL_MILLISECONDS + HOUR_MILLISECONDS + 1_000, 1_500), None);
        assert_eq!(shows(WALL_MILLISECONDS - HOUR_MILLISECONDS, 1_000), Some(-(HOUR_MILLISECONDS as i64)));
        assert_eq!(shows(WALL_MILLISECONDS, 1_000), None);
        assert_eq!(shows(WALL_MILLISECONDS - HOUR_MILLISECONDS, 1_000), Some(-(HOUR_MILLISECONDS as i64)));
    }

    #[test]
    fn after_a_pause_time_begins_with_the_wall_clock_or_the_last_entry() {
        let mut clock = Clock::default();
        clock.go_on_from(WALL_MILLISECONDS - HOUR_MILLISECONDS, WALL_MILLISECONDS, 1_000);
        assert_eq!(clock.now(1_500), WALL_MILLISECONDS + 500);
        let mut clock = Clock::default();
        clock.go_on_from(WALL_MILLISECONDS + HOUR_MILLISECONDS, WALL_MILLISECONDS, 1_000);
        clock.lead(WALL_MILLISECONDS, 1_000);
        assert_eq!(clock.now(1_500), WALL_MILLISECONDS + HOUR_MILLISECONDS + 500);
    }

    #[test]
    fn a_new_head_goes_on_where_the_old_one_was() {
        let mut clock = Clock::default();
        assert_eq!(clock.now(5), 0);
        clock.follow(WALL_MILLISECONDS, 1_000);
        clock.lead(WALL_MILLISECONDS + HOUR_MILLISECONDS, 1_100);
        assert!(
            clock.now(1_100) <= WALL_MILLISECONDS + 101,
            "its own wall clock, which is an hour ahead, counts slowly"
        );
        clock.took(WALL_MILLISECONDS + 50_000, 1_200);
        assert_eq!(clock.now(1_300), WALL_MILLISECONDS + 50_100);
    }

    #[test]
    fn who_follows_is_not_set_back_by_what_comes_late() {
        let mut clock = Clock::default();
        clock.follow(WALL_MILLISECONDS, 0);
        // It was stopped for five seconds, and reads what was said when they began.
        clock.follow(WALL_MILLISECONDS + 10, 5_000);
        assert!(clock.now(5_000) >= WALL_MILLISECONDS + 4_900);
        clock.follow(WALL_MILLISECONDS + 5_000, 5_000);
        assert_eq!(clock.now(5_000), WALL_MILLISECONDS + 5_000);
    }

    #[test]
    fn time_goes_back_slowly_from_the_first_entry_on() {
        let mut clock = Clock::default();
        clock.took(WALL_MILLISECONDS, 1_000_000);
        clock.follow(WALL_MILLISECONDS - HOUR_MILLISECONDS, 1_001_000);
        assert_eq!(clock.now(1_001_000), WALL_MILLISECONDS + 1_000 - 10);
    }

    #[test]
    fn time_is_never_before_the_last_entry() {
        let mut clock = Clock::default();
        clock.took(WALL_MILLISECONDS, 10);
        clock.follow(WALL_MILLISECONDS - HOUR_MILLISECONDS, 1_000_000);
        assert!(clock.now(1_000_000) >= WALL_MILLISECONDS);
        assert_eq!(Clock { last: 7, ..Clock::default() }.now(3), 7);
    }
}
