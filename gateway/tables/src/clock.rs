//! The clock of the requests, in whole milliseconds.

use std::path::{Path, PathBuf};
use std::sync::atomic::{AtomicI64, AtomicU64, Ordering};
use std::time::{Duration, SystemTime, UNIX_EPOCH};

use hobbychair_bytes::moment::Moment;
use rustix::time::{clock_gettime, clock_gettime_dynamic, ClockId, DynamicClockId};

/// The wall clock at the start, or the journal's last clock if that is later; from then on the clock that also counts
/// while the machine is suspended. A wall clock that jumps isn't believed.
pub struct Clock {
    source: Source,
    /// What is added to the source.
    offset: AtomicI64,
    last: AtomicU64,
}

enum Source {
    SinceBoot,
    /// For tests: the moment stands in a file.
    File(PathBuf),
}

/// How often a clock in a file is looked at.
const STEP: Duration = Duration::from_millis(5);

impl Clock {
    /// A clock that begins at the wall clock.
    pub fn new() -> Clock {
        let offset = AtomicI64::new(wall() - since_boot());
        Clock { source: Source::SinceBoot, offset, last: AtomicU64::new(0) }
    }

    /// A clock that stands still at the number in a file until another number is there.
    pub fn of_file(path: &Path) -> Clock {
        let source = Source::File(path.into());
        Clock { source, offset: AtomicI64::new(0), last: AtomicU64::new(0) }
    }

    fn reading(&self) -> Moment {
        let source = match &self.source {
            Source::SinceBoot => since_boot(),
            Source::File(path) => read_number(path).unwrap_or(0),
        };
        (source + self.offset.load(Ordering::Relaxed)).max(0) as Moment
    }

    /// The moment. It is never below one that was told before.
    pub fn now(&self) -> Moment {
        let reading = self.reading();
        self.last.fetch_max(reading, Ordering::Relaxed).max(reading)
    }

    /// Time goes on from `moment` where the clock is behind it.
    pub fn go_on_from(&self, moment: Moment) {
        if matches!(self.source, Source::SinceBoot) {
            // The offset itself is the larger one, so that several may do this side by side.
            self.offset.fetch_max(moment as i64 - since_boot(), Ordering::Relaxed);
        }
        self.last.fetch_max(moment, Ordering::Relaxed);
    }

    /// How far it is ahead of the clock of this machine, since time never goes back.
    pub fn lead(&self) -> Duration {
        let of_machine = match &self.source {
            Source::SinceBoot => wall(),
            Source::File(path) => read_number(path).unwrap_or(0),
        };
        Duration::from_millis(self.now().saturating_sub(of_machine.max(0) as Moment))
    }

    /// It is that time, at that moment since the system's start, both in milliseconds: a chain's time counts, which may go
    /// slower or faster than the system's. What was told stays the least.
    pub fn follow(&self, time: Moment, since_start: u64) {
        if matches!(self.source, Source::SinceBoot) {
            self.offset.store(time as i64 - since_start as i64, Ordering::Relaxed);
        }
    }

    /// Waits until `moment` is there.
    pub async fn wait_until(&self, moment: Moment) {
        loop {
            let left = moment.saturating_sub(self.now());
            if left == 0 {
                return;
            }
            let step = match self.source {
                Source::SinceBoot => Duration::from_millis(left),
                Source::File(_) => STEP,
            };
            tokio::time::sleep(step).await;
        }
    }
}

impl Default for Clock {
    fn default() -> Clock {
        Clock::new()
    }
}

fn wall() -> i64 {
    SystemTime::now().duration_since(UNIX_EPOCH).unwrap_or_default().as_millis() as i64
}

fn since_boot() -> i64 {
    // A system without this clock has the one that stands still while it is suspended.
    let time = clock_gettime_dynamic(DynamicClockId::Boottime).unwrap_or_else(|_| clock_gettime(ClockId::Monotonic));
    time.tv_sec * 1000 + time.tv_nsec / 1_000_000
}

fn read_number(path: &Path) -> Option<i64> {
    std::fs::read_to_string(path).ok()?.trim().parse().ok()
}

#[cfg(test)]
mod tests {
    use super::*;

    #[test]
    fn moments_never_fall_and_time_goes_on_from_a_later_one() {
        let clock = Clock::new();
        let first = clock.now();
        assert!(clock.now() >= first);
        clock.go_on_from(first + 3_600_000);
        let later = clock.now();
        assert!((first + 3_600_000..first + 3_660_000).contains(&later));
        std::thread::sleep(Duration::from_millis(20));
        assert!(clock.now() > later, "time isn't held until the wall clock has caught up");
        let lead = clock.lead();
        assert!((3_590..3_610).contains(&lead.as_secs()), "{lead:?}");
        assert!(Clock::new().lead() < Duration::from_secs(10));
    }

    #[test]
    fn who_follows_a_chain_has_its_time_and_never_goes_back() {
        let clock = Clock::new();
        let first = clock.now();
        clock.follow(first + 5_000, since_boot() as u64);
        let later = clock.now();
        assert!((first + 5_000..first + 65_000).contains(&later));
        clock.follow(first, since_boot() as u64);
        assert!(clock.now() >= later);
    }

    #[test]
    fn those_who_go_on_from_one_moment_side_by_side_set_the_clock_ahead_once() {
        const HOUR_MILLISECONDS: u64 = 3_600_000;
        let clocks: Vec<_> = (0..20_000).map(|_| Clock::new()).collect();
        let moment = clocks[0].now() + HOUR_MILLISECONDS;
        let together = std::sync::Barrier::new(2);
        std::thread::scope(|scope| {
            for _ in 0..2 {
                scope.spawn(|| {
                    for clock in &clocks {
                        together.wait();
                        clock.go_on_from(moment);
                    }
                });
            }
        });
        let ahead = clocks.iter().filter(|clock| clock.now() > moment + HOUR_MILLISECONDS / 2).count();
        assert_eq!(ahead, 0, "so many were set ahead twice");
    }
}
