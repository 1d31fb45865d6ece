//! Whether this process stood still, so that it has to look at etcd before it acknowledges anything.
//!
//! Whoever stands still, as on a machine that is paused, may be taken for gone: its cluster may have been recovered meanwhile,
//! and what it acknowledges is lost then. It can't know at once that it stood still, but for the clock that goes on all the
//! while. So whoever is about to acknowledge something looks at that first. Where too much of it has passed since this process
//! was last seen to run, all waits for a look at etcd that begins behind that. A look finds out who stands there now, or that
//! etcd is away, and then requests go on, as they do without etcd at any other time.

use std::sync::{Arc, Mutex};
use std::time::Duration;

use tokio::sync::Notify;
use tokio::time::{interval, MissedTickBehavior};

use crate::clock::since_start;
use crate::lock;

/// A process that wasn't seen to run for longer stood still, in milliseconds. No cluster is recovered in so short a time, by more
/// than a beat's period.
pub const STILL_MILLISECONDS: u64 = 1_500;

/// So long looks that fail count for nothing behind that, in milliseconds: what goes on with this process, a network or a member
/// of etcd, may take a while.
const PATIENCE_MILLISECONDS: u64 = 2_000;

/// So often it is noted that this process runs.
const TICK: Duration = Duration::from_millis(100);

/// What is known of one process. All moments are of the clock since the system's start.
pub struct Suspension {
    state: Mutex<SuspensionState>,
    /// Calls for a look.
    look: Arc<Notify>,
    /// The process may go on.
    passes: Notify,
    longest: u64,
}

struct SuspensionState {
    /// When this process was seen to run last.
    seen: u64,
    /// When it went on behind standing still, if it hasn't looked at etcd since.
    awake: Option<u64>,
    is_over: bool,
}

impl Suspension {
    /// Of a process that calls for looks by this.
    pub fn new(look: Arc<Notify>) -> Suspension {
        Suspension::longer_than(STILL_MILLISECONDS, look)
    }

    /// Of one that never counts as having stood still.
    pub fn never() -> Suspension {
        Suspension::longer_than(u64::MAX, Arc::default())
    }

    fn longer_than(longest: u64, look: Arc<Notify>) -> Suspension {
        let state = Mutex::new(SuspensionState { seen: since_start(), awake: None, is_over: false });
        Suspension { state, look, passes: Notify::new(), longest }
    }

    /// Notes for good that this process runs.
    pub async fn keep_noting(self: Arc<Suspension>) {
        let mut ticks = interval(TICK);
        ticks.set_missed_tick_behavior(MissedTickBehavior::Delay);
        loop {
            ticks.tick().await;
            self.note();
        }
    }

    /// Notes that this process runs. Says whether it may acknowledge something.
    pub fn note(&self) -> bool {
        self.note_at(since_start())
    }

    fn note_at(&self, now: u64) -> bool {
        let mut state = lock(&self.state);
        let still = now.saturating_sub(state.seen);
        state.seen = state.seen.max(now);
        if still > self.longest {
            state.awake = Some(now);
            drop(state);
            tracing::warn!(milliseconds = still, "this process stood still: it looks at etcd before it goes on");
            self.look.notify_one();
            return false;
        }
        state.awake.is_none() && !state.is_over
    }

    /// Waits until this process may acknowledge something, which is at once where it didn't stand still.
    pub async fn pass(&self) {
        loop {
            // Whoever lets it pass from now on wakes this up.
            let passes = self.passes.notified();
            if self.note() {
                return;
            }
            passes.await;
        }
    }

    /// A look at etcd has ended that began at that moment: it has read that the cluster is still the same, or nothing.
    pub fn looked(&self, begun: u64, has_read: bool) {
        self.looked_at(begun, has_read, since_start());
    }

    fn looked_at(&self, begun: u64, has_read: bool, now: u64) {
        self.note_at(now);
        let mut state = lock(&self.state);
        let counts = |awake: u64| begun >= awake && (has_read || now - awake >= PATIENCE_MILLISECONDS);
        if state.awake.is_some_and(counts) {
            state.awake = None;
            drop(state);
            tracing::info!(milliseconds = now - begun, has_read, "etcd was looked at, and all goes on");
            self.passes.notify_waiters();
        }
    }

    /// Nothing is acknowledged any more.
    pub fn end(&self) {
        lock(&self.state).is_over = true;
    }
}

#[cfg(test)]
mod tests {
    use super::*;

    fn tested() -> (Suspension, u64) {
        let suspension = Suspension::new(Arc::default());
        let seen = lock(&suspension.state).seen;
        (suspension, seen)
    }

    #[test]
    fn who_stood_still_passes_behind_a_look_that_began_later() {
        let (suspension, start) = tested();
        assert!(suspension.note_at(start + STILL_MILLISECONDS) && suspension.note_at(start + 2 * STILL_MILLISECONDS));
        let awake = start + 4 * STILL_MILLISECONDS;
        assert!(!suspension.note_at(awake) && !suspension.note_at(awake + 10));
        // It began before, or while this stood still, and ends now.
        suspension.looked_at(start, true, awake + 20);
        assert!(!suspension.note_at(awake + 20));
        suspension.looked_at(awake, true, awake + 30);
        assert!(suspension.note_at(awake + 30));
    }

    #[test]
    fn a_look_within_which_it_stood_still_counts_for_nothing() {
        let (suspension, start) = tested();
        let awake = start + STILL_MILLISECONDS + 1;
        assert!(!suspension.note_at(awake));
        // Nobody noted anything while it stood still for the second time.
        suspension.looked_at(awake, true, awake + 60_000);
        assert!(!suspension.note_at(awake + 60_000));
        suspension.looked_at(awake + 60_000, true, awake + 60_001);
        assert!(suspension.note_at(awake + 60_001));
    }

    #[test]
    fn without_etcd_it_passes_after_a_while() {
        let (suspension, start) = tested();
        let awake = start + STILL_MILLISECONDS + 1;
        let mut passed = None;
        for now in (awake..awake + 2 * PATIENCE_MILLISECONDS).step_by(100) {
            suspension.note_at(now);
            suspension.looked_at(now.saturating_sub(50).max(awake), false, now);
            if suspension.note_at(now) {
                passed = passed.or(Some(now - awake));
            }
        }
        assert_eq!(passed, Some(PATIENCE_MILLISECONDS));
    }

    #[tokio::test]
    async fn who_waits_passes_with_the_look_and_never_behind_the_end() {
        let look = Arc::new(Notify::new());
        let suspension = Arc::new(Suspension::longer_than(0, look.clone()));
        std::thread::sleep(Duration::from_millis(5));
        let waits = tokio::spawn({
            let suspension = suspension.clone();
            async move { suspension.pass().await }
        });
        // A look is called for.
        look.notified().await;
        assert!(!waits.is_finished());
        let suspension = Arc::new(Suspension::new(look));
        suspension.pass().await;
        suspension.end();
        let ended = tokio::time::timeout(Duration::from_millis(50), suspension.pass()).await;
        assert!(ended.is_err(), "something is acknowledged behind the end");
        waits.abort();
    }
}
