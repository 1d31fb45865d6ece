//! Which messages are older than the queue keeps them.

use hobbychair_bytes::moment::Moment;

use super::State;
use crate::jumps::Jumps;

impl State {
    pub(super) fn horizon(&self, jumps: &Jumps, now: Moment) -> Option<Moment> {
        jumps.horizon(now, self.entry.attributes.retention())
    }

    /// Whether the first message is older than the queue keeps messages.
    pub fn has_old(&self, jumps: &Jumps, now: Moment) -> bool {
        let Some(horizon) = self.horizon(jumps, now) else { return false };
        self.messages.first().is_some_and(|oldest| oldest.sent <= horizon)
    }

    /// Whether the first message that isn't in flight is too old, and something happened since a sweep found none.
    pub fn is_worth_sweeping(&mut self, jumps: &Jumps, now: Moment) -> bool {
        let openings = self.openings;
        let is_vain = |(seen, end): (u64, Option<Moment>)| seen == openings && end.map_or(true, |end| now < end);
        if self.removed || self.vain_sweep.is_some_and(is_vain) {
            return false;
        }
        let Some(horizon) = self.horizon(jumps, now) else { return false };
        let first = self.messages.visible(now).next();
        first.is_some_and(|(_, first)| first.sent <= horizon)
    }

    /// A sweep found nothing to delete: what is too old waits behind what is in flight.
    pub fn remember_vain_sweep(&mut self, now: Moment) {
        self.vain_sweep = Some((self.openings, self.next_end(now)));
    }
}
