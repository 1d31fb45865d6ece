//! Whether the gateway that acts answers a front, by its last tries and pings.

use std::sync::{Mutex, MutexGuard, PoisonError};
use std::time::Duration;

use tokio::time::Instant;

/// A front of which nothing has gone well for so long isn't well.
const LONG: Duration = Duration::from_secs(3);

/// What is known of the tries so far.
#[derive(Default)]
pub struct Contact(Mutex<Known>);

#[derive(Default)]
struct Known {
    /// When one went well last.
    well: Option<Instant>,
    /// When one came to nothing behind that, and why.
    failed: Option<(Instant, String)>,
}

impl Contact {
    fn known(&self) -> MutexGuard<'_, Known> {
        self.0.lock().unwrap_or_else(PoisonError::into_inner)
    }

    /// A gateway was heard at this moment.
    pub fn goes_well(&self, at: Instant) {
        let mut known = self.known();
        known.well = known.well.max(Some(at));
        known.failed = known.failed.take().filter(|(failed, _)| *failed >= at);
    }

    /// A try came to nothing.
    pub fn fails(&self, at: Instant, why: &dyn std::fmt::Display) {
        self.known().failed = Some((at, why.to_string()));
    }

    /// Why the last try came to nothing, where none has gone well for long, or none did so far.
    pub fn trouble(&self, now: Instant) -> Option<String> {
        let known = self.known();
        match (known.well, &known.failed) {
            (Some(well), _) if now.saturating_duration_since(well) <= LONG => None,
            (_, Some((_, why))) => Some(why.clone()),
            (Some(_), None) => None,
            (None, None) => Some("it wasn't asked yet".into()),
        }
    }
}

#[cfg(test)]
mod tests {
    use super::*;

    #[test]
    fn tries_that_fail_for_three_seconds_are_trouble_until_one_goes_well() {
        let (contact, start) = (Contact::default(), Instant::now());
        let after = |milliseconds| start + Duration::from_millis(milliseconds);
        assert_eq!(contact.trouble(start).unwrap(), "it wasn't asked yet");
        contact.fails(after(1), &"no way");
        assert_eq!(contact.trouble(after(2)).unwrap(), "no way");
        contact.goes_well(after(100));
        assert_eq!((contact.trouble(after(100)), contact.trouble(after(90_000))), (None, None), "nothing has failed");
        contact.fails(after(200), &"it breaks");
        assert_eq!(contact.trouble(after(3_100)), None);
        assert_eq!(contact.trouble(after(3_101)).unwrap(), "it breaks");
        // What was heard before it failed is heard of late.
        contact.goes_well(after(150));
        assert_eq!((contact.trouble(after(3_150)), contact.trouble(after(3_151)).unwrap()), (None, "it breaks".into()));
        contact.goes_well(after(4_000));
        assert_eq!(contact.trouble(after(90_000)), None);
    }
}
