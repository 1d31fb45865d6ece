//! Whether the files of a program have space for a larger store.
//!
//! A program puts its store in the place of the entries that led to it, and needs space for that beside them. Where a store is too
//! large, it never finds it, and the deletes of many small messages need more space than is left. So sends are refused before.

use std::time::Instant;

use hobbychair_tables::limits::Bound;

/// What a file has before its regions, and the length of one (`docs/JOURNAL.md`).
const ROOT_BYTES: u64 = 1 << 20;
const REGION_BYTES: u64 = 16 << 20;

/// A store may take a third of the regions. Of each so much is counted: its pieces don't fill a region, and what it takes is known
/// by an estimate.
const SHARE: u64 = 3;
const COUNTED_BYTES_OF_REGION: u64 = 12 << 20;

/// What was added is looked at again once it is so small a part of that.
const PARTS: u64 = 32;

/// Where there is no space, it is looked at again after so many times as long as a look takes, which grows with the queues.
const RESTS: u32 = 20;

/// The space of one program.
pub(super) struct Space {
    bound: Bound,
    /// What its store took when it was looked at last, with what was asked and not answered yet, in bytes.
    counted: u64,
    /// What was asked to be added since then.
    added: u64,
    /// Where there is no space, it isn't looked at before this. None: it was never looked at.
    rests_until: Option<Instant>,
}

impl Space {
    /// That of a file of so many bytes. None: there is no file, and no bound.
    pub(super) fn new(file: Option<u64>) -> Space {
        let bound = Bound::default();
        bound.set(file.map(|bytes| bytes.saturating_sub(ROOT_BYTES) / REGION_BYTES / SHARE * COUNTED_BYTES_OF_REGION));
        Space { bound, counted: 0, added: 0, rests_until: None }
    }

    /// Whether there is space for so many bytes more, which are added then. `look` tells what the store takes, with what was asked
    /// and not answered yet.
    pub(super) fn take(&mut self, bytes: u64, look: impl FnOnce() -> u64) -> bool {
        let Some(limit) = self.bound.limit() else { return true };
        let has_rested = || self.rests_until.map_or(true, |until| until <= Instant::now());
        let is_due = self.added > limit / PARTS || self.bound.is_full(self.with(bytes)) && has_rested();
        if is_due || self.rests_until.is_none() {
            let begun = Instant::now();
            (self.counted, self.added) = (look(), 0);
            self.rests_until = Some(Instant::now() + RESTS * begun.elapsed());
        }
        let has_space = !self.bound.is_full(self.with(bytes));
        if has_space {
            self.added += bytes;
        }
        has_space
    }

    /// Whether what is kept of queues that are gone may take so many bytes of it where another one is made.
    pub(super) fn takes_gone(&self, bytes: u64) -> bool {
        self.bound.takes_gone(bytes)
    }

    fn with(&self, more: u64) -> u64 {
        self.counted + self.added + more
    }
}

#[cfg(test)]
mod tests {
    use std::time::Duration;

    use super::*;

    #[test]
    fn what_is_added_counts_from_one_look_to_the_next() {
        const ADDED_BYTES: u64 = 1_000_000;
        let mut space = Space::new(Some(256 << 20));
        assert_eq!(space.bound.limit(), Some(60 << 20));
        let (mut looks, mut taken) = (0, 0);
        let mut take = |taken: u64| {
            space.take(ADDED_BYTES, || {
                looks += 1;
                taken * ADDED_BYTES
            })
        };
        while take(taken) {
            taken += 1;
        }
        // 95 % are used, and each 32nd part is looked at.
        assert!(taken == 59 && (25..40).contains(&looks), "{taken} {looks}");
        space.rests_until = Some(Instant::now() + Duration::from_secs(3600));
        assert!(!space.take(ADDED_BYTES, || 0), "it isn't looked at so soon");
        space.rests_until = Some(Instant::now());
        assert!(space.take(ADDED_BYTES, || 0));
    }

    #[test]
    fn without_a_file_there_is_no_bound() {
        let mut space = Space::new(None);
        assert!(space.take(u64::MAX, || u64::MAX));
    }
}
