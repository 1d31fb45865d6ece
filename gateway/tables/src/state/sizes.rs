//! How long the messages of a queue are.

use std::collections::BTreeMap;

/// Lengths are rounded up to steps of a sixteenth of the next power of two, and of so many bytes at least.
const LEAST_STEP_BYTES: u64 = 64;

/// How many messages there are of each length, as it is rounded up.
#[derive(Debug, Default)]
pub(super) struct Sizes(BTreeMap<u64, u64>);

impl Sizes {
    pub(super) fn add(&mut self, bytes: u64) {
        *self.0.entry(rounded(bytes)).or_default() += 1;
    }

    /// A message goes that was added with this length.
    pub(super) fn remove(&mut self, bytes: u64) {
        let length = rounded(bytes);
        if let Some(count) = self.0.get_mut(&length) {
            *count -= 1;
            if *count == 0 {
                self.0.remove(&length);
            }
        }
    }

    /// The length of the longest one, which may be an eighth too much; 0 where there are none.
    pub(super) fn longest(&self) -> u64 {
        self.0.last_key_value().map_or(0, |(length, _)| *length)
    }
}

fn rounded(bytes: u64) -> u64 {
    let step = (bytes.next_power_of_two() / 16).max(LEAST_STEP_BYTES);
    bytes.div_ceil(step) * step
}

#[cfg(test)]
mod tests {
    use super::*;

    #[test]
    fn the_longest_is_one_that_is_there_and_at_most_an_eighth_too_long() {
        let mut sizes = Sizes::default();
        assert_eq!(sizes.longest(), 0);
        for bytes in [0, 1, 64, 65, 700, 5_000, 1 << 20, (1 << 20) + 1, 3 << 20] {
            sizes.add(bytes);
            assert!((bytes..=(bytes + bytes / 8).max(bytes + LEAST_STEP_BYTES)).contains(&sizes.longest()), "{bytes}");
        }
        for (gone, left) in
            [(3 << 20, (1 << 20) + 1), ((1 << 20) + 1, 1 << 20), (1 << 20, 5_000), (700, 5_000), (5_000, 65)]
        {
            sizes.remove(gone);
            assert!((left..=left + left / 8 + LEAST_STEP_BYTES).contains(&sizes.longest()), "{gone}");
        }
        [0, 1, 64, 65].into_iter().for_each(|bytes| sizes.remove(bytes));
        assert_eq!(sizes.longest(), 0);
    }
}
