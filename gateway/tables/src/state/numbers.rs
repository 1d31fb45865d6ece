//! Sets of sequence numbers, in order. The numbers of a queue's messages follow each other closely, so they are kept by
//! blocks, each of which is one number of as many bits.

use std::collections::btree_map::{BTreeMap, Entry};

/// So many numbers are in a block.
const BLOCK: u64 = u64::BITS as u64;

/// Sets of numbers by keys, such as moments. The sets of small keys come first.
#[derive(Debug)]
pub(super) struct Numbers<K>(BTreeMap<(K, u64), u64>);

impl<K> Default for Numbers<K> {
    fn default() -> Numbers<K> {
        Numbers(BTreeMap::new())
    }
}

impl<K: Ord + Copy> Numbers<K> {
    pub(super) fn insert(&mut self, key: K, number: u64) {
        *self.0.entry((key, number / BLOCK)).or_default() |= bit(number);
    }

    /// True if it was there.
    pub(super) fn remove(&mut self, key: K, number: u64) -> bool {
        let Entry::Occupied(mut block) = self.0.entry((key, number / BLOCK)) else { return false };
        let before = *block.get();
        let left = before & !bit(number);
        if left == 0 {
            block.remove();
        } else {
            *block.get_mut() = left;
        }
        left != before
    }

    pub(super) fn has(&self, key: K, number: u64) -> bool {
        self.0.get(&(key, number / BLOCK)).is_some_and(|bits| bits & bit(number) > 0)
    }

    /// The first key and its first number.
    pub(super) fn first(&self) -> Option<(K, u64)> {
        self.0.first_key_value().map(|((key, block), bits)| (*key, first_of(*block, *bits)))
    }

    /// The numbers from this key and number on, with their keys, in order.
    pub(super) fn from(&self, key: K, number: u64) -> impl Iterator<Item = (K, u64)> + '_ {
        let first = number / BLOCK;
        self.0.range((key, first)..).flat_map(move |((own, block), bits)| {
            let behind = if *own == key && *block == first { u64::MAX << (number % BLOCK) } else { u64::MAX };
            let (own, block, bits) = (*own, *block, bits & behind);
            (0..BLOCK).filter(move |place| bits >> place & 1 == 1).map(move |place| (own, block * BLOCK + place))
        })
    }

    /// How many numbers of a key there are from this one on.
    pub(super) fn count_from(&self, key: K, number: u64) -> u64 {
        let first = number / BLOCK;
        let blocks = self.0.range((key, first)..=(key, u64::MAX));
        let behind = |block: u64| if block == first { u64::MAX << (number % BLOCK) } else { u64::MAX };
        blocks.map(|((_, block), bits)| u64::from((bits & behind(*block)).count_ones())).sum()
    }

    /// The first key that isn't less than this one.
    pub(super) fn first_key_from(&self, key: K) -> Option<K> {
        self.0.range((key, 0)..).next().map(|((own, _), _)| *own)
    }

    /// Moves the first numbers of a key, up to a block of them, to another key. Tells which these are.
    pub(super) fn move_first(&mut self, from: K, to: K) -> Moved {
        let Some(((_, block), bits)) = self.0.range((from, 0)..=(from, u64::MAX)).next() else {
            return Moved::default();
        };
        let moved = Moved { block: *block, bits: *bits };
        self.0.remove(&(from, moved.block));
        *self.0.entry((to, moved.block)).or_default() |= moved.bits;
        moved
    }
}

/// Numbers of one block.
#[derive(Debug, Default)]
pub(super) struct Moved {
    block: u64,
    bits: u64,
}

impl Moved {
    pub(super) fn count(&self) -> usize {
        self.bits.count_ones() as usize
    }

    /// How many of them are above this one.
    pub(super) fn count_above(&self, number: u64) -> u64 {
        let above = match self.block.cmp(&(number / BLOCK)) {
            std::cmp::Ordering::Less => 0,
            // In two steps, since all bits may have to go.
            std::cmp::Ordering::Equal => self.bits >> (number % BLOCK) >> 1,
            std::cmp::Ordering::Greater => self.bits,
        };
        above.count_ones().into()
    }
}

fn bit(number: u64) -> u64 {
    1 << (number % BLOCK)
}

fn first_of(block: u64, bits: u64) -> u64 {
    block * BLOCK + u64::from(bits.trailing_zeros())
}

#[cfg(test)]
mod tests {
    use super::*;

    use std::collections::BTreeSet;

    use proptest::prelude::*;

    #[derive(Clone, Debug)]
    enum Step {
        Insert(u8, u64),
        Remove(u8, u64),
        Move(u8, u8),
    }

    fn steps() -> impl Strategy<Value = Vec<Step>> {
        let number = || prop_oneof![0..200u64, 60..70u64, Just(1 << 40)];
        let step = prop_oneof![
            (0..3u8, number()).prop_map(|(key, number)| Step::Insert(key, number)),
            (0..3u8, number()).prop_map(|(key, number)| Step::Remove(key, number)),
            (0..3u8, 0..3u8).prop_map(|(from, to)| Step::Move(from, to)),
        ];
        proptest::collection::vec(step, 0..100)
    }

    proptest! {
        #[test]
        fn numbers_are_those_of_a_plain_set(steps in steps(), from in (0..3u8, 0..200u64)) {
            let (mut numbers, mut plain) = (Numbers::default(), BTreeSet::new());
            for step in steps {
                match step {
                    Step::Insert(key, number) => {
                        numbers.insert(key, number);
                        plain.insert((key, number));
                    }
                    Step::Remove(key, number) => {
                        prop_assert_eq!(numbers.remove(key, number), plain.remove(&(key, number)));
                    }
                    Step::Move(from, to) => {
                        let block = plain.range((from, 0)..=(from, u64::MAX)).next().map(|(_, first)| first / BLOCK);
                        let first: Vec<_> = plain.iter().copied()
                            .filter(|(key, number)| *key == from && Some(number / BLOCK) == block).collect();
                        let moved = numbers.move_first(from, to);
                        prop_assert_eq!(moved.count(), first.len());
                        for (_, number) in &first {
                            let above = first.iter().filter(|(_, other)| other > number).count();
                            prop_assert_eq!(moved.count_above(*number), above as u64);
                        }
                        plain.retain(|place| !first.contains(place));
                        plain.extend(first.iter().map(|(_, number)| (to, *number)));
                    }
                }
                prop_assert_eq!(numbers.first(), plain.first().copied());
            }
            let behind: Vec<_> = plain.range(from..).copied().collect();
            let of_key = behind.iter().filter(|(key, _)| *key == from.0).count();
            prop_assert_eq!(numbers.count_from(from.0, from.1), of_key as u64);
            prop_assert_eq!(numbers.from(from.0, from.1).collect::<Vec<_>>(), behind);
            prop_assert_eq!(numbers.first_key_from(1), plain.range((1, 0)..).next().map(|(key, _)| *key));
            prop_assert!(plain.iter().all(|(key, number)| numbers.has(*key, *number)));
            prop_assert_eq!(numbers.has(from.0, from.1), plain.contains(&from));
        }
    }
}
