//! Random tests whose seed is always the same, so that each run is the one before.

use proptest::prelude::*;
use proptest::sample::Index;
use proptest::test_runner::{Config, RngAlgorithm, TestCaseResult, TestRng, TestRunner};

/// Runs a test on so many values. What fails is made as small as it gets.
pub fn check<S: Strategy>(cases: u32, strategy: S, test: impl Fn(S::Value) -> TestCaseResult) {
    let config = Config { cases, failure_persistence: None, ..Config::default() };
    let mut runner = TestRunner::new_with_rng(config, TestRng::deterministic_rng(RngAlgorithm::ChaCha));
    runner.run(&strategy, test).unwrap_or_else(|error| panic!("{error}"));
}

/// One thing done to a row of bytes.
#[derive(Clone, Debug)]
pub enum Edit {
    Replace(Index, u8),
    Insert(Index, u8),
    /// Takes out what is between two places.
    Remove(Index, Index),
    /// Puts what is between two places in once more.
    Repeat(Index, Index),
    Cut(Index),
}

/// Up to five edits. Bytes that mean something in JSON, in forms and in XML are more often among them.
pub fn edits() -> impl Strategy<Value = Vec<Edit>> {
    let byte = prop_oneof![any::<u8>(), proptest::sample::select(b"\"\\{}[],:&=%+.0123456789<>\n\0\xff".to_vec())];
    let edit = prop_oneof![
        (any::<Index>(), byte.clone()).prop_map(|(place, byte)| Edit::Replace(place, byte)),
        (any::<Index>(), byte).prop_map(|(place, byte)| Edit::Insert(place, byte)),
        (any::<Index>(), any::<Index>()).prop_map(|(one, other)| Edit::Remove(one, other)),
        (any::<Index>(), any::<Index>()).prop_map(|(one, other)| Edit::Repeat(one, other)),
        any::<Index>().prop_map(Edit::Cut),
    ];
    proptest::collection::vec(edit, 1..6)
}

/// The bytes after all edits.
pub fn spoilt(bytes: &[u8], edits: &[Edit]) -> Vec<u8> {
    edits.iter().fold(bytes.to_vec(), edited)
}

fn edited(mut bytes: Vec<u8>, edit: &Edit) -> Vec<u8> {
    let between = |one: &Index, other: &Index, length: usize| {
        let (one, other) = (one.index(length + 1), other.index(length + 1));
        one.min(other)..one.max(other)
    };
    let length = bytes.len();
    match edit {
        Edit::Replace(place, byte) if length > 0 => bytes[place.index(length)] = *byte,
        Edit::Replace(..) => {}
        Edit::Insert(place, byte) => bytes.insert(place.index(length + 1), *byte),
        Edit::Remove(one, other) => drop(bytes.drain(between(one, other, length))),
        Edit::Repeat(one, other) => {
            let range = between(one, other, length);
            let piece = bytes[range.clone()].to_vec();
            bytes.splice(range.end..range.end, piece);
        }
        Edit::Cut(place) => bytes.truncate(place.index(length + 1)),
    }
    bytes
}
