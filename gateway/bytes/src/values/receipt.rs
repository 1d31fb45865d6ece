//! Receipts.

use crate::parts::Parts;

use super::reader::ValueReader;
use super::Fault;

/// Which handing of which message of which queue of a name in the store. All three are above 0.
#[derive(Clone, Copy, Debug, PartialEq, Eq, Hash)]
pub struct Receipt {
    /// Which queue of its name it is: the store counts them.
    pub incarnation: u64,
    /// The message's sequence number in that queue.
    pub sequence: u64,
    /// Which handing of the message this is.
    pub ordinal: u64,
}

impl Receipt {
    pub(super) fn append(self, out: &mut Vec<u8>) {
        let Receipt { incarnation, sequence, ordinal } = self;
        [incarnation, sequence, ordinal].into_iter().for_each(|number| out.number64(number));
    }

    pub(super) fn read(from: &mut ValueReader<'_>) -> Result<Receipt, Fault> {
        let numbers @ [incarnation, sequence, ordinal] = [from.number64()?, from.number64()?, from.number64()?];
        let is_good = !numbers.contains(&0);
        is_good.then_some(Receipt { incarnation, sequence, ordinal }).ok_or(Fault::BadNumber)
    }
}
