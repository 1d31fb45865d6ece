//! What isn't read.

use thiserror::Error;

use crate::parts::Malformed;

/// Why bytes are no value, by the number and the name that the page gives it.
#[derive(Clone, Copy, Debug, PartialEq, Eq, Error)]
pub enum Fault {
    #[error("91 Truncated")]
    Truncated,
    #[error("92 BadTag")]
    BadTag,
    #[error("93 BadText")]
    BadText,
    #[error("94 BadNumber")]
    BadNumber,
    #[error("95 BytesLeft")]
    BytesLeft,
    #[error("96 OtherVersion")]
    OtherVersion,
}

impl From<Fault> for Malformed {
    fn from(fault: Fault) -> Malformed {
        Malformed(match fault {
            Fault::Truncated => "it ends inside a value",
            Fault::BadTag => "a byte of it names no kind",
            Fault::BadText => "a text of it breaks the rules of its place",
            Fault::BadNumber => "a number of it breaks the rules of its place",
            Fault::BytesLeft => "bytes are left over behind it",
            Fault::OtherVersion => "it is of another version",
        })
    }
}

/// A server told what it never should.
#[derive(Debug, Error)]
#[error("cq told what can't be read: {0}")]
pub struct BadFrame(#[from] pub Malformed);

impl From<Fault> for BadFrame {
    fn from(fault: Fault) -> BadFrame {
        BadFrame(fault.into())
    }
}
