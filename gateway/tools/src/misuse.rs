//! What is refused since it can't be meant.

use thiserror::Error;

/// What was asked for can't be meant: the command line, a variable or the file is at fault.
#[derive(Debug, Error)]
#[error("{0}")]
pub struct Misuse(pub String);
