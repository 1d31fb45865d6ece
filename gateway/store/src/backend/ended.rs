//! Why a store doesn't go on.

use std::path::PathBuf;

use hobbychair_bytes::parts::Malformed;
use hobbychair_bytes::values::BadFrame;
use thiserror::Error;

use super::program::ToldError;
use crate::cq::CqError;

/// Why the store doesn't go on.
#[derive(Debug, Error)]
pub enum Ended {
    #[error(transparent)]
    Cq(#[from] CqError),
    #[error(transparent)]
    BadFrame(#[from] BadFrame),
    #[error("cq answered client {client}'s request {number}, which isn't the next one")]
    NotNext { client: u32, number: u64 },
    #[error("cq is done with request {0}, and gave no answer")]
    Unanswered(u64),
    #[error("an entry of the book can't be written: {0}")]
    Entry(#[from] serde_json::Error),
    #[error("the node and this gateway don't understand each other: {0}")]
    Malformed(#[from] Malformed),
    #[error("a server can't read a request ({0})")]
    Unread(u32),
    #[error(transparent)]
    Told(#[from] ToldError),
    /// A program isn't started again on its file.
    #[error("{}: {why}", .file.display())]
    NotStartedAgain { file: PathBuf, why: ToldError },
    #[error("{} is gone: it was removed or renamed while the gateway ran", .0.display())]
    FileGone(PathBuf),
    /// What was acknowledged isn't there.
    #[error(
        "{} has {found} requests, and {heard} were kept there: while the gateway ran, another file took its place, or it was changed",
        .file.display()
    )]
    FileChanged { file: PathBuf, found: u64, heard: u64 },
    /// All copies of the store are gone.
    #[error("nobody asks any more")]
    NobodyAsks,
    /// What was asked is done, and its answer can't be had.
    #[error("cq has no room left to answer what it did before it ended: its journal is full")]
    Full,
}

impl Ended {
    /// Whether the program is gone, or as good as that: another one may do better.
    pub(crate) fn is_of_program(&self) -> bool {
        match self {
            Ended::Cq(_) | Ended::BadFrame(_) | Ended::NotNext { .. } | Ended::Unanswered(_) => true,
            Ended::NotStartedAgain { why, .. } => why.is_end_before_ready(),
            _ => false,
        }
    }
}
