//! The start: programs are started, or a node is listened to, and the tables are made of the stores that are told.

use std::path::{Path, PathBuf};
use std::time::Duration;

use hobbychair_bytes::moment::Moment;
use hobbychair_bytes::parts::Cutter;
use hobbychair_tables::clock::Clock;
use hobbychair_tables::image::ImageError;
use hobbychair_tables::shards::Shards;
use thiserror::Error;
use tokio::task::JoinError;

use super::chain::{self, BesideNodeError};
use super::program::{self, ToldError};
use super::Backend;
use crate::cq::Cq;
use crate::journal::{Files, JournalError, Lock};
use crate::shared::Shared;

/// What is to keep the store of a gateway.
#[derive(Clone, Debug)]
pub enum Keeper {
    Programs(Programs),
    /// The chain of the node that has the other end of standard input.
    Chain,
}

/// Programs `cq server`, one for each shard.
#[derive(Clone, Debug)]
pub struct Programs {
    /// The file that is started.
    pub program: String,
    /// So long an answer of one may take.
    pub patience: Duration,
    pub shards: Shards,
    /// Where they keep their entries, if they do.
    pub journal: Option<Files>,
}

/// What keeps the store of a gateway has begun, and the tables have all that it told.
pub struct Started {
    pub shards: Shards,
    /// One for each shard.
    pub pipes: Vec<StartedPipe>,
    /// Between which moments nobody was served, where that is known.
    pub paused: Option<(Moment, Moment)>,
    /// How many requests the journal has.
    pub requests: u64,
    /// The journal is this gateway's for as long as this is kept.
    pub lock: Option<Lock>,
}

/// A pipe, and what has its other end.
pub struct StartedPipe {
    pub(crate) pipe: Cq,
    pub(crate) backend: Backend,
    /// What was read behind the store.
    pub(crate) incoming: Cutter,
}

/// Takes up a chunk of a store.
pub(super) type Take<'a> = dyn FnMut(&[u8]) -> Result<(), ImageError> + Send + 'a;

/// Why nothing keeps the store.
#[derive(Debug, Error)]
pub enum StartError {
    #[error(transparent)]
    Told(#[from] ToldError),
    #[error(transparent)]
    Journal(#[from] JournalError),
    #[error("{}: {why}", .file.display())]
    OfFile { file: PathBuf, why: ToldError },
    #[error(transparent)]
    BesideNode(#[from] BesideNodeError),
    #[error(transparent)]
    Failed(#[from] JoinError),
}

impl StartError {
    /// Why a program that keeps its entries in this file told nothing. Some errors name it already.
    pub(super) fn of_file(file: &Path, why: ToldError) -> StartError {
        match why {
            ToldError::Cq(_) => StartError::OfFile { file: file.into(), why },
            other => other.into(),
        }
    }

    /// Why there are no tables of what the program of this file told.
    pub(super) fn of_image(file: &Path, why: ImageError) -> StartError {
        match why {
            ImageError::OtherForm(_) => JournalError::OtherForm(file.display().to_string(), why.to_string()).into(),
            _ => ToldError::Image { file: file.into(), why }.into(),
        }
    }
}

/// Starts what is to keep the store, and makes the tables of what it tells. That takes as long as all of it is large. The clock
/// goes on from the last moment that was told.
pub async fn start(keeper: &Keeper, shared: &Shared) -> Result<Started, StartError> {
    match keeper {
        Keeper::Programs(programs) => program::start(programs, shared).await,
        Keeper::Chain => Ok(chain::start(shared).await?),
    }
}

/// A clock that is ahead of this machine's by more is told of.
const WORTH_TELLING: Duration = Duration::from_secs(60);

/// Goes on from that moment. Times never go back, so a gateway that once ran with a clock far ahead leaves its times to all later
/// ones.
pub(super) fn go_on_from(clock: &Clock, last: Moment) {
    clock.go_on_from(last);
    let lead = clock.lead();
    if lead > WORTH_TELLING {
        tracing::warn!(
            "the clock is {} s ahead of this machine's: the last request that is kept is as late. Clients are told times that are so \
             much too late, until this machine's clock has come there",
            lead.as_secs()
        );
    }
}
