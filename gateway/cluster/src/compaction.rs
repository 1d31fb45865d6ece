//! How candidates have etcd forget what was overwritten: else it keeps each beat, until it is full and takes nothing any more.
//!
//! A key of the cluster says which revision etcd had at a moment. Once that is long ago, the candidate that writes the next moment
//! there compacts up to that revision. So one does it at a time, whichever candidates begin and end, and nothing younger goes. Wall
//! clocks that are wrong make it earlier or later, which hurts nobody: no process reads what was overwritten.

use std::time::{Duration, SystemTime};

use anyhow::Result;
use serde::{Deserialize, Serialize};
use tokio::time::sleep;

use crate::contact::Contact;
use crate::etcd::{Etcd, EtcdError, Guard, Operation};
use crate::records::{self, Cluster, OF_ALL};

/// So often a candidate looks whether it is time, or four times within what is kept. To count the keys of others may take etcd some
/// time.
const ROUND: Duration = Duration::from_secs(600);

/// Whether a candidate compacts.
#[derive(Clone, Copy, Debug, PartialEq, Eq)]
pub enum When {
    Never,
    /// Where no one but clusters has keys in that etcd.
    Alone,
    Always,
}

/// How a candidate compacts.
#[derive(Clone, Copy, Debug)]
pub struct CompactionSettings {
    pub when: When,
    /// What was overwritten stays for so long at least.
    pub kept: Duration,
}

/// Which revision etcd had at a moment, in seconds since 1970 by the wall clock of whoever wrote it.
#[derive(Clone, Copy, Debug, PartialEq, Eq, Serialize, Deserialize)]
struct Mark {
    revision: i64,
    at: u64,
}

impl Mark {
    /// Whether it is old enough for the next one. A moment that is to come was written by a clock that is wrong.
    fn is_due(&self, now: u64, kept: Duration) -> bool {
        now.abs_diff(self.at) >= kept.as_secs()
    }

    /// Whether what was overwritten before its revision may go.
    fn is_past(&self, now: u64, kept: Duration) -> bool {
        now.saturating_sub(self.at) >= kept.as_secs()
    }
}

/// Compacts again and again, if it is to.
pub async fn keep(cluster: Cluster, settings: CompactionSettings) {
    let CompactionSettings { when, kept } = settings;
    if when == When::Never {
        tracing::info!("this candidate doesn't compact etcd");
        return;
    }
    let (mut contact, mut told) = (Contact::default(), None);
    loop {
        match look(&cluster, settings, &mut told).await {
            Ok(()) => drop(contact.regain()),
            // Where the cluster is another one now, this process is about to end.
            Err(error) if contact.lose(format!("{error:#}")) => tracing::warn!("etcd isn't compacted now: {error:#}"),
            Err(_) => {}
        }
        sleep(ROUND.min(kept / 4)).await;
    }
}

/// Compacts if it is time. What is done, and what isn't, is told where that has changed.
async fn look(cluster: &Cluster, settings: CompactionSettings, told: &mut Option<bool>) -> Result<()> {
    let CompactionSettings { when, kept } = settings;
    let others = count_others(&cluster.etcd).await?;
    let may = others == 0 || when == When::Always;
    if told.replace(may) != Some(may) {
        tell(may, others, kept);
    }
    if !may {
        return Ok(());
    }
    let key = cluster.keys.compaction();
    let outcome = cluster.etcd.transact(&[cluster.guard()], &[Operation::Get(key.clone())], &[]).await?;
    let now = SystemTime::now().duration_since(SystemTime::UNIX_EPOCH).unwrap_or_default().as_secs();
    let found = outcome.read.first().and_then(|found| found.first());
    let mark: Option<Mark> = found.map(records::value).transpose()?;
    if !outcome.succeeded || mark.is_some_and(|mark| !mark.is_due(now, kept)) {
        return Ok(());
    }
    let is_same = Guard::IsOfRevision(key.clone(), found.map_or(0, |found| found.revision));
    let next = Mark { revision: outcome.revision, at: now };
    let put = [Operation::Put(key, records::text(&next))];
    let is_next = cluster.etcd.transact(&[cluster.guard(), is_same], &put, &[]).await?.succeeded;
    match mark.filter(|mark| is_next && mark.is_past(now, kept)) {
        Some(mark) => {
            cluster.etcd.compact(mark.revision).await?;
            tracing::info!(revision = mark.revision, "etcd is compacted");
        }
        None => tracing::debug!(revision = next.revision, is_next, "a revision is noted"),
    }
    Ok(())
}

fn tell(may: bool, others: u64, kept: Duration) {
    if may {
        tracing::info!(seconds = kept.as_secs(), "candidates compact etcd: what was overwritten goes behind that time");
    } else {
        tracing::warn!(
            "candidates don't compact etcd, since others have {others} keys there. It gets full, unless it compacts itself \
             (--auto-compaction-retention=1h) or candidates are told to (--compaction)"
        );
    }
}

/// What candidates will do, for whoever makes a cluster in an etcd in which others have so many keys.
pub fn foretold(others: u64) -> &'static str {
    if others == 0 {
        "its candidates compact this etcd: what was overwritten more than an hour ago goes, whosever it is. hobbychair master \
         --no-compaction doesn't"
    } else {
        "others have keys in this etcd, so candidates don't compact it: have it compact itself, else it gets full. hobbychair \
         master --compaction does"
    }
}

/// How many keys others have in that etcd.
pub async fn count_others(etcd: &Etcd) -> Result<u64, EtcdError> {
    etcd.count_others(OF_ALL).await
}

#[cfg(test)]
mod tests {
    use super::*;

    #[test]
    fn what_is_younger_than_an_hour_stays_and_a_clock_that_was_wrong_stops_nothing() {
        let (hour, mark) = (Duration::from_secs(3600), Mark { revision: 7, at: 10_000 });
        let at = |now| (mark.is_due(now, hour), mark.is_past(now, hour));
        assert_eq!([at(10_000), at(13_599), at(13_600)], [(false, false), (false, false), (true, true)]);
        // It was written by a clock that was ahead: the next one takes its place, and nothing goes.
        assert_eq!([at(6_401), at(6_400), at(0)], [(false, false), (true, false), (true, false)]);
        assert_eq!(records::text(&mark), r#"{"revision":7,"at":10000}"#);
    }
}
