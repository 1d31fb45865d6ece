//! Purges: all messages of a queue are deleted that are there when it begins. What a purge has begun is brought to its end,
//! also after a start.

use std::sync::Arc;
use std::time::Duration;

use hobbychair_sqs::errors::SqsError;
use hobbychair_store::store::{Held, Store};
use hobbychair_tables::ask::TableChange;
use hobbychair_tables::queue::Queue;

use crate::work::retention::delete_next;

/// How many deletes are asked for at once, how many messages are looked at while others wait, and how many the gateway
/// hands to itself at once.
const DELETED_AT_ONCE: usize = 32;
const LOOKED_AT_AT_ONCE: usize = 1024;
const HANDED_AT_ONCE: usize = 10;

/// A purge that can't go on for now tries again after this.
const PAUSE: Duration = Duration::from_secs(1);

/// What a purge has to itself: the queue, and before it the one beside it, if there is one.
pub type HeldAll = (Option<Held>, Held);

/// Deletes the messages up to this one, and the delayed ones of a standard queue. Where it fails on the way, it goes on
/// later, and what is sent meanwhile stays.
pub async fn purge(store: Store, queue: Arc<Queue>, held: HeldAll, last: u64) -> Result<(), SqsError> {
    held.1.change(TableChange::Purging(last)).await?;
    let purged = delete_all(&store, &held, last).await;
    drop(held);
    if purged.is_err() {
        tokio::spawn(keep_purging(store, queue));
    }
    purged
}

/// Brings to their end what a purge had begun when the gateway ended.
pub async fn finish(store: &Store) {
    for queue in store.queues().all() {
        if let Err(error) = go_on(store, &queue).await {
            tracing::warn!("the purge of {} goes on later: {error}", queue.name);
            tokio::spawn(keep_purging(store.clone(), queue));
        }
    }
}

async fn keep_purging(store: Store, queue: Arc<Queue>) {
    loop {
        tokio::time::sleep(PAUSE).await;
        match go_on(&store, &queue).await {
            Ok(()) | Err(SqsError::QueueDoesNotExist) => return,
            Err(error) => tracing::warn!("the purge of {} goes on later: {error}", queue.name),
        }
    }
}

async fn go_on(store: &Store, queue: &Arc<Queue>) -> Result<(), SqsError> {
    if queue.state().purging().is_none() {
        return Ok(());
    }
    let held = store.hold_all(queue).await?;
    let (last, removed) = {
        let state = queue.state();
        (state.purging(), state.removed)
    };
    match last {
        Some(last) if !removed => delete_all(store, &held, last).await,
        _ => Ok(()),
    }
}

async fn delete_all(store: &Store, held: &HeldAll, last: u64) -> Result<(), SqsError> {
    let (delays, held) = held;
    delete_up_to(store, held, last).await?;
    if let Some(held) = delays {
        let last = held.queue().state().purging();
        delete_up_to(store, held, last.unwrap_or(0)).await?;
    }
    held.change(TableChange::Purged).await.map(drop)
}

/// Deletes what was handed out before, and then hands all else to itself and deletes it.
async fn delete_up_to(store: &Store, held: &Held, last: u64) -> Result<(), SqsError> {
    let queue = held.queue();
    let mut first = 0;
    loop {
        let found = queue.state().receipts_between(first, last, LOOKED_AT_AT_ONCE);
        let Some((receipts, behind)) = found else { break };
        first = behind;
        for some in receipts.chunks(DELETED_AT_ONCE) {
            held.delete(some.iter().copied()).await?;
        }
    }
    loop {
        let next = queue.state().next_up_to(last, HANDED_AT_ONCE, store.clock().now());
        if next.is_empty() {
            return Ok(());
        }
        delete_next(held, next).await?;
    }
}
