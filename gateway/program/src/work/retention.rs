//! How old messages get: receives delete those that are older, and a sweep those that nobody asks for.

use std::sync::Arc;
use std::time::Duration;

use hobbychair_bytes::moment::Moment;
use hobbychair_sqs::errors::SqsError;
use hobbychair_tables::book::Entry;
use hobbychair_tables::queue::Queue;

use hobbychair_store::jobs::Operation;
use hobbychair_store::store::{Held, Store};

/// Of the time between the last record of a journal and the start that finds it, so much makes messages older, in
/// milliseconds.
const COUNTED_MILLISECONDS: u64 = 24 * 3_600_000;

/// So often queues are looked at.
const PAUSE: Duration = Duration::from_secs(1);

/// So many messages are looked at in one turn at a queue, and in one receive.
const TURN: usize = 100;
const AT_ONCE: usize = 10;

/// How much of the time from the last record to a start doesn't count, in milliseconds, if any.
fn uncounted(last_record: Moment, start: Moment) -> Option<u64> {
    let passed = start.saturating_sub(last_record);
    passed.checked_sub(COUNTED_MILLISECONDS).filter(|uncounted| *uncounted > 0 && last_record > 0)
}

/// A start at the moment `begun` may be more than a day behind the last record: of that time a day counts. A book says so, so
/// that it is the same at later starts. Where there is no room for that, it says so as soon as there is.
pub async fn tell_jump(store: &Store, last_record: Moment, begun: Moment) {
    let Some(uncounted) = uncounted(last_record, begun) else { return };
    if store.queues().jumps().all().iter().any(|(moment, _)| *moment == begun) {
        // Another gateway beside the same node has said so.
        return;
    }
    tracing::warn!("the clock is far ahead of the last record: {uncounted} ms of it make no message older");
    store.queues().jumps().add(begun, uncounted);
    let said = store.perform_nameless(0, vec![Operation::Say(Entry::Jump(begun, uncounted))]).await;
    if let Err(error) = said {
        tracing::warn!("it is said later that the clock was far ahead: {error}");
        store.queues().books().program_is_unsaid(0);
    }
}

/// Sweeps queues for as long as the gateway serves.
pub async fn keep_sweeping(store: Store) {
    loop {
        tokio::time::sleep(PAUSE).await;
        for queue in store.queues().all() {
            queue.state().forget_groups(store.clock().now());
            while is_due(&store, &queue) {
                if let Err(error) = sweep(&store, &queue).await {
                    tracing::warn!("old messages of {} stay for now: {error}", queue.name);
                    break;
                }
            }
        }
    }
}

fn is_due(store: &Store, queue: &Queue) -> bool {
    queue.state().is_worth_sweeping(store.queues().jumps(), store.clock().now())
}

/// Deletes some messages that are too old, while nobody else has the queue. Groups in flight are left alone.
async fn sweep(store: &Store, queue: &Arc<Queue>) -> Result<(), SqsError> {
    let held = store.hold(queue).await?;
    for _ in 0..TURN / AT_ONCE {
        if !is_due(store, queue) {
            break;
        }
        if !sweep_some(store, queue, &held).await? {
            queue.state().remember_vain_sweep(store.clock().now());
            break;
        }
    }
    Ok(())
}

/// Hands the next messages to itself that are too old, and deletes them. Tells whether there were any.
async fn sweep_some(store: &Store, queue: &Arc<Queue>, held: &Held) -> Result<bool, SqsError> {
    let old = queue.state().next_old(AT_ONCE, store.queues().jumps(), store.clock().now());
    let has_old = !old.is_empty();
    delete_next(held, old).await?;
    Ok(has_old)
}

/// Hands messages to itself, as far as they are the next ones, and deletes them. Whoever has the queue may do so.
pub async fn delete_next(held: &Held, next: Vec<u64>) -> Result<(), SqsError> {
    let handed = held.take(next).await?;
    held.delete(handed.into_iter().map(|handed| handed.receipt)).await
}

#[cfg(test)]
mod tests {
    use super::*;

    #[test]
    fn a_day_of_a_jump_counts() {
        assert_eq!(uncounted(1, 1 + COUNTED_MILLISECONDS), None);
        assert_eq!(uncounted(1, 2 + COUNTED_MILLISECONDS), Some(1));
        assert_eq!(uncounted(0, 2 + COUNTED_MILLISECONDS), None, "there is no record");
        assert_eq!(uncounted(9, 5), None);
    }
}
