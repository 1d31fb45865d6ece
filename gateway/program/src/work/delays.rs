//! Messages of standard queues that were sent with a delay. Until it is over they stand in a queue of the store beside
//! theirs; then `moves` takes each into its own, once, after whatever end.
//!
//! The store hands messages out in the order of their sends, and hides what it hands out. So what stands before a message
//! that is due is hidden for long, and given back when it is due itself.

use std::collections::HashMap;
use std::sync::Arc;

use hobbychair_sqs::errors::SqsError;
use hobbychair_store::store::{Held, Store};
use hobbychair_tables::ask::Handed;
use hobbychair_tables::queue::Queue;

use crate::work::moves::{move_due, show_again};

/// So many messages are moved, or handed out, at once.
const AT_ONCE: usize = 10;

/// Nobody who looks for messages waits until so many are handed out.
const FAR: usize = 100;

/// Messages that couldn't be moved are tried again after so many milliseconds.
const PAUSE_MILLISECONDS: u64 = 1000;

/// What is handed out before it is due is hidden for so many seconds: as long as can be.
const HIDDEN_SECONDS: u32 = 43_200;

/// Moves messages when they are due, for as long as the gateway serves.
pub async fn keep_moving(store: Store) {
    loop {
        store.queues().alarms().wait(store.clock()).await;
        for delays in store.queues().alarms().take(store.clock().now()) {
            tokio::spawn(try_to_move(store.clone(), delays));
        }
    }
}

async fn try_to_move(store: Store, delays: Arc<Queue>) {
    let alarms = store.queues().alarms();
    match move_all(&store, &delays).await {
        Ok(()) => {
            delays.state().forget_alarm();
            alarms.set_next(&delays);
        }
        Err(SqsError::QueueDoesNotExist) => {}
        Err(error) => {
            tracing::warn!("delayed messages of {} wait longer: {error}", delays.name);
            alarms.set(store.clock().now() + PAUSE_MILLISECONDS, &delays);
        }
    }
}

/// Moves the first messages of a queue that are due, before somebody looks for them: as many as one receive takes. The
/// others follow, and so do those before which many stand that aren't due; what can't be moved is tried again.
pub async fn bring_up_to_date(store: &Store, queue: &Arc<Queue>) {
    let Some(delays) = queue.delays().filter(|delays| is_any_near(store, delays)) else { return };
    let (store, name) = (store.clone(), queue.name.clone());
    // Whoever has a queue to itself brings that to its end.
    let moved = tokio::spawn(async move { move_some(&store, &delays).await }).await;
    if let Ok(Err(error)) = moved {
        tracing::debug!("delayed messages of {name} wait longer: {error}");
    }
}

/// Whether messages are due that are handed out soon, since not many are handed out before them.
fn is_any_near(store: &Store, delays: &Queue) -> bool {
    let now = store.clock().now();
    let mut state = delays.state();
    let last = state.due(now, AT_ONCE).into_iter().max();
    !state.removed && last.is_some_and(|last| state.next_up_to(last, FAR, now).len() < FAR)
}

fn is_any_due(store: &Store, delays: &Queue) -> bool {
    let state = delays.state();
    !state.removed && !state.due(store.clock().now(), 1).is_empty()
}

/// Moves the messages that are due, in the order in which they are.
async fn move_all(store: &Store, delays: &Arc<Queue>) -> Result<(), SqsError> {
    while is_any_due(store, delays) {
        move_some(store, delays).await?;
    }
    Ok(())
}

/// Moves the first of them, while nobody else moves any.
async fn move_some(store: &Store, delays: &Arc<Queue>) -> Result<(), SqsError> {
    let held = store.hold_for_move(delays).await?;
    let target = delays.main().ok_or(SqsError::QueueDoesNotExist)?;
    if !is_any_due(store, delays) {
        return Ok(());
    }
    let due = delays.state().due(store.clock().now(), AT_ONCE);
    let handed = hand_out(store, &held, &due).await?;
    match move_due(store, held, &target, handed).await {
        (_, Err(error)) if is_for_now(&error) => Err(error),
        (failed, Err(error)) => {
            failed.iter().for_each(|handed| put_behind(store, delays, handed, &error));
            Ok(())
        }
        (failed, Ok(())) if failed.is_empty() => Ok(()),
        // Their queue went meanwhile.
        (_, Ok(())) => Err(SqsError::QueueDoesNotExist),
    }
}

/// Whether it concerns all messages of a queue, or passes.
fn is_for_now(error: &SqsError) -> bool {
    matches!(error, SqsError::QueueDoesNotExist | SqsError::ServiceUnavailable(_) | SqsError::OverLimit(_))
}

/// What the store refuses holds nothing up: it is tried again later, and after some tries not any more.
fn put_behind(store: &Store, delays: &Queue, handed: &Handed, error: &SqsError) {
    let sequence = handed.receipt.sequence;
    if delays.state().refused_due(sequence, store.clock().now() + PAUSE_MILLISECONDS) {
        tracing::error!("the delayed message {sequence} of {} is set aside: {error}", delays.name);
    }
}

/// Has the store hand out messages that are due, in their order, and what stands before them.
async fn hand_out(store: &Store, held: &Held, due: &[u64]) -> Result<Vec<Handed>, SqsError> {
    let delays = held.queue();
    let hidden = delays.state().receipts_of_hidden(due, store.clock().now());
    show_again(held, hidden).await?;
    let mut found = HashMap::new();
    while let Some(last) = due.iter().filter(|sequence| !found.contains_key(*sequence)).max() {
        let next = delays.state().next_up_to(*last, AT_ONCE, store.clock().now());
        let handed = held.take_and_hide(next, HIDDEN_SECONDS).await?;
        if handed.is_empty() {
            return Err(SqsError::InternalFailure("The store didn't hand out what is due.".into()));
        }
        let with_numbers = handed.into_iter().map(|handed| (handed.receipt.sequence, handed));
        found.extend(with_numbers.filter(|(sequence, _)| due.contains(sequence)));
    }
    Ok(due.iter().filter_map(|sequence| found.remove(sequence)).collect())
}

/// Has a queue beside a standard one, for what is delayed.
pub async fn prepare(store: &Store, queue: &Arc<Queue>) -> Result<(), SqsError> {
    if queue.delays().is_some() {
        return Ok(());
    }
    let _held = store.hold(queue).await?;
    create_beside(store, queue).await
}

/// Creates the queue beside one that nobody else has, unless it is there.
async fn create_beside(store: &Store, queue: &Arc<Queue>) -> Result<(), SqsError> {
    let (name, removed) = {
        let state = queue.state();
        (state.entry.store, state.removed)
    };
    match queue.delays() {
        _ if removed => Err(SqsError::QueueDoesNotExist),
        Some(_) => Ok(()),
        None => {
            let (delays, create) = Queue::beside(queue, name);
            store.ask(&Arc::new(delays), create).await.map(drop)
        }
    }
}
