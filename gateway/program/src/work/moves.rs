//! Moving messages, each one once: dead letters to the dead-letter queue of theirs, by tasks out of it, and delayed ones
//! into their queue when they are due.
//!
//! Nobody else has the message's queue meanwhile. A copy is sent to the other queue, under a deduplication id that
//! nobody can guess, and its envelope says of which message it is one. Behind the copies their originals are deleted,
//! and the program is asked for nothing between the two. So where a deletion isn't there after a crash, nobody has
//! touched the copy, and a start that finds both deletes the original. Where the other queue is with another program,
//! the deletion is asked for when the copy is on disk, and a start finds the copy among the sends of the journal.

use std::collections::{HashMap, HashSet};
use std::sync::Arc;
use std::time::Duration;

use hobbychair_bytes::digits::hex;
use hobbychair_bytes::values::Receipt;
use hobbychair_sqs::envelope::{message_id, EnvelopeHead};
use hobbychair_sqs::errors::SqsError;
use hobbychair_sqs::handles::Origin;
use hobbychair_sqs::texts::{DedupId, GroupId, QueueKind};
use hobbychair_store::jobs::Copy;
use hobbychair_store::store::{Held, Store};
use hobbychair_tables::ask::{Ask, Cause, Changer, Fate, Handed, PartsCause};
use hobbychair_tables::copies::CopyId;
use hobbychair_tables::queue::Queue;

use crate::work::parts;

/// So long a message waits for its next deletion, where one failed after it was copied.
const PAUSE: Duration = Duration::from_secs(1);

/// Why messages are moved.
#[derive(Clone, Copy, Debug, PartialEq, Eq)]
pub enum MoveKind {
    DeadLetter,
    /// Out of a dead-letter queue. They are new messages with ids of their own
    /// (API Reference, StartMessageMoveTask).
    Redrive,
    /// From the queue beside a standard one into it.
    Due,
}

/// Moves messages that a receive set aside to the target of their queue. Where there is none any more they are given
/// back. Tells the groups of those that are in the queue still; with an error those that couldn't be moved are given back.
pub async fn move_to_target(store: &Store, queue: &Arc<Queue>, dead: Vec<Handed>) -> Result<HashSet<String>, SqsError> {
    let Some((target, _)) = store.queues().target_of(queue) else {
        give_back(store, queue, &dead).await;
        return Ok(groups_of(&dead));
    };
    let held = match store.hold_for_move(queue).await {
        Ok(held) => held,
        Err(error) => {
            give_back(store, queue, &dead).await;
            return Err(error);
        }
    };
    let created = target.state().entry.created;
    let (own, others): (Vec<_>, Vec<_>) = dead.into_iter().partition(|handed| {
        let (state, receipt) = (queue.state(), handed.receipt);
        // Other receives may have set it aside as well.
        state.last_receipt_of(receipt.sequence) == Some(receipt) || state.is_set_aside(receipt.sequence, created)
    });
    let moved = move_held(store, queue, &held, &target, own, MoveKind::DeadLetter).await;
    give_back_by(&held, &moved.failed).await;
    drop(held);
    delete_all(store, queue, &moved.copied).await;
    moved.result?;
    // Those that are gone were moved by others.
    let staying = others.into_iter().filter(|handed| queue.state().last_receipt_of(handed.receipt.sequence).is_some());
    Ok(staying.map(|handed| handed.group).chain(groups_of(&moved.failed)).collect())
}

/// Moves messages that a task was handed and nobody else has, each to its target.
pub async fn move_each(
    store: &Store,
    queue: &Arc<Queue>,
    held: Held,
    messages: Vec<(Arc<Queue>, Vec<Handed>)>,
) -> Result<(), SqsError> {
    let (mut copied, mut result) = (Vec::new(), Ok(()));
    for (target, handed) in messages {
        if result.is_ok() {
            let moved = move_held(store, queue, &held, &target, handed, MoveKind::Redrive).await;
            copied.extend(moved.copied);
            result = moved.result;
        }
    }
    drop(held);
    delete_all(store, queue, &copied).await;
    result
}

/// What came of messages.
struct Moved {
    /// Those that have a copy.
    copied: Vec<u64>,
    /// Those that have none, and why.
    failed: Vec<Handed>,
    result: Result<(), SqsError>,
}

/// Moves messages whose queue nobody else has.
async fn move_held(
    store: &Store,
    queue: &Arc<Queue>,
    held: &Held,
    target: &Arc<Queue>,
    messages: Vec<Handed>,
    kind: MoveKind,
) -> Moved {
    let mut moved = Moved { copied: Vec::new(), failed: Vec::new(), result: Ok(()) };
    let copies = copies_of(store, queue, target, messages, kind, &mut moved);
    let (handed, copies): (Vec<_>, Vec<_>) = copies.into_iter().unzip();
    let (copies, numbers) = match put_all(store, target, copies).await {
        Ok(put) => put,
        Err(error) => {
            moved.result = Err(error);
            moved.failed.extend(handed);
            return moved;
        }
    };
    let answers = if copies.is_empty() { Vec::new() } else { held.move_to(target, copies).await };
    parts::settle(store, &numbers);
    for (handed, answer) in handed.into_iter().zip(answers) {
        match answer {
            Ok(_) => moved.copied.push(handed.receipt.sequence),
            // The tables know of the copy, whatever was told.
            Err(_) if store.queues().copies().has(origin_of(queue, &handed)) => {
                moved.copied.push(handed.receipt.sequence);
            }
            Err(error) => {
                // A target that has gone meanwhile is none, and the next receive knows it.
                if error != SqsError::QueueDoesNotExist {
                    moved.result = Err(error);
                }
                moved.failed.push(handed);
            }
        }
    }
    moved
}

/// Puts copies that are too long in parts: all of them or none, so that messages of a group stay in their order. The
/// numbers of the parts are told, too.
async fn put_all(store: &Store, target: &Queue, copies: Vec<Copy>) -> Result<(Vec<Copy>, Vec<u64>), SqsError> {
    let (mut put, mut numbers) = (Vec::with_capacity(copies.len()), Vec::new());
    for Copy { sequence, ask } in copies {
        match parts::put(store, target, ask, PartsCause::Move).await {
            Ok((ask, number)) => {
                put.push(Copy { sequence, ask });
                numbers.extend(number);
            }
            Err(error) => {
                parts::settle(store, &numbers);
                return Err(error);
            }
        }
    }
    Ok((put, numbers))
}

/// The copies of those messages that have none yet.
fn copies_of(
    store: &Store,
    queue: &Queue,
    target: &Queue,
    messages: Vec<Handed>,
    kind: MoveKind,
    moved: &mut Moved,
) -> Vec<(Handed, Copy)> {
    let mut copies = Vec::new();
    for handed in messages {
        let sequence = handed.receipt.sequence;
        if store.queues().copies().has(origin_of(queue, &handed)) {
            moved.copied.push(sequence);
            continue;
        }
        match copy_of(store, queue, target, &handed, kind) {
            Ok(ask) => copies.push((handed, Copy { sequence, ask })),
            Err(error) => {
                moved.result = Err(error);
                moved.failed.push(handed);
            }
        }
    }
    copies
}

fn groups_of(messages: &[Handed]) -> HashSet<String> {
    messages.iter().map(|handed| handed.group.clone()).collect()
}

fn origin_of(queue: &Queue, handed: &Handed) -> Origin {
    Origin { mark: queue.mark.0, sequence: handed.receipt.sequence }
}

/// The send of a copy. Clients see the message as it was, but for the moment of its send and what it says of its
/// queue, and of one that leaves a dead-letter queue its id.
fn copy_of(store: &Store, queue: &Queue, target: &Queue, handed: &Handed, kind: MoveKind) -> Result<Ask, SqsError> {
    let no_envelope = || SqsError::InternalFailure("The store has a message in no form.".into());
    let head = EnvelopeHead::of(&handed.envelope).ok_or_else(no_envelope)?;
    let is_new = kind == MoveKind::Redrive;
    let id = || head.id.unwrap_or_else(|| message_id(queue.mark, handed.receipt.sequence));
    // Only in a standard queue a dead letter is as old as it was (Developer Guide, "Amazon SQS dead-letter queues").
    let keeps_age = !is_new && queue.name.kind() == QueueKind::Standard;
    let origin = origin_of(queue, handed);
    let head = EnvelopeHead {
        id: (!is_new).then(id),
        of: Some(origin),
        sent: if keeps_age { head.sent } else { store.clock().now() },
        due: None,
        source: (kind == MoveKind::DeadLetter).then(|| queue.name.clone()),
        ..head
    };
    let envelope = match head.parts {
        Some(_) => head.as_line().map_err(|_| no_envelope())?,
        None => head.over(&handed.envelope).ok_or_else(no_envelope)?.into(),
    };
    let group = GroupId::parse(&handed.group)?;
    let dedup = match store.secret_of(target) {
        // The store remembers for a while that there was this copy.
        Some(secret) => CopyId::text(origin, secret),
        None => hex(&rand::random::<[u8; 16]>()),
    };
    let dedup = DedupId::parse(&dedup)?;
    Ok(Ask::Send { group, dedup, envelope, cause: Cause::Move(origin) })
}

/// Moves messages that are due from the queue beside a standard one into it. Tells those that couldn't be moved, and why.
pub async fn move_due(
    store: &Store,
    held: Held,
    target: &Arc<Queue>,
    due: Vec<Handed>,
) -> (Vec<Handed>, Result<(), SqsError>) {
    let delays = held.queue().clone();
    let moved = move_held(store, &delays, &held, target, due, MoveKind::Due).await;
    drop(held);
    delete_all(store, &delays, &moved.copied).await;
    (moved.failed, moved.result)
}

/// Gives messages back, by who has their queue, so that they can be handed out once more.
pub async fn show_again(held: &Held, receipts: Vec<Receipt>) -> Result<(), SqsError> {
    if receipts.is_empty() {
        return Ok(());
    }
    let answers = held.ask_all(receipts.into_iter().map(change_back).collect()).await;
    answers.into_iter().try_for_each(|answer| answer.map(drop))
}

fn change_back(receipt: Receipt) -> Ask {
    Ask::ChangeVisibility { receipt, visibility: 0, by: Changer::Gateway }
}

fn changes_back(messages: &[Handed]) -> Vec<Ask> {
    messages.iter().map(|handed| change_back(handed.receipt)).collect()
}

/// Lets messages be handed out again at once, as far as they are still there and in flight by these handings.
pub async fn give_back(store: &Store, queue: &Arc<Queue>, messages: &[Handed]) {
    if !messages.is_empty() {
        let _ = store.ask_all(queue, changes_back(messages)).await;
    }
}

/// The same, by who has the queue.
async fn give_back_by(held: &Held, messages: &[Handed]) {
    if !messages.is_empty() {
        let _ = held.ask_all(changes_back(messages)).await;
    }
}

async fn delete_all(store: &Store, queue: &Arc<Queue>, copied: &[u64]) {
    for sequence in copied {
        delete(store, queue, *sequence).await;
    }
}

/// Deletes a message that was copied, now or later.
async fn delete(store: &Store, queue: &Arc<Queue>, sequence: u64) {
    if let Err(error) = try_to_delete(store, queue, sequence).await {
        tracing::warn!("a message of {} that was moved isn't deleted yet: {error}", queue.name);
        let (store, queue) = (store.clone(), queue.clone());
        tokio::spawn(async move {
            while try_to_delete(&store, &queue, sequence).await.is_err() {
                tokio::time::sleep(PAUSE).await;
            }
        });
    }
}

/// Deletes it by its last receipt. Another receive may be handed it meanwhile, and leaves it alone.
async fn try_to_delete(store: &Store, queue: &Arc<Queue>, sequence: u64) -> Result<(), SqsError> {
    loop {
        let receipt = queue.state().last_receipt_of(sequence);
        let Some(receipt) = receipt else {
            store.queues().copies().forget(Origin { mark: queue.mark.0, sequence });
            return Ok(());
        };
        match store.ask(queue, Ask::Delete { receipt, by_client: false }).await {
            Ok(_) | Err(SqsError::QueueDoesNotExist) => {}
            Err(error) => return Err(error),
        }
    }
}

/// So many messages are seen to at once.
const SEEN_TO_AT_ONCE: usize = 32;

/// Brings to their end what was cut off, before anybody is served: messages that have a copy are deleted, those that were
/// set aside since they were too old are deleted, too, and those that were about to be moved are given back. What a full
/// disk doesn't take is tried again until it is done.
pub async fn finish(store: &Store) {
    delete_copied(store).await;
    for queue in store.queues().all() {
        let created = store.queues().target_of(&queue).map(|(target, _)| target.state().entry.created);
        let cut_off = queue.state().cut_off(created, store.queues().jumps(), store.clock().now());
        let asks = cut_off.into_iter().map(|(receipt, fate)| match fate {
            Fate::Old => Ask::Delete { receipt, by_client: false },
            Fate::Dead | Fate::Early => change_back(receipt),
        });
        let left = ask_each(store, &queue, asks.collect()).await;
        if !left.is_empty() {
            tracing::warn!("{} messages of {} are seen to later", left.len(), queue.name);
            tokio::spawn(keep_asking(store.clone(), queue, left));
        }
    }
}

async fn keep_asking(store: Store, queue: Arc<Queue>, mut left: Vec<Ask>) {
    while !left.is_empty() {
        tokio::time::sleep(PAUSE).await;
        left = ask_each(&store, &queue, left).await;
    }
}

/// Asks for deletions and changes, and tells which have to wait.
async fn ask_each(store: &Store, queue: &Arc<Queue>, asks: Vec<Ask>) -> Vec<Ask> {
    let mut left = Vec::new();
    for some in asks.chunks(SEEN_TO_AT_ONCE) {
        let answers = store.ask_all(queue, some.to_vec()).await;
        let waiting = some.iter().zip(answers).filter(|(_, answer)| {
            // With any other refusal there is nothing to see to any more.
            matches!(answer, Err(SqsError::ServiceUnavailable(_) | SqsError::InternalFailure(_)))
        });
        left.extend(waiting.map(|(ask, _)| ask.clone()));
    }
    left
}

async fn delete_copied(store: &Store) {
    let by_mark: HashMap<u64, Arc<Queue>> =
        store.queues().all_and_delays().into_iter().map(|queue| (queue.mark.0, queue)).collect();
    let mut finished = 0;
    for origin in store.queues().copies().take_all() {
        let Some(queue) = by_mark.get(&origin.mark) else { continue };
        let receipt: Option<Receipt> = queue.state().last_receipt_of(origin.sequence);
        if receipt.is_some() {
            // Until it is deleted, nobody copies it again.
            store.queues().copies().mark_copied(origin);
            delete(store, queue, origin.sequence).await;
            finished += 1;
        }
    }
    if finished > 0 {
        tracing::info!("{finished} messages had been moved, and were there still");
    }
}
