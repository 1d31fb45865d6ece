//! Messages whose envelopes are too long for the store. Such an envelope stands in parts in a queue of its own, which a line
//! in the message's place names.
//!
//! The parts are there before the line is sent, and go when no message names them any more, behind what took the last one.
//! So a line always has its parts, and after a crash at most parts without a line are there, which a start removes.

use std::future::Future;
use std::sync::Arc;
use std::time::Duration;

use hobbychair_sqs::envelope::{parts_of, EnvelopeHead};
use hobbychair_sqs::errors::SqsError;
use hobbychair_store::jobs::{Answer, Operation};
use hobbychair_store::store::{spawn_wanted, Store};
use hobbychair_tables::ask::{Ask, Handed, Outcome, PartsAsk, PartsCause};
use hobbychair_tables::budget::Share;
use hobbychair_tables::queue::Queue;

use crate::work::delays;

/// So many parts are removed at once.
const REMOVED_AT_ONCE: usize = 32;

/// Parts that can't be removed for now stay so long.
const PAUSE: Duration = Duration::from_secs(1);

fn no_parts() -> SqsError {
    SqsError::InternalFailure("The store has a message without its parts.".into())
}

/// The answers to operations that are performed one after the other, in their order. What is too long for the store is put
/// in parts before, and a queue for what is delayed is there.
pub async fn perform_all(
    store: &Store,
    queue: &Arc<Queue>,
    operations: Vec<Operation>,
    share: &Arc<Share>,
) -> Vec<Answer> {
    let is_ready = |operation: &Operation| match operation {
        Operation::Ask(ask) => !ask.is_too_long(),
        Operation::AskBeside(ask) => !ask.is_too_long() && queue.delays().is_some(),
        _ => true,
    };
    if operations.iter().all(is_ready) {
        return store.perform_all(queue, operations, share).await;
    }
    let count = operations.len();
    let (store, queue, share) = (store.clone(), queue.clone(), share.clone());
    // It goes on where its client goes, since parts may go only when it is known whether a line names them.
    let performed = spawn_wanted(async move { put_and_perform(&store, &queue, operations, &share).await });
    performed.await.unwrap_or_else(|_| (0..count).map(|_| Err(SqsError::store_is_gone())).collect())
}

async fn put_and_perform(
    store: &Store,
    queue: &Arc<Queue>,
    operations: Vec<Operation>,
    share: &Arc<Share>,
) -> Vec<Answer> {
    let (mut refused, mut ready, mut put) = (Vec::new(), Vec::new(), Vec::new());
    for operation in operations {
        match in_parts(store, queue, operation).await {
            Ok((operation, number)) => {
                ready.push(operation);
                put.extend(number);
                refused.push(None);
            }
            Err(error) => refused.push(Some(error)),
        }
    }
    let answers = if ready.is_empty() { Vec::new() } else { store.perform_all(queue, ready, share).await };
    settle(store, &put);
    in_place(refused, answers)
}

/// The answers in their places: of what was refused before it was asked, and of what was asked, in its order.
pub fn in_place(refused: Vec<Option<SqsError>>, answers: Vec<Answer>) -> Vec<Answer> {
    let mut answers = answers.into_iter();
    let answer_of = |refused: Option<SqsError>| {
        refused.map_or_else(|| answers.next().unwrap_or_else(|| Err(SqsError::store_is_gone())), Err)
    };
    refused.into_iter().map(answer_of).collect()
}

async fn in_parts(
    store: &Store,
    queue: &Arc<Queue>,
    operation: Operation,
) -> Result<(Operation, Option<u64>), SqsError> {
    match operation {
        Operation::Ask(ask) => {
            let (ask, number) = put(store, queue, ask, PartsCause::Client).await?;
            Ok((Operation::Ask(ask), number))
        }
        Operation::AskBeside(ask) => {
            delays::prepare(store, queue).await?;
            let (ask, number) = put(store, queue, ask, PartsCause::Client).await?;
            Ok((Operation::AskBeside(ask), number))
        }
        other => Ok((other, None)),
    }
}

/// The send with a line in the place of an envelope that is too long, when its parts are there, and their number. Behind
/// the send they are to be settled.
pub async fn put(
    store: &Store,
    queue: &Queue,
    ask: Ask,
    parts_cause: PartsCause,
) -> Result<(Ask, Option<u64>), SqsError> {
    let (group, dedup, whole, cause) = match ask {
        Ask::Send { group, dedup, envelope, cause } if envelope.is_too_long() => {
            (group, dedup, envelope.into_text(), cause)
        }
        other => return Ok((other, None)),
    };
    if parts_cause == PartsCause::Client {
        store.test_room_to_send(whole.len() as u64)?;
    }
    let number = store.next_parts(queue);
    let head = EnvelopeHead::of(&whole).ok_or_else(no_parts)?;
    let envelope = head.in_place(number, whole.len()).map_err(|_| no_parts())?;
    let mut asks = vec![PartsAsk::Create(parts_cause)];
    let part = |(place, text): (usize, &str)| PartsAsk::Add(parts_cause, place, text.into());
    asks.extend(parts_of(&whole).into_iter().enumerate().map(part));
    // It isn't in memory twice meanwhile.
    drop(whole);
    let answers = store.ask_parts(number, asks).await;
    match answers.into_iter().find_map(Result::err) {
        None => Ok((Ask::Send { group, dedup, envelope, cause }, Some(number))),
        Some(error) => {
            settle(store, &[number]);
            Err(error)
        }
    }
}

/// Lets parts go that no message names: their send was refused, or repeated another.
pub fn settle(store: &Store, numbers: &[u64]) {
    numbers.iter().for_each(|number| store.queues().parts().settle(*number));
}

/// The messages with their whole envelopes. Those whose parts are gone are deleted by now.
pub async fn complete(store: &Store, messages: Vec<Handed>) -> Result<Vec<Handed>, SqsError> {
    let begun: Vec<_> = messages.iter().map(|handed| read(store, &handed.envelope)).collect();
    let mut completed = Vec::with_capacity(messages.len());
    for (handed, read) in messages.into_iter().zip(begun) {
        match read.await? {
            Read::Whole => completed.push(handed),
            Read::InParts(whole) => completed.push(Handed { envelope: whole.into(), ..handed }),
            Read::Gone => {}
        }
    }
    Ok(completed)
}

/// What came of looking for the parts of an envelope.
pub enum Read {
    /// It has none.
    Whole,
    InParts(String),
    Gone,
}

/// Reads an envelope that stands in parts. The store is asked when this is called.
pub fn read(store: &Store, envelope: &str) -> impl Future<Output = Result<Read, SqsError>> + Send {
    let head = EnvelopeHead::of_parts(envelope);
    let begun = head.and_then(|head| Some((store.ask_parts(head.parts?, vec![PartsAsk::Read]), head)));
    async {
        let Some((answers, head)) = begun else { return Ok(Read::Whole) };
        match answers.await.pop().unwrap_or_else(|| Err(SqsError::store_is_gone())) {
            // Parts of another message may stand there by now.
            Ok(Outcome::Parts(whole)) if head.bytes.is_some_and(|bytes| bytes != whole.len() as u64) => Ok(Read::Gone),
            Ok(Outcome::Parts(whole)) => Ok(Read::InParts(head.over(&whole).ok_or_else(no_parts)?)),
            Err(SqsError::QueueDoesNotExist) => Ok(Read::Gone),
            Ok(_) => Err(no_parts()),
            Err(error) => Err(error),
        }
    }
}

/// Removes parts that no message names any more, for as long as the gateway serves.
pub async fn keep_removing(store: Store) {
    loop {
        let freed = store.queues().parts().take_freed().await;
        // What took the last message that named them is on disk before they go.
        if !store.wait_until_all_durable().await {
            return;
        }
        let mut is_done = true;
        for some in freed.chunks(REMOVED_AT_ONCE) {
            is_done &= remove(&store, some).await;
        }
        if !is_done {
            tokio::time::sleep(PAUSE).await;
        }
    }
}

/// Removes parts. Those that have to wait count as freed again; false if there are some.
async fn remove(store: &Store, numbers: &[u64]) -> bool {
    let removing: Vec<_> = numbers.iter().map(|number| store.ask_parts(*number, vec![PartsAsk::Remove])).collect();
    let mut is_done = true;
    for (number, answer) in numbers.iter().zip(removing) {
        if !matches!(answer.await.pop(), Some(Ok(_) | Err(SqsError::QueueDoesNotExist))) {
            store.queues().parts().settle(*number);
            is_done = false;
        }
    }
    is_done
}
