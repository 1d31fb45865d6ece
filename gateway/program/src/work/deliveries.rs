//! What a receive hands to its client: messages of the store, less those to which the gateway sees itself.

use std::collections::HashSet;
use std::sync::Arc;

use hobbychair_sqs::errors::SqsError;
use hobbychair_store::jobs::Answer;
use hobbychair_store::store::{spawn_wanted, Store};
use hobbychair_tables::ask::{Ask, Fate, Handed, Outcome, Reach};
use hobbychair_tables::queue::Queue;

use crate::work::delays::bring_up_to_date;
use crate::work::moves::{give_back, move_to_target};

/// The most messages to which the gateway sees itself in one request before it answers.
const MOST_OWN: usize = 100;

/// What a receive came to.
pub struct Delivered {
    pub handed: Vec<Handed>,
    /// What happened to the queue by then that can open a group.
    pub openings: u64,
}

/// What one ask came to.
pub enum Seen {
    /// Messages for the client.
    Handed(Vec<Handed>),
    /// There were none.
    Nothing,
    /// There were some that are gone now: it is worth asking again.
    Gone,
}

fn no_messages() -> SqsError {
    SqsError::InternalFailure("The store handed nothing out.".into())
}

/// Asks for messages until some are for the client, or nothing is there.
pub async fn receive(store: &Store, queue: &Arc<Queue>, ask: Ask) -> Result<Delivered, SqsError> {
    let may_set_aside = {
        let state = queue.state();
        state.has_delay() || state.redrive().is_some() || state.has_old(store.queues().jumps(), store.clock().now())
    };
    let receiving = receive_on(store.clone(), queue.clone(), ask);
    if !may_set_aside {
        return receiving.await;
    }
    // It goes on where its client goes.
    spawn_wanted(receiving).await.unwrap_or_else(|_| Err(SqsError::store_is_gone()))
}

async fn receive_on(store: Store, queue: Arc<Queue>, ask: Ask) -> Result<Delivered, SqsError> {
    let mut own = 0;
    loop {
        let outcome =
            ask_all(&store, &queue, vec![ask.clone()]).await.pop().unwrap_or_else(|| Err(SqsError::store_is_gone()))?;
        let Outcome::Received { handed, set_aside, openings } = outcome else { return Err(no_messages()) };
        own += set_aside.len();
        match see_to(&store, &queue, handed, set_aside).await? {
            Seen::Handed(handed) => return Ok(Delivered { handed, openings }),
            Seen::Gone if own < MOST_OWN => {}
            _ => return Ok(Delivered { handed: Vec::new(), openings }),
        }
    }
}

/// The answers of the store to receives that are tried one after the other.
pub async fn ask_all(store: &Store, queue: &Arc<Queue>, asks: Vec<Ask>) -> Vec<Answer> {
    bring_up_to_date(store, queue).await;
    if has_most_in_flight(store, queue) {
        let openings = queue.state().openings;
        let nothing = || Ok(Outcome::Received { handed: Vec::new(), set_aside: Vec::new(), openings });
        return asks.iter().map(|_| nothing()).collect();
    }
    if !queue.state().has_delay() {
        return store.ask_all(queue, asks).await;
    }
    let count = asks.len();
    let (store, queue) = (store.clone(), queue.clone());
    // Whoever has a queue to itself brings that to its end.
    let asked = spawn_wanted(async move {
        let mut answers = Vec::with_capacity(count);
        for ask in asks {
            answers.push(ask_for_due(&store, &queue, ask).await);
        }
        answers
    });
    asked.await.unwrap_or_else(|_| (0..count).map(|_| Err(SqsError::store_is_gone())).collect())
}

/// Whether a receive can hand nothing out before a message is deleted or its timeout ends.
pub fn has_most_in_flight(store: &Store, queue: &Queue) -> bool {
    queue.state().has_most_in_flight(store.clock().now())
}

/// Asks for messages that are due: as many of the next group as are, and then of the one behind it. Nobody else has the
/// queue meanwhile, since a send or a deletion changes which messages are next.
async fn ask_for_due(store: &Store, queue: &Arc<Queue>, ask: Ask) -> Answer {
    let Ask::Receive { size, visibility, attempt, .. } = ask else { return Err(no_messages()) };
    let wanted = usize::from(size);
    let next_due = |already: usize| {
        let mut state = queue.state();
        if state.removed {
            return Err(SqsError::QueueDoesNotExist);
        }
        Ok((state.next_due(wanted - already, store.clock().now()), state.openings))
    };
    let (mut all_handed, mut all_set_aside) = (Vec::new(), Vec::new());
    let (due, mut seen) = next_due(0)?;
    let held = if due.is_empty() { None } else { Some(store.hold(queue).await?) };
    while let Some(held) = &held {
        let already = all_handed.len() + all_set_aside.len();
        let (due, openings) = next_due(already)?;
        seen = openings;
        if due.is_empty() {
            break;
        }
        let (size, reach) = (due.len() as u8, Reach::Due(due));
        let (handed, set_aside) =
            match held.ask(Ask::Receive { size, visibility, attempt: attempt.clone(), most: None, reach }).await {
                Ok(Outcome::Received { handed, set_aside, openings }) => {
                    seen = openings;
                    (handed, set_aside)
                }
                Ok(_) => break,
                Err(error) if already == 0 => return Err(error),
                Err(_) => break,
            };
        // What isn't hidden would be handed out again, and an attempt is one receive of the store.
        let is_last = handed.is_empty() || visibility == 0 || attempt.is_some();
        all_handed.extend(handed);
        all_set_aside.extend(set_aside);
        if is_last {
            break;
        }
    }
    Ok(Outcome::Received { handed: all_handed, set_aside: all_set_aside, openings: seen })
}

/// Sees to what a receive set aside; what it handed out is the client's after that. Where it fails, all are given back.
/// It goes on where its caller doesn't.
pub async fn see_to(
    store: &Store,
    queue: &Arc<Queue>,
    handed: Vec<Handed>,
    set_aside: Vec<(Handed, Fate)>,
) -> Result<Seen, SqsError> {
    match (handed.is_empty(), set_aside.is_empty()) {
        (true, true) => return Ok(Seen::Nothing),
        (false, true) => return Ok(Seen::Handed(handed)),
        (_, false) => {}
    }
    let (store, queue) = (store.clone(), queue.clone());
    let seen = tokio::spawn(async move {
        match see_to_all(&store, &queue, set_aside).await {
            Ok(staying) => {
                // What is behind a message that stays must not go out before it.
                let is_behind = |handed: &Handed| staying.contains(&handed.group);
                let (behind, handed): (Vec<_>, Vec<_>) = handed.into_iter().partition(is_behind);
                give_back(&store, &queue, &behind).await;
                Ok(if handed.is_empty() { Seen::Gone } else { Seen::Handed(handed) })
            }
            Err(error) => {
                give_back(&store, &queue, &handed).await;
                Err(error)
            }
        }
    });
    seen.await.unwrap_or_else(|_| Err(SqsError::store_is_gone()))
}

/// The groups of what stays are told.
async fn see_to_all(
    store: &Store,
    queue: &Arc<Queue>,
    set_aside: Vec<(Handed, Fate)>,
) -> Result<HashSet<String>, SqsError> {
    let (mut old, mut dead, mut early) = (Vec::new(), Vec::new(), Vec::new());
    for (handed, fate) in set_aside {
        match fate {
            Fate::Old => old.push(Ask::Delete { receipt: handed.receipt, by_client: false }),
            Fate::Dead => dead.push(handed),
            Fate::Early => early.push(handed),
        }
    }
    give_back(store, queue, &early).await;
    let mut staying = if dead.is_empty() { HashSet::new() } else { move_to_target(store, queue, dead).await? };
    staying.extend(early.into_iter().map(|handed| handed.group));
    let deleted = if old.is_empty() { Vec::new() } else { store.ask_all(queue, old).await };
    for answer in deleted {
        answer?;
    }
    Ok(staying)
}
