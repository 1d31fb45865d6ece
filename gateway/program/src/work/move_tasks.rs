//! Tasks that move the messages of a dead-letter queue back, or to another queue. They go on after a restart.

use std::collections::BTreeMap;
use std::sync::Arc;
use std::time::Duration;

use hobbychair_sqs::access::Keys;
use hobbychair_sqs::action::Action;
use hobbychair_sqs::errors::SqsError;
use hobbychair_sqs::texts::QueueName;
use hobbychair_store::store::Store;
use hobbychair_tables::ask::{Handed, TableChange};
use hobbychair_tables::queue::Queue;
use hobbychair_tables::tasks::{MoveTask, Status};
use uuid::Uuid;

use crate::work::moves::move_each;

/// The keys that say where a task may move messages to; none where everybody may do everything.
pub type Rights = Option<Arc<Keys>>;

/// So many messages are moved at once.
const AT_ONCE: u32 = 10;

/// A task that could not go on for now tries again after this.
const PAUSE: Duration = Duration::from_secs(1);

/// Why a message can't be moved.
enum Failure {
    /// The task ends with this reason.
    Ends(&'static str),
    ForNow(SqsError),
}

/// Goes on with all tasks that were running when the gateway ended.
pub fn resume(store: &Store, rights: &Rights) {
    for queue in store.queues().all() {
        let running = queue.state().running_task().map(|task| task.id);
        if let Some(id) = running {
            tokio::spawn(run(store.clone(), rights.clone(), queue, id));
        }
    }
}

/// Moves messages until there are none left that were there at its start and that nobody has.
pub async fn run(store: Store, rights: Rights, queue: Arc<Queue>, id: Uuid) {
    loop {
        let task = queue.state().running_task().filter(|task| task.id == id).cloned();
        let Some(mut task) = task else { return };
        let size = task.rate.unwrap_or(AT_ONCE).min(AT_ONCE);
        let moved = match move_some(&store, &rights, &queue, &task, size as usize).await {
            Ok(Some(moved)) => moved,
            Ok(None) => {
                task.status = Status::Completed;
                Round::default()
            }
            Err(Failure::Ends(reason)) => {
                (task.status, task.failure) = (Status::Failed, Some(reason.into()));
                Round::default()
            }
            Err(Failure::ForNow(SqsError::QueueDoesNotExist)) => return,
            Err(Failure::ForNow(error)) => {
                tracing::warn!("the task that moves messages of {} waits: {error}", queue.name);
                tokio::time::sleep(PAUSE).await;
                continue;
            }
        };
        // The tables count the others by their copies.
        task.moved = queue.state().moved_by(id) + moved.elsewhere;
        while let Err(error) = store.change(&queue, TableChange::Task(task.clone())).await {
            if error == SqsError::QueueDoesNotExist {
                return;
            }
            tokio::time::sleep(PAUSE).await;
        }
        if let Some(rate) = task.rate {
            tokio::time::sleep(Duration::from_millis(1000 * moved.all / u64::from(rate))).await;
        }
    }
}

/// How many messages a task has moved at once, and how many of them to queues that other programs have.
#[derive(Clone, Copy, Default)]
struct Round {
    all: u64,
    elsewhere: u64,
}

/// Moves some of the messages that are next, and tells how many; none where there are none. The task is handed those alone
/// that it moves, and hides none: nobody else has the queue meanwhile.
async fn move_some(
    store: &Store,
    rights: &Rights,
    queue: &Arc<Queue>,
    task: &MoveTask,
    size: usize,
) -> Result<Option<Round>, Failure> {
    let held = store.hold_for_move(queue).await.map_err(Failure::ForNow)?;
    let next = queue.state().next_up_to(task.up_to, size, store.clock().now());
    let targets = targets_of(store, rights, task, queue, &next)?;
    if targets.is_empty() {
        return Ok(None);
    }
    let named = next.iter().copied().take(targets.len()).collect();
    let handed = held.take(named).await.map_err(Failure::ForNow)?;
    let place = store.place_of(&queue.name);
    let mut round = Round { all: handed.len() as u64, elsewhere: 0 };
    let mut by_target: BTreeMap<QueueName, (Arc<Queue>, Vec<Handed>)> = BTreeMap::new();
    for handed in handed {
        let found = next.iter().position(|sequence| *sequence == handed.receipt.sequence);
        if let Some(target) = found.and_then(|found| targets.get(found)) {
            round.elsewhere += u64::from(store.place_of(&target.name) != place);
            by_target.entry(target.name.clone()).or_insert_with(|| (target.clone(), Vec::new())).1.push(handed);
        }
    }
    let moved = move_each(store, queue, held, by_target.into_values().collect()).await;
    moved.map(|()| Some(round)).map_err(Failure::ForNow)
}

/// The queues to which messages go, up to the first that goes nowhere. With that one the task ends.
fn targets_of(
    store: &Store,
    rights: &Rights,
    task: &MoveTask,
    queue: &Queue,
    messages: &[u64],
) -> Result<Vec<Arc<Queue>>, Failure> {
    let mut targets = Vec::new();
    for sequence in messages {
        match target_of(store, rights, task, queue, *sequence) {
            Ok(target) => targets.push(target),
            Err(failure) if targets.is_empty() => return Err(failure),
            Err(_) => break,
        }
    }
    Ok(targets)
}

fn target_of(
    store: &Store,
    rights: &Rights,
    task: &MoveTask,
    queue: &Queue,
    sequence: u64,
) -> Result<Arc<Queue>, Failure> {
    let source = || queue.state().source_of(sequence).map(|source| QueueName::clone(&source));
    let target = task.destination.clone().or_else(source);
    let target = target.ok_or(Failure::Ends("CouldNotDetermineMessageSource"))?;
    if !may_move(rights, task, &queue.name, &target) {
        return Err(Failure::Ends("AccessDenied"));
    }
    store.queues().find(&target).ok_or(Failure::Ends("AWS.SimpleQueueService.NonExistentQueue"))
}

/// Whether the key that started a task allows to move out of the one queue to the other, as its file says now.
fn may_move(rights: &Rights, task: &MoveTask, source: &QueueName, target: &QueueName) -> bool {
    let (Some(keys), Some(starter)) = (rights, &task.starter) else { return true };
    let of_source = [Action::StartMessageMoveTask, Action::ReceiveMessage, Action::DeleteMessage];
    of_source.into_iter().all(|action| keys.allow(starter, action, source))
        && keys.allow(starter, Action::SendMessage, target)
}
