//! What is known of the tasks that move messages out of a dead-letter queue.

use hobbychair_bytes::moment::Moment;
use serde::{Deserialize, Serialize};
use uuid::Uuid;

use hobbychair_sqs::texts::QueueName;

/// How a task stands (API Reference, ListMessageMoveTasks, `Status`).
#[derive(Clone, Copy, Debug, PartialEq, Eq, Serialize, Deserialize)]
#[serde(rename_all = "UPPERCASE")]
pub enum Status {
    Running,
    Completed,
    Cancelled,
    Failed,
}

impl Status {
    /// The name that clients are told.
    pub fn name(self) -> &'static str {
        match self {
            Status::Running => "RUNNING",
            Status::Completed => "COMPLETED",
            Status::Cancelled => "CANCELLED",
            Status::Failed => "FAILED",
        }
    }
}

/// A task of a queue, as the journal keeps it.
#[derive(Clone, Debug, PartialEq, Eq, Serialize, Deserialize)]
pub struct MoveTask {
    pub id: Uuid,
    /// None where each message goes to the queue from which it came.
    #[serde(default, skip_serializing_if = "Option::is_none")]
    pub destination: Option<QueueName>,
    /// Messages in a second, 1 to 500; as many as can be where it is missing.
    #[serde(default, skip_serializing_if = "Option::is_none")]
    pub rate: Option<u32>,
    /// The last message that was there when it began. Later ones aren't moved.
    pub up_to: u64,
    pub to_move: u64,
    pub moved: u64,
    pub started: Moment,
    pub status: Status,
    #[serde(default, skip_serializing_if = "Option::is_none")]
    pub failure: Option<String>,
    /// The access key that started it, where there are keys.
    #[serde(default, skip_serializing_if = "Option::is_none")]
    pub starter: Option<String>,
}

/// So many tasks of a queue are remembered (API Reference, ListMessageMoveTasks).
const MOST: usize = 10;

/// How a task stands behind this, by what is known of tasks. One that has ended stays so.
pub fn merged(tasks: &[MoveTask], task: &MoveTask) -> MoveTask {
    match tasks.iter().find(|known| known.id == task.id) {
        Some(known) => {
            let stands = if known.status == Status::Running { task } else { known };
            MoveTask { moved: known.moved.max(task.moved), ..stands.clone() }
        }
        None => task.clone(),
    }
}

/// Takes up how a task stands.
pub fn merge(tasks: &mut Vec<MoveTask>, task: &MoveTask) {
    let merged = merged(tasks, task);
    match tasks.iter_mut().find(|known| known.id == task.id) {
        Some(known) => *known = merged,
        None => tasks.push(merged),
    }
    // A book that is begun anew may say them in another order.
    tasks.sort_by_key(|task| task.started);
    let excess = tasks.len().saturating_sub(MOST);
    tasks.drain(..excess);
}

#[cfg(test)]
mod tests {
    use super::*;

    #[test]
    fn a_task_that_has_ended_stays_so_and_ten_are_remembered() {
        let task = |id: u128, moved, status| MoveTask {
            id: Uuid::from_u128(id),
            destination: None,
            rate: None,
            up_to: 9,
            to_move: 9,
            moved,
            started: 0,
            status,
            failure: None,
            starter: None,
        };
        let mut tasks = Vec::new();
        merge(&mut tasks, &task(0, 1, Status::Running));
        merge(&mut tasks, &task(0, 2, Status::Cancelled));
        merge(&mut tasks, &task(0, 3, Status::Running));
        assert_eq!(tasks, [task(0, 3, Status::Cancelled)]);
        (1..12).for_each(|id| merge(&mut tasks, &task(id, 0, Status::Running)));
        assert_eq!((tasks.len(), tasks[0].id, tasks[9].id), (10, Uuid::from_u128(2), Uuid::from_u128(11)));
    }
}
