//! Starting, listing and cancelling tasks that move messages.

use std::sync::Arc;

use hmac::{Hmac, Mac};
use hobbychair_sqs::action::Action;
use hobbychair_sqs::errors::SqsError;
use hobbychair_sqs::redrive::QueueArn;
use hobbychair_sqs::texts::QueueName;
use hobbychair_sqs::wire::requests::{StartMove, TaskHandle};
use hobbychair_sqs::wire::responses::ListedTask;
use hobbychair_sqs::wire::Response;
use hobbychair_tables::ask::TableChange;
use hobbychair_tables::queue::Queue;
use hobbychair_tables::tasks::{MoveTask, Status};
use sha2::Sha256;
use uuid::{Builder, Uuid};

use super::{Actions, Caller, Performed};
use crate::work::move_tasks::run;

/// What tells the digests of ids of tasks from all others by the same secret.
const TASK: &[u8] = b"task";

/// What a task does to the queue out of which it moves messages (Developer Guide, "Amazon SQS API permissions").
const OF_SOURCE: [Action; 3] = [Action::ReceiveMessage, Action::DeleteMessage, Action::GetQueueAttributes];

fn no_resource(parameter: &str) -> SqsError {
    SqsError::ResourceNotFound(format!("The resource that you specified for the {parameter} parameter doesn't exist."))
}

impl Actions {
    fn queue_of_arn(&self, arn: Option<&QueueArn>, parameter: &str) -> Result<Arc<Queue>, SqsError> {
        let own = arn.filter(|arn| arn.account == self.owner.account);
        own.and_then(|arn| self.store.queues().find(&arn.name)).ok_or_else(|| no_resource(parameter))
    }

    /// Starts a task, unless one of the queue runs (API Reference, StartMessageMoveTask). A repeat of the call that started one
    /// of the last tasks is told that one's handle.
    pub(super) async fn start_move(&self, start: StartMove, caller: &Caller) -> Result<Performed, SqsError> {
        let queue = self.queue_of_arn(start.source.as_ref(), "SourceArn")?;
        for action in OF_SOURCE {
            self.test_right(caller, action, &queue.name)?;
        }
        let _locked = self.lock_of(&queue.name).lock().await;
        let id_of_call = self.id_of_call(&queue, caller);
        if let Some(id) = id_of_call.filter(|id| find(&queue, *id).is_some()) {
            let handle = TaskHandle { id, queue: queue.name.clone() };
            return Ok(Response::TaskHandle(handle.outward()).into());
        }
        let names_it =
            |other: &Arc<Queue>| other.state().redrive().is_some_and(|policy| policy.target.name == queue.name);
        let sources: Vec<_> = self.store.queues().all().into_iter().filter(names_it).collect();
        if sources.is_empty() {
            let message = "Source queue must be configured as a Dead Letter Queue.";
            return Err(SqsError::InvalidParameterValue(message.into()));
        }
        let destination = match &start.destination {
            None => {
                self.test_sources(&sources, caller)?;
                None
            }
            Some(arn) => Some(self.destination(arn.as_ref(), &queue.name, caller)?),
        };
        // What an earlier task has begun to move is counted as moved by that one.
        let held = self.store.hold(&queue).await?;
        let task = {
            let state = queue.state();
            let running = state.running_task();
            let is_this = |task: &&MoveTask| {
                let starter = caller.identity.as_ref().map(|identity| identity.name());
                (&task.destination, task.rate, task.starter.as_deref()) == (&destination, start.rate, starter)
            };
            if let Some(task) = running.filter(|task| caller.asked_before && is_this(task)) {
                let handle = TaskHandle { id: task.id, queue: queue.name.clone() };
                return Ok(Response::TaskHandle(handle.outward()).into());
            }
            if running.is_some() {
                let message = "There is already a task running. Only one active task is allowed for a source queue \
                               arn at a given time.";
                return Err(SqsError::InvalidParameterValue(message.into()));
            }
            MoveTask {
                id: id_of_call.unwrap_or_else(|| Builder::from_random_bytes(rand::random()).into_uuid()),
                destination,
                rate: start.rate,
                up_to: state.last_sequence,
                to_move: state.count(),
                moved: 0,
                started: self.store.clock().now(),
                status: Status::Running,
                failure: None,
                starter: caller.identity.as_ref().map(|identity| identity.name().to_string()),
            }
        };
        let id = task.id;
        held.change(TableChange::Task(task)).await?;
        drop(held);
        let handle = TaskHandle { id, queue: queue.name.clone() }.outward();
        tokio::spawn(run(self.store.clone(), self.rights.clone(), queue, id));
        Ok(Response::TaskHandle(handle).into())
    }

    /// The id of the task that a call starts, where its repeats can be told. Where programs keep their entries, every gateway
    /// that has them makes the same one of it.
    fn id_of_call(&self, queue: &Queue, caller: &Caller) -> Option<Uuid> {
        let secret = self.store.secret_of(queue).unwrap_or(self.secret);
        let mut mac = Hmac::<Sha256>::new_from_slice(secret.as_bytes()).ok()?;
        mac.update(TASK);
        mac.update(&caller.call?);
        let digest: [u8; 32] = mac.finalize().into_bytes().into();
        let front = digest[..16].try_into().ok()?;
        Some(Builder::from_random_bytes(front).into_uuid())
    }

    /// Refuses what the caller's key doesn't allow of a queue that it shows.
    fn test_right(&self, caller: &Caller, action: Action, name: &QueueName) -> Result<(), SqsError> {
        match &caller.identity {
            Some(identity) if !identity.may(action, Some(name)) => Err(self.denied(identity, action, Some(name))),
            _ => Ok(()),
        }
    }

    /// Messages go back to where they came from: to none of these, unless the caller's key allows to send to all. The refusal
    /// names no queue that the key doesn't show.
    fn test_sources(&self, sources: &[Arc<Queue>], caller: &Caller) -> Result<(), SqsError> {
        match &caller.identity {
            Some(identity) if !sources.iter().all(|source| identity.sees(&source.name)) => {
                Err(self.denied(identity, Action::StartMessageMoveTask, None))
            }
            _ => sources.iter().try_for_each(|source| self.test_right(caller, Action::SendMessage, &source.name)),
        }
    }

    fn destination(&self, arn: Option<&QueueArn>, source: &QueueName, caller: &Caller) -> Result<QueueName, SqsError> {
        if let (Some(arn), Some(identity)) = (arn, &caller.identity) {
            if !identity.sees(&arn.name) {
                return Err(self.denied(identity, Action::StartMessageMoveTask, Some(&arn.name)));
            }
        }
        let name = self.queue_of_arn(arn, "DestinationArn")?.name.clone();
        self.test_right(caller, Action::SendMessage, &name)?;
        if name == *source {
            let message = "Source queue arn and destination queue arn cannot be the same.";
            return Err(SqsError::InvalidParameterValue(message.into()));
        }
        if name.kind() != source.kind() {
            let message = "Source queue and destination queue must be of the same type.";
            return Err(SqsError::InvalidParameterValue(message.into()));
        }
        Ok(name)
    }

    /// Ends a task that runs, and tells how many messages it has moved.
    pub(super) async fn cancel_move(
        &self,
        handle: Option<&TaskHandle>,
        caller: &Caller,
    ) -> Result<Performed, SqsError> {
        let no_task = || no_resource("TaskHandle");
        let TaskHandle { id, queue: name } = handle.ok_or_else(no_task)?;
        let _locked = self.lock_of(name).lock().await;
        let queue = self.store.queues().find(name).ok_or_else(no_task)?;
        let mut task = find(&queue, *id).ok_or_else(no_task)?;
        if caller.asked_before && task.status == Status::Cancelled {
            return Ok(Response::Moved(task.moved).into());
        }
        if task.status != Status::Running {
            let message = "Only tasks with the status RUNNING can be cancelled.";
            return Err(SqsError::InvalidParameterValue(message.into()));
        }
        task.status = Status::Cancelled;
        self.store.change(&queue, TableChange::Task(task)).await?;
        let moved = queue.state().moved_by(*id);
        Ok(Response::Moved(moved).into())
    }

    /// The last tasks of a queue, the newest first. Queues that the caller's key doesn't show aren't named.
    pub(super) fn list_moves(
        &self,
        source: Option<&QueueArn>,
        most: u32,
        caller: &Caller,
    ) -> Result<Performed, SqsError> {
        let queue = self.queue_of_arn(source, "SourceArn")?;
        let state = queue.state();
        let newest = state.tasks().iter().rev().take(most as usize);
        let listed = newest.map(|task| self.listed(&queue.name, task, caller)).collect();
        Ok(Performed::of_tables(Response::MoveTasks(listed)))
    }

    fn listed(&self, queue: &QueueName, task: &MoveTask, caller: &Caller) -> ListedTask {
        let is_running = task.status == Status::Running;
        let is_shown = |name: &&QueueName| caller.identity.as_ref().map_or(true, |identity| identity.sees(name));
        ListedTask {
            task_handle: is_running.then(|| TaskHandle { id: task.id, queue: queue.clone() }.outward()),
            status: task.status.name(),
            source_arn: self.owner.arn(queue.as_str()),
            destination_arn: task.destination.as_ref().filter(is_shown).map(|name| self.owner.arn(name.as_str())),
            rate: task.rate,
            moved: task.moved,
            to_move: task.to_move,
            failure_reason: task.failure.clone(),
            started: task.started,
        }
    }
}

fn find(queue: &Queue, id: Uuid) -> Option<MoveTask> {
    queue.state().tasks().iter().find(|task| task.id == id).cloned()
}
