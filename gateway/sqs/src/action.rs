//! The actions of the service, by their names.

use std::str::FromStr;

use crate::errors::SqsError;

/// The actions that are done (API Reference, "Actions").
#[derive(Clone, Copy, Debug, PartialEq, Eq, Hash)]
pub enum Action {
    AddPermission,
    CancelMessageMoveTask,
    ChangeMessageVisibility,
    ChangeMessageVisibilityBatch,
    CreateQueue,
    DeleteMessage,
    DeleteMessageBatch,
    DeleteQueue,
    /// Of the Security Token Service.
    GetCallerIdentity,
    GetQueueAttributes,
    GetQueueUrl,
    ListDeadLetterSourceQueues,
    ListMessageMoveTasks,
    ListQueueTags,
    ListQueues,
    PurgeQueue,
    ReceiveMessage,
    RemovePermission,
    SendMessage,
    SendMessageBatch,
    SetQueueAttributes,
    StartMessageMoveTask,
    TagQueue,
    UntagQueue,
}

impl Action {
    /// All of them, in the order of their names.
    pub const ALL: [Action; 24] = [
        Action::AddPermission,
        Action::CancelMessageMoveTask,
        Action::ChangeMessageVisibility,
        Action::ChangeMessageVisibilityBatch,
        Action::CreateQueue,
        Action::DeleteMessage,
        Action::DeleteMessageBatch,
        Action::DeleteQueue,
        Action::GetCallerIdentity,
        Action::GetQueueAttributes,
        Action::GetQueueUrl,
        Action::ListDeadLetterSourceQueues,
        Action::ListMessageMoveTasks,
        Action::ListQueueTags,
        Action::ListQueues,
        Action::PurgeQueue,
        Action::ReceiveMessage,
        Action::RemovePermission,
        Action::SendMessage,
        Action::SendMessageBatch,
        Action::SetQueueAttributes,
        Action::StartMessageMoveTask,
        Action::TagQueue,
        Action::UntagQueue,
    ];

    /// Those of SQS itself.
    pub fn of_sqs() -> impl Iterator<Item = Action> {
        Action::ALL.into_iter().filter(|action| *action != Action::GetCallerIdentity)
    }

    /// The name that the service gives it.
    pub fn name(self) -> &'static str {
        match self {
            Action::AddPermission => "AddPermission",
            Action::CancelMessageMoveTask => "CancelMessageMoveTask",
            Action::ChangeMessageVisibility => "ChangeMessageVisibility",
            Action::ChangeMessageVisibilityBatch => "ChangeMessageVisibilityBatch",
            Action::CreateQueue => "CreateQueue",
            Action::DeleteMessage => "DeleteMessage",
            Action::DeleteMessageBatch => "DeleteMessageBatch",
            Action::DeleteQueue => "DeleteQueue",
            Action::GetCallerIdentity => "GetCallerIdentity",
            Action::GetQueueAttributes => "GetQueueAttributes",
            Action::GetQueueUrl => "GetQueueUrl",
            Action::ListDeadLetterSourceQueues => "ListDeadLetterSourceQueues",
            Action::ListMessageMoveTasks => "ListMessageMoveTasks",
            Action::ListQueueTags => "ListQueueTags",
            Action::ListQueues => "ListQueues",
            Action::PurgeQueue => "PurgeQueue",
            Action::ReceiveMessage => "ReceiveMessage",
            Action::RemovePermission => "RemovePermission",
            Action::SendMessage => "SendMessage",
            Action::SendMessageBatch => "SendMessageBatch",
            Action::SetQueueAttributes => "SetQueueAttributes",
            Action::StartMessageMoveTask => "StartMessageMoveTask",
            Action::TagQueue => "TagQueue",
            Action::UntagQueue => "UntagQueue",
        }
    }

    /// Whether it only tells what is there: it changes nothing, and hands nothing out.
    pub fn only_reads(self) -> bool {
        matches!(
            self,
            Action::GetCallerIdentity
                | Action::GetQueueAttributes
                | Action::GetQueueUrl
                | Action::ListDeadLetterSourceQueues
                | Action::ListMessageMoveTasks
                | Action::ListQueueTags
                | Action::ListQueues
        )
    }

    /// Whether its answers have URLs of queues.
    pub fn returns_urls(self) -> bool {
        matches!(
            self,
            Action::CreateQueue | Action::GetQueueUrl | Action::ListDeadLetterSourceQueues | Action::ListQueues
        )
    }

    /// Whether a good answer has a result, which the query form shows as an element of its own.
    pub fn has_result(self) -> bool {
        !matches!(
            self,
            Action::AddPermission
                | Action::ChangeMessageVisibility
                | Action::DeleteMessage
                | Action::DeleteQueue
                | Action::PurgeQueue
                | Action::RemovePermission
                | Action::SetQueueAttributes
                | Action::TagQueue
                | Action::UntagQueue
        )
    }

    /// Whether it writes several times, or does something after it has written, so that it is brought to its end also
    /// where its client goes.
    pub fn outlives_its_client(self) -> bool {
        matches!(
            self,
            Action::AddPermission
                | Action::CancelMessageMoveTask
                | Action::CreateQueue
                | Action::DeleteQueue
                | Action::PurgeQueue
                | Action::RemovePermission
                | Action::SetQueueAttributes
                | Action::StartMessageMoveTask
                | Action::TagQueue
        )
    }
}

/// The action of SQS itself that has this name; `UnknownOperation` where none has it.
impl FromStr for Action {
    type Err = SqsError;

    fn from_str(name: &str) -> Result<Action, SqsError> {
        if let Some(action) = Action::of_sqs().find(|action| action.name() == name) {
            return Ok(action);
        }
        Err(SqsError::UnknownOperation(name.into()))
    }
}
