//! What clients are answered: one type for the results of all actions.

use serde::ser::{SerializeMap, Serializer};
use serde::Serialize;

use crate::envelope::{EnvelopeBody, MessageAttributes};
use crate::errors::SqsError;

/// The result of an action that was done.
#[derive(Clone, Debug, PartialEq)]
pub enum Response {
    Nothing,
    QueueUrl(String),
    Queues {
        urls: Vec<String>,
        next: Option<String>,
    },
    SourceQueues {
        urls: Vec<String>,
        next: Option<String>,
    },
    Attributes(Pairs),
    Tags(Pairs),
    /// Who asks, by the number of the account, an ARN and an id.
    Caller {
        account: String,
        arn: String,
        user: String,
    },
    Sent(Sent),
    Messages(Vec<ReceivedMessage>),
    Batch {
        successful: Vec<Succeeded>,
        failed: Vec<Failed>,
    },
    TaskHandle(String),
    /// How many messages a task has moved that was cancelled.
    Moved(u64),
    MoveTasks(Vec<ListedTask>),
}

/// Names and values in order.
pub type Pairs = Vec<(String, String)>;

/// The result of a send.
#[derive(Clone, Debug, PartialEq, Eq, Serialize)]
#[serde(rename_all = "PascalCase")]
pub struct Sent {
    pub message_id: String,
    #[serde(rename = "MD5OfMessageBody")]
    pub md5_of_body: String,
    #[serde(rename = "MD5OfMessageAttributes", skip_serializing_if = "Option::is_none")]
    pub md5_of_attributes: Option<String>,
    #[serde(rename = "MD5OfMessageSystemAttributes", skip_serializing_if = "Option::is_none")]
    pub md5_of_system_attributes: Option<String>,
    /// In a FIFO queue.
    #[serde(skip_serializing_if = "Option::is_none")]
    pub sequence_number: Option<String>,
}

/// A message as a receive shows it.
#[derive(Clone, Debug, PartialEq, Eq, Serialize)]
#[serde(rename_all = "PascalCase")]
pub struct ReceivedMessage {
    pub message_id: String,
    pub receipt_handle: String,
    #[serde(rename = "MD5OfBody")]
    pub md5_of_body: String,
    pub body: EnvelopeBody,
    #[serde(skip_serializing_if = "Vec::is_empty", serialize_with = "as_map")]
    pub attributes: Vec<(&'static str, String)>,
    #[serde(rename = "MD5OfMessageAttributes", skip_serializing_if = "Option::is_none")]
    pub md5_of_attributes: Option<String>,
    #[serde(skip_serializing_if = "MessageAttributes::is_empty")]
    pub message_attributes: MessageAttributes,
}

/// A task as it is listed (API Reference, `ListMessageMoveTasksResultEntry`).
#[derive(Clone, Debug, PartialEq, Eq, Serialize)]
#[serde(rename_all = "PascalCase")]
pub struct ListedTask {
    /// Of one that runs.
    #[serde(skip_serializing_if = "Option::is_none")]
    pub task_handle: Option<String>,
    pub status: &'static str,
    pub source_arn: String,
    #[serde(skip_serializing_if = "Option::is_none")]
    pub destination_arn: Option<String>,
    #[serde(rename = "MaxNumberOfMessagesPerSecond", skip_serializing_if = "Option::is_none")]
    pub rate: Option<u32>,
    #[serde(rename = "ApproximateNumberOfMessagesMoved")]
    pub moved: u64,
    #[serde(rename = "ApproximateNumberOfMessagesToMove")]
    pub to_move: u64,
    #[serde(skip_serializing_if = "Option::is_none")]
    pub failure_reason: Option<String>,
    /// Milliseconds since 1970.
    #[serde(rename = "StartedTimestamp")]
    pub started: u64,
}

/// An entry of a batch that succeeded. What its action tells of it stands beside its id.
#[derive(Clone, Debug, PartialEq, Eq, Serialize)]
#[serde(rename_all = "PascalCase")]
pub struct Succeeded {
    pub id: String,
    #[serde(flatten)]
    pub sent: Option<Sent>,
}

/// An entry of a batch that was refused.
#[derive(Clone, Debug, PartialEq, Eq, Serialize)]
#[serde(rename_all = "PascalCase")]
pub struct Failed {
    pub id: String,
    pub sender_fault: bool,
    pub code: &'static str,
    pub message: String,
}

impl Failed {
    /// The entry of this id, and why it failed.
    pub fn new(id: String, error: &SqsError) -> Failed {
        let (code, message) = (error.coded().code, error.client_message());
        Failed { id, sender_fault: error.is_sender_fault(), code, message }
    }
}

impl Response {
    /// Whether a receive handed out nothing.
    pub fn is_empty_receive(&self) -> bool {
        matches!(self, Response::Messages(messages) if messages.is_empty())
    }
}

/// Pairs as a JSON object.
pub fn as_map<K, V, S>(pairs: &[(K, V)], serializer: S) -> Result<S::Ok, S::Error>
where
    K: Serialize,
    V: Serialize,
    S: Serializer,
{
    let mut map = serializer.serialize_map(Some(pairs.len()))?;
    for (name, value) in pairs {
        map.serialize_entry(name, value)?;
    }
    map.end()
}
