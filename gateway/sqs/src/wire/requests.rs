//! What clients ask for: one type for each action, its members tested.

use uuid::Uuid;

use super::members::Members;
use super::tokens::name_before;
use super::value::Map;
use crate::action::Action;
use crate::attributes::{GivenAttributes, WantedAttributes};
use crate::envelope::{AttributeValue, MessageAttributes};
use crate::errors::SqsError;
use crate::policy::{read_label, Permission};
use crate::redrive::QueueArn;
use crate::texts::{AttemptId, Body, DedupId, GroupId, QueueKind, QueueName};

/// A request whose members are good by themselves.
#[derive(Clone, Debug, PartialEq)]
pub enum Request {
    AddPermission { queue: QueueName, permission: Permission },
    CancelMessageMoveTask { handle: Option<TaskHandle> },
    ChangeMessageVisibility { queue: QueueName, change: VisibilityChange },
    ChangeMessageVisibilityBatch { queue: QueueName, batch: Batch<VisibilityChange> },
    CreateQueue { queue: QueueName, attributes: GivenAttributes, tags: Tags },
    DeleteMessage { queue: QueueName, handle: String },
    DeleteMessageBatch { queue: QueueName, batch: Batch<String> },
    DeleteQueue { queue: QueueName },
    GetCallerIdentity,
    GetQueueAttributes { queue: QueueName, wanted: WantedAttributes },
    GetQueueUrl { queue: Option<QueueName> },
    ListDeadLetterSourceQueues { queue: QueueName, most: Option<u32>, after: String },
    ListMessageMoveTasks { source: Option<QueueArn>, most: u32 },
    ListQueueTags { queue: QueueName },
    ListQueues { prefix: String, most: Option<u32>, after: String },
    PurgeQueue { queue: QueueName },
    ReceiveMessage { queue: QueueName, receive: Receive },
    RemovePermission { queue: QueueName, label: String },
    SendMessage { queue: QueueName, message: NewMessage },
    SendMessageBatch { queue: QueueName, batch: Batch<NewMessage> },
    SetQueueAttributes { queue: QueueName, attributes: GivenAttributes },
    StartMessageMoveTask { start: StartMove },
    TagQueue { queue: QueueName, tags: Tags },
    UntagQueue { queue: QueueName, keys: Vec<String> },
}

impl Request {
    /// The queue that it is about, where it names one.
    pub fn queue(&self) -> Option<&QueueName> {
        match self {
            Request::GetQueueUrl { queue } => queue.as_ref(),
            Request::GetCallerIdentity | Request::ListQueues { .. } => None,
            Request::CancelMessageMoveTask { handle } => handle.as_ref().map(|handle| &handle.queue),
            Request::ListMessageMoveTasks { source, .. } => source.as_ref().map(|arn| &arn.name),
            Request::StartMessageMoveTask { start } => start.source.as_ref().map(|arn| &arn.name),
            Request::AddPermission { queue, .. }
            | Request::ChangeMessageVisibility { queue, .. }
            | Request::ChangeMessageVisibilityBatch { queue, .. }
            | Request::CreateQueue { queue, .. }
            | Request::DeleteMessage { queue, .. }
            | Request::DeleteMessageBatch { queue, .. }
            | Request::DeleteQueue { queue }
            | Request::GetQueueAttributes { queue, .. }
            | Request::ListDeadLetterSourceQueues { queue, .. }
            | Request::ListQueueTags { queue }
            | Request::PurgeQueue { queue }
            | Request::ReceiveMessage { queue, .. }
            | Request::RemovePermission { queue, .. }
            | Request::SendMessage { queue, .. }
            | Request::SendMessageBatch { queue, .. }
            | Request::SetQueueAttributes { queue, .. }
            | Request::TagQueue { queue, .. }
            | Request::UntagQueue { queue, .. } => Some(queue),
        }
    }

    /// About how many bytes it keeps in memory until it is answered, if it came as so many. A message is kept as it came
    /// and as it is stored.
    pub fn bytes_kept(&self, came: usize) -> usize {
        let of_message = |message: &NewMessage| 2 * message.size();
        match self {
            Request::SendMessage { message, .. } => of_message(message),
            Request::SendMessageBatch { batch, .. } => {
                batch.iter().filter_map(|(_, entry)| entry.as_ref().ok()).map(of_message).sum()
            }
            Request::ReceiveMessage { receive, .. } => receive.shown.bytes_kept(),
            _ => came,
        }
    }

    /// Whether nothing but the call itself tells its repeats: it sends to a standard queue, or starts a task.
    pub fn is_deduplicated_by_call(&self) -> bool {
        match self {
            Request::SendMessage { queue, .. } | Request::SendMessageBatch { queue, .. } => {
                queue.kind() == QueueKind::Standard
            }
            Request::StartMessageMoveTask { .. } => true,
            _ => false,
        }
    }

    /// The action that it asks for.
    pub fn action(&self) -> Action {
        match self {
            Request::AddPermission { .. } => Action::AddPermission,
            Request::CancelMessageMoveTask { .. } => Action::CancelMessageMoveTask,
            Request::ChangeMessageVisibility { .. } => Action::ChangeMessageVisibility,
            Request::ChangeMessageVisibilityBatch { .. } => Action::ChangeMessageVisibilityBatch,
            Request::CreateQueue { .. } => Action::CreateQueue,
            Request::DeleteMessage { .. } => Action::DeleteMessage,
            Request::DeleteMessageBatch { .. } => Action::DeleteMessageBatch,
            Request::DeleteQueue { .. } => Action::DeleteQueue,
            Request::GetCallerIdentity => Action::GetCallerIdentity,
            Request::GetQueueAttributes { .. } => Action::GetQueueAttributes,
            Request::GetQueueUrl { .. } => Action::GetQueueUrl,
            Request::ListDeadLetterSourceQueues { .. } => Action::ListDeadLetterSourceQueues,
            Request::ListMessageMoveTasks { .. } => Action::ListMessageMoveTasks,
            Request::ListQueueTags { .. } => Action::ListQueueTags,
            Request::ListQueues { .. } => Action::ListQueues,
            Request::PurgeQueue { .. } => Action::PurgeQueue,
            Request::ReceiveMessage { .. } => Action::ReceiveMessage,
            Request::RemovePermission { .. } => Action::RemovePermission,
            Request::SendMessage { .. } => Action::SendMessage,
            Request::SendMessageBatch { .. } => Action::SendMessageBatch,
            Request::SetQueueAttributes { .. } => Action::SetQueueAttributes,
            Request::StartMessageMoveTask { .. } => Action::StartMessageMoveTask,
            Request::TagQueue { .. } => Action::TagQueue,
            Request::UntagQueue { .. } => Action::UntagQueue,
        }
    }
}

/// The entries of a batch by their ids, 1 to 10 of them; one that isn't good by itself has its refusal.
pub type Batch<T> = Vec<(String, Result<T, SqsError>)>;

/// A handle and a new timeout in seconds. An entry of a batch may leave it out, and means the queue's (API Reference,
/// ChangeMessageVisibilityBatchRequestEntry).
#[derive(Clone, Debug, PartialEq, Eq)]
pub struct VisibilityChange {
    pub handle: String,
    pub visibility: Option<u32>,
}

/// A message to send. Its size isn't tested yet, since the limit is its queue's.
#[derive(Clone, Debug, PartialEq, Eq)]
pub struct NewMessage {
    pub body: Body,
    pub sending: Sending,
    pub attributes: MessageAttributes,
    pub trace: Option<AttributeValue>,
}

/// How a message is sent, by the kind of its queue (API Reference, SendMessage).
#[derive(Clone, Debug, PartialEq, Eq)]
pub enum Sending {
    Fifo {
        group: GroupId,
        dedup: Option<DedupId>,
    },
    /// `delay` is in seconds, from 0 to 900; the queue's if it is missing.
    Standard {
        group: Option<GroupId>,
        delay: Option<u32>,
    },
}

impl NewMessage {
    /// What it counts against `MaximumMessageSize`, in bytes.
    pub fn size(&self) -> usize {
        let of_trace = self.trace.as_ref().map_or(0, AttributeValue::size);
        self.body.as_str().len() + crate::envelope::size_of_attributes(&self.attributes) + of_trace
    }
}

/// What ReceiveMessage asks for.
#[derive(Clone, Debug, PartialEq, Eq)]
pub struct Receive {
    /// 1 to 10.
    pub size: u8,
    /// Seconds; the queue's if it is missing.
    pub visibility: Option<u32>,
    /// Seconds; the queue's if it is missing.
    pub wait: Option<u32>,
    pub attempt: Option<AttemptId>,
    pub shown: Shown,
}

/// A task to start. An ARN that is none of a queue is kept as none.
#[derive(Clone, Debug, PartialEq, Eq)]
pub struct StartMove {
    pub source: Option<QueueArn>,
    /// None where each message goes to the queue from which it came.
    pub destination: Option<Option<QueueArn>>,
    /// Messages in a second, 1 to 500.
    pub rate: Option<u32>,
}

/// What a client is given of a task that moves messages.
#[derive(Clone, Debug, PartialEq, Eq)]
pub struct TaskHandle {
    pub id: Uuid,
    /// The queue out of which it moves them.
    pub queue: QueueName,
}

impl TaskHandle {
    /// The handle as clients see it: id and queue in URL-safe base64.
    pub fn outward(&self) -> String {
        base64::encode_config(format!("{}/{}", self.id, self.queue), base64::URL_SAFE_NO_PAD)
    }

    /// None if the text is no handle.
    fn parse(text: &str) -> Option<TaskHandle> {
        let bytes = base64::decode_config(text, base64::URL_SAFE_NO_PAD).ok()?;
        let text = String::from_utf8(bytes).ok()?;
        let (id, queue) = text.split_once('/')?;
        Some(TaskHandle { id: id.parse().ok()?, queue: QueueName::parse(queue)? })
    }
}

/// Which system attributes of messages there are (API Reference, ReceiveMessage, `MessageSystemAttributeNames`).
#[derive(Clone, Copy, Debug, PartialEq, Eq)]
pub enum SystemAttribute {
    ApproximateFirstReceiveTimestamp,
    ApproximateReceiveCount,
    DeadLetterQueueSourceArn,
    TraceHeader,
    MessageDeduplicationId,
    MessageGroupId,
    SenderId,
    SentTimestamp,
    SequenceNumber,
}

impl SystemAttribute {
    /// All of them.
    pub const ALL: [SystemAttribute; 9] = [
        SystemAttribute::TraceHeader,
        SystemAttribute::ApproximateFirstReceiveTimestamp,
        SystemAttribute::ApproximateReceiveCount,
        SystemAttribute::DeadLetterQueueSourceArn,
        SystemAttribute::MessageDeduplicationId,
        SystemAttribute::MessageGroupId,
        SystemAttribute::SenderId,
        SystemAttribute::SentTimestamp,
        SystemAttribute::SequenceNumber,
    ];

    /// The name that clients give and are told.
    pub fn name(self) -> &'static str {
        match self {
            SystemAttribute::ApproximateFirstReceiveTimestamp => "ApproximateFirstReceiveTimestamp",
            SystemAttribute::ApproximateReceiveCount => "ApproximateReceiveCount",
            SystemAttribute::DeadLetterQueueSourceArn => "DeadLetterQueueSourceArn",
            SystemAttribute::TraceHeader => crate::envelope::TRACE_HEADER,
            SystemAttribute::MessageDeduplicationId => "MessageDeduplicationId",
            SystemAttribute::MessageGroupId => "MessageGroupId",
            SystemAttribute::SenderId => "SenderId",
            SystemAttribute::SentTimestamp => "SentTimestamp",
            SystemAttribute::SequenceNumber => "SequenceNumber",
        }
    }
}

/// The most names that a client can ask for: ten messages with ten attributes each have no more.
const MOST_NAMES: usize = 100;

/// Which attributes of messages a client wants to see.
#[derive(Clone, Debug, Default, PartialEq, Eq)]
pub struct Shown {
    system: Vec<SystemAttribute>,
    names: Vec<String>,
}

impl Shown {
    /// All of them.
    pub fn all() -> Shown {
        Shown { system: SystemAttribute::ALL.to_vec(), names: vec!["All".into()] }
    }

    fn read(members: Members<'_, '_>) -> Result<Shown, SqsError> {
        let mut asked = members.texts("AttributeNames", MOST_NAMES)?;
        asked.extend(members.texts("MessageSystemAttributeNames", MOST_NAMES)?);
        let mut system = Vec::new();
        for name in &asked {
            let found = SystemAttribute::ALL.into_iter().find(|known| known.name() == name);
            // Clients of old also ask for attributes of the queue here; SQS gives none and complains of none.
            let is_passed_over = name == "All" || crate::attributes::is_known(name);
            match found {
                Some(known) if !system.contains(&known) => system.push(known),
                None if !is_passed_over => return Err(SqsError::InvalidAttributeName(name.clone())),
                _ => {}
            }
        }
        if asked.iter().any(|name| name == "All") {
            system = SystemAttribute::ALL.to_vec();
        }
        Ok(Shown { system, names: members.texts("MessageAttributeNames", MOST_NAMES)? })
    }

    /// How many bytes the names take of memory.
    pub fn bytes_kept(&self) -> usize {
        self.names.iter().map(|name| std::mem::size_of::<String>() + name.len()).sum()
    }

    /// The system attributes that were asked for.
    pub fn system(&self) -> &[SystemAttribute] {
        &self.system
    }

    /// Whether a message attribute was asked for: by its name, by a prefix as `a.*`, or by `All` or `.*`.
    pub fn has(&self, name: &str) -> bool {
        self.names.iter().any(|wanted| {
            let prefix = wanted.strip_suffix(".*");
            wanted == "All"
                || wanted == name
                || prefix.is_some_and(|prefix| prefix.is_empty() || name.starts_with(&wanted[..=prefix.len()]))
        })
    }
}

/// Tags in order of their keys.
pub type Tags = std::collections::BTreeMap<String, String>;

/// The most tags that a queue can have.
pub const MOST_TAGS: usize = 50;

/// Refuses more tags than a queue can have (Developer Guide, "Amazon SQS cost allocation tags").
pub fn test_count_of_tags(tags: &Tags) -> Result<(), SqsError> {
    if tags.len() > MOST_TAGS {
        let message = format!("A queue can have {MOST_TAGS} tags at most.");
        return Err(SqsError::InvalidParameterValue(message));
    }
    Ok(())
}

fn tags(members: Members<'_, '_>, name: &str) -> Result<Tags, SqsError> {
    let tags: Tags = members.texts_by_name(name)?.into_iter().collect();
    test_count_of_tags(&tags)?;
    for (key, value) in &tags {
        test_tag(key, value)?;
    }
    Ok(tags)
}

/// Lengths and characters of a tag (AWS General Reference, "Tag naming limits and requirements").
fn test_tag(key: &str, value: &str) -> Result<(), SqsError> {
    let wrong = |message: &str| Err(SqsError::InvalidParameterValue(message.into()));
    if !(1..=128).contains(&key.chars().count()) || value.chars().count() > 256 {
        return wrong("The key of a tag has 1 to 128 characters, and its value at most 256.");
    }
    if key.get(..4).is_some_and(|prefix| prefix.eq_ignore_ascii_case("aws:")) {
        return wrong("The key of a tag can't begin with aws:.");
    }
    // Of the white space in Unicode all but the control characters are separators.
    let is_separator = |character: char| character.is_whitespace() && !character.is_control();
    let is_good =
        |character: char| character.is_alphanumeric() || is_separator(character) || "_.:/=+-@".contains(character);
    if !key.chars().chain(value.chars()).all(is_good) {
        return wrong("A tag can only have letters, numbers, spaces and _ . : / = + - @");
    }
    Ok(())
}

/// The longest visibility timeout, in seconds.
const LONGEST_TIMEOUT_SECONDS: i64 = 43_200;

/// Tests the members of a request.
pub fn read(action: Action, members: &Map<'_>) -> Result<Request, SqsError> {
    let members = Members(members);
    let queue = || QueueName::of_url(members.required_text("QueueUrl")?);
    Ok(match action {
        Action::AddPermission => Request::AddPermission { queue: queue()?, permission: permission(members)? },
        Action::CancelMessageMoveTask => {
            Request::CancelMessageMoveTask { handle: TaskHandle::parse(members.required_text("TaskHandle")?) }
        }
        Action::ChangeMessageVisibility => {
            Request::ChangeMessageVisibility { queue: queue()?, change: change(members)? }
        }
        Action::ChangeMessageVisibilityBatch => {
            Request::ChangeMessageVisibilityBatch { queue: queue()?, batch: batch(members, change_entry)? }
        }
        Action::CreateQueue => create(members)?,
        Action::DeleteMessage => Request::DeleteMessage { queue: queue()?, handle: handle(members)? },
        Action::DeleteMessageBatch => Request::DeleteMessageBatch { queue: queue()?, batch: batch(members, handle)? },
        Action::DeleteQueue => Request::DeleteQueue { queue: queue()? },
        Action::GetCallerIdentity => Request::GetCallerIdentity,
        Action::GetQueueAttributes => {
            let queue = queue()?;
            let wanted = WantedAttributes::read(queue.kind(), &members.texts("AttributeNames", MOST_NAMES)?)?;
            Request::GetQueueAttributes { queue, wanted }
        }
        Action::GetQueueUrl => Request::GetQueueUrl { queue: QueueName::parse(members.required_text("QueueName")?) },
        Action::ListDeadLetterSourceQueues => Request::ListDeadLetterSourceQueues {
            queue: queue()?,
            most: members.number("MaxResults", 1, 1000)?,
            after: members.text("NextToken")?.map_or(Ok(String::new()), name_before)?,
        },
        Action::ListMessageMoveTasks => Request::ListMessageMoveTasks {
            source: QueueArn::parse(members.required_text("SourceArn")?),
            most: members.number("MaxResults", 1, 10)?.unwrap_or(1),
        },
        Action::ListQueueTags => Request::ListQueueTags { queue: queue()? },
        Action::ListQueues => Request::ListQueues {
            prefix: members.text("QueueNamePrefix")?.unwrap_or_default().into(),
            most: members.number("MaxResults", 1, 1000)?,
            after: members.text("NextToken")?.map_or(Ok(String::new()), name_before)?,
        },
        Action::PurgeQueue => Request::PurgeQueue { queue: queue()? },
        Action::ReceiveMessage => {
            let queue = queue()?;
            let receive = receive(queue.kind(), members)?;
            Request::ReceiveMessage { queue, receive }
        }
        Action::RemovePermission => {
            Request::RemovePermission { queue: queue()?, label: read_label(members.required_text("Label")?)? }
        }
        Action::SendMessage => {
            let queue = queue()?;
            let message = message(queue.kind(), members)?;
            Request::SendMessage { queue, message }
        }
        Action::SendMessageBatch => {
            let queue = queue()?;
            let batch = batch(members, |entry| message(queue.kind(), entry))?;
            Request::SendMessageBatch { queue, batch }
        }
        Action::SetQueueAttributes => {
            let queue = queue()?;
            let attributes = GivenAttributes::read(queue.kind(), &members.texts_by_name("Attributes")?)?;
            if attributes.is_empty() {
                return Err(SqsError::MissingParameter("Attributes".into()));
            }
            Request::SetQueueAttributes { queue, attributes }
        }
        Action::StartMessageMoveTask => Request::StartMessageMoveTask {
            start: StartMove {
                source: QueueArn::parse(members.required_text("SourceArn")?),
                destination: members.text("DestinationArn")?.map(QueueArn::parse),
                rate: members.number("MaxNumberOfMessagesPerSecond", 1, 500)?,
            },
        },
        Action::TagQueue => {
            let (queue, tags) = (queue()?, tags(members, "Tags")?);
            if tags.is_empty() {
                return Err(SqsError::MissingParameter("Tags".into()));
            }
            Request::TagQueue { queue, tags }
        }
        Action::UntagQueue => {
            let queue = queue()?;
            if !members.has("TagKeys") {
                return Err(SqsError::MissingParameter("TagKeys".into()));
            }
            Request::UntagQueue { queue, keys: members.texts("TagKeys", MOST_TAGS)? }
        }
    })
}

fn create(members: Members<'_, '_>) -> Result<Request, SqsError> {
    let name = members.required_text("QueueName")?;
    let given = members.texts_by_name("Attributes")?;
    let says_fifo = given.iter().any(|(name, value)| name == "FifoQueue" && value.eq_ignore_ascii_case("true"));
    let kind = if says_fifo { QueueKind::Fifo } else { QueueKind::Standard };
    let queue = QueueName::parse(name).filter(|queue| queue.kind() == kind).ok_or_else(|| QueueName::refusal(kind))?;
    let tags = tags(members, "tags")?;
    Ok(Request::CreateQueue { queue, attributes: GivenAttributes::read(kind, &given)?, tags })
}

fn receive(kind: QueueKind, members: Members<'_, '_>) -> Result<Receive, SqsError> {
    const ATTEMPT: &str = "ReceiveRequestAttemptId";
    let attempt = match kind {
        QueueKind::Fifo => members.text(ATTEMPT)?,
        QueueKind::Standard => members.absent_text(ATTEMPT)?,
    };
    Ok(Receive {
        size: members.number("MaxNumberOfMessages", 1, 10)?.unwrap_or(1) as u8,
        visibility: members.number("VisibilityTimeout", 0, LONGEST_TIMEOUT_SECONDS)?,
        wait: members.number("WaitTimeSeconds", 0, 20)?,
        attempt: attempt.map(AttemptId::parse).transpose()?,
        shown: Shown::read(members)?,
    })
}

fn message(kind: QueueKind, members: Members<'_, '_>) -> Result<NewMessage, SqsError> {
    let body = Body::parse(members.required_text("MessageBody")?)?;
    let delay = members.number("DelaySeconds", 0, 900)?;
    let sending = match kind {
        QueueKind::Fifo => fifo_sending(delay, members)?,
        QueueKind::Standard => standard_sending(delay, members)?,
    };
    Ok(NewMessage { body, sending, attributes: members.message_attributes()?, trace: members.trace_header()? })
}

fn fifo_sending(delay: Option<u32>, members: Members<'_, '_>) -> Result<Sending, SqsError> {
    if let Some(delay) = delay.filter(|delay| *delay > 0) {
        return Err(SqsError::not_of_this_kind("DelaySeconds", &delay.to_string()));
    }
    let dedup = members.text("MessageDeduplicationId")?.map(DedupId::parse).transpose()?;
    Ok(Sending::Fifo { group: GroupId::parse(members.required_text("MessageGroupId")?)?, dedup })
}

fn standard_sending(delay: Option<u32>, members: Members<'_, '_>) -> Result<Sending, SqsError> {
    members.absent_text("MessageDeduplicationId")?;
    Ok(Sending::Standard { group: members.text("MessageGroupId")?.map(GroupId::parse).transpose()?, delay })
}

fn handle(members: Members<'_, '_>) -> Result<String, SqsError> {
    members.required_text("ReceiptHandle").map(String::from)
}

fn change(members: Members<'_, '_>) -> Result<VisibilityChange, SqsError> {
    let change = change_entry(members)?;
    change.visibility.is_some().then_some(change).ok_or_else(|| SqsError::MissingParameter("VisibilityTimeout".into()))
}

fn change_entry(members: Members<'_, '_>) -> Result<VisibilityChange, SqsError> {
    let visibility = members.number("VisibilityTimeout", 0, LONGEST_TIMEOUT_SECONDS)?;
    Ok(VisibilityChange { handle: handle(members)?, visibility })
}

fn permission(members: Members<'_, '_>) -> Result<Permission, SqsError> {
    let texts = |name: &str| match members.texts(name, MOST_NAMES)? {
        texts if texts.is_empty() => Err(SqsError::MissingParameter(name.into())),
        texts => Ok(texts),
    };
    Permission::new(members.required_text("Label")?, texts("AWSAccountIds")?, texts("Actions")?)
}

/// The entries, if the batch as a whole is good.
fn batch<T>(
    members: Members<'_, '_>,
    read: impl Fn(Members<'_, '_>) -> Result<T, SqsError>,
) -> Result<Batch<T>, SqsError> {
    let entries = members.entries()?;
    match entries.len() {
        0 => return Err(SqsError::EmptyBatchRequest),
        1..=10 => {}
        count => return Err(SqsError::TooManyEntriesInBatchRequest(count)),
    }
    let mut batch: Batch<T> = Vec::with_capacity(entries.len());
    for entry in entries {
        let id = entry.required_text("Id")?;
        let is_good_byte = |byte: u8| byte.is_ascii_alphanumeric() || byte == b'-' || byte == b'_';
        if id.len() > 80 || !id.bytes().all(is_good_byte) {
            return Err(SqsError::InvalidBatchEntryId);
        }
        if batch.iter().any(|(other, _)| other == id) {
            return Err(SqsError::BatchEntryIdsNotDistinct(id.into()));
        }
        match read(entry) {
            Err(error @ SqsError::Serialization(_)) => return Err(error),
            read => batch.push((id.into(), read)),
        }
    }
    Ok(batch)
}
