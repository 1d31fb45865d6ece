//! How a line of a history has what a store is asked and answers (`docs/QUEUES.md`).

use hobbychair_bytes::values::{Delivery, Receipt, StoreAsk, StoreReply, StoreRequest};
use hobbychair_sqs::digests::md5_of_text;
use serde_json::{json, Value};

use super::line::{attributes, number, text, Line, Members, OfStore, Refusal};

/// The numbers of refusals.
pub const NO_QUEUE: u32 = 1;
pub const OTHER_ATTRIBUTES: u32 = 2;
pub const REMOVED_LATELY: u32 = 3;
pub const BAD_RECEIPT: u32 = 4;
pub const NOT_IN_FLIGHT: u32 = 5;
pub const BEYOND_LIMIT: u32 = 6;
pub const STALE: u32 = 7;
pub const NO_ID: u32 = 8;

/// A receipt as a line has it: its numbers with hyphens between them.
fn receipt_text(receipt: Receipt) -> String {
    let Receipt { incarnation, sequence, ordinal } = receipt;
    format!("{incarnation}-{sequence}-{ordinal}")
}

/// The receipt that this is the text of, or why it is none.
fn read_receipt(text: &str) -> Result<Receipt, String> {
    let numbers: Vec<u64> = text.split('-').filter_map(|number| number.parse().ok()).collect();
    let receipt = match numbers[..] {
        [incarnation, sequence, ordinal] if !numbers.contains(&0) => Some(Receipt { incarnation, sequence, ordinal }),
        _ => None,
    };
    let is_its_text = |receipt: &Receipt| receipt_text(*receipt) == text;
    receipt.filter(is_its_text).ok_or_else(|| format!("{text:?} is no receipt of a store"))
}

/// What a store answered: members, or the code of a refusal.
pub type StoredAnswer = Result<Members, String>;

/// The action of a line that is no request: it has a chunk of the store with which a file begins.
pub const LOAD: &str = "LoadStore";

const CHUNK: &str = "Chunk";

/// The line of a chunk of the store with which the file of this number begins (`docs/WIRE.md`, "A store"). `at` is the moment of the
/// last request that led to that.
pub fn line_of_chunk(file: u64, at: u64, chunk: &[u8]) -> Line {
    let store = Some(OfStore { file, client: None, number: None });
    let request = Members::from_iter([(CHUNK.to_string(), base64::encode(chunk).into())]);
    Line { at, store, action: LOAD.into(), request, answer: Some(Members::new()), error: None }
}

/// The chunk in such a line.
pub fn chunk_of(line: &Line) -> Result<Vec<u8>, String> {
    let chunk = text(&line.request, CHUNK).ok_or_else(|| missing(CHUNK))?;
    base64::decode(chunk).map_err(|_| bad(CHUNK))
}

fn action_of(ask: &StoreAsk) -> &'static str {
    match ask {
        StoreAsk::Create { .. } => "CreateQueue",
        StoreAsk::Remove => "DeleteQueue",
        StoreAsk::Send { .. } => "SendMessage",
        StoreAsk::Receive { .. } => "ReceiveMessage",
        StoreAsk::Delete { .. } => "DeleteMessage",
        StoreAsk::Change { .. } => "ChangeMessageVisibility",
    }
}

/// The line of a request to the store of the file of this number, at this moment.
pub fn line_of_request(request: &StoreRequest, file: u64, at: u64, told: StoredAnswer) -> Line {
    let (answer, error) = match told {
        Ok(answer) => (Some(answer), None),
        Err(code) => (None, Some(Refusal { code })),
    };
    let store = Some(OfStore { file, client: Some(request.client), number: Some(request.number) });
    Line { at, store, action: action_of(&request.ask).into(), request: members_of(request), answer, error }
}

fn members_of(request: &StoreRequest) -> Members {
    let mut members = Members::new();
    let mut put = |name: &str, value: Value| drop(members.insert(name.into(), value));
    let name = if matches!(request.ask, StoreAsk::Create { .. }) { "QueueName" } else { "QueueUrl" };
    put(name, request.queue.as_str().into());
    match &request.ask {
        StoreAsk::Create { timeout, makes_ids } => {
            let (timeout, makes_ids) = (timeout.to_string(), makes_ids.to_string());
            let given =
                json!({"FifoQueue": "true", "VisibilityTimeout": timeout, "ContentBasedDeduplication": makes_ids});
            put("Attributes", given);
        }
        StoreAsk::Remove => {}
        StoreAsk::Send { group, dedup, body } => {
            put("MessageGroupId", group.as_str().into());
            dedup.iter().for_each(|dedup| put("MessageDeduplicationId", dedup.as_str().into()));
            put("MessageBody", body.as_str().into());
        }
        StoreAsk::Receive { size, timeout } => {
            put("MaxNumberOfMessages", (*size).into());
            timeout.iter().for_each(|timeout| put("VisibilityTimeout", (*timeout).into()));
        }
        StoreAsk::Delete { receipt } => put("ReceiptHandle", receipt_text(*receipt).into()),
        StoreAsk::Change { receipt, timeout } => {
            put("ReceiptHandle", receipt_text(*receipt).into());
            put("VisibilityTimeout", (*timeout).into());
        }
    }
    members
}

/// The request of a line of a store, or why it is none.
pub fn request_of(line: &Line, store: OfStore) -> Result<StoreRequest, String> {
    let members = &line.request;
    let given = |name: &str| text(members, name).map(String::from).ok_or_else(|| missing(name));
    let count =
        |name: &str| number(members, name).map(|number| u32::try_from(number).map_err(|_| bad(name))).transpose();
    let needed = |name: &str| count(name)?.ok_or_else(|| missing(name));
    let receipt = || read_receipt(&given("ReceiptHandle")?);
    let queue = if line.action == "CreateQueue" { "QueueName" } else { "QueueUrl" };
    let ask = match line.action.as_str() {
        "CreateQueue" => created(members)?,
        "DeleteQueue" => StoreAsk::Remove,
        "SendMessage" => StoreAsk::Send {
            group: given("MessageGroupId")?,
            dedup: text(members, "MessageDeduplicationId").map(String::from),
            body: given("MessageBody")?,
        },
        "ReceiveMessage" => {
            StoreAsk::Receive { size: needed("MaxNumberOfMessages")?, timeout: count("VisibilityTimeout")? }
        }
        "DeleteMessage" => StoreAsk::Delete { receipt: receipt()? },
        "ChangeMessageVisibility" => StoreAsk::Change { receipt: receipt()?, timeout: needed("VisibilityTimeout")? },
        other => return Err(format!("a store knows no {other}")),
    };
    let (client, number) = (store.client, store.number);
    let (client, number) = client.zip(number).ok_or_else(|| missing("client or no number"))?;
    Ok(StoreRequest { client, number, queue: given(queue)?, ask })
}

/// How the store's reply to a request stands in a line. `incarnation` is that of the queue to which a message was sent; where it is
/// 0, that isn't known, and no MessageId is told. None: it is the reply to no request.
pub fn told(request: &StoreRequest, incarnation: u64, reply: &StoreReply) -> Option<StoredAnswer> {
    let mut answer = Members::new();
    let mut put = |name: &str, value: Value| drop(answer.insert(name.into(), value));
    match reply {
        StoreReply::Created(incarnation) => {
            put("QueueUrl", request.queue.as_str().into());
            put("Incarnation", (*incarnation).into());
        }
        StoreReply::Removed | StoreReply::Changed => {}
        StoreReply::Sent(sequence) => {
            if incarnation > 0 {
                put("MessageId", format!("{incarnation}-{sequence}").into());
            }
            put("SequenceNumber", sequence.to_string().into());
            if let StoreAsk::Send { body, .. } = &request.ask {
                put("MD5OfMessageBody", md5_of_text(body).into());
            }
        }
        StoreReply::Received(messages) => {
            put("Messages", messages.iter().map(handed).collect::<Vec<_>>().into());
        }
        StoreReply::Deleted(removed) => put("Removed", (*removed).into()),
        StoreReply::Refused(refusal) => return Some(Err(code(*refusal)?.into())),
        StoreReply::Counts { .. } => return None,
    }
    Some(Ok(answer))
}

fn missing(name: &str) -> String {
    format!("it has no {name}")
}

fn bad(name: &str) -> String {
    format!("its {name} is none of a store's")
}

fn created(members: &Members) -> Result<StoreAsk, String> {
    let given = attributes(members, "Attributes");
    let value = |name: &str| given.iter().find(|(known, _)| known == name).map(|(_, value)| value.as_str());
    let timeout =
        value("VisibilityTimeout").and_then(|value| value.parse().ok()).ok_or_else(|| bad("VisibilityTimeout"))?;
    let makes_ids = match value("ContentBasedDeduplication") {
        Some("true") => true,
        Some("false") => false,
        _ => return Err(bad("ContentBasedDeduplication")),
    };
    Ok(StoreAsk::Create { timeout, makes_ids })
}

fn handed(message: &Delivery) -> Value {
    let Delivery { receipt, group, body } = message;
    let Receipt { incarnation, sequence, ordinal } = receipt;
    json!({
        "MessageId": format!("{incarnation}-{sequence}"),
        "ReceiptHandle": receipt_text(*receipt),
        "Body": body,
        "MD5OfBody": md5_of_text(body),
        "Attributes": {
            "ApproximateReceiveCount": ordinal.to_string(),
            "MessageGroupId": group,
            "SequenceNumber": sequence.to_string(),
        },
    })
}

/// The code that SQS has for a refusal. For one of a number that was used it has none.
fn code(refusal: u32) -> Option<&'static str> {
    Some(match refusal {
        NO_QUEUE => "QueueDoesNotExist",
        OTHER_ATTRIBUTES => "QueueAlreadyExists",
        REMOVED_LATELY => "QueueDeletedRecently",
        BAD_RECEIPT => "ReceiptHandleIsInvalid",
        NOT_IN_FLIGHT => "MessageNotInflight",
        BEYOND_LIMIT | NO_ID => "InvalidParameterValue",
        STALE => "StaleNumber",
        _ => return None,
    })
}
