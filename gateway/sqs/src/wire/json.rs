//! AWS JSON 1.0: the action in a header, members and results as JSON objects.

use serde::Serialize;

use super::requests::{self, Request};
use super::responses::{as_map, Failed, ListedTask, Pairs, ReceivedMessage, Response, Succeeded};
use super::value::{Map, Value, MOST_VALUES};
use super::{fault, Incoming, Reply};
use crate::action::Action;
use crate::errors::SqsError;

const CONTENT_TYPE: &str = "application/x-amz-json-1.0";
const SERVICE: &str = "AmazonSQS.";

pub fn read(incoming: &Incoming<'_>) -> Result<Request, SqsError> {
    let target = incoming.target.unwrap_or_default();
    let name = target.strip_prefix(SERVICE).ok_or_else(|| SqsError::UnknownOperation(target.into()))?;
    let action: Action = name.parse()?;
    let mut members = members(incoming.body)?;
    if let (Some(queue), None) = (incoming.path_queue, members.get("QueueUrl")) {
        members.0.push(("QueueUrl".into(), Value::Text(queue.into())));
    }
    requests::read(action, &members)
}

fn members(body: &[u8]) -> Result<Map<'_>, SqsError> {
    if body.is_empty() {
        return Ok(Map::default());
    }
    let no_json = || SqsError::Serialization("The request's body is no JSON.".into());
    // All of it at once, and not each text by itself.
    let body = std::str::from_utf8(body).map_err(|_| no_json())?;
    match serde_json::from_str(body) {
        Ok(Value::Map(map)) => Ok(map),
        Ok(_) => Err(SqsError::Serialization("The request's body is no JSON object.".into())),
        // Other reasons could show what the client sent.
        Err(error) if error.is_data() => {
            let message = format!("A request has at most {MOST_VALUES} values, and names that are strings.");
            Err(SqsError::Serialization(message))
        }
        Err(_) => Err(no_json()),
    }
}

#[derive(Serialize)]
struct Nothing {}

#[derive(Serialize)]
#[serde(rename_all = "PascalCase")]
struct Url<'a> {
    queue_url: &'a str,
}

#[derive(Serialize)]
#[serde(rename_all = "PascalCase")]
struct CallerIdentity<'a> {
    account: &'a str,
    arn: &'a str,
    user_id: &'a str,
}

#[derive(Serialize)]
#[serde(rename_all = "PascalCase")]
struct Urls<'a> {
    #[serde(skip_serializing_if = "<[String]>::is_empty")]
    queue_urls: &'a [String],
    #[serde(skip_serializing_if = "Option::is_none")]
    next_token: Option<&'a str>,
}

/// The one member of a result that begins with a small letter. It is there also where it is empty.
#[derive(Serialize)]
struct SourceUrls<'a> {
    #[serde(rename = "queueUrls")]
    queue_urls: &'a [String],
    #[serde(rename = "NextToken", skip_serializing_if = "Option::is_none")]
    next_token: Option<&'a str>,
}

#[derive(Serialize)]
#[serde(rename_all = "PascalCase")]
struct Attributes<'a> {
    #[serde(skip_serializing_if = "<[_]>::is_empty", serialize_with = "pairs")]
    attributes: &'a [(String, String)],
}

#[derive(Serialize)]
#[serde(rename_all = "PascalCase")]
struct TagsResult<'a> {
    #[serde(skip_serializing_if = "<[_]>::is_empty", serialize_with = "pairs")]
    tags: &'a [(String, String)],
}

#[derive(Serialize)]
#[serde(rename_all = "PascalCase")]
struct ReceiveResult<'a> {
    #[serde(skip_serializing_if = "<[_]>::is_empty")]
    messages: &'a [ReceivedMessage],
}

#[derive(Serialize)]
#[serde(rename_all = "PascalCase")]
struct BatchResult<'a> {
    successful: &'a [Succeeded],
    failed: &'a [Failed],
}

#[derive(Serialize)]
#[serde(rename_all = "PascalCase")]
struct StartedMoveTask<'a> {
    task_handle: &'a str,
}

#[derive(Serialize)]
#[serde(rename_all = "PascalCase")]
struct CancelledMoveTask {
    approximate_number_of_messages_moved: u64,
}

#[derive(Serialize)]
#[serde(rename_all = "PascalCase")]
struct MoveTasks<'a> {
    results: &'a [ListedTask],
}

#[derive(Serialize)]
struct Refusal<'a> {
    #[serde(rename = "__type")]
    type_name: &'a str,
    message: String,
}

fn pairs<S: serde::Serializer>(pairs: &&[(String, String)], serializer: S) -> Result<S::Ok, S::Error> {
    as_map(pairs, serializer)
}

pub fn answer(response: &Response, request_id: String) -> Reply {
    let body = match response {
        Response::Nothing => to_bytes(&Nothing {}),
        Response::QueueUrl(url) => to_bytes(&Url { queue_url: url }),
        Response::Queues { urls, next } => to_bytes(&Urls { queue_urls: urls, next_token: next.as_deref() }),
        Response::SourceQueues { urls, next } => {
            to_bytes(&SourceUrls { queue_urls: urls, next_token: next.as_deref() })
        }
        Response::Attributes(attributes) => to_bytes(&Attributes { attributes: slice(attributes) }),
        Response::Tags(tags) => to_bytes(&TagsResult { tags: slice(tags) }),
        Response::Caller { account, arn, user } => to_bytes(&CallerIdentity { account, arn, user_id: user }),
        Response::Sent(sent) => to_bytes(sent),
        Response::Messages(messages) => to_bytes(&ReceiveResult { messages }),
        Response::Batch { successful, failed } => to_bytes(&BatchResult { successful, failed }),
        Response::TaskHandle(task_handle) => to_bytes(&StartedMoveTask { task_handle }),
        Response::Moved(moved) => to_bytes(&CancelledMoveTask { approximate_number_of_messages_moved: *moved }),
        Response::MoveTasks(results) => to_bytes(&MoveTasks { results }),
    };
    Reply { status: 200, content_type: CONTENT_TYPE, query_error: None, request_id, needs_room: None, body }
}

fn slice(pairs: &Pairs) -> &[(String, String)] {
    pairs
}

pub fn refuse(error: &SqsError, request_id: String) -> Reply {
    let coded = error.coded();
    Reply {
        status: coded.status,
        content_type: CONTENT_TYPE,
        query_error: Some(format!("{};{}", coded.code, fault(error))),
        request_id,
        needs_room: None,
        body: to_bytes(&Refusal { type_name: coded.type_name, message: error.client_message() }),
    }
}

/// These types have texts for keys, so writing them into memory can't fail.
fn to_bytes<T: Serialize>(value: &T) -> Vec<u8> {
    serde_json::to_vec(value).unwrap_or_default()
}

#[cfg(test)]
mod tests {
    use super::*;
    use crate::wire::requests::{NewMessage, Sending};
    use crate::wire::responses::Sent;

    fn read_body(action: &str, body: &[u8]) -> Result<Request, SqsError> {
        let target = format!("AmazonSQS.{action}");
        read(&Incoming { target: Some(&target), path_queue: None, query: "", body })
    }

    /// A request as boto3 writes it.
    const SEND: &[u8] = br#"{"QueueUrl": "http://127.0.0.1:9324/000000000000/q.fifo", "MessageBody": "h\u00e9llo",
        "MessageGroupId": "g", "MessageDeduplicationId": "d",
        "MessageAttributes": {"a": {"DataType": "Binary", "BinaryValue": "AP8="}}}"#;

    #[test]
    fn a_send_is_read() {
        let Ok(Request::SendMessage { queue, message }) = read_body("SendMessage", SEND) else { panic!() };
        let NewMessage { body, sending: Sending::Fifo { group, dedup }, attributes, trace } = message else { panic!() };
        assert_eq!((queue.as_str(), body.as_str(), group.as_str()), ("q.fifo", "héllo", "g"));
        assert_eq!((dedup.unwrap().as_str(), attributes["a"].data(), trace), ("d", &b"\0\xff"[..], None));
    }

    #[test]
    fn broken_requests_are_refused() {
        for body in [&b"{"[..], b"[]", b"\xff", &[b'['; 100_000], br#"{"QueueUrl":"\ud800"}"#] {
            let refused = read_body("ListQueues", body);
            assert!(matches!(refused, Err(SqsError::Serialization(_))), "{refused:?}");
        }
        assert_eq!(read_body("MakeCoffee", b"{}"), Err(SqsError::UnknownOperation("MakeCoffee".into())));
        let missing = read_body("SendMessage", br#"{"QueueUrl":"q.fifo","MessageGroupId":"g"}"#);
        assert_eq!(missing, Err(SqsError::MissingParameter("MessageBody".into())));
    }

    #[test]
    fn any_front_and_any_flipped_byte_of_a_request_is_read_or_refused() {
        for length in 0..SEND.len() {
            let _ = read_body("SendMessage", &SEND[..length]);
            for flip in [1u8, 0x80] {
                let mut spoilt = SEND.to_vec();
                spoilt[length] ^= flip;
                let _ = read_body("SendMessage", &spoilt);
            }
        }
    }

    #[test]
    fn answers_and_errors_have_the_services_form() {
        let sent = Sent {
            message_id: "i".into(),
            md5_of_body: "m".into(),
            md5_of_attributes: None,
            md5_of_system_attributes: None,
            sequence_number: Some("1".into()),
        };
        let reply = answer(&Response::Sent(sent.clone()), "r".into());
        assert_eq!(reply.body, br#"{"MessageId":"i","MD5OfMessageBody":"m","SequenceNumber":"1"}"#);
        let successful = vec![Succeeded { id: "1".into(), sent: Some(sent) }, Succeeded { id: "2".into(), sent: None }];
        let failed = vec![Failed::new("3".into(), &SqsError::InvalidMessageContents)];
        let batch = answer(&Response::Batch { successful, failed }, "r".into());
        let text = String::from_utf8(batch.body).unwrap();
        assert!(text.starts_with(
            r#"{"Successful":[{"Id":"1","MessageId":"i","MD5OfMessageBody":"m","SequenceNumber":"1"},{"Id":"2"}],"#
        ));
        assert_eq!(answer(&Response::Messages(Vec::new()), "r".into()).body, b"{}");
        let no_sources = Response::SourceQueues { urls: Vec::new(), next: None };
        assert_eq!(answer(&no_sources, "r".into()).body, br#"{"queueUrls":[]}"#);
        let refused = refuse(&SqsError::QueueDoesNotExist, "r".into());
        assert_eq!(refused.query_error.unwrap(), "AWS.SimpleQueueService.NonExistentQueue;Sender");
        let expected =
            br#"{"__type":"com.amazonaws.sqs#QueueDoesNotExist","message":"The specified queue does not exist."}"#;
        assert_eq!(refused.body, expected);
    }
}
