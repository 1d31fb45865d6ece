//! Requests as two versions of botocore write them, the same spoilt at random, and answers that are read back.

use hobbychair_bytes::seeded::{check, edits, spoilt};
use proptest::prelude::*;
use serde::Deserialize;

use super::requests::{Request, Sending};
use super::responses::{ReceivedMessage, Response};
use super::{Incoming, Protocol};
use crate::action::Action;
use crate::envelope::MessageAttributes;
use crate::errors::SqsError;
use crate::policy::Permission;
use crate::texts::test_characters;

/// A call as a client wrote it.
#[derive(Debug, Deserialize)]
struct Written {
    call: String,
    path: String,
    query: String,
    target: Option<String>,
    body: String,
}

const BY_QUERY: &str = include_str!("../../../tests/golden/serialized_by_botocore_1.29.27.jsonl");
const BY_JSON: &str = include_str!("../../../tests/golden/serialized_by_botocore_1.43.11.jsonl");

fn written(lines: &str) -> Vec<Written> {
    lines.lines().map(|line| serde_json::from_str(line).unwrap()).collect()
}

impl Written {
    fn incoming<'a>(&'a self, body: &'a [u8]) -> Incoming<'a> {
        Incoming { target: self.target.as_deref(), path_queue: None, query: &self.query, body }
    }

    fn read(&self) -> Request {
        let incoming = self.incoming(self.body.as_bytes());
        Protocol::of(&incoming).read(&incoming).unwrap_or_else(|error| panic!("{}: {error}", self.call))
    }
}

#[test]
fn both_protocols_say_the_same() {
    let (by_query, by_json) = (written(BY_QUERY), written(BY_JSON));
    // Version 1.29.27 doesn't know the three tasks that move messages yet.
    assert_eq!((by_query.len() + 3, by_json.len()), (Action::of_sqs().count(), Action::of_sqs().count()));
    let same = by_query.iter().map(|old| (old, by_json.iter().find(|new| new.call == old.call).unwrap()));
    for (old, new) in same {
        assert_eq!((&old.call, old.target.is_none(), new.target.is_some()), (&new.call, true, true));
        assert_eq!((old.path.as_str(), new.path.as_str()), ("/", "/"));
        let (old_read, new_read) = (old.read(), new.read());
        assert_eq!(old_read, new_read, "{}", old.call);
        assert_eq!(old_read.action().name().to_lowercase(), old.call.replace('_', ""));
    }
}

/// What the script that wrote them asked for.
#[test]
fn what_is_read_is_what_was_asked() {
    let text = "a=1&b=2+3% <é>\r\n\t\u{1f600}";
    for written in written(BY_QUERY).iter().chain(&written(BY_JSON)) {
        let request = written.read();
        if !matches!(request, Request::ListQueues { .. }) {
            assert_eq!(request.queue().unwrap().as_str(), "orders.fifo");
        }
        match request {
            Request::AddPermission { permission, .. } => {
                let (accounts, actions) = (["123456789012", "210987654321"], ["SendMessage", "*"]);
                let texts = |texts: [&str; 2]| texts.map(String::from).to_vec();
                assert_eq!(Permission::new("l-1", texts(accounts), texts(actions)), Ok(permission));
            }
            Request::SendMessage { message, .. } => {
                let Sending::Fifo { group, dedup } = message.sending else { panic!() };
                assert_eq!((message.body.as_str(), group.as_str()), (text, "g!1"));
                assert_eq!(dedup.unwrap().as_str(), "d~1");
                assert_eq!(message.attributes.keys().collect::<Vec<_>>(), ["bytes", "color", "count"]);
                assert_eq!(message.attributes["color"].text(), Some("blue & green"));
                assert!(message.trace.unwrap().text().unwrap().starts_with("Root=1-"));
            }
            Request::SendMessageBatch { batch, .. } => {
                assert_eq!(batch.iter().map(|(id, _)| id.as_str()).collect::<Vec<_>>(), ["1", "2-_"]);
                assert!(matches!(batch[1].1.as_ref().unwrap().sending, Sending::Fifo { dedup: None, .. }));
            }
            Request::ReceiveMessage { receive, .. } => {
                assert_eq!((receive.size, receive.visibility, receive.wait), (10, Some(0), Some(20)));
                assert!(receive.shown.has("color") && receive.shown.has("b.x") && !receive.shown.has("a"));
            }
            Request::ChangeMessageVisibilityBatch { batch, .. } => {
                let seconds: Vec<_> = batch.iter().map(|(_, change)| change.as_ref().unwrap().visibility).collect();
                assert_eq!(seconds, [Some(0), Some(43_200)]);
            }
            Request::ListDeadLetterSourceQueues { most, after, .. } => {
                assert_eq!((most, after.as_str()), (Some(7), "orders.fifo"));
            }
            Request::StartMessageMoveTask { start } => {
                assert_eq!((start.destination, start.rate), (Some(start.source), Some(500)));
            }
            Request::CancelMessageMoveTask { handle } => assert_eq!(handle.unwrap().id.to_string().len(), 36),
            Request::ListMessageMoveTasks { most, .. } => assert_eq!(most, 7),
            Request::ListQueues { prefix, most, after } => {
                assert_eq!((prefix.as_str(), most, after.as_str()), ("or", Some(7), "orders.fifo"));
            }
            Request::UntagQueue { keys, .. } => assert_eq!(keys, ["a", "b"]),
            _ => {}
        }
    }
}

#[test]
fn spoilt_requests_are_read_or_refused() {
    for written in written(BY_QUERY).iter().chain(&written(BY_JSON)) {
        check(300, edits(), |edits| {
            let body = spoilt(written.body.as_bytes(), &edits);
            let incoming = written.incoming(&body);
            if let Err(error) = Protocol::of(&incoming).read(&incoming) {
                prop_assert!((400..500).contains(&error.coded().status), "{}", error);
            }
            Ok(())
        });
    }
}

#[test]
fn any_bytes_and_any_query_are_read_or_refused() {
    let any_bytes = proptest::collection::vec(any::<u8>(), 0..200);
    check(2000, (any_bytes, "\\PC{0,60}", proptest::option::of("\\PC{0,30}")), |(body, query, target)| {
        let incoming = Incoming { target: target.as_deref(), path_queue: Some("q.fifo"), query: &query, body: &body };
        if let Err(error) = Protocol::of(&incoming).read(&incoming) {
            prop_assert!((400..500).contains(&error.coded().status), "{}", error);
        }
        Ok(())
    });
}

fn message_of(body: &str) -> Response {
    Response::Messages(vec![ReceivedMessage {
        message_id: "id".into(),
        receipt_handle: "handle".into(),
        md5_of_body: "md5".into(),
        body: body.into(),
        attributes: Vec::new(),
        md5_of_attributes: None,
        message_attributes: MessageAttributes::new(),
    }])
}

/// A body as a reader of XML that isn't this gateway's sees it: line ends as XML has them, then references.
fn body_in_xml(answer: &str) -> String {
    let (_, behind) = answer.split_once("<Body>").unwrap();
    let (body, _) = behind.split_once("</Body>").unwrap();
    let body = body.replace("\r\n", "\n").replace('\r', "\n");
    let marks = [("&lt;", "<"), ("&gt;", ">"), ("&quot;", "\""), ("&apos;", "'"), ("&#xD;", "\r"), ("&#13;", "\r")];
    let body = marks.iter().fold(body, |body, (mark, character)| body.replace(mark, character));
    body.replace("&amp;", "&")
}

#[test]
fn any_body_comes_back_in_both_protocols() {
    let bodies = prop_oneof!["(?s).{0,40}", "[&<>\"'\\r\\n\\t ;#xamp]{0,30}"];
    check(2000, bodies, |body| {
        prop_assume!(test_characters(&body).is_ok());
        let response = message_of(&body);
        let json = Protocol::Json.answer(Action::ReceiveMessage, &response, "r".into());
        let read: serde_json::Value = serde_json::from_slice(&json.body).unwrap();
        prop_assert_eq!(&read["Messages"][0]["Body"], body.as_str());
        let xml = Protocol::Query.answer(Action::ReceiveMessage, &response, "r".into());
        prop_assert_eq!(body_in_xml(std::str::from_utf8(&xml.body).unwrap()), body);
        Ok(())
    });
}

#[test]
fn a_name_that_stands_twice_in_a_map_is_refused() {
    let twice = "Attribute.1.Name=FifoQueue&Attribute.1.Value=true&Attribute.2.Name=FifoQueue&Attribute.2.Value=false";
    let by_query = format!("Action=CreateQueue&QueueName=z.fifo&{twice}");
    let by_json = r#"{"QueueName":"z.fifo","Attributes":{"FifoQueue":"true","FifoQueue":"false"}}"#;
    for (target, body) in [(None, by_query.as_str()), (Some("AmazonSQS.CreateQueue"), by_json)] {
        let incoming = Incoming { target, path_queue: None, query: "", body: body.as_bytes() };
        let refused = Protocol::of(&incoming).read(&incoming);
        assert!(
            matches!(&refused, Err(SqsError::InvalidParameterValue(why)) if why.contains("FifoQueue")),
            "{refused:?}"
        );
    }
}
