//! The query form: fields with dots in their names, and answers in XML.

use std::borrow::Cow;
use std::collections::BTreeMap;

use hobbychair_bytes::characters::{is_of_xml, is_xml_character};
use quick_xml::events::{BytesDecl, BytesEnd, BytesStart, BytesText, Event};
use quick_xml::Writer;

use super::requests::{self, Request};
use super::responses::{Failed, ListedTask, ReceivedMessage, Response, Sent, Succeeded};
use super::value::{Map, Value};
use super::{fault, AwsService, Incoming, Reply};
use crate::action::Action;
use crate::envelope::AttributeValue;
use crate::errors::SqsError;

const CONTENT_TYPE: &str = "text/xml";

/// A request by which a client asks who it is has at most so many bytes.
const LONGEST_WHO_BYTES: usize = 4096;

/// Whether this is GetCallerIdentity, an action of another service, which Terraform asks for (Security Token Service API
/// Reference).
pub fn asks_who(incoming: &Incoming<'_>) -> bool {
    let forms = forms_of(incoming);
    let is_small =
        incoming.path_queue.is_none() && forms.iter().map(|form| form.len()).sum::<usize>() <= LONGEST_WHO_BYTES;
    let fields = || forms.into_iter().flat_map(form_urlencoded::parse);
    is_small
        && fields().filter(|(name, _)| name == "Action").last().is_some_and(|(_, value)| value == "GetCallerIdentity")
}

/// Fields stand in the URL and in the body. Where both have one, that of the body counts.
fn forms_of<'a>(incoming: &Incoming<'a>) -> [&'a [u8]; 2] {
    [incoming.query.as_bytes(), incoming.body]
}

pub fn read(incoming: &Incoming<'_>) -> Result<Request, SqsError> {
    if asks_who(incoming) {
        return Ok(Request::GetCallerIdentity);
    }
    let fields = fields(forms_of(incoming))?;
    let Some(Field::Text(name)) = fields.get("Action") else {
        return Err(SqsError::MissingParameter("Action".into()));
    };
    let action: Action = name.parse()?;
    let mut members = members(&fields)?;
    if action == Action::CreateQueue {
        rename(&mut members, "Tags", "tags");
    }
    if let (Some(queue), None) = (incoming.path_queue, members.get("QueueUrl")) {
        members.0.push(("QueueUrl".into(), Value::Text(Cow::Owned(queue.into()))));
    }
    // In this form all values are texts or made of some, and the error for others is the JSON protocol's.
    requests::read(action, &members).map_err(|error| match error {
        SqsError::Serialization(message) => SqsError::InvalidParameterValue(message),
        other => other,
    })
}

fn rename(members: &mut Map<'_>, from: &str, to: &'static str) {
    for (name, _) in &mut members.0 {
        if name == from {
            *name = to.into();
        }
    }
}

/// A field, or the fields whose names go on behind a dot.
enum Field {
    Text(String),
    Inner(Fields),
}

type Fields = BTreeMap<String, Field>;

/// So deep may the names of fields go: a list in an attribute of a batch's message has seven parts.
const DEEPEST: usize = 8;

/// The most fields of a form. A full batch of messages with ten attributes each has 343.
const MOST_FIELDS: usize = 2000;

fn wrong(message: String) -> SqsError {
    SqsError::InvalidParameterValue(message)
}

/// Reads forms as all servers do (URL Standard, "application/x-www-form-urlencoded parsing"): parts without a byte are none, and
/// one without `=` is a name. Takes time in proportion to their bytes.
fn fields(forms: [&[u8]; 2]) -> Result<Fields, SqsError> {
    if !forms.iter().all(|form| is_utf8_behind_escapes(form)) {
        return Err(wrong("The request has bytes that are no UTF-8.".into()));
    }
    // A field of a few bytes takes a hundred times as many here.
    if forms.iter().map(|form| memchr::memchr_iter(b'&', form).count()).sum::<usize>() >= MOST_FIELDS {
        return Err(wrong(format!("A form has at most {MOST_FIELDS} fields.")));
    }
    let mut whole = Fields::new();
    for (name, value) in forms.into_iter().flat_map(form_urlencoded::parse) {
        insert(&mut whole, &name, value.into_owned())?;
    }
    Ok(whole)
}

/// The reader of forms puts U+FFFD where bytes are no UTF-8; such a form is refused instead.
fn is_utf8_behind_escapes(text: &[u8]) -> bool {
    let mut bytes = Vec::with_capacity(text.len());
    let mut rest = text;
    while let [byte, tail @ ..] = rest {
        let escaped = match (byte, tail) {
            (b'%', [high, low, ..]) => digit(*high).zip(digit(*low)).map(|(high, low)| 16 * high + low),
            _ => None,
        };
        bytes.push(escaped.unwrap_or(*byte));
        rest = if escaped.is_some() { &tail[2..] } else { tail };
    }
    std::str::from_utf8(&bytes).is_ok()
}

fn digit(byte: u8) -> Option<u8> {
    char::from(byte).to_digit(16).map(|digit| digit as u8)
}

fn insert(whole: &mut Fields, name: &str, value: String) -> Result<(), SqsError> {
    let mut place = whole;
    let mut parts = name.split('.').peekable();
    let mut depth = 0;
    while let Some(part) = parts.next() {
        depth += 1;
        if depth > DEEPEST {
            return Err(wrong(format!("The field {name} has too many parts.")));
        }
        if parts.peek().is_none() {
            if matches!(place.get(part), Some(Field::Inner(_))) {
                return Err(wrong(format!("The field {name} stands beside one that goes on.")));
            }
            place.insert(part.into(), Field::Text(value));
            return Ok(());
        }
        let inner = place.entry(part.into()).or_insert_with(|| Field::Inner(Fields::new()));
        let Field::Inner(inner) = inner else {
            return Err(wrong(format!("The field {name} stands beside one without its last part.")));
        };
        place = inner;
    }
    Ok(())
}

/// The name that the JSON protocol has for a list of texts.
fn list_named(name: &str) -> Option<&'static str> {
    Some(match name {
        "AttributeName" => "AttributeNames",
        "MessageSystemAttributeName" => "MessageSystemAttributeNames",
        "MessageAttributeName" => "MessageAttributeNames",
        "TagKey" => "TagKeys",
        "AWSAccountId" => "AWSAccountIds",
        "ActionName" => "Actions",
        _ => return None,
    })
}

/// The name that the JSON protocol has for a map, and the name of its keys.
fn map_named(name: &str) -> Option<(&'static str, &'static str)> {
    Some(match name {
        "Attribute" => ("Attributes", "Name"),
        "Tag" => ("Tags", "Key"),
        "MessageAttribute" => ("MessageAttributes", "Name"),
        "MessageSystemAttribute" => ("MessageSystemAttributes", "Name"),
        _ => return None,
    })
}

const ENTRIES: [&str; 4] = [
    "SendMessageBatchRequestEntry",
    "DeleteMessageBatchRequestEntry",
    "ChangeMessageVisibilityBatchRequestEntry",
    "Entries",
];

/// The fields as members under the names of the JSON protocol.
fn members(fields: &Fields) -> Result<Map<'_>, SqsError> {
    let mut members = Vec::with_capacity(fields.len());
    for (name, field) in fields {
        let (name, value) = if let Some(list) = list_named(name) {
            let texts = texts_of(name, field)?.into_iter().map(value_of).collect();
            (list, Value::List(texts))
        } else if let Some((map, key)) = map_named(name) {
            (map, Value::Map(map_of(name, key, field)?))
        } else if ENTRIES.contains(&name.as_str()) {
            let mut entries = Vec::new();
            for entry in counted(name, field)? {
                entries.push(match entry {
                    Field::Inner(inner) => Value::Map(self::members(inner)?),
                    Field::Text(_) => value_of(entry),
                });
            }
            ("Entries", Value::List(entries))
        } else {
            (name.as_str(), value_of(field))
        };
        members.push((Cow::Borrowed(name), value));
    }
    Ok(Map(members))
}

fn value_of(field: &Field) -> Value<'_> {
    match field {
        Field::Text(text) => Value::Text(Cow::Borrowed(text)),
        Field::Inner(inner) => {
            let pairs = inner.iter().map(|(name, field)| (Cow::Borrowed(name.as_str()), value_of(field)));
            Value::Map(Map(pairs.collect()))
        }
    }
}

/// The parts of a list that is counted from 1, in order. An empty list comes as an empty text.
fn counted<'f>(name: &str, field: &'f Field) -> Result<Vec<&'f Field>, SqsError> {
    let not_counted = || wrong(format!("The parts of {name} must be counted from 1."));
    let inner = match field {
        Field::Text(text) if text.is_empty() => return Ok(Vec::new()),
        Field::Text(_) => return Err(not_counted()),
        Field::Inner(inner) => inner,
    };
    let mut parts = Vec::with_capacity(inner.len());
    for (place, part) in inner {
        let is_number = place.len() <= 6 && place.bytes().all(|byte| byte.is_ascii_digit()) && !place.starts_with('0');
        let place: u32 = place.parse().ok().filter(|_| is_number).ok_or_else(not_counted)?;
        parts.push((place, part));
    }
    parts.sort_by_key(|(place, _)| *place);
    Ok(parts.into_iter().map(|(_, part)| part).collect())
}

/// The parts of a list, which may also be one text without a number.
fn texts_of<'f>(name: &str, field: &'f Field) -> Result<Vec<&'f Field>, SqsError> {
    match field {
        Field::Text(text) if !text.is_empty() => Ok(vec![field]),
        _ => counted(name, field),
    }
}

/// The parts of a map, which may also be one pair without a number.
fn pairs_of<'f>(name: &str, key: &str, field: &'f Field) -> Result<Vec<&'f Field>, SqsError> {
    match field {
        Field::Inner(inner) if inner.contains_key(key) && inner.keys().all(|part| part == key || part == "Value") => {
            Ok(vec![field])
        }
        _ => counted(name, field),
    }
}

fn map_of<'f>(name: &str, key: &str, field: &'f Field) -> Result<Map<'f>, SqsError> {
    let mut pairs = Vec::new();
    for part in pairs_of(name, key, field)? {
        let inner = match part {
            Field::Inner(inner) => inner,
            Field::Text(_) => return Err(SqsError::MissingParameter(format!("{name}.{key}"))),
        };
        let Some(Field::Text(found)) = inner.get(key) else {
            return Err(SqsError::MissingParameter(format!("{name}.{key}")));
        };
        let value = inner.get("Value").map_or(Value::Text(Cow::Borrowed("")), value_of);
        pairs.push((Cow::Borrowed(found.as_str()), value));
    }
    Ok(Map(pairs))
}

/// Writes elements. Writing into memory can't fail, so the writer's errors say nothing.
struct Xml(Writer<Vec<u8>>);

impl Xml {
    fn new() -> Xml {
        let mut xml = Xml(Writer::new(Vec::new()));
        xml.event(Event::Decl(BytesDecl::new("1.0", None, None)));
        xml
    }

    fn event(&mut self, event: Event<'_>) {
        let _ = self.0.write_event(event);
    }

    fn element(&mut self, name: &str, inner: impl FnOnce(&mut Xml)) {
        self.event(Event::Start(BytesStart::new(name)));
        inner(self);
        self.event(Event::End(BytesEnd::new(name)));
    }

    /// The outermost element, which names the namespace.
    fn root(&mut self, name: &str, service: AwsService, inner: impl FnOnce(&mut Xml)) {
        let mut start = BytesStart::new(name);
        start.push_attribute(("xmlns", service.namespace()));
        self.event(Event::Start(start));
        inner(self);
        self.event(Event::End(BytesEnd::new(name)));
    }

    /// An element with a text. All text of answers is written here, so that whatever it comes from, a parser can read
    /// the answer: U+FFFD stands for what XML has no form for.
    fn leaf(&mut self, name: &str, text: &str) {
        let readable = if is_of_xml(text) { Cow::Borrowed(text) } else { text.chars().map(readable).collect() };
        self.element(name, |xml| {
            let escaped = quick_xml::escape::escape(&readable);
            // A carriage return as it is would be read as a line feed.
            let escaped = if escaped.contains('\r') { Cow::Owned(escaped.replace('\r', "&#xD;")) } else { escaped };
            xml.event(Event::Text(BytesText::from_escaped(escaped)));
        });
    }

    fn optional(&mut self, name: &str, text: Option<&String>) {
        if let Some(text) = text {
            self.leaf(name, text);
        }
    }

    fn pair(&mut self, name: &str, key_name: &str, key: &str, value: &str) {
        self.element(name, |xml| {
            xml.leaf(key_name, key);
            xml.leaf("Value", value);
        });
    }

    fn into_bytes(self) -> Vec<u8> {
        self.0.into_inner()
    }
}

pub fn answer(action: Action, response: &Response, request_id: String) -> Reply {
    let mut xml = Xml::new();
    let service = if action == Action::GetCallerIdentity { AwsService::Sts } else { AwsService::Sqs };
    xml.root(&format!("{}Response", action.name()), service, |xml| {
        if action.has_result() {
            xml.element(&format!("{}Result", action.name()), |xml| result(xml, action, response));
        }
        xml.element("ResponseMetadata", |xml| xml.leaf("RequestId", &request_id));
    });
    reply(200, xml, request_id)
}

/// Messages that nobody received, in the form of a receive, and where a list of them goes on.
pub fn peeked(messages: &[ReceivedMessage], next: Option<&String>, request_id: String) -> Reply {
    let mut xml = Xml::new();
    xml.root("ReceiveMessageResponse", AwsService::Sqs, |xml| {
        xml.element("ReceiveMessageResult", |xml| {
            messages.iter().for_each(|message| xml.element("Message", |xml| received(xml, message)));
            xml.optional("NextToken", next);
        });
        xml.element("ResponseMetadata", |xml| xml.leaf("RequestId", &request_id));
    });
    reply(200, xml, request_id)
}

pub fn refuse(error: &SqsError, request_id: String) -> Reply {
    let coded = error.coded();
    let mut xml = Xml::new();
    xml.root("ErrorResponse", AwsService::Sqs, |xml| {
        xml.element("Error", |xml| {
            xml.leaf("Type", fault(error));
            xml.leaf("Code", coded.code);
            xml.leaf("Message", &error.client_message());
            xml.event(Event::Empty(BytesStart::new("Detail")));
        });
        xml.leaf("RequestId", &request_id);
    });
    reply(coded.status, xml, request_id)
}

fn readable(character: char) -> char {
    if is_xml_character(character) {
        character
    } else {
        '\u{fffd}'
    }
}

fn reply(status: u16, xml: Xml, request_id: String) -> Reply {
    Reply {
        status,
        content_type: CONTENT_TYPE,
        query_error: None,
        request_id,
        needs_room: None,
        body: xml.into_bytes(),
    }
}

fn result(xml: &mut Xml, action: Action, response: &Response) {
    match response {
        Response::Nothing => {}
        Response::QueueUrl(url) => xml.leaf("QueueUrl", url),
        Response::Queues { urls, next } | Response::SourceQueues { urls, next } => {
            urls.iter().for_each(|url| xml.leaf("QueueUrl", url));
            xml.optional("NextToken", next.as_ref());
        }
        Response::Attributes(pairs) => {
            pairs.iter().for_each(|(name, value)| xml.pair("Attribute", "Name", name, value));
        }
        Response::Tags(pairs) => {
            pairs.iter().for_each(|(key, value)| xml.pair("Tag", "Key", key, value));
        }
        Response::Caller { account, arn, user } => {
            xml.leaf("Arn", arn);
            xml.leaf("UserId", user);
            xml.leaf("Account", account);
        }
        Response::Sent(sent) => sent_message(xml, sent),
        Response::Messages(messages) => {
            messages.iter().for_each(|message| xml.element("Message", |xml| received(xml, message)));
        }
        Response::Batch { successful, failed } => {
            let entry = format!("{}ResultEntry", action.name());
            successful.iter().for_each(|one| xml.element(&entry, |xml| succeeded_entry(xml, one)));
            failed.iter().for_each(|one| xml.element("BatchResultErrorEntry", |xml| failed_entry(xml, one)));
        }
        Response::TaskHandle(handle) => xml.leaf("TaskHandle", handle),
        Response::Moved(moved) => xml.leaf("ApproximateNumberOfMessagesMoved", &moved.to_string()),
        Response::MoveTasks(tasks) => {
            tasks.iter().for_each(|task| xml.element("ListMessageMoveTasksResultEntry", |xml| listed_task(xml, task)));
        }
    }
}

fn listed_task(xml: &mut Xml, task: &ListedTask) {
    xml.optional("TaskHandle", task.task_handle.as_ref());
    xml.leaf("Status", task.status);
    xml.leaf("SourceArn", &task.source_arn);
    xml.optional("DestinationArn", task.destination_arn.as_ref());
    xml.optional("MaxNumberOfMessagesPerSecond", task.rate.map(|rate| rate.to_string()).as_ref());
    xml.leaf("ApproximateNumberOfMessagesMoved", &task.moved.to_string());
    xml.leaf("ApproximateNumberOfMessagesToMove", &task.to_move.to_string());
    xml.optional("FailureReason", task.failure_reason.as_ref());
    xml.leaf("StartedTimestamp", &task.started.to_string());
}

fn sent_message(xml: &mut Xml, sent: &Sent) {
    xml.leaf("MessageId", &sent.message_id);
    xml.leaf("MD5OfMessageBody", &sent.md5_of_body);
    xml.optional("MD5OfMessageAttributes", sent.md5_of_attributes.as_ref());
    xml.optional("MD5OfMessageSystemAttributes", sent.md5_of_system_attributes.as_ref());
    xml.optional("SequenceNumber", sent.sequence_number.as_ref());
}

fn received(xml: &mut Xml, message: &ReceivedMessage) {
    xml.leaf("MessageId", &message.message_id);
    xml.leaf("ReceiptHandle", &message.receipt_handle);
    xml.leaf("MD5OfBody", &message.md5_of_body);
    xml.leaf("Body", message.body.as_str());
    for (name, value) in &message.attributes {
        xml.pair("Attribute", "Name", name, value);
    }
    xml.optional("MD5OfMessageAttributes", message.md5_of_attributes.as_ref());
    for (name, value) in &message.message_attributes {
        xml.element("MessageAttribute", |xml| {
            xml.leaf("Name", name);
            xml.element("Value", |xml| attribute_value(xml, value));
        });
    }
}

fn attribute_value(xml: &mut Xml, value: &AttributeValue) {
    match value.text() {
        Some(text) => xml.leaf("StringValue", text),
        None => xml.leaf("BinaryValue", &base64::encode(value.data())),
    }
    xml.leaf("DataType", value.data_type());
}

fn succeeded_entry(xml: &mut Xml, succeeded: &Succeeded) {
    xml.leaf("Id", &succeeded.id);
    if let Some(sent) = &succeeded.sent {
        sent_message(xml, sent);
    }
}

fn failed_entry(xml: &mut Xml, failed: &Failed) {
    xml.leaf("Id", &failed.id);
    xml.leaf("SenderFault", if failed.sender_fault { "true" } else { "false" });
    xml.leaf("Code", failed.code);
    xml.leaf("Message", &failed.message);
}

#[cfg(test)]
mod tests {
    use super::*;

    fn read_form(body: &str) -> Result<Request, SqsError> {
        read(&Incoming { target: None, path_queue: Some("q.fifo"), query: "", body: body.as_bytes() })
    }

    /// A request as Debian's boto3 writes it.
    const SEND: &str = "Action=SendMessageBatch&Version=2012-11-05&SendMessageBatchRequestEntry.1.Id=a\
        &SendMessageBatchRequestEntry.1.MessageBody=h%C3%A9+%0D&SendMessageBatchRequestEntry.1.MessageGroupId=g\
        &SendMessageBatchRequestEntry.1.MessageAttribute.1.Name=n\
        &SendMessageBatchRequestEntry.1.MessageAttribute.1.Value.DataType=Number\
        &SendMessageBatchRequestEntry.1.MessageAttribute.1.Value.StringValue=5\
        &SendMessageBatchRequestEntry.2.Id=b";

    #[test]
    fn a_batch_is_read() {
        let Ok(Request::SendMessageBatch { queue, batch }) = read_form(SEND) else { panic!() };
        assert_eq!(queue.as_str(), "q.fifo");
        let first = batch[0].1.as_ref().unwrap();
        assert_eq!((first.body.as_str(), first.attributes["n"].data()), ("hé \r", &b"5"[..]));
        assert_eq!(batch[1].1, Err(SqsError::MissingParameter("MessageBody".into())));
    }

    #[test]
    fn numbers_may_be_left_out_where_there_is_one_part() {
        for (old, new) in [
            ("Action=GetQueueAttributes&AttributeName=All", "Action=GetQueueAttributes&AttributeName.1=All"),
            (
                "Action=SetQueueAttributes&Attribute.Name=VisibilityTimeout&Attribute.Value=5",
                "Action=SetQueueAttributes&Attribute.1.Name=VisibilityTimeout&Attribute.1.Value=5",
            ),
            ("Action=TagQueue&Tag.Key=a&Tag.Value=b", "Action=TagQueue&Tag.1.Key=a&Tag.1.Value=b"),
            ("Action=UntagQueue&TagKey=a", "Action=UntagQueue&TagKey.1=a"),
        ] {
            assert!(read_form(old).is_ok() && read_form(old) == read_form(new), "{old}");
        }
        assert!(read_form("Action=TagQueue&Tag.Key=a&Tag.Value=b&Tag.1.Key=c").is_err());
    }

    #[test]
    fn broken_forms_are_refused() {
        for body in [
            "Action",
            "Action=ListQueues&QueueNamePrefix=%ff",
            "Action=ListQueues&QueueNamePrefix=%c3",
            "Action=ListQueueTags&Attribute=1&Attribute.1.Name=a",
            "Action=ListQueueTags&Attribute.1.Name=a&Attribute=1",
            "Action=ListQueueTags&AttributeName.x=a",
            "Action=ListQueueTags&AttributeName.01=a",
            "Action=ListQueueTags&Tag.1.Value=a",
            &format!("Action=ListQueueTags&a{}=1", ".a".repeat(1000)),
            &format!("Action=ListQueueTags{}", "&a=".repeat(MOST_FIELDS)),
        ] {
            assert!(read_form(body).is_err(), "{body}");
        }
        assert!(read_form(&format!("Action=ListQueueTags{}", "&a=".repeat(MOST_FIELDS - 1))).is_ok());
        assert_eq!(read_form(""), Err(SqsError::MissingParameter("Action".into())));
        assert_eq!(read_form("Action=SendMessageBatch&Entries="), Err(SqsError::EmptyBatchRequest));
    }

    #[test]
    fn forms_are_read_as_all_servers_read_them() {
        let wanted =
            read_form("Action=SendMessage&MessageBody=%C3%A4&MessageGroupId=g&MessageDeduplicationId=d").unwrap();
        let others = [
            "Action=SendMessage&MessageBody=ä&MessageGroupId=g&MessageDeduplicationId=d",
            "&Action=SendMessage&&MessageBody=%C3%A4&MessageGroupId=g&MessageDeduplicationId=d&",
            "foo&Action=SendMessage&MessageBody=%C3%A4&MessageGroupId=g&MessageDeduplicationId=d&foo",
        ];
        for body in others {
            assert_eq!(read_form(body).as_ref(), Ok(&wanted), "{body}");
        }
        // Fields of the URL are fields, too, and those of the body count.
        let in_both = |query, body: &str| {
            read(&Incoming { target: None, path_queue: Some("q.fifo"), query, body: body.as_bytes() })
        };
        let rest = "MessageBody=ä&MessageGroupId=g&MessageDeduplicationId=d";
        assert_eq!(in_both("Action=SendMessage", rest).as_ref(), Ok(&wanted));
        assert_eq!(
            in_both("Action=PurgeQueue&MessageBody=b", &format!("Action=SendMessage&{rest}")).as_ref(),
            Ok(&wanted)
        );
        assert!(in_both("Action=SendMessage&MessageBody=%ff", rest).is_err());
        assert!(in_both(
            &"a&".repeat(MOST_FIELDS / 2),
            &format!("Action=ListQueueTags{}", "&a".repeat(MOST_FIELDS / 2))
        )
        .is_err());
        let who =
            |query, body: &str| asks_who(&Incoming { target: None, path_queue: None, query, body: body.as_bytes() });
        assert!(who("Action=GetCallerIdentity", "Version=1") && who("", "Action=GetCallerIdentity"));
        assert!(!who("Action=GetCallerIdentity", "Action=ListQueues"));
    }

    #[test]
    fn any_front_and_any_flipped_byte_of_a_form_is_read_or_refused() {
        for length in 0..SEND.len() {
            let _ = read_form(&SEND[..length]);
            for flip in [1u8, 0x80] {
                let mut spoilt = SEND.as_bytes().to_vec();
                spoilt[length] ^= flip;
                let _ = read(&Incoming { target: None, path_queue: None, query: "", body: &spoilt });
            }
        }
    }

    #[test]
    fn answers_and_errors_have_the_services_form() {
        let reply = answer(Action::GetQueueUrl, &Response::QueueUrl("a<b\r".into()), "r".into());
        let expected =
            "<?xml version=\"1.0\"?><GetQueueUrlResponse xmlns=\"http://queue.amazonaws.com/doc/2012-11-05/\">\
            <GetQueueUrlResult><QueueUrl>a&lt;b&#xD;</QueueUrl></GetQueueUrlResult>\
            <ResponseMetadata><RequestId>r</RequestId></ResponseMetadata></GetQueueUrlResponse>";
        assert_eq!(String::from_utf8(reply.body).unwrap(), expected);
        let refused = refuse(&SqsError::UnknownOperation("\u{1}".into()), "r".into());
        assert_eq!(refused.status, 400);
        let text = String::from_utf8(refused.body).unwrap();
        assert!(text.contains("<Type>Sender</Type><Code>InvalidAction</Code>") && text.contains("<Detail/>"));
        assert!(!text.contains('\u{1}'));
    }

    /// Whether a parser finds all elements, and no character that XML has not.
    fn is_read(reply: &Reply) -> bool {
        let text = std::str::from_utf8(&reply.body).unwrap();
        let mut reader = quick_xml::Reader::from_str(text);
        while !matches!(reader.read_event().unwrap(), Event::Eof) {}
        is_of_xml(text)
    }

    #[test]
    fn whatever_an_answer_says_a_parser_reads_it() {
        let hostile: String = ('\0'..='\u{2ff}').chain('\u{fff0}'..='\u{ffff}').chain(['\u{10ffff}']).collect();
        let text = || hostile.clone();
        let error = SqsError::InvalidParameterValue(text());
        let sent = Sent {
            message_id: text(),
            md5_of_body: text(),
            md5_of_attributes: Some(text()),
            md5_of_system_attributes: Some(text()),
            sequence_number: Some(text()),
        };
        let message = ReceivedMessage {
            message_id: text(),
            receipt_handle: text(),
            md5_of_body: text(),
            body: hostile.as_str().into(),
            attributes: vec![("SenderId", text())],
            md5_of_attributes: Some(text()),
            message_attributes: [(
                text(),
                serde_json::from_value(serde_json::json!({"DataType": text(), "StringValue": text()})).unwrap(),
            )]
            .into(),
        };
        let task = ListedTask {
            task_handle: Some(text()),
            status: "RUNNING",
            source_arn: text(),
            destination_arn: Some(text()),
            rate: None,
            moved: 0,
            to_move: 0,
            failure_reason: Some(text()),
            started: 0,
        };
        let urls = vec![text()];
        for (action, response) in [
            (Action::GetQueueUrl, Response::QueueUrl(text())),
            (Action::ListQueues, Response::Queues { urls: urls.clone(), next: Some(text()) }),
            (Action::ListDeadLetterSourceQueues, Response::SourceQueues { urls, next: Some(text()) }),
            (Action::GetQueueAttributes, Response::Attributes(vec![(text(), text())])),
            (Action::ListQueueTags, Response::Tags(vec![(text(), text())])),
            (Action::GetCallerIdentity, Response::Caller { account: text(), arn: text(), user: text() }),
            (Action::SendMessage, Response::Sent(sent.clone())),
            (Action::ReceiveMessage, Response::Messages(vec![message])),
            (
                Action::SendMessageBatch,
                Response::Batch {
                    successful: vec![Succeeded { id: text(), sent: Some(sent) }],
                    failed: vec![Failed::new(text(), &error)],
                },
            ),
            (Action::StartMessageMoveTask, Response::TaskHandle(text())),
            (Action::ListMessageMoveTasks, Response::MoveTasks(vec![task])),
        ] {
            assert!(is_read(&answer(action, &response, text())), "{response:?}");
        }
        assert!(is_read(&refuse(&error, text())));
    }
}
