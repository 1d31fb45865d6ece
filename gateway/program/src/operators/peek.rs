//! `GET /_aws/sqs/messages`: what stands in a queue, for operators, as LocalStack shows it. Nothing is received by it.

use std::sync::Arc;

use bytes::Bytes;
use hobbychair_bytes::values::Receipt;
use hobbychair_sqs::errors::SqsError;
use hobbychair_sqs::texts::QueueName;
use hobbychair_sqs::wire::requests::Shown;
use hobbychair_sqs::wire::responses::ReceivedMessage;
use hobbychair_sqs::wire::{self, Protocol, Reply};
use hobbychair_store::store::Store;
use hobbychair_tables::ask::Handed;
use hobbychair_tables::budget::{Budget, Share};
use hobbychair_tables::queue::Queue;
use hobbychair_tables::state::{Chunk, Cursor, Peeked, Visibility};
use hyper::header::{HeaderMap, HeaderValue, ACCEPT, CONTENT_TYPE};
use hyper::{Response, StatusCode, Uri};
use serde_json::{json, Map, Value};
use tokio::runtime::Handle;
use uuid::Uuid;

use crate::actions::{show, Owner};
use crate::work::parts::{self, Read};

/// The path, behind which a region, an account and a queue may stand.
pub const PATH: &str = "/_aws/sqs/messages";

/// The receipt handle of all messages. No action takes it.
const HANDLE: &str = "SQS/BACKDOOR/ACCESS";

/// So many messages are looked at before others may use the queue again.
const CHUNK_MESSAGES: usize = 100;

/// An answer has at most so many messages, ends with the one with which they have so many bytes, and comes of so many.
const MOST_MESSAGES: usize = 1_000;
const MOST_BYTES: usize = 1 << 20;
const MOST_LOOKED_AT: usize = 100_000;

/// What all answers may keep in memory, and what one takes at most while it is made: messages of twice `MOST_BYTES`,
/// and a text in which a byte of theirs may have six.
const MEMORY_BYTES: usize = 64 << 20;
const LONGEST_ANSWER_BYTES: usize = 16 << 20;

/// The format of an answer.
#[derive(Clone, Copy, Debug, PartialEq, Eq)]
enum Format {
    Xml,
    Json,
}

impl Format {
    fn of(headers: &HeaderMap) -> Format {
        let accepts = headers.get_all(ACCEPT).iter().filter_map(|value| value.to_str().ok());
        let mut kinds = accepts.flat_map(|accept| accept.split(',')).map(|kind| kind.split(';').next().unwrap_or(kind));
        if kinds.any(|kind| kind.trim().eq_ignore_ascii_case("application/json")) {
            Format::Json
        } else {
            Format::Xml
        }
    }
}

/// What is asked for.
#[derive(Clone, Debug, PartialEq, Eq)]
struct PeekRequest {
    queue: QueueName,
    shows_in_flight: bool,
    shows_delayed: bool,
    after: Cursor,
}

impl PeekRequest {
    fn read(uri: &Uri) -> Result<PeekRequest, SqsError> {
        let fields: Vec<_> = form_urlencoded::parse(uri.query().unwrap_or_default().as_bytes()).collect();
        let field = |name: &str| fields.iter().find(|(found, _)| found == name).map(|(_, value)| &**value);
        let is_said = |name: &str| field(name).is_some_and(|value| value == "1" || value.eq_ignore_ascii_case("true"));
        let rest = uri.path().strip_prefix(PATH).unwrap_or_default();
        let parts: Vec<_> = rest.strip_suffix('/').unwrap_or(rest).split('/').collect();
        let url = match parts[..] {
            [""] => field("QueueUrl").ok_or_else(|| SqsError::MissingParameter("QueueUrl".into()))?,
            ["", _, _, queue] => queue,
            _ => return Err(SqsError::InvalidAddress(uri.path().into())),
        };
        Ok(PeekRequest {
            queue: QueueName::of_url(url)?,
            shows_in_flight: is_said("ShowInvisible"),
            shows_delayed: is_said("ShowDelayed"),
            after: field("NextToken").map_or(Ok(Cursor::FIRST), str::parse)?,
        })
    }

    fn has(&self, visibility: Visibility) -> bool {
        match visibility {
            Visibility::Visible => true,
            Visibility::InFlight => self.shows_in_flight,
            Visibility::Delayed => self.shows_delayed,
        }
    }
}

/// Shows messages of queues.
pub struct Peeks {
    owner: Owner,
    budget: Budget,
}

impl Peeks {
    pub fn new(owner: Owner) -> Peeks {
        Peeks { owner, budget: Budget::of(MEMORY_BYTES, 0) }
    }

    /// The answer to a request below `PATH`, and what it counts.
    pub async fn answer(&self, store: &Store, uri: &Uri, headers: &HeaderMap) -> (Response<Bytes>, Arc<Share>) {
        let format = Format::of(headers);
        let share = Arc::new(self.budget.share());
        let reply = if share.try_set(LONGEST_ANSWER_BYTES) {
            self.page(store, uri, format).await
        } else {
            Err(SqsError::ServiceUnavailable("Too many messages are being shown.".into()))
        };
        (reply.unwrap_or_else(|error| PeekReply::refusal(format, &error)).into_response(), share)
    }

    /// A page in a format. It is made on a thread beside those that serve clients, so that these wait for nothing.
    async fn page(&self, store: &Store, uri: &Uri, format: Format) -> Result<PeekReply, SqsError> {
        let wanted = PeekRequest::read(uri)?;
        let queue = store.queues().get(&wanted.queue)?;
        let (name, owner, shared) = (wanted.queue.clone(), self.owner.clone(), store.clone());
        let making = tokio::task::spawn_blocking(move || {
            Page::of(&shared, &queue, &wanted, &owner).map(|page| page.reply(format))
        });
        let reply = making.await.unwrap_or_else(|_| Err(SqsError::store_is_gone()))?;
        // What is shown is on disk, as all that clients are told.
        if store.wait_until_durable(&name).await {
            Ok(reply)
        } else {
            Err(SqsError::store_is_gone())
        }
    }
}

/// Messages that are shown at once.
#[derive(Default)]
struct Page {
    messages: Vec<ReceivedMessage>,
    bytes: usize,
    looked_at: usize,
    /// Where the next one begins, if there may be one.
    next: Option<String>,
}

impl Page {
    fn of(store: &Store, queue: &Arc<Queue>, wanted: &PeekRequest, owner: &Owner) -> Result<Page, SqsError> {
        let mut page = Page::default();
        let mut cursor = Some(wanted.after);
        while let (Some(after), false) = (cursor, page.is_full()) {
            if queue.state().removed {
                return Err(SqsError::QueueDoesNotExist);
            }
            let (place, chunk) = queue.peek(after, CHUNK_MESSAGES, store.clock().now());
            cursor = page.take(store, chunk, wanted, &place, owner)?;
        }
        page.next = cursor.map(|cursor| cursor.to_string());
        Ok(page)
    }

    fn reply(&self, format: Format) -> PeekReply {
        let id = Uuid::new_v4().to_string();
        match format {
            Format::Xml => wire::peeked(&self.messages, self.next.as_ref(), id).into(),
            Format::Json => PeekReply::in_json(200, &in_json(self, id)),
        }
    }

    fn is_full(&self) -> bool {
        self.messages.len() >= MOST_MESSAGES || self.bytes >= MOST_BYTES || self.looked_at >= MOST_LOOKED_AT
    }

    /// Takes up messages until it is full, and tells where to go on.
    fn take(
        &mut self,
        store: &Store,
        chunk: Chunk,
        wanted: &PeekRequest,
        queue: &Queue,
        owner: &Owner,
    ) -> Result<Option<Cursor>, SqsError> {
        for peeked in chunk.peeked {
            let cursor = peeked.cursor;
            self.looked_at += 1;
            if let (true, Some(envelope)) = (wanted.has(peeked.visibility), whole_of(store, &peeked)?) {
                self.add(peeked, envelope, wanted, queue, owner)?;
            }
            if self.is_full() {
                return Ok(Some(cursor));
            }
        }
        Ok(chunk.next)
    }

    fn add(
        &mut self,
        peeked: Peeked,
        envelope: Arc<str>,
        wanted: &PeekRequest,
        queue: &Queue,
        owner: &Owner,
    ) -> Result<(), SqsError> {
        let Peeked { visibility, sequence, group, count, first, .. } = peeked;
        let first = first.unwrap_or(0);
        self.bytes += envelope.len();
        let receipt = Receipt { incarnation: queue.state().incarnation, sequence, ordinal: count };
        let handed = Handed { receipt, moment: 0, first, group, envelope };
        let mut message = show(queue, &handed, &Shown::all(), (owner, HANDLE.into()))?;
        if wanted.shows_in_flight {
            message.attributes.push(("IsVisible", (visibility != Visibility::InFlight).to_string()));
        }
        if wanted.shows_delayed {
            message.attributes.push(("IsDelayed", (visibility == Visibility::Delayed).to_string()));
        }
        self.messages.push(message);
        Ok(())
    }
}

/// The whole envelope of a message; none where it is gone by now. Waits for the store where it stands in parts.
fn whole_of(store: &Store, peeked: &Peeked) -> Result<Option<Arc<str>>, SqsError> {
    let envelope = peeked.envelope.clone();
    match Handle::current().block_on(parts::read(store, &envelope))? {
        Read::Whole => Ok(Some(envelope)),
        Read::InParts(whole) => Ok(Some(whole.into())),
        Read::Gone => Ok(None),
    }
}

/// An answer before it is sent.
struct PeekReply {
    status: u16,
    content_type: &'static str,
    body: Vec<u8>,
}

impl PeekReply {
    fn in_json(status: u16, value: &Value) -> PeekReply {
        PeekReply { status, content_type: JSON, body: value.to_string().into_bytes() }
    }

    fn refusal(format: Format, error: &SqsError) -> PeekReply {
        let id = Uuid::new_v4().to_string();
        match format {
            Format::Xml => Protocol::Query.refuse(error, id).into(),
            Format::Json => PeekReply::in_json(error.coded().status, &refusal_in_json(error, id)),
        }
    }

    fn into_response(self) -> Response<Bytes> {
        let mut response = Response::new(Bytes::from(self.body));
        *response.status_mut() = StatusCode::from_u16(self.status).unwrap_or(StatusCode::INTERNAL_SERVER_ERROR);
        response.headers_mut().insert(CONTENT_TYPE, HeaderValue::from_static(self.content_type));
        response
    }
}

impl From<Reply> for PeekReply {
    fn from(reply: Reply) -> PeekReply {
        PeekReply { status: reply.status, content_type: reply.content_type, body: reply.body }
    }
}

const JSON: &str = "application/json";

/// The answer in JSON: the elements that it has in XML by their names. Several of one name are a list, and one stands
/// by itself.
fn in_json(page: &Page, id: String) -> Value {
    let mut result = Map::new();
    insert_each(&mut result, "Message", page.messages.iter().map(message_in_json).collect());
    if let Some(next) = &page.next {
        result.insert("NextToken".into(), json!(next));
    }
    let result = if result.is_empty() { Value::Null } else { Value::Object(result) };
    json!({"ReceiveMessageResponse": {"ReceiveMessageResult": result, "ResponseMetadata": {"RequestId": id}}})
}

fn insert_each(map: &mut Map<String, Value>, name: &str, mut values: Vec<Value>) {
    let value = match values.len() {
        0 => return,
        1 => values.swap_remove(0),
        _ => Value::Array(values),
    };
    map.insert(name.into(), value);
}

fn message_in_json(message: &ReceivedMessage) -> Value {
    let mut reply = Map::new();
    for (name, value) in [
        ("MessageId", message.message_id.as_str()),
        ("ReceiptHandle", &message.receipt_handle),
        ("MD5OfBody", &message.md5_of_body),
        ("Body", message.body.as_str()),
    ] {
        reply.insert(name.into(), json!(value));
    }
    let attributes = message.attributes.iter().map(|(name, value)| json!({"Name": name, "Value": value}));
    insert_each(&mut reply, "Attribute", attributes.collect());
    if let Some(md5) = &message.md5_of_attributes {
        reply.insert("MD5OfMessageAttributes".into(), json!(md5));
    }
    let attributes = message.message_attributes.iter().map(|(name, value)| json!({"Name": name, "Value": value}));
    insert_each(&mut reply, "MessageAttribute", attributes.collect());
    Value::Object(reply)
}

fn refusal_in_json(error: &SqsError, id: String) -> Value {
    let fault = if error.is_sender_fault() { "Sender" } else { "Receiver" };
    let reply = json!({"Type": fault, "Code": error.coded().code, "Message": error.client_message(), "Detail": null});
    json!({"ErrorResponse": {"Error": reply, "RequestId": id}})
}

#[cfg(test)]
mod tests {
    use super::*;

    fn read(uri: &str) -> Result<PeekRequest, SqsError> {
        PeekRequest::read(&uri.parse().unwrap())
    }

    #[test]
    fn what_is_asked_for() {
        let plain = PeekRequest {
            queue: QueueName::parse("q.fifo").unwrap(),
            shows_in_flight: false,
            shows_delayed: false,
            after: Cursor::FIRST,
        };
        for url in ["http%3A%2F%2Flocalhost%3A9324%2F000000000000%2Fq.fifo", "http://any/eu-west-1/1/q.fifo/", "q.fifo"]
        {
            assert_eq!(
                read(&format!("/_aws/sqs/messages?QueueUrl={url}&ShowDelayed=false")),
                Ok(plain.clone()),
                "{url}"
            );
        }
        assert_eq!(read("/_aws/sqs/messages/us-east-1/000000000000/q.fifo"), Ok(plain.clone()));
        let all =
            read("/_aws/sqs/messages/r/1/q.fifo/?ShowInvisible=True&ShowDelayed=1&NextToken=delayed-5-7").unwrap();
        assert_eq!(
            all,
            PeekRequest { shows_in_flight: true, shows_delayed: true, after: Cursor::Delayed(5, 7), ..plain }
        );
    }

    #[test]
    fn what_names_no_queue_or_no_cursor_is_refused() {
        for (uri, code) in [
            ("/_aws/sqs/messages", "MissingParameter"),
            ("/_aws/sqs/messages?QueueUrl=", "InvalidAddress"),
            ("/_aws/sqs/messages?QueueUrl=http%3A%2F%2Fhello.world", "InvalidAddress"),
            ("/_aws/sqs/messages/1/q.fifo", "InvalidAddress"),
            ("/_aws/sqs/messages/r/1/q.fifo/more", "InvalidAddress"),
            ("/_aws/sqs/messagesq.fifo", "InvalidAddress"),
            ("/_aws/sqs/messages?QueueUrl=q&NextToken=stored", "InvalidParameterValue"),
            ("/_aws/sqs/messages?QueueUrl=q&NextToken=stored--1", "InvalidParameterValue"),
        ] {
            let error = read(uri).unwrap_err();
            assert_eq!(error.coded().code, code, "{uri}");
        }
    }

    #[test]
    fn a_cursor_comes_back() {
        for cursor in [Cursor::FIRST, Cursor::Stored(u64::MAX), Cursor::Delayed(1_700_000_000_000, 3)] {
            assert_eq!(cursor.to_string().parse(), Ok(cursor));
        }
    }

    #[test]
    fn json_is_told_to_those_who_accept_it() {
        let format = |accepted: &[&str]| {
            Format::of(&accepted.iter().map(|value| (ACCEPT, value.parse().unwrap())).collect::<HeaderMap>())
        };
        for json in
            [&["application/json"][..], &["text/html, Application/JSON;q=0.9"], &["text/xml", "application/json"]]
        {
            assert_eq!(format(json), Format::Json, "{json:?}");
        }
        for xml in [&[][..], &["*/*"], &["application/jsonp"], &["text/xml"]] {
            assert_eq!(format(xml), Format::Xml, "{xml:?}");
        }
    }
}
