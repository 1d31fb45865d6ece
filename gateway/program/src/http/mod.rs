//! The HTTP server: reads a request by its protocol, has its action performed, and answers.

mod address;
mod answers;
pub mod bodies;
mod calls;
mod reading;
mod reception;
mod visitor;

use std::net::SocketAddr;
use std::sync::{Arc, Mutex, PoisonError};
use std::time::SystemTime;

use bytes::Bytes;
use hobbychair_bytes::moment::Moment;
use hobbychair_sqs::access::{Identity, Keys};
use hobbychair_sqs::action::Action;
use hobbychair_sqs::errors::SqsError;
use hobbychair_sqs::texts::QueueName;
use hobbychair_sqs::wire::{self, Protocol, Reply};
use hobbychair_store::store::wanted_until;
use hobbychair_tables::budget::{Budget, Share};
use hobbychair_tables::presence::Presence;
use hyper::header::{HeaderMap, HeaderName, HeaderValue, AUTHORIZATION, CONNECTION, CONTENT_TYPE};
use hyper::http::request::Parts;
use hyper::upgrade::OnUpgrade;
use hyper::{Body, Request, Response, StatusCode};
use tokio::time::Instant;
use uuid::Uuid;

use crate::actions::{Actions, Caller};
use crate::door::{Progress, LONGEST_HEAD_BYTES};
use crate::metrics::Metrics;
use crate::repeats::{is_repeat, CallFields, CallResult, IdempotencyKey, Lookup, OpenCall, Repeats};
pub use address::Addresses;
pub use answers::{in_pieces, to_be_written};
pub use reading::{incoming, signable, Unread};
pub use reception::Reception;
pub use visitor::Hosts;
use visitor::{may_be_link, KnownHost};

static TARGET: HeaderName = HeaderName::from_static("x-amz-target");
static INVOCATION: HeaderName = HeaderName::from_static("amz-sdk-invocation-id");
static SDK_REQUEST: HeaderName = HeaderName::from_static("amz-sdk-request");
static REQUEST_ID: HeaderName = HeaderName::from_static("x-amzn-requestid");
/// Fronts of a chain say by these until when they want an answer, in milliseconds of the chain's time, and that they asked before.
static UNTIL: HeaderName = HeaderName::from_static("x-hobbychair-until");
static AGAIN: HeaderName = HeaderName::from_static("x-hobbychair-again");
/// For how many bytes of an answer a front has room; in an answer, how many it needs room for before anything is received.
static ROOM: HeaderName = HeaderName::from_static("x-hobbychair-room");
/// The chain's time, in milliseconds: fronts take it out of answers.
static TIME: HeaderName = HeaderName::from_static("x-hobbychair-time");
static QUERY_ERROR: HeaderName = HeaderName::from_static("x-amzn-query-error");

/// What all connections share.
pub struct Service {
    actions: Actions,
    repeats: Repeats,
    budget: Budget,
    /// The keys of those who may come in. Where there are none, everybody may.
    keys: Option<Arc<Keys>>,
    hosts: Hosts,
    addresses: Addresses,
    metrics: Arc<Metrics>,
}

/// What the requests of one connection share, one after the other.
struct Connection {
    service: Arc<Service>,
    peer: SocketAddr,
    progress: Progress,
    /// What its request counts for the budget.
    share: Arc<Share>,
    host: KnownHost,
    /// A front has asked for calls on it, which begin once it is that.
    upgrading: Mutex<Option<OnUpgrade>>,
}

/// When a request began, and when it has to be whole.
#[derive(Clone, Copy)]
struct Arrival {
    began: Instant,
    deadline: Instant,
}

/// A request that was read, and that may be performed.
struct PermittedCall {
    connection: Arc<Connection>,
    protocol: Protocol,
    action: Action,
    request: Box<wire::Request>,
    request_id: Uuid,
    identity: Option<Arc<Identity>>,
    base_url: String,
    /// Where repeats are told by nothing else.
    digest: Option<[u8; 32]>,
    /// Up to which moment its answer is wanted, where a front says that.
    until: Option<Moment>,
    /// A front has asked it before.
    asked_before: bool,
    /// For how many bytes of an answer a front has room.
    room: Option<usize>,
}

/// A call of which there may be repeats, and whether it says that it is one.
struct Repeatable {
    key: IdempotencyKey,
    is_again: bool,
}

/// What is logged of a request, and counted, when it has been answered.
struct AccessLog {
    arrival: Arrival,
    request_id: Uuid,
    action: Option<Action>,
    /// Only where requests are logged.
    queue: Option<QueueName>,
    identity: Option<Arc<Identity>>,
}

/// A request that was admitted. A long poll keeps this and no more: what was read of its connection goes before.
struct Admitted {
    connection: Arc<Connection>,
    log: AccessLog,
    next: Next,
}

/// What comes of a request that was admitted.
enum Next {
    Perform(Box<PermittedCall>, Option<Box<Repeatable>>),
    Answered(Box<Response<Bytes>>),
}

impl Service {
    /// `hosts` says by which names clients may reach the gateway where there are no keys.
    pub fn new(
        actions: Actions,
        keys: Option<Arc<Keys>>,
        hosts: Hosts,
        addresses: Addresses,
        metrics: Arc<Metrics>,
        budget: Budget,
    ) -> Service {
        Service { actions, repeats: Repeats::default(), budget, keys, hosts, addresses, metrics }
    }

    /// What a connection's requests have in common. A connection has one open at a time.
    fn connection(self: Arc<Service>, peer: SocketAddr, progress: Progress) -> Arc<Connection> {
        let share = Arc::new(self.budget.share());
        let (host, upgrading) = (KnownHost::default(), Mutex::default());
        Arc::new(Connection { service: self, peer, progress, share, host, upgrading })
    }

    /// The chain's time, for fronts. Where the store is gone there is none: a front asks the next gateway then.
    fn time_for_fronts(&self) -> Option<u64> {
        let store = self.actions.store();
        (store.is_of_chain() && !store.is_gone()).then(|| store.clock().now())
    }

    fn tell_time<B>(&self, response: &mut Response<B>) {
        if let Some(time) = self.time_for_fronts() {
            response.headers_mut().insert(&TIME, time.into());
        }
    }

    fn identify(
        &self,
        head: &Parts,
        body: &Bytes,
        service: wire::AwsService,
        host: &KnownHost,
    ) -> Result<Option<Arc<Identity>>, SqsError> {
        let Some(keys) = &self.keys else {
            self.hosts.test_again(&head.uri, &head.headers, host)?;
            return Ok(None);
        };
        keys.verify(&signable(head, body), service.name(), SystemTime::now()).map(Some)
    }
}

impl Connection {
    fn is_of_chain(&self) -> bool {
        self.service.actions.store().is_of_chain()
    }

    /// A front gets a connection of calls: this one, from its answer on.
    fn begin_calls(&self, upgrading: OnUpgrade) -> Response<Body> {
        *self.upgrading.lock().unwrap_or_else(PoisonError::into_inner) = Some(upgrading);
        let mut response = calls::begin();
        self.service.tell_time(&mut response);
        response
    }

    /// What becomes of the connection, where a front has asked for calls.
    fn take_upgrade(&self) -> Option<OnUpgrade> {
        self.upgrading.lock().unwrap_or_else(PoisonError::into_inner).take()
    }

    /// Admits a request: its body is read, and what it asks for. Whatever comes in, there is an answer, in the protocol
    /// that the request speaks.
    async fn admit(self: Arc<Connection>, arrival: Arrival, request: Request<Body>) -> Admitted {
        let (head, body) = request.into_parts();
        let body = bodies::read(body, &self.share, arrival.deadline).await;
        if body.is_ok() {
            self.progress.is_read();
        }
        let mut log = AccessLog { arrival, request_id: Uuid::new_v4(), action: None, queue: None, identity: None };
        let protocol = protocol_of(&head.headers);
        let read = match body {
            _ if length_of_head(&head) > LONGEST_HEAD_BYTES => Err(Unread::LongHead),
            Ok(bytes) => self.clone().read(protocol, &head, &bytes, &mut log),
            Err(error) => Err(Unread::Refused { error, closes: true }),
        };
        let next = read.unwrap_or_else(|unread| Next::Answered(Box::new(unread.response(protocol, log.request_id))));
        Admitted { connection: self, log, next }
    }

    /// Finds out who asks, reads what is asked for, and whether that one may.
    fn read(
        self: Arc<Connection>,
        protocol: Protocol,
        head: &Parts,
        body: &Bytes,
        log: &mut AccessLog,
    ) -> Result<Next, Unread> {
        let incoming = incoming(head, body)?;
        let service = &self.service;
        let identity = service.identify(head, body, incoming.service(), &self.host)?;
        log.identity = identity.clone();
        let request = protocol.read(&incoming)?;
        let action = request.action();
        log.action = Some(action);
        if identity.is_none() && !action.only_reads() && may_be_link(&head.method, &head.headers) {
            return Err(SqsError::MayBeLink(action.name()).into());
        }
        if tracing::enabled!(tracing::Level::DEBUG) {
            log.queue = request.queue().cloned();
        }
        if let Some(identity) = identity.as_ref().filter(|identity| !identity.may(action, request.queue())) {
            return Err(service.actions.denied(identity, action, request.queue()).into());
        }
        let base_url =
            if action.returns_urls() { service.addresses.base_url(&head.headers, self.peer) } else { String::new() };
        self.share.set(request.bytes_kept(body.len()));
        let (request, request_id) = (Box::new(request), log.request_id);
        let is_of_chain = self.is_of_chain();
        let until = is_of_chain.then(|| text_of(&head.headers, &UNTIL)?.parse().ok()).flatten();
        let asked_before = is_of_chain && head.headers.contains_key(&AGAIN);
        let room = is_of_chain.then(|| text_of(&head.headers, &ROOM)?.parse().ok()).flatten();
        let digest = None;
        let mut call = PermittedCall {
            connection: self,
            protocol,
            action,
            request,
            request_id,
            identity,
            base_url,
            digest,
            until,
            asked_before,
            room,
        };
        if call.request.is_deduplicated_by_call() {
            call.digest = call.key(head, body).map(|key| key.0);
        }
        let key = if IdempotencyKey::applies_to(action) { call.key(head, body) } else { None };
        let is_again = || asked_before || text_of(&head.headers, &SDK_REQUEST).is_some_and(is_repeat);
        Ok(Next::Perform(Box::new(call), key.map(|key| Box::new(Repeatable { key, is_again: is_again() }))))
    }

    /// Refuses a request of a connection that is one too many.
    async fn turn_away(&self, arrival: Arrival, request: Request<Body>) -> Response<Bytes> {
        let (head, body) = request.into_parts();
        // What is left unread would have the connection reset before its client has read the answer.
        let _ = bodies::read(body, &self.share, arrival.deadline).await;
        let error = SqsError::ServiceUnavailable("Too many connections are open.".into());
        self.service.metrics.answered(None, StatusCode::SERVICE_UNAVAILABLE.as_u16(), arrival.began.elapsed());
        let mut response = refused(protocol_of(&head.headers), &error, Uuid::new_v4(), true);
        self.service.tell_time(&mut response);
        response
    }

    fn log(&self, log: &AccessLog, status: StatusCode) {
        let time = log.arrival.began.elapsed();
        self.service.metrics.answered(log.action, status.as_u16(), time);
        tracing::debug!(
            request = %log.request_id,
            action = log.action.map_or("none", Action::name),
            queue = log.queue.as_ref().map(QueueName::as_str),
            status = status.as_u16(),
            milliseconds = time.as_secs_f64() * 1e3,
            key = log.identity.as_ref().map(|identity| identity.name()),
            peer = %self.peer,
            "answered"
        );
    }
}

impl Admitted {
    /// Whether it may wait for longer than the store takes.
    fn may_wait(&self) -> bool {
        matches!(&self.next, Next::Perform(call, _) if call.action == Action::ReceiveMessage)
    }

    async fn answer(self) -> Response<Bytes> {
        let mut response = match self.next {
            Next::Perform(call, repeatable) => response(call.answer(repeatable).await),
            Next::Answered(response) => *response,
        };
        self.connection.service.tell_time(&mut response);
        self.connection.log(&self.log, response.status());
        response
    }
}

impl PermittedCall {
    async fn answer(self: Box<PermittedCall>, repeatable: Option<Box<Repeatable>>) -> Reply {
        let Some(repeatable) = repeatable else {
            return self.answer_once().await;
        };
        let service = self.connection.service.clone();
        let (protocol, request_id, socket) = (self.protocol, self.request_id, self.connection.progress.socket());
        let Repeatable { key, is_again } = *repeatable;
        let (_present, answer) = match service.repeats.enter(key, is_again, socket, service.actions.store().clock()) {
            Lookup::Again(present, answer) => (present, answer),
            Lookup::First(presence, present, open) => {
                let answer = service.repeats.answer_of(&open);
                tokio::spawn(self.perform_repeatable(presence, open));
                (present, answer)
            }
        };
        match answer.wait().await {
            Some(result) => Arc::try_unwrap(result).map_or_else(|result| result.reply.clone(), |result| result.reply),
            None => protocol.refuse(&SqsError::InternalFailure("The gateway failed.".into()), request_id.to_string()),
        }
    }

    /// What makes a repeat of this call one.
    fn key(&self, head: &Parts, body: &[u8]) -> Option<IdempotencyKey> {
        let invocation = text_of(&head.headers, &INVOCATION)?;
        let access_key = match &self.identity {
            Some(identity) => identity.name(),
            None => claimed_key(&head.headers),
        };
        let path = &head.uri.to_string();
        Some(IdempotencyKey::of(&CallFields { action: self.action, invocation, access_key, path, body }))
    }

    /// Performs a call of which there are no repeats.
    async fn answer_once(self: Box<PermittedCall>) -> Reply {
        let presence = Presence::default();
        // Others wait for nothing that may go to someone else.
        let socket = self.connection.progress.socket().filter(|_| self.action == Action::ReceiveMessage);
        let _present = presence.enter(socket);
        if !self.action.outlives_its_client() {
            return self.perform(presence).await.reply;
        }
        let (protocol, request_id) = (self.protocol, self.request_id);
        match tokio::spawn(self.perform(presence)).await {
            Ok(result) => result.reply,
            Err(_) => protocol.refuse(&SqsError::InternalFailure("The gateway failed.".into()), request_id.to_string()),
        }
    }

    async fn perform_repeatable(self: Box<PermittedCall>, presence: Presence, open: OpenCall) {
        let connection = self.connection.clone();
        let result = self.perform(presence).await;
        connection.service.repeats.end(open, result);
    }

    async fn perform(self: Box<PermittedCall>, presence: Presence) -> CallResult {
        let (asked_before, room) = (self.asked_before, self.room);
        let PermittedCall {
            connection, protocol, action, request, request_id, identity, base_url, digest, until, ..
        } = *self;
        let share = connection.share.clone();
        let caller = Caller { base_url, presence, identity, call: digest, asked_before, room, share };
        match wanted_until(until, connection.service.actions.perform(request, &caller)).await {
            Ok(performed) => {
                let is_worth_keeping = !performed.response.is_empty_receive();
                let reply = protocol.answer(action, &performed.response, request_id.to_string());
                CallResult { reply, handed: performed.handed, is_worth_keeping }
            }
            Err(error) => {
                let reply = protocol.refuse(&error, request_id.to_string());
                CallResult { reply, handed: None, is_worth_keeping: false }
            }
        }
    }
}

/// The protocol that a request speaks, by its head.
pub fn protocol_of(headers: &HeaderMap) -> Protocol {
    if headers.contains_key(&TARGET) {
        Protocol::Json
    } else {
        Protocol::Query
    }
}

fn text_of<'h>(headers: &'h HeaderMap, name: &HeaderName) -> Option<&'h str> {
    headers.get(name).and_then(|value| value.to_str().ok())
}

/// About as many bytes as the head had.
fn length_of_head(head: &Parts) -> usize {
    let of_headers: usize = head.headers.iter().map(|(name, value)| name.as_str().len() + value.len() + 4).sum();
    head.uri.path_and_query().map_or(0, |path| path.as_str().len()) + of_headers
}

/// The access key that a request names, which nobody has looked at.
fn claimed_key(headers: &HeaderMap) -> &str {
    let authorization = headers.get(AUTHORIZATION).and_then(|value| value.to_str().ok()).unwrap_or_default();
    let credential = authorization.split_once("Credential=").map_or("", |(_, rest)| rest);
    credential.split('/').next().unwrap_or_default()
}

fn response(reply: Reply) -> Response<Bytes> {
    let mut response = Response::new(Bytes::from(reply.body));
    *response.status_mut() = StatusCode::from_u16(reply.status).unwrap_or(StatusCode::INTERNAL_SERVER_ERROR);
    let headers = response.headers_mut();
    headers.insert(CONTENT_TYPE, HeaderValue::from_static(reply.content_type));
    if let Ok(request_id) = HeaderValue::try_from(reply.request_id) {
        headers.insert(&REQUEST_ID, request_id);
    }
    if let Some(bytes) = reply.needs_room {
        headers.insert(&ROOM, HeaderValue::from(bytes));
    }
    if let Some(Ok(error)) = reply.query_error.map(HeaderValue::try_from) {
        headers.insert(&QUERY_ERROR, error);
    }
    response
}

/// A refusal. `closes`: the connection ends behind it.
pub fn refused(protocol: Protocol, error: &SqsError, request_id: Uuid, closes: bool) -> Response<Bytes> {
    let mut response = response(protocol.refuse(error, request_id.to_string()));
    if closes {
        response.headers_mut().insert(CONNECTION, HeaderValue::from_static("close"));
    }
    response
}
