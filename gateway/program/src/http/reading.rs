//! What of an HTTP request says what is asked, and why it may not be read.

use bytes::Bytes;
use hobbychair_sqs::access::Signable;
use hobbychair_sqs::errors::SqsError;
use hobbychair_sqs::wire::{Incoming, Protocol};
use hyper::header::{HeaderValue, ALLOW, CONNECTION, EXPECT, TRANSFER_ENCODING};
use hyper::http::request::Parts;
use hyper::{Method, Response, StatusCode};
use uuid::Uuid;

use super::{address, refused, text_of, TARGET};

/// Why a request isn't performed.
pub enum Unread {
    LongHead,
    /// It is neither a POST nor a GET, nor a HEAD.
    Method,
    /// It comes in another coding than chunks (RFC 9112, 6.1).
    Coding,
    /// It expects something else than `100-continue` (RFC 9110, 10.1.1).
    Expectation,
    NotFound,
    /// `closes`: the connection ends behind the refusal, since not all of the request was read.
    Refused {
        error: SqsError,
        closes: bool,
    },
}

impl From<SqsError> for Unread {
    fn from(error: SqsError) -> Unread {
        Unread::Refused { error, closes: false }
    }
}

impl Unread {
    /// What the client is told.
    pub fn response(&self, protocol: Protocol, request_id: Uuid) -> Response<Bytes> {
        match self {
            Unread::LongHead => too_long_a_head(),
            Unread::Method => other_method(),
            Unread::Coding => plain(StatusCode::NOT_IMPLEMENTED, "There is no transfer coding but chunked here.\n"),
            Unread::Expectation => {
                plain(StatusCode::EXPECTATION_FAILED, "There is no expectation but 100-continue here.\n")
            }
            Unread::NotFound => plain(StatusCode::NOT_FOUND, "There is nothing at this path.\n"),
            Unread::Refused { error, closes } => refused(protocol, error, request_id, *closes),
        }
    }
}

/// What says what is asked. There is nothing at a path that is no queue's and not `/`, and no other methods than these.
pub fn incoming<'a>(head: &'a Parts, body: &'a [u8]) -> Result<Incoming<'a>, Unread> {
    if ![Method::POST, Method::GET, Method::HEAD].contains(&head.method) {
        return Err(Unread::Method);
    }
    for (name, value) in &head.headers {
        if *name == TRANSFER_ENCODING && !value.as_bytes().eq_ignore_ascii_case(b"chunked") {
            return Err(Unread::Coding);
        }
        if *name == EXPECT && !value.as_bytes().eq_ignore_ascii_case(b"100-continue") {
            return Err(Unread::Expectation);
        }
    }
    Ok(Incoming {
        target: text_of(&head.headers, &TARGET),
        path_queue: address::queue_of_path(head.uri.path()).map_err(|_| Unread::NotFound)?,
        query: head.uri.query().unwrap_or_default(),
        body,
    })
}

/// What of it a client may have signed.
pub fn signable<'a>(head: &'a Parts, body: &'a [u8]) -> Signable<'a> {
    Signable {
        method: head.method.as_str(),
        path: head.uri.path(),
        query: head.uri.query().unwrap_or_default(),
        headers: &head.headers,
        body,
    }
}

fn too_long_a_head() -> Response<Bytes> {
    let mut response = Response::new(Bytes::from_static(b"The head of a request has at most 32 KiB.\n"));
    *response.status_mut() = StatusCode::REQUEST_HEADER_FIELDS_TOO_LARGE;
    response.headers_mut().insert(CONNECTION, HeaderValue::from_static("close"));
    response
}

fn other_method() -> Response<Bytes> {
    let mut response = Response::new(Bytes::from_static(b"A request is a POST or a GET.\n"));
    *response.status_mut() = StatusCode::METHOD_NOT_ALLOWED;
    response.headers_mut().insert(ALLOW, HeaderValue::from_static("POST, GET, HEAD"));
    response
}

fn plain(status: StatusCode, text: &'static str) -> Response<Bytes> {
    let mut response = Response::new(Bytes::from_static(text.as_bytes()));
    *response.status_mut() = status;
    response
}
