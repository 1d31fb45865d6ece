//! The two protocols that clients speak, over the same types: AWS JSON 1.0, and the query form with answers in XML.

mod json;
mod members;
mod query;
pub mod requests;
pub mod responses;
#[cfg(test)]
mod tests;
pub mod tokens;
mod value;

pub use query::peeked;
pub use requests::Request;
pub use responses::Response;

use crate::action::Action;
use crate::errors::SqsError;

/// Whose action a request asks for.
#[derive(Clone, Copy, Debug, PartialEq, Eq)]
pub enum AwsService {
    Sqs,
    /// The Security Token Service, of which there is one action.
    Sts,
}

impl AwsService {
    /// The name that signatures have.
    pub fn name(self) -> &'static str {
        match self {
            AwsService::Sqs => "sqs",
            AwsService::Sts => "sts",
        }
    }

    /// The XML namespace of the query protocol's answers.
    fn namespace(self) -> &'static str {
        match self {
            AwsService::Sqs => "http://queue.amazonaws.com/doc/2012-11-05/",
            AwsService::Sts => "https://sts.amazonaws.com/doc/2011-06-15/",
        }
    }
}

/// Which protocol a client speaks.
#[derive(Clone, Copy, Debug, PartialEq, Eq)]
pub enum Protocol {
    Json,
    Query,
}

/// What of an HTTP request says what is asked.
#[derive(Clone, Copy, Debug)]
pub struct Incoming<'a> {
    /// The header `X-Amz-Target`, which the JSON protocol has.
    pub target: Option<&'a str>,
    /// The queue in the path, where there is one.
    pub path_queue: Option<&'a str>,
    /// The query string of the URL.
    pub query: &'a str,
    pub body: &'a [u8],
}

impl Incoming<'_> {
    /// Whose action it asks for, as far as that can be seen before it is read.
    pub fn service(&self) -> AwsService {
        if Protocol::of(self) == Protocol::Query && query::asks_who(self) {
            AwsService::Sts
        } else {
            AwsService::Sqs
        }
    }
}

/// A response, ready to be sent.
#[derive(Clone, Debug, PartialEq, Eq)]
pub struct Reply {
    pub status: u16,
    pub content_type: &'static str,
    /// The header `x-amzn-query-error`, which errors have in the JSON protocol.
    pub query_error: Option<String>,
    pub request_id: String,
    /// How many bytes a front needs room for before anything is received.
    pub needs_room: Option<usize>,
    pub body: Vec<u8>,
}

impl Protocol {
    pub fn of(incoming: &Incoming<'_>) -> Protocol {
        match incoming.target {
            Some(_) => Protocol::Json,
            None => Protocol::Query,
        }
    }

    /// Reads and tests a request. Takes time in proportion to its bytes.
    pub fn read(self, incoming: &Incoming<'_>) -> Result<Request, SqsError> {
        match self {
            Protocol::Json => json::read(incoming),
            Protocol::Query => query::read(incoming),
        }
    }

    /// The response to an action that was done.
    pub fn answer(self, action: Action, response: &Response, request_id: String) -> Reply {
        match self {
            Protocol::Json => json::answer(response, request_id),
            Protocol::Query => query::answer(action, response, request_id),
        }
    }

    /// The response to a request that was refused.
    pub fn refuse(self, error: &SqsError, request_id: String) -> Reply {
        let reply = match self {
            Protocol::Json => json::refuse(error, request_id),
            Protocol::Query => query::refuse(error, request_id),
        };
        let needs_room = match error {
            SqsError::NeedsRoom(bytes) => Some(*bytes),
            _ => None,
        };
        Reply { needs_room, ..reply }
    }
}

fn fault(error: &SqsError) -> &'static str {
    if error.is_sender_fault() {
        "Sender"
    } else {
        "Receiver"
    }
}
