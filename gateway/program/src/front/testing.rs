//! What a front refuses by itself: what the gateway that acts would refuse by the bytes of a request alone.

use std::path::Path;
use std::sync::Arc;
use std::time::SystemTime;

use anyhow::Result;
use hobbychair_sqs::access::Keys;
use hobbychair_sqs::action::Action;
use hyper::http::request::Parts;

use crate::http::{incoming, protocol_of, signable, Unread};

/// Tests requests before they are passed on.
#[derive(Clone)]
pub struct Testing {
    keys: Option<Arc<Keys>>,
}

impl Testing {
    /// Requests have to be signed with a key of that file, if there is one.
    pub fn new(credentials: Option<&Path>) -> Result<Testing> {
        Ok(Testing { keys: credentials.map(Keys::read).transpose()?.map(Arc::new) })
    }

    /// The keys without which nobody comes in; none where the gateway alone asks for them.
    pub fn keys(&self) -> &Option<Arc<Keys>> {
        &self.keys
    }

    /// The action that is asked for. Refuses a request for nothing that is there, one that isn't signed as it has to be, and one of another form or beyond a
    /// bound of its action. What its key may do is the gateway's matter. Takes time in proportion to its bytes.
    pub fn test(&self, head: &Parts, body: &[u8]) -> Result<Action, Unread> {
        let incoming = incoming(head, body)?;
        if let Some(keys) = &self.keys {
            keys.verify(&signable(head, body), incoming.service().name(), SystemTime::now())?;
        }
        Ok(protocol_of(&head.headers).read(&incoming)?.action())
    }
}
