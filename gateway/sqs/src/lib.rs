//! What Amazon SQS (API 2012-11-05) says of requests and their answers, and how the gateway says it: actions and errors, names and
//! bodies, attributes and policies, envelopes and receipt handles, the two protocols, and who may do what.
//!
//! It knows no store and no table of queues, and it opens no connection. Bytes of stores are those of `hobbychair_bytes`.

pub mod access;
pub mod action;
pub mod attributes;
pub mod digests;
pub mod envelope;
pub mod errors;
pub mod handles;
pub mod policy;
pub mod redrive;
pub mod texts;
pub mod wire;
