//! Texts that were tested. Each type is made in one place, and only these types reach the store.

use std::collections::hash_map::RandomState;
use std::fmt;
use std::hash::BuildHasher;
use std::sync::{Arc, OnceLock};

use hobbychair_bytes::characters::{is_of_xml, is_short_and_printable};
use hobbychair_bytes::digits::hex;
use serde::{Deserialize, Serialize};
use sha2::{Digest, Sha256};
use uuid::Uuid;

use crate::errors::SqsError;

/// The kinds of queues (Developer Guide, "Amazon SQS queue types").
#[derive(Clone, Copy, Debug, PartialEq, Eq)]
pub enum QueueKind {
    Fifo,
    Standard,
}

const FIFO_SUFFIX: &str = ".fifo";

/// The name of a queue: 1 to 80 ASCII letters, digits, `-` and `_`, of which a FIFO queue's ends with `.fifo`
/// (API Reference, CreateQueue, `QueueName`). Copies share the text.
#[derive(Clone, Debug, PartialEq, Eq, Hash, PartialOrd, Ord, Serialize)]
pub struct QueueName(Arc<str>);

impl QueueName {
    /// The name in `text`, or none if it breaks the rule.
    pub fn parse(text: &str) -> Option<QueueName> {
        let stem = text.strip_suffix(FIFO_SUFFIX).unwrap_or(text);
        let is_good = |byte: u8| byte.is_ascii_alphanumeric() || byte == b'-' || byte == b'_';
        let is_name = !stem.is_empty() && text.len() <= 80 && stem.bytes().all(is_good);
        is_name.then(|| QueueName(text.into()))
    }

    /// Of which kind the queue is: its name says that.
    pub fn kind(&self) -> QueueKind {
        if self.0.ends_with(FIFO_SUFFIX) {
            QueueKind::Fifo
        } else {
            QueueKind::Standard
        }
    }

    /// The name at the end of a queue's URL, before a slash that may stand behind it; a bare name is taken as well. What
    /// names no queue is `InvalidAddress`.
    pub fn of_url(url: &str) -> Result<QueueName, SqsError> {
        let path = match url.split_once("://") {
            Some((_, rest)) => rest.split_once('/').map_or("", |(_, path)| path),
            None => url,
        };
        let path = path.strip_suffix('/').unwrap_or(path);
        let name = path.rsplit('/').next().unwrap_or(path);
        QueueName::parse(name).ok_or_else(|| SqsError::InvalidAddress(url.into()))
    }

    /// What a client is told of a name that no queue of this kind can have.
    pub fn refusal(kind: QueueKind) -> SqsError {
        let rule = match kind {
            QueueKind::Fifo => {
                "The name of a FIFO queue can only include alphanumeric characters, hyphens, or underscores, \
                 must end with .fifo suffix and be 1 to 80 in length."
            }
            QueueKind::Standard => {
                "Can only include alphanumeric characters, hyphens, or underscores. 1 to 80 in length"
            }
        };
        SqsError::InvalidParameterValue(rule.into())
    }

    /// The text.
    pub fn as_str(&self) -> &str {
        &self.0
    }
}

impl fmt::Display for QueueName {
    fn fmt(&self, formatter: &mut fmt::Formatter<'_>) -> fmt::Result {
        formatter.write_str(&self.0)
    }
}

impl<'de> Deserialize<'de> for QueueName {
    fn deserialize<D: serde::Deserializer<'de>>(deserializer: D) -> Result<QueueName, D::Error> {
        let text = String::deserialize(deserializer)?;
        QueueName::parse(&text).ok_or_else(|| serde::de::Error::custom("this is no queue's name"))
    }
}

fn only_printable(parameter: &str) -> SqsError {
    SqsError::InvalidParameterValue(format!(
        "{parameter} can only include alphanumeric and punctuation characters. 1 to 128 in length."
    ))
}

/// A message group id: 1 to 128 ASCII letters, digits and punctuation marks
/// (API Reference, SendMessage, `MessageGroupId`).
#[derive(Clone, Debug, PartialEq, Eq, Serialize, Deserialize)]
#[serde(transparent)]
pub struct GroupId(String);

impl GroupId {
    /// The id in `text`, or `InvalidParameterValue`.
    pub fn parse(text: &str) -> Result<GroupId, SqsError> {
        is_short_and_printable(text).then(|| GroupId(text.into())).ok_or_else(|| only_printable("MessageGroupId"))
    }

    /// The group of this message alone.
    pub fn of_message(id: Uuid) -> GroupId {
        GroupId(id.as_simple().to_string())
    }

    /// The text.
    pub fn as_str(&self) -> &str {
        &self.0
    }
}

/// A message deduplication id: 1 to 128 ASCII letters, digits and punctuation marks
/// (API Reference, SendMessage, `MessageDeduplicationId`).
#[derive(Clone, Debug, PartialEq, Eq, Hash, Serialize, Deserialize)]
#[serde(transparent)]
pub struct DedupId(String);

impl DedupId {
    /// The id in `text`, or `InvalidParameterValue`.
    pub fn parse(text: &str) -> Result<DedupId, SqsError> {
        is_short_and_printable(text)
            .then(|| DedupId(text.into()))
            .ok_or_else(|| only_printable("MessageDeduplicationId"))
    }

    /// The id that stands for a body: its SHA-256 in hex (Developer Guide, "Using the message deduplication ID").
    pub fn of_body(body: &str) -> DedupId {
        DedupId(hex(&Sha256::digest(body.as_bytes())))
    }

    /// The id that stands for this message alone.
    pub fn of_message(id: Uuid) -> DedupId {
        DedupId(id.as_simple().to_string())
    }

    /// The id that stands for a message of a call, by the call's digest and the id of its entry, if it is a batch's.
    pub fn of_call(call: &[u8; 32], entry: Option<&str>) -> DedupId {
        let mut digest = Sha256::new();
        digest.update(call);
        digest.update(entry.unwrap_or_default().as_bytes());
        DedupId(hex(&digest.finalize()))
    }

    /// The call that it stands for, if it does for one.
    pub fn call_key(&self) -> Option<CallKey> {
        CallKey::of(&self.0)
    }

    /// The id that stands for this one in its group alone, where a queue's ids count by group.
    pub fn within(&self, group: &GroupId) -> DedupId {
        let mut digest = Sha256::new();
        digest.update(group.0.as_bytes());
        digest.update([0]);
        digest.update(self.0.as_bytes());
        DedupId(hex(&digest.finalize()))
    }

    /// A number by which it is known among others as long as this process lives. Nobody can choose ids that have the same.
    pub fn fingerprint(&self) -> u64 {
        fingerprint_of(&self.0)
    }

    /// The text.
    pub fn as_str(&self) -> &str {
        &self.0
    }
}

/// That of the deduplication id of this text.
pub fn fingerprint_of(id: &str) -> u64 {
    static KEYS: OnceLock<RandomState> = OnceLock::new();
    KEYS.get_or_init(RandomState::new).hash_one(id)
}

/// A part of a call's digest, by which it is known among others.
#[derive(Clone, Copy, Debug, PartialEq, Eq, Hash)]
pub struct CallKey(u128);

impl CallKey {
    /// That of the call for which a deduplication id stands, if it does for one.
    pub fn of(id: &str) -> Option<CallKey> {
        let front = id.get(..32).filter(|_| id.len() == 64)?;
        u128::from_str_radix(front, 16).ok().map(CallKey)
    }
}

/// A receive request attempt id: 1 to 128 ASCII letters, digits and punctuation marks
/// (API Reference, ReceiveMessage, `ReceiveRequestAttemptId`).
#[derive(Clone, Debug, PartialEq, Eq, Hash, PartialOrd, Ord, Serialize, Deserialize)]
#[serde(transparent)]
pub struct AttemptId(std::sync::Arc<str>);

impl AttemptId {
    /// The id in `text`, or `InvalidParameterValue`.
    pub fn parse(text: &str) -> Result<AttemptId, SqsError> {
        is_short_and_printable(text)
            .then(|| AttemptId(text.into()))
            .ok_or_else(|| only_printable("ReceiveRequestAttemptId"))
    }
}

/// The body of a message: at least one character, and none outside the set of SQS
/// (API Reference, SendMessage, `MessageBody`). Its length is tested with its attributes, by the queue's limit.
#[derive(Clone, Debug, PartialEq, Eq)]
pub struct Body(String);

impl Body {
    /// The body in `text`; `MissingParameter` where it is empty, or `InvalidMessageContents`.
    pub fn parse(text: &str) -> Result<Body, SqsError> {
        if text.is_empty() {
            return Err(SqsError::MissingParameter("MessageBody".into()));
        }
        test_characters(text)?;
        Ok(Body(text.into()))
    }

    /// The text.
    pub fn as_str(&self) -> &str {
        &self.0
    }
}

/// Refuses a text with a character that no message may have. Takes time in proportion to the text.
pub fn test_characters(text: &str) -> Result<(), SqsError> {
    is_of_xml(text).then_some(()).ok_or(SqsError::InvalidMessageContents)
}

#[cfg(test)]
mod tests {
    use super::*;

    #[test]
    fn names_of_queues() {
        assert!(QueueName::parse("a.fifo").is_some());
        assert!(QueueName::parse(&format!("{}.fifo", "x".repeat(75))).is_some());
        assert!(QueueName::parse(&"x".repeat(80)).is_some());
        let long = "x".repeat(81);
        for bad in ["", ".fifo", "a b.fifo", "ä.fifo", "a.fifo.fifo", "a.b", &format!("{}.fifo", &long[5..]), &long] {
            assert!(QueueName::parse(bad).is_none(), "{bad}");
        }
        let kind = |text: &str| QueueName::parse(text).unwrap().kind();
        assert_eq!(
            (kind("a.fifo"), kind("a-fifo"), kind("fifo")),
            (QueueKind::Fifo, QueueKind::Standard, QueueKind::Standard)
        );
        for url in ["http://host/1/a.fifo", "http://host/1/a.fifo/", "https://host/x/1/a.fifo", "/1/a.fifo", "a.fifo"] {
            assert_eq!(QueueName::of_url(url).unwrap().as_str(), "a.fifo", "{url}");
        }
        for bad in
            ["http://host", "http://host/", "http://a.fifo", "http://host/1/a b.fifo", "a.fifo//", "/", "http://h/a?b"]
        {
            assert_eq!(QueueName::of_url(bad), Err(SqsError::InvalidAddress(bad.into())));
        }
        assert_eq!(QueueName::of_url("http://host/1/a").unwrap().as_str(), "a");
    }

    #[test]
    fn ids_and_bodies() {
        assert!(GroupId::parse("!~").is_ok() && GroupId::parse(&"x".repeat(128)).is_ok());
        for bad in ["", "a b", "ä", "\u{7f}", &"x".repeat(129)] {
            assert!(GroupId::parse(bad).is_err() && DedupId::parse(bad).is_err(), "{bad:?}");
        }
        assert!(Body::parse("\t\n\r \u{7f}\u{d7ff}\u{e000}\u{fffd}\u{10ffff}").is_ok());
        for bad in ["\u{b}", "a\u{fffe}", "\u{ffff}", "\0"] {
            assert_eq!(Body::parse(bad), Err(SqsError::InvalidMessageContents));
        }
    }

    #[test]
    fn ids_made_of_bodies_and_groups() {
        let made = DedupId::of_body("hello");
        assert_eq!(made.as_str(), "2cf24dba5fb0a30e26e83b2ac5b9e29e1b161e5c1fa7425e73043362938b9824");
        let group = GroupId::parse("a").unwrap();
        let other = GroupId::parse("b").unwrap();
        assert_ne!(made.within(&group), made.within(&other));
        let of_call = |call: u8, entry| DedupId::of_call(&[call; 32], entry);
        assert_eq!(of_call(1, Some("a")), of_call(1, Some("a")));
        assert_ne!(of_call(1, Some("a")), of_call(1, Some("b")));
        assert_ne!(of_call(1, None), of_call(2, None));
    }
}
