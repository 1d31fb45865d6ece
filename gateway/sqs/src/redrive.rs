//! Which queue takes the messages that nobody could process, and which queues it takes them from: the policies in JSON.

use std::collections::BTreeSet;

use serde_json::{Map, Value};

use crate::errors::SqsError;
use crate::texts::QueueName;

/// The attribute of a queue that says where its dead letters go.
pub const REDRIVE_POLICY: &str = "RedrivePolicy";
/// The attribute of a queue that says of which queues dead letters may come.
pub const REDRIVE_ALLOW_POLICY: &str = "RedriveAllowPolicy";

/// How often a message is handed out where the policy doesn't say it
/// (API Reference, SetQueueAttributes, `maxReceiveCount`).
const DEFAULT_MOST: u32 = 10;

/// The most queues that a policy can name (API Reference, SetQueueAttributes, `sourceQueueArns`).
const MOST_SOURCES: usize = 10;

/// The ARN of a queue. Its region isn't looked at: clients name the one that they were told.
#[derive(Clone, Debug, PartialEq, Eq, PartialOrd, Ord)]
pub struct QueueArn {
    pub account: String,
    pub name: QueueName,
}

impl QueueArn {
    /// None if the text is no ARN of a queue.
    pub fn parse(text: &str) -> Option<QueueArn> {
        let parts: Vec<_> = text.split(':').collect();
        let ["arn", _, "sqs", _, account, name] = parts[..] else { return None };
        Some(QueueArn { account: account.into(), name: QueueName::parse(name)? })
    }
}

/// `RedrivePolicy`: where a message goes that was handed out `most` times (1 to 1,000), at the next receive that comes
/// to it (API Reference, SetQueueAttributes).
#[derive(Clone, Debug, PartialEq, Eq)]
pub struct RedrivePolicy {
    pub target: QueueArn,
    pub most: u32,
}

/// `RedriveAllowPolicy`: which queues may name this one as their target (API Reference, SetQueueAttributes).
#[derive(Clone, Debug, PartialEq, Eq)]
pub enum RedriveAllowPolicy {
    All,
    None,
    Queues(BTreeSet<QueueArn>),
}

/// The refusal of a policy, for a reason. SQS has `InvalidParameterValue` here.
pub fn refusal(name: &str, value: &str, reason: &str) -> SqsError {
    SqsError::InvalidParameterValue(format!("Value {value} for parameter {name} is invalid. Reason: {reason}"))
}

fn object(text: &str, keys: &[&str]) -> Result<Map<String, Value>, String> {
    let Ok(Value::Object(object)) = serde_json::from_str(text) else {
        return Err("The policy is not a valid JSON map.".into());
    };
    match object.keys().find(|key| !keys.contains(&key.as_str())) {
        Some(unknown) => Err(format!("The policy contains the unknown attribute {unknown}.")),
        None => Ok(object),
    }
}

impl RedrivePolicy {
    /// Reads the JSON of the attribute. What breaks its rules is `InvalidAttributeValue`.
    pub fn parse(text: &str) -> Result<RedrivePolicy, SqsError> {
        RedrivePolicy::read(text).map_err(|reason| refusal(REDRIVE_POLICY, text, &reason))
    }

    fn read(text: &str) -> Result<RedrivePolicy, String> {
        let policy = object(text, &["deadLetterTargetArn", "maxReceiveCount"])?;
        let target = policy.get("deadLetterTargetArn");
        let target = target.ok_or("Redrive policy does not contain mandatory attribute: deadLetterTargetArn.")?;
        let target = target.as_str().and_then(QueueArn::parse);
        let target = target.ok_or("deadLetterTargetArn must be the ARN of a queue.")?;
        let most = match policy.get("maxReceiveCount") {
            None => Some(DEFAULT_MOST),
            Some(Value::Number(number)) => number.as_u64().and_then(|number| number.try_into().ok()),
            Some(Value::String(digits)) => digits.parse().ok(),
            Some(_) => None,
        };
        let most = most.filter(|most| (1..=1000).contains(most));
        let most = most.ok_or("Invalid value for maxReceiveCount, valid values are from 1 to 1000 both inclusive.")?;
        Ok(RedrivePolicy { target, most })
    }
}

impl RedriveAllowPolicy {
    /// Reads the JSON of the attribute. What breaks its rules is `InvalidAttributeValue`.
    pub fn parse(text: &str) -> Result<RedriveAllowPolicy, SqsError> {
        RedriveAllowPolicy::read(text).map_err(|reason| refusal(REDRIVE_ALLOW_POLICY, text, &reason))
    }

    fn read(text: &str) -> Result<RedriveAllowPolicy, String> {
        let policy = object(text, &["redrivePermission", "sourceQueueArns"])?;
        let sources = policy.get("sourceQueueArns");
        match (policy.get("redrivePermission").and_then(Value::as_str), sources) {
            (Some("allowAll"), None) => Ok(RedriveAllowPolicy::All),
            (Some("denyAll"), None) => Ok(RedriveAllowPolicy::None),
            (Some("byQueue"), Some(Value::Array(arns))) if (1..=MOST_SOURCES).contains(&arns.len()) => {
                let parsed = arns.iter().map(|arn| arn.as_str().and_then(QueueArn::parse));
                let sources = parsed.collect::<Option<_>>().ok_or("sourceQueueArns must be ARNs of queues.")?;
                Ok(RedriveAllowPolicy::Queues(sources))
            }
            (Some("byQueue"), _) => Err("byQueue needs sourceQueueArns, a list of 1 to 10 ARNs.".into()),
            (Some("allowAll" | "denyAll"), Some(_)) => Err("Only byQueue can have sourceQueueArns.".into()),
            _ => Err("redrivePermission must be allowAll, denyAll or byQueue.".into()),
        }
    }

    /// Whether the queue may name this policy's queue as its target.
    pub fn allows(&self, source: &QueueArn) -> bool {
        match self {
            RedriveAllowPolicy::All => true,
            RedriveAllowPolicy::None => false,
            RedriveAllowPolicy::Queues(sources) => sources.contains(source),
        }
    }
}

#[cfg(test)]
mod tests {
    use super::*;

    const ARN: &str = "arn:aws:sqs:eu-west-3:000000000000:dead.fifo";

    #[test]
    fn redrive_policies() {
        for (text, most) in [
            (format!(r#"{{"deadLetterTargetArn":"{ARN}"}}"#), 10),
            (format!(r#"{{"maxReceiveCount":1,"deadLetterTargetArn":"{ARN}"}}"#), 1),
            (format!(r#" {{"deadLetterTargetArn" : "{ARN}", "maxReceiveCount":"1000"}}"#), 1000),
        ] {
            let policy = RedrivePolicy::parse(&text).unwrap();
            assert_eq!((policy.target.name.as_str(), policy.most), ("dead.fifo", most));
        }
        for bad in [
            "{}".into(),
            "[]".into(),
            "{".into(),
            r#"{"deadLetterTargetArn":"dead.fifo"}"#.into(),
            r#"{"deadLetterTargetArn":"arn:aws:sqs:eu-west-3:000000000000:de.ad"}"#.into(),
            r#"{"deadLetterTargetArn":"arn:aws:sns:eu-west-3:000000000000:dead.fifo"}"#.into(),
            format!(r#"{{"deadLetterTargetArn":"{ARN}","maxReceiveCount":0}}"#),
            format!(r#"{{"deadLetterTargetArn":"{ARN}","maxReceiveCount":1001}}"#),
            format!(r#"{{"deadLetterTargetArn":"{ARN}","maxReceiveCount":1.5}}"#),
            format!(r#"{{"deadLetterTargetArn":"{ARN}","maxReceiveCount":"-1"}}"#),
            format!(r#"{{"deadLetterTargetArn":"{ARN}","maxReceiveCount":null}}"#),
            format!(r#"{{"deadLetterTargetArn":"{ARN}","maxRecieveCount":5}}"#),
        ] {
            assert!(matches!(RedrivePolicy::parse(&bad), Err(SqsError::InvalidParameterValue(_))), "{bad}");
        }
    }

    #[test]
    fn policies_that_allow() {
        let source = |name: &str| QueueArn::parse(&format!("arn:aws:sqs:x:1:{name}")).unwrap();
        let by_queue = r#"{"redrivePermission":"byQueue","sourceQueueArns":["arn:aws:sqs:y:1:a.fifo"]}"#;
        for (text, a, b) in [
            (r#"{"redrivePermission":"allowAll"}"#, true, true),
            (r#"{"redrivePermission":"denyAll"}"#, false, false),
            (by_queue, true, false),
        ] {
            let policy = RedriveAllowPolicy::parse(text).unwrap();
            assert_eq!((policy.allows(&source("a.fifo")), policy.allows(&source("b.fifo"))), (a, b), "{text}");
        }
        let eleven = vec![ARN; 11];
        for bad in [
            serde_json::json!({}),
            serde_json::json!({ "redrivePermission": "some" }),
            serde_json::json!({ "redrivePermission": "byQueue" }),
            serde_json::json!({ "redrivePermission": "byQueue", "sourceQueueArns": [] }),
            serde_json::json!({ "redrivePermission": "byQueue", "sourceQueueArns": eleven }),
            serde_json::json!({ "redrivePermission": "byQueue", "sourceQueueArns": ["a.fifo"] }),
            serde_json::json!({ "redrivePermission": "denyAll", "sourceQueueArns": [ARN] }),
        ] {
            assert!(RedriveAllowPolicy::parse(&bad.to_string()).is_err(), "{bad}");
        }
    }
}
