//! The attributes of a queue: which there are, which values they may have, and what is told of them.

use std::collections::{BTreeMap, BTreeSet};

use hobbychair_bytes::characters::is_of_xml;
use serde::{Deserialize, Serialize};

use crate::errors::SqsError;
use crate::policy::Policy;
use crate::redrive::{RedriveAllowPolicy, RedrivePolicy, REDRIVE_ALLOW_POLICY, REDRIVE_POLICY};
use crate::texts::QueueKind;

/// The largest `MaximumMessageSize`, which is its default as well, in bytes. A batch has at most as many in all.
pub const LONGEST_MESSAGE_BYTES: usize = 1_048_576;

/// The longest text of a policy, in bytes (API Reference, SetQueueAttributes, `Policy`).
const LONGEST_POLICY_BYTES: usize = 8_192;

/// The longest name of a key (API Reference of KMS, `KeyId`).
const LONGEST_KEY_BYTES: usize = 2_048;

/// The counts of messages, which are the store's.
pub const COUNTS: [&str; 3] =
    ["ApproximateNumberOfMessages", "ApproximateNumberOfMessagesNotVisible", "ApproximateNumberOfMessagesDelayed"];
/// The gateway sets these itself.
const READ_ONLY: [&str; 3] = ["CreatedTimestamp", "LastModifiedTimestamp", "QueueArn"];

/// Which values an attribute may have.
enum Rule {
    Flag,
    OneOf(&'static [&'static str]),
    Whole(u64, u64),
    /// The id, the ARN or the alias of a key of KMS (API Reference of KMS, `KeyId`).
    Key,
    /// A policy that is read so. The empty text removes it.
    Policy(fn(&str) -> Result<(), SqsError>),
}

/// Which queues have an attribute.
#[derive(Clone, Copy, PartialEq, Eq)]
enum Kinds {
    Both,
    Fifo,
}

struct Attribute {
    name: &'static str,
    kinds: Kinds,
    rule: Rule,
    default: Option<&'static str>,
    /// What is added to the refusal of a value.
    reason: &'static str,
}

const fn attribute(name: &'static str, rule: Rule, default: Option<&'static str>) -> Attribute {
    Attribute { name, kinds: Kinds::Both, rule, default, reason: "" }
}

const fn of_fifo(name: &'static str, rule: Rule, default: &'static str) -> Attribute {
    Attribute { name, kinds: Kinds::Fifo, rule, default: Some(default), reason: "" }
}

/// The key of KMS, and whether SQS has keys of its own: two ways to encrypt, of which a queue has one.
const KEY: &str = "KmsMasterKeyId";
const MANAGED_KEYS: &str = "SqsManagedSseEnabled";

/// All attributes that a client can set (API Reference, CreateQueue, `Attributes`).
static ATTRIBUTES: [Attribute; 15] = [
    of_fifo("ContentBasedDeduplication", Rule::Flag, "false"),
    of_fifo("DeduplicationScope", Rule::OneOf(&["queue", "messageGroup"]), "queue"),
    attribute("DelaySeconds", Rule::Whole(0, 900), Some("0")),
    of_fifo("FifoQueue", Rule::Flag, "true"),
    of_fifo("FifoThroughputLimit", Rule::OneOf(&["perQueue", "perMessageGroupId"]), "perQueue"),
    attribute("KmsDataKeyReusePeriodSeconds", Rule::Whole(60, 86_400), None),
    attribute(KEY, Rule::Key, None),
    attribute("MaximumMessageSize", Rule::Whole(1_024, LONGEST_MESSAGE_BYTES as u64), Some("1048576")),
    attribute("MessageRetentionPeriod", Rule::Whole(60, 1_209_600), Some("345600")),
    attribute("Policy", Rule::Policy(test_policy), None),
    attribute("ReceiveMessageWaitTimeSeconds", Rule::Whole(0, 20), Some("0")),
    attribute(REDRIVE_ALLOW_POLICY, Rule::Policy(|text| RedriveAllowPolicy::parse(text).map(drop)), None),
    attribute(REDRIVE_POLICY, Rule::Policy(|text| RedrivePolicy::parse(text).map(drop)), None),
    attribute(MANAGED_KEYS, Rule::Flag, Some("true")),
    attribute("VisibilityTimeout", Rule::Whole(0, 43_200), Some("30")),
];

impl Attribute {
    fn is_of(&self, kind: QueueKind) -> bool {
        self.kinds == Kinds::Both || kind == QueueKind::Fifo
    }

    fn read(&self, value: &str) -> Result<String, SqsError> {
        let read = match self.rule {
            Rule::Flag => Some(value.to_ascii_lowercase()).filter(|flag| flag == "true" || flag == "false"),
            Rule::OneOf(values) => values.contains(&value).then(|| value.to_string()),
            Rule::Whole(least, most) => {
                whole(value).filter(|number| (least..=most).contains(number)).map(|number| number.to_string())
            }
            Rule::Key => {
                Some(value.to_string()).filter(|key| key.len() <= LONGEST_KEY_BYTES && key.bytes().all(is_of_key))
            }
            Rule::Policy(_) if value.len() > LONGEST_POLICY_BYTES || !is_of_xml(value) => None,
            Rule::Policy(read) => {
                if !value.is_empty() {
                    read(value)?;
                }
                Some(value.to_string())
            }
        };
        read.ok_or_else(|| SqsError::attribute_value(self.name, self.reason))
    }
}

fn of_kind(kind: QueueKind) -> impl Iterator<Item = &'static Attribute> {
    ATTRIBUTES.iter().filter(move |attribute| attribute.is_of(kind))
}

fn find(kind: QueueKind, name: &str) -> Option<&'static Attribute> {
    of_kind(kind).find(|attribute| attribute.name == name)
}

/// A policy of who may do what: a JSON object with a statement.
fn test_policy(text: &str) -> Result<(), SqsError> {
    Policy::is_one(text).then_some(()).ok_or_else(|| SqsError::attribute_value("Policy", ""))
}

fn is_of_key(byte: u8) -> bool {
    byte.is_ascii_alphanumeric() || b":/_-".contains(&byte)
}

/// A number written in digits alone.
fn whole(text: &str) -> Option<u64> {
    let is_digits = !text.is_empty() && text.bytes().all(|byte| byte.is_ascii_digit());
    text.parse().ok().filter(|_| is_digits)
}

/// Attributes that a client wants to set, each known and with a good value.
#[derive(Clone, Debug, PartialEq, Eq)]
pub struct GivenAttributes(BTreeMap<String, String>);

impl GivenAttributes {
    /// Tests names and values. A name that queues of this kind don't have is `InvalidAttributeName`, a bad value
    /// `InvalidAttributeValue`.
    pub fn read(kind: QueueKind, given: &[(String, String)]) -> Result<GivenAttributes, SqsError> {
        let mut good = BTreeMap::new();
        for (name, value) in given {
            let attribute = find(kind, name).ok_or_else(|| SqsError::InvalidAttributeName(name.clone()))?;
            good.insert(name.clone(), attribute.read(value)?);
        }
        let given = GivenAttributes(good);
        if given.names_key() && given.names_managed_keys() {
            let reason =
                "You can use one type of server-side encryption (SSE) at one time. You can either enable KMS SSE \
                          or SQS SSE.";
            return Err(SqsError::attribute_value(MANAGED_KEYS, reason));
        }
        Ok(given)
    }

    fn names_key(&self) -> bool {
        self.0.get(KEY).is_some_and(|key| !key.is_empty())
    }

    fn names_managed_keys(&self) -> bool {
        self.0.get(MANAGED_KEYS).is_some_and(|flag| flag == "true")
    }

    /// The same with what it ends: of the two ways to encrypt the one that is named ends the other (Developer Guide,
    /// "Encryption at rest in Amazon SQS").
    pub fn with_what_it_ends(mut self) -> GivenAttributes {
        if self.names_key() {
            self.0.insert(MANAGED_KEYS.into(), "false".into());
        } else if self.names_managed_keys() {
            self.0.insert(KEY.into(), String::new());
        }
        self
    }

    /// Their names and values.
    pub fn iter(&self) -> impl Iterator<Item = (&str, &str)> {
        self.0.iter().map(|(name, value)| (name.as_str(), value.as_str()))
    }

    /// Whether none was given.
    pub fn is_empty(&self) -> bool {
        self.0.is_empty()
    }

    /// The value that is given for an attribute, if any.
    pub fn text(&self, name: &str) -> Option<&str> {
        self.0.get(name).map(String::as_str)
    }
}

/// All attributes that a queue has.
#[derive(Clone, Debug, PartialEq, Eq, Serialize, Deserialize)]
#[serde(from = "BTreeMap<String, String>", into = "BTreeMap<String, String>")]
pub struct QueueAttributes {
    texts: BTreeMap<String, String>,
    often: Often,
}

/// What each send or receive needs, read from the texts whenever these change.
#[derive(Clone, Copy, Debug, PartialEq, Eq)]
struct Often {
    visibility_timeout: u32,
    wait_time: u32,
    retention: u64,
    maximum_message_size: usize,
    dedups_by_content: bool,
    dedups_by_group: bool,
}

impl Often {
    fn read(texts: &BTreeMap<String, String>) -> Often {
        let value = |name: &str| texts.get(name).map(String::as_str).unwrap_or_default();
        let number = |name: &str| value(name).parse::<u64>().unwrap_or(0);
        Often {
            visibility_timeout: number("VisibilityTimeout") as u32,
            wait_time: number("ReceiveMessageWaitTimeSeconds") as u32,
            retention: 1000 * value("MessageRetentionPeriod").parse::<u64>().unwrap_or(345_600),
            maximum_message_size: number("MaximumMessageSize") as usize,
            dedups_by_content: value("ContentBasedDeduplication") == "true",
            dedups_by_group: value("DeduplicationScope") == "messageGroup",
        }
    }
}

impl From<BTreeMap<String, String>> for QueueAttributes {
    fn from(texts: BTreeMap<String, String>) -> QueueAttributes {
        QueueAttributes { often: Often::read(&texts), texts }
    }
}

impl From<QueueAttributes> for BTreeMap<String, String> {
    fn from(attributes: QueueAttributes) -> BTreeMap<String, String> {
        attributes.texts
    }
}

impl QueueAttributes {
    /// Those of a new queue: what is given, and defaults.
    pub fn for_creation(kind: QueueKind, given: &GivenAttributes) -> Result<QueueAttributes, SqsError> {
        let mut attributes = QueueAttributes::defaults(kind);
        attributes.set(&given.clone().with_what_it_ends());
        attributes.test_together()?;
        Ok(attributes)
    }

    /// Those of a new queue of which nothing is said.
    pub fn defaults(kind: QueueKind) -> QueueAttributes {
        let with_default = of_kind(kind).filter_map(|attribute| Some((attribute.name, attribute.default?)));
        let whole = with_default.map(|(name, default)| (name.to_string(), default.to_string()));
        QueueAttributes::from(whole.collect::<BTreeMap<_, _>>())
    }

    /// A queue that lives is created again only with the values that it has; those left out don't count
    /// (API Reference, CreateQueue, `QueueNameExists`).
    pub fn test_same(&self, given: &GivenAttributes) -> Result<(), SqsError> {
        for (name, value) in &given.0 {
            if !is_same(name, self.value(name), value) {
                return Err(SqsError::QueueNameExists { attribute: name.clone() });
            }
        }
        Ok(())
    }

    /// Whether these attributes may be changed so.
    pub fn test_change(&self, given: &GivenAttributes) -> Result<(), SqsError> {
        if given.0.get("FifoQueue").is_some_and(|value| value != "true") {
            return Err(SqsError::attribute_value("FifoQueue", "It can't be changed."));
        }
        let mut changed = self.clone();
        changed.set(given);
        changed.test_together()
    }

    /// Takes over values; the empty text removes an attribute.
    pub fn set(&mut self, given: &GivenAttributes) {
        for (name, value) in &given.0 {
            if value.is_empty() {
                self.texts.remove(name);
            } else {
                self.texts.insert(name.clone(), value.clone());
            }
        }
        self.often = Often::read(&self.texts);
    }

    /// What of these changes anything.
    pub fn news_of(&self, given: &GivenAttributes) -> GivenAttributes {
        let is_new = |(name, value): &(&String, &String)| self.value(name) != value.as_str();
        GivenAttributes(given.0.iter().filter(is_new).map(|(name, value)| (name.clone(), value.clone())).collect())
    }

    /// The throughput can be a group's only where deduplication is
    /// (API Reference, SetQueueAttributes, `FifoThroughputLimit`).
    fn test_together(&self) -> Result<(), SqsError> {
        let per_group = self.value("FifoThroughputLimit") == "perMessageGroupId";
        if per_group && !self.dedups_by_group() {
            return Err(SqsError::attribute_value(
                "FifoThroughputLimit",
                "It can be perMessageGroupId only where DeduplicationScope is messageGroup.",
            ));
        }
        Ok(())
    }

    /// The value of an attribute that the queue has.
    pub fn text(&self, name: &str) -> Option<&str> {
        self.texts.get(name).map(String::as_str)
    }

    fn value(&self, name: &str) -> &str {
        self.text(name).unwrap_or_default()
    }

    fn number(&self, name: &str) -> u64 {
        self.value(name).parse().unwrap_or(0)
    }

    /// Seconds, from 0 to 43,200.
    pub fn visibility_timeout(&self) -> u32 {
        self.often.visibility_timeout
    }

    /// Seconds, from 0 to 20.
    pub fn wait_time(&self) -> u32 {
        self.often.wait_time
    }

    /// So long a message is delayed, in milliseconds.
    pub fn delay(&self) -> u64 {
        1000 * self.number("DelaySeconds")
    }

    /// So long a message is kept, in milliseconds.
    pub fn retention(&self) -> u64 {
        self.often.retention
    }

    /// Bytes of a body with its attributes.
    pub fn maximum_message_size(&self) -> usize {
        self.often.maximum_message_size
    }

    /// The policy as it was given; empty if there is none.
    pub fn policy(&self) -> &str {
        self.value("Policy")
    }

    /// What is said of dead letters, if anything is.
    pub fn redrive(&self) -> Option<RedrivePolicy> {
        self.text(REDRIVE_POLICY).and_then(|text| RedrivePolicy::parse(text).ok())
    }

    /// Whether a send without a deduplication id gets that of its body.
    pub fn dedups_by_content(&self) -> bool {
        self.often.dedups_by_content
    }

    /// Whether a deduplication id counts within its group alone.
    pub fn dedups_by_group(&self) -> bool {
        self.often.dedups_by_group
    }

    /// The names and values of all that are set.
    pub fn iter(&self) -> impl Iterator<Item = (&str, &str)> {
        self.texts.iter().map(|(name, value)| (name.as_str(), value.as_str()))
    }
}

/// Whether two values of an attribute say the same: policies are compared by what they say.
fn is_same(name: &str, one: &str, other: &str) -> bool {
    let parsed = |text: &str| serde_json::from_str::<serde_json::Value>(text).ok();
    let is_json = matches!(name, "Policy" | REDRIVE_ALLOW_POLICY | REDRIVE_POLICY);
    let is_same_policy = match name {
        REDRIVE_POLICY => RedrivePolicy::parse(one).ok().zip(RedrivePolicy::parse(other).ok()),
        _ => None,
    };
    let is_same_json = || is_json && parsed(one).is_some_and(|one| parsed(other) == Some(one));
    one == other || is_same_policy.is_some_and(|(one, other)| one == other) || is_same_json()
}

/// Which attributes a client wants to be told.
#[derive(Clone, Debug, PartialEq, Eq)]
pub struct WantedAttributes(BTreeSet<String>);

impl WantedAttributes {
    /// Tests the names; `All` stands for each. One that queues of this kind don't have is `InvalidAttributeName`.
    pub fn read(kind: QueueKind, names: &[String]) -> Result<WantedAttributes, SqsError> {
        for name in names {
            if name != "All" && find(kind, name).is_none() && !is_read_only(name) {
                return Err(SqsError::InvalidAttributeName(name.clone()));
            }
        }
        if names.iter().any(|name| name == "All") {
            let all = of_kind(kind).map(|attribute| attribute.name).chain(COUNTS).chain(READ_ONLY);
            return Ok(WantedAttributes(all.map(String::from).collect()));
        }
        Ok(WantedAttributes(names.iter().cloned().collect()))
    }

    /// Whether this one is asked for.
    pub fn has(&self, name: &str) -> bool {
        self.0.contains(name)
    }

    /// Whether the store must be asked for its counts.
    pub fn has_counts(&self) -> bool {
        COUNTS.iter().any(|name| self.has(name))
    }
}

/// Whether there is an attribute of queues of whichever kind with this name.
pub fn is_known(name: &str) -> bool {
    find(QueueKind::Fifo, name).is_some() || is_read_only(name)
}

fn is_read_only(name: &str) -> bool {
    COUNTS.contains(&name) || READ_ONLY.contains(&name)
}

#[cfg(test)]
mod tests {
    use super::*;

    fn given(pairs: &[(&str, &str)]) -> Result<GivenAttributes, SqsError> {
        let pairs: Vec<_> = pairs.iter().map(|(a, b)| (a.to_string(), b.to_string())).collect();
        GivenAttributes::read(QueueKind::Fifo, &pairs)
    }

    #[test]
    fn values_are_tested() {
        for (name, value) in [
            ("VisibilityTimeout", "43201"),
            ("VisibilityTimeout", "-1"),
            ("VisibilityTimeout", "+1"),
            ("VisibilityTimeout", ""),
            ("MaximumMessageSize", "1023"),
            ("MaximumMessageSize", "1048577"),
            ("FifoQueue", "perhaps"),
            ("Policy", "{}"),
            ("DelaySeconds", "901"),
            ("KmsMasterKeyId", "a\u{1}"),
            ("KmsMasterKeyId", &"k".repeat(LONGEST_KEY_BYTES + 1)),
            ("Policy", &format!("{{\"Statement\":{{}}{}}}", " ".repeat(LONGEST_POLICY_BYTES))),
            ("Policy", "{\"Id\":\"\u{fffe}\",\"Statement\":{}}"),
        ] {
            assert!(matches!(given(&[(name, value)]), Err(SqsError::InvalidAttributeValue { .. })), "{name}");
        }
        let unknown = given(&[("Colour", "red")]);
        assert_eq!(unknown, Err(SqsError::InvalidAttributeName("Colour".into())));
    }

    #[test]
    fn a_queue_has_defaults_and_what_was_given() {
        let made = given(&[("VisibilityTimeout", "007"), ("FifoQueue", "TRUE")]).unwrap();
        let attributes = QueueAttributes::for_creation(QueueKind::Fifo, &made).unwrap();
        assert_eq!((attributes.visibility_timeout(), attributes.maximum_message_size()), (7, 1_048_576));
        assert!(attributes.test_same(&given(&[("VisibilityTimeout", "7")]).unwrap()).is_ok());
        assert!(attributes.test_same(&given(&[("VisibilityTimeout", "8")]).unwrap()).is_err());
        assert!(attributes.test_same(&given(&[("RedrivePolicy", "")]).unwrap()).is_ok());
        assert!(given(&[("RedrivePolicy", "{}")]).is_err());
        assert!(attributes.test_change(&given(&[("FifoQueue", "false")]).unwrap()).is_err());
        let limit = given(&[("FifoThroughputLimit", "perMessageGroupId")]).unwrap();
        assert!(attributes.test_change(&limit).is_err());
    }

    #[test]
    fn policies_are_compared_as_json() {
        let made = given(&[("Policy", r#"{"Id":"a","Statement":[{}]}"#)]).unwrap();
        let attributes = QueueAttributes::for_creation(QueueKind::Fifo, &made).unwrap();
        let same = given(&[("Policy", r#" {"Statement": [{}], "Id": "a"}"#)]).unwrap();
        assert!(attributes.test_same(&same).is_ok());
        let other = given(&[("Policy", r#"{"Statement":[{}],"Id":"b"}"#)]).unwrap();
        assert!(attributes.test_same(&other).is_err());
    }

    #[test]
    fn a_queue_has_one_kind_of_keys() {
        let told = |pairs: &[(&str, &str)]| {
            let attributes = QueueAttributes::for_creation(QueueKind::Fifo, &given(pairs).unwrap()).unwrap();
            (attributes.value(KEY).to_string(), attributes.value(MANAGED_KEYS).to_string())
        };
        assert_eq!(told(&[]), (String::new(), "true".into()));
        assert_eq!(told(&[(KEY, "k")]), ("k".into(), "false".into()));
        assert_eq!(told(&[(MANAGED_KEYS, "false")]), (String::new(), "false".into()));
        assert!(given(&[(KEY, "k"), (MANAGED_KEYS, "true")]).is_err());
        let mut attributes = QueueAttributes::for_creation(QueueKind::Fifo, &given(&[(KEY, "k")]).unwrap()).unwrap();
        attributes.set(&given(&[(MANAGED_KEYS, "true")]).unwrap().with_what_it_ends());
        assert_eq!((attributes.value(KEY), attributes.value(MANAGED_KEYS)), ("", "true"));
        attributes.set(&given(&[(KEY, "k")]).unwrap().with_what_it_ends());
        assert_eq!((attributes.value(KEY), attributes.value(MANAGED_KEYS)), ("k", "false"));
    }

    #[test]
    fn a_standard_queue_has_no_attribute_of_fifo_queues() {
        let standard = QueueKind::Standard;
        for name in ["ContentBasedDeduplication", "DeduplicationScope", "FifoQueue", "FifoThroughputLimit"] {
            let unknown = SqsError::InvalidAttributeName(name.into());
            assert_eq!(GivenAttributes::read(standard, &[(name.into(), "false".into())]), Err(unknown.clone()));
            assert_eq!(WantedAttributes::read(standard, &[name.into()]), Err(unknown));
            assert!(WantedAttributes::read(QueueKind::Fifo, &[name.into()]).is_ok() && is_known(name));
        }
        let made = QueueAttributes::for_creation(standard, &GivenAttributes::read(standard, &[]).unwrap()).unwrap();
        assert_eq!((made.text("FifoQueue"), made.text("DelaySeconds")), (None, Some("0")));
        let all = WantedAttributes::read(standard, &["All".into()]).unwrap();
        assert!(all.has("DelaySeconds") && !all.has("FifoQueue") && all.has_counts());
    }
}
