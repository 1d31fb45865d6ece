//! A line of a history: a request, its answer, and the moment at which it took effect.

use serde::{Deserialize, Serialize};
use serde_json::{Map, Value};

use super::finding::{Finding, Judged, Rule};

/// Members by their names.
pub type Members = Map<String, Value>;

/// A refusal as a client was told of it.
#[derive(Clone, Debug, Serialize, Deserialize)]
pub struct Refusal {
    pub code: String,
}

/// Of which store a line is, and which request of which of its clients.
#[derive(Clone, Copy, Debug, PartialEq, Eq, Serialize, Deserialize)]
#[serde(deny_unknown_fields)]
pub struct OfStore {
    /// The number of its file, from 1.
    pub file: u64,
    /// None, and no number: the line is no request.
    #[serde(default, skip_serializing_if = "Option::is_none")]
    pub client: Option<u32>,
    #[serde(default, skip_serializing_if = "Option::is_none")]
    pub number: Option<u64>,
}

/// One line.
#[derive(Clone, Debug, Serialize, Deserialize)]
#[serde(deny_unknown_fields)]
pub struct Line {
    /// In milliseconds.
    pub at: u64,
    /// None: it is a service's.
    #[serde(default, skip_serializing_if = "Option::is_none")]
    pub store: Option<OfStore>,
    pub action: String,
    #[serde(default)]
    pub request: Members,
    #[serde(default, skip_serializing_if = "Option::is_none")]
    pub answer: Option<Members>,
    #[serde(default, skip_serializing_if = "Option::is_none")]
    pub error: Option<Refusal>,
}

/// Refusals for which a service has reasons of its own. What was refused so isn't supposed to have happened.
const OWN_REASONS: [&str; 10] = [
    "AccessDenied",
    "InternalError",
    "InternalFailure",
    "OverLimit",
    "RequestThrottled",
    "RequestTimeout",
    "ServiceUnavailable",
    "Throttling",
    "TooManyRequests",
    "UnsupportedOperation",
];

impl Line {
    /// Why it is none behind that moment.
    pub fn test(&self, last: u64) -> Result<(), String> {
        if self.at < last {
            return Err(format!("its moment {} is before that of an earlier one, {last}", self.at));
        }
        match (&self.answer, &self.error) {
            (Some(_), None) | (None, Some(_)) => Ok(()),
            _ => Err("it has an answer or an error".into()),
        }
    }

    /// What was answered, or by which code it was refused.
    pub fn told(&self) -> Result<&Members, String> {
        match (&self.answer, &self.error) {
            (Some(answer), _) => Ok(answer),
            (None, error) => Err(error.as_ref().map(|error| bare(&error.code)).unwrap_or_default()),
        }
    }

    /// Whether it was refused for a reason of the service's own.
    pub fn is_of_service(&self) -> bool {
        self.told().is_err_and(|code| code.starts_with("Kms") || OWN_REASONS.contains(&code.as_str()))
    }

    /// What was answered, in a few words.
    pub fn words(&self) -> String {
        match self.told() {
            Ok(_) => "it was done".into(),
            Err(code) => format!("it was refused, {code}"),
        }
    }

    /// The rules want it refused by one of these codes.
    pub fn refused(&self, codes: &[&str], why: &str, rule: Rule) -> Result<Judged, Finding> {
        match self.told() {
            Err(code) if codes.contains(&code.as_str()) => Ok(Judged::Allowed),
            _ => {
                let allowed = format!("it has to be refused, {}: {why}", codes.join(" or "));
                Err(Finding { told: self.words(), allowed, rule })
            }
        }
    }

    /// The rules want it done.
    pub fn done(&self, why: &str, rule: Rule) -> Result<&Members, Finding> {
        let allowed = || format!("it has to be done: {why}");
        self.told().map_err(|_| Finding { told: self.words(), allowed: allowed(), rule })
    }
}

/// The name of an error, however a protocol writes it.
pub fn bare(code: &str) -> String {
    let code = code.rsplit('#').next().unwrap_or(code);
    let code = code.strip_prefix("AWS.SimpleQueueService.").unwrap_or(code);
    let code = code.strip_suffix("Exception").unwrap_or(code);
    match code {
        "NonExistentQueue" => "QueueDoesNotExist",
        "QueueNameExists" => "QueueAlreadyExists",
        "MissingRequiredParameter" => "MissingParameter",
        other => other,
    }
    .into()
}

/// The text of a member, if it is there.
pub fn text<'m>(members: &'m Members, name: &str) -> Option<&'m str> {
    members.get(name)?.as_str()
}

/// The number of a member, if it is there. The query form has numbers as texts.
pub fn number(members: &Members, name: &str) -> Option<i64> {
    match members.get(name)? {
        Value::String(text) => text.parse().ok(),
        value => value.as_i64(),
    }
}

/// The objects of a member that is a list; none where it is missing.
pub fn objects<'m>(members: &'m Members, name: &str) -> Vec<&'m Members> {
    let list = members.get(name).and_then(Value::as_array);
    list.map(|list| list.iter().filter_map(Value::as_object).collect()).unwrap_or_default()
}

/// The texts of a member whose values are texts or numbers, by their names.
pub fn attributes(members: &Members, name: &str) -> Vec<(String, String)> {
    let text = |value: &Value| value.as_str().map_or_else(|| value.to_string(), String::from);
    let found = members.get(name).and_then(Value::as_object);
    found.map(|found| found.iter().map(|(name, value)| (name.clone(), text(value))).collect()).unwrap_or_default()
}

/// The name at the end of the queue's URL.
pub fn queue_of(members: &Members) -> Option<&str> {
    text(members, "QueueUrl")?.trim_end_matches('/').rsplit('/').next()
}
