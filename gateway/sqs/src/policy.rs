//! The policy of a queue: its form, and the statements that AddPermission writes. It lets nobody in and keeps nobody out.

use serde_json::{json, Map, Value};

use crate::errors::SqsError;

/// The most actions of a statement, and the most statements of a policy (API Reference, AddPermission).
const MOST_ACTIONS: usize = 7;
const MOST_STATEMENTS: usize = 20;

/// The actions that a statement may allow, and the star for all of them.
const ACTIONS: [&str; 9] = [
    "*",
    "ChangeMessageVisibility",
    "DeleteMessage",
    "GetQueueAttributes",
    "GetQueueUrl",
    "ListDeadLetterSourceQueues",
    "PurgeQueue",
    "ReceiveMessage",
    "SendMessage",
];

const STATEMENT: &str = "Statement";

/// Who is allowed what: a statement to be (API Reference, AddPermission).
#[derive(Clone, Debug, PartialEq, Eq)]
pub struct Permission {
    label: String,
    accounts: Vec<String>,
    actions: Vec<String>,
}

impl Permission {
    /// Tests a permission: accounts have 12 digits, and a batch goes with its action, so no action is one.
    pub fn new(label: &str, accounts: Vec<String>, actions: Vec<String>) -> Result<Permission, SqsError> {
        let label = read_label(label)?;
        if actions.len() > MOST_ACTIONS {
            let message = format!("{} Actions were found, maximum allowed is {MOST_ACTIONS}.", actions.len());
            return Err(SqsError::OverLimit(message));
        }
        let is_account = |account: &&String| account.len() == 12 && account.bytes().all(|byte| byte.is_ascii_digit());
        if let Some(account) = accounts.iter().find(|account| !is_account(account)) {
            let message = format!("Value [{account}] for parameter PrincipalId is invalid. Reason: Unable to verify.");
            return Err(SqsError::InvalidParameterValue(message));
        }
        if let Some(action) = actions.iter().find(|action| !ACTIONS.contains(&action.as_str())) {
            return Err(SqsError::InvalidParameterValue(format!(
                "Value SQS:{action} for parameter ActionName is invalid. Reason: Please refer to the appropriate WSDL \
                 for a list of valid actions."
            )));
        }
        Ok(Permission { label, accounts, actions })
    }

    fn statement(&self, arn: &str) -> Value {
        let principals = self.accounts.iter().map(|account| format!("arn:aws:iam::{account}:root")).collect();
        let actions = self.actions.iter().map(|action| format!("SQS:{action}")).collect();
        json!({
            "Sid": self.label,
            "Effect": "Allow",
            "Principal": {"AWS": one_or_list(principals)},
            "Action": one_or_list(actions),
            "Resource": arn,
        })
    }
}

/// A label has 1 to 80 ASCII letters, digits, `-` and `_` (API Reference, AddPermission, `Label`).
pub fn read_label(label: &str) -> Result<String, SqsError> {
    let is_good = |byte: u8| byte.is_ascii_alphanumeric() || byte == b'-' || byte == b'_';
    if (1..=80).contains(&label.len()) && label.bytes().all(is_good) {
        return Ok(label.into());
    }
    Err(wrong_label(label, "It has 1 to 80 alphanumeric characters, hyphens and underscores."))
}

fn wrong_label(label: &str, reason: &str) -> SqsError {
    SqsError::InvalidParameterValue(format!("Value {label} for parameter Label is invalid. Reason: {reason}"))
}

fn one_or_list(mut texts: Vec<String>) -> Value {
    match texts.len() {
        1 => Value::String(texts.remove(0)),
        _ => texts.into(),
    }
}

/// A policy as JSON.
#[derive(Clone, Debug, Default, PartialEq)]
pub struct Policy(Map<String, Value>);

impl Policy {
    /// Whether a text is a policy: a JSON object with a `Statement`, which is an object or a list of objects.
    pub fn is_one(text: &str) -> bool {
        let read: Option<Map<String, Value>> = serde_json::from_str(text).ok();
        match read.as_ref().and_then(|policy| policy.get(STATEMENT)) {
            Some(Value::Object(_)) => true,
            Some(Value::Array(statements)) => !statements.is_empty() && statements.iter().all(Value::is_object),
            _ => false,
        }
    }

    /// The policy that a queue has; the empty text is none. What is no JSON object is `InvalidAttributeValue`.
    pub fn of_queue(text: &str) -> Result<Policy, SqsError> {
        if text.is_empty() {
            return Ok(Policy::default());
        }
        let read = serde_json::from_str(text).map_err(|_| SqsError::attribute_value("Policy", "It is no JSON object."));
        read.map(Policy)
    }

    /// Its text, the empty one where there is no statement.
    pub fn text(&self) -> String {
        match self.0.get(STATEMENT) {
            None => String::new(),
            Some(_) => Value::Object(self.0.clone()).to_string(),
        }
    }

    fn statements(&self) -> &[Value] {
        match self.0.get(STATEMENT) {
            Some(Value::Array(statements)) => statements,
            Some(one) => std::slice::from_ref(one),
            None => &[],
        }
    }

    fn take_statements(&mut self) -> Vec<Value> {
        match self.0.remove(STATEMENT) {
            Some(Value::Array(statements)) => statements,
            Some(one) => vec![one],
            None => Vec::new(),
        }
    }

    /// Adds a statement about the queue of this ARN. A label that is there is `InvalidParameterValue`.
    pub fn add(&mut self, permission: &Permission, arn: &str) -> Result<(), SqsError> {
        let mut statements = self.take_statements();
        if statements.iter().any(|statement| is_labelled(statement, &permission.label)) {
            return Err(wrong_label(&permission.label, "Already exists."));
        }
        if statements.len() >= MOST_STATEMENTS {
            let message =
                format!("{} Statements were found, maximum allowed is {MOST_STATEMENTS}.", statements.len() + 1);
            return Err(SqsError::OverLimit(message));
        }
        statements.push(permission.statement(arn));
        self.0.entry("Version").or_insert_with(|| "2012-10-17".into());
        self.0.entry("Id").or_insert_with(|| format!("{arn}/SQSDefaultPolicy").into());
        self.0.insert(STATEMENT.into(), statements.into());
        Ok(())
    }

    /// Whether this permission was added, and is there still.
    pub fn has(&self, permission: &Permission, arn: &str) -> bool {
        let wanted = permission.statement(arn);
        self.statements().contains(&wanted)
    }

    /// Whether there is a statement of this label.
    pub fn names(&self, label: &str) -> bool {
        self.statements().iter().any(|statement| is_labelled(statement, label))
    }

    /// Takes the statement of a label out. One that isn't there is `InvalidParameterValue`.
    pub fn remove(&mut self, label: &str) -> Result<(), SqsError> {
        let mut statements = self.take_statements();
        let place = statements.iter().position(|statement| is_labelled(statement, label));
        let place = place.ok_or_else(|| wrong_label(label, "can't find label on existing policy."))?;
        statements.remove(place);
        if !statements.is_empty() {
            self.0.insert(STATEMENT.into(), statements.into());
        }
        Ok(())
    }
}

fn is_labelled(statement: &Value, label: &str) -> bool {
    statement.get("Sid").and_then(Value::as_str) == Some(label)
}

#[cfg(test)]
mod tests {
    use super::*;

    fn permission(label: &str) -> Permission {
        Permission::new(label, vec!["123456789012".into()], vec!["SendMessage".into()]).unwrap()
    }

    #[test]
    fn what_is_a_policy() {
        for good in [r#"{"Statement":{}}"#, r#"{"Version":"2012-10-17","Statement":[{"Sid":"a"}]}"#] {
            assert!(Policy::is_one(good), "{good}");
        }
        for bad in
            ["", "nonsense", "{}", "[]", "1", r#"{"Statement":1}"#, r#"{"Statement":[]}"#, r#"{"Statement":[1]}"#]
        {
            assert!(!Policy::is_one(bad), "{bad}");
        }
    }

    #[test]
    fn statements_are_added_and_removed() {
        let mut policy = Policy::of_queue(r#"{"Statement":{"Sid":"own"}}"#).unwrap();
        policy.add(&permission("a"), "arn").unwrap();
        assert!(Policy::is_one(&policy.text()));
        assert!(policy.has(&permission("a"), "arn") && !policy.has(&permission("a"), "other"));
        assert!(policy.names("a") && policy.names("own") && !policy.names("b"));
        assert!(matches!(policy.clone().add(&permission("own"), "arn"), Err(SqsError::InvalidParameterValue(_))));
        assert!(matches!(policy.clone().remove("b"), Err(SqsError::InvalidParameterValue(_))));
        policy.remove("own").unwrap();
        policy.remove("a").unwrap();
        assert_eq!(policy.text(), "");
    }

    #[test]
    fn a_policy_has_twenty_statements() {
        let mut policy = Policy::default();
        for place in 0..20 {
            policy.add(&permission(&format!("a{place}")), "arn").unwrap();
        }
        assert!(matches!(policy.add(&permission("b"), "arn"), Err(SqsError::OverLimit(_))));
    }

    #[test]
    fn bad_permissions() {
        let (accounts, actions) = (|| vec!["123456789012".to_string()], || vec!["*".to_string()]);
        assert!(Permission::new("a", accounts(), actions()).is_ok());
        for label in ["", "a b", "ä", &"x".repeat(81)] {
            assert!(Permission::new(label, accounts(), actions()).is_err(), "{label}");
        }
        assert!(Permission::new("a", vec!["1".into()], actions()).is_err());
        assert!(Permission::new("a", accounts(), vec!["SendMessageBatch".into()]).is_err());
        let eight = Permission::new("a", accounts(), vec!["SendMessage".into(); 8]);
        assert!(matches!(eight, Err(SqsError::OverLimit(_))));
    }
}
