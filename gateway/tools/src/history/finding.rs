//! What is said of an answer.

use std::fmt;

/// What the rules say of an answer that isn't against them.
#[derive(Clone, Copy, Debug, PartialEq, Eq)]
pub enum Judged {
    Allowed,
    /// Nothing.
    Not,
}

/// A rule, by where it stands.
#[derive(Clone, Copy, Debug, PartialEq, Eq)]
pub enum Rule {
    Texts,
    Repeats,
    Create,
    Remove,
    Send,
    Receive,
    Delete,
    ExpiredDelete,
    Change,
    Counts,
    Attempts,
    Purge,
    Batches,
}

impl fmt::Display for Rule {
    fn fmt(&self, out: &mut fmt::Formatter<'_>) -> fmt::Result {
        let (page, heading) = match self {
            Rule::Texts => ("QUEUES", "Names, ids and bodies"),
            Rule::Repeats => ("QUEUES", "Repeats"),
            Rule::Create => ("QUEUES", "Create"),
            Rule::Remove => ("QUEUES", "Remove"),
            Rule::Send => ("QUEUES", "Send"),
            Rule::Receive => ("QUEUES", "Receive"),
            Rule::Delete => ("QUEUES", "Delete"),
            Rule::ExpiredDelete => ("GATEWAY", "Deletes and receipts"),
            Rule::Change => ("QUEUES", "Change"),
            Rule::Counts => ("QUEUES", "Counts"),
            Rule::Attempts => ("GATEWAY", "Retries"),
            Rule::Purge => ("GATEWAY", "Actions"),
            Rule::Batches => ("GATEWAY", "Actions"),
        };
        write!(out, "docs/{page}.md, \"{heading}\"")
    }
}

/// An answer that the rules don't allow.
#[derive(Clone, Debug, PartialEq, Eq)]
pub struct Finding {
    /// What was answered.
    pub told: String,
    /// What would have been allowed, and why.
    pub allowed: String,
    pub rule: Rule,
}

impl fmt::Display for Finding {
    fn fmt(&self, out: &mut fmt::Formatter<'_>) -> fmt::Result {
        write!(out, "{}; {} ({})", self.told, self.allowed, self.rule)
    }
}
