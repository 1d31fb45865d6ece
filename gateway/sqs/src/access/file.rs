//! The file of keys, in TOML: `[[key]]` with `access_key`, `secret`, and what the key may do.

use std::collections::BTreeMap;
use std::fmt;

use thiserror::Error;
use toml::value::{Table, Value};

use super::identity::Identity;
use crate::action::Action;

/// The longest access key, in characters.
const LONGEST_KEY_CHARACTERS: usize = 128;

/// The shortest secret, in characters.
const SHORTEST_SECRET_CHARACTERS: usize = 8;

/// The longest name of a queue, in characters.
const LONGEST_NAME_CHARACTERS: usize = 80;

/// What an access key signs with. It is never shown.
#[derive(Clone, PartialEq, Eq)]
pub struct Secret(String);

impl Secret {
    pub fn as_bytes(&self) -> &[u8] {
        self.0.as_bytes()
    }
}

impl From<&str> for Secret {
    fn from(text: &str) -> Secret {
        Secret(text.into())
    }
}

impl fmt::Debug for Secret {
    fn fmt(&self, formatter: &mut fmt::Formatter<'_>) -> fmt::Result {
        formatter.write_str("Secret")
    }
}

/// What is wrong with a file of keys. No value of a file is in it, since it could be a secret in a wrong place; names of
/// keys are, where they are good.
#[derive(Debug, PartialEq, Eq, Error)]
pub enum Fault {
    #[error("line {line}, column {column}: this is not TOML")]
    NotToml { line: usize, column: usize },
    #[error("it has no [[key]]")]
    Empty,
    #[error("beside [[key]] it has a field {0:?}, which is unknown")]
    UnknownTable(String),
    #[error("key is not written as [[key]]")]
    NotRows,
    #[error("the access key {0} is there twice")]
    Doubled(String),
    #[error("{row}: {what}")]
    Row { row: Row, what: RowFault },
}

/// Which key of a file: by its name, or by its place from 1 on where it has no good one.
#[derive(Debug, PartialEq, Eq, Error)]
pub enum Row {
    #[error("key {0}")]
    Named(String),
    #[error("key number {0}")]
    Place(usize),
}

/// What is wrong with one key.
#[derive(Debug, PartialEq, Eq, Error)]
pub enum RowFault {
    #[error("{0} is missing")]
    Missing(&'static str),
    #[error("{0} is not a text")]
    NotText(&'static str),
    #[error("{0} is not a list of texts")]
    NotList(&'static str),
    #[error("{0} is an empty list; all are allowed where it is left out")]
    EmptyList(&'static str),
    #[error("access_key is not 1 to {LONGEST_KEY_CHARACTERS} letters, digits, hyphens and underscores of ASCII")]
    AccessKey,
    #[error("secret has fewer than {SHORTEST_SECRET_CHARACTERS} characters")]
    ShortSecret,
    #[error("no queue's name can begin as number {0} of queues says")]
    Prefix(usize),
    #[error("number {0} of actions is no action of SQS that is done here")]
    Action(usize),
    #[error("it has a field {0:?}, which is unknown")]
    Unknown(String),
}

/// The keys of a file with their secrets, by their names.
pub fn parse(text: &str) -> Result<BTreeMap<String, (Identity, Secret)>, Fault> {
    let file: Table = toml::from_str(text).map_err(|error: toml::de::Error| {
        let (line, column) = error.line_col().unwrap_or_default();
        Fault::NotToml { line: line + 1, column: column + 1 }
    })?;
    if let Some(unknown) = file.keys().find(|name| *name != "key") {
        return Err(Fault::UnknownTable(unknown.clone()));
    }
    let rows = match file.get("key") {
        None => return Err(Fault::Empty),
        Some(Value::Array(rows)) if rows.is_empty() => return Err(Fault::Empty),
        Some(Value::Array(rows)) => rows,
        Some(_) => return Err(Fault::NotRows),
    };
    let mut keys = BTreeMap::new();
    for (place, row) in rows.iter().enumerate() {
        let row = row.as_table().ok_or(Fault::NotRows)?;
        let access_key = access_key(row).map_err(|what| Fault::Row { row: Row::Place(place + 1), what })?;
        let key = key(&access_key, row).map_err(|what| Fault::Row { row: Row::Named(access_key.clone()), what })?;
        if keys.insert(access_key.clone(), key).is_some() {
            return Err(Fault::Doubled(access_key));
        }
    }
    Ok(keys)
}

fn access_key(row: &Table) -> Result<String, RowFault> {
    let access_key = text(row, "access_key")?;
    let is_good = |byte: u8| byte.is_ascii_alphanumeric() || byte == b'-' || byte == b'_';
    let has_form = (1..=LONGEST_KEY_CHARACTERS).contains(&access_key.len()) && access_key.bytes().all(is_good);
    has_form.then(|| access_key.to_string()).ok_or(RowFault::AccessKey)
}

fn key(access_key: &str, row: &Table) -> Result<(Identity, Secret), RowFault> {
    const KNOWN: [&str; 4] = ["access_key", "secret", "queues", "actions"];
    if let Some(unknown) = row.keys().find(|name| !KNOWN.contains(&name.as_str())) {
        return Err(RowFault::Unknown(unknown.clone()));
    }
    let secret = text(row, "secret")?;
    if secret.chars().count() < SHORTEST_SECRET_CHARACTERS {
        return Err(RowFault::ShortSecret);
    }
    let queues = list(row, "queues", |prefix| can_begin_a_name(prefix).then(|| prefix.into()), RowFault::Prefix)?;
    let actions = list(row, "actions", |name| name.parse::<Action>().ok(), RowFault::Action)?;
    Ok((Identity::new(access_key.into(), queues, actions), secret.into()))
}

fn text<'t>(row: &'t Table, name: &'static str) -> Result<&'t str, RowFault> {
    row.get(name).ok_or(RowFault::Missing(name))?.as_str().ok_or(RowFault::NotText(name))
}

/// The list in a field, each text of it read; `fault` says what is wrong with one by its place, from 1 on.
fn list<T>(
    row: &Table,
    name: &'static str,
    read: impl Fn(&str) -> Option<T>,
    fault: impl Fn(usize) -> RowFault,
) -> Result<Option<Vec<T>>, RowFault> {
    let Some(value) = row.get(name) else { return Ok(None) };
    let texts = value.as_array().ok_or(RowFault::NotList(name))?;
    if texts.is_empty() {
        return Err(RowFault::EmptyList(name));
    }
    let read_one = |(place, value): (usize, &Value)| {
        let text = value.as_str().ok_or(RowFault::NotList(name))?;
        read(text).ok_or_else(|| fault(place + 1))
    };
    texts.iter().enumerate().map(read_one).collect::<Result<Vec<T>, RowFault>>().map(Some)
}

/// Whether a text has only the characters of queues' names, with a dot only where `.fifo` begins.
fn can_begin_a_name(prefix: &str) -> bool {
    let (stem, suffix) = prefix.split_at(prefix.find('.').unwrap_or(prefix.len()));
    let is_good = |byte: u8| byte.is_ascii_alphanumeric() || byte == b'-' || byte == b'_';
    !stem.is_empty()
        && prefix.len() <= LONGEST_NAME_CHARACTERS
        && stem.bytes().all(is_good)
        && ".fifo".starts_with(suffix)
}
