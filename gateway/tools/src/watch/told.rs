//! Lines of output.

use std::fmt;

use serde::Deserialize;
use serde_json::Value;

/// Who sends and takes messages.
#[derive(Clone, Copy, Debug, PartialEq, Eq, PartialOrd, Ord, Hash)]
pub enum Party {
    Clients,
    Server(u32),
    Master,
}

impl Party {
    /// The party that a line names: a server by its number, each other one by its name.
    pub fn of(value: &Value) -> Option<Party> {
        match value.as_str() {
            Some("master") => Some(Party::Master),
            Some("clients") => Some(Party::Clients),
            Some(_) => None,
            None => value.as_u64().and_then(|number| u32::try_from(number).ok()).map(Party::Server),
        }
    }

    /// The same as a line has it.
    pub fn value(self) -> Value {
        match self {
            Party::Clients => "clients".into(),
            Party::Server(id) => id.into(),
            Party::Master => "master".into(),
        }
    }
}

impl<'de> Deserialize<'de> for Party {
    fn deserialize<D: serde::Deserializer<'de>>(reader: D) -> Result<Party, D::Error> {
        let value = Value::deserialize(reader)?;
        Party::of(&value).ok_or_else(|| serde::de::Error::custom("no party"))
    }
}

impl fmt::Display for Party {
    fn fmt(&self, f: &mut fmt::Formatter<'_>) -> fmt::Result {
        match self {
            Party::Clients => f.write_str("the clients"),
            Party::Server(id) => write!(f, "server {id}"),
            Party::Master => f.write_str("the master"),
        }
    }
}

/// A message that waits first.
#[derive(Clone, Debug, Deserialize, PartialEq, Eq)]
pub struct Waiting {
    pub kind: String,
    pub number: u64,
}

impl fmt::Display for Waiting {
    fn fmt(&self, f: &mut fmt::Formatter<'_>) -> fmt::Result {
        match self.kind.as_str() {
            "BeHead" | "Ready" => f.write_str(&self.kind),
            // It is to feed nobody any more.
            "Feed" if self.number == 0 => f.write_str("Feed nobody"),
            kind => write!(f, "{kind} {}", self.number),
        }
    }
}

/// What is on its way from one party to another.
#[derive(Clone, Debug, Deserialize, PartialEq, Eq)]
pub struct Way {
    pub from: Party,
    pub to: Party,
    /// How many messages wait at the sender.
    pub waits: u64,
    /// How many stand in the link.
    pub stands: u64,
    pub next: Option<Waiting>,
}

#[derive(Clone, Debug, Deserialize, PartialEq, Eq)]
pub struct ShownServer {
    #[serde(rename = "server")]
    pub id: u32,
    pub head: bool,
    pub acts: bool,
    pub down: bool,
    pub full: bool,
    pub count: u64,
    pub acked: u64,
}

/// What the chain holds.
#[derive(Clone, Debug, Deserialize, PartialEq, Eq)]
pub struct Shown {
    pub chain: Vec<u32>,
    pub joins: Option<u32>,
    pub ready: bool,
    pub servers: Vec<ShownServer>,
    pub ways: Vec<Way>,
}

impl Shown {
    pub fn server(&self, id: u32) -> Option<&ShownServer> {
        self.servers.iter().find(|server| server.id == id)
    }

    /// Whether it is a server that has crashed.
    pub fn is_down(&self, party: Party) -> bool {
        matches!(party, Party::Server(id) if self.server(id).is_some_and(|server| server.down))
    }

    pub fn way(&self, from: Party, to: Party) -> Option<&Way> {
        self.ways.iter().find(|way| (way.from, way.to) == (from, to))
    }

    /// The server at which requests arrive.
    pub fn head(&self) -> Option<u32> {
        self.servers.iter().find(|server| server.head && !server.down).map(|server| server.id)
    }

    /// The server that answers.
    pub fn tail(&self) -> Option<u32> {
        self.servers.iter().find(|server| server.acts && !server.down).map(|server| server.id)
    }
}

/// An answer that is given.
#[derive(Clone, Debug, Deserialize, PartialEq)]
pub struct Reply {
    pub client: u32,
    pub length: u64,
    /// Of a request.
    pub number: Option<u64>,
    /// Of a query.
    pub tag: Option<u64>,
    pub reply: Value,
}

/// A line of output.
#[derive(Clone, Debug, PartialEq)]
pub enum OutputLine {
    Shown(Shown),
    Answer(Reply),
    Refused { code: u16, name: String },
}

impl OutputLine {
    pub fn of(line: &str) -> serde_json::Result<OutputLine> {
        let value: Value = serde_json::from_str(line)?;
        if value["kind"] == "show" {
            return Ok(OutputLine::Shown(Shown::deserialize(value)?));
        }
        if value.get("reply").is_some() {
            return Ok(OutputLine::Answer(Reply::deserialize(value)?));
        }
        #[derive(Deserialize)]
        struct RefusedLine {
            refused: u16,
            name: String,
        }
        let RefusedLine { refused, name } = RefusedLine::deserialize(value)?;
        Ok(OutputLine::Refused { code: refused, name })
    }
}
