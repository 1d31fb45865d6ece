//! The events of lines, as far as they are drawn.

use anyhow::{Context, Result};
use serde_json::Value;

use crate::watch::Party;

/// What a line says. `cq` has read it before.
#[derive(Clone, Debug, PartialEq, Eq)]
pub enum Event {
    /// A request or a query reaches a server; with what it asks for.
    Comes {
        client: u32,
        at: u32,
        what: String,
    },
    Put {
        from: Party,
        to: Party,
    },
    Take {
        from: Party,
        to: Party,
    },
    Crash {
        server: u32,
    },
    Detect {
        server: u32,
    },
    Join {
        server: u32,
    },
}

fn number(value: &Value, key: &str) -> Result<u32> {
    let number = value[key].as_u64().and_then(|number| u32::try_from(number).ok());
    number.with_context(|| format!("{key} is no number"))
}

fn party(value: &Value, key: &str) -> Result<Party> {
    Party::of(&value[key]).with_context(|| format!("{key} is no party"))
}

/// An ask in few words: its kind, its queue, and which of its texts tells it from others.
fn words(ask: &Value) -> String {
    let text = |key: &str| ask[key].as_str().map(str::to_owned);
    let group_and_body = text("group").zip(text("body")).map(|(group, body)| format!("{group} {body:?}"));
    let visibility = || ask["visibility"].as_u64().filter(|_| ask["kind"] == "change").map(|s| format!("{s} s"));
    let told = [text("kind"), text("queue"), group_and_body, text("receipt"), visibility()];
    told.into_iter().flatten().collect::<Vec<_>>().join(" ")
}

impl Event {
    pub fn of(line: &str) -> Result<Event> {
        let value: Value = serde_json::from_str(line)?;
        Ok(match value["op"].as_str().unwrap_or_default() {
            "arrive" => Event::Comes {
                client: number(&value, "client")?,
                at: number(&value, "at")?,
                what: format!("#{} {}", value["number"], words(&value["ask"])),
            },
            "ask" => Event::Comes {
                client: number(&value, "client")?,
                at: number(&value, "at")?,
                what: format!("counts of {}", value["queue"].as_str().unwrap_or_default()),
            },
            "put" => Event::Put { from: party(&value, "from")?, to: party(&value, "to")? },
            "take" => Event::Take { from: party(&value, "from")?, to: party(&value, "to")? },
            "crash" => Event::Crash { server: number(&value, "server")? },
            "detect" => Event::Detect { server: number(&value, "server")? },
            "join" => Event::Join { server: number(&value, "server")? },
            other => anyhow::bail!("{other:?} is no event"),
        })
    }
}
