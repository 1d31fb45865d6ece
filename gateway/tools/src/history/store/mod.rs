//! A store as the rules have it behind the requests so far (`docs/QUEUES.md`). They leave it no choice, so each answer is compared
//! with the one that they have.

mod loading;
mod queue;
#[cfg(test)]
mod tests;

use std::collections::HashMap;

use hobbychair_bytes::values::{StoreAsk, StoreReply, StoreRequest};
use serde_json::{Map, Value};

use super::finding::{Finding, Judged, Rule};
use super::line::{bare, Line, Members};
use super::stored::{told, StoredAnswer, NO_QUEUE, OTHER_ATTRIBUTES, REMOVED_LATELY, STALE};
pub use loading::Loading;
use queue::StoreQueue;

/// So long the name of a removed queue isn't free, in milliseconds.
const REMOVED_MILLISECONDS: u64 = 60_000;

/// No more of an answer is shown, in characters.
const MOST_SHOWN_CHARACTERS: usize = 300;

/// A store. At first it has nothing.
#[derive(Default)]
pub struct Store {
    clients: HashMap<u32, LastReply>,
    names: HashMap<String, NameRecord>,
}

/// The largest number of a client, and the reply to it. None: that isn't known.
struct LastReply {
    number: u64,
    reply: Option<KeptReply>,
}

#[derive(Clone)]
struct KeptReply {
    reply: StoreReply,
    /// Of the queue to which a message was sent, or 0.
    incarnation: u64,
}

#[derive(Default)]
struct NameRecord {
    /// How many took effect.
    creations: u64,
    removed: Option<u64>,
    queue: Option<StoreQueue>,
}

impl Store {
    /// What the rules say of the answer in a line, which is to this request. Behind one that they don't allow this is of no use any
    /// more.
    pub fn judge(&mut self, line: &Line, request: &StoreRequest) -> Result<Judged, Finding> {
        let Some((KeptReply { reply, incarnation }, rule)) = self.reply(request, line.at) else {
            return Ok(Judged::Not);
        };
        // It replies to requests alone, with receipts of its own.
        let wanted = told(request, incarnation, &reply).unwrap_or_else(|| Ok(Map::new()));
        let told = line.told().cloned();
        if told.as_ref().map_err(|code| bare(code)) == wanted.as_ref().map_err(|code| bare(code)) {
            return Ok(Judged::Allowed);
        }
        let (told, wanted) = difference(&told, &wanted);
        Err(Finding { told: format!("it {told}"), allowed: format!("the rules {wanted}"), rule })
    }

    /// The reply to a request at this moment, and the rule that says so. None: it repeats one whose reply isn't known.
    fn reply(&mut self, request: &StoreRequest, now: u64) -> Option<(KeptReply, Rule)> {
        match self.clients.get(&request.client) {
            Some(last) if last.number == request.number => Some((last.reply.clone()?, Rule::Repeats)),
            Some(last) if last.number > request.number => {
                Some((KeptReply { reply: StoreReply::Refused(STALE), incarnation: 0 }, Rule::Repeats))
            }
            _ => {
                let (reply, rule) = self.effect(request, now);
                self.clients.insert(request.client, LastReply { number: request.number, reply: Some(reply.clone()) });
                Some((reply, rule))
            }
        }
    }

    /// What a fresh request does and is answered.
    fn effect(&mut self, request: &StoreRequest, now: u64) -> (KeptReply, Rule) {
        let name = self.names.entry(request.queue.clone()).or_default();
        let incarnation = name.queue.as_ref().map_or(0, |queue| queue.incarnation);
        let (reply, rule) = name.effect(&request.ask, now);
        (KeptReply { reply, incarnation }, rule)
    }
}

impl NameRecord {
    fn effect(&mut self, ask: &StoreAsk, now: u64) -> (StoreReply, Rule) {
        match (ask, &mut self.queue) {
            (StoreAsk::Create { timeout, makes_ids }, _) => (self.create(*timeout, *makes_ids, now), Rule::Create),
            (_, None) => (StoreReply::Refused(NO_QUEUE), Rule::Remove),
            (StoreAsk::Remove, _) => {
                (self.queue, self.removed) = (None, Some(now));
                (StoreReply::Removed, Rule::Remove)
            }
            (StoreAsk::Send { group, dedup, body }, Some(queue)) => {
                (queue.send(group, dedup.as_deref(), body, now), Rule::Send)
            }
            (StoreAsk::Receive { size, timeout }, Some(queue)) => (queue.receive(*size, *timeout, now), Rule::Receive),
            (StoreAsk::Delete { receipt }, Some(queue)) => (queue.delete(*receipt, now), Rule::Delete),
            (StoreAsk::Change { receipt, timeout }, Some(queue)) => {
                (queue.change(*receipt, *timeout, now), Rule::Change)
            }
        }
    }

    fn create(&mut self, timeout: u32, makes_ids: bool, now: u64) -> StoreReply {
        match &self.queue {
            Some(queue) if queue.has(timeout, makes_ids) => StoreReply::Created(queue.incarnation),
            Some(_) => StoreReply::Refused(OTHER_ATTRIBUTES),
            None if self.removed.is_some_and(|removed| now < removed.saturating_add(REMOVED_MILLISECONDS)) => {
                StoreReply::Refused(REMOVED_LATELY)
            }
            None => {
                self.creations += 1;
                self.queue = Some(StoreQueue::new(self.creations, timeout, makes_ids));
                StoreReply::Created(self.creations)
            }
        }
    }
}

/// Words for the first thing in which an answer is another one than it has to be.
fn difference(told: &StoredAnswer, wanted: &StoredAnswer) -> (String, String) {
    match (told, wanted) {
        (Ok(told), Ok(wanted)) => of_members(told, wanted),
        (told, wanted) => {
            let told = told.as_ref().err().map_or("was done".into(), |code| format!("was refused, {code}"));
            let wanted = wanted.as_ref().err().map_or("do it".into(), |code| format!("refuse it, {code}"));
            (told, wanted)
        }
    }
}

fn of_members(told: &Members, wanted: &Members) -> (String, String) {
    let names = wanted.keys().chain(told.keys());
    let differs = names.into_iter().find(|name| told.get(*name) != wanted.get(*name));
    let Some(name) = differs else { return Default::default() };
    match (told.get(name), wanted.get(name)) {
        (Some(Value::Array(told)), Some(Value::Array(wanted))) => of_messages(told, wanted),
        (told, wanted) => (format!("told {}", member(name, told)), format!("tell {}", member(name, wanted))),
    }
}

/// Words for the first message that is another one.
fn of_messages(told: &[Value], wanted: &[Value]) -> (String, String) {
    let place = told.iter().zip(wanted).take_while(|(told, wanted)| told == wanted).count();
    let words = |messages: &[Value]| messages.get(place).map_or("nothing".into(), |message| cut(&message.to_string()));
    (format!("handed {} as number {}", words(told), place + 1), format!("hand {} there", words(wanted)))
}

fn member(name: &str, value: Option<&Value>) -> String {
    value.map_or_else(|| format!("no {name}"), |value| format!("{name} {}", cut(&value.to_string())))
}

/// The front of a text.
fn cut(text: &str) -> String {
    let front: String = text.chars().take(MOST_SHOWN_CHARACTERS).collect();
    let more = if front.len() < text.len() { ".." } else { "" };
    format!("{front}{more}")
}
