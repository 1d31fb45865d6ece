//! The groups of queues, as far as answers tell of them.

use std::collections::{BTreeMap, BTreeSet, HashMap};

use serde_json::Value;

use crate::watch::Reply;

/// The visibility timeout of a queue that was made without one, in seconds.
const VISIBILITY_SECONDS: u64 = 30;

/// A request that isn't answered yet.
struct Open {
    /// In milliseconds.
    clock: u64,
    ask: Value,
}

/// A message that wasn't deleted.
struct ShellMessage {
    group: String,
    /// It is in flight before this moment.
    until: u64,
}

#[derive(Default)]
struct ShellQueue {
    incarnation: u64,
    /// In seconds.
    visibility: u64,
    /// By their places.
    messages: BTreeMap<u64, ShellMessage>,
    deleted: BTreeSet<u64>,
}

/// How many messages of a group there are.
#[derive(Clone, Copy, Debug, Default, PartialEq, Eq)]
pub struct Count {
    pub visible: u64,
    pub in_flight: u64,
}

/// What the answers to requests tell of messages.
#[derive(Default)]
pub struct Groups {
    open: HashMap<(u32, u64), Open>,
    queues: HashMap<String, ShellQueue>,
    /// The clock of the last request that was answered.
    moment: u64,
}

/// The place of the message that a receipt is of.
fn place_of(receipt: &Value) -> Option<u64> {
    receipt.as_str()?.split('-').nth(1)?.parse().ok()
}

impl Groups {
    /// A request arrived. One that comes once more counts from then on.
    pub fn ask(&mut self, client: u32, number: u64, clock: u64, ask: &Value) {
        self.open.insert((client, number), Open { clock, ask: ask.clone() });
    }

    /// An answer was given. A second one to the same request tells nothing new.
    pub fn hear(&mut self, answer: &Reply) {
        let Some(number) = answer.number else { return };
        let Some(Open { clock, ask }) = self.open.remove(&(answer.client, number)) else { return };
        self.moment = self.moment.max(clock);
        let name = ask["queue"].as_str().unwrap_or_default();
        match answer.reply["kind"].as_str() {
            Some("created") => self.created(name, &ask, &answer.reply),
            Some("removed") => drop(self.queues.remove(name)),
            _ => {
                if let Some(queue) = self.queues.get_mut(name) {
                    queue.hear(clock, &ask, &answer.reply);
                }
            }
        }
    }

    fn created(&mut self, name: &str, ask: &Value, reply: &Value) {
        let incarnation = reply["incarnation"].as_u64().unwrap_or_default();
        let queue = self.queues.entry(name.into()).or_default();
        if queue.incarnation != incarnation {
            let visibility = ask["visibility"].as_u64().unwrap_or(VISIBILITY_SECONDS);
            *queue = ShellQueue { incarnation, visibility, ..ShellQueue::default() };
        }
    }

    /// The groups of a queue that have messages.
    pub fn of(&self, name: &str) -> BTreeMap<&str, Count> {
        let mut counts: BTreeMap<&str, Count> = BTreeMap::new();
        for message in self.queues.get(name).iter().flat_map(|queue| queue.messages.values()) {
            let count = counts.entry(&message.group).or_default();
            if self.moment < message.until {
                count.in_flight += 1;
            } else {
                count.visible += 1;
            }
        }
        counts
    }
}

impl ShellQueue {
    fn hear(&mut self, clock: u64, ask: &Value, reply: &Value) {
        let end = |visibility: u64| clock + 1_000 * visibility;
        match reply["kind"].as_str() {
            Some("sent") => self.add(reply["sequence"].as_u64(), &ask["group"], 0),
            Some("received") => {
                let until = end(ask["visibility"].as_u64().unwrap_or(self.visibility));
                for message in reply["messages"].as_array().into_iter().flatten() {
                    let place = place_of(&message["receipt"]);
                    self.messages.remove(&place.unwrap_or_default());
                    self.add(place, &message["group"], until);
                }
            }
            Some("deleted") => {
                if let Some(place) = place_of(&ask["receipt"]) {
                    self.messages.remove(&place);
                    self.deleted.insert(place);
                }
            }
            Some("changed") => {
                let place = place_of(&ask["receipt"]).unwrap_or_default();
                if let Some(message) = self.messages.get_mut(&place) {
                    message.until = end(ask["visibility"].as_u64().unwrap_or_default());
                }
            }
            _ => {}
        }
    }

    /// A message is there, unless it is already, or was deleted: a send may be a repeat.
    fn add(&mut self, place: Option<u64>, group: &Value, until: u64) {
        let Some(place) = place.filter(|place| !self.deleted.contains(place)) else { return };
        let group = group.as_str().unwrap_or_default().into();
        self.messages.entry(place).or_insert(ShellMessage { group, until });
    }
}

#[cfg(test)]
mod tests {
    use serde_json::json;

    use super::*;

    /// The groups of q.fifo after these asks, a second apart, and their replies.
    fn after(asked: &[(Value, Value)]) -> Vec<(String, u64, u64)> {
        let mut groups = Groups::default();
        for (number, (ask, reply)) in (1..).zip(asked) {
            groups.ask(1, number, 1_000 * number, ask);
            groups.hear(&Reply { client: 1, length: number, number: Some(number), tag: None, reply: reply.clone() });
        }
        groups.of("q.fifo").into_iter().map(|(group, count)| (group.into(), count.visible, count.in_flight)).collect()
    }

    fn create() -> (Value, Value) {
        (json!({"kind": "create", "queue": "q.fifo", "visibility": 2}), json!({"kind": "created", "incarnation": 1}))
    }

    fn send(group: &str, sequence: u64) -> (Value, Value) {
        (json!({"kind": "send", "queue": "q.fifo", "group": group}), json!({"kind": "sent", "sequence": sequence}))
    }

    fn receive(group: &str, receipt: &str) -> (Value, Value) {
        (
            json!({"kind": "receive", "queue": "q.fifo"}),
            json!({"kind": "received", "messages": [{"receipt": receipt, "group": group, "body": "x"}]}),
        )
    }

    fn delete(receipt: &str) -> (Value, Value) {
        (json!({"kind": "delete", "queue": "q.fifo", "receipt": receipt}), json!({"kind": "deleted", "removed": true}))
    }

    #[test]
    fn messages_are_counted_by_group() {
        let sent = [create(), send("a", 1), send("b", 2), send("a", 3)];
        assert_eq!(after(&sent), [("a".into(), 2, 0), ("b".into(), 1, 0)]);
    }

    #[test]
    fn a_message_is_in_flight_until_its_time_is_over() {
        let mut asked = vec![create(), send("a", 1), receive("a", "1-1-1")];
        assert_eq!(after(&asked), [("a".into(), 0, 1)]);
        asked.push(send("b", 2));
        assert_eq!(after(&asked), [("a".into(), 0, 1), ("b".into(), 1, 0)]);
        asked.push(send("b", 3));
        assert_eq!(after(&asked), [("a".into(), 1, 0), ("b".into(), 2, 0)]);
    }

    #[test]
    fn a_deleted_message_does_not_come_back_with_a_repeat_of_its_send() {
        assert_eq!(after(&[create(), send("a", 1), receive("a", "1-1-1"), delete("1-1-1"), send("a", 1)]), []);
    }

    #[test]
    fn a_new_incarnation_is_empty() {
        let mut again = create();
        again.1["incarnation"] = json!(2);
        assert_eq!(after(&[create(), send("a", 1), again]), []);
    }
}
