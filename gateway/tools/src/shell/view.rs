//! What the shell tells.

use std::collections::BTreeMap;

use serde_json::Value;

use super::groups::Count;
use crate::watch::{Party, Reply, Shown, ShownServer, Way};

pub fn servers(count: u8) -> String {
    match count {
        1 => "one server".into(),
        count => format!("{count} servers"),
    }
}

/// Why an event or a request is refused, in words.
pub fn refused(name: &str) -> String {
    let why = match name {
        "NoSuchServer" => "there is no such server, or it is none of the chain",
        "ServerDown" => "that server has crashed",
        "LastFull" => "no other server has all that was answered, so this one may not be lost",
        "JoinPending" => "another server joins, or the last one doesn't answer yet",
        "IdUsed" => "a server had this number before: numbers aren't used twice",
        "ChainFull" => "the chain has eight servers",
        "NotDown" => "that server hasn't crashed",
        "NotHead" => "that server isn't the head",
        "NotTail" => "that server doesn't answer",
        "BadQueueName" => "the name of a queue has up to 80 letters, digits, - and _, and ends with .fifo",
        "BadGroup" => "a group has 1 to 128 letters, digits and punctuation",
        "BadDedup" => "an id for deduplication has 1 to 128 letters, digits and punctuation",
        "InvalidMessageContents" => "the body has a character that no message may have",
        "BodyLength" => "a body has 1 to 262144 bytes",
        "BadLine" => "this can't be asked: the receipt may be none",
        _ => "it is refused",
    };
    format!("{why} ({name})")
}

/// The groups of a queue, a line each.
pub fn groups(groups: &BTreeMap<&str, Count>) -> String {
    let told = |(group, count): (&&str, &Count)| {
        format!("\n  group {group}: {} visible, {} in flight", count.visible, count.in_flight)
    };
    groups.iter().map(told).collect()
}

/// What a reply says.
pub fn reply(reply: &Value) -> String {
    match reply["kind"].as_str().unwrap_or_default() {
        "created" => "the queue is there".into(),
        "removed" => "the queue is gone".into(),
        "sent" => format!("sent, as number {} of the queue", reply["sequence"]),
        "received" => received(&reply["messages"]),
        "deleted" if reply["removed"] == false => "it was deleted before".into(),
        "deleted" => "deleted".into(),
        "changed" => "changed".into(),
        "counts" => format!("{} visible, {} in flight", reply["visible"], reply["in_flight"]),
        "refused" => format!("refused: {}", reply["name"].as_str().unwrap_or_default()),
        other => other.into(),
    }
}

fn received(messages: &Value) -> String {
    let messages: Vec<String> = messages.as_array().into_iter().flatten().map(message).collect();
    if messages.is_empty() {
        return "no message is there".into();
    }
    messages.join("\n")
}

fn message(message: &Value) -> String {
    let text = |key: &str| message[key].as_str().unwrap_or_default().to_owned();
    format!("{}  group {}  {}", text("receipt"), text("group"), text("body"))
}

/// An answer, with the place of its request among all.
pub fn answer(answer: &Reply) -> String {
    reply(&answer.reply)
}

/// Several answers; the last one is told as it is, and earlier ones by their requests.
pub fn answers(all: &[Reply]) -> String {
    match all.split_last() {
        Some((last, before)) => format!("{}{}", earlier(before), answer(last)),
        None => String::new(),
    }
}

/// Answers to requests of before.
pub fn earlier(answers: &[Reply]) -> String {
    let told = |one: &Reply| match one.number {
        Some(number) => format!("client {}, request {number}: {}\n", one.client, reply(&one.reply)),
        None => format!("client {}: {}\n", one.client, reply(&one.reply)),
    };
    answers.iter().map(told).collect()
}

/// The chain in one line.
pub fn chain(shown: &Shown) -> String {
    let members: Vec<String> = shown.chain.iter().map(u32::to_string).collect();
    let joins = shown.joins.map_or_else(String::new, |id| format!(", and server {id} joins"));
    format!("chain: {}{joins}", members.join(" → "))
}

fn role(shown: &Shown, server: &ShownServer) -> String {
    let is_member = shown.chain.contains(&server.id);
    let is_within = is_member && shown.chain.first() != Some(&server.id) && shown.chain.last() != Some(&server.id);
    let roles = [
        (server.down, "crashed"),
        (server.head && !server.down, "head"),
        (server.acts && !server.down, "tail"),
        (is_within && !server.down, "middle"),
        (shown.joins == Some(server.id) && !server.down, "joins"),
        (!is_member && shown.joins != Some(server.id) && !server.down, "dropped"),
        (is_member && server.down, "not detected"),
    ];
    let roles: Vec<&str> = roles.iter().filter(|(is_so, _)| *is_so).map(|(_, role)| *role).collect();
    roles.join(", ")
}

/// What is on its way. A server that has crashed puts and takes nothing any more.
fn way(shown: &Shown, way: &Way) -> String {
    let never = |party: Party| if shown.is_down(party) { "never " } else { "" };
    let next = way.next.as_ref().map_or_else(String::new, |next| format!(", next {next}"));
    let waits = (way.waits > 0).then(|| format!("{} {}to be put{next}", way.waits, never(way.from)));
    let stands = (way.stands > 0).then(|| format!("{} {}to be taken", way.stands, never(way.to)));
    let told: Vec<String> = [stands, waits].into_iter().flatten().collect();
    format!("{} → {}: {}", short(way.from), short(way.to), told.join("; "))
}

fn short(party: Party) -> String {
    match party {
        Party::Server(id) => id.to_string(),
        Party::Master => "master".into(),
        Party::Clients => "clients".into(),
    }
}

/// All that the chain holds.
pub fn whole(shown: &Shown) -> String {
    let mut lines = vec![chain(shown), format!("{:>6}  {:<20}{:>8}{:>8}", "server", "role", "entries", "acked")];
    for server in &shown.servers {
        let role = role(shown, server);
        lines.push(format!("{:>6}  {role:<20}{:>8}{:>8}", server.id, server.count, server.acked));
    }
    if shown.ways.is_empty() {
        lines.push("nothing is on its way".into());
    }
    lines.extend(shown.ways.iter().map(|one| way(shown, one)));
    lines.join("\n")
}
