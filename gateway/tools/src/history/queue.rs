//! One queue, as the rules have it behind the answers so far.

use std::collections::{BTreeMap, HashMap, VecDeque};

use hobbychair_bytes::characters::is_short_and_printable;
use hobbychair_sqs::digests::md5_of_text;
use hobbychair_sqs::texts::DedupId;

use super::finding::{Finding, Judged, Rule};
use super::line::{number, objects, text, Line, Members};

/// A send with the id of an earlier one adds nothing for so long, and a receive with an earlier attempt id gives the same.
const REMEMBERED_MILLISECONDS: u64 = 300_000;

/// A purge may take so long, and another one is refused for so long.
const PURGING_MILLISECONDS: u64 = 60_000;

/// From its last handing on a message is hidden for at most so long.
const LONGEST_HIDDEN_MILLISECONDS: u64 = 43_200_000;

const LONGEST_TIMEOUT_SECONDS: i64 = 43_200;
const MOST_HANDED: i64 = 10;

/// A body of so many bytes is taken by every service, and one of more than the second number by none.
const SURE_BODY_BYTES: usize = 262_144;
const LONGEST_BODY_BYTES: usize = 1 << 20;

/// What the rules speak of, with its value where none is given.
const DEFAULTS: [(&str, &str); 8] = [
    ("ContentBasedDeduplication", "false"),
    ("DeduplicationScope", "queue"),
    ("DelaySeconds", "0"),
    ("FifoThroughputLimit", "perQueue"),
    ("MessageRetentionPeriod", "345600"),
    ("ReceiveMessageWaitTimeSeconds", "0"),
    ("VisibilityTimeout", "30"),
    ("FifoQueue", "true"),
];

struct ServiceMessage {
    id: String,
    group: String,
    body: String,
    sent: u64,
    /// How often it was handed out, when last, and until when it is hidden.
    handings: u64,
    handed: u64,
    until: u64,
    is_deleted: bool,
}

/// Whether a message is there.
#[derive(Clone, Copy, PartialEq, Eq)]
enum Presence {
    Here,
    /// A purge that may still go on has it, or it is older than the queue keeps messages.
    MaybeGone,
    Gone,
}

struct Attempt {
    at: u64,
    /// Messages, and which handing of each.
    given: Vec<(usize, u64)>,
}

/// One queue.
pub struct ServiceQueue {
    attributes: BTreeMap<String, String>,
    messages: Vec<ServiceMessage>,
    by_id: HashMap<String, usize>,
    /// Those that may be there, in the order of sending.
    groups: HashMap<String, VecDeque<usize>>,
    /// A message, and which handing of it, by the handle that a client was given.
    handles: HashMap<String, (usize, u64)>,
    /// When an id was accepted, and for which message.
    accepted: HashMap<(Option<String>, String), (u64, usize)>,
    attempts: HashMap<String, Attempt>,
    /// When the last purge was, and how many messages had been sent by then.
    purge: Option<(u64, usize)>,
    /// It has or had delays or dead letters, of which the rules don't speak.
    is_beyond: bool,
}

impl ServiceQueue {
    pub fn new(attributes: Vec<(String, String)>) -> ServiceQueue {
        let mut queue = ServiceQueue {
            attributes: BTreeMap::new(),
            messages: Vec::new(),
            by_id: HashMap::new(),
            groups: HashMap::new(),
            handles: HashMap::new(),
            accepted: HashMap::new(),
            attempts: HashMap::new(),
            purge: None,
            is_beyond: false,
        };
        queue.set(attributes);
        queue
    }

    /// The value of an attribute that the rules speak of.
    pub fn attribute(&self, name: &str) -> Option<&str> {
        let default = || DEFAULTS.iter().find(|(known, _)| *known == name).map(|(_, value)| *value);
        self.attributes.get(name).map(String::as_str).or_else(default)
    }

    pub fn set(&mut self, attributes: Vec<(String, String)>) {
        self.attributes.extend(attributes);
        let has = |name: &str| self.attributes.get(name).is_some_and(|value| !value.is_empty());
        let is_ruled =
            self.attribute("DelaySeconds") == Some("0") && !has("RedrivePolicy") && !has("RedriveAllowPolicy");
        self.is_beyond |= !is_ruled;
    }

    /// Whether the rules don't speak of all that it does.
    pub fn is_beyond(&self) -> bool {
        self.is_beyond
    }

    fn timeout(&self) -> u64 {
        self.attribute("VisibilityTimeout").and_then(|text| text.parse().ok()).unwrap_or(30)
    }

    fn makes_ids(&self) -> bool {
        self.attribute("ContentBasedDeduplication") == Some("true")
    }

    fn presence(&self, place: usize, now: u64) -> Presence {
        let message = &self.messages[place];
        let retention = self.attribute("MessageRetentionPeriod").and_then(|text| text.parse().ok()).unwrap_or(u64::MAX);
        let is_purged = self.purge.filter(|(_, count)| place < *count);
        match is_purged {
            _ if message.is_deleted => Presence::Gone,
            Some((at, _)) if now - at >= PURGING_MILLISECONDS => Presence::Gone,
            Some(_) => Presence::MaybeGone,
            None if now - message.sent >= retention.saturating_mul(1000) => Presence::MaybeGone,
            None => Presence::Here,
        }
    }

    fn is_in_flight(&self, place: usize, now: u64) -> bool {
        let message = &self.messages[place];
        message.handings > 0 && now < message.until
    }

    // ---- sends

    /// Judges a send, or an entry of a batch.
    pub fn send(&mut self, line: &Line, request: &Members) -> Result<Judged, Finding> {
        let (body, group) = (text(request, "MessageBody").unwrap_or_default(), text(request, "MessageGroupId"));
        let given = text(request, "MessageDeduplicationId");
        if let Some((codes, why, rule)) = self.why_not_sent(request) {
            return line.refused(&codes, why, rule);
        }
        if body.len() > SURE_BODY_BYTES && line.told().is_err() {
            // Whether it is too long is the service's choice.
            return Ok(Judged::Not);
        }
        let group = group.unwrap_or_default();
        let dedup = given.map_or_else(|| DedupId::of_body(body).as_str().to_string(), String::from);
        let scope = self.attribute("DeduplicationScope") == Some("messageGroup");
        let key = (scope.then(|| group.to_string()), dedup);
        let answer = line.done("it is well formed, and its queue is there", Rule::Send)?;
        let id = text(answer, "MessageId").unwrap_or_default();
        if text(answer, "MD5OfMessageBody").is_some_and(|digest| digest != md5_of_text(body)) {
            return Err(finding(
                "its MD5OfMessageBody is another one".into(),
                "it has to be that of the body",
                Rule::Send,
            ));
        }
        if let Some((_, first)) = self.accepted.get(&key).filter(|(at, _)| line.at - at < REMEMBERED_MILLISECONDS) {
            let first = &self.messages[*first].id;
            if first != id {
                let allowed = format!(
                    "it has to be {first}, that of the first send: one with the same deduplication id within five minutes \
                     adds nothing"
                );
                return Err(Finding { told: format!("its MessageId is {id}"), allowed, rule: Rule::Send });
            }
            return Ok(Judged::Allowed);
        }
        if self.by_id.contains_key(id) {
            let told = format!("its MessageId is {id}, that of an earlier message");
            let allowed =
                "it has to be another one: no send with this deduplication id was accepted in the last five minutes";
            return Err(finding(told, allowed, Rule::Send));
        }
        self.accept(line.at, key, id, (group, body));
        Ok(Judged::Allowed)
    }

    fn accept(&mut self, now: u64, key: (Option<String>, String), id: &str, (group, body): (&str, &str)) {
        let place = self.messages.len();
        let (id, group, body) = (id.to_string(), group.to_string(), body.to_string());
        self.accepted.insert(key, (now, place));
        self.by_id.insert(id.clone(), place);
        self.groups.entry(group.clone()).or_default().push_back(place);
        self.messages.push(ServiceMessage {
            id,
            group,
            body,
            sent: now,
            handings: 0,
            handed: 0,
            until: 0,
            is_deleted: false,
        });
    }

    /// Why a send can't be taken, by which codes, and by which rule.
    fn why_not_sent(&self, request: &Members) -> Option<(Vec<&'static str>, &'static str, Rule)> {
        let body = text(request, "MessageBody").unwrap_or_default();
        let (group, dedup) = (text(request, "MessageGroupId"), text(request, "MessageDeduplicationId"));
        let is_bad = |id: Option<&str>| id.is_some_and(|id| !id.is_empty() && !is_short_and_printable(id));
        let of_body = |one: char| matches!(one, '\t' | '\n' | '\r' | ' '..='\u{fffd}' | '\u{10000}'..);
        let mut reasons = Vec::new();
        if group.map_or(true, str::is_empty) {
            reasons.push((["MissingParameter", "InvalidParameterValue"], "it has no MessageGroupId", Rule::Send));
        }
        if dedup.map_or(true, str::is_empty) && !self.makes_ids() {
            let why = "it has no MessageDeduplicationId, and its queue makes none";
            reasons.push((["InvalidParameterValue", "MissingParameter"], why, Rule::Send));
        }
        if is_bad(group) || is_bad(dedup) {
            let why = "a group or an id has 1 to 128 letters, digits and punctuation marks";
            reasons.push((["InvalidParameterValue"; 2], why, Rule::Texts));
        }
        if body.is_empty() {
            reasons.push((["MissingParameter", "InvalidParameterValue"], "it has no body", Rule::Texts));
        }
        if !body.chars().all(of_body) {
            let why = "its body has a character that no message may have";
            reasons.push((["InvalidMessageContents"; 2], why, Rule::Texts));
        }
        if body.len() > LONGEST_BODY_BYTES {
            reasons.push((["InvalidParameterValue", "BatchRequestTooLong"], "its body is too long", Rule::Texts));
        }
        let (_, why, rule) = *reasons.first()?;
        let mut codes: Vec<&str> = reasons.into_iter().flat_map(|(codes, _, _)| codes).collect();
        codes.dedup();
        Some((codes, why, rule))
    }

    // ---- receives

    pub fn receive(&mut self, line: &Line) -> Result<Judged, Finding> {
        let request = &line.request;
        let size = number(request, "MaxNumberOfMessages").unwrap_or(1);
        let timeout = number(request, "VisibilityTimeout").unwrap_or(self.timeout() as i64);
        if !(1..=MOST_HANDED).contains(&size) || !(0..=LONGEST_TIMEOUT_SECONDS).contains(&timeout) {
            return line.refused(
                &["InvalidParameterValue"],
                "a size is 1 to 10, and a timeout 0 to 43200",
                Rule::Receive,
            );
        }
        let answer = line.done("it is well formed, and its queue is there", Rule::Receive)?;
        let handed = objects(answer, "Messages");
        let attempt = text(request, "ReceiveRequestAttemptId");
        let until = line.at + 1000 * timeout as u64;
        if let Some(given) = attempt.and_then(|attempt| self.repeated(attempt, line.at)) {
            return self.give_again(&given, &handed, until);
        }
        let mut places = Vec::new();
        for message in &handed {
            places.push(self.place_of(message, line.at, &places)?);
        }
        self.test_count(&places, size as usize, line.at)?;
        for (place, message) in places.iter().zip(&handed) {
            self.hand(*place, message, line.at, until)?;
        }
        self.forget_attempts(&places);
        if let Some(attempt) = attempt.filter(|_| !places.is_empty()) {
            let given = places.iter().map(|place| (*place, self.messages[*place].handings)).collect();
            self.attempts.insert(attempt.to_string(), Attempt { at: line.at, given });
        }
        Ok(Judged::Allowed)
    }

    /// What an attempt was given, where a repeat is given the same.
    fn repeated(&self, attempt: &str, now: u64) -> Option<Vec<usize>> {
        let Attempt { at, given } = self.attempts.get(attempt)?;
        let is_held = |(place, handing): &(usize, u64)| {
            let is_last = self.messages[*place].handings == *handing;
            is_last && self.presence(*place, now) == Presence::Here && self.is_in_flight(*place, now)
        };
        let is_good = now - at < REMEMBERED_MILLISECONDS && given.iter().all(is_held);
        is_good.then(|| given.iter().map(|(place, _)| *place).collect())
    }

    fn give_again(&mut self, given: &[usize], handed: &[&Members], until: u64) -> Result<Judged, Finding> {
        let ids = |ids: Vec<&str>| if ids.is_empty() { "no message".to_string() } else { ids.join(", ") };
        let told: Vec<&str> = handed.iter().filter_map(|message| text(message, "MessageId")).collect();
        let wanted: Vec<&str> = given.iter().map(|place| self.messages[*place].id.as_str()).collect();
        if told != wanted {
            let allowed = format!("it has to give {} again: the attempt id is that of an earlier receive", ids(wanted));
            return Err(Finding { told: format!("it gave {}", ids(told)), allowed, rule: Rule::Attempts });
        }
        for (place, message) in given.iter().zip(handed) {
            self.messages[*place].until = until;
            let handing = self.messages[*place].handings;
            self.handles.insert(text(message, "ReceiptHandle").unwrap_or_default().into(), (*place, handing));
        }
        Ok(Judged::Allowed)
    }

    /// The message that is handed, behind those of the same answer. It has to be the next one of an open group.
    fn place_of(&self, message: &Members, now: u64, before: &[usize]) -> Result<usize, Finding> {
        let id = text(message, "MessageId").unwrap_or_default();
        let body = text(message, "Body").unwrap_or_default();
        let told = format!("it handed {id} ({})", shown(body));
        let wrong = |allowed: String| Finding { told: told.clone(), allowed, rule: Rule::Receive };
        let Some(place) = self.by_id.get(id).copied() else {
            return Err(wrong("no message of this id was accepted".into()));
        };
        let known = &self.messages[place];
        if self.presence(place, now) == Presence::Gone {
            return Err(wrong("it was deleted, or purged a minute ago".into()));
        }
        if known.body != body {
            return Err(wrong(format!("its body has to be {}, as it was sent", shown(&known.body))));
        }
        if text(message, "MD5OfBody").is_some_and(|digest| digest != md5_of_text(body)) {
            return Err(wrong("MD5OfBody has to be that of the body".into()));
        }
        if self.is_in_flight(place, now) || before.contains(&place) {
            return Err(wrong(format!("it is in flight until {}", known.until)));
        }
        let group = self.groups.get(&known.group).into_iter().flatten().copied();
        for other in group.filter(|other| !before.contains(other)) {
            let presence = self.presence(other, now);
            if presence == Presence::Here && self.is_in_flight(other, now) {
                let other = &self.messages[other];
                return Err(wrong(format!(
                    "{} of its group {} is in flight until {}",
                    other.id, other.group, other.until
                )));
            }
            if other < place && presence == Presence::Here {
                let other = &self.messages[other];
                return Err(wrong(format!("{} of its group {} comes first", other.id, other.group)));
            }
            // Behind the first that was never handed none was.
            if other >= place && self.messages[other].handings == 0 {
                break;
            }
        }
        Ok(place)
    }

    /// As many are handed as there are in open groups, up to the size.
    fn test_count(&self, places: &[usize], size: usize, now: u64) -> Result<(), Finding> {
        let told = format!("it handed {} messages", places.len());
        if places.len() > size {
            let allowed = format!("at most {size} may be handed");
            return Err(Finding { told, allowed, rule: Rule::Receive });
        }
        if places.len() == size {
            return Ok(());
        }
        let is_left = |place: &&usize| self.presence(**place, now) == Presence::Here && !places.contains(place);
        let is_open = |group: &&VecDeque<usize>| {
            let may_be_there = group.iter().filter(|place| self.presence(**place, now) != Presence::Gone);
            let handed = may_be_there.take_while(|place| self.messages[**place].handings > 0);
            !handed.into_iter().any(|place| self.is_in_flight(*place, now))
        };
        match self.groups.values().filter(is_open).find_map(|group| group.iter().find(is_left)) {
            None => Ok(()),
            Some(left) => {
                let ServiceMessage { id, group, body, .. } = &self.messages[*left];
                let allowed = format!(
                    "{id} ({}) of group {group} is there, and no message of its group is in flight: up to {size} are handed",
                    shown(body)
                );
                Err(Finding { told, allowed, rule: Rule::Receive })
            }
        }
    }

    fn hand(&mut self, place: usize, told: &Members, now: u64, until: u64) -> Result<(), Finding> {
        let message = &mut self.messages[place];
        message.handings += 1;
        (message.handed, message.until) = (now, until);
        let handle = text(told, "ReceiptHandle").unwrap_or_default();
        self.handles.insert(handle.to_string(), (place, message.handings));
        let count =
            told.get("Attributes").and_then(|one| one.get("ApproximateReceiveCount")).and_then(|one| one.as_str());
        match count.filter(|count| **count != message.handings.to_string()) {
            None => Ok(()),
            Some(count) => {
                let told = format!("ApproximateReceiveCount of {} is {count}", message.id);
                Err(finding(told, &format!("it has to be {}", message.handings), Rule::Receive))
            }
        }
    }

    fn forget_attempts(&mut self, places: &[usize]) {
        self.attempts.retain(|_, attempt| !attempt.given.iter().any(|(place, _)| places.contains(place)));
    }

    // ---- deletes and changes

    /// Judges a delete, or an entry of a batch.
    pub fn delete(&mut self, line: &Line, request: &Members) -> Result<Judged, Finding> {
        let handle = text(request, "ReceiptHandle").unwrap_or_default();
        let Some((place, handing)) = self.handles.get(handle).copied() else {
            return line.refused(&["ReceiptHandleIsInvalid"], "this queue gave no such handle", Rule::Delete);
        };
        let (presence, is_hidden) = (self.presence(place, line.at), self.is_in_flight(place, line.at));
        let is_last = self.messages[place].handings == handing;
        match presence {
            Presence::MaybeGone => return Ok(Judged::Not),
            Presence::Here if is_last && !is_hidden => {
                let why = "the timeout of its message is over, which wasn't handed out again";
                return line.refused(&["InvalidParameterValue"], why, Rule::ExpiredDelete);
            }
            Presence::Here | Presence::Gone => {}
        }
        line.done("the handle is one of this queue's", Rule::Delete)?;
        if is_last && presence == Presence::Here {
            self.remove(place);
            self.forget_attempts(&[place]);
        }
        Ok(Judged::Allowed)
    }

    fn remove(&mut self, place: usize) {
        let message = &mut self.messages[place];
        message.is_deleted = true;
        message.body = String::new();
        if let Some(group) = self.groups.get_mut(&message.group) {
            group.retain(|other| *other != place);
        }
    }

    /// Judges a change of a timeout, or an entry of a batch.
    pub fn change(&mut self, line: &Line, request: &Members) -> Result<Judged, Finding> {
        let handle = text(request, "ReceiptHandle").unwrap_or_default();
        let timeout = number(request, "VisibilityTimeout").unwrap_or(self.timeout() as i64);
        if !(0..=LONGEST_TIMEOUT_SECONDS).contains(&timeout) {
            return line.refused(&["InvalidParameterValue"], "a timeout is 0 to 43200", Rule::Change);
        }
        let Some((place, handing)) = self.handles.get(handle).copied() else {
            return line.refused(&["ReceiptHandleIsInvalid"], "this queue gave no such handle", Rule::Change);
        };
        let until = line.at + 1000 * timeout as u64;
        let message = &self.messages[place];
        match self.presence(place, line.at) {
            Presence::MaybeGone => return Ok(Judged::Not),
            Presence::Gone => {
                return line.refused(&["InvalidParameterValue"], "its message is deleted", Rule::Change);
            }
            Presence::Here => {}
        }
        if message.handings != handing {
            let why = "its message was handed out again since";
            return line.refused(&["ReceiptHandleIsInvalid"], why, Rule::Change);
        }
        if !self.is_in_flight(place, line.at) {
            return line.refused(&["MessageNotInflight"], "its message isn't in flight", Rule::Change);
        }
        if until > message.handed + LONGEST_HIDDEN_MILLISECONDS {
            let why = "its message would be hidden for more than twelve hours from its last handing on";
            return line.refused(&["InvalidParameterValue"], why, Rule::Change);
        }
        line.done("its message is in flight by this handle", Rule::Change)?;
        self.messages[place].until = until;
        self.forget_attempts(&[place]);
        Ok(Judged::Allowed)
    }

    // ---- the whole queue

    pub fn purge(&mut self, line: &Line) -> Result<Judged, Finding> {
        if self.purge.is_some_and(|(at, _)| line.at - at < PURGING_MILLISECONDS) {
            return line.refused(&["PurgeQueueInProgress"], "one was begun within the last minute", Rule::Purge);
        }
        line.done("its queue is there, and none was begun within the last minute", Rule::Purge)?;
        let gone = self.purge.map_or(0, |(_, count)| count);
        (0..gone).filter(|place| !self.messages[*place].is_deleted).collect::<Vec<_>>().into_iter().for_each(|place| {
            self.remove(place);
        });
        self.purge = Some((line.at, self.messages.len()));
        Ok(Judged::Allowed)
    }

    /// Judges the counts in an answer about attributes.
    pub fn counts(&self, line: &Line, told: &[(String, String)]) -> Result<Judged, Finding> {
        let (mut visible, mut in_flight) = (0u64, 0u64);
        for place in self.groups.values().flatten() {
            match self.presence(*place, line.at) {
                Presence::MaybeGone => return Ok(Judged::Not),
                Presence::Gone => {}
                Presence::Here if self.is_in_flight(*place, line.at) => in_flight += 1,
                Presence::Here => visible += 1,
            }
        }
        let counts = [
            ("ApproximateNumberOfMessages", visible),
            ("ApproximateNumberOfMessagesNotVisible", in_flight),
            ("ApproximateNumberOfMessagesDelayed", 0),
        ];
        let mut judged = Judged::Not;
        for (name, count) in counts {
            if let Some((_, told)) = told.iter().find(|(told, _)| told == name) {
                judged = Judged::Allowed;
                if *told != count.to_string() {
                    return Err(finding(format!("{name} is {told}"), &format!("it has to be {count}"), Rule::Counts));
                }
            }
        }
        Ok(judged)
    }
}

fn finding(told: String, allowed: &str, rule: Rule) -> Finding {
    Finding { told, allowed: allowed.into(), rule }
}

/// A body as it is shown: its front.
fn shown(body: &str) -> String {
    const MOST_CHARACTERS: usize = 40;
    let front: String = body.chars().take(MOST_CHARACTERS).collect();
    let more = if front.len() < body.len() { ".." } else { "" };
    format!("{front:?}{more}")
}
