//! A service of queues, as the rules have it behind the answers so far.

use std::collections::{BTreeSet, HashMap, HashSet};

use hobbychair_sqs::texts::{QueueKind, QueueName};
use serde_json::Value;

use super::finding::{Finding, Judged, Rule};
use super::line::{attributes, bare, objects, queue_of, text, Line, Members, Refusal};
use super::queue::ServiceQueue;

/// So long the name of a removed queue isn't free, and so long a removal may take.
const REMOVING_MILLISECONDS: u64 = 60_000;

/// No batch has more entries.
const MOST_ENTRIES: usize = 10;

/// What is said of a queue that isn't there.
const NO_QUEUE: [&str; 2] = ["QueueDoesNotExist", "InvalidAddress"];

/// A name, and the queue that goes by it, if one does.
#[derive(Default)]
struct ServiceName {
    queue: Option<ServiceQueue>,
    removed: Option<u64>,
}

/// A service of queues. Names that aren't known were never used.
#[derive(Default)]
pub struct Service {
    names: HashMap<String, ServiceName>,
}

type Judging = Result<Judged, Finding>;

/// One entry of a batch, as an action of its own.
type JudgingOne = fn(&mut ServiceQueue, &Line, &Members) -> Judging;

impl Service {
    /// What the rules say of an answer. Behind one that they don't allow this is of no use any more.
    pub fn judge(&mut self, line: &Line) -> Judging {
        if line.is_of_service() {
            return Ok(Judged::Not);
        }
        match line.action.as_str() {
            "CreateQueue" => self.create(line),
            "ListQueues" => self.list(line),
            "GetQueueUrl" => self.look_up(line),
            "DeleteQueue" => self.remove(line),
            "SendMessage" => self.of_queue(line, |queue| queue.send(line, &line.request)),
            "ReceiveMessage" => self.of_queue(line, |queue| queue.receive(line)),
            "DeleteMessage" => self.of_queue(line, |queue| queue.delete(line, &line.request)),
            "ChangeMessageVisibility" => self.of_queue(line, |queue| queue.change(line, &line.request)),
            "SendMessageBatch" => self.of_queue(line, |queue| batch(queue, line, ServiceQueue::send)),
            "DeleteMessageBatch" => self.of_queue(line, |queue| batch(queue, line, ServiceQueue::delete)),
            "ChangeMessageVisibilityBatch" => self.of_queue(line, |queue| batch(queue, line, ServiceQueue::change)),
            "PurgeQueue" => self.of_queue(line, |queue| queue.purge(line)),
            "GetQueueAttributes" => self.of_queue(line, |queue| queue.counts(line, &line.answer_attributes())),
            "SetQueueAttributes" => self.of_queue(line, |queue| set(queue, line)),
            _ => Ok(Judged::Not),
        }
    }

    /// Judges what is asked of a queue that is there. Of standard queues, and of those with delays and dead letters, the rules say
    /// nothing.
    fn of_queue(&mut self, line: &Line, judge: impl FnOnce(&mut ServiceQueue) -> Judging) -> Judging {
        let name = queue_of(&line.request).unwrap_or_default();
        if QueueName::parse(name).is_some_and(|name| name.kind() == QueueKind::Standard) {
            return Ok(Judged::Not);
        }
        match self.names.get_mut(name) {
            Some(ServiceName { queue: Some(queue), .. }) => {
                if queue.is_beyond() && line.action != "SetQueueAttributes" {
                    return Ok(Judged::Not);
                }
                judge(queue)
            }
            // What is asked while it is being removed may still be done.
            Some(ServiceName { removed: Some(removed), .. })
                if line.at - *removed < REMOVING_MILLISECONDS && line.told().is_ok() =>
            {
                Ok(Judged::Not)
            }
            _ => line.refused(&NO_QUEUE, "there is no such queue", Rule::Remove),
        }
    }

    fn create(&mut self, line: &Line) -> Judging {
        let name = text(&line.request, "QueueName").unwrap_or_default();
        let given = attributes(&line.request, "Attributes");
        let is_fifo = given.iter().any(|(name, value)| name == "FifoQueue" && value == "true");
        match QueueName::parse(name).map(|name| name.kind()) {
            Some(QueueKind::Fifo) if is_fifo => {}
            Some(QueueKind::Standard) if !is_fifo => return Ok(Judged::Not),
            _ => {
                let codes =
                    ["InvalidParameterValue", "InvalidAttributeValue", "InvalidAttributeName", "MissingParameter"];
                let why = "a FIFO queue has a name of up to 80 letters, digits, - and _ that ends in .fifo";
                return line.refused(&codes, why, Rule::Texts);
            }
        }
        let known = self.names.entry(name.to_string()).or_default();
        match &known.queue {
            Some(queue) => {
                let differs =
                    |(name, value): &&(String, String)| queue.attribute(name).is_some_and(|known| known != value);
                let unknown = given.iter().any(|(name, _)| queue.attribute(name).is_none());
                match given.iter().find(differs) {
                    Some((attribute, _)) => {
                        let why = format!("it is there with another {attribute}");
                        line.refused(&["QueueAlreadyExists"], &why, Rule::Create)
                    }
                    None if unknown => Ok(Judged::Not),
                    None => line.done("it is there with the same attributes", Rule::Create).map(|_| Judged::Allowed),
                }
            }
            None if known.removed.is_some_and(|removed| line.at - removed < REMOVING_MILLISECONDS) => {
                line.refused(&["QueueDeletedRecently"], "it was removed within the last minute", Rule::Create)
            }
            None => match line.told() {
                // Which values attributes may have is no rule here.
                Err(code) if code.starts_with("InvalidAttribute") || code == "InvalidParameterValue" => Ok(Judged::Not),
                _ => {
                    line.done("no queue has its name, and none had it within the last minute", Rule::Create)?;
                    known.queue = Some(ServiceQueue::new(given));
                    Ok(Judged::Allowed)
                }
            },
        }
    }

    fn remove(&mut self, line: &Line) -> Judging {
        let judged = self.of_queue(line, |_| line.done("it is there", Rule::Remove).map(|_| Judged::Allowed))?;
        let name = queue_of(&line.request).and_then(|name| self.names.get_mut(name));
        if let (Some(name), true) = (name, line.told().is_ok()) {
            if name.queue.take().is_some() {
                name.removed = Some(line.at);
            }
        }
        Ok(judged)
    }

    fn look_up(&self, line: &Line) -> Judging {
        let name = text(&line.request, "QueueName").unwrap_or_default();
        if QueueName::parse(name).map_or(true, |name| name.kind() == QueueKind::Standard) {
            return Ok(Judged::Not);
        }
        match self.names.get(name) {
            Some(ServiceName { queue: Some(_), .. }) => line.done("it is there", Rule::Create).map(|_| Judged::Allowed),
            Some(ServiceName { removed: Some(removed), .. }) if line.at - removed < REMOVING_MILLISECONDS => {
                Ok(Judged::Not)
            }
            _ => line.refused(&NO_QUEUE, "there is no such queue", Rule::Remove),
        }
    }

    /// All names of FIFO queues are told, where nothing was asked for but all.
    fn list(&self, line: &Line) -> Judging {
        let Ok(answer) = line.told() else { return Ok(Judged::Not) };
        if !line.request.is_empty() || answer.contains_key("NextToken") {
            return Ok(Judged::Not);
        }
        let urls = answer.get("QueueUrls").and_then(Value::as_array).into_iter().flatten();
        let name = |url: &Value| Some(url.as_str()?.rsplit('/').next()?.to_string());
        let told: BTreeSet<String> = urls.filter_map(name).filter(|name| name.ends_with(".fifo")).collect();
        let missing = self.names.iter().find(|(name, one)| one.queue.is_some() && !told.contains(*name));
        let is_there = |name: &String| {
            self.names.get(name).is_some_and(|one| {
                one.queue.is_some() || one.removed.is_some_and(|removed| line.at - removed < REMOVING_MILLISECONDS)
            })
        };
        let wrong = |name: &str, why: &str| {
            let allowed = format!("{name} {why}");
            Err(Finding { told: format!("it told {} FIFO queues", told.len()), allowed, rule: Rule::Create })
        };
        match (missing, told.iter().find(|name| !is_there(name))) {
            (Some((name, _)), _) => wrong(name, "is there, too"),
            (None, Some(name)) => wrong(name, "isn't there"),
            (None, None) => Ok(Judged::Allowed),
        }
    }
}

impl Line {
    fn answer_attributes(&self) -> Vec<(String, String)> {
        self.answer.as_ref().map(|answer| attributes(answer, "Attributes")).unwrap_or_default()
    }
}

fn set(queue: &mut ServiceQueue, line: &Line) -> Judging {
    if line.told().is_ok() {
        queue.set(attributes(&line.request, "Attributes"));
    }
    // Which values attributes may have is no rule here.
    Ok(Judged::Not)
}

/// Judges each entry of a batch as an action of its own, in order.
fn batch(queue: &mut ServiceQueue, line: &Line, judge: JudgingOne) -> Judging {
    let entries = objects(&line.request, "Entries");
    if let Some((code, why)) = why_no_batch(&entries) {
        return line.refused(&[code], why, Rule::Batches);
    }
    if line.told().is_err_and(|code| code == "BatchRequestTooLong" || code == "InvalidBatchEntryId") {
        return Ok(Judged::Not);
    }
    let answer = line.done("it has one to ten entries with different ids, and its queue is there", Rule::Batches)?;
    let (done, failed) = (by_id(answer, "Successful"), by_id(answer, "Failed"));
    let mut judged = Judged::Not;
    for entry in entries {
        let id = text(entry, "Id").unwrap_or_default();
        let one = match (done.get(id), failed.get(id)) {
            (Some(done), None) => Line { answer: Some((*done).clone()), error: None, ..line.clone() },
            (None, Some(failed)) => Line { answer: None, error: Some(refusal(failed)), ..line.clone() },
            _ => {
                let told = format!("the answer has not just one result for entry {id}");
                let allowed = "it has to have one for each".into();
                return Err(Finding { told, allowed, rule: Rule::Batches });
            }
        };
        if one.is_of_service() {
            continue;
        }
        let found = judge(queue, &one, entry);
        let of_entry = |finding: Finding| Finding { told: format!("entry {id}: {}", finding.told), ..finding };
        if found.map_err(of_entry)? == Judged::Allowed {
            judged = Judged::Allowed;
        }
    }
    Ok(judged)
}

fn why_no_batch(entries: &[&Members]) -> Option<(&'static str, &'static str)> {
    let mut ids = HashSet::new();
    if entries.is_empty() {
        Some(("EmptyBatchRequest", "it has no entry"))
    } else if entries.len() > MOST_ENTRIES {
        Some(("TooManyEntriesInBatchRequest", "it has more than ten entries"))
    } else if !entries.iter().all(|entry| ids.insert(text(entry, "Id"))) {
        Some(("BatchEntryIdsNotDistinct", "two entries have the same id"))
    } else {
        None
    }
}

fn by_id<'m>(answer: &'m Members, name: &str) -> HashMap<&'m str, &'m Members> {
    objects(answer, name).into_iter().filter_map(|one| Some((text(one, "Id")?, one))).collect()
}

fn refusal(failed: &Members) -> Refusal {
    Refusal { code: bare(text(failed, "Code").unwrap_or_default()) }
}
