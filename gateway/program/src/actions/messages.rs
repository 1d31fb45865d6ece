//! Sending, deleting, and changing timeouts.

use std::sync::Arc;

use hobbychair_sqs::attributes::LONGEST_MESSAGE_BYTES;
use hobbychair_sqs::digests::{md5_of_attributes, md5_of_text};
use hobbychair_sqs::envelope::{message_id, Envelope, MessageAttributes, Metadata, TRACE_HEADER};
use hobbychair_sqs::errors::SqsError;
use hobbychair_sqs::texts::{Body, DedupId, GroupId, QueueKind, QueueName};
use hobbychair_sqs::wire::requests::{Batch, NewMessage, Sending, VisibilityChange};
use hobbychair_sqs::wire::responses::{Failed, Sent, Succeeded};
use hobbychair_sqs::wire::Response;
use hobbychair_store::jobs::{Answer, Operation};
use hobbychair_tables::ask::{Ask, Cause, Changer, Outcome};
use hobbychair_tables::queue::Queue;
use uuid::Uuid;

use super::{Actions, Caller, Performed};
use crate::work::parts;

impl Actions {
    pub(super) async fn send(
        &self,
        name: &QueueName,
        message: NewMessage,
        caller: &Caller,
    ) -> Result<Performed, SqsError> {
        let queue = self.queue(name)?;
        let send = self.sending(&queue, None, &message, caller)?;
        let mut answers = parts::perform_all(&self.store, &queue, vec![send], &caller.share).await;
        let outcome = answers.pop().unwrap_or_else(|| Err(no_answer()))?;
        Ok(Response::Sent(sent(&queue, &message, &outcome)?).into())
    }

    pub(super) async fn send_batch(
        &self,
        name: &QueueName,
        batch: Batch<NewMessage>,
        caller: &Caller,
    ) -> Result<Performed, SqsError> {
        let queue = self.queue(name)?;
        // An entry that isn't good counts nothing, and is told of its own.
        let size: usize = batch.iter().filter_map(|(_, entry)| Some(entry.as_ref().ok()?.size())).sum();
        if size > LONGEST_MESSAGE_BYTES {
            return Err(SqsError::BatchRequestTooLong { limit: LONGEST_MESSAGE_BYTES, sent: size });
        }
        let operation_of = |id: &str, message: &NewMessage| self.sending(&queue, Some(id), message, caller);
        let result_of = |message: &NewMessage, answer: Answer| sent(&queue, message, &answer?).map(Some);
        self.answer_each(&queue, batch, operation_of, result_of, caller).await
    }

    /// What sends a message. `entry` is its id in a batch.
    fn sending(
        &self,
        queue: &Queue,
        entry: Option<&str>,
        message: &NewMessage,
        caller: &Caller,
    ) -> Result<Operation, SqsError> {
        let limit = queue.state().entry.attributes.maximum_message_size();
        if message.size() > limit {
            return Err(SqsError::InvalidParameterValue(format!(
                "One or more parameters are invalid. Reason: Message must be shorter than {limit} bytes."
            )));
        }
        match &message.sending {
            Sending::Fifo { group, dedup } => self.fifo_send(queue, group, dedup.as_ref(), message, caller),
            Sending::Standard { group, delay } => {
                let call = caller.call.map(|call| DedupId::of_call(&call, entry));
                let metadata = Metadata { group: group.clone(), ..self.metadata(message, caller) };
                let own_delay = queue.state().entry.attributes.delay();
                let delay = delay.map_or(own_delay, |seconds| 1000 * u64::from(seconds));
                standard_send(metadata, call, delay, &message.body)
            }
        }
    }

    fn fifo_send(
        &self,
        queue: &Queue,
        group: &GroupId,
        dedup: Option<&DedupId>,
        message: &NewMessage,
        caller: &Caller,
    ) -> Result<Operation, SqsError> {
        let (by_content, by_group) = {
            let attributes = &queue.state().entry.attributes;
            (attributes.dedups_by_content(), attributes.dedups_by_group())
        };
        let dedup = match dedup {
            Some(dedup) => dedup.clone(),
            None if by_content => DedupId::of_body(message.body.as_str()),
            None => return Err(SqsError::missing_dedup_id()),
        };
        let for_store = if by_group { dedup.within(group) } else { dedup.clone() };
        let metadata = Metadata { dedup: Some(dedup), ..self.metadata(message, caller) };
        let envelope = Envelope::new(&metadata, &message.body).map_err(cannot_be_kept)?;
        Ok(Operation::Ask(Ask::Send { group: group.clone(), dedup: for_store, envelope, cause: Cause::Client }))
    }

    /// The metadata of a message of either kind of queue.
    fn metadata(&self, message: &NewMessage, caller: &Caller) -> Metadata {
        Metadata {
            sent: self.store.clock().now(),
            sender: caller.identity.as_ref().map(|identity| identity.name().to_string()),
            attributes: message.attributes.clone(),
            trace: message.trace.clone(),
            ..Metadata::default()
        }
    }

    pub(super) async fn delete(&self, name: &QueueName, handle: &str) -> Result<Performed, SqsError> {
        let queue = self.queue(name)?;
        let answer = self.store.ask(&queue, self.delete_ask(&queue, handle)?).await;
        nothing_of(handle, answer)?;
        Ok(Response::Nothing.into())
    }

    pub(super) async fn delete_batch(
        &self,
        name: &QueueName,
        batch: Batch<String>,
        caller: &Caller,
    ) -> Result<Performed, SqsError> {
        let queue = self.queue(name)?;
        self.answer_each(
            &queue,
            batch,
            |_, handle| self.delete_ask(&queue, handle).map(Operation::Ask),
            |handle, answer| nothing_of(handle, answer),
            caller,
        )
        .await
    }

    fn delete_ask(&self, queue: &Queue, handle: &str) -> Result<Ask, SqsError> {
        let receipt = queue.receipt_of(handle, &self.store.handle_key(queue))?;
        Ok(Ask::Delete { receipt, by_client: true })
    }

    fn change_ask(&self, queue: &Queue, change: &VisibilityChange) -> Result<Ask, SqsError> {
        let receipt = queue.receipt_of(&change.handle, &self.store.handle_key(queue))?;
        let visibility = change.visibility.unwrap_or_else(|| queue.state().entry.attributes.visibility_timeout());
        Ok(Ask::ChangeVisibility { receipt, visibility, by: Changer::Client })
    }

    pub(super) async fn change(&self, name: &QueueName, change: &VisibilityChange) -> Result<Performed, SqsError> {
        let queue = self.queue(name)?;
        let answer = self.store.ask(&queue, self.change_ask(&queue, change)?).await;
        nothing_of(&change.handle, answer)?;
        Ok(Response::Nothing.into())
    }

    pub(super) async fn change_batch(
        &self,
        name: &QueueName,
        batch: Batch<VisibilityChange>,
        caller: &Caller,
    ) -> Result<Performed, SqsError> {
        let queue = self.queue(name)?;
        let result_of = |change: &VisibilityChange, answer| nothing_of(&change.handle, answer);
        let operation_of = |_: &str, change: &VisibilityChange| self.change_ask(&queue, change).map(Operation::Ask);
        self.answer_each(&queue, batch, operation_of, result_of, caller).await
    }

    /// Performs all good entries at once, and tells what came of each. An operation is made of the id and the entry.
    async fn answer_each<T>(
        &self,
        queue: &Arc<Queue>,
        batch: Batch<T>,
        operation_of: impl Fn(&str, &T) -> Result<Operation, SqsError>,
        result_of: impl Fn(&T, Answer) -> Result<Option<Sent>, SqsError>,
        caller: &Caller,
    ) -> Result<Performed, SqsError> {
        let mut operations = Vec::with_capacity(batch.len());
        let mut entries = Vec::with_capacity(batch.len());
        for (id, entry) in batch {
            let read = entry.and_then(|entry| Ok((operation_of(&id, &entry)?, entry)));
            entries.push((
                id,
                read.map(|(operation, entry)| {
                    operations.push(operation);
                    entry
                }),
            ));
        }
        let is_asked = !operations.is_empty();
        let answers =
            if is_asked { parts::perform_all(&self.store, queue, operations, &caller.share).await } else { Vec::new() };
        let mut answers = answers.into_iter();
        let (mut successful, mut failed) = (Vec::new(), Vec::new());
        for (id, entry) in entries {
            let answered =
                entry.and_then(|entry| result_of(&entry, answers.next().unwrap_or_else(|| Err(no_answer()))));
            match answered {
                Ok(sent) => successful.push(Succeeded { id, sent }),
                Err(error) => failed.push(Failed::new(id, &error)),
            }
        }
        let response = Response::Batch { successful, failed };
        Ok(Performed { is_durable: is_asked, ..response.into() })
    }
}

fn cannot_be_kept(error: serde_json::Error) -> SqsError {
    SqsError::InternalFailure(format!("The message can't be kept: {error}"))
}

/// Sends a message to a standard queue, or to the one beside it where it is delayed, by `delay` milliseconds. Where repeats
/// of the call can be told, `call` stands for this message of it.
fn standard_send(
    mut metadata: Metadata,
    call: Option<DedupId>,
    delay: u64,
    body: &Body,
) -> Result<Operation, SqsError> {
    let own = Uuid::new_v4();
    metadata.due = (delay > 0).then_some(metadata.sent + delay);
    let envelope = Envelope::new(&metadata, body).map_err(cannot_be_kept)?;
    let dedup = call.unwrap_or_else(|| DedupId::of_message(own));
    let ask = Ask::Send { group: GroupId::of_message(own), dedup, envelope, cause: Cause::Client };
    Ok(if delay > 0 { Operation::AskBeside(ask) } else { Operation::Ask(ask) })
}

fn no_answer() -> SqsError {
    SqsError::InternalFailure("The store gave no answer.".into())
}

/// What a delete or a change tells: nothing, or an error that names its handle.
fn nothing_of(handle: &str, answer: Answer) -> Result<Option<Sent>, SqsError> {
    answer.map(|_| None).map_err(|error| error.about_handle(handle))
}

/// The MD5s are of what this send carried, also where the message is one that was sent before.
fn sent(queue: &Queue, message: &NewMessage, outcome: &Outcome) -> Result<Sent, SqsError> {
    let (id, number) = match *outcome {
        Outcome::Sent { sequence, id } => {
            let id = id.unwrap_or_else(|| message_id(queue.mark, sequence));
            (id, sequence_number(queue.name.kind(), sequence))
        }
        _ => return Err(no_answer()),
    };
    let system = message.trace.clone().map(|trace| MessageAttributes::from([(TRACE_HEADER.to_string(), trace)]));
    Ok(Sent {
        message_id: id.to_string(),
        md5_of_body: md5_of_text(message.body.as_str()),
        md5_of_attributes: (!message.attributes.is_empty()).then(|| md5_of_attributes(&message.attributes)),
        md5_of_system_attributes: system.as_ref().map(md5_of_attributes),
        sequence_number: number,
    })
}

/// A sequence number as clients see it: 20 digits. Messages of standard queues have none.
pub(super) fn sequence_number(kind: QueueKind, sequence: u64) -> Option<String> {
    const ZEROS: &str = "00000000000000000000";
    let text = || {
        let digits = sequence.to_string();
        [&ZEROS[digits.len()..], &digits].concat()
    };
    (kind == QueueKind::Fifo).then(text)
}
