//! Receiving.

use std::sync::Arc;
use std::time::Duration;

use hobbychair_sqs::digests::{md5_of_attributes, md5_of_text};
use hobbychair_sqs::envelope::{EnvelopeBody, MessageAttributes, Metadata};
use hobbychair_sqs::errors::SqsError;
use hobbychair_sqs::handles::Handle;
use hobbychair_sqs::texts::{QueueKind, QueueName};
use hobbychair_sqs::wire::requests::{Receive, Shown, SystemAttribute};
use hobbychair_sqs::wire::responses::ReceivedMessage;
use hobbychair_sqs::wire::Response;
use hobbychair_tables::ask::{Ask, Changer, Handed, Reach};
use hobbychair_tables::queue::Queue;
use hobbychair_tables::waiting::{AnswerMemory, Room};

use super::messages::sequence_number;
use super::{Actions, Caller, Owner, Performed};
use crate::work::deliveries::{self, has_most_in_flight, Delivered};
use crate::work::parts;
use crate::work::polling::{self, Waiter};

/// The `SenderId` of messages whose senders signed with no key that anybody looked at.
const SENDER: &str = "AIDAHOBBYCHAIR0000000";

impl Actions {
    pub(super) async fn receive(
        &self,
        name: &QueueName,
        receive: Receive,
        caller: &Caller,
    ) -> Result<Performed, SqsError> {
        let queue = self.queue(name)?;
        let (own_visibility, own_wait) = {
            let attributes = &queue.state().entry.attributes;
            (attributes.visibility_timeout(), attributes.wait_time())
        };
        let visibility = receive.visibility.unwrap_or(own_visibility);
        let wait = u64::from(receive.wait.unwrap_or(own_wait));
        let room = Room(caller.room);
        polling::test_room(room, &queue, receive.size)?;
        let request_bytes = receive.shown.bytes_kept();
        if !caller.share.try_set(request_bytes + queue.state().most_handed(receive.size)) {
            return Err(SqsError::ServiceUnavailable("Too many requests are being served.".into()));
        }
        if let Some(handed) = self.receive_again(&queue, &receive, visibility).await? {
            self.keep_attempt(&queue, &receive).await;
            return self.received(&queue, handed, &receive.shown).await;
        }
        let attempt = receive.attempt.clone();
        let ask = Ask::Receive { size: receive.size, visibility, attempt, most: None, reach: Reach::All };
        let Delivered { mut handed, openings } = deliveries::receive(&self.store, &queue, ask.clone()).await?;
        let is_told = handed.is_empty() && wait == 0 && queue.name.kind() == QueueKind::Standard;
        if is_told && has_most_in_flight(&self.store, &queue) {
            let message = "Too many messages of the queue are in flight.";
            return Err(SqsError::OverLimit(message.into()));
        }
        if handed.is_empty() && wait > 0 {
            let _permit = self.polls.try_acquire().map_err(|_| too_many_polls())?;
            let _counted = self.metrics.poll();
            caller.share.set(request_bytes);
            let (presence, time) = (caller.presence.clone(), Duration::from_secs(wait));
            let memory = AnswerMemory { share: caller.share.clone(), request: request_bytes };
            let waiter = Waiter { presence, time, room, memory, ending: self.ending.clone() };
            // Receives that wait for nothing don't pay for its size.
            handed = Box::pin(polling::wait(&self.store, &queue, ask, waiter, openings)).await?;
        }
        self.keep_attempt(&queue, &receive).await;
        self.received(&queue, handed, &receive.shown).await
    }

    /// What the attempt was given before, with the timeout begun anew, if that is still to be had.
    async fn receive_again(
        &self,
        queue: &Arc<Queue>,
        receive: &Receive,
        visibility: u32,
    ) -> Result<Option<Vec<Handed>>, SqsError> {
        let Some(attempt) = &receive.attempt else { return Ok(None) };
        let Some(found) = queue.state().attempt(attempt, self.store.clock().now()) else { return Ok(None) };
        let change =
            |handed: &Handed| Ask::ChangeVisibility { receipt: handed.receipt, visibility, by: Changer::Attempt };
        let answers = self.store.ask_all(queue, found.iter().map(change).collect()).await;
        Ok(answers.iter().all(Result::is_ok).then_some(found))
    }

    async fn keep_attempt(&self, queue: &Queue, receive: &Receive) {
        if let Some(attempt) = &receive.attempt {
            self.store.keep_attempt(queue, attempt).await;
        }
    }

    async fn received(&self, queue: &Arc<Queue>, handed: Vec<Handed>, shown: &Shown) -> Result<Performed, SqsError> {
        let handed = parts::complete(&self.store, handed).await?;
        let key = self.store.handle_key(queue);
        let handle_of = |one: &Handed| Handle::new(queue.mark, one.receipt, one.moment);
        let shown = handed.iter().map(|one| show(queue, one, shown, (&self.owner, handle_of(one).outward(&key))));
        let messages = shown.collect::<Result<_, _>>()?;
        let receipts = handed.iter().map(|one| one.receipt).collect();
        let handed = (!handed.is_empty()).then(|| (queue.clone(), receipts));
        Ok(Performed { handed, ..Response::Messages(messages).into() })
    }
}

/// A message as it is told: what of it was asked for, and this handle.
pub fn show(
    queue: &Queue,
    handed: &Handed,
    shown: &Shown,
    (owner, receipt_handle): (&Owner, String),
) -> Result<ReceivedMessage, SqsError> {
    let (metadata, body) = EnvelopeBody::read(&handed.envelope)
        .ok_or_else(|| SqsError::InternalFailure("The store has a message in no form.".into()))?;
    let id = metadata.id_at(queue.mark, handed.receipt.sequence);
    let system = shown.system().iter();
    let with_name =
        |one: &SystemAttribute| Some((one.name(), value_of(*one, queue.name.kind(), handed, &metadata, owner)?));
    let attributes = system.filter_map(with_name).collect();
    let wanted = metadata.attributes.into_iter().filter(|(name, _)| shown.has(name));
    let message_attributes: MessageAttributes = wanted.collect();
    Ok(ReceivedMessage {
        message_id: id.to_string(),
        receipt_handle,
        md5_of_body: md5_of_text(body.as_str()),
        body,
        attributes,
        md5_of_attributes: (!message_attributes.is_empty()).then(|| md5_of_attributes(&message_attributes)),
        message_attributes,
    })
}

fn too_many_polls() -> SqsError {
    SqsError::ServiceUnavailable("Too many long polls are open.".into())
}

fn value_of(
    attribute: SystemAttribute,
    kind: QueueKind,
    handed: &Handed,
    metadata: &Metadata,
    owner: &Owner,
) -> Option<String> {
    Some(match attribute {
        SystemAttribute::SenderId => metadata.sender.as_deref().unwrap_or(SENDER).into(),
        SystemAttribute::SentTimestamp => metadata.sent.to_string(),
        SystemAttribute::ApproximateReceiveCount => handed.receipt.ordinal.to_string(),
        SystemAttribute::ApproximateFirstReceiveTimestamp => handed.first.to_string(),
        SystemAttribute::DeadLetterQueueSourceArn => owner.arn(metadata.source.as_ref()?.as_str()),
        SystemAttribute::SequenceNumber => sequence_number(kind, handed.receipt.sequence)?,
        SystemAttribute::MessageGroupId => match kind {
            QueueKind::Fifo => handed.group.clone(),
            QueueKind::Standard => metadata.group.as_ref()?.as_str().into(),
        },
        SystemAttribute::MessageDeduplicationId => metadata.dedup.as_ref()?.as_str().into(),
        SystemAttribute::TraceHeader => metadata.trace.as_ref()?.text()?.into(),
    })
}
