//! Queues: creating, removing and purging them, and their attributes and tags.

use std::sync::Arc;

use hobbychair_sqs::attributes::{GivenAttributes, QueueAttributes, WantedAttributes, COUNTS};
use hobbychair_sqs::errors::SqsError;
use hobbychair_sqs::texts::QueueName;
use hobbychair_sqs::wire::requests::{test_count_of_tags, Tags};
use hobbychair_sqs::wire::tokens::token_behind;
use hobbychair_sqs::wire::Response;
use hobbychair_store::jobs::Answer;
use hobbychair_tables::ask::{Outcome, TableChange};
use hobbychair_tables::book::QueueEntry;
use hobbychair_tables::queue::Queue;

use super::{Actions, Caller, Pauses, Performed, MOST_LISTED_QUEUES};
use crate::work::book;
use crate::work::delays::bring_up_to_date;
use crate::work::purges::purge;

/// So long a queue can't be purged again, in milliseconds (API Reference, PurgeQueue, `PurgeQueueInProgress`).
const PURGE_PAUSE_MILLISECONDS: u64 = 60_000;

impl Actions {
    pub(super) async fn create(
        &self,
        name: QueueName,
        given: GivenAttributes,
        tags: Tags,
        caller: &Caller,
    ) -> Result<Performed, SqsError> {
        let _locked = self.lock_of(&name).lock().await;
        let url = Response::QueueUrl(self.url(&name, caller));
        if let Some(queue) = self.store.queues().find(&name) {
            queue.state().entry.attributes.test_same(&given)?;
            return Ok(Performed::of_tables(url));
        }
        let attributes = QueueAttributes::for_creation(name.kind(), &given)?;
        self.test_redrive(&name, &given, caller)?;
        let now = self.store.clock().now();
        if self.pauses == Pauses::AsSqs {
            self.store.queues().test_pause(&name, now)?;
        }
        let store = self.store.next_store_name(&name);
        let queue = Queue::new(&QueueEntry::new(store, name, rand::random(), attributes, tags, now));
        self.store.create(Arc::new(queue)).await?;
        Ok(url.into())
    }

    pub(super) async fn remove(&self, name: &QueueName) -> Result<Performed, SqsError> {
        let _locked = self.lock_of(name).lock().await;
        let queue = self.queue(name)?;
        let (_held_delays, held) = self.store.hold_all(&queue).await?;
        held.change(TableChange::Removed).await?;
        // It is gone by what the book says. What the store doesn't let go now goes later.
        let place = self.store.place_of(name);
        for earlier in queue.store_names() {
            if let Err(error) = book::remove_left_over(&self.store, place, earlier).await {
                tracing::warn!("what the store has of {name} goes later: {error}");
            }
        }
        Ok(Response::Nothing.into())
    }

    pub(super) fn get_url(&self, name: Option<QueueName>, caller: &Caller) -> Result<Performed, SqsError> {
        let queue = self.queue(&name.ok_or(SqsError::QueueDoesNotExist)?)?;
        Ok(Performed::of_tables(Response::QueueUrl(self.url(&queue.name, caller))))
    }

    pub(super) fn list(&self, prefix: &str, most: Option<u32>, after: &str, caller: &Caller) -> Performed {
        let count = most.unwrap_or(MOST_LISTED_QUEUES) as usize;
        let sees = |name: &QueueName| caller.identity.as_ref().map_or(true, |identity| identity.sees(name));
        let (names, has_more) = self.store.queues().page(prefix, after, count, sees);
        let last = names.last().map(|name| token_behind(name.as_str()));
        let urls = names.iter().map(|name| self.url(name, caller)).collect();
        let next = last.filter(|_| has_more && most.is_some());
        Performed::of_tables(Response::Queues { urls, next })
    }

    pub(super) async fn get_attributes(
        &self,
        name: &QueueName,
        wanted: &WantedAttributes,
    ) -> Result<Performed, SqsError> {
        let queue = self.queue(name)?;
        let counts = if wanted.has_counts() { Some(self.count(&queue).await?) } else { None };
        let is_durable = counts.is_some();
        let mut attributes = self.attributes_of(&queue);
        if let Some(Outcome::Counts { visible, in_flight }) = counts {
            let counts = queue.counts(visible, in_flight, self.store.clock().now());
            attributes.extend(COUNTS.iter().zip(counts).map(|(name, count)| (name.to_string(), count.to_string())));
        }
        attributes.retain(|(name, _)| wanted.has(name));
        attributes.sort_unstable();
        Ok(Performed { is_durable, ..Performed::of_tables(Response::Attributes(attributes)) })
    }

    async fn count(&self, queue: &Arc<Queue>) -> Answer {
        bring_up_to_date(&self.store, queue).await;
        self.store.count(queue).await
    }

    fn attributes_of(&self, queue: &Queue) -> Vec<(String, String)> {
        let state = queue.state();
        let own = state.entry.attributes.iter().map(|(name, value)| (name.to_string(), value.to_string()));
        let mut attributes: Vec<_> = own.collect();
        attributes.push(("CreatedTimestamp".into(), (state.entry.created / 1000).to_string()));
        attributes.push(("LastModifiedTimestamp".into(), (state.entry.modified / 1000).to_string()));
        attributes.push(("QueueArn".into(), self.owner.arn(queue.name.as_str())));
        attributes
    }

    pub(super) async fn set_attributes(
        &self,
        name: &QueueName,
        given: GivenAttributes,
        caller: &Caller,
    ) -> Result<Performed, SqsError> {
        let _locked = self.lock_of(name).lock().await;
        let queue = self.queue(name)?;
        queue.state().entry.attributes.test_change(&given)?;
        self.test_redrive(name, &given, caller)?;
        self.store.change(&queue, TableChange::Attributes(given.with_what_it_ends())).await?;
        Ok(Response::Nothing.into())
    }

    pub(super) async fn tag(&self, name: &QueueName, tags: Tags) -> Result<Performed, SqsError> {
        let _locked = self.lock_of(name).lock().await;
        let queue = self.queue(name)?;
        let mut whole = queue.state().entry.tags.clone();
        whole.extend(tags.clone());
        test_count_of_tags(&whole)?;
        self.store.change(&queue, TableChange::Tag(tags)).await?;
        Ok(Response::Nothing.into())
    }

    pub(super) async fn untag(&self, name: &QueueName, keys: Vec<String>) -> Result<Performed, SqsError> {
        let queue = self.queue(name)?;
        self.store.change(&queue, TableChange::Untag(keys)).await?;
        Ok(Response::Nothing.into())
    }

    pub(super) fn list_tags(&self, name: &QueueName) -> Result<Performed, SqsError> {
        let tags = self.queue(name)?.state().entry.tags.clone();
        Ok(Performed::of_tables(Response::Tags(tags.into_iter().collect())))
    }

    /// Deletes all messages that are there; deduplication ids stay. Nobody else has the queue meanwhile.
    pub(super) async fn purge(&self, name: &QueueName) -> Result<Performed, SqsError> {
        let queue = self.queue(name)?;
        let held = self.store.hold_all(&queue).await?;
        let now = self.store.clock().now();
        let (purged, removed, last) = {
            let state = queue.state();
            (state.entry.purged, state.removed, state.last_sequence)
        };
        if removed {
            return Err(SqsError::QueueDoesNotExist);
        }
        let is_early = purged.is_some_and(|purged| now < purged + PURGE_PAUSE_MILLISECONDS);
        if is_early && self.pauses == Pauses::AsSqs {
            return Err(SqsError::PurgeQueueInProgress { queue: name.to_string() });
        }
        purge(self.store.clone(), queue, held, last).await?;
        Ok(Response::Nothing.into())
    }
}
