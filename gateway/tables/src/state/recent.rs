//! The sends whose deduplication ids count, where `DeduplicationScope` has changed within their time.
//!
//! The store has the id of a send as its scope was then: as it is, or one that is made of the group and the id. So the store
//! doesn't know a repeat behind a change, and the tables do.

use std::collections::HashMap;

use hobbychair_bytes::moment::Moment;
use hobbychair_sqs::texts::{DedupId, QueueKind};

use super::{State, WINDOW_MILLISECONDS};
use crate::ask::Outcome;

/// A send whose deduplication id counts.
#[derive(Clone, Copy, Debug)]
pub(super) struct RecentSend {
    pub(super) moment: Moment,
    /// That of its id, as the store has it; 0 in a standard queue.
    pub(super) fingerprint: u64,
}

/// The sequence numbers of sends that may count, by the fingerprints of their ids. It is there while ids of two scopes may count.
#[derive(Debug, Default)]
pub(super) struct SendsById(Option<HashMap<u64, u64>>);

impl State {
    pub(super) fn fingerprint_of(&self, id: &DedupId) -> u64 {
        match self.kind {
            QueueKind::Fifo => id.fingerprint(),
            QueueKind::Standard => 0,
        }
    }

    /// Whether ids of another scope than the queue's may count at this moment.
    pub fn has_ids_of_other_scope(&self, now: Moment) -> bool {
        self.entry.rescoped.is_some_and(|changed| now < changed + WINDOW_MILLISECONDS)
    }

    /// What was sent with this id, as the store has it, if that counts at this moment. The first one who asks behind a change takes
    /// time in proportion to the sends of the last five minutes.
    pub fn sent_with(&mut self, id: &DedupId, now: Moment) -> Option<Outcome> {
        self.forget_old_sends(now);
        let first = self.first_recent();
        let numbered = self.recent.iter().zip(first..);
        let by_id = self
            .sends_by_id
            .0
            .get_or_insert_with(|| numbered.map(|(send, number)| (send.fingerprint, number)).collect());
        let sequence = *by_id.get(&id.fingerprint()).filter(|sequence| **sequence >= first)?;
        Some(Outcome::Sent { sequence, id: None })
    }

    /// A message was sent with an id of this fingerprint.
    pub(super) fn sent_by_id(&mut self, send: RecentSend, sequence: u64) {
        if !self.has_ids_of_other_scope(send.moment) {
            self.sends_by_id.0 = None;
        } else if let Some(by_id) = &mut self.sends_by_id.0 {
            by_id.insert(send.fingerprint, sequence);
        }
    }
}
