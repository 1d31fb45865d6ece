//! Moves: copies go to another queue of the program, and behind them their originals are deleted.
//!
//! Between the copies and the deletions nothing else is asked. So a front of what the program was asked holds both, or a copy
//! that nobody can have touched, or neither.

use std::sync::Arc;

use hobbychair_bytes::moment::Moment;
use hobbychair_sqs::errors::SqsError;
use hobbychair_tables::ask::Ask;
use hobbychair_tables::queue::Queue;
use hobbychair_tables::store_name::StoreName;

use super::clients::CLIENTS;
use super::starting::{stamped, StartOutcome};
use super::Task;
use crate::exchange::{Entry, Open, OpenAsk};
use crate::jobs::{AnswerSender, Copy, Operation};

/// Copies that aren't all answered yet.
pub(super) struct Moving {
    source: Arc<Queue>,
    /// How many aren't.
    left: usize,
    /// The sequence numbers of the originals of those that are there.
    copied: Vec<u64>,
    sender: Option<AnswerSender>,
}

impl Task {
    /// Sends copies, all of them or none.
    pub(super) fn start_move(
        &mut self,
        source: Arc<Queue>,
        target: Arc<Queue>,
        copies: Vec<Copy>,
        sender: &mut Option<AnswerSender>,
    ) -> StartOutcome {
        if copies.len() > self.clients.count() {
            return StartOutcome::WaitsForAnswer(source, Operation::Move { target, copies });
        }
        let (store, removed) = {
            let state = target.state();
            (state.entry.store, state.removed)
        };
        if removed || copies.is_empty() {
            return StartOutcome::ready(Err(SqsError::QueueDoesNotExist));
        }
        let moment = self.shared.clock.now();
        self.moving = Some(Moving { source, left: copies.len(), copied: Vec::new(), sender: sender.take() });
        for Copy { sequence, ask } in copies {
            let ask = stamped(ask, &target, moment);
            self.begin(target.clone(), store, ask, moment, Some(sequence));
        }
        StartOutcome::Begun
    }

    /// Asks the program for a copy, or for the deletion of an original.
    fn begin(&mut self, queue: Arc<Queue>, store: StoreName, ask: Ask, moment: Moment, original: Option<u64>) {
        // There are as many free clients as copies, and a copy that is answered frees its own.
        let client = self.clients.take(false).unwrap_or(CLIENTS);
        let (number, written) = (self.backend.next_number(), ask.written(store));
        let asked =
            OpenAsk { queue, ask, written, moment, client, number, weight: 0, ends: 0, is_done: false, original };
        self.open_entry(Entry::Ask(Box::new(asked)));
    }

    /// A copy was answered, or given up. Behind the last one the originals go.
    pub(super) fn copy_answered(&mut self, original: u64, is_there: bool) {
        let Some(moving) = &mut self.moving else { return };
        moving.left -= 1;
        if is_there {
            moving.copied.push(original);
        }
        if moving.left == 0 {
            self.delete_originals();
        }
    }

    fn delete_originals(&mut self) {
        let Some(Moving { source, copied, sender, .. }) = self.moving.take() else { return };
        let moment = self.shared.clock.now();
        let store = source.state().entry.store;
        let mut is_begun = false;
        for original in copied {
            let receipt = source.state().last_receipt_of(original);
            let Some(receipt) = receipt else { continue };
            let ask = Ask::Delete { receipt, by_client: false };
            self.begin(source.clone(), store, ask, moment, None);
            is_begun = true;
        }
        match self.exchange.open.back_mut().filter(|_| is_begun) {
            Some(deletion) => deletion.sender = sender,
            // Behind copies that were given up, and are to be told yet.
            None => self.exchange.open.push_back(Open { entry: Entry::Ready(None), sender }),
        }
    }
}
