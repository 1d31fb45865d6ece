//! Which receipts a queue gave out, and what they are good for.

use hobbychair_bytes::moment::Moment;
use hobbychair_bytes::values::Receipt;
use hobbychair_sqs::errors::SqsError;
use hobbychair_sqs::handles::Handle;

use super::message::Message;
use super::State;
use crate::ask::Fate;
use crate::jumps::Jumps;

impl State {
    /// The receipt of this handing of this message.
    pub(super) fn receipt(&self, sequence: u64, ordinal: u64) -> Receipt {
        Receipt { incarnation: self.incarnation, sequence, ordinal }
    }

    /// The receipt of a handle, if the handle is of a handing that there was. The mark is tested before.
    ///
    /// Of a message that is deleted, and of an earlier handing to a client, the store decides: neither does anything.
    pub fn receipt_of(&self, handle: &Handle) -> Result<Receipt, SqsError> {
        let receipt = handle.receipt(self.incarnation);
        if receipt.sequence > self.last_sequence {
            return Err(SqsError::ReceiptHandleIsInvalid);
        }
        if let Some(message) = self.messages.get(receipt.sequence) {
            let last = message.last.ok_or(SqsError::ReceiptHandleIsInvalid)?;
            let is_last = receipt.ordinal == message.ordinal;
            if receipt.ordinal > message.ordinal || (is_last && handle.moment != last.moment) {
                return Err(SqsError::ReceiptHandleIsInvalid);
            }
        }
        Ok(receipt)
    }

    /// Whether a message is there that this receipt was given out for.
    pub(super) fn has_message(&self, receipt: Receipt) -> bool {
        self.messages.has(receipt.sequence)
    }

    /// Whether this is the last receipt of a message that is there and its timeout is over, exactly at its end already.
    /// An ask that isn't answered yet may still change that.
    pub fn has_expired(&self, receipt: Receipt, now: Moment) -> bool {
        self.is_last(receipt) && self.messages.get(receipt.sequence).is_some_and(|message| message.until() <= now)
    }

    /// Whether this is the receipt of the last handing of a message that is there.
    pub fn is_last(&self, receipt: Receipt) -> bool {
        let is_by_it = |message: &Message| message.last.is_some() && message.ordinal == receipt.ordinal;
        self.messages.get(receipt.sequence).is_some_and(is_by_it)
    }

    /// Whether each of these receipts is its message's last one, and none of them has ended.
    pub fn are_in_flight(&self, receipts: &[Receipt], now: Moment) -> bool {
        let is_hidden = |sequence| self.messages.get(sequence).is_some_and(|message| message.until() > now);
        receipts.iter().all(|receipt| self.is_last(*receipt) && is_hidden(receipt.sequence))
    }

    /// The last receipts of messages from `first` to `last`, in order, of those that were handed out, and where to go on;
    /// none where there are no messages from there on. So many messages are looked at.
    pub fn receipts_between(&self, first: u64, last: u64, most: usize) -> Option<(Vec<Receipt>, u64)> {
        let mut next = None;
        let mut receipts = Vec::new();
        for (sequence, message) in self.messages.from(first).take_while(|(sequence, _)| *sequence <= last).take(most) {
            next = Some(sequence + 1);
            let receipt = self.receipt(sequence, message.ordinal);
            receipts.extend(Some(receipt).filter(|receipt| receipt.ordinal > 0));
        }
        Some((receipts, next?))
    }

    /// The receipt of the message's last handing, to whomever; none if there is none, or the message or the queue isn't
    /// there any more.
    pub fn last_receipt_of(&self, sequence: u64) -> Option<Receipt> {
        let message = self.messages.get(sequence).filter(|_| !self.removed)?;
        Some(self.receipt(sequence, message.ordinal)).filter(|receipt| receipt.ordinal > 0)
    }

    /// Whether the last handing set the message aside, to be moved to a target that is there since `created`. Only what
    /// was handed out after that and after the last change of the queue's attributes surely wasn't a client's.
    pub fn is_set_aside(&self, sequence: u64, created: Moment) -> bool {
        let Some(message) = self.messages.get(sequence) else { return false };
        let is_dead = self.redrive().is_some_and(|policy| message.ordinal > u64::from(policy.most));
        is_dead && message.last.is_some_and(|last| last.moment > self.entry.modified.max(created))
    }

    /// The receipts of those messages in flight that no client has, with what was to become of them. `created` is since
    /// when the target of the queue's policy is there.
    pub fn cut_off(&self, created: Option<Moment>, jumps: &Jumps, now: Moment) -> Vec<(Receipt, Fate)> {
        let in_flight = self.messages.in_flight().filter(|(_, message)| message.until() > now);
        let with_fates = in_flight.filter_map(|(sequence, message)| {
            let receipt = self.receipt(sequence, message.ordinal);
            Some((receipt, self.fate_of_cut_off(sequence, message, created, jumps)?))
        });
        with_fates.collect()
    }

    fn fate_of_cut_off(
        &self,
        sequence: u64,
        message: &Message,
        created: Option<Moment>,
        jumps: &Jumps,
    ) -> Option<Fate> {
        let handed = message.last.map(|last| last.moment).filter(|handed| *handed > self.entry.modified)?;
        let is_old = self.horizon(jumps, handed).is_some_and(|horizon| message.sent <= horizon);
        let is_dead = created.is_some_and(|created| self.is_set_aside(sequence, created));
        let fates = [(Fate::Old, is_old), (Fate::Dead, is_dead)];
        fates.into_iter().find(|(_, applies)| *applies).map(|(fate, _)| fate)
    }
}
