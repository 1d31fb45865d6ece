//! Answers: what was heard, and who is told.

use hobbychair_bytes::values::StoreReply;
use hobbychair_sqs::errors::SqsError;
use hobbychair_tables::ask::{Ask, Outcome};

use super::Task;
use crate::backend::{Ended, Heard};
use crate::exchange::{Entry, Open, OpenAsk};
use crate::jobs::{Answer, AnswerSender};

impl Task {
    pub(super) fn read_answers(&mut self) -> Result<(), Ended> {
        while let Some(heard) = self.backend.hear(&mut self.exchange)? {
            match heard {
                Heard::Nothing => {}
                Heard::Answer(reply) => self.answered(reply),
                Heard::Refused(asks) => self.refused(asks),
            }
            self.finish_ready();
        }
        Ok(())
    }

    /// The entry at the front is answered.
    fn answered(&mut self, reply: StoreReply) {
        let Some(Open { entry, sender }) = self.exchange.open.pop_front() else { return };
        match entry {
            Entry::Ask(mut asked) => {
                self.close(&asked);
                self.ends = 0;
                self.complete(&mut asked);
                let answer = self.apply(&asked, reply);
                let is_done = answer.is_ok();
                self.finish(answer, sender);
                self.go_on_with(&asked, is_done);
            }
            Entry::Moment { .. } => {
                if sender.is_some() {
                    self.finish(Ok(Outcome::Done), sender);
                }
            }
            Entry::Probe { .. } => self.ends = 0,
            Entry::Count { .. } => {
                self.ends = 0;
                let answer = match reply {
                    StoreReply::Counts { visible, in_flight } => Ok(Outcome::Counts { visible, in_flight }),
                    StoreReply::Refused(code) => Err(SqsError::of_refusal(code)),
                    _ => Err(SqsError::InternalFailure("The store gave no counts.".into())),
                };
                self.finish(answer, sender);
            }
            Entry::Ready(_) => {}
        }
    }

    /// These asks did nothing, and their entries have their answers. To be refused something is an answer, too.
    fn refused(&mut self, asks: Vec<OpenAsk>) {
        self.ends = 0;
        for asked in asks {
            self.close(&asked);
            self.shared.admission.answered(asked.weight);
            self.go_on_with(&asked, false);
        }
    }

    /// Goes on with the move of which this was a copy, if it was one.
    fn go_on_with(&mut self, asked: &OpenAsk, is_done: bool) {
        if let Some(original) = asked.original {
            self.copy_answered(original, is_done);
        }
    }

    /// Puts what counts at its answer into a receive: which messages are dead letters. So policies and targets change
    /// between two answers, and never between an ask and its answer.
    fn complete(&self, asked: &mut OpenAsk) {
        if let Ask::Receive { most, reach, .. } = &mut asked.ask {
            let target = reach.is_for_client().then(|| self.shared.queues.target_of(&asked.queue)).flatten();
            *most = target.map(|(_, most)| most);
        }
    }

    /// Applies the reply to the tables.
    fn apply(&mut self, asked: &OpenAsk, reply: StoreReply) -> Answer {
        let applied = self.shared.queues.apply_reply(self.shard.place(), &asked.queue, &asked.ask, reply, asked.moment);
        self.shared.admission.answered(asked.weight);
        applied
    }

    /// The program has answered this one.
    fn close(&mut self, asked: &OpenAsk) {
        self.clients.give_back(asked.client);
        self.forget_open(&asked.ask);
        self.waits_for_answer = false;
    }

    /// The program doesn't have this one any more.
    pub(super) fn forget_open(&mut self, ask: &Ask) {
        self.open_visibility_changes -= usize::from(matches!(ask, Ask::ChangeVisibility { .. }));
    }

    /// Finishes the entries at the front that need no answer of the store.
    pub(super) fn finish_ready(&mut self) {
        while let Some(Open { entry: Entry::Ready(_), .. }) = self.exchange.open.front() {
            match self.exchange.open.pop_front() {
                Some(Open { entry: Entry::Ready(Some(answer)), sender }) => self.finish(answer, sender),
                Some(Open { sender, .. }) => self.finish_job(sender),
                None => {}
            }
        }
    }

    fn finish(&mut self, answer: Answer, sender: Option<AnswerSender>) {
        self.answers.push(answer);
        if sender.is_some() {
            self.finish_job(sender);
        }
    }

    fn finish_job(&mut self, sender: Option<AnswerSender>) {
        if let Some(sender) = sender {
            self.finished.push((sender, std::mem::take(&mut self.answers)));
        }
    }

    /// Lets the answers go that are there.
    pub(super) fn send_answers(&mut self) {
        self.finished.drain(..).for_each(|(sender, answers)| sender.send(answers));
    }
}
