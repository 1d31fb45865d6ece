//! Which queues are whose dead-letter queues.

use hobbychair_sqs::action::Action;
use hobbychair_sqs::attributes::GivenAttributes;
use hobbychair_sqs::errors::SqsError;
use hobbychair_sqs::redrive::{
    refusal, QueueArn, RedriveAllowPolicy, RedrivePolicy, REDRIVE_ALLOW_POLICY, REDRIVE_POLICY,
};
use hobbychair_sqs::texts::QueueName;
use hobbychair_sqs::wire::tokens::token_behind;
use hobbychair_sqs::wire::Response;

use super::{Actions, Caller, Performed};

impl Actions {
    /// Tests a policy that is given for the queue of this name: its target has to be another queue of the same kind that
    /// is there, that the caller's key allows, and that lets itself be named (API Reference, SetQueueAttributes,
    /// `RedrivePolicy`).
    pub(super) fn test_redrive(
        &self,
        name: &QueueName,
        given: &GivenAttributes,
        caller: &Caller,
    ) -> Result<(), SqsError> {
        let Some(text) = given.text(REDRIVE_POLICY).filter(|text| !text.is_empty()) else { return Ok(()) };
        let QueueArn { account, name: target } = RedrivePolicy::parse(text)?.target;
        if let Some(identity) = caller.identity.as_ref().filter(|identity| !identity.sees(&target)) {
            return Err(self.denied(identity, Action::SetQueueAttributes, Some(&target)));
        }
        let found = self.store.queues().find(&target).filter(|_| account == self.owner.account);
        let found = found.ok_or_else(|| refusal(REDRIVE_POLICY, text, "Dead letter target does not exist."))?;
        if target == *name {
            return Err(refusal(REDRIVE_POLICY, text, "A queue can't be its own dead-letter queue."));
        }
        if target.kind() != name.kind() {
            let reason = "Dead-letter queue must be same type of queue as the source.";
            return Err(refusal(REDRIVE_POLICY, text, reason));
        }
        let source = QueueArn { account, name: name.clone() };
        let allows = found.state().entry.attributes.text(REDRIVE_ALLOW_POLICY).map(RedriveAllowPolicy::parse);
        if allows.transpose()?.map_or(true, |policy| policy.allows(&source)) {
            return Ok(());
        }
        Err(refusal(REDRIVE_POLICY, text, "The dead letter target does not allow this queue as a source."))
    }

    /// The queues whose policy names this one, in order of their names: up to `most` behind `after`.
    pub(super) fn list_sources(
        &self,
        name: &QueueName,
        most: Option<u32>,
        after: &str,
        caller: &Caller,
    ) -> Result<Performed, SqsError> {
        self.queue(name)?;
        let count = most.unwrap_or(super::MOST_LISTED_QUEUES) as usize;
        let mut names = Vec::new();
        for queue in self.store.queues().all() {
            let sees = caller.identity.as_ref().map_or(true, |identity| identity.sees(&queue.name));
            let is_source = queue.state().redrive().is_some_and(|policy| policy.target.name == *name);
            if sees && is_source && queue.name.as_str() > after {
                names.push(queue.name.clone());
            }
        }
        let has_more = names.len() > count;
        names.truncate(count);
        let next = names.last().map(|name| token_behind(name.as_str())).filter(|_| has_more && most.is_some());
        let urls = names.iter().map(|name| self.url(name, caller)).collect();
        Ok(Performed::of_tables(Response::SourceQueues { urls, next }))
    }
}
