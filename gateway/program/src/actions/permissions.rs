//! Permissions, which are statements in the policy of a queue.

use hobbychair_sqs::attributes::GivenAttributes;
use hobbychair_sqs::errors::SqsError;
use hobbychair_sqs::policy::{Permission, Policy};
use hobbychair_sqs::texts::QueueName;
use hobbychair_sqs::wire::Response;
use hobbychair_tables::ask::TableChange;

use super::{Actions, Caller, Performed};

impl Actions {
    pub(super) async fn add_permission(
        &self,
        name: &QueueName,
        permission: &Permission,
        caller: &Caller,
    ) -> Result<Performed, SqsError> {
        let arn = self.arn(name);
        let is_done = |policy: &Policy| caller.asked_before && policy.has(permission, &arn);
        self.change_policy(name, is_done, |policy| policy.add(permission, &arn)).await
    }

    pub(super) async fn remove_permission(
        &self,
        name: &QueueName,
        label: &str,
        caller: &Caller,
    ) -> Result<Performed, SqsError> {
        let is_done = |policy: &Policy| caller.asked_before && !policy.names(label);
        self.change_policy(name, is_done, |policy| policy.remove(label)).await
    }

    async fn change_policy(
        &self,
        name: &QueueName,
        is_done: impl FnOnce(&Policy) -> bool,
        change: impl FnOnce(&mut Policy) -> Result<(), SqsError>,
    ) -> Result<Performed, SqsError> {
        let _locked = self.lock_of(name).lock().await;
        let queue = self.queue(name)?;
        let mut policy = Policy::of_queue(queue.state().entry.attributes.policy())?;
        if is_done(&policy) {
            return Ok(Response::Nothing.into());
        }
        change(&mut policy)?;
        let given = GivenAttributes::read(name.kind(), &[("Policy".into(), policy.text())])?;
        self.store.change(&queue, TableChange::Attributes(given)).await?;
        Ok(Response::Nothing.into())
    }
}
