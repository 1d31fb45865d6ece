//! Who asks, and what that one may do.

use std::collections::HashSet;

use crate::action::Action;
use crate::errors::SqsError;
use crate::texts::QueueName;

/// Who asks, and what that one may do.
#[derive(Clone, Debug, PartialEq, Eq)]
pub struct Identity {
    access_key: String,
    /// Prefixes of queues' names; none allows all.
    queues: Option<Vec<String>>,
    /// None allows all.
    actions: Option<HashSet<Action>>,
}

impl Identity {
    /// A key with what its row in the file allows. An action allows its batch as well (Developer Guide, "Amazon SQS API
    /// permissions: Actions and resource reference").
    pub(super) fn new(access_key: String, queues: Option<Vec<String>>, actions: Option<Vec<Action>>) -> Identity {
        let with_batches = |actions: Vec<Action>| {
            let batches: Vec<Action> = actions.iter().copied().filter_map(batch_of).collect();
            actions.into_iter().chain(batches).collect()
        };
        Identity { access_key, queues, actions: actions.map(with_batches) }
    }

    /// The access key.
    pub fn name(&self) -> &str {
        &self.access_key
    }

    /// Whether an action is allowed, on a queue where it is about one. An action about no queue is ListQueues, which
    /// shows only what `sees` tells, or GetCallerIdentity, which is allowed to all.
    pub fn may(&self, action: Action, queue: Option<&QueueName>) -> bool {
        if action == Action::GetCallerIdentity {
            return true;
        }
        let has_action = self.actions.as_ref().map_or(true, |actions| actions.contains(&action));
        has_action && queue.map_or(true, |queue| self.sees(queue))
    }

    /// Whether a queue's name begins with one of the prefixes that are allowed.
    pub fn sees(&self, queue: &QueueName) -> bool {
        let is_prefix = |prefix: &String| queue.as_str().starts_with(prefix.as_str());
        self.queues.as_ref().map_or(true, |prefixes| prefixes.iter().any(is_prefix))
    }

    /// What this one is told of an action that isn't allowed. `resource` is the ARN of the queue that the request
    /// names, whether it exists or not.
    pub fn refusal(&self, action: Action, resource: &str) -> SqsError {
        SqsError::AccessDenied {
            user: self.access_key.clone(),
            action: action.name().to_ascii_lowercase(),
            resource: resource.into(),
        }
    }
}

fn batch_of(action: Action) -> Option<Action> {
    match action {
        Action::SendMessage => Some(Action::SendMessageBatch),
        Action::DeleteMessage => Some(Action::DeleteMessageBatch),
        Action::ChangeMessageVisibility => Some(Action::ChangeMessageVisibilityBatch),
        _ => None,
    }
}
