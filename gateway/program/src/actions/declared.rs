//! Queues that the configuration declares.

use std::sync::Arc;

use hobbychair_sqs::errors::SqsError;
use hobbychair_sqs::wire::{Incoming, Protocol};
use hobbychair_tables::budget::Budget;
use hobbychair_tables::presence::Presence;

use super::{Actions, Caller};
use crate::config::DeclaredQueue;

impl Actions {
    /// Creates the declared queues that aren't there, as a client would by CreateQueue. What can't be created is
    /// logged, and the others are.
    pub async fn declare(&self, declared: &[DeclaredQueue]) {
        for queue in declared {
            if let Err(error) = self.declare_one(queue).await {
                tracing::error!("the queue {} isn't created: {error}", queue.name);
            }
        }
    }

    async fn declare_one(&self, declared: &DeclaredQueue) -> Result<(), SqsError> {
        let body = serde_json::json!({
            "QueueName": declared.name, "Attributes": declared.attributes, "tags": declared.tags,
        });
        let body = body.to_string();
        let target = Some("AmazonSQS.CreateQueue");
        let incoming = Incoming { target, path_queue: None, query: "", body: body.as_bytes() };
        let request = Protocol::Json.read(&incoming)?;
        let share = Arc::new(Budget::new(usize::MAX).share());
        let caller = Caller {
            base_url: String::new(),
            presence: Presence::default(),
            identity: None,
            call: None,
            room: None,
            asked_before: false,
            share,
        };
        self.perform(Box::new(request), &caller).await.map(drop)
    }
}
