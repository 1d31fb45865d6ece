//! The actions of SQS: each becomes asks of the store, and their answers become a result.

mod dead_letters;
mod declared;
mod identity;
mod messages;
mod move_tasks;
mod permissions;
mod queues;
mod receiving;

use std::hash::{Hash, Hasher};
use std::sync::Arc;

use hobbychair_bytes::values::Receipt;
use hobbychair_sqs::access::Identity;
use hobbychair_sqs::action::Action;
use hobbychair_sqs::errors::SqsError;
use hobbychair_sqs::texts::QueueName;
use hobbychair_sqs::wire::{Request, Response};
use hobbychair_store::store::Store;
use hobbychair_tables::budget::Share;
use hobbychair_tables::presence::Presence;
use hobbychair_tables::queue::Queue;
use tokio::sync::{Mutex, Semaphore};
use uuid::Uuid;

use crate::ending::Ending;
use crate::metrics::Metrics;
use crate::work::move_tasks::Rights;
pub use receiving::show;

/// Who asks.
#[derive(Clone)]
pub struct Caller {
    /// The URL under which the gateway was reached; empty where the action tells no URLs.
    pub base_url: String,
    /// Whether anybody still waits for the answer.
    pub presence: Presence,
    /// Whose signature it was; none where nobody looks at signatures.
    pub identity: Option<Arc<Identity>>,
    /// What stands for the client's call and its repeats, where that is asked for and can be told.
    pub call: Option<[u8; 32]>,
    /// A front has asked this before, and got no answer: what is done already isn't an error.
    pub asked_before: bool,
    /// For how many bytes of an answer the front has room by which it came, if it came by one that says so.
    pub room: Option<usize>,
    /// What it counts for the budget of requests.
    pub share: Arc<Share>,
}

/// What an action came to.
#[derive(Clone)]
pub struct Performed {
    pub response: Response,
    /// What a receive handed out, so that it can be told whether that is still in flight.
    pub handed: Option<(Arc<Queue>, Vec<Receipt>)>,
    /// What it rests on was on disk when it was made.
    pub is_durable: bool,
}

impl From<Response> for Performed {
    fn from(response: Response) -> Performed {
        Performed { response, handed: None, is_durable: true }
    }
}

impl Performed {
    /// A result that was read from the tables alone.
    fn of_tables(response: Response) -> Performed {
        Performed { response, handed: None, is_durable: false }
    }
}

/// What URLs and ARNs say.
#[derive(Clone, Debug)]
pub struct Owner {
    /// 12 digits.
    pub account: String,
    pub region: String,
}

/// Whether a removed queue's name and a purge keep clients waiting.
#[derive(Clone, Copy, Debug, PartialEq, Eq)]
pub enum Pauses {
    /// A minute each (API Reference, `QueueDeletedRecently` and `PurgeQueueInProgress`).
    AsSqs,
    /// Not at all, for test suites that make and purge the same queues many times a minute.
    None,
}

impl Owner {
    /// The ARN of a queue, or of all by `*`.
    fn arn(&self, queue: &str) -> String {
        format!("arn:aws:sqs:{}:{}:{queue}", self.region, self.account)
    }
}

/// The longest page of a list of queues.
const MOST_LISTED_QUEUES: u32 = 1000;

/// How many locks all names share.
const LOCKS: usize = 64;

/// Performs the actions.
pub struct Actions {
    store: Store,
    owner: Owner,
    /// Locks of queues by their names. An action that reads a queue's attributes, tags or tasks, or whether it is there,
    /// and writes by what it read, holds the lock of the name meanwhile.
    locks: Vec<Mutex<()>>,
    /// A permit for each receive that may wait.
    polls: Semaphore,
    pauses: Pauses,
    metrics: Arc<Metrics>,
    ending: Ending,
    rights: Rights,
    /// Nobody else knows it, and no start goes on with it.
    secret: Uuid,
}

impl Actions {
    /// `polls` receives may wait at once, and no longer than until the end comes.
    pub fn new(
        store: Store,
        owner: Owner,
        polls: u32,
        pauses: Pauses,
        metrics: Arc<Metrics>,
        ending: Ending,
        rights: Rights,
    ) -> Actions {
        let locks = (0..LOCKS).map(|_| Mutex::new(())).collect();
        let (polls, secret) = (Semaphore::new(polls as usize), Uuid::new_v4());
        Actions { store, owner, locks, polls, pauses, metrics, ending, rights, secret }
    }

    pub fn store(&self) -> &Store {
        &self.store
    }

    /// The refusal of an action that a key doesn't allow.
    pub fn denied(&self, identity: &Identity, action: Action, queue: Option<&QueueName>) -> SqsError {
        identity.refusal(action, &self.owner.arn(queue.map_or("*", QueueName::as_str)))
    }

    fn lock_of(&self, name: &QueueName) -> &Mutex<()> {
        let mut hasher = std::collections::hash_map::DefaultHasher::new();
        name.hash(&mut hasher);
        &self.locks[hasher.finish() as usize % LOCKS]
    }

    fn queue(&self, name: &QueueName) -> Result<Arc<Queue>, SqsError> {
        self.store.queues().get(name)
    }

    fn url(&self, name: &QueueName, caller: &Caller) -> String {
        format!("{}/{}/{name}", caller.base_url, self.owner.account)
    }

    fn arn(&self, name: &QueueName) -> String {
        format!("arn:aws:sqs:{}:{}:{name}", self.owner.region, self.owner.account)
    }

    /// Does what a request asks for, when all that it rests on is on disk.
    pub async fn perform(&self, request: Box<Request>, caller: &Caller) -> Result<Performed, SqsError> {
        let name = request.queue().cloned();
        let performed = self.dispatch(request, caller).await;
        // That there is nothing to hand out may be what the tables say, too, which in a chain may be old.
        let says_nothing = |performed: &Performed| self.store.is_of_chain() && performed.response.is_empty_receive();
        let is_durable = performed.as_ref().is_ok_and(|performed| performed.is_durable && !says_nothing(performed));
        if !is_durable && !self.wait_until_durable(name).await {
            return Err(SqsError::store_is_gone());
        }
        performed
    }

    /// Waits until what the tables show is on disk: of one name, or of all.
    async fn wait_until_durable(&self, name: Option<QueueName>) -> bool {
        match name {
            Some(name) => self.store.wait_until_durable(&name).await,
            None => self.store.wait_until_all_durable().await,
        }
    }

    async fn dispatch(&self, request: Box<Request>, caller: &Caller) -> Result<Performed, SqsError> {
        match *request {
            Request::SendMessage { queue, message } => self.send(&queue, message, caller).await,
            Request::SendMessageBatch { queue, batch } => self.send_batch(&queue, batch, caller).await,
            Request::ReceiveMessage { queue, receive } => self.receive(&queue, receive, caller).await,
            Request::DeleteMessage { queue, handle } => self.delete(&queue, &handle).await,
            Request::DeleteMessageBatch { queue, batch } => self.delete_batch(&queue, batch, caller).await,
            Request::ChangeMessageVisibility { queue, change } => self.change(&queue, &change).await,
            Request::ChangeMessageVisibilityBatch { queue, batch } => self.change_batch(&queue, batch, caller).await,
            Request::CreateQueue { queue, attributes, tags } => self.create(queue, attributes, tags, caller).await,
            Request::DeleteQueue { queue } => self.remove(&queue).await,
            Request::GetCallerIdentity => Ok(self.identify(caller)),
            Request::GetQueueUrl { queue } => self.get_url(queue, caller),
            Request::ListQueues { prefix, most, after } => Ok(self.list(&prefix, most, &after, caller)),
            Request::GetQueueAttributes { queue, wanted } => self.get_attributes(&queue, &wanted).await,
            Request::SetQueueAttributes { queue, attributes } => self.set_attributes(&queue, attributes, caller).await,
            Request::TagQueue { queue, tags } => self.tag(&queue, tags).await,
            Request::UntagQueue { queue, keys } => self.untag(&queue, keys).await,
            Request::ListQueueTags { queue } => self.list_tags(&queue),
            Request::ListDeadLetterSourceQueues { queue, most, after } => {
                self.list_sources(&queue, most, &after, caller)
            }
            Request::PurgeQueue { queue } => self.purge(&queue).await,
            Request::AddPermission { queue, permission } => self.add_permission(&queue, &permission, caller).await,
            Request::RemovePermission { queue, label } => self.remove_permission(&queue, &label, caller).await,
            Request::StartMessageMoveTask { start } => self.start_move(start, caller).await,
            Request::CancelMessageMoveTask { handle } => self.cancel_move(handle.as_ref(), caller).await,
            Request::ListMessageMoveTasks { source, most } => self.list_moves(source.as_ref(), most, caller),
        }
    }
}
