//! The store as others see it: what is asked goes to the task of its queue, and the answers come back.

use std::future::Future;
use std::sync::atomic::Ordering;
use std::sync::Arc;

use hobbychair_bytes::moment::Moment;
use hobbychair_bytes::values::Receipt;
use hobbychair_sqs::errors::SqsError;
use hobbychair_sqs::handles::HandleKey;
use hobbychair_sqs::texts::{AttemptId, QueueKind, QueueName};
use hobbychair_tables::ask::{Ask, Handed, Outcome, PartsAsk, Reach, TableChange};
use hobbychair_tables::book::Entry;
use hobbychair_tables::budget::Share;
use hobbychair_tables::clock::Clock;
use hobbychair_tables::queue::Queue;
use hobbychair_tables::queues::Queues;
use hobbychair_tables::shards::Shards;
use hobbychair_tables::store_name::StoreName;
use tokio::sync::{mpsc, oneshot};
use tokio::task::JoinHandle;
use uuid::Uuid;

use crate::figures::Figures;
use crate::jobs::{Answer, AnswerSender, Answers, Copy, Job, Operation};
use crate::shared::Shared;

tokio::task_local! {
    /// Up to which moment who asks wants its answer, where that is known.
    static WANTED_UNTIL: Option<Moment>;
}

/// Does something of which nothing new is asked behind that moment, if there is one.
pub async fn wanted_until<F: Future>(moment: Option<Moment>, work: F) -> F::Output {
    WANTED_UNTIL.scope(moment, work).await
}

/// Begins something beside that is wanted as long as what begins it.
pub fn spawn_wanted<F>(work: F) -> JoinHandle<F::Output>
where
    F: Future + Send + 'static,
    F::Output: Send,
{
    tokio::spawn(wanted_until(wanted_until_when(), work))
}

fn wanted_until_when() -> Option<Moment> {
    WANTED_UNTIL.try_with(|moment| *moment).ok().flatten()
}

/// Hands asks to the tasks that own the programs: each queue's to the one that has it. Copies go to the same tasks.
#[derive(Clone)]
pub struct Store {
    /// One for each shard.
    pub(crate) jobs: Arc<[mpsc::UnboundedSender<Job>]>,
    pub(crate) shards: Shards,
    pub(crate) shared: Shared,
    /// The programs keep their entries themselves.
    pub(crate) is_kept: bool,
    /// A chain of servers keeps the store, and a node carries what is asked.
    pub(crate) is_of_chain: bool,
}

impl Store {
    /// The tables of all queues.
    pub fn queues(&self) -> &Queues {
        &self.shared.queues
    }

    /// The clock by which they are.
    pub fn clock(&self) -> &Clock {
        &self.shared.clock
    }

    /// Whether the programs keep their entries themselves. Then all that is to outlive the gateway stands in their stores.
    pub fn is_kept(&self) -> bool {
        self.is_kept
    }

    /// Whether a chain of servers keeps the store.
    pub fn is_of_chain(&self) -> bool {
        self.is_of_chain
    }

    /// Whether a task has ended: nothing that is asked of it is answered any more.
    pub fn is_gone(&self) -> bool {
        self.jobs.iter().any(mpsc::UnboundedSender::is_closed)
    }

    /// Whether the bound of memory is full.
    pub fn is_memory_full(&self) -> bool {
        self.shared.admission.memory.is_full(self.shared.admission.bytes_in_use())
    }

    /// Refuses to send so many bytes where that would be refused in the end.
    pub fn test_room_to_send(&self, bytes: u64) -> Result<(), SqsError> {
        self.shared.admission.test(bytes, self.shared.clock.now())
    }

    /// The place of the program that has the queue of this name.
    pub fn place_of(&self, name: &QueueName) -> usize {
        self.shards.place_of(name)
    }

    /// The places of all programs.
    pub fn places(&self) -> std::ops::Range<usize> {
        0..self.jobs.len()
    }

    /// A name of the store for a queue of this name.
    pub fn next_store_name(&self, name: &QueueName) -> StoreName {
        self.shared.queues.next_store_name(self.shards, self.place_of(name), self.shared.clock.now())
    }

    /// A name of the store for a book of the program at this place.
    pub fn next_book(&self, place: usize) -> StoreName {
        StoreName::of_book(self.shared.queues.next_book(self.shards, place, self.shared.clock.now()))
    }

    /// A number for the parts of a message of this queue.
    pub fn next_parts(&self, queue: &Queue) -> u64 {
        let now = self.is_kept.then(|| self.shared.clock.now());
        self.shared.queues.parts().next_number(self.shards, self.shards.place_of(&queue.name), now)
    }

    /// The answers to asks of the queue that has the parts of this number.
    ///
    /// They are asked when this is called, whenever their answers are waited for.
    pub fn ask_parts(&self, number: u64, asks: Vec<PartsAsk>) -> impl Future<Output = Vec<Answer>> + Send {
        let operations = asks.into_iter().map(|ask| Operation::Ask(Ask::Parts { number, ask })).collect();
        self.begin(self.shards.place_of_number(number), self.shared.queues.nameless(), operations)
    }

    /// Hands operations to the program at this place at once, whenever their answers are waited for.
    fn begin(
        &self,
        place: usize,
        queue: Option<Arc<Queue>>,
        operations: Vec<Operation>,
    ) -> impl Future<Output = Answers> + Send {
        let count = operations.len();
        let (sender, answers) = oneshot::channel();
        // Where the task is gone, no answer comes.
        let _ =
            self.jobs[place].send(Job { queue, operations, ignores_hold: true, until: None, sender: sender.into() });
        async move { answers.await.unwrap_or_else(|_| (0..count).map(|_| Err(SqsError::store_is_gone())).collect()) }
    }

    /// The answers of the program at this place to operations that are about no queue with a name.
    pub async fn perform_nameless(&self, place: usize, operations: Vec<Operation>) -> Result<(), SqsError> {
        self.begin(place, self.shared.queues.nameless(), operations)
            .await
            .into_iter()
            .try_for_each(|answer| answer.map(drop))
    }

    /// Has the book say of a queue what changes. It is asked for at once.
    pub fn begin_changes(&self, queue: &Arc<Queue>, changes: Vec<TableChange>) -> impl Future<Output = Answers> + Send {
        let operations = changes.into_iter().map(Operation::Change).collect();
        self.begin(self.place_of(&queue.name), Some(queue.clone()), operations)
    }

    /// The key of this queue's handles.
    pub fn handle_key(&self, queue: &Queue) -> HandleKey {
        self.shared.queues.handle_key(queue, || self.place_of(&queue.name))
    }

    /// By what the copies that come to this queue are known, where nothing but the store says which there were.
    pub fn secret_of(&self, target: &Queue) -> Option<Uuid> {
        self.shared.queues.secret(self.place_of(&target.name))
    }

    /// Has the book say what an attempt was given, where nothing else keeps it. Where there is no room for that, a start doesn't
    /// know it.
    pub async fn keep_attempt(&self, queue: &Queue, attempt: &AttemptId) {
        let entry = queue.state().entry_of_attempt(attempt, self.shared.clock.now());
        if let Some(entry) = entry.filter(|_| self.is_kept) {
            let say = Operation::Say(Entry::Attempt(entry));
            if let Err(error) = self.perform_nameless(self.place_of(&queue.name), vec![say]).await {
                tracing::warn!("a start will know nothing of an attempt at {}: {error}", queue.name);
            }
        }
    }

    /// Creates a queue. Its name in the store comes first, and with what the book says the queue is there. Where the book
    /// doesn't say it, the name goes again.
    pub async fn create(&self, queue: Arc<Queue>) -> Answer {
        let store = self.clone();
        // It goes on where its client goes.
        let creating = spawn_wanted(async move {
            let (name, visibility, bytes) = {
                let state = queue.state();
                (state.entry.store, state.entry.attributes.visibility_timeout(), state.own_bytes())
            };
            let place = store.place_of(&queue.name);
            if let Err(error) = store.ask(&queue, Ask::Create { store: name, visibility, bytes }).await {
                store.shared.queues.names().give_back(place, name, store.shared.clock.now());
                return Err(error);
            }
            let said = store.change(&queue, TableChange::Created).await;
            if said.is_err() {
                store.shared.queues.left_over().add(place, [name]);
            }
            said
        });
        creating.await.unwrap_or_else(|_| Err(SqsError::store_is_gone()))
    }

    fn jobs_of(&self, name: &QueueName) -> &mpsc::UnboundedSender<Job> {
        &self.jobs[self.shards.place_of(name)]
    }

    async fn submit(
        &self,
        queue: &Arc<Queue>,
        operations: Vec<Operation>,
        ignores_hold: bool,
        share: Option<&Arc<Share>>,
    ) -> Answers {
        let count = operations.len();
        let (sender, answers) = oneshot::channel();
        let sender = AnswerSender { answers: sender, _share: share.cloned() };
        let until = wanted_until_when();
        let job = Job { queue: Some(queue.clone()), operations, ignores_hold, until, sender };
        let answered = match self.jobs_of(&queue.name).send(job) {
            Ok(()) => answers.await.ok(),
            Err(_) => None,
        };
        answered.unwrap_or_else(|| (0..count).map(|_| Err(SqsError::store_is_gone())).collect())
    }

    async fn submit_one(&self, queue: &Arc<Queue>, operation: Operation) -> Answer {
        self.submit(queue, vec![operation], false, None).await.pop().unwrap_or_else(|| Err(SqsError::store_is_gone()))
    }

    /// The answer to one ask, when all that it rests on is on disk.
    pub async fn ask(&self, queue: &Arc<Queue>, ask: Ask) -> Answer {
        self.submit_one(queue, ask.into()).await
    }

    /// The answers to asks that are written one after the other, in their order.
    pub async fn ask_all(&self, queue: &Arc<Queue>, asks: Vec<Ask>) -> Vec<Answer> {
        self.submit(queue, asks.into_iter().map(Operation::from).collect(), false, None).await
    }

    /// The answers to operations that are performed one after the other, in their order. Their request counts by `share`
    /// until they are there.
    pub async fn perform_all(&self, queue: &Arc<Queue>, operations: Vec<Operation>, share: &Arc<Share>) -> Vec<Answer> {
        self.submit(queue, operations, false, Some(share)).await
    }

    /// How many messages of the queue are visible and how many in flight, at this moment.
    pub async fn count(&self, queue: &Arc<Queue>) -> Answer {
        self.submit_one(queue, Operation::Count).await
    }

    /// Has the book say what changes.
    pub async fn change(&self, queue: &Arc<Queue>, change: TableChange) -> Answer {
        self.submit_one(queue, change.into()).await
    }

    /// Waits for a first answer of each program. False if there is none.
    pub async fn is_answering(&self) -> bool {
        for jobs in self.jobs.iter() {
            match submit_beside(jobs, vec![Operation::Moment]).await {
                Ok(answers) if answers.iter().all(Result::is_ok) => {}
                _ => return false,
            }
        }
        true
    }

    /// Waits until all that the tables show is on disk. False if it never will be.
    pub async fn wait_until_all_durable(&self) -> bool {
        let begun: Vec<_> = self.jobs.iter().map(|jobs| submit_beside(jobs, Vec::new())).collect();
        for answer in begun {
            if answer.await.is_err() {
                return false;
            }
        }
        true
    }

    /// Waits until all that the tables show of the queues of this name is on disk. False if it never will be.
    pub async fn wait_until_durable(&self, name: &QueueName) -> bool {
        self.wait_for(self.place_of(name)).await
    }

    /// Waits until the program at this place has answered all that it was asked, and that is on disk. False if it never
    /// will be.
    pub async fn wait_for(&self, place: usize) -> bool {
        submit_beside(&self.jobs[place], Vec::new()).await.is_ok()
    }

    /// Keeps all others from the queue until what this gives is dropped. Whoever begins this brings it to its end, or
    /// the queue is kept for good.
    pub async fn hold(&self, queue: &Arc<Queue>) -> Result<Held, SqsError> {
        self.hold_by(queue, Operation::Hold).await
    }

    /// The same, to move messages of the queue.
    pub async fn hold_for_move(&self, queue: &Arc<Queue>) -> Result<Held, SqsError> {
        self.hold_by(queue, Operation::HoldForMove).await
    }

    /// The same for a queue and the one beside it, which has what is delayed. That one comes first: whoever moves messages
    /// out of it has it, and waits for the other.
    pub async fn hold_all(&self, queue: &Arc<Queue>) -> Result<(Option<Held>, Held), SqsError> {
        loop {
            let delays = queue.delays();
            let held_delays = match &delays {
                Some(delays) => Some(self.hold(delays).await?),
                None => None,
            };
            let held = self.hold(queue).await?;
            if queue.delays().map(|delays| delays.mark) == delays.map(|delays| delays.mark) {
                return Ok((held_delays, held));
            }
        }
    }

    async fn hold_by(&self, queue: &Arc<Queue>, operation: Operation) -> Result<Held, SqsError> {
        self.submit_one(queue, operation).await?;
        Ok(Held { store: self.clone(), queue: queue.clone() })
    }

    /// Clients are served from now on. A node that carries what is asked is told so.
    pub fn says_that_it_serves(&self) {
        self.shared.counters.serves.store(true, Ordering::Relaxed);
    }

    /// The figures of this moment. Nothing waits for them.
    pub fn figures(&self) -> Figures {
        self.shared.admission.look_at_ages(self.shared.clock.now());
        Figures {
            queues: self.shared.queues.count(),
            memory_bytes: self.shared.admission.bytes_in_use(),
            memory_bound: self.shared.admission.memory.limit(),
            is_disk_short: self.shared.admission.is_disk_short(),
            lacked_room: self.shared.counters.lacked_room.load(Ordering::Relaxed),
            restarts: self.shared.counters.restarts.load(Ordering::Relaxed),
            clock_lead: self.shared.clock.lead().as_secs(),
            open: self.shared.counters.open.load(Ordering::Relaxed),
        }
    }
}

/// Submits operations that are of no queue.
fn submit_beside(jobs: &mpsc::UnboundedSender<Job>, operations: Vec<Operation>) -> oneshot::Receiver<Answers> {
    let (sender, answers) = oneshot::channel();
    // Where the task is gone, no answer comes.
    let _ = jobs.send(Job { queue: None, operations, ignores_hold: true, until: None, sender: sender.into() });
    answers
}

/// A queue that one task has to itself.
pub struct Held {
    store: Store,
    queue: Arc<Queue>,
}

impl Held {
    /// The queue that is held.
    pub fn queue(&self) -> &Arc<Queue> {
        &self.queue
    }

    /// The answers to asks of the queue, in their order.
    pub async fn ask_all(&self, asks: Vec<Ask>) -> Vec<Answer> {
        self.store.submit(&self.queue, asks.into_iter().map(Operation::from).collect(), true, None).await
    }

    /// The answer to one ask of the queue.
    pub async fn ask(&self, ask: Ask) -> Answer {
        self.ask_all(vec![ask]).await.pop().unwrap_or_else(|| Err(SqsError::store_is_gone()))
    }

    /// Hands messages to the gateway, as far as they are the next ones of the queue, and hides none of them.
    pub async fn take(&self, next: Vec<u64>) -> Result<Vec<Handed>, SqsError> {
        self.take_and_hide(next, 0).await
    }

    /// The same, and hides them for so many seconds.
    pub async fn take_and_hide(&self, next: Vec<u64>, visibility: u32) -> Result<Vec<Handed>, SqsError> {
        if next.is_empty() {
            return Ok(Vec::new());
        }
        let (size, named) = (next.len() as u8, next.clone());
        let ask = Ask::Receive { size, visibility, attempt: None, most: None, reach: Reach::Own(next) };
        let Outcome::Received { mut handed, .. } = self.ask(ask).await? else { return Ok(Vec::new()) };
        // Nothing else is handed out, and whatever it were, it isn't the gateway's.
        handed.retain(|handed| named.contains(&handed.receipt.sequence));
        Ok(handed)
    }

    /// Deletes messages by their last receipts.
    pub async fn delete(&self, receipts: impl Iterator<Item = Receipt>) -> Result<(), SqsError> {
        let asks: Vec<_> = receipts.map(|receipt| Ask::Delete { receipt, by_client: false }).collect();
        if asks.is_empty() {
            return Ok(());
        }
        self.ask_all(asks).await.into_iter().try_for_each(|answer| answer.map(drop))
    }

    /// Sends copies to another queue and deletes their originals, and tells of each copy whether it is there. An
    /// original that isn't deleted then is left to the caller.
    pub async fn move_to(&self, target: &Arc<Queue>, copies: Vec<Copy>) -> Vec<Answer> {
        let may_lack_room = self.store.is_kept && target.name.kind() == QueueKind::Fifo;
        let runs = if may_lack_room { runs_of(copies) } else { vec![copies] };
        let (mut answers, mut refusal) = (Vec::new(), None);
        for run in runs {
            if let Some(error) = &refusal {
                answers.extend(run.iter().map(|_| Err(SqsError::clone(error))));
                continue;
            }
            let moved = self.move_run(target, run).await;
            refusal = moved.iter().find_map(|answer| answer.as_ref().err().cloned());
            answers.extend(moved);
        }
        answers
    }

    async fn move_run(&self, target: &Arc<Queue>, copies: Vec<Copy>) -> Vec<Answer> {
        let count = copies.len();
        let shards = self.store.shards;
        if shards.place_of(&self.queue.name) != shards.place_of(&target.name) {
            return self.move_to_another_program(target, copies).await;
        }
        let job = vec![Operation::Move { target: target.clone(), copies }];
        let mut answers = self.store.submit(&self.queue, job, true, None).await;
        if answers.len() < count {
            let error = answers.pop().and_then(Result::err).unwrap_or_else(SqsError::store_is_gone);
            return vec![Err(error); count];
        }
        answers.truncate(count);
        answers
    }

    /// Copies that are on disk stay, so each original is deleted behind that.
    async fn move_to_another_program(&self, target: &Arc<Queue>, copies: Vec<Copy>) -> Vec<Answer> {
        let (sequences, asks): (Vec<_>, Vec<_>) = copies.into_iter().map(|copy| (copy.sequence, copy.ask)).unzip();
        let answers = self.store.ask_all(target, asks).await;
        let there = sequences.iter().zip(&answers).filter(|(_, answer)| answer.is_ok());
        let receipts: Vec<_> = {
            let state = self.queue.state();
            there.filter_map(|(sequence, _)| state.last_receipt_of(*sequence)).collect()
        };
        // What isn't deleted now is left to the caller.
        let _ = self.delete(receipts.into_iter()).await;
        answers
    }

    /// Has the book say of the queue what changes.
    pub async fn change(&self, change: TableChange) -> Answer {
        let answers = self.store.submit(&self.queue, vec![change.into()], true, None);
        answers.await.pop().unwrap_or_else(|| Err(SqsError::store_is_gone()))
    }
}

/// Copies in runs in which none is shorter than one before it. Where a program's journal has no room for one, it has none
/// for those behind it in its run, so messages of a group stay in their order.
fn runs_of(copies: Vec<Copy>) -> Vec<Vec<Copy>> {
    let (mut runs, mut last): (Vec<Vec<Copy>>, usize) = (Vec::new(), usize::MAX);
    for copy in copies {
        let length = copy.ask.length_of_texts();
        if length < last {
            runs.push(Vec::new());
        }
        last = length;
        if let Some(run) = runs.last_mut() {
            run.push(copy);
        }
    }
    runs
}

impl Drop for Held {
    fn drop(&mut self) {
        let (sender, _) = oneshot::channel();
        let queue = Some(self.queue.clone());
        // Where the task is gone, nothing waits any more.
        let jobs = self.store.jobs_of(&self.queue.name);
        let operations = vec![Operation::Release];
        let _ = jobs.send(Job { queue, operations, ignores_hold: true, until: None, sender: sender.into() });
    }
}

#[cfg(test)]
mod tests {
    use hobbychair_sqs::envelope::Envelope;
    use hobbychair_sqs::handles::Origin;
    use hobbychair_sqs::texts::{DedupId, GroupId};

    use hobbychair_tables::ask::Cause;

    use super::*;

    #[test]
    fn a_copy_that_has_room_has_none_before_it_in_its_run_that_has_none() {
        let copy = |(sequence, body): (u64, &str)| {
            let (group, dedup) = (GroupId::parse("g").unwrap(), DedupId::parse("d").unwrap());
            let (envelope, cause) = (Envelope::from(body.to_string()), Cause::Move(Origin { mark: 1, sequence }));
            Copy { sequence, ask: Ask::Send { group, dedup, envelope, cause } }
        };
        let bodies = ["aa", "bb", "\"bb", "cc", "dddd", "d", "eee", "\"\"\"\"", "ffffff"];
        let runs = runs_of((1..).zip(bodies).map(copy).collect());
        let runs: Vec<Vec<_>> = runs.iter().map(|run| run.iter().map(|copy| copy.sequence).collect()).collect();
        assert_eq!(runs, [vec![1, 2, 3], vec![4, 5], vec![6, 7, 8, 9]]);
        assert!(runs_of(Vec::new()).is_empty());
    }
}
