//! The task that owns the pipe of what keeps the store: it writes all asks that wait with one call, reads answers in large
//! pieces, and hands each to who asked.

mod answering;
mod clients;
mod moving;
mod space;
mod starting;

use std::collections::VecDeque;
use std::time::Duration;

use hobbychair_sqs::errors::SqsError;
use hobbychair_tables::queue::Queue;
use hobbychair_tables::shards::{Shard, Shards};
use tokio::io::{AsyncReadExt, AsyncWriteExt};
use tokio::sync::mpsc;
use tokio::time::Instant;

use crate::backend::{Backend, Ended, StartedPipe};
use crate::cq::{Cq, CqError};
use crate::exchange::{Entry, Exchange, Open, OpenAsk};
use crate::jobs::{AnswerSender, Answers, Hold, Holds, Job, Operation};
use crate::shared::Shared;
use crate::store::Store;
use clients::{Clients, CLIENTS};
use moving::Moving;
use space::Space;
use starting::Pending;

/// No more is gathered for the pipe at once.
const PIECE_BYTES: usize = 256 * 1024;

/// A program that ends so often and answers nothing in between isn't started again. What an ask does to it each time
/// doesn't add up, however often that is asked: behind one that is given up the program is asked for something else.
const MOST_ENDS_IN_A_ROW: u32 = 8;

/// An ask may be with the program at this many ends of it, and no more.
const MOST_ENDS: u32 = 2;

struct Task {
    shard: Shard,
    pipe: Cq,
    /// What keeps the store, and has the other end of the pipe.
    backend: Backend,
    shared: Shared,
    space: Space,
    /// How many open requests the counters know of.
    open_counted: usize,
    pending: VecDeque<Pending>,
    held: Holds,
    /// Copies that are with the program, and whose originals go before anything else is asked.
    moving: Option<Moving>,
    exchange: Exchange,
    clients: Clients,
    /// The answers of the job at the front that are there.
    answers: Answers,
    /// The jobs whose answers are all there.
    finished: Vec<(AnswerSender, Answers)>,
    /// What waits is not asked before something else is answered.
    waits_for_answer: bool,
    /// How many changes of timeouts are with the program.
    open_visibility_changes: usize,
    ends: u32,
}

/// Why tasks have ended, one after the other. It comes to its end once all of them and their programs have.
pub type Ends = mpsc::UnboundedReceiver<Ended>;

/// Starts the tasks, one for each shard.
pub fn start(shards: Shards, pipes: Vec<StartedPipe>, shared: Shared) -> (Store, Ends) {
    let (ended, reasons) = mpsc::unbounded_channel();
    let is_kept = pipes.iter().all(|started| started.backend.is_kept());
    let is_of_chain = pipes.iter().any(|started| started.backend.may_be_superseded());
    let mut jobs = Vec::new();
    for (started, shard) in pipes.into_iter().zip(shards.all()) {
        let (queue, waiting) = mpsc::unbounded_channel();
        jobs.push(queue);
        let (mut task, ended) = (Task::new(shard, started, shared.clone()), ended.clone());
        tokio::spawn(async move {
            let why = task.run(waiting).await;
            drop(task);
            // Where nobody waits for it any more, another task has ended before.
            let _ = ended.send(why);
        });
    }
    (Store { jobs: jobs.into(), shards, shared, is_kept, is_of_chain }, reasons)
}

impl Task {
    fn new(shard: Shard, started: StartedPipe, shared: Shared) -> Task {
        let StartedPipe { pipe, backend, incoming } = started;
        let file_length = backend.file().and_then(|file| std::fs::metadata(file).ok()).map(|found| found.len());
        Task {
            shard,
            pipe,
            space: Space::new(file_length),
            backend,
            shared,
            open_counted: 0,
            pending: VecDeque::new(),
            held: Holds::new(),
            moving: None,
            exchange: Exchange { incoming, ..Exchange::default() },
            clients: Clients::new(),
            answers: Vec::new(),
            finished: Vec::new(),
            waits_for_answer: false,
            open_visibility_changes: 0,
            ends: 0,
        }
    }

    async fn run(&mut self, mut jobs: mpsc::UnboundedReceiver<Job>) -> Ended {
        loop {
            match self.turn(&mut jobs).await {
                Ok(()) => {}
                Err(ended) => {
                    if let Err(ended) = self.go_on_behind(ended).await {
                        return ended;
                    }
                }
            }
        }
    }

    /// Starts the program again, also where it ends before it has read its file, as often as it may end in a row. An error says why it
    /// isn't started any more.
    async fn go_on_behind(&mut self, mut ended: Ended) -> Result<(), Ended> {
        while ended.is_of_program() && self.ends < MOST_ENDS_IN_A_ROW && self.backend.file().is_some() {
            tracing::error!("{ended}");
            match self.start_again().await {
                Ok(()) => return Ok(()),
                Err(again) => ended = again,
            }
        }
        Err(ended)
    }

    /// Waits for one thing to happen, and does what follows from it.
    async fn turn(&mut self, jobs: &mut mpsc::UnboundedReceiver<Job>) -> Result<(), Ended> {
        self.start_pending()?;
        self.finish_ready();
        self.send_answers();
        self.count_open();
        self.pipe.output.is_awaited = !self.exchange.open.is_empty();
        let due = self.backend.due();
        tokio::select! {
            biased;
            read = self.pipe.output.read_buf(&mut self.exchange.incoming.buffer) => match read {
                Ok(0) => return Err(self.pipe.end().await.into()),
                Ok(_) => self.read_answers()?,
                Err(error) => return Err(CqError::Gone(error.to_string()).into()),
            },
            written = self.pipe.input.write(self.exchange.out.rest()), if !self.exchange.out.is_empty() => match written {
                Ok(count) => self.exchange.out.advance(count),
                // The end of its output tells how it ended.
                Err(_) => self.exchange.out.clear(),
            },
            () = wait_until(due), if due.is_some() => self.backend.tick(&mut self.exchange),
            job = jobs.recv(), if self.pending.len() < 4 * CLIENTS as usize => {
                let Some(job) = job else { return Err(Ended::NobodyAsks) };
                self.take(job);
                // Tasks that are ready now have their asks in the same write.
                tokio::task::yield_now().await;
                while let Ok(job) = jobs.try_recv() {
                    self.take(job);
                }
            }
        }
        self.exchange.incoming.make_room();
        Ok(())
    }

    fn count_open(&mut self) {
        let open = self.pending.len() + self.exchange.open.len();
        self.shared.counters.count_open(self.open_counted, open);
        self.open_counted = open;
    }

    fn take(&mut self, job: Job) {
        let Some(queue) = &job.queue else {
            let operation = job.operations.into_iter().next();
            self.pending.push_back(Pending { queue: None, operation, until: None, sender: Some(job.sender) });
            return;
        };
        let hold = match job.operations.first() {
            Some(Operation::Move { target, .. }) => self.held.get_mut(&target.mark).filter(|hold| !hold.is_for_move),
            Some(first) if first.is_copy() => self.held.get_mut(&queue.mark).filter(|hold| !hold.is_for_move),
            _ if job.ignores_hold => None,
            _ => self.held.get_mut(&queue.mark),
        };
        match hold {
            Some(hold) => hold.waiting.push_back(job),
            None => self.append(job),
        }
    }

    fn append(&mut self, job: Job) {
        let Some(queue) = job.queue else { return };
        let mut sender = Some(job.sender);
        let count = job.operations.len();
        for (place, operation) in job.operations.into_iter().enumerate() {
            match operation {
                Operation::Hold | Operation::HoldForMove => {
                    let is_for_move = matches!(operation, Operation::HoldForMove);
                    self.held.insert(queue.mark, Hold { is_for_move, ..Hold::default() });
                }
                Operation::Release => {
                    self.release(&queue);
                    return;
                }
                _ => {}
            }
            let sender = if place + 1 == count { sender.take() } else { None };
            let (queue, until) = (Some(queue.clone()), job.until);
            self.pending.push_back(Pending { queue, operation: Some(operation), until, sender });
        }
    }

    /// Takes the jobs that waited for a held queue, up to one that holds it again.
    fn release(&mut self, queue: &Queue) {
        let mut waiting = self.held.remove(&queue.mark).unwrap_or_default().waiting;
        while let Some(job) = waiting.pop_front() {
            let holds = job.operations.iter().any(Operation::holds);
            self.append(job);
            if let (true, Some(hold)) = (holds, self.held.get_mut(&queue.mark)) {
                hold.waiting = waiting;
                return;
            }
        }
    }

    /// Starts a program again that keeps its entries, and asks what is open once more, as it was asked the first time: what
    /// was done by then has its kept reply. So the tables stay what they are.
    async fn start_again(&mut self) -> Result<(), Ended> {
        self.ends += 1;
        self.shared.counters.count_restart();
        tokio::time::sleep(pause(self.ends)).await;
        self.send_answers();
        let kept = self.backend.start_again(&mut self.pipe).await?;
        self.exchange.incoming.buffer.clear();
        self.exchange.out.clear();
        self.waits_for_answer = false;
        self.ask_all_again(|asked| kept.get(&asked.client) == Some(&asked.number));
        tracing::warn!("cq was started again, and is where its journal is");
        Ok(())
    }

    /// Asks what is open once more, in its order, as far as that isn't given up.
    fn ask_all_again(&mut self, is_done: impl Fn(&OpenAsk) -> bool) {
        let mut given_up = None;
        let mut copies_given_up = Vec::new();
        for open in std::mem::take(&mut self.exchange.open) {
            let entry = match self.repeat(open.entry, &is_done) {
                Ok(entry) => entry,
                Err(asked) => {
                    given_up = Some(asked.queue);
                    copies_given_up.extend(asked.original);
                    let message = "The store ended twice at this request.";
                    Entry::Ready(Some(Err(SqsError::InternalFailure(message.into()))))
                }
            };
            self.exchange.open.push_back(Open { entry, sender: open.sender });
        }
        for original in copies_given_up {
            self.copy_answered(original, false);
        }
        if let Some(queue) = given_up {
            // Something that changes nothing, to see whether the program answers it.
            let tag = self.backend.next_number();
            self.open_entry(Entry::Probe { tag, queue });
        }
    }

    /// Asks once more, under the same number and with its first clock. An error is an ask that is given up, since it was open at
    /// an end before. What the program has done isn't: it has its kept reply.
    fn repeat(&mut self, mut entry: Entry, is_done: impl Fn(&OpenAsk) -> bool) -> Result<Entry, Box<OpenAsk>> {
        if let Entry::Ask(asked) = &mut entry {
            asked.ends += 1;
            asked.is_done = is_done(asked);
        }
        match entry {
            Entry::Ask(asked) if asked.ends >= MOST_ENDS && !asked.is_done => {
                self.clients.give_back(asked.client);
                self.forget_open(&asked.ask);
                self.shared.admission.answered(asked.weight);
                Err(asked)
            }
            entry => Ok(self.given(entry)),
        }
    }
}

async fn wait_until(moment: Option<Instant>) {
    match moment {
        Some(moment) => tokio::time::sleep_until(moment).await,
        None => std::future::pending().await,
    }
}

/// Starts wait longer each time, up to five seconds. The first one doesn't wait.
fn pause(ends: u32) -> Duration {
    Duration::from_millis((10 * u64::from(ends - 1).pow(2)).min(5_000))
}
