use std::sync::Arc;

use bytes::Bytes;
use hobbychair_bytes::commands::{Place, Standing};
use hobbychair_bytes::parts::{Cutter, Frames, Reader};
use hobbychair_bytes::values::{Receipt, StoreReply};
use hobbychair_sqs::envelope::Envelope;
use hobbychair_sqs::handles::Origin;
use hobbychair_sqs::texts::{DedupId, GroupId, QueueName};
use hobbychair_tables::ask::{Ask, Cause, Outcome};
use hobbychair_tables::book::QueueEntry;
use hobbychair_tables::clock::Clock;
use hobbychair_tables::queue::Queue;
use hobbychair_tables::queues::Queues;
use hobbychair_tables::shards::Shards;
use hobbychair_tables::store_name::StoreName;
use tokio::io::AsyncWriteExt;
use tokio::net::unix::{OwnedReadHalf, OwnedWriteHalf};
use tokio::net::UnixStream;
use tokio::task::JoinHandle;

use super::*;
use crate::backend::{Backend, StartedPipe, COUNTER};
use crate::cq::Cq;
use crate::jobs::{Answer as Answered, Copy};
use crate::shared::Shared;
use crate::store::Store;
use crate::task::{start, Ends};

/// The other end of the gateway's pipe.
struct Program {
    reading: Frames<OwnedReadHalf>,
    writing: OwnedWriteHalf,
}

/// A request that came: its stream, its clock, the client, the number, and the ask.
type Came = (u64, u64, u32, u64, Bytes);

#[derive(Debug)]
enum HeardCommand {
    Request(Came),
    /// Its tag.
    Query(u64),
    More,
}

impl Program {
    async fn next(&mut self) -> HeardCommand {
        let frame = tokio::time::timeout(Duration::from_secs(10), self.reading.next()).await.unwrap().unwrap();
        let mut from = Reader::of_frame(frame.clone()).unwrap();
        match from.byte().unwrap() {
            0 => {
                let (stream, clock) = (from.number64().unwrap(), from.number64().unwrap());
                let (client, number) = (from.number32().unwrap(), from.number64().unwrap());
                HeardCommand::Request((stream, clock, client, number, frame.slice(30..)))
            }
            1 => {
                assert_eq!(from.number32().unwrap(), COUNTER);
                HeardCommand::Query(from.number64().unwrap())
            }
            5 => HeardCommand::More,
            other => panic!("{other}"),
        }
    }

    async fn request(&mut self) -> Came {
        match self.next().await {
            HeardCommand::Request(came) => came,
            other => panic!("{other:?}"),
        }
    }

    async fn requests(&mut self, count: usize) -> Vec<Came> {
        let mut all = Vec::new();
        for _ in 0..count {
            all.push(self.request().await);
        }
        all
    }

    async fn query(&mut self) -> u64 {
        match self.next().await {
            HeardCommand::Query(tag) => tag,
            other => panic!("{other:?}"),
        }
    }

    async fn tell(&mut self, response: Response) {
        self.writing.write_all(&response.frame()).await.unwrap();
    }

    async fn done(&mut self) {
        self.tell(Response::Done(Standing::default())).await;
    }

    async fn put(&mut self, client: u32, number: u64, reply: StoreReply) {
        let is_of_query = matches!(reply, StoreReply::Counts { .. });
        let piece = StoreAnswer { client, number, is_of_query, length: 1, reply }.written().into();
        let place = Place { number: 1, index: 0 };
        self.tell(Response::Put { to: Party::Clients, place, piece }).await;
    }

    async fn answer(&mut self, (_, _, client, number, _): &Came, reply: StoreReply) {
        self.put(*client, *number, reply).await;
        self.done().await;
    }

    async fn answer_query(&mut self, tag: u64, visible: u64) {
        self.put(COUNTER, tag, StoreReply::Counts { visible, in_flight: 0 }).await;
        self.done().await;
    }

    async fn refuse(&mut self, codes: &[u32]) {
        for code in codes {
            self.tell(Response::Refused(*code)).await;
        }
    }

    /// That nothing more is given for a while.
    async fn is_given_nothing(&mut self) {
        let more = tokio::time::timeout(Duration::from_millis(200), self.reading.next()).await;
        assert!(more.is_err(), "{more:?}");
    }
}

const LARGEST: u64 = 70;
const STREAM_ENDED: u32 = 49;

/// A store by a program, with these queues.
fn store_of(names: &[&str]) -> (Store, Vec<Arc<Queue>>, Program, Ends) {
    let (gateway, program) = UnixStream::pair().unwrap();
    let (tables, mut queues) = (Arc::<Queues>::default(), Vec::new());
    for (number, name) in (1..).zip(names) {
        let entry = QueueEntry::plain(StoreName(number), QueueName::parse(name).unwrap(), number);
        let queue = Arc::new(Queue::new(&entry));
        tables.said(0, &queue, &hobbychair_tables::book::Entry::Queue(entry), 1, 0);
        queues.push(queue);
    }
    let shared = Shared::new(tables, Arc::new(Clock::new()), None);
    let backend = Backend::Program(ProgramBackend::new(LARGEST, 0, None, shared.counters.clone()));
    let pipe = StartedPipe { pipe: Cq::of_node(gateway), backend, incoming: Cutter::default() };
    let (store, ends) = start(Shards::ONE, vec![pipe], shared);
    let (reading, writing) = program.into_split();
    (store, queues, Program { reading: Frames::new(reading, FRAME_LIMIT_BYTES), writing }, ends)
}

fn store() -> (Store, Arc<Queue>, Program, Ends) {
    let (store, mut queues, program, ends) = store_of(&["q.fifo"]);
    (store, queues.remove(0), program, ends)
}

fn send_by(id: &str, cause: Cause) -> Ask {
    let (group, dedup) = (GroupId::parse("g").unwrap(), DedupId::parse(id).unwrap());
    Ask::Send { group, dedup, envelope: Envelope::from("{\"sent\":0}\nbody".to_string()), cause }
}

fn send(id: &str) -> Ask {
    send_by(id, Cause::Client)
}

fn delete(sequence: u64) -> Ask {
    Ask::Delete { receipt: Receipt { incarnation: 1, sequence, ordinal: 1 }, by_client: false }
}

/// Asks beside all else.
fn ask(store: &Store, queue: &Arc<Queue>, ask: Ask) -> JoinHandle<Answered> {
    let (store, queue) = (store.clone(), queue.clone());
    tokio::spawn(async move { store.ask(&queue, ask).await })
}

/// Asks for these, one after the other.
async fn given(
    store: &Store,
    queue: &Arc<Queue>,
    program: &mut Program,
    asks: Vec<Ask>,
) -> (Vec<JoinHandle<Answered>>, Vec<Came>) {
    let (mut answers, mut came) = (Vec::new(), Vec::new());
    for one in asks {
        answers.push(ask(store, queue, one));
        came.push(program.request().await);
    }
    (answers, came)
}

fn count(store: &Store, queue: &Arc<Queue>) -> JoinHandle<Answered> {
    let (store, queue) = (store.clone(), queue.clone());
    tokio::spawn(async move { store.count(&queue).await })
}

const NO_QUEUE: StoreReply = StoreReply::Refused(1);
const DELETED: StoreReply = StoreReply::Deleted(true);

async fn sequence_of(answer: JoinHandle<Answered>) -> u64 {
    match answer.await.unwrap().unwrap() {
        Outcome::Sent { sequence, .. } => sequence,
        other => panic!("{other:?}"),
    }
}

async fn refusal_of(answer: JoinHandle<Answered>) -> SqsError {
    answer.await.unwrap().map(drop).unwrap_err()
}

/// The same requests in another stream.
fn in_stream(stream: u64, came: &[Came]) -> Vec<Came> {
    came.iter().cloned().map(|came| (stream, came.1, came.2, came.3, came.4)).collect()
}

#[tokio::test]
async fn requests_are_given_ahead_in_one_stream_and_numbers_begin_above_the_largest() {
    let (store, queue, mut program, _ends) = store();
    let (answers, came) = given(&store, &queue, &mut program, vec![send("a"), send("b")]).await;
    assert_eq!((came[0].0, came[1].0, came[0].3, came[1].3), (1, 1, LARGEST + 1, LARGEST + 2));
    assert!(came[0].2 != came[1].2 && came[0].1 <= came[1].1);
    program.answer(&came[0], StoreReply::Sent(1)).await;
    program.answer(&came[1], StoreReply::Sent(2)).await;
    for (place, answer) in (1..).zip(answers) {
        assert_eq!(sequence_of(answer).await, place);
    }
}

#[tokio::test]
async fn behind_want_of_room_all_is_given_again_at_once_in_order_with_its_first_clocks() {
    let (store, queue, mut program, _ends) = store();
    let asks = ["a", "b", "c", "d"].map(send).into();
    let (mut answers, came) = given(&store, &queue, &mut program, asks).await;
    program.answer(&came[0], StoreReply::Sent(1)).await;
    program.refuse(&[NO_ROOM]).await;
    assert_eq!(program.requests(2).await, in_stream(2, &came[2..]));
    // What was given in the stream that has ended comes back by and by, and nothing follows from it.
    program.refuse(&[STREAM_ENDED, STREAM_ENDED]).await;
    program.refuse(&[NO_ROOM]).await;
    assert_eq!(program.requests(1).await, in_stream(3, &came[3..]));
    program.refuse(&[STREAM_ENDED]).await;
    program.is_given_nothing().await;
    program.answer(&came[3], StoreReply::Sent(2)).await;
    assert_eq!(sequence_of(answers.pop().unwrap()).await, 2);
    assert!(matches!(refusal_of(answers.pop().unwrap()).await, SqsError::OverLimit(_)));
    assert!(matches!(refusal_of(answers.pop().unwrap()).await, SqsError::OverLimit(_)));
    assert_eq!(sequence_of(answers.pop().unwrap()).await, 1);
    assert_eq!(store.figures().lacked_room, 2);
    let next = ask(&store, &queue, send("e"));
    let came = program.request().await;
    assert_eq!(came.0, 3, "that stream goes on");
    program.answer(&came, StoreReply::Sent(3)).await;
    assert_eq!(sequence_of(next).await, 3);
}

#[tokio::test]
async fn what_adds_nothing_is_told_another_refusal() {
    let (store, queue, mut program, _ends) = store();
    let (mut answers, came) = given(&store, &queue, &mut program, vec![delete(1), send("a")]).await;
    program.refuse(&[NO_ROOM, STREAM_ENDED]).await;
    assert_eq!(program.requests(1).await, in_stream(2, &came[1..]));
    program.answer(&came[1], StoreReply::Sent(1)).await;
    assert_eq!(sequence_of(answers.pop().unwrap()).await, 1);
    assert!(matches!(refusal_of(answers.pop().unwrap()).await, SqsError::ServiceUnavailable(_)));
}

#[tokio::test]
async fn a_count_is_behind_a_request_of_its_own_and_is_asked_again_with_it() {
    let (store, queue, mut program, _ends) = store();
    let (answers, came) = given(&store, &queue, &mut program, vec![send("a")]).await;
    let counting = count(&store, &queue);
    let (moment, tag) = (program.request().await, program.query().await);
    program.refuse(&[NO_ROOM]).await;
    assert_eq!(program.requests(1).await, in_stream(2, std::slice::from_ref(&moment)));
    let again = program.query().await;
    assert!(again != tag);
    // The first query was answered too early.
    program.refuse(&[STREAM_ENDED]).await;
    program.answer_query(tag, 9).await;
    tokio::time::sleep(Duration::from_millis(100)).await;
    assert!(!counting.is_finished());
    program.answer(&moment, NO_QUEUE).await;
    program.answer_query(again, 1).await;
    assert!(matches!(counting.await.unwrap(), Ok(Outcome::Counts { visible: 1, in_flight: 0 })));
    assert!(matches!(refusal_of(answers.into_iter().next().unwrap()).await, SqsError::OverLimit(_)));
    assert_eq!(came.len(), 1);
}

#[tokio::test]
async fn a_count_whose_moment_has_no_room_is_refused_and_a_moment_is_seen_to_answer() {
    let (store, queue, mut program, _ends) = store();
    let counting = count(&store, &queue);
    let (_, tag) = (program.request().await, program.query().await);
    program.refuse(&[NO_ROOM]).await;
    program.answer_query(tag, 9).await;
    assert!(matches!(refusal_of(counting).await, SqsError::ServiceUnavailable(_)));
    let answering = tokio::spawn({
        let store = store.clone();
        async move { store.is_answering().await }
    });
    program.request().await;
    program.refuse(&[NO_ROOM]).await;
    assert!(answering.await.unwrap());
}

#[tokio::test]
async fn a_send_without_memory_is_given_up_and_all_else_waits_for_memory() {
    let (store, queue, mut program, _ends) = store();
    let asks = vec![send("a"), delete(1), send("b")];
    let (mut answers, came) = given(&store, &queue, &mut program, asks).await;
    program.refuse(&[NO_MEMORY, STREAM_ENDED, STREAM_ENDED]).await;
    assert_eq!(program.requests(2).await, in_stream(2, &came[1..]));
    let begun = Instant::now();
    program.refuse(&[NO_MEMORY, STREAM_ENDED]).await;
    // It is heard by then, and the next stream hasn't begun.
    tokio::time::sleep(MEMORY_PAUSE / 3).await;
    let next = ask(&store, &queue, send("c"));
    assert_eq!(program.requests(2).await, in_stream(3, &came[1..]));
    assert!(begun.elapsed() >= MEMORY_PAUSE);
    let last = program.request().await;
    assert_eq!((last.0, last.3), (3, came[2].3 + 1), "what is new comes behind it");
    for (came, reply) in [(&came[1], DELETED), (&came[2], StoreReply::Sent(1)), (&last, StoreReply::Sent(2))] {
        program.answer(came, reply).await;
    }
    assert_eq!((sequence_of(answers.pop().unwrap()).await, sequence_of(next).await), (1, 2));
    assert!(answers.pop().unwrap().await.unwrap().is_ok());
    assert!(matches!(refusal_of(answers.pop().unwrap()).await, SqsError::OverLimit(_)));
    assert_eq!(store.figures().lacked_room, 0);
}

#[tokio::test]
async fn a_count_without_memory_is_refused() {
    let (store, queue, mut program, _ends) = store();
    let counting = count(&store, &queue);
    let (moment, _) = (program.request().await, program.query().await);
    let (answers, came) = given(&store, &queue, &mut program, vec![send("a")]).await;
    program.answer(&moment, NO_QUEUE).await;
    program.refuse(&[NO_MEMORY]).await;
    program.answer(&came[0], StoreReply::Sent(1)).await;
    assert!(matches!(refusal_of(counting).await, SqsError::ServiceUnavailable(_)));
    assert_eq!(sequence_of(answers.into_iter().next().unwrap()).await, 1);
}

#[tokio::test]
async fn what_cannot_be_read_is_refused_alone() {
    let (store, queue, mut program, _ends) = store();
    let (mut answers, came) = given(&store, &queue, &mut program, vec![send("a"), send("b")]).await;
    program.tell(Response::Unread(93)).await;
    assert_eq!(program.requests(1).await, in_stream(2, &came[1..]));
    program.refuse(&[STREAM_ENDED]).await;
    program.answer(&came[1], StoreReply::Sent(1)).await;
    assert_eq!(sequence_of(answers.pop().unwrap()).await, 1);
    assert!(matches!(refusal_of(answers.pop().unwrap()).await, SqsError::InternalFailure(_)));
}

#[tokio::test]
async fn answers_that_wait_for_memory_are_asked_for() {
    let (store, queue, mut program, _ends) = store();
    let (mut answers, came) = given(&store, &queue, &mut program, vec![send("a"), send("b")]).await;
    for _ in 0..2 {
        program.tell(Response::Waiting(Party::Clients)).await;
        program.done().await;
    }
    assert!(matches!(program.next().await, HeardCommand::More));
    program.tell(Response::Waiting(Party::Clients)).await;
    program.done().await;
    assert!(matches!(program.next().await, HeardCommand::More));
    program.put(came[0].2, came[0].3, StoreReply::Sent(1)).await;
    program.answer(&came[1], StoreReply::Sent(2)).await;
    program.is_given_nothing().await;
    assert_eq!((sequence_of(answers.pop().unwrap()).await, sequence_of(answers.pop().unwrap()).await), (2, 1));
}

#[tokio::test]
async fn a_request_behind_answers_that_wait_is_refused_in_its_turn() {
    let (store, queue, mut program, _ends) = store();
    let (mut answers, came) = given(&store, &queue, &mut program, vec![send("a"), send("b"), send("c")]).await;
    program.tell(Response::Waiting(Party::Clients)).await;
    program.done().await;
    program.refuse(&[NO_ROOM, STREAM_ENDED]).await;
    assert_eq!(program.requests(1).await, in_stream(2, &came[2..]));
    assert!(answers.iter().all(|answer| !answer.is_finished()));
    program.put(came[0].2, came[0].3, StoreReply::Sent(1)).await;
    program.answer(&came[2], StoreReply::Sent(2)).await;
    assert_eq!(sequence_of(answers.pop().unwrap()).await, 2);
    assert!(matches!(refusal_of(answers.pop().unwrap()).await, SqsError::OverLimit(_)));
    assert_eq!(sequence_of(answers.pop().unwrap()).await, 1);
}

#[tokio::test]
async fn copies_behind_one_without_room_are_not_made() {
    let (store, queues, mut program, _ends) = store_of(&["q.fifo", "d.fifo"]);
    let (source, target) = (queues[0].clone(), queues[1].clone());
    let held = store.hold_for_move(&source).await.unwrap();
    let copy = |sequence: u64| {
        let origin = Origin { mark: source.mark.0, sequence };
        Copy { sequence, ask: send_by(&sequence.to_string(), Cause::Move(origin)) }
    };
    let copies = (1..=3).map(copy).collect();
    let moving = tokio::spawn({
        let target = target.clone();
        async move { held.move_to(&target, copies).await }
    });
    let came = program.requests(3).await;
    let (mut answers, behind) = (Vec::new(), ask(&store, &target, send("a")));
    program.answer(&came[0], StoreReply::Sent(1)).await;
    program.refuse(&[NO_ROOM, STREAM_ENDED]).await;
    // The third one isn't made, though there may be room for it by now: it would stand before the second one.
    let next = program.request().await;
    assert_eq!((next.0, &next.4[..1]), (2, &[2][..]));
    assert!(next.3 > came[2].3);
    program.answer(&next, StoreReply::Sent(2)).await;
    answers.extend(moving.await.unwrap());
    assert!(answers[0].is_ok() && answers.len() == 3);
    assert!(answers[1..].iter().all(|answer| matches!(answer, Err(SqsError::ServiceUnavailable(_)))));
    assert_eq!(sequence_of(behind).await, 2);
}

#[tokio::test]
async fn what_is_no_answer_ends_it() {
    for what in ["none", "of another", "to nothing", "for a server"] {
        let (store, queue, mut program, mut ends) = store();
        let (_answers, came) = given(&store, &queue, &mut program, vec![send("a")]).await;
        match what {
            "none" => program.done().await,
            "of another" => program.answer(&(1, 0, came[0].2, came[0].3 + 1, Bytes::new()), StoreReply::Sent(1)).await,
            "to nothing" => {
                program.answer(&came[0], StoreReply::Sent(1)).await;
                program.done().await;
            }
            _ => program.tell(Response::Waiting(Party::Master)).await,
        }
        let why = tokio::time::timeout(Duration::from_secs(10), ends.recv()).await.unwrap().unwrap();
        assert!(why.is_of_program(), "{what}: {why}");
    }
}

#[tokio::test]
async fn a_refusal_of_a_stream_that_nobody_ended_is_one_all_the_same() {
    let (store, queue, mut program, _ends) = store();
    let (answers, _) = given(&store, &queue, &mut program, vec![send("a")]).await;
    program.refuse(&[STREAM_ENDED]).await;
    assert!(matches!(refusal_of(answers.into_iter().next().unwrap()).await, SqsError::InternalFailure(_)));
}
