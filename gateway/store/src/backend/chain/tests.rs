use std::sync::Arc;
use std::time::Duration;

use bytes::Bytes;
use hobbychair_bytes::parts::{Cutter, Frames};
use hobbychair_sqs::envelope::Envelope;
use hobbychair_sqs::errors::SqsError;
use hobbychair_sqs::texts::{DedupId, GroupId, QueueName};
use hobbychair_tables::ask::{Ask, Cause, Outcome, TableChange};
use hobbychair_tables::book::QueueEntry;
use hobbychair_tables::clock::Clock;
use hobbychair_tables::queue::Queue;
use hobbychair_tables::queues::Queues;
use hobbychair_tables::shards::Shards;
use hobbychair_tables::store_name::StoreName;
use tokio::io::AsyncWriteExt;
use tokio::net::unix::{OwnedReadHalf, OwnedWriteHalf};
use tokio::net::UnixStream;

use super::*;
use crate::backend::{Backend, StartedPipe, COUNTER};
use crate::cq::Cq;
use crate::jobs::Answer as Answered;
use crate::store::{wanted_until, Store};
use crate::task::start;

/// The other end of the gateway's pipe.
struct Node {
    reading: Frames<OwnedReadHalf>,
    writing: OwnedWriteHalf,
}

/// A request that came: its stream, its clock, the client, the number, and the ask.
type Came = (u64, u64, u32, u64, Bytes);

impl Node {
    async fn next(&mut self) -> FromGateway {
        let frame = tokio::time::timeout(Duration::from_secs(10), self.reading.next()).await.unwrap().unwrap();
        FromGateway::read(frame).unwrap()
    }

    async fn request(&mut self) -> Came {
        let FromGateway::Request { stream, clock, request } = self.next().await else { panic!() };
        let number = |from: usize, to: usize| {
            let mut bytes = [0; 8];
            bytes[..to - from].copy_from_slice(&request[from..to]);
            u64::from_le_bytes(bytes)
        };
        (stream, clock, number(0, 4) as u32, number(4, 12), request.slice(12..))
    }

    async fn requests(&mut self, count: usize) -> Vec<Came> {
        let mut all = Vec::new();
        for _ in 0..count {
            all.push(self.request().await);
        }
        all
    }

    async fn tell(&mut self, told: FromNode) {
        self.writing.write_all(&told.bytes()).await.unwrap();
    }

    async fn answer(&mut self, (_, _, client, number, _): &Came, length: u64, reply: StoreReply) {
        self.answer_to(*client, *number, length, reply).await;
    }

    async fn answer_to(&mut self, client: u32, number: u64, length: u64, reply: StoreReply) {
        let is_of_query = matches!(reply, StoreReply::Counts { .. });
        let message = StoreAnswer { client, number, is_of_query, length, reply }.written();
        self.tell(FromNode::Answer { message: message.into() }).await;
    }

    /// That nothing more is asked for a while.
    async fn is_asked_nothing(&mut self) {
        let more = tokio::time::timeout(Duration::from_millis(200), self.reading.next()).await;
        assert!(more.is_err(), "{more:?}");
    }
}

const SERVER: u32 = 5;

/// A store over a chain, whose only queue is this one.
fn chain() -> (Store, Arc<Queue>, Node) {
    let (gateway, node) = UnixStream::pair().unwrap();
    let queues = Arc::<Queues>::default();
    let entry = QueueEntry::plain(StoreName(1), QueueName::parse("q.fifo").unwrap(), 1);
    let queue = Arc::new(Queue::new(&entry));
    queues.said(0, &queue, &hobbychair_tables::book::Entry::Queue(entry), 1, 0);
    let shared = Shared::new(queues, Arc::new(Clock::new()), None);
    let backend = Backend::Chain(ChainBackend::new(3 * STEP + 70, SERVER, shared.clone()));
    let pipe = StartedPipe { pipe: Cq::of_node(gateway), backend, incoming: Cutter::default() };
    let (store, _) = start(Shards::ONE, vec![pipe], shared);
    let (reading, writing) = node.into_split();
    (store, queue, Node { reading: Frames::new(reading, FRAME_LIMIT_BYTES), writing })
}

fn send(id: &str) -> Ask {
    let (group, dedup) = (GroupId::parse("g").unwrap(), DedupId::parse(id).unwrap());
    Ask::Send { group, dedup, envelope: Envelope::from("{\"sent\":0}\nbody".to_string()), cause: Cause::Client }
}

/// Asks beside all else.
fn ask(store: &Store, queue: &Arc<Queue>, ask: Ask) -> tokio::task::JoinHandle<Answered> {
    let (store, queue) = (store.clone(), queue.clone());
    tokio::spawn(async move { store.ask(&queue, ask).await })
}

const FIRST: StoreReply = StoreReply::Sent(1);
const SECOND: StoreReply = StoreReply::Sent(2);
const NOTHING: StoreReply = StoreReply::Received(Vec::new());

fn place_of(answer: Result<Answered, tokio::task::JoinError>) -> u64 {
    match answer.unwrap().unwrap() {
        Outcome::Sent { sequence, .. } => sequence,
        other => panic!("{other:?}"),
    }
}

/// Two sends that were asked one after the other.
async fn two_sends(
    store: &Store,
    queue: &Arc<Queue>,
    node: &mut Node,
) -> ([tokio::task::JoinHandle<Answered>; 2], Vec<Came>) {
    let one = ask(store, queue, send("a"));
    let mut came = node.requests(1).await;
    let other = ask(store, queue, send("b"));
    came.push(node.request().await);
    ([one, other], came)
}

#[tokio::test]
async fn numbers_begin_above_the_largest_and_answers_are_settled_in_the_order_of_the_asks() {
    let (store, queue, mut node) = chain();
    let ([one, other], came) = two_sends(&store, &queue, &mut node).await;
    let first = 4 * STEP + u64::from(SERVER);
    assert_eq!((came[0].0, came[0].3, came[1].3), (1, first, first + STEP));
    assert!(came[0].2 != came[1].2 && came[0].1 <= came[1].1);
    node.answer(&came[1], 2, SECOND).await;
    tokio::time::sleep(Duration::from_millis(100)).await;
    assert!(!other.is_finished());
    node.answer(&came[0], 1, FIRST).await;
    assert_eq!((place_of(one.await), place_of(other.await)), (1, 2));
}

#[tokio::test]
async fn an_answer_to_another_gateway_is_none() {
    let (store, queue, mut node) = chain();
    let (one, came) = (ask(&store, &queue, send("a")), node.request().await);
    // The next head's gateway asks by the same client, and begins above the same numbers.
    let others = number_before(3 * STEP + 70, SERVER + 1) + STEP;
    node.answer_to(came.2, others, 1, SECOND).await;
    // Nor is it what another client is told, or a query.
    node.answer_to(came.2 + 1, came.3, 1, SECOND).await;
    node.answer_to(came.2, came.3, 1, StoreReply::Counts { visible: 0, in_flight: 0 }).await;
    tokio::time::sleep(Duration::from_millis(100)).await;
    assert!(!one.is_finished());
    node.answer(&came, 1, FIRST).await;
    assert_eq!(place_of(one.await), 1);
}

#[tokio::test]
async fn behind_a_refusal_all_is_asked_again_in_order_with_its_first_clocks() {
    let (store, queue, mut node) = chain();
    let ([one, other], came) = two_sends(&store, &queue, &mut node).await;
    node.tell(FromNode::Refused { stream: 1, code: 20, request: None }).await;
    node.tell(FromNode::Refused { stream: 1, code: 20, request: None }).await;
    // It is heard by then, and the next stream hasn't begun.
    tokio::time::sleep(MEMORY_PAUSE / 3).await;
    let third = ask(&store, &queue, send("c"));
    let again = node.requests(3).await;
    let expected: Vec<_> = came.iter().cloned().map(|came| (2, came.1, came.2, came.3, came.4)).collect();
    assert_eq!(again[..2], expected);
    assert_eq!((again[2].0, again[2].3), (2, came[1].3 + STEP), "what is new comes behind it");
    node.answer(&again[0], 1, FIRST).await;
    node.answer(&again[1], 2, SECOND).await;
    node.answer(&again[2], 3, StoreReply::Sent(3)).await;
    assert_eq!((place_of(one.await), place_of(other.await), place_of(third.await)), (1, 2, 3));
    node.is_asked_nothing().await;
}

#[tokio::test]
async fn a_send_without_memory_is_given_up_and_what_comes_behind_it_is_asked() {
    let (store, queue, mut node) = chain();
    let ([one, other], came) = two_sends(&store, &queue, &mut node).await;
    let request = Some(RequestName { client: came[0].2, number: came[0].3 });
    node.tell(FromNode::Refused { stream: 1, code: 20, request }).await;
    assert!(matches!(one.await.unwrap(), Err(SqsError::OverLimit(_))));
    let again = node.request().await;
    assert_eq!((again.0, again.3), (2, came[1].3));
    // This one was asked before, and somebody may have it.
    let request = Some(RequestName { client: again.2, number: again.3 });
    node.tell(FromNode::Refused { stream: 2, code: 20, request }).await;
    let again = node.request().await;
    assert_eq!((again.0, again.3), (3, came[1].3));
    node.answer(&again, 1, FIRST).await;
    assert_eq!(place_of(other.await), 1);
}

#[tokio::test]
async fn when_another_server_acts_all_is_asked_again_that_has_no_answer() {
    let (store, queue, mut node) = chain();
    let ([one, other], came) = two_sends(&store, &queue, &mut node).await;
    node.answer(&came[1], 2, SECOND).await;
    node.tell(FromNode::Acts).await;
    let (_, clock, client, number, asked) = came[0].clone();
    assert_eq!(node.request().await, (2, clock, client, number, asked));
    node.is_asked_nothing().await;
    // Both servers answer.
    node.answer(&came[0], 1, FIRST).await;
    node.answer(&came[0], 1, FIRST).await;
    node.answer(&came[1], 2, SECOND).await;
    assert_eq!((place_of(one.await), place_of(other.await)), (1, 2));
    let third = ask(&store, &queue, send("c"));
    let came = node.request().await;
    node.answer(&came, 3, StoreReply::Sent(3)).await;
    assert_eq!(place_of(third.await), 3);
}

#[tokio::test]
async fn a_count_is_asked_behind_a_request_and_an_old_one_is_none() {
    let (store, queue, mut node) = chain();
    let counting = tokio::spawn({
        let (store, queue) = (store.clone(), queue.clone());
        async move { store.count(&queue).await }
    });
    let came = node.request().await;
    assert_eq!(came.2, COUNTER);
    node.is_asked_nothing().await;
    node.answer(&came, 5, NOTHING).await;
    let query = node.next().await;
    let FromGateway::Query { query: asked } = query.clone() else { panic!("{query:?}") };
    let tag = u64::from_le_bytes(asked[4..12].try_into().unwrap());
    let counts = |visible| StoreReply::Counts { visible, in_flight: 0 };
    // Of a server that was detected: it has fewer entries than the request's place.
    node.answer_to(COUNTER, tag, 4, counts(9)).await;
    assert_eq!(node.next().await, query, "it is asked again");
    node.answer_to(COUNTER, tag, 5, counts(1)).await;
    assert!(matches!(counting.await.unwrap(), Ok(Outcome::Counts { visible: 1, in_flight: 0 })));
}

#[tokio::test]
async fn what_the_tables_say_waits_for_a_request_of_its_own() {
    let (store, _, mut node) = chain();
    let waiting = tokio::spawn(async move { store.wait_for(0).await });
    let came = node.request().await;
    tokio::time::sleep(Duration::from_millis(100)).await;
    assert!(!waiting.is_finished());
    node.answer(&came, 5, NOTHING).await;
    assert!(waiting.await.unwrap());
}

#[tokio::test]
async fn what_nobody_wants_any_more_is_not_asked() {
    let (store, queue, mut node) = chain();
    let now = store.clock().now();
    let late = wanted_until(Some(now - 1), store.ask(&queue, send("a"))).await;
    assert!(matches!(late, Err(SqsError::ServiceUnavailable(_))), "{late:?}");
    let (one, came) = (ask(&store, &queue, send("a")), node.request().await);
    node.answer(&came, 1, FIRST).await;
    assert_eq!(place_of(one.await), 1);
    let wanted = tokio::spawn(async move { wanted_until(Some(now + 60_000), store.ask(&queue, send("b"))).await });
    let came = node.request().await;
    node.answer(&came, 2, SECOND).await;
    assert_eq!(place_of(wanted.await), 2);
}

#[tokio::test]
async fn the_time_is_that_of_the_chain_and_is_heard() {
    let (store, _, mut node) = chain();
    let since_start = rustix::time::clock_gettime(rustix::time::ClockId::Monotonic).tv_sec as u64 * 1000;
    let time = store.clock().now() + 3_600_000;
    node.tell(FromNode::Time { time, since_start }).await;
    assert_eq!(node.next().await, FromGateway::Alive { time, far: 0, serves: false });
    assert!(store.clock().now() >= time);
    store.says_that_it_serves();
    node.tell(FromNode::Time { time, since_start }).await;
    assert_eq!(node.next().await, FromGateway::Alive { time, far: 0, serves: true });
}

#[tokio::test]
async fn what_the_tables_answer_waits_for_a_request_too() {
    let (store, queue, mut node) = chain();
    let changing = tokio::spawn({
        let (store, queue) = (store.clone(), queue.clone());
        // It changes nothing.
        async move { store.change(&queue, TableChange::Untag(Vec::new())).await }
    });
    let came = node.request().await;
    assert_eq!(came.2, COUNTER);
    tokio::time::sleep(Duration::from_millis(100)).await;
    assert!(!changing.is_finished());
    node.answer(&came, 5, NOTHING).await;
    assert!(matches!(changing.await.unwrap(), Ok(Outcome::Done)));
}
