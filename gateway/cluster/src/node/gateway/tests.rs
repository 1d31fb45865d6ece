//! Rules of a gateway's life, without processes.

use std::future::pending;

use hobbychair_bytes::commands::Standing;
use tokio::sync::mpsc::{unbounded_channel, UnboundedReceiver};

use super::super::connections::Outlet;
use super::*;

const HEAD: Standing = Standing { count: 0, acked: 0, last: 0, is_head: true, is_acting: false, is_full: true };

/// A server that isn't the head.
const MIDDLE: Standing = Standing { is_head: false, ..HEAD };

const TIMED: FromNode = FromNode::Time { time: 7, since_start: 3 };

/// That was all of the store.
const ALL: FromNode = FromNode::Chunk { chunk: Bytes::new() };

/// The gateway may ask.
const OPEN: FromNode = FromNode::Stored { server: 1 };

/// A gateway's end of the pipe.
struct Far {
    frames: UnboundedReceiver<Bytes>,
    waiting: Arc<std::sync::atomic::AtomicUsize>,
    is_wanted: oneshot::Receiver<()>,
}

impl Far {
    /// All that it is told, which it reads by that.
    fn heard(&mut self) -> Vec<FromNode> {
        let mut heard = Vec::new();
        while let Ok(bytes) = self.frames.try_recv() {
            self.waiting.fetch_sub(bytes.len(), std::sync::atomic::Ordering::Relaxed);
            heard.push(FromNode::read(bytes.slice(4..)).unwrap());
        }
        heard
    }

    fn is_ended(&mut self) -> bool {
        matches!(self.is_wanted.try_recv(), Err(oneshot::error::TryRecvError::Closed))
    }
}

/// With a gateway that is kept, though nothing starts one.
fn kept() -> Beside {
    Beside { server: 1, kept: Kept::ForGood, ..Beside::default() }
}

/// The head tells the next chunk of a copy.
fn save(beside: &mut Beside, chunk: Bytes, streams: &mut Streams) {
    beside.saved(HEAD.count, chunk, &HEAD, streams);
}

fn begin(beside: &mut Beside, streams: &mut Streams, life: u64) -> Far {
    let ((frames, told), waiting) = (unbounded_channel(), Arc::default());
    let (wanted, is_wanted) = oneshot::channel();
    let outlet = Outlet::to_another(CLIENTS, frames, Arc::clone(&waiting), 64 << 20, process::as_gateway_hears);
    beside.happen(Happening::Begins { life, outlet, wanted }, streams);
    Far { frames: told, waiting, is_wanted }
}

fn chunk(text: &'static str) -> Bytes {
    Bytes::from_static(text.as_bytes())
}

/// A gateway that has all of the store.
fn begun(streams: &mut Streams) -> (Beside, Far) {
    let mut beside = kept();
    let mut far = begin(&mut beside, streams, 1);
    assert!(beside.next_save(&HEAD));
    save(&mut beside, Bytes::new(), streams);
    assert_eq!(far.heard(), [ALL, OPEN]);
    (beside, far)
}

fn ask(beside: &mut Beside, streams: &mut Streams, stream: u64, text: &'static str) {
    let told = FromGateway::Request { stream, clock: 5, request: chunk(text) };
    let life = beside.life.as_ref().map_or(0, |life| life.number);
    beside.happen(Happening::Told { life, told }, streams);
}

fn next(streams: &mut Streams) -> Option<(u64, Work)> {
    streams.next(&HEAD).map(|turn| (turn.client, turn.work))
}

fn stamped(text: &'static str) -> Work {
    Work::Request { request: chunk(text), clock: Some(5) }
}

#[test]
fn chunks_are_asked_for_one_by_one_as_long_as_few_wait() {
    let (mut beside, mut streams) = (kept(), Streams::default());
    assert!(!beside.next_save(&HEAD), "there is no gateway");
    let mut far = begin(&mut beside, &mut streams, 1);
    assert!(beside.next_save(&HEAD) && !beside.next_save(&HEAD));
    save(&mut beside, chunk("one"), &mut streams);
    assert!(beside.next_save(&HEAD) && !beside.next_save(&HEAD));
    let long = Bytes::from(vec![0; MOST_CHUNK_BYTES]);
    save(&mut beside, long.clone(), &mut streams);
    assert!(!beside.next_save(&HEAD), "too much waits");
    assert_eq!(far.heard(), [FromNode::Chunk { chunk: chunk("one") }, FromNode::Chunk { chunk: long }]);
    assert!(beside.next_save(&HEAD));
    save(&mut beside, Bytes::new(), &mut streams);
    assert_eq!(far.heard(), [ALL, OPEN]);
    assert!(!beside.next_save(&HEAD), "it has all of the store");
}

#[test]
fn requests_of_an_earlier_gateway_are_thrown_away_and_its_copy_is_asked_for_to_its_end() {
    let mut streams = Streams::default();
    let (mut beside, mut first) = begun(&mut streams);
    for text in ["a", "b"] {
        ask(&mut beside, &mut streams, 1, text);
    }
    let (client, given) = next(&mut streams).unwrap();
    assert_eq!(given, stamped("a"));
    let mut second = begin(&mut beside, &mut streams, 2);
    assert!(first.is_ended());
    streams.answered(client, true, None);
    assert_eq!(next(&mut streams), None, "what waits isn't given");
    assert!(beside.next_save(&HEAD));
    save(&mut beside, chunk("one"), &mut streams);
    let mut third = begin(&mut beside, &mut streams, 3);
    for rest in [chunk("two"), Bytes::new()] {
        assert!(beside.next_save(&HEAD), "nobody waits for what nobody is told");
        save(&mut beside, rest, &mut streams);
    }
    assert_eq!(second.heard(), [FromNode::Chunk { chunk: chunk("one") }]);
    assert_eq!(third.heard(), []);
    assert!(beside.next_save(&HEAD), "another copy begins");
    save(&mut beside, Bytes::new(), &mut streams);
    assert_eq!(third.heard(), [ALL, OPEN]);
    let late = FromGateway::Request { stream: 9, clock: 5, request: chunk("c") };
    beside.happen(Happening::Told { life: 1, told: late }, &mut streams);
    beside.happen(Happening::Ended { life: 1 }, &mut streams);
    assert_eq!(next(&mut streams), None, "nobody hears the first one any more");
    ask(&mut beside, &mut streams, 1, "d");
    assert_eq!(next(&mut streams).unwrap().1, stamped("d"));
}

#[test]
fn a_copy_for_which_there_is_no_memory_begins_again() {
    let (mut beside, mut streams) = (kept(), Streams::default());
    let mut far = begin(&mut beside, &mut streams, 1);
    assert!(beside.next_save(&HEAD));
    beside.not_saved(20, &mut streams);
    assert!(!beside.next_save(&HEAD), "not at once");
    beside.tick(&TIMED, &mut streams);
    assert!(beside.next_save(&HEAD) && !far.is_ended());
    save(&mut beside, chunk("one"), &mut streams);
    far.heard();
    assert!(beside.next_save(&HEAD));
    beside.not_saved(20, &mut streams);
    assert!(far.is_ended(), "it has a part of a store that nobody has any more");
    beside.tick(&TIMED, &mut streams);
    assert!(!beside.next_save(&HEAD));
}

#[test]
fn a_refusal_is_told_once_and_nothing_behind_it_is_given() {
    let mut streams = Streams::default();
    let (mut beside, mut far) = begun(&mut streams);
    for text in ["a", "b"] {
        ask(&mut beside, &mut streams, 4, text);
    }
    let (client, _) = next(&mut streams).unwrap();
    streams.answered(client, true, Some(20));
    ask(&mut beside, &mut streams, 4, "c");
    assert_eq!(next(&mut streams), None);
    assert_eq!(far.heard(), [FromNode::Refused { stream: 4, code: 20, request: None }]);
    ask(&mut beside, &mut streams, 5, "a");
    assert_eq!(next(&mut streams).unwrap().1, stamped("a"));
}

#[test]
fn who_asks_before_it_has_the_store_is_ended() {
    let (mut beside, mut streams) = (kept(), Streams::default());
    let mut far = begin(&mut beside, &mut streams, 1);
    ask(&mut beside, &mut streams, 1, "a");
    assert!(far.is_ended() && next(&mut streams).is_none());
}

/// The gateway says how far it is, and whether it serves.
fn say(beside: &mut Beside, streams: &mut Streams, far: u64, serves: bool) {
    let life = beside.life.as_ref().map_or(0, |life| life.number);
    beside.happen(Happening::Told { life, told: FromGateway::Alive { time: 7, far, serves } }, streams);
}

fn phase(beside: &Beside) -> Option<GatewayPhase> {
    beside.said().phase
}

#[test]
fn who_says_nothing_is_ended_once_it_has_the_store() {
    let mut streams = Streams::default();
    let (mut beside, mut far) = begun(&mut streams);
    let tick = |beside: &mut Beside, streams: &mut Streams| {
        if let Some(life) = &mut beside.life {
            life.timed = Instant::now().checked_sub(TIME).unwrap();
        }
        beside.tick(&TIMED, streams);
    };
    let room = FromNode::Room { memory: 7, is_disk_short: false };
    beside.know_room(room.clone());
    assert_eq!(phase(&beside), Some(GatewayPhase::Begins));
    for round in 1..2 * MOST_UNANSWERED {
        tick(&mut beside, &mut streams);
        assert_eq!(far.heard(), [TIMED, room.clone()]);
        if round % (MOST_UNANSWERED - 1) == 0 {
            say(&mut beside, &mut streams, 0, round > MOST_UNANSWERED);
            let wanted = if round > MOST_UNANSWERED { GatewayPhase::Acts } else { GatewayPhase::Begins };
            assert_eq!(phase(&beside), Some(wanted), "it acts once it serves");
        }
    }
    say(&mut beside, &mut streams, 0, true);
    for _ in 0..MOST_UNANSWERED {
        assert!(!far.is_ended());
        tick(&mut beside, &mut streams);
    }
    assert!(far.is_ended());
    assert_eq!(phase(&beside), Some(GatewayPhase::Begins));
}

// ---- what beats say

/// The process of the life that was begun last ends.
fn ends(beside: &mut Beside, streams: &mut Streams, life: u64) {
    beside.happen(Happening::Ended { life }, streams);
    beside.happen(Happening::Gone { life: Some(life), why: format!("{life} ended") }, streams);
}

fn times(beside: &Beside) -> u32 {
    beside.said().failing.map_or(0, |failing| failing.times)
}

#[test]
fn gateways_that_end_before_they_have_served_for_a_while_are_counted_and_others_begin_a_row_anew() {
    let mut streams = Streams::default();
    let (mut beside, _far) = begun(&mut streams);
    ends(&mut beside, &mut streams, 1);
    beside.happen(Happening::Gone { life: None, why: "no memory".into() }, &mut streams);
    assert_eq!(beside.said().failing, Some(Failing { times: 2, why: "no memory".into() }));
    // One that serves for a moment alone.
    let _far = begin(&mut beside, &mut streams, 2);
    assert!(beside.next_save(&HEAD));
    save(&mut beside, Bytes::new(), &mut streams);
    say(&mut beside, &mut streams, 0, true);
    beside.tick(&TIMED, &mut streams);
    assert_eq!((times(&beside), phase(&beside)), (2, Some(GatewayPhase::Acts)));
    ends(&mut beside, &mut streams, 2);
    assert_eq!(beside.said().failing, Some(Failing { times: 3, why: "2 ended".into() }));
    let _far = begin(&mut beside, &mut streams, 3);
    assert!(beside.next_save(&HEAD));
    save(&mut beside, Bytes::new(), &mut streams);
    say(&mut beside, &mut streams, 0, true);
    beside.life.as_mut().unwrap().serves = Instant::now().checked_sub(SETTLED);
    beside.tick(&TIMED, &mut streams);
    assert_eq!(times(&beside), 0);
    ends(&mut beside, &mut streams, 3);
    assert_eq!(times(&beside), 0, "it has served");
}

#[test]
fn gateways_that_the_node_gives_up_are_counted_where_that_is_their_fault() {
    // The server has entries more than the copy.
    let mut streams = Streams::default();
    let (mut beside, mut far) = told_ahead(&mut streams);
    beside.open(&at(6, HEAD), &mut streams);
    assert!(far.is_ended());
    ends(&mut beside, &mut streams, 1);
    assert_eq!(times(&beside), 0);
    // It asks too early.
    let _far = begin(&mut beside, &mut streams, 2);
    ask(&mut beside, &mut streams, 1, "a");
    ends(&mut beside, &mut streams, 2);
    assert_eq!(times(&beside), 1);
}

#[test]
fn how_far_a_gateway_is_changes_with_all_that_it_does_until_it_asks() {
    let mut streams = Streams::default();
    let mut beside = kept();
    assert_eq!(beside.said().reading, None, "there is none");
    let _far = begin(&mut beside, &mut streams, 1);
    let mut known = beside.said().reading.unwrap();
    let mut moves = |beside: &Beside| {
        let reading = beside.said().reading.unwrap();
        std::mem::replace(&mut known, reading) != reading
    };
    assert!(!moves(&beside) && beside.next_save(&HEAD) && !moves(&beside));
    save(&mut beside, chunk("one"), &mut streams);
    assert!(moves(&beside));
    for (far, is_news) in [(3, true), (3, false), (4, true)] {
        say(&mut beside, &mut streams, far, false);
        assert_eq!(moves(&beside), is_news);
    }
    // A copy of the journal goes to its end ahead of the gateway's.
    beside.saved(5, chunk("of the journal"), &HEAD, &mut streams);
    assert!(moves(&beside));
    assert!(beside.next_save(&HEAD));
    save(&mut beside, Bytes::new(), &mut streams);
    assert!(moves(&beside) && !moves(&beside));
    ask(&mut beside, &mut streams, 1, "a");
    assert_eq!(beside.said().reading, None, "from now on it waits for the chain");
}

// ---- ahead of the head

/// A server stands there, with so many entries.
fn at(count: u64, standing: Standing) -> Standing {
    Standing { count, ..standing }
}

/// A gateway that has a copy of five entries, of a server that isn't the head.
fn told_ahead(streams: &mut Streams) -> (Beside, Far) {
    let mut beside = Beside { kept: Kept::Ahead, ..kept() };
    let mut far = begin(&mut beside, streams, 1);
    for chunk in [chunk("one"), Bytes::new()] {
        assert!(beside.next_save(&MIDDLE));
        beside.saved(5, chunk, &at(5, MIDDLE), streams);
    }
    assert_eq!(far.heard(), [FromNode::Chunk { chunk: chunk("one") }, ALL]);
    (beside, far)
}

#[test]
fn one_that_was_told_ahead_may_ask_once_the_server_is_the_head() {
    let mut streams = Streams::default();
    let (mut beside, mut far) = told_ahead(&mut streams);
    assert!(!beside.next_save(&MIDDLE) && beside.said() == GatewayBeat::default());
    beside.open(&at(5, MIDDLE), &mut streams);
    assert_eq!(far.heard(), []);
    beside.open(&at(5, HEAD), &mut streams);
    assert_eq!(far.heard(), [OPEN]);
    beside.open(&at(6, HEAD), &mut streams);
    ask(&mut beside, &mut streams, 1, "a");
    assert!(far.heard().is_empty() && next(&mut streams).is_some() && !far.is_ended());
}

#[test]
fn one_that_was_told_ahead_may_ask_nothing_before() {
    let mut streams = Streams::default();
    let (mut beside, mut far) = told_ahead(&mut streams);
    ask(&mut beside, &mut streams, 1, "a");
    assert!(far.is_ended() && next(&mut streams).is_none());
}

#[test]
fn a_copy_that_was_told_ahead_counts_only_as_long_as_the_server_has_no_entry_more() {
    for standing in [at(6, HEAD), at(6, MIDDLE)] {
        let mut streams = Streams::default();
        let (mut beside, mut far) = told_ahead(&mut streams);
        beside.open(&standing, &mut streams);
        assert!(far.is_ended() && far.heard().is_empty());
        // The next one is told another copy.
        let mut far = begin(&mut beside, &mut streams, 2);
        assert!(beside.next_save(&at(6, HEAD)));
        beside.saved(6, Bytes::new(), &at(6, HEAD), &mut streams);
        assert_eq!(far.heard(), [ALL, OPEN]);
    }
}

#[test]
fn an_entry_that_comes_while_a_copy_is_told_ahead_ends_its_gateway_and_the_copy_goes_to_its_end() {
    let mut streams = Streams::default();
    let mut beside = Beside { kept: Kept::Ahead, ..kept() };
    let mut far = begin(&mut beside, &mut streams, 1);
    assert!(beside.next_save(&MIDDLE));
    beside.saved(5, chunk("one"), &at(5, MIDDLE), &mut streams);
    assert!(beside.next_save(&MIDDLE) && !far.is_ended());
    beside.saved(5, chunk("two"), &at(6, MIDDLE), &mut streams);
    assert!(far.is_ended());
    let mut far = begin(&mut beside, &mut streams, 2);
    assert!(beside.next_save(&HEAD), "the copy of the first one is asked for to its end");
    beside.saved(5, Bytes::new(), &at(6, HEAD), &mut streams);
    assert!(beside.next_save(&HEAD));
    beside.saved(6, Bytes::new(), &at(6, HEAD), &mut streams);
    assert_eq!(far.heard(), [ALL, OPEN]);
}

#[test]
fn a_copy_that_is_begun_at_the_head_counts_whatever_others_ask_meanwhile() {
    let mut streams = Streams::default();
    let mut beside = kept();
    let mut far = begin(&mut beside, &mut streams, 1);
    assert!(beside.next_save(&at(5, HEAD)));
    beside.saved(5, Bytes::new(), &at(6, HEAD), &mut streams);
    assert_eq!(far.heard(), [ALL, OPEN]);
}

#[test]
fn one_that_nobody_wants_any_more_doesnt_begin() {
    let (mut beside, mut streams) = (Beside::default(), Streams::default());
    let mut far = begin(&mut beside, &mut streams, 1);
    assert!(far.is_ended() && !beside.needs_copies());
}

// ---- what it hears of other servers

fn listen(beside: &mut Beside, server: u32, connection: u64) -> UnboundedReceiver<Frame> {
    beside.listening.entry(server).or_insert_with(|| tokio::spawn(pending()));
    let (asks, asked) = unbounded_channel();
    hear(beside, server, connection, PeerEvent::Begins(asks));
    asked
}

fn hear(beside: &mut Beside, server: u32, connection: u64, heard: PeerEvent) {
    beside.happen(Happening::Heard { server, connection, heard }, &mut Streams::default());
}

fn stand(beside: &mut Beside, server: u32, connection: u64, is_acting: bool) {
    hear(beside, server, connection, PeerEvent::Frame(Frame::Standing { server, is_head: false, is_acting }));
}

fn answer(beside: &mut Beside, server: u32, connection: u64, text: &'static str) {
    hear(beside, server, connection, PeerEvent::Frame(Frame::Answer { message: chunk(text) }));
}

fn answered(text: &'static str) -> FromNode {
    FromNode::Answer { message: chunk(text) }
}

#[tokio::test]
async fn it_is_told_that_another_server_acts_behind_the_answers_that_came_before() {
    let mut streams = Streams::default();
    let (mut beside, mut far) = begun(&mut streams);
    let _asked = [listen(&mut beside, 2, 12), listen(&mut beside, 3, 13)];
    stand(&mut beside, 3, 13, true);
    answer(&mut beside, 3, 13, "a");
    stand(&mut beside, 2, 12, false);
    stand(&mut beside, 3, 13, true);
    stand(&mut beside, 2, 12, true);
    answer(&mut beside, 2, 12, "b");
    answer(&mut beside, 3, 13, "late");
    assert_eq!(far.heard(), [FromNode::Acts, answered("a"), FromNode::Acts, answered("b"), answered("late")]);
}

#[tokio::test]
async fn it_is_told_so_again_behind_a_broken_connection() {
    let mut streams = Streams::default();
    let (mut beside, mut far) = begun(&mut streams);
    let _asked = listen(&mut beside, 3, 13);
    stand(&mut beside, 3, 13, true);
    hear(&mut beside, 3, 13, PeerEvent::Ended);
    let _asked = listen(&mut beside, 3, 14);
    answer(&mut beside, 3, 13, "of a connection that is no more");
    stand(&mut beside, 3, 14, true);
    assert_eq!(far.heard(), [FromNode::Acts, FromNode::Acts]);
}

#[tokio::test]
async fn nothing_of_servers_is_told_before_the_store() {
    let (mut beside, mut streams) = (kept(), Streams::default());
    let mut far = begin(&mut beside, &mut streams, 1);
    let _asked = listen(&mut beside, 3, 13);
    stand(&mut beside, 3, 13, true);
    answer(&mut beside, 3, 13, "of an earlier one");
    assert_eq!(far.heard(), []);
    assert_eq!(beside.acting, Some(3));
}

#[tokio::test]
async fn a_query_goes_to_the_server_that_acts_or_is_lost() {
    let mut streams = Streams::default();
    let (mut beside, _far) = begun(&mut streams);
    let query = |beside: &mut Beside, streams: &mut Streams, text| {
        let told = FromGateway::Query { query: chunk(text) };
        beside.happen(Happening::Told { life: 1, told }, streams);
    };
    query(&mut beside, &mut streams, "nobody acts");
    let mut asked = listen(&mut beside, 3, 13);
    stand(&mut beside, 3, 13, true);
    query(&mut beside, &mut streams, "a");
    query(&mut beside, &mut streams, "b");
    let frame = |stream, text| Frame::Query { stream, query: chunk(text) };
    assert_eq!([asked.try_recv().unwrap(), asked.try_recv().unwrap()], [frame(1, "a"), frame(2, "b")]);
    assert_eq!(beside.next_query(), None);
    stand(&mut beside, 3, 13, false);
    query(&mut beside, &mut streams, "nobody acts");
    beside.stands(1, false, true);
    query(&mut beside, &mut streams, "c");
    assert_eq!(beside.next_query(), Some(chunk("c")));
    assert!(asked.try_recv().is_err() && beside.next_query().is_none());
}

#[test]
fn each_gateway_is_told_first_that_the_chain_was_recovered() {
    let paused = FromNode::Paused { last: 5, begun: 9 };
    let (mut beside, mut streams) = (Beside { paused: Some(paused.clone()), ..kept() }, Streams::default());
    for life in [1, 2] {
        let mut far = begin(&mut beside, &mut streams, life);
        assert_eq!(far.heard(), std::slice::from_ref(&paused));
    }
}

#[test]
fn a_copy_is_needed_until_it_is_told_to_its_end() {
    let (mut beside, mut streams) = (kept(), Streams::default());
    assert!(!beside.needs_copies());
    let _far = begin(&mut beside, &mut streams, 1);
    assert!(beside.needs_copies() && beside.next_save(&HEAD));
    save(&mut beside, chunk("one"), &mut streams);
    beside.happen(Happening::Ended { life: 1 }, &mut streams);
    assert!(beside.needs_copies(), "it is asked for to its end");
    assert!(beside.next_save(&HEAD));
    save(&mut beside, Bytes::new(), &mut streams);
    assert!(!beside.needs_copies());
    let (beside, _far) = begun(&mut streams);
    assert!(!beside.needs_copies());
}
