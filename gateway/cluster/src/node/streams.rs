//! What clients ask for, in the order of their streams.
//!
//! A stream ends at its first refusal: nothing that comes behind it is taken, so that requests never come in another order
//! than they were sent. Requests are given to the server ahead. All of them are of one stream there, until it refuses one:
//! then it refuses all that was given by then, and a next stream begins. What others than the refused one's client had
//! given is given again in that, in its order, and nothing of theirs comes before it.

use std::collections::{BTreeMap, VecDeque};

use bytes::Bytes;
use hobbychair_bytes::commands::{Standing, NOT_HEAD, STREAM_ENDED};
use hobbychair_bytes::values::RequestName;
use tokio::sync::oneshot;

use super::connections::Outlet;
use crate::wire::Frame;

/// So many entries may be on their way to the tail before requests wait at the head's door.
const MOST_ENTRIES: u64 = 4096;

/// So many of their bytes.
const MOST_BYTES: usize = 64 << 20;

/// One thing that a client asks for, as its bytes are written.
#[derive(Clone, Debug, PartialEq, Eq)]
pub enum Work {
    /// A request, and the moment that the client's clock showed, where that counts.
    Request {
        request: Bytes,
        clock: Option<u64>,
    },
    Query(Bytes),
}

impl Work {
    /// A request of a client whose clock doesn't count.
    pub fn request(request: Bytes) -> Work {
        Work::Request { request, clock: None }
    }

    fn name(&self) -> Option<RequestName> {
        match self {
            Work::Request { request, .. } => RequestName::of(request),
            Work::Query(_) => None,
        }
    }
}

/// What the server is given next.
#[derive(Clone, Debug, PartialEq, Eq)]
pub struct Turn {
    /// Whose it is.
    pub client: u64,
    /// The server's stream of a request.
    pub stream: u64,
    pub work: Work,
}

/// What the server was given, and hasn't answered.
struct Given {
    work: Work,
    /// The client's stream, and the server's.
    stream: u64,
    server_stream: u64,
}

struct Client {
    outlet: Outlet,
    /// All streams up to this one have ended.
    ended: u64,
    stream: u64,
    work: VecDeque<Work>,
    given: VecDeque<Given>,
    /// What was given and has to be given again, once nothing else is at the server.
    again: VecDeque<Work>,
    /// It waits for its turn.
    is_in_turn: bool,
    done: Option<oneshot::Sender<()>>,
}

impl Client {
    fn new(outlet: Outlet) -> Client {
        let (work, given, again) = (VecDeque::new(), VecDeque::new(), VecDeque::new());
        Client { outlet, ended: 0, stream: 0, work, given, again, is_in_turn: false, done: None }
    }

    /// Whether the next thing may be given. A query has nothing before it or behind it at the server, since one that is refused
    /// ends its stream, and the server doesn't know that.
    fn may_go_on(&self, server_stream: u64) -> bool {
        let Some(next) = self.work.front() else { return false };
        match self.given.back() {
            None => true,
            Some(last) => {
                let are_requests = [&last.work, next].iter().all(|work| matches!(work, Work::Request { .. }));
                are_requests && last.server_stream == server_stream && self.again.is_empty()
            }
        }
    }
}

/// All clients.
#[derive(Default)]
pub struct Streams {
    clients: BTreeMap<u64, Client>,
    /// The clients that have work for the server.
    turns: VecDeque<u64>,
    /// So many streams of the server have ended.
    refusals: u64,
    door: Door,
}

/// Bounds what is on its way from the head to the tail.
#[derive(Default)]
struct Door {
    /// The sizes of the requests that were given, the last ones; those that were answered are counted by the server.
    sizes: VecDeque<usize>,
    bytes: usize,
    /// So many requests were given and not taken yet.
    given: u64,
    on_their_way: u64,
}

impl Door {
    fn is_open(&self) -> bool {
        self.on_their_way + self.given < MOST_ENTRIES && self.bytes < MOST_BYTES
    }

    fn give(&mut self, size: usize) {
        self.given += 1;
        self.sizes.push_back(size);
        self.bytes += size;
    }

    fn took(&mut self) {
        self.given = self.given.saturating_sub(1);
    }

    /// The first request that was given and not taken is none that is on its way.
    fn refused(&mut self) {
        let first = self.sizes.len().checked_sub(self.given as usize);
        if let Some(size) = first.and_then(|first| self.sizes.remove(first)) {
            self.bytes -= size;
        }
        self.took();
    }

    fn stand(&mut self, standing: &Standing) {
        self.on_their_way = standing.count.saturating_sub(standing.acked);
        while self.sizes.len() as u64 > self.on_their_way + self.given {
            self.bytes -= self.sizes.pop_front().unwrap_or(0);
        }
    }
}

impl Streams {
    pub fn len(&self) -> usize {
        self.clients.len()
    }

    pub fn enter(&mut self, client: u64, outlet: Outlet) {
        self.clients.insert(client, Client::new(outlet));
    }

    pub fn leave(&mut self, client: u64) {
        self.clients.remove(&client);
    }

    /// A client asks for something. It asks for nothing more until that is done.
    pub fn ask(&mut self, client: u64, stream: u64, work: VecDeque<Work>, done: oneshot::Sender<()>) {
        let Some(one) = self.clients.get_mut(&client) else { return };
        if stream <= one.ended {
            // It was told of the end. Whoever waits for this to be done goes on.
            let _ = done.send(());
            return;
        }
        one.again.clear();
        (one.stream, one.work, one.done) = (stream, work, Some(done));
        self.go_on(client);
    }

    /// A client asks for one thing more, which may ask ahead. What waits of an earlier stream is thrown away: all that is open
    /// is asked for again. Says how much waits then.
    pub fn add(&mut self, client: u64, stream: u64, work: Work) -> usize {
        let Some(one) = self.clients.get_mut(&client) else { return 0 };
        if stream <= one.ended || stream < one.stream {
            return one.work.len();
        }
        if stream > one.stream {
            one.stream = stream;
            one.work.clear();
            one.again.clear();
        }
        one.work.push_back(work);
        let waiting = one.work.len();
        self.go_on(client);
        waiting
    }

    /// Whether that client is there, and reads.
    pub fn has(&self, client: u64) -> bool {
        self.clients.contains_key(&client)
    }

    /// The next thing for the server.
    pub fn next(&mut self, standing: &Standing) -> Option<Turn> {
        while let Some(client) = self.turns.front().copied() {
            let stream = self.server_stream();
            let Some(one) = self.clients.get_mut(&client) else {
                self.turns.pop_front();
                continue;
            };
            let is_request = matches!(one.work.front(), Some(Work::Request { .. }));
            if is_request && standing.is_head && !self.door.is_open() {
                return None;
            }
            self.turns.pop_front();
            one.is_in_turn = false;
            if !one.may_go_on(stream) {
                continue;
            }
            if is_request && !standing.is_head {
                self.refuse(client, NOT_HEAD, None);
                continue;
            }
            let Some(work) = one.work.pop_front() else { continue };
            one.given.push_back(Given { work: work.clone(), stream: one.stream, server_stream: stream });
            if let Work::Request { request, .. } = &work {
                self.door.give(request.len());
            }
            self.go_on(client);
            return Some(Turn { client, stream, work });
        }
        None
    }

    /// The server's stream of requests that are given now.
    fn server_stream(&self) -> u64 {
        self.refusals + 1
    }

    /// The server has taken what it was given, or refused it with a number.
    pub fn answered(&mut self, client: u64, was_request: bool, refused: Option<u32>) {
        if was_request {
            match refused {
                Some(_) => self.door.refused(),
                None => self.door.took(),
            }
            self.refusals += u64::from(refused.is_some_and(|code| code != STREAM_ENDED));
        }
        let Some(one) = self.clients.get_mut(&client) else { return };
        let Some(given) = one.given.pop_front() else { return };
        // What is of an earlier stream of the client's is asked for again by itself.
        let is_current = given.stream == one.stream && given.stream > one.ended;
        match refused {
            Some(STREAM_ENDED) if is_current => one.again.push_back(given.work),
            Some(code) if is_current && code != STREAM_ENDED => self.refuse(client, code, given.work.name()),
            _ => {}
        }
        self.go_on(client);
    }

    fn go_on(&mut self, client: u64) {
        let stream = self.server_stream();
        let Some(one) = self.clients.get_mut(&client) else { return };
        if one.given.is_empty() {
            while let Some(work) = one.again.pop_back() {
                one.work.push_front(work);
            }
        }
        if one.may_go_on(stream) {
            if !std::mem::replace(&mut one.is_in_turn, true) {
                self.turns.push_back(client);
            }
        } else if one.given.is_empty() {
            if let Some(done) = one.done.take() {
                let _ = done.send(());
            }
        }
    }

    fn refuse(&mut self, client: u64, code: u32, request: Option<RequestName>) {
        let Some(one) = self.clients.get_mut(&client) else { return };
        if one.ended == one.stream {
            return;
        }
        one.ended = one.stream;
        one.work.clear();
        one.again.clear();
        let stream = one.stream;
        if let Some(done) = one.done.take() {
            let _ = done.send(());
        }
        self.send(client, &Frame::Refused { stream, code, request });
    }

    /// Where the server stands now.
    pub fn stand(&mut self, standing: &Standing) {
        self.door.stand(standing);
    }

    /// Tells all clients.
    pub fn tell_all(&mut self, frame: &Frame) {
        for client in self.clients.keys().copied().collect::<Vec<_>>() {
            self.send(client, frame);
        }
    }

    /// Tells those that want the answers for a client number.
    pub fn tell_of(&mut self, number: u32, frame: &Frame) {
        let wants = |(client, one): (&u64, &Client)| one.outlet.wants.contains(&number).then_some(*client);
        for client in self.clients.iter().filter_map(wants).collect::<Vec<_>>() {
            self.send(client, frame);
        }
    }

    pub fn send(&mut self, client: u64, frame: &Frame) {
        let is_there = self.clients.get(&client).map_or(true, |one| one.outlet.send(frame));
        if !is_there {
            tracing::warn!(client, "a client that doesn't read loses its connection");
            self.leave(client);
        }
    }
}

#[cfg(test)]
mod tests {
    use super::*;
    use tokio::sync::mpsc::UnboundedReceiver;

    const HEAD: Standing = Standing { count: 0, acked: 0, last: 0, is_head: true, is_acting: false, is_full: true };

    fn requests(texts: &[&'static str]) -> VecDeque<Work> {
        texts.iter().map(|text| Work::request(Bytes::from_static(text.as_bytes()))).collect()
    }

    fn ask(streams: &mut Streams, client: u64, stream: u64, texts: &[&'static str]) -> oneshot::Receiver<()> {
        let (done, is_done) = oneshot::channel();
        streams.ask(client, stream, requests(texts), done);
        is_done
    }

    fn next(streams: &mut Streams, standing: &Standing) -> Option<(u64, String)> {
        streams.next(standing).map(|Turn { client, work, .. }| match work {
            Work::Request { request: bytes, .. } | Work::Query(bytes) => {
                (client, String::from_utf8(bytes.to_vec()).unwrap())
            }
        })
    }

    /// All that may be given now, each with the server's stream.
    fn all(streams: &mut Streams) -> Vec<(u64, u64, String)> {
        let mut all = Vec::new();
        loop {
            let stream = streams.server_stream();
            let Some((client, text)) = next(streams, &HEAD) else { return all };
            all.push((client, stream, text));
        }
    }

    fn given(expected: &[(u64, u64, &str)]) -> Vec<(u64, u64, String)> {
        expected.iter().map(|(client, stream, text)| (*client, *stream, (*text).into())).collect()
    }

    fn told(frames: &mut UnboundedReceiver<Bytes>) -> Vec<Frame> {
        std::iter::from_fn(|| frames.try_recv().ok()).map(|bytes| Frame::read(bytes.slice(4..)).unwrap()).collect()
    }

    fn streams(clients: u64) -> (Streams, Vec<UnboundedReceiver<Bytes>>) {
        let mut streams = Streams::default();
        let mut all = Vec::new();
        for client in 1..=clients {
            let (outlet, frames) = Outlet::for_tests(0..=9);
            streams.enter(client, outlet);
            all.push(frames);
        }
        (streams, all)
    }

    #[test]
    fn streams_are_given_ahead_and_take_turns() {
        let (mut streams, _frames) = streams(2);
        let mut done = ask(&mut streams, 1, 1, &["a", "b"]);
        ask(&mut streams, 2, 1, &["x"]);
        assert_eq!(all(&mut streams), given(&[(1, 1, "a"), (2, 1, "x"), (1, 1, "b")]));
        streams.answered(1, true, None);
        streams.answered(2, true, None);
        assert!(done.try_recv().is_err());
        streams.answered(1, true, None);
        assert!(done.try_recv().is_ok());
    }

    #[test]
    fn nothing_behind_a_refusal_is_given() {
        let (mut streams, mut frames) = streams(1);
        ask(&mut streams, 1, 5, &["a", "b"]);
        all(&mut streams);
        streams.answered(1, true, Some(20));
        assert_eq!(told(&mut frames[0]), [Frame::Refused { stream: 5, code: 20, request: None }]);
        let mut done = ask(&mut streams, 1, 5, &["c"]);
        assert!(done.try_recv().is_ok());
        ask(&mut streams, 1, 6, &["a"]);
        assert_eq!(all(&mut streams), [], "the one behind the refused one isn't answered yet");
        streams.answered(1, true, Some(STREAM_ENDED));
        assert_eq!(all(&mut streams), given(&[(1, 2, "a")]));
        assert_eq!(told(&mut frames[0]), []);
    }

    #[test]
    fn what_was_refused_with_another_clients_is_given_again_in_its_order() {
        let (mut streams, mut frames) = streams(2);
        ask(&mut streams, 1, 1, &["a", "b"]);
        for text in ["x", "y"] {
            streams.add(2, 1, Work::request(Bytes::from_static(text.as_bytes())));
        }
        assert_eq!(all(&mut streams), given(&[(1, 1, "a"), (2, 1, "x"), (1, 1, "b"), (2, 1, "y")]));
        streams.answered(1, true, Some(20));
        streams.add(2, 1, Work::request(Bytes::from_static(b"z")));
        assert_eq!(all(&mut streams), []);
        for client in [2, 1] {
            streams.answered(client, true, Some(STREAM_ENDED));
            assert_eq!(all(&mut streams), []);
        }
        streams.answered(2, true, Some(STREAM_ENDED));
        assert_eq!(all(&mut streams), given(&[(2, 2, "x"), (2, 2, "y"), (2, 2, "z")]));
        assert_eq!(told(&mut frames[0]), [Frame::Refused { stream: 1, code: 20, request: None }]);
        assert_eq!(told(&mut frames[1]), []);
        assert!(streams.door.given == 3 && streams.door.sizes.len() == 3);
    }

    #[test]
    fn a_query_is_alone_at_the_server() {
        let (mut streams, _frames) = streams(1);
        let (done, _is_done) = oneshot::channel();
        let query = Work::Query(Bytes::from_static(b"q"));
        let work = [requests(&["a"]), [query].into(), requests(&["b"])].into_iter().flatten().collect();
        streams.ask(1, 1, work, done);
        assert_eq!(next(&mut streams, &HEAD), Some((1, "a".into())));
        assert_eq!(next(&mut streams, &HEAD), None);
        streams.answered(1, true, None);
        assert_eq!(next(&mut streams, &HEAD), Some((1, "q".into())));
        assert_eq!(next(&mut streams, &HEAD), None);
        streams.answered(1, false, None);
        assert_eq!(next(&mut streams, &HEAD), Some((1, "b".into())));
    }

    fn add(streams: &mut Streams, stream: u64, text: &'static str) -> usize {
        streams.add(1, stream, Work::request(Bytes::from_static(text.as_bytes())))
    }

    #[test]
    fn who_asks_ahead_is_given_in_order_and_nothing_behind_a_refusal() {
        let (mut streams, mut frames) = streams(1);
        assert_eq!(["a", "b", "c"].map(|text| add(&mut streams, 1, text)), [1, 2, 3]);
        assert_eq!(all(&mut streams), given(&[(1, 1, "a"), (1, 1, "b"), (1, 1, "c")]));
        streams.answered(1, true, None);
        streams.answered(1, true, Some(20));
        assert_eq!(told(&mut frames[0]), [Frame::Refused { stream: 1, code: 20, request: None }]);
        add(&mut streams, 1, "d");
        add(&mut streams, 2, "b");
        assert_eq!(all(&mut streams), []);
        streams.answered(1, true, Some(STREAM_ENDED));
        assert_eq!(all(&mut streams), given(&[(1, 2, "b")]));
        assert_eq!(told(&mut frames[0]), []);
    }

    #[test]
    fn a_new_stream_takes_the_place_of_what_waits_of_an_earlier_one() {
        let (mut streams, _frames) = streams(1);
        for text in ["a", "b"] {
            add(&mut streams, 1, text);
        }
        assert_eq!(next(&mut streams, &HEAD), Some((1, "a".into())));
        for text in ["a", "b", "c"] {
            add(&mut streams, 2, text);
        }
        add(&mut streams, 1, "b");
        assert_eq!(all(&mut streams), given(&[(1, 1, "a"), (1, 1, "b"), (1, 1, "c")]));
        for _ in 0..4 {
            streams.answered(1, true, None);
        }
        assert_eq!(all(&mut streams), []);
    }

    #[test]
    fn who_is_no_head_is_given_no_requests() {
        let (mut streams, mut frames) = streams(1);
        ask(&mut streams, 1, 1, &["a"]);
        assert_eq!(next(&mut streams, &Standing { is_head: false, ..HEAD }), None);
        assert_eq!(told(&mut frames[0]), [Frame::Refused { stream: 1, code: NOT_HEAD, request: None }]);
    }

    #[test]
    fn requests_wait_at_the_door_while_too_many_are_on_their_way() {
        let (mut streams, _frames) = streams(1);
        let standing = Standing { count: MOST_ENTRIES, acked: 0, ..HEAD };
        streams.stand(&standing);
        ask(&mut streams, 1, 1, &["a"]);
        assert_eq!(next(&mut streams, &standing), None);
        let standing = Standing { acked: 1, ..standing };
        streams.stand(&standing);
        assert_eq!(next(&mut streams, &standing), Some((1, "a".into())));
    }

    #[test]
    fn what_was_refused_is_on_its_way_no_more() {
        let (mut streams, _frames) = streams(1);
        for stream in 1..=20 {
            let (done, _is_done) = oneshot::channel();
            let large = Bytes::from(vec![b'a'; MOST_BYTES / 16]);
            streams.ask(1, stream, [Work::request(large)].into(), done);
            assert!(next(&mut streams, &HEAD).is_some(), "the one of stream {stream}");
            streams.answered(1, true, Some(20));
        }
        assert!(streams.door.sizes.is_empty() && streams.door.bytes == 0 && streams.door.given == 0);
    }

    #[test]
    fn answers_go_to_those_who_want_them_and_a_client_that_has_left_holds_nobody_up() {
        let (mut streams, mut frames) = streams(2);
        let message = Bytes::from_static(b"m");
        streams.tell_of(9, &Frame::Answer { message: message.clone() });
        streams.tell_of(10, &Frame::Answer { message: message.clone() });
        assert_eq!(told(&mut frames[0]), [Frame::Answer { message }]);
        ask(&mut streams, 1, 1, &["a"]);
        ask(&mut streams, 2, 1, &["x"]);
        streams.leave(1);
        assert_eq!(next(&mut streams, &HEAD), Some((2, "x".into())));
        drop(frames.remove(1));
        streams.tell_of(3, &Frame::Standing { server: 1, is_head: true, is_acting: true });
        assert_eq!(streams.len(), 0);
    }
}
