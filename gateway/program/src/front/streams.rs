//! Calls that are passed on over one connection to the gateway that acts.

use std::collections::{BTreeMap, HashMap};
use std::io;
use std::sync::{Arc, Mutex, MutexGuard, PoisonError};
use std::time::Duration;

use bytes::{Bytes, BytesMut};
use hobbychair_bytes::parts::Frames;
use hobbychair_cluster::acting::Acting;
use hobbychair_cluster::transport::{Connector, Stream as Carrier};
use hyper::client::conn::handshake;
use hyper::header::{HeaderValue, CONNECTION, UPGRADE};
use hyper::http::response;
use hyper::service::Service;
use hyper::{Body, Request, Response, StatusCode, Uri};
use tokio::io::{AsyncRead, AsyncWrite};
use tokio::sync::mpsc::{unbounded_channel, UnboundedReceiver, UnboundedSender};
use tokio::sync::{oneshot, Notify};
use tokio::time::{interval, timeout, Instant, MissedTickBehavior};

use super::headers::{time_of, Asked, Said};
use super::passing::{Failed, LONGEST_ANSWER_BYTES};
use super::times::Times;
use crate::calls::{self, FromGateway, FRAME_LIMIT_BYTES, PROTOCOL};

/// A connection of calls has so long to begin.
const BEGINNING: Duration = Duration::from_secs(2);

/// A gateway says the time twice a second. One of which nothing comes for so long isn't heard any more.
const QUIET: Duration = Duration::from_secs(2);

/// So often the gateway is told that this front is there.
const ALIVE: Duration = Duration::from_millis(500);

/// A gateway that takes nothing for so long isn't heard any more.
const WRITING: Duration = Duration::from_secs(2);

/// A gateway whose system takes nothing for so long isn't asked any more: it isn't reached, though it may be heard.
const UNACKNOWLEDGED: Duration = Duration::from_secs(2);

/// So much is written at once, and one call more. So much room is kept for it, too.
const MOST_WRITTEN_BYTES: usize = 256 << 10;

/// A gateway that has no connections of calls is asked for one again so much later.
const WITHOUT: Duration = Duration::from_secs(10);

/// The connection of calls to the gateway that acts, if it has one.
pub struct Streams {
    connector: Connector,
    times: Arc<Times>,
    current: Mutex<CurrentStream>,
    /// Held by who opens one.
    opening: tokio::sync::Mutex<()>,
}

#[derive(Clone, Default)]
enum CurrentStream {
    #[default]
    Unknown,
    Open(Acting, Arc<Stream>),
    /// That gateway had none at this moment.
    Without(Acting, Instant),
    /// None could be opened, as was known at this moment.
    Failed(Acting, Instant),
}

impl CurrentStream {
    /// What is known of a gateway, if anything is.
    fn of(&self, acting: Acting) -> Option<Option<Arc<Stream>>> {
        match self {
            CurrentStream::Open(known, stream) if *known == acting && !stream.is_over() => Some(Some(stream.clone())),
            CurrentStream::Without(known, since) if *known == acting && since.elapsed() < WITHOUT => Some(None),
            _ => None,
        }
    }

    /// Whether it has been found out since then that none can be opened.
    fn has_failed(&self, acting: Acting, since: Instant) -> bool {
        matches!(self, CurrentStream::Failed(known, moment) if *known == acting && *moment >= since)
    }
}

impl Streams {
    pub fn new(connector: Connector, times: Arc<Times>) -> Streams {
        Streams { connector, times, current: Mutex::default(), opening: tokio::sync::Mutex::default() }
    }

    /// The connection of calls to that gateway, which is opened where there is none. Nothing where the gateway knows of no calls.
    pub async fn to(&self, acting: Acting) -> Result<Option<Arc<Stream>>, Failed> {
        if let Some(known) = lock(&self.current).of(acting) {
            return Ok(known);
        }
        let arrived = Instant::now();
        let _opening = self.opening.lock().await;
        let known = lock(&self.current).clone();
        if let Some(known) = known.of(acting) {
            return Ok(known);
        }
        if known.has_failed(acting, arrived) {
            return Err(Failed::Unopened);
        }
        let opened = timeout(BEGINNING, self.open(acting)).await.unwrap_or(Err(Failed::Silent));
        let current = match &opened {
            Ok(Some(stream)) => CurrentStream::Open(acting, stream.clone()),
            Ok(None) => CurrentStream::Without(acting, Instant::now()),
            Err(_) => CurrentStream::Failed(acting, Instant::now()),
        };
        if let CurrentStream::Open(_, before) = std::mem::replace(&mut *lock(&self.current), current) {
            before.end();
        }
        opened
    }

    async fn open(&self, acting: Acting) -> Result<Option<Arc<Stream>>, Failed> {
        let uri = Uri::builder().scheme("http").authority(acting.address.to_string()).path_and_query("/");
        let uri = uri.build().map_err(|_| Failed::Unwritable)?;
        let mut connector = self.connector.clone();
        std::future::poll_fn(|context| connector.poll_ready(context)).await.map_err(Failed::NoConnection)?;
        let carrier = connector.call(uri).await.map_err(Failed::NoConnection)?;
        if let Err(error) = carrier.end_where_unacknowledged(UNACKNOWLEDGED) {
            tracing::warn!(%error, "a cut of one way will be noticed late");
        }
        let (mut sender, connection) = handshake(carrier).await?;
        tokio::spawn(connection);
        let response = sender.send_request(asking_for_calls()).await?;
        let time = time_of(&response);
        time.into_iter().for_each(|time| self.times.learn(acting.server, time, Instant::now()));
        match response.status() {
            StatusCode::SWITCHING_PROTOCOLS | StatusCode::SERVICE_UNAVAILABLE if time.is_none() => {
                return Err(Failed::NoTime)
            }
            StatusCode::SWITCHING_PROTOCOLS => {}
            _ => return Ok(None),
        }
        let parts = hyper::upgrade::on(response).await?.downcast::<Carrier>().map_err(|_| Failed::Unwritable)?;
        let stream = Arc::new(Stream::begin_now());
        let frames = (parts.read_buf, self.times.clone());
        tokio::spawn(stream.clone().keep(acting.server, parts.io, frames));
        Ok(Some(stream))
    }
}

fn asking_for_calls() -> Request<Body> {
    let mut request = Request::new(Body::empty());
    let headers = request.headers_mut();
    headers.insert(UPGRADE, HeaderValue::from_static(PROTOCOL));
    headers.insert(CONNECTION, HeaderValue::from_static("upgrade"));
    request
}

fn lock<T>(mutex: &Mutex<T>) -> MutexGuard<'_, T> {
    mutex.lock().unwrap_or_else(PoisonError::into_inner)
}

/// A connection of calls.
pub struct Stream {
    state: Mutex<State>,
    /// When something of the gateway came last.
    heard: Mutex<Instant>,
    /// There is something to write, or the end has come.
    wake: Notify,
}

#[derive(Default)]
struct State {
    /// The number of the last call.
    last: u64,
    waiting: HashMap<u64, Waiting>,
    /// Calls that aren't written yet, by their numbers, in whose order they are. A body is copied only when it is written: all
    /// that wait count once, as they came.
    calls: BTreeMap<u64, Unwritten>,
    /// What else is to be written behind what was taken from here before.
    out: Vec<u8>,
    is_over: bool,
}

struct Unwritten {
    asked: Arc<Asked>,
    said: Said,
}

impl State {
    /// The next calls that go with one write.
    fn next_calls(&mut self) -> Vec<(u64, Unwritten)> {
        let (mut taken, mut bytes) = (Vec::new(), 0);
        while bytes < MOST_WRITTEN_BYTES {
            let Some(next) = self.calls.pop_first() else { break };
            bytes += next.1.asked.bytes_passed_on();
            taken.push(next);
        }
        taken
    }
}

/// Who waits for the answer to a call, or for the rest of it.
enum Waiting {
    Answer(oneshot::Sender<StreamAnswer>),
    Rest(UnboundedSender<Piece>),
}

/// A piece of an answer behind its first one.
struct Piece {
    bytes: Bytes,
    is_last: bool,
}

struct StreamAnswer {
    head: response::Parts,
    first: Bytes,
    rest: Option<UnboundedReceiver<Piece>>,
}

/// A call that was asked. Where this is dropped before its answer is whole, the gateway is told that nobody waits for it, if it has
/// heard of the call.
struct Begun<'s> {
    stream: &'s Stream,
    number: u64,
}

impl Drop for Begun<'_> {
    fn drop(&mut self) {
        let mut state = lock(&self.stream.state);
        let waited = state.waiting.remove(&self.number).is_some();
        let unwritten = state.calls.remove(&self.number);
        if waited && unwritten.is_none() {
            calls::append_gone(&mut state.out, self.number);
            drop(state);
            self.stream.wake.notify_one();
        }
    }
}

impl Stream {
    fn begin_now() -> Stream {
        Stream { state: Mutex::default(), heard: Mutex::new(Instant::now()), wake: Notify::new() }
    }

    /// When the gateway was heard last.
    pub fn heard(&self) -> Instant {
        *lock(&self.heard)
    }

    /// The answer to a request, of which this try is said. There has to be room for what was read of it.
    pub async fn ask(
        &self,
        asked: &Arc<Asked>,
        said: Said,
        has_room: impl Fn(usize) -> bool,
    ) -> Result<Response<Bytes>, Failed> {
        let (sender, answered) = oneshot::channel();
        let begun = self.begin(Unwritten { asked: asked.clone(), said }, sender).ok_or(Failed::Ended)?;
        let StreamAnswer { head, first, rest } = answered.await.map_err(|_| Failed::Ended)?;
        if !has_room(first.len()) {
            return Err(Failed::NoRoom);
        }
        let body = match rest {
            Some(rest) => whole(&first, rest, has_room).await?,
            None => first,
        };
        drop(begun);
        Ok(Response::from_parts(head, body))
    }

    fn begin(&self, call: Unwritten, sender: oneshot::Sender<StreamAnswer>) -> Option<Begun<'_>> {
        let mut state = lock(&self.state);
        if state.is_over {
            return None;
        }
        state.last += 1;
        let number = state.last;
        state.waiting.insert(number, Waiting::Answer(sender));
        state.calls.insert(number, call);
        drop(state);
        self.wake.notify_one();
        Some(Begun { stream: self, number })
    }

    fn is_over(&self) -> bool {
        lock(&self.state).is_over
    }

    /// Nothing is asked any more, and nothing is answered.
    fn end(&self) {
        let mut state = lock(&self.state);
        state.is_over = true;
        let (waiting, calls) = (std::mem::take(&mut state.waiting), std::mem::take(&mut state.calls));
        drop(state);
        // Those who wait hear of it by this.
        drop((waiting, calls));
        self.wake.notify_one();
    }

    /// Carries calls and answers until the connection breaks, or nobody wants it any more.
    async fn keep(self: Arc<Stream>, server: u32, carrier: Carrier, (read, times): (Bytes, Arc<Times>)) {
        let (reading, writing) = tokio::io::split(carrier);
        let frames = Frames::behind(read, reading, FRAME_LIMIT_BYTES);
        let ended = tokio::select! {
            ended = self.read(frames, server, &times) => ended,
            ended = self.write(writing) => ended,
        };
        self.end();
        if let Err(error) = ended {
            tracing::debug!(server, "a connection of calls ended: {error}");
        }
    }

    async fn read(&self, mut frames: Frames<impl AsyncRead + Unpin>, server: u32, times: &Times) -> io::Result<()> {
        loop {
            let frame = timeout(QUIET, frames.next()).await??;
            *lock(&self.heard) = Instant::now();
            match FromGateway::read(frame).map_err(|malformed| io::Error::new(io::ErrorKind::InvalidData, malformed))? {
                FromGateway::Time { time: Some(time) } => times.learn(server, time, Instant::now()),
                // Its store is gone, so that it knows of no time any more.
                FromGateway::Time { time: None } => return Ok(()),
                FromGateway::Answer { number, status, headers, piece, is_whole } => {
                    let (mut head, ()) = Response::new(()).into_parts();
                    (head.status, head.headers) = (status, headers);
                    self.take_answer(number, head, piece, is_whole);
                }
                FromGateway::Piece { number, piece, is_last } => {
                    self.take_piece(number, Piece { bytes: piece, is_last })
                }
            }
        }
    }

    /// What nobody waits for any more is thrown away.
    fn take_answer(&self, number: u64, head: response::Parts, first: Bytes, is_whole: bool) {
        let mut state = lock(&self.state);
        let Some(Waiting::Answer(sender)) = state.waiting.remove(&number) else { return };
        let rest = (!is_whole).then(|| {
            let (sender, rest) = unbounded_channel();
            state.waiting.insert(number, Waiting::Rest(sender));
            rest
        });
        drop(state);
        let _ = sender.send(StreamAnswer { head, first, rest });
    }

    fn take_piece(&self, number: u64, piece: Piece) {
        let mut state = lock(&self.state);
        if let Some(Waiting::Rest(sender)) = state.waiting.get(&number) {
            let is_last = piece.is_last;
            let _ = sender.send(piece);
            if is_last {
                state.waiting.remove(&number);
            }
        }
    }

    /// Appends what is to be written next. Says whether nothing is to be written any more.
    fn take_out(&self, out: &mut Vec<u8>) -> bool {
        let mut state = lock(&self.state);
        out.append(&mut state.out);
        let (calls, is_over) = (state.next_calls(), state.is_over);
        drop(state);
        for (number, Unwritten { asked, said }) in calls {
            calls::append_call(out, number, asked.passed_on(&said));
        }
        is_over
    }

    async fn write(&self, mut writing: impl AsyncWrite + Unpin) -> io::Result<()> {
        let (mut alive, mut out) = (interval(ALIVE), Vec::new());
        alive.set_missed_tick_behavior(MissedTickBehavior::Delay);
        loop {
            tokio::select! {
                biased;
                _ = alive.tick() => calls::append_alive(&mut lock(&self.state).out),
                () = self.wake.notified() => {
                    // What is asked now goes with the same write.
                    tokio::task::yield_now().await;
                }
            }
            loop {
                if self.take_out(&mut out) {
                    return Ok(());
                }
                if out.is_empty() {
                    break;
                }
                calls::write(&mut writing, &out, WRITING).await?;
                out.clear();
                out.shrink_to(MOST_WRITTEN_BYTES);
            }
        }
    }
}

/// The body of an answer that comes in pieces.
async fn whole(
    first: &Bytes,
    mut rest: UnboundedReceiver<Piece>,
    has_room: impl Fn(usize) -> bool,
) -> Result<Bytes, Failed> {
    let mut whole = BytesMut::from(&first[..]);
    loop {
        let Piece { bytes, is_last } = rest.recv().await.ok_or(Failed::Ended)?;
        whole.extend_from_slice(&bytes);
        if whole.len() > LONGEST_ANSWER_BYTES {
            return Err(Failed::TooLong);
        }
        if !has_room(whole.len()) {
            return Err(Failed::NoRoom);
        }
        if is_last {
            return Ok(whole.freeze());
        }
    }
}

#[cfg(test)]
mod tests;
