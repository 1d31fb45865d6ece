//! The calls of a front: many requests at once over one connection.

use std::collections::{HashMap, HashSet, VecDeque};
use std::io;
use std::net::SocketAddr;
use std::sync::{Arc, Mutex, MutexGuard, PoisonError};
use std::time::Duration;

use bytes::Bytes;
use hobbychair_bytes::parts::Frames;
use hobbychair_tables::budget::Share;
use hyper::body::HttpBody;
use hyper::header::{HeaderValue, CONNECTION, UPGRADE};
use hyper::{Body, Method, Request, Response, StatusCode, Version};
use tokio::io::{AsyncRead, AsyncWrite, AsyncWriteExt};
use tokio::sync::mpsc::{unbounded_channel, UnboundedReceiver, UnboundedSender};
use tokio::sync::{Notify, OwnedSemaphorePermit, Semaphore};
use tokio::task::JoinHandle;
use tokio::time::{interval, sleep, timeout, Instant, MissedTickBehavior};

use super::{Arrival, Connection, Service};
use crate::calls::{self, Call, FromFront, FRAME_LIMIT_BYTES, PIECE_BYTES, PROTOCOL};
use crate::door::{Progress, LONGEST_REQUEST};
use crate::ending::Ending;

/// A front says so often that it is there, and one that says nothing for longer isn't any more.
const QUIET: Duration = Duration::from_secs(5);

/// So often a front is told the time.
const TIME: Duration = Duration::from_millis(500);

/// A front that takes nothing for so long loses its connection.
const WRITING: Duration = Duration::from_secs(10);

/// So much is written at once.
const MOST_WRITTEN_BYTES: usize = 256 << 10;

/// So many calls of a connection may be turned away whose answers aren't written.
const MOST_TURNED_AWAY: usize = 1024;

/// So often it is looked whether all calls are answered where no more are taken.
const PAUSE: Duration = Duration::from_millis(10);

/// Behind its last answer a front has so long to end the connection.
const LAST_MOMENTS: Duration = Duration::from_secs(1);

/// Whether a front asks for a connection of calls.
pub fn are_asked_for(request: &Request<Body>) -> bool {
    let is_theirs = || request.headers().get(UPGRADE).is_some_and(|protocol| protocol == PROTOCOL);
    let (method, version) = (request.method(), request.version());
    method == Method::GET && version == Version::HTTP_11 && is_theirs() && request.body().is_end_stream()
}

/// What it is told where it gets one.
pub fn begin() -> Response<Body> {
    let mut response = Response::new(Body::empty());
    *response.status_mut() = StatusCode::SWITCHING_PROTOCOLS;
    response.headers_mut().insert(UPGRADE, HeaderValue::from_static(PROTOCOL));
    response.headers_mut().insert(CONNECTION, HeaderValue::from_static("upgrade"));
    response
}

/// An answer on its way, and what it keeps until it is written.
struct CallAnswer {
    number: u64,
    response: Response<Bytes>,
    kept: Kept,
}

/// What counts an answer, by its bytes and its place. It goes back when this is dropped.
struct Kept {
    share: Arc<Share>,
    place: CallPlace,
}

enum CallPlace {
    Served { _permit: OwnedSemaphorePermit },
    TurnedAway { _permit: OwnedSemaphorePermit },
}

/// What the calls of one connection have in common.
struct Calls {
    service: Arc<Service>,
    peer: SocketAddr,
    /// So many calls of all connections are answered at once. Others are told that these are too many.
    places: Arc<Semaphore>,
    answers: UnboundedSender<CallAnswer>,
    open: Mutex<HashMap<u64, JoinHandle<()>>>,
    /// So many are told so whose answers aren't written. No more calls are read before some are.
    turned_away: Arc<Semaphore>,
    /// Those of whose answer a part is written, and whose rest is wanted.
    begun: Arc<Mutex<HashSet<u64>>>,
}

/// Calls that are given up where the connection ends.
struct GivenUp(Arc<Calls>);

impl Drop for GivenUp {
    fn drop(&mut self) {
        lock(&self.0.open).values().for_each(JoinHandle::abort);
    }
}

fn lock<T>(mutex: &Mutex<T>) -> MutexGuard<'_, T> {
    mutex.lock().unwrap_or_else(PoisonError::into_inner)
}

fn bad(why: &'static str) -> io::Error {
    io::Error::new(io::ErrorKind::InvalidData, why)
}

impl Calls {
    /// Begins to answer a call, or to turn it away.
    async fn begin(self: &Arc<Calls>, number: u64, call: Call) {
        let place = match self.places.clone().try_acquire_owned() {
            Ok(permit) => CallPlace::Served { _permit: permit },
            // Nobody closes this one.
            Err(_) => match self.turned_away.clone().acquire_owned().await {
                Ok(permit) => CallPlace::TurnedAway { _permit: permit },
                Err(_) => return,
            },
        };
        let connection = self.service.clone().connection(self.peer, Progress::new(LONGEST_REQUEST));
        let kept = Kept { share: connection.share.clone(), place };
        let mut open = lock(&self.open);
        // It ends itself only once it is known.
        open.insert(number, tokio::spawn(self.clone().answer(number, call, connection, kept)));
    }

    async fn answer(self: Arc<Calls>, number: u64, call: Call, connection: Arc<Connection>, kept: Kept) {
        let began = Instant::now();
        let arrival = Arrival { began, deadline: began + LONGEST_REQUEST };
        let response = match kept.place {
            CallPlace::Served { .. } => connection.admit(arrival, request_of(call)).await.answer().await,
            CallPlace::TurnedAway { .. } => connection.turn_away(arrival, request_of(call)).await,
        };
        kept.share.set(response.body().len());
        // Where nobody writes answers any more, the connection has ended.
        let _ = self.answers.send(CallAnswer { number, response, kept });
        lock(&self.open).remove(&number);
    }

    /// Nobody waits for that one any more.
    fn give_up(&self, number: u64) {
        if let Some(task) = lock(&self.open).remove(&number) {
            task.abort();
        }
        lock(&self.begun).remove(&number);
    }

    fn all_are_answered(&self) -> bool {
        lock(&self.open).is_empty()
    }
}

fn request_of(call: Call) -> Request<Body> {
    let mut request = Request::new(Body::from(call.body));
    *request.method_mut() = call.method;
    *request.uri_mut() = call.target.into();
    *request.headers_mut() = call.headers;
    request
}

/// Answers the calls of a front until it goes, or until the end comes and all that came before are answered. `read` are bytes
/// that were read of it already.
pub async fn serve<S>(
    stream: S,
    read: Bytes,
    service: Arc<Service>,
    (peer, places): (SocketAddr, Arc<Semaphore>),
    ending: Ending,
) -> io::Result<()>
where
    S: AsyncRead + AsyncWrite + Send,
{
    let (reading, writing) = tokio::io::split(stream);
    let (answers, answered) = unbounded_channel();
    let (begun, over) = (Arc::default(), Notify::new());
    let mut writer = AnswerWriter::new(writing, answered, Arc::clone(&begun));
    let (open, turned_away) = (Mutex::default(), Arc::new(Semaphore::new(MOST_TURNED_AWAY)));
    let calls = Arc::new(Calls { service: service.clone(), peer, places, answers, open, turned_away, begun });
    let _given_up = GivenUp(calls.clone());
    let frames = Frames::behind(read, reading, FRAME_LIMIT_BYTES);
    let writing = async {
        writer.write(|| service.time_for_fronts(), &over).await?;
        writer.writing.shutdown().await?;
        // What comes of the front is read meanwhile: otherwise the system would tell it that the connection is broken.
        sleep(LAST_MOMENTS).await;
        Ok(())
    };
    tokio::select! {
        ended = hear(&calls, frames, ending, &over) => ended,
        ended = writing => ended,
    }
}

/// Takes calls. Once the end has come it takes none, and tells when those before are answered. The end of the connection is an
/// error.
async fn hear(
    calls: &Arc<Calls>,
    mut frames: Frames<impl AsyncRead + Unpin>,
    mut ending: Ending,
    over: &Notify,
) -> io::Result<()> {
    let (mut last, mut has_ended, mut looks) = (0, false, interval(PAUSE));
    looks.set_missed_tick_behavior(MissedTickBehavior::Delay);
    loop {
        let frame = tokio::select! {
            biased;
            () = ending.comes(), if !has_ended => {
                has_ended = true;
                continue;
            }
            _ = looks.tick(), if has_ended => {
                if calls.all_are_answered() {
                    over.notify_one();
                }
                continue;
            }
            frame = timeout(QUIET, frames.next()) => frame??,
        };
        match FromFront::read(frame).map_err(|malformed| io::Error::new(io::ErrorKind::InvalidData, malformed))? {
            FromFront::Call { number, .. } if number <= last => return Err(bad("the numbers of calls don't rise")),
            FromFront::Call { .. } if has_ended => {}
            FromFront::Call { number, call } => {
                last = number;
                calls.begin(number, call).await;
            }
            FromFront::Gone { number } => calls.give_up(number),
            FromFront::Alive => {}
        }
    }
}

/// Writes answers. Of large ones a piece is written at a time, so that no other waits for all of one.
struct AnswerWriter<W> {
    writing: W,
    answered: UnboundedReceiver<CallAnswer>,
    /// The rests of large ones.
    large: VecDeque<(u64, Bytes, Kept)>,
    /// Their calls, as far as the rest is wanted.
    begun: Arc<Mutex<HashSet<u64>>>,
    out: Vec<u8>,
    /// What answers keep that are whole in what is to be written.
    kept: Vec<Kept>,
}

impl<W: AsyncWrite + Unpin> AnswerWriter<W> {
    fn new(writing: W, answered: UnboundedReceiver<CallAnswer>, begun: Arc<Mutex<HashSet<u64>>>) -> AnswerWriter<W> {
        AnswerWriter { writing, answered, large: VecDeque::new(), begun, out: Vec::new(), kept: Vec::new() }
    }

    /// Writes what is answered, until nothing more is to come.
    async fn write(&mut self, time: impl Fn() -> Option<u64>, over: &Notify) -> io::Result<()> {
        let mut times = interval(TIME);
        times.set_missed_tick_behavior(MissedTickBehavior::Delay);
        let mut is_over = false;
        while !is_over || !self.large.is_empty() {
            tokio::select! {
                biased;
                _ = times.tick() => calls::append_time(&mut self.out, time()),
                () = std::future::ready(()), if !self.large.is_empty() => {}
                Some(answered) = self.answered.recv() => {
                    self.append(answered);
                    // Those that are answered now go with the same write.
                    tokio::task::yield_now().await;
                }
                // All that was answered before is taken below.
                () = over.notified() => is_over = true,
            }
            self.append_more(is_over);
            self.write_out().await?;
        }
        Ok(())
    }

    /// Appends what is answered by now, and pieces of large ones in turn, until that is enough for a write. `all`: all that is
    /// answered, however much it is.
    fn append_more(&mut self, all: bool) {
        self.append_piece();
        while all || self.out.len() < MOST_WRITTEN_BYTES {
            let Ok(answered) = self.answered.try_recv() else { break };
            self.append(answered);
        }
        while self.out.len() < MOST_WRITTEN_BYTES && !self.large.is_empty() {
            self.append_piece();
        }
    }

    fn append(&mut self, CallAnswer { number, response, kept }: CallAnswer) {
        let (head, mut body) = response.into_parts();
        let piece = body.split_to(body.len().min(PIECE_BYTES));
        let is_whole = body.is_empty();
        calls::append_answer(&mut self.out, number, (head.status, &head.headers), &piece, is_whole);
        if is_whole {
            self.kept.push(kept);
        } else {
            lock(&self.begun).insert(number);
            self.large.push_back((number, body, kept));
        }
    }

    /// Appends the next piece of the large one whose turn it is.
    fn append_piece(&mut self) {
        let Some((number, mut rest, kept)) = self.large.pop_front() else { return };
        if !lock(&self.begun).contains(&number) {
            return;
        }
        let piece = rest.split_to(rest.len().min(PIECE_BYTES));
        calls::append_piece(&mut self.out, number, &piece, rest.is_empty());
        if rest.is_empty() {
            lock(&self.begun).remove(&number);
            self.kept.push(kept);
        } else {
            self.large.push_back((number, rest, kept));
        }
    }

    async fn write_out(&mut self) -> io::Result<()> {
        calls::write(&mut self.writing, &self.out, WRITING).await?;
        self.out.clear();
        self.out.shrink_to(MOST_WRITTEN_BYTES);
        self.kept.clear();
        Ok(())
    }
}

#[cfg(test)]
mod tests {
    use hobbychair_tables::budget::Budget;
    use tokio::io::{duplex, DuplexStream};

    use super::*;
    use crate::calls::FromGateway;

    fn answered(number: u64, length: usize, budget: &Budget) -> CallAnswer {
        let share = Arc::new(budget.share());
        share.set(length);
        let place = CallPlace::TurnedAway { _permit: Arc::new(Semaphore::new(1)).try_acquire_owned().unwrap() };
        let kept = Kept { share, place };
        CallAnswer { number, response: Response::new(vec![number as u8; length].into()), kept }
    }

    /// What a writer of such answers tells, up to its end.
    async fn told(answers: Vec<CallAnswer>, begun: Arc<Mutex<HashSet<u64>>>) -> Vec<FromGateway> {
        let (writing, reading) = duplex(1 << 20);
        let (sender, answered) = unbounded_channel();
        answers.into_iter().for_each(|answer| drop(sender.send(answer)));
        let mut writer = AnswerWriter::new(writing, answered, begun);
        let over = Notify::new();
        over.notify_one();
        writer.write(|| Some(7), &over).await.unwrap();
        assert!(lock(&writer.begun).is_empty());
        drop(writer);
        let mut frames: Frames<DuplexStream> = Frames::new(reading, FRAME_LIMIT_BYTES);
        let mut told = Vec::new();
        while let Ok(frame) = frames.next().await {
            told.push(FromGateway::read(frame).unwrap());
        }
        told
    }

    /// The numbers of the calls that frames are about, and whether each is the last one of its answer.
    fn order(told: &[FromGateway]) -> Vec<(u64, bool)> {
        let about = |frame: &FromGateway| match frame {
            FromGateway::Answer { number, is_whole, .. } => Some((*number, *is_whole)),
            FromGateway::Piece { number, is_last, .. } => Some((*number, *is_last)),
            FromGateway::Time { .. } => None,
        };
        told.iter().filter_map(about).collect()
    }

    #[tokio::test]
    async fn no_answer_waits_for_all_of_a_large_one_and_its_bytes_count_until_they_are_written() {
        let budget = Budget::of(usize::MAX, 0);
        let answers = [(1, 2 * PIECE_BYTES + 1), (2, 3 * PIECE_BYTES), (3, 5), (4, 0)];
        let told = told(answers.map(|(number, length)| answered(number, length, &budget)).into(), Arc::default()).await;
        let wanted = [(1, false), (1, false), (2, false), (3, true), (4, true), (1, true), (2, false), (2, true)];
        assert_eq!(order(&told), wanted);
        let mut lengths = [0; 5];
        for frame in &told {
            if let FromGateway::Answer { number, piece, .. } | FromGateway::Piece { number, piece, .. } = frame {
                assert!(piece.len() <= PIECE_BYTES && piece.iter().all(|byte| u64::from(*byte) == *number));
                lengths[*number as usize] += piece.len();
            }
        }
        assert_eq!((lengths[1..].to_vec(), budget.used()), (answers.map(|(_, length)| length).to_vec(), 0));
    }

    #[tokio::test]
    async fn of_a_large_answer_that_nobody_wants_any_more_no_rest_is_written() {
        let (budget, begun) = (Budget::of(usize::MAX, 0), Arc::<Mutex<HashSet<u64>>>::default());
        let (writing, _reading) = duplex(4 * PIECE_BYTES);
        let (sender, waiting) = unbounded_channel();
        let mut writer = AnswerWriter::new(writing, waiting, begun.clone());
        drop(sender.send(answered(1, 100 * PIECE_BYTES, &budget)));
        drop(sender.send(answered(2, 5, &budget)));
        let over = Notify::new();
        let (ended, ()) = tokio::join!(timeout(Duration::from_secs(9), writer.write(|| None, &over)), async {
            // What is on its way fills the connection.
            sleep(Duration::from_millis(20)).await;
            assert!(lock(&begun).remove(&1));
            over.notify_one();
        });
        assert!(ended.is_err(), "who reads nothing has the writer wait");
        assert_eq!((writer.large.len(), budget.used()), (1, 100 * PIECE_BYTES + 5));
        writer.append_piece();
        assert!(writer.large.is_empty() && budget.used() == 5);
    }

    #[tokio::test(start_paused = true)]
    async fn a_front_that_takes_nothing_loses_its_connection() {
        let (writing, _reading) = duplex(4);
        let (_sender, answered) = unbounded_channel();
        let mut writer = AnswerWriter::new(writing, answered, Arc::default());
        let begun = Instant::now();
        let ended = writer.write(|| None, &Notify::new()).await;
        assert_eq!((ended.unwrap_err().kind(), begun.elapsed()), (io::ErrorKind::TimedOut, WRITING));
    }
}
