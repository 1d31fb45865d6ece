//! A connection that tells when a request began, and ends where its client is too slow to send one or to read an answer.

use std::future::Future;
use std::io;
use std::os::unix::io::RawFd;
use std::pin::Pin;
use std::sync::{Arc, Mutex, MutexGuard, PoisonError};
use std::task::{ready, Context, Poll};
use std::time::Duration;

use hobbychair_tables::presence::is_hung_up;
use tokio::io::{AsyncRead, AsyncWrite, ReadBuf};
use tokio::time::{sleep, sleep_until, Instant, Sleep};

use super::framing::Framing;

/// So long a client may leave unread what it is sent, before its connection is closed.
const LONGEST_STALL: Duration = Duration::from_secs(60);

/// A client reads so many bytes of an answer a second, beside the time that it may leave it unread.
const SLOWEST_BYTES_A_SECOND: u64 = 256 << 10;

/// A request that isn't whole in time is refused. Where nobody has come to refuse it so much later, its connection ends.
const GRACE: Duration = Duration::from_secs(1);

/// So often it is looked whether a client is still there that has sent more than the request that is being answered.
const LOOK: Duration = Duration::from_secs(1);

/// How far the client of a connection is.
#[derive(Clone)]
pub struct Progress {
    /// So long a request may take from its first byte on.
    longest: Duration,
    /// So long a connection may be without any request; for ever if it is missing.
    idle: Option<Duration>,
    /// The socket, where it is one.
    socket: Option<RawFd>,
    state: Arc<Mutex<ProgressState>>,
}

struct ProgressState {
    framing: Framing,
    /// When the request began of which a part is there.
    begun: Option<Instant>,
    /// Something has come, at any time.
    is_begun: bool,
    /// hyper waits for bytes, and so comes to know when the client goes.
    is_awaited: bool,
    /// When something was read or written last, where the connection may not be idle for ever.
    last: Instant,
    /// So long the client has for the answer, of which all was written so far without a wait.
    time_for_answer: Option<Duration>,
    /// Goes off now and then, so that it is looked whether the client has gone. It outlasts the wait for one answer, so
    /// that most answers need no timer.
    look: Option<Pin<Box<Sleep>>>,
}

impl Progress {
    pub fn new(longest: Duration) -> Progress {
        let state = ProgressState {
            framing: Framing::default(),
            begun: None,
            is_begun: false,
            is_awaited: false,
            last: Instant::now(),
            time_for_answer: None,
            look: None,
        };
        Progress { longest, idle: None, socket: None, state: Arc::new(Mutex::new(state)) }
    }

    /// The same for a connection that may be idle for so long, and no longer.
    pub fn with_idle(self, idle: Duration) -> Progress {
        Progress { idle: Some(idle), ..self }
    }

    /// The same for the connection of this socket, which is open as long as anybody asks whether its client has left.
    pub fn of_socket(self, socket: RawFd) -> Progress {
        Progress { socket: Some(socket), ..self }
    }

    /// The socket of the connection, where it is known.
    pub fn socket(&self) -> Option<RawFd> {
        self.socket
    }

    fn state(&self) -> MutexGuard<'_, ProgressState> {
        self.state.lock().unwrap_or_else(PoisonError::into_inner)
    }

    /// Whether the client has ever sent anything.
    pub fn is_begun(&self) -> bool {
        self.state().is_begun
    }

    fn bytes_came(&self, bytes: &[u8]) {
        let mut state = self.state();
        let before = state.framing.begun;
        state.framing.take(bytes);
        (state.is_begun, state.is_awaited) = (true, false);
        if self.idle.is_some() {
            state.last = Instant::now();
        }
        if !state.framing.is_within() {
            state.begun = None;
        } else if state.framing.begun > before {
            state.begun = Some(Instant::now());
        }
    }

    /// When the request has to be whole whose head is there at `now`.
    pub fn deadline(&self, now: Instant) -> Instant {
        self.state().begun.unwrap_or(now) + self.longest
    }

    /// The request is read: the next byte is another one's.
    pub fn is_read(&self) {
        let mut state = self.state();
        state.framing.is_read();
        if !state.framing.is_within() {
            state.begun = None;
        }
    }

    /// The client is sent an answer of so many bytes. It has a time in proportion to these for it. True if the connection
    /// has to end behind the answer, since nobody can tell where the next request begins.
    pub fn answers(&self, bytes: u64) -> bool {
        let mut state = self.state();
        state.time_for_answer = Some(LONGEST_STALL + Duration::from_secs(bytes / SLOWEST_BYTES_A_SECOND));
        state.framing.must_close
    }

    /// Bytes are awaited. Tells when the connection ends if none come: a request is late, or there is none for too long.
    fn awaits(&self) -> Option<Instant> {
        let mut state = self.state();
        state.is_awaited = true;
        match (state.begun, self.idle) {
            (Some(begun), _) => Some(begun + self.longest + GRACE),
            (None, Some(idle)) => Some(state.last + idle),
            (None, None) => None,
        }
    }

    /// Waits until the client has gone, where hyper doesn't look: it reads no more than the bytes behind a request before
    /// that one is answered.
    pub async fn leaves(&self) {
        let Some(socket) = self.socket else { return std::future::pending().await };
        std::future::poll_fn(|context| self.poll_leaves(socket, context)).await;
    }

    fn poll_leaves(&self, socket: RawFd, context: &mut Context<'_>) -> Poll<()> {
        let mut state = self.state();
        loop {
            let look = state.look.get_or_insert_with(|| Box::pin(sleep(LOOK)));
            ready!(look.as_mut().poll(context));
            look.as_mut().reset(Instant::now() + LOOK);
            if !state.is_awaited && is_hung_up(socket) {
                return Poll::Ready(());
            }
        }
    }
}

/// The stream of a connection.
pub struct Watched<S> {
    stream: S,
    progress: Progress,
    /// Goes off when nothing has come for too long.
    late: Option<Pin<Box<Sleep>>>,
    /// When the client has to have read something.
    stalled: Option<Instant>,
    /// When it has to have read the whole answer, of which a part is written.
    end_of_answer: Option<Instant>,
    unread: Option<Pin<Box<Sleep>>>,
}

/// Whether it is time. If it isn't yet, the task is woken when it is.
fn is_over(timer: &mut Option<Pin<Box<Sleep>>>, end: Instant, context: &mut Context<'_>) -> bool {
    let timer = timer.get_or_insert_with(|| Box::pin(sleep_until(end)));
    if timer.deadline() != end {
        timer.as_mut().reset(end);
    }
    timer.as_mut().poll(context).is_ready()
}

impl<S> Watched<S> {
    pub fn new(stream: S, progress: Progress) -> Watched<S> {
        Watched { stream, progress, late: None, stalled: None, end_of_answer: None, unread: None }
    }

    /// The stream, of which nothing is watched any more.
    pub fn into_inner(self) -> S {
        self.stream
    }

    /// Nothing has come. Tells whether a part of a request is there, and the rest of it is late, or it is so for too long.
    fn is_late(&mut self, context: &mut Context<'_>) -> bool {
        self.progress.awaits().is_some_and(|end| is_over(&mut self.late, end, context))
    }

    /// Passes on what a write came to. One that can't go on for too long is an error, and so is an answer that takes too
    /// long as a whole.
    fn watch<T>(&mut self, context: &mut Context<'_>, written: Poll<io::Result<T>>) -> Poll<io::Result<T>> {
        if written.is_ready() {
            self.stalled = None;
            if self.progress.idle.is_some() {
                self.progress.state().last = Instant::now();
            }
            return written;
        }
        let now = Instant::now();
        if let Some(time) = self.progress.state().time_for_answer.take() {
            self.end_of_answer = Some(now + time);
        }
        let stalled = *self.stalled.get_or_insert(now + LONGEST_STALL);
        let end = self.end_of_answer.map_or(stalled, |end| end.min(stalled));
        if is_over(&mut self.unread, end, context) {
            return Poll::Ready(Err(io::ErrorKind::TimedOut.into()));
        }
        Poll::Pending
    }
}

impl<S: AsyncRead + Unpin> AsyncRead for Watched<S> {
    fn poll_read(
        mut self: Pin<&mut Self>,
        context: &mut Context<'_>,
        buffer: &mut ReadBuf<'_>,
    ) -> Poll<io::Result<()>> {
        let before = buffer.filled().len();
        let read = Pin::new(&mut self.stream).poll_read(context, buffer);
        if buffer.filled().len() > before {
            self.progress.bytes_came(&buffer.filled()[before..]);
        }
        if read.is_pending() && self.is_late(context) {
            return Poll::Ready(Err(io::ErrorKind::TimedOut.into()));
        }
        read
    }
}

impl<S: AsyncWrite + Unpin> AsyncWrite for Watched<S> {
    fn poll_write(mut self: Pin<&mut Self>, context: &mut Context<'_>, bytes: &[u8]) -> Poll<io::Result<usize>> {
        let written = Pin::new(&mut self.stream).poll_write(context, bytes);
        self.watch(context, written)
    }

    fn poll_write_vectored(
        mut self: Pin<&mut Self>,
        context: &mut Context<'_>,
        pieces: &[io::IoSlice<'_>],
    ) -> Poll<io::Result<usize>> {
        let written = Pin::new(&mut self.stream).poll_write_vectored(context, pieces);
        self.watch(context, written)
    }

    fn is_write_vectored(&self) -> bool {
        self.stream.is_write_vectored()
    }

    fn poll_flush(mut self: Pin<&mut Self>, context: &mut Context<'_>) -> Poll<io::Result<()>> {
        let flushed = Pin::new(&mut self.stream).poll_flush(context);
        self.watch(context, flushed)
    }

    fn poll_shutdown(mut self: Pin<&mut Self>, context: &mut Context<'_>) -> Poll<io::Result<()>> {
        let shut = Pin::new(&mut self.stream).poll_shutdown(context);
        self.watch(context, shut)
    }
}

#[cfg(test)]
mod tests {
    use super::*;

    use tokio::io::{AsyncReadExt, AsyncWriteExt};

    #[tokio::test(start_paused = true)]
    async fn a_request_begins_with_its_first_byte() {
        let (mut client, server) = tokio::io::duplex(64);
        let progress = Progress::new(Duration::from_secs(30));
        let left = |progress: &Progress| (progress.deadline(Instant::now()) - Instant::now()).as_secs();
        let mut server = Watched::new(server, progress.clone());
        tokio::time::advance(Duration::from_secs(40)).await;
        client.write_all(b"G").await.unwrap();
        server.read_u8().await.unwrap();
        tokio::time::advance(Duration::from_secs(5)).await;
        let rest = b"ET / HTTP/1.1\r\n\r";
        client.write_all(rest).await.unwrap();
        server.read_exact(&mut [0; 16]).await.unwrap();
        assert_eq!(left(&progress), 25);
        client.write_all(b"\n").await.unwrap();
        server.read_u8().await.unwrap();
        assert_eq!(left(&progress), 30);
        tokio::time::advance(Duration::from_secs(5)).await;
        client.write_all(b"P").await.unwrap();
        server.read_u8().await.unwrap();
        assert_eq!(left(&progress), 30);
    }

    #[tokio::test(start_paused = true)]
    async fn half_a_request_behind_another_one_is_late_too_and_line_ends_are_none() {
        for (sent, is_late) in [(&b"GET / HTTP/1.1\r\n\r\nGET"[..], true), (b"GET / HTTP/1.1\r\n\r\n\r\n\r\n", false)] {
            let (mut client, server) = tokio::io::duplex(64);
            let mut server = Watched::new(server, Progress::new(Duration::from_secs(30)));
            client.write_all(sent).await.unwrap();
            server.read_exact(&mut vec![0; sent.len()]).await.unwrap();
            let next = tokio::time::timeout(Duration::from_secs(100), server.read_u8()).await;
            assert_eq!(next.is_ok(), is_late);
        }
    }

    #[tokio::test(start_paused = true)]
    async fn an_idle_connection_ends_where_it_may_not_stay() {
        let (mut client, server) = tokio::io::duplex(64);
        let progress = Progress::new(Duration::from_secs(10)).with_idle(Duration::from_secs(60));
        let mut server = Watched::new(server, progress);
        let begun = Instant::now();
        tokio::time::advance(Duration::from_secs(30)).await;
        client.write_all(b"GET / HTTP/1.1\r\n\r\n").await.unwrap();
        server.read_exact(&mut [0; 18]).await.unwrap();
        assert_eq!(server.read_u8().await.unwrap_err().kind(), io::ErrorKind::TimedOut);
        assert_eq!(begun.elapsed().as_secs(), 90);
    }

    #[tokio::test(start_paused = true)]
    async fn an_answer_that_is_read_slowly_ends_in_a_time_by_its_bytes() {
        let (mut client, server) = tokio::io::duplex(1024);
        let progress = Progress::new(Duration::from_secs(30));
        let mut server = Watched::new(server, progress.clone());
        progress.answers(10 * SLOWEST_BYTES_A_SECOND);
        let begun = Instant::now();
        let reading = tokio::spawn(async move {
            while client.read_exact(&mut [0; 1024]).await.is_ok() {
                tokio::time::sleep(Duration::from_secs(1)).await;
            }
        });
        let written = server.write_all(&vec![7; 10 * SLOWEST_BYTES_A_SECOND as usize]).await;
        assert_eq!(written.unwrap_err().kind(), io::ErrorKind::TimedOut);
        assert_eq!(begun.elapsed(), LONGEST_STALL + Duration::from_secs(10));
        drop(server);
        reading.await.unwrap();
    }

    #[tokio::test(start_paused = true)]
    async fn a_request_that_is_never_whole_ends_its_connection_and_an_idle_one_stays() {
        let (mut client, server) = tokio::io::duplex(64);
        let progress = Progress::new(Duration::from_secs(30));
        let mut server = Watched::new(server, progress.clone());
        let begun = Instant::now();
        assert!(tokio::time::timeout(Duration::from_secs(100), server.read_u8()).await.is_err());
        client.write_all(b"ab").await.unwrap();
        server.read_u8().await.unwrap();
        server.read_u8().await.unwrap();
        let ended = server.read_u8().await.unwrap_err();
        assert_eq!((ended.kind(), begun.elapsed().as_secs()), (io::ErrorKind::TimedOut, 131));
    }

    #[tokio::test(start_paused = true)]
    async fn a_client_that_reads_nothing_is_cut_off() {
        let (_client, server) = tokio::io::duplex(4);
        let mut server = Watched::new(server, Progress::new(Duration::from_secs(30)));
        let written = server.write_all(b"more than four").await;
        assert_eq!(written.unwrap_err().kind(), io::ErrorKind::TimedOut);
    }
}
