//! The pipes of the program `cq`, and the socket of a node.
//!
//! Once, under much load, a gateway stood still for good: it had written the first 64 KiB of a request, `cq` had read
//! them and waited for more, and the gateway was never told that the pipe was free. What follows is read from the source
//! of tokio 1.24, which Debian has, and no test shows it: its looks at what is ready are counted by one byte, and what is
//! known of a pipe is cleared after a part was written or read. News that come in between, a multiple of 256 looks after
//! the news before, would be taken for old ones. Whatever it was, what waits looks at the pipe itself every now and then.

use std::future::Future;
use std::io;
use std::os::unix::io::{AsRawFd, RawFd};
use std::path::PathBuf;
use std::pin::Pin;
use std::task::{Context, Poll};
use std::time::{Duration, SystemTime};

use rustix::fd::BorrowedFd;
use tokio::io::{AsyncRead, AsyncWrite, ReadBuf};
use tokio::net::unix::{OwnedReadHalf, OwnedWriteHalf};
use tokio::process::{ChildStdin, ChildStdout};
use tokio::time::{sleep_until, Instant, Sleep};

/// So often a pipe is looked at that somebody waits for.
const LOOK: Duration = Duration::from_millis(100);

/// Whoever waits for longer waits in vain, unless another time is said.
const PATIENCE: Duration = Duration::from_secs(30);

/// No more is read at such a look.
const PIECE_BYTES: usize = 64 * 1024;

/// Tells when to look.
#[derive(Default)]
struct Looks(Option<Pin<Box<Sleep>>>);

impl Looks {
    /// Whether it is time. If not, the task is woken when it is.
    fn are_due(&mut self, context: &mut Context<'_>) -> bool {
        let timer = self.0.get_or_insert_with(|| Box::pin(sleep_until(Instant::now() + LOOK)));
        if timer.as_mut().poll(context).is_pending() {
            return false;
        }
        timer.as_mut().reset(Instant::now() + LOOK);
        // It is polled once more, so that it wakes the task again.
        let _ = timer.as_mut().poll(context);
        true
    }

    fn end(&mut self) {
        self.0 = None;
    }
}

fn borrowed<'a>(pipe: RawFd) -> BorrowedFd<'a> {
    // SAFETY: the pipe is open as long as its owner is, which each caller has for longer than what this gives.
    unsafe { BorrowedFd::borrow_raw(pipe) }
}

/// Where the program reads, or the node.
enum InputPipe {
    Program(ChildStdin),
    Node(OwnedWriteHalf),
}

/// Where the program writes, or the node.
enum OutputPipe {
    Program(ChildStdout),
    Node(OwnedReadHalf),
}

impl InputPipe {
    fn raw(&self) -> RawFd {
        match self {
            InputPipe::Program(pipe) => pipe.as_raw_fd(),
            InputPipe::Node(half) => half.as_ref().as_raw_fd(),
        }
    }

    fn writer(&mut self) -> &mut (dyn AsyncWrite + Send + Unpin) {
        match self {
            InputPipe::Program(pipe) => pipe,
            InputPipe::Node(half) => half,
        }
    }
}

impl OutputPipe {
    fn raw(&self) -> RawFd {
        match self {
            OutputPipe::Program(pipe) => pipe.as_raw_fd(),
            OutputPipe::Node(half) => half.as_ref().as_raw_fd(),
        }
    }

    fn reader(&mut self) -> &mut (dyn AsyncRead + Send + Unpin) {
        match self {
            OutputPipe::Program(pipe) => pipe,
            OutputPipe::Node(half) => half,
        }
    }
}

/// Where what keeps the store reads.
pub struct Input {
    pipe: InputPipe,
    looks: Looks,
}

/// Where what keeps the store writes.
pub struct Output {
    pipe: OutputPipe,
    looks: Looks,
    /// Something is to come, so the pipe is looked at. An idle gateway looks at nothing.
    pub is_awaited: bool,
    /// What is awaited comes within this time, or reading ends with `TimedOut`.
    pub patience: Duration,
    /// The file that the program writes. While it does, as in a rewrite on a slow disk, it isn't silent.
    pub file: Option<PathBuf>,
    /// When that was written, by the last look.
    written: Option<SystemTime>,
    silent_since: Option<Instant>,
}

impl Input {
    /// The pipe of a program.
    pub fn new(pipe: ChildStdin) -> Input {
        Input { pipe: InputPipe::Program(pipe), looks: Looks::default() }
    }

    /// The socket of a node.
    pub fn of_node(half: OwnedWriteHalf) -> Input {
        Input { pipe: InputPipe::Node(half), looks: Looks::default() }
    }
}

impl Output {
    /// The pipe of a program.
    pub fn new(pipe: ChildStdout) -> Output {
        Output::of(OutputPipe::Program(pipe), PATIENCE)
    }

    /// What a node tells takes as long as its chain does.
    pub fn of_node(half: OwnedReadHalf) -> Output {
        Output::of(OutputPipe::Node(half), Duration::MAX)
    }

    fn of(pipe: OutputPipe, patience: Duration) -> Output {
        let looks = Looks::default();
        Output { pipe, looks, is_awaited: true, patience, file: None, written: None, silent_since: None }
    }

    fn is_silent_for_too_long(&mut self) -> bool {
        self.silent_since.get_or_insert_with(Instant::now).elapsed() >= self.patience
    }

    /// Silence begins anew where the file was written since the last look.
    fn note_writes(&mut self) {
        let Some(file) = &self.file else { return };
        let written = std::fs::metadata(file).and_then(|there| there.modified()).ok();
        if written != self.written {
            self.written = written;
            self.silent_since = None;
        }
    }
}

impl AsyncWrite for Input {
    fn poll_write(mut self: Pin<&mut Self>, context: &mut Context<'_>, bytes: &[u8]) -> Poll<io::Result<usize>> {
        let written = Pin::new(self.pipe.writer()).poll_write(context, bytes);
        if written.is_ready() {
            self.looks.end();
            return written;
        }
        if !self.looks.are_due(context) {
            return Poll::Pending;
        }
        match rustix::io::write(borrowed(self.pipe.raw()), bytes) {
            Ok(count) => Poll::Ready(Ok(count)),
            // A fault that stays is told by tokio as well.
            Err(_) => Poll::Pending,
        }
    }

    fn poll_flush(mut self: Pin<&mut Self>, context: &mut Context<'_>) -> Poll<io::Result<()>> {
        Pin::new(self.pipe.writer()).poll_flush(context)
    }

    fn poll_shutdown(mut self: Pin<&mut Self>, context: &mut Context<'_>) -> Poll<io::Result<()>> {
        Pin::new(self.pipe.writer()).poll_shutdown(context)
    }
}

impl AsyncRead for Output {
    fn poll_read(
        mut self: Pin<&mut Self>,
        context: &mut Context<'_>,
        buffer: &mut ReadBuf<'_>,
    ) -> Poll<io::Result<()>> {
        let read = Pin::new(self.pipe.reader()).poll_read(context, buffer);
        if read.is_ready() || !self.is_awaited {
            self.looks.end();
            self.silent_since = None;
            return read;
        }
        self.silent_since.get_or_insert_with(Instant::now);
        if !self.looks.are_due(context) {
            return Poll::Pending;
        }
        self.note_writes();
        let mut piece = vec![0; PIECE_BYTES.min(buffer.remaining())];
        match rustix::io::read(borrowed(self.pipe.raw()), &mut piece) {
            Ok(count) => {
                self.silent_since = None;
                buffer.put_slice(&piece[..count]);
                Poll::Ready(Ok(()))
            }
            Err(_) if self.is_silent_for_too_long() => {
                let said = format!("it didn't answer for {} s", self.patience.as_secs());
                Poll::Ready(Err(io::Error::new(io::ErrorKind::TimedOut, said)))
            }
            Err(_) => Poll::Pending,
        }
    }
}

#[cfg(test)]
mod tests {
    use super::*;

    use std::process::Stdio;

    use tokio::io::{AsyncReadExt, AsyncWriteExt};
    use tokio::process::Command;

    /// `cat` with both pipes, more than they hold going through.
    #[tokio::test]
    async fn what_is_written_comes_out() {
        let mut cat = Command::new("cat").stdin(Stdio::piped()).stdout(Stdio::piped()).spawn().unwrap();
        let mut input = Input::new(cat.stdin.take().unwrap());
        let mut output = Output::new(cat.stdout.take().unwrap());
        let sent: Vec<u8> = (0..1_000_000u32).map(|number| (number % 251) as u8).collect();
        let writing = tokio::spawn({
            let sent = sent.clone();
            async move { input.write_all(&sent).await }
        });
        let mut got = Vec::new();
        output.read_to_end(&mut got).await.unwrap();
        writing.await.unwrap().unwrap();
        assert!(got == sent);
    }

    #[tokio::test]
    async fn what_is_awaited_comes_in_time_or_is_an_error() {
        let mut cat = Command::new("cat").stdin(Stdio::piped()).stdout(Stdio::piped()).spawn().unwrap();
        let mut input = Input::new(cat.stdin.take().unwrap());
        let mut output = Output::new(cat.stdout.take().unwrap());
        output.patience = Duration::from_millis(300);
        output.is_awaited = false;
        assert!(
            tokio::time::timeout(Duration::from_millis(600), output.read_u8()).await.is_err(),
            "nothing is awaited"
        );
        output.is_awaited = true;
        for _ in 0..4 {
            tokio::time::sleep(Duration::from_millis(100)).await;
            input.write_all(b"a").await.unwrap();
            assert_eq!(output.read_u8().await.unwrap(), b'a');
        }
        let begun = Instant::now();
        assert_eq!(output.read_u8().await.unwrap_err().kind(), io::ErrorKind::TimedOut);
        assert!(begun.elapsed() >= output.patience);
    }

    /// A program that writes its file isn't silent, however long it takes.
    #[tokio::test]
    async fn who_writes_a_file_is_not_silent() {
        let file = std::env::temp_dir().join(format!("hobbychair-writes-{}", std::process::id()));
        std::fs::write(&file, "").unwrap();
        let mut cat = Command::new("cat").stdin(Stdio::piped()).stdout(Stdio::piped()).spawn().unwrap();
        let _input = Input::new(cat.stdin.take().unwrap());
        let mut output = Output::new(cat.stdout.take().unwrap());
        output.patience = Duration::from_millis(500);
        output.file = Some(file.clone());
        let begun = Instant::now();
        let writing = async {
            for _ in 0..10 {
                tokio::time::sleep(Duration::from_millis(200)).await;
                std::fs::write(&file, "more").unwrap();
            }
            begun.elapsed()
        };
        let reading = async { (output.read_u8().await, begun.elapsed()) };
        let ((read, silent), written) = tokio::join!(reading, writing);
        std::fs::remove_file(&file).unwrap();
        assert_eq!(read.unwrap_err().kind(), io::ErrorKind::TimedOut);
        assert!(silent > written, "it was taken for silent after {silent:?}, and wrote for {written:?}");
    }

    /// The timer alone: that a pipe comes to be ready without news can't be brought about here.
    #[tokio::test]
    async fn looks_are_due_again_and_again() {
        let mut looks = Looks::default();
        let begun = Instant::now();
        std::future::poll_fn(|context| if looks.are_due(context) { Poll::Ready(()) } else { Poll::Pending }).await;
        std::future::poll_fn(|context| if looks.are_due(context) { Poll::Ready(()) } else { Poll::Pending }).await;
        assert!(begun.elapsed() >= 2 * LOOK && begun.elapsed() < 20 * LOOK);
    }
}
