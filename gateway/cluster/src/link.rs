//! The sending end of a link: frames with numbers, each of which is kept until the other node has it.

use std::collections::VecDeque;
use std::io;
use std::sync::atomic::{AtomicBool, Ordering};
use std::sync::{Arc, Mutex};
use std::time::Duration;

use bytes::Bytes;
use hobbychair_bytes::commands::Place;
use hobbychair_bytes::messages::Message;
use hobbychair_bytes::parts::{Frames, FRAME_LIMIT_BYTES};
use tokio::sync::Notify;
use tokio::time::{interval, sleep, timeout, MissedTickBehavior};

use crate::lock;
use crate::node::{Event, Shared};
use crate::records::Registration;
use crate::transport::{self, Reading, Writing};
use crate::wire::Frame;

/// A connection on which nothing comes back for so long is made anew.
const QUIET: Duration = Duration::from_secs(2);

/// So long a connection may take to begin.
const CONNECTING: Duration = Duration::from_secs(1);

/// So long it takes until the next try.
const PAUSE: Duration = Duration::from_millis(100);

/// So often the other end is told the time.
const PING: Duration = Duration::from_millis(500);

/// So much is written at once.
const MOST_WRITTEN_BYTES: usize = 1 << 20;

/// So long an acknowledgement waits for others, or for whatever else there is to write. No answer waits for it.
const GATHERING: Duration = Duration::from_millis(2);

#[derive(Default)]
struct Queue {
    /// Frames that the other end isn't known to have, with their numbers.
    frames: VecDeque<(u64, Bytes)>,
    /// How many bytes these have.
    bytes: usize,
    /// The number of the last frame.
    last: u64,
    /// Whoever writes knows that there is something.
    is_told: bool,
    /// There is something that doesn't wait.
    is_urgent: bool,
    is_closed: bool,
}

/// The sending end of a link to a server.
pub struct Link {
    to: u32,
    queue: Mutex<Queue>,
    wake: Notify,
    /// Whether somebody wants to hear when frames have come.
    is_awaited: AtomicBool,
}

impl Link {
    /// Begins a link. A task keeps it until it is closed.
    pub fn begin(to: u32, node: Arc<Shared>) -> Arc<Link> {
        let link = Link { to, queue: Mutex::default(), wake: Notify::new(), is_awaited: AtomicBool::new(false) };
        let link = Arc::new(link);
        tokio::spawn(link.clone().keep(node));
        link
    }

    pub fn send_message(&self, place: Place, piece: Bytes) {
        let is_urgent = !matches!(Message::read(&piece), Ok(Message::Ack));
        self.send(is_urgent, |frame| Frame::Message { frame, place, piece });
    }

    pub fn send_gone(&self, server: u32) {
        self.send(true, |frame| Frame::Gone { frame, server });
    }

    fn send(&self, is_urgent: bool, make: impl FnOnce(u64) -> Frame) {
        let mut queue = lock(&self.queue);
        queue.last += 1;
        let number = queue.last;
        let frame = Bytes::from(make(number).bytes());
        queue.bytes += frame.len();
        queue.frames.push_back((number, frame));
        let is_news = !queue.is_told || (is_urgent && !queue.is_urgent);
        queue.is_told = true;
        queue.is_urgent |= is_urgent;
        drop(queue);
        if is_news {
            self.wake.notify_one();
        }
    }

    /// How many frames the other end isn't known to have.
    pub fn waiting(&self) -> usize {
        lock(&self.queue).frames.len()
    }

    /// How many bytes these frames have.
    pub fn waiting_bytes(&self) -> usize {
        lock(&self.queue).bytes
    }

    /// From now on the node is told when frames have come.
    pub fn await_received(&self) {
        self.is_awaited.store(true, Ordering::Relaxed);
    }

    /// The other end is gone: nothing is sent any more.
    pub fn close(&self) {
        let mut queue = lock(&self.queue);
        queue.is_closed = true;
        queue.frames.clear();
        queue.bytes = 0;
        drop(queue);
        self.wake.notify_one();
    }

    fn is_closed(&self) -> bool {
        lock(&self.queue).is_closed
    }

    /// The other end has all frames up to that one.
    fn received(&self, number: u64, node: &Shared) -> io::Result<()> {
        let mut queue = lock(&self.queue);
        if number > queue.last {
            return Err(other("it has received more than was sent"));
        }
        while let Some((_, frame)) = queue.frames.front().filter(|(first, _)| *first <= number) {
            let bytes = frame.len();
            queue.bytes -= bytes;
            queue.frames.pop_front();
        }
        drop(queue);
        if self.is_awaited.swap(false, Ordering::Relaxed) {
            node.tell(Event::Received);
        }
        Ok(())
    }

    /// The bytes of some frames behind that one, and the number of the last of them.
    fn behind(&self, sent: u64) -> (u64, Vec<u8>) {
        let mut queue = lock(&self.queue);
        (queue.is_told, queue.is_urgent) = (false, false);
        let (mut last, mut bytes) = (sent, Vec::new());
        let first = queue.frames.partition_point(|(number, _)| *number <= sent);
        for (number, frame) in queue.frames.range(first..) {
            if bytes.len() >= MOST_WRITTEN_BYTES {
                break;
            }
            bytes.extend_from_slice(frame);
            last = *number;
        }
        (last, bytes)
    }

    async fn keep(self: Arc<Link>, node: Arc<Shared>) {
        let mut said = String::new();
        while !self.is_closed() {
            if let Some(registration) = node.registration(self.to) {
                let (was_up, error) = self.connect(&registration, &node).await;
                // It is tried again and again, and a reason is told once.
                let why = error.to_string();
                if was_up || why != said {
                    tracing::info!(to = self.to, %error, "a link is down");
                }
                said = why;
            }
            sleep(PAUSE).await;
        }
    }

    /// Carries frames by one connection until that breaks, and says whether it was there, and why it broke.
    async fn connect(&self, registration: &Registration, node: &Shared) -> (bool, io::Error) {
        match self.greet(registration, node).await {
            Ok((received, reading, writing)) => {
                tracing::info!(to = self.to, received, "a link is up");
                let ended = tokio::select! {
                    ended = self.write(received, writing, node) => ended,
                    ended = self.read(reading, node) => ended,
                };
                (true, ended.err().unwrap_or_else(|| other("it is closed")))
            }
            Err(error) => (false, error),
        }
    }

    async fn greet(&self, registration: &Registration, node: &Shared) -> io::Result<(u64, Frames<Reading>, Writing)> {
        let connecting = transport::connect(node.cluster.identity.as_deref(), registration);
        let (reading, mut writing) = timeout(CONNECTING, connecting).await??;
        let mut reading = Frames::new(reading, FRAME_LIMIT_BYTES);
        timeout(QUIET, transport::write(&mut writing, &node.greeting(self.to).bytes())).await??;
        match read(&mut reading).await? {
            Frame::Welcome { received, gone } => {
                node.tell(Event::Learned(gone));
                self.received(received, node)?;
                Ok((received, reading, writing))
            }
            Frame::Away { why } => Err(other(&why)),
            _ => Err(other("it greets with another frame")),
        }
    }

    async fn write(&self, received: u64, mut writing: Writing, node: &Shared) -> io::Result<()> {
        let mut sent = received;
        let mut pings = interval(PING);
        pings.set_missed_tick_behavior(MissedTickBehavior::Delay);
        while !self.is_closed() {
            let (last, bytes) = self.behind(sent);
            if !bytes.is_empty() {
                timeout(QUIET, transport::write(&mut writing, &bytes)).await??;
                sent = last;
            }
            tokio::select! {
                biased;
                _ = pings.tick() => {
                    let ping = Frame::Ping { time: node.now() }.bytes();
                    timeout(QUIET, transport::write(&mut writing, &ping)).await??;
                }
                () = self.gather(), if bytes.is_empty() => {}
                _ = std::future::ready(()), if !bytes.is_empty() => {}
            }
        }
        Ok(())
    }

    /// Waits until there is something to write.
    async fn gather(&self) {
        self.wake.notified().await;
        let urgent = async {
            while !self.is_urgent() {
                self.wake.notified().await;
            }
        };
        let _ = timeout(GATHERING, urgent).await;
    }

    fn is_urgent(&self) -> bool {
        let queue = lock(&self.queue);
        queue.is_urgent || queue.is_closed
    }

    async fn read(&self, mut reading: Frames<Reading>, node: &Shared) -> io::Result<()> {
        loop {
            match read(&mut reading).await? {
                Frame::Received { frame } => self.received(frame, node)?,
                Frame::Away { why } => return Err(other(&why)),
                _ => return Err(other("a frame came that doesn't belong there")),
            }
        }
    }
}

async fn read(reading: &mut Frames<Reading>) -> io::Result<Frame> {
    let bytes = timeout(QUIET, reading.next()).await??;
    Frame::read(bytes).map_err(|malformed| other(&malformed.to_string()))
}

fn other(why: &str) -> io::Error {
    io::Error::new(io::ErrorKind::Other, why)
}

#[cfg(test)]
mod tests {
    use super::*;

    use tokio::time::Instant;

    const ACK: &[u8] = &[1, 2, 0, 0, 0, 0, 0, 0, 0, 0];
    const FORWARD: &[u8] = &[1, 0];

    fn send(link: &Link, piece: &'static [u8]) {
        link.send_message(Place { number: 1, index: 0 }, Bytes::from_static(piece));
    }

    /// How long it takes until something is to be written, and how many frames that is.
    async fn gathered(link: &Link, sent: u64) -> (Duration, u64) {
        let begun = Instant::now();
        link.gather().await;
        (begun.elapsed(), link.behind(sent).0 - sent)
    }

    #[tokio::test(start_paused = true)]
    async fn acknowledgements_wait_for_others_and_nothing_else_does() {
        let link = Link { to: 2, queue: Mutex::default(), wake: Notify::new(), is_awaited: AtomicBool::new(false) };
        let begun = Instant::now();
        send(&link, FORWARD);
        assert_eq!(gathered(&link, 0).await, (Duration::ZERO, 1));
        send(&link, ACK);
        send(&link, ACK);
        assert_eq!(gathered(&link, 1).await, (GATHERING, 2));
        let (waited, ()) = tokio::join!(gathered(&link, 3), async {
            send(&link, ACK);
            sleep(GATHERING / 2).await;
            send(&link, FORWARD);
            send(&link, ACK);
        });
        assert_eq!(waited, (GATHERING / 2, 3));
        let (waited, ()) = tokio::join!(gathered(&link, 6), async {
            send(&link, ACK);
            link.send_gone(7);
        });
        assert_eq!(waited, (Duration::ZERO, 2));
        // It may be told twice of what was there, and no more often.
        assert!(gathered(&link, 8).await.1 == 0);
        assert!(timeout(Duration::from_secs(1), link.gather()).await.is_err());
        let (waited, ()) = tokio::join!(gathered(&link, 8), async { link.close() });
        assert_eq!(waited.0, Duration::ZERO);
        assert!(begun.elapsed() < Duration::from_secs(2));
    }
}
