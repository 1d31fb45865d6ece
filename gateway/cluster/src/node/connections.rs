//! Connections that come to a node's port: links of other nodes, clients, and strangers.

use std::collections::BTreeMap;
use std::io;
use std::sync::atomic::{AtomicBool, AtomicU64, AtomicUsize, Ordering};
use std::sync::{Arc, Mutex};
use std::time::{Duration, Instant};

use bytes::Bytes;
use hobbychair_bytes::parts::{Frames, FRAME_LIMIT_BYTES};
use tokio::io::AsyncWrite;
use tokio::net::{TcpListener, TcpStream};
use tokio::sync::mpsc::{unbounded_channel, UnboundedReceiver, UnboundedSender};
use tokio::sync::{oneshot, Notify};
use tokio::time::{sleep, timeout};

use super::fronts::{self, MOST_FRONTS};
use super::streams::Work;
use super::{Event, Shared};
use crate::identity::{PeerCertificate, Role};
use crate::lock;
use crate::transport::{self, Reading, Writing};
use crate::wire::{About, Frame, GREETING_LIMIT_BYTES};

/// A connection has so long to say whom it is about.
const GREETING: Duration = Duration::from_secs(5);

/// So many connections may be there that haven't said it yet.
const MOST_STRANGERS: usize = 64;

/// So many clients may be there: what each of them keeps is bounded, and a node has files to spare for links and etcd.
pub const MOST_CLIENTS: usize = 256;

/// Between two lines of the log on connections that were turned away.
const SAYING: Duration = Duration::from_secs(1);

/// A link's connection on which nothing comes for so long is closed.
const QUIET: Duration = Duration::from_secs(2);

/// What has come by a link is acknowledged so much later, so that one frame is about much of it.
const ACKNOWLEDGING: Duration = Duration::from_millis(5);

/// A client that takes nothing for so long loses its connection.
const WRITING: Duration = Duration::from_secs(10);

/// So many bytes may wait for a client that doesn't read.
const MOST_WAITING_BYTES: usize = 32 << 20;

/// So long accepting rests where the system has no more descriptors.
const REST: Duration = Duration::from_millis(100);

/// Counts connections, so that each has a number of its own.
static CONNECTIONS: AtomicU64 = AtomicU64::new(1);

/// What a node tells back over a link's connection: which frame it has received last.
pub struct Acknowledging {
    pub received: AtomicU64,
    pub is_over: AtomicBool,
    pub wake: Notify,
}

impl Acknowledging {
    /// The connection ends.
    pub fn end(&self) {
        self.is_over.store(true, Ordering::Release);
        self.wake.notify_one();
    }
}

/// How a link goes on over a new connection.
pub struct Linked {
    /// The connection's number: what came by an earlier one counts no more.
    pub connection: u64,
    pub received: u64,
    pub acknowledging: Arc<Acknowledging>,
}

/// Where frames for a client go.
#[derive(Clone)]
pub struct Outlet {
    /// The client wants the answers for client numbers in this range.
    pub wants: std::ops::RangeInclusive<u32>,
    frames: UnboundedSender<Bytes>,
    waiting: Arc<AtomicUsize>,
    /// So many bytes may wait.
    most: usize,
    /// How a frame is told. Some aren't.
    write: fn(&Frame) -> Option<Vec<u8>>,
}

impl Outlet {
    /// To a client that speaks by frames. Whoever writes them takes their bytes from what waits.
    fn new(wants: std::ops::RangeInclusive<u32>, frames: UnboundedSender<Bytes>, waiting: Arc<AtomicUsize>) -> Outlet {
        Outlet { wants, frames, waiting, most: MOST_WAITING_BYTES, write: |frame| Some(frame.bytes()) }
    }

    /// To somebody else, who hears of frames by other bytes, of which so many may wait.
    pub fn to_another(
        wants: std::ops::RangeInclusive<u32>,
        frames: UnboundedSender<Bytes>,
        waiting: Arc<AtomicUsize>,
        most: usize,
        write: fn(&Frame) -> Option<Vec<u8>>,
    ) -> Outlet {
        Outlet { wants, frames, waiting, most, write }
    }

    /// One whose frames a test reads.
    #[cfg(test)]
    pub fn for_tests(wants: std::ops::RangeInclusive<u32>) -> (Outlet, UnboundedReceiver<Bytes>) {
        let (frames, read) = unbounded_channel();
        (Outlet::new(wants, frames, Arc::default()), read)
    }

    /// Whether the client is there, and reads.
    pub fn send(&self, frame: &Frame) -> bool {
        (self.write)(frame).map_or(true, |bytes| self.send_bytes(bytes))
    }

    /// The same with bytes as they go to the client.
    pub fn send_bytes(&self, bytes: Vec<u8>) -> bool {
        let waiting = self.waiting.fetch_add(bytes.len(), Ordering::Relaxed);
        waiting < self.most && self.frames.send(bytes.into()).is_ok()
    }

    /// How many bytes weren't written yet.
    pub fn waiting(&self) -> usize {
        self.waiting.load(Ordering::Relaxed)
    }
}

/// The connections that haven't said whom they are about, in the order in which they came.
#[derive(Default)]
struct Strangers {
    waiting: Mutex<BTreeMap<u64, Arc<Notify>>>,
    turned_away: Mutex<TurnedAway>,
}

/// How many were turned away that no line of the log tells of.
#[derive(Default)]
struct TurnedAway {
    count: u64,
    said: Option<Instant>,
}

/// One of them. It is none any more once this is dropped.
struct Stranger {
    all: Arc<Strangers>,
    number: u64,
    /// Somebody else gets its place.
    is_over: Arc<Notify>,
}

impl Strangers {
    /// One more comes. Where there are too many the oldest one has to go: whoever means it has said so by then.
    fn enter(self: &Arc<Strangers>) -> Stranger {
        let (number, is_over) = (next_connection(), Arc::new(Notify::new()));
        let mut waiting = lock(&self.waiting);
        waiting.insert(number, is_over.clone());
        let oldest = if waiting.len() > MOST_STRANGERS { waiting.pop_first() } else { None };
        drop(waiting);
        if let Some((_, oldest)) = oldest {
            oldest.notify_one();
            self.count();
        }
        Stranger { all: self.clone(), number, is_over }
    }

    fn count(&self) {
        let mut turned_away = lock(&self.turned_away);
        turned_away.count += 1;
        if turned_away.said.map_or(true, |said| said.elapsed() > SAYING) {
            tracing::warn!(
                count = turned_away.count,
                "connections that didn't say whom they are about gave way to others"
            );
            *turned_away = TurnedAway { count: 0, said: Some(Instant::now()) };
        }
    }
}

impl Drop for Stranger {
    fn drop(&mut self) {
        lock(&self.all.waiting).remove(&self.number);
    }
}

/// Accepts connections for good.
pub async fn accept(listener: TcpListener, node: Arc<Shared>) {
    let strangers = Arc::new(Strangers::default());
    loop {
        let connection = match listener.accept().await {
            Ok((connection, _)) => connection,
            Err(error) => {
                tracing::warn!(%error, "no connection can be accepted");
                sleep(REST).await;
                continue;
            }
        };
        let (stranger, node) = (strangers.enter(), node.clone());
        tokio::spawn(async move {
            let from = connection.peer_addr().map_or_else(|_| "nowhere".into(), |address| address.to_string());
            match serve(connection, stranger, &node).await {
                Err(error) if error.kind() == io::ErrorKind::NotConnected => {
                    tracing::info!(%from, %error, "a connection has to wait");
                }
                Err(error) => tracing::warn!(%from, %error, "a connection ends"),
                Ok(()) => {}
            }
        });
    }
}

async fn serve(connection: TcpStream, stranger: Stranger, node: &Arc<Shared>) -> io::Result<()> {
    let greeted = tokio::select! {
        greeted = timeout(GREETING, greet(connection, node)) => greeted?,
        () = stranger.is_over.notified() => return Ok(()),
    };
    let Greeted { peer, greeting, reading, writing } = match greeted {
        Ok(greeted) => greeted,
        // Somebody looked whether the port is open.
        Err(error) if error.kind() == io::ErrorKind::UnexpectedEof => return Ok(()),
        Err(error) => return Err(error),
    };
    drop(stranger);
    let reading = reading.with_limit(FRAME_LIMIT_BYTES);
    if let Err(why) = peer.as_ref().map_or(Ok(()), |peer| peer.test(roles_for(&greeting))) {
        return turn_away(writing, why).await;
    }
    match greeting {
        Frame::Link { about, from, nonce, to, gone } => {
            let mut writing = writing;
            match test_link(node, &about, (from, &nonce, peer.as_ref()), to) {
                Ok(true) => link(node, from, gone, reading, writing).await,
                Ok(false) => {
                    let why = format!("server {from} isn't known here yet");
                    timeout(QUIET, transport::write(&mut writing, &Frame::Away { why: why.clone() }.bytes())).await??;
                    Err(io::Error::new(io::ErrorKind::NotConnected, why))
                }
                Err(why) => turn_away(writing, why).await,
            }
        }
        Frame::Client { about, first, last } => match (test_about(node, &about), node.clients.try_acquire()) {
            (Ok(()), Ok(_place)) => client(node, first..=last, reading, writing).await,
            (Ok(()), Err(_)) => turn_away(writing, format!("{MOST_CLIENTS} clients are there already")).await,
            (Err(why), _) => turn_away(writing, why).await,
        },
        Frame::Front { about } => match (test_about(node, &about), node.front_places.try_acquire()) {
            (Ok(()), Ok(_place)) => fronts::serve(node, reading, writing).await,
            (Ok(()), Err(_)) => turn_away(writing, format!("{MOST_FRONTS} fronts are there already")).await,
            (Err(why), _) => turn_away(writing, why).await,
        },
        _ => Err(other("it greets with another frame")),
    }
}

/// Who may greet so.
fn roles_for(greeting: &Frame) -> &'static [Role] {
    match greeting {
        Frame::Front { .. } => &[Role::Front, Role::Node],
        _ => &[Role::Node],
    }
}

/// A connection that has said whom it is about.
struct Greeted {
    /// Who made it, where there are certificates.
    peer: Option<PeerCertificate>,
    greeting: Frame,
    reading: Frames<Reading>,
    writing: Writing,
}

async fn greet(connection: TcpStream, node: &Shared) -> io::Result<Greeted> {
    let (reading, writing, peer) = transport::accept(node.cluster.identity.as_deref(), connection).await?;
    let mut reading = Frames::new(reading, GREETING_LIMIT_BYTES);
    let greeting = read(reading.next().await?)?;
    Ok(Greeted { peer, greeting, reading, writing })
}

fn test_about(node: &Shared, about: &About) -> Result<(), String> {
    if *about == node.about() {
        return Ok(());
    }
    Err(format!(
        "this is a server of cluster {}, of another incarnation than asked for, or another cluster",
        node.cluster.name
    ))
}

/// Whether the sender of a link is known, or why it is turned away. It says its number and its nonce, and shows a certificate
/// where there are any.
fn test_link(
    node: &Shared,
    about: &About,
    (from, nonce, peer): (u32, &str, Option<&PeerCertificate>),
    to: u32,
) -> Result<bool, String> {
    test_about(node, about)?;
    if to != node.id {
        return Err(format!("this is server {}, and not {to}", node.id));
    }
    match lock(&node.registrations).get(&from) {
        Some(registration) if registration.nonce != nonce => Err(format!("server {from} is another process")),
        Some(registration) if registration.certificate != peer.map(PeerCertificate::fingerprint) => {
            Err(format!("server {from} was registered with another certificate"))
        }
        registration => Ok(registration.is_some()),
    }
}

async fn turn_away(mut writing: Writing, why: String) -> io::Result<()> {
    timeout(QUIET, transport::write(&mut writing, &Frame::Away { why: why.clone() }.bytes())).await??;
    Err(other(&format!("it is turned away: {why}")))
}

/// Carries what comes by a link's connection to the node's task, until it breaks or another connection takes its place.
async fn link(
    node: &Arc<Shared>,
    from: u32,
    gone: Vec<u32>,
    mut reading: Frames<Reading>,
    mut writing: Writing,
) -> io::Result<()> {
    let (reply, replied) = oneshot::channel();
    node.tell(Event::Linking { from, gone, reply });
    let linked = replied.await.ok().flatten();
    // A server that was detected, and doesn't know it, reads here that it is gone.
    let received = linked.as_ref().map_or(0, |linked| linked.received);
    let welcome = Frame::Welcome { received, gone: node.all_gone() };
    timeout(QUIET, transport::write(&mut writing, &welcome.bytes())).await??;
    let Some(Linked { connection, acknowledging, .. }) = linked else {
        return Err(other(&format!("server {from} was detected")));
    };
    let read = async {
        loop {
            let frame = read(timeout(QUIET, reading.next()).await??)?;
            let is_ping = matches!(frame, Frame::Ping { .. });
            if !is_ping && !matches!(frame, Frame::Message { .. } | Frame::Gone { .. }) {
                return Err(other("a frame came that doesn't belong on a link"));
            }
            node.tell(Event::Came { from, connection, frame });
            if is_ping {
                acknowledging.wake.notify_one();
            }
        }
    };
    let write = async {
        loop {
            acknowledging.wake.notified().await;
            sleep(ACKNOWLEDGING).await;
            if acknowledging.is_over.load(Ordering::Acquire) {
                return Err(other("its server was detected, or it has another connection"));
            }
            let frame = acknowledging.received.load(Ordering::Acquire);
            timeout(QUIET, transport::write(&mut writing, &Frame::Received { frame }.bytes())).await??;
        }
    };
    let ended: io::Result<()> = tokio::select! { ended = read => ended, ended = write => ended };
    node.tell(Event::Unlinked { from, connection });
    tracing::info!(from, error = %ended.as_ref().err().map_or_else(String::new, ToString::to_string), "a link's connection ends");
    Ok(())
}

/// Carries what a client asks for to the node's task, and what is for it back.
async fn client(
    node: &Arc<Shared>,
    wants: std::ops::RangeInclusive<u32>,
    mut reading: Frames<Reading>,
    writing: Writing,
) -> io::Result<()> {
    let client = CONNECTIONS.fetch_add(1, Ordering::Relaxed);
    let (frames, waiting_frames) = unbounded_channel();
    let waiting = Arc::new(AtomicUsize::new(0));
    node.tell(Event::Client { client, outlet: Outlet::new(wants, frames, waiting.clone()) });
    let read = async {
        loop {
            let (stream, work) = match read(reading.next().await?)? {
                Frame::Batch { stream, requests } => (stream, requests.into_iter().map(Work::request).collect()),
                Frame::Query { stream, query } => (stream, [Work::Query(query)].into()),
                _ => return Err(other("a frame came that doesn't belong to a client")),
            };
            let (done, is_done) = oneshot::channel();
            node.tell(Event::Asked { client, stream, work, done });
            // Where the node lets go of the client, this is an error.
            is_done.await.map_err(|_| other("it takes no answers"))?;
        }
    };
    let ended: io::Result<()> = tokio::select! {
        ended = read => ended,
        ended = write(waiting_frames, writing, &waiting) => ended,
    };
    node.tell(Event::Left { client });
    match ended {
        Err(error) if error.kind() == io::ErrorKind::InvalidData => Err(error),
        Err(error) if error.kind() == io::ErrorKind::TimedOut => {
            tracing::warn!(client, "a client that takes nothing loses its connection");
            Ok(())
        }
        ended => {
            tracing::debug!(client, ?ended, "a client is gone");
            Ok(())
        }
    }
}

async fn write(mut frames: UnboundedReceiver<Bytes>, mut writing: Writing, waiting: &AtomicUsize) -> io::Result<()> {
    while write_some(&mut frames, &mut writing, waiting).await? {}
    Err(other("the node let go of it"))
}

/// Writes what waits, once there is something. Whoever takes nothing for [`WRITING`] is an error. False where nothing will
/// come any more.
pub async fn write_some(
    frames: &mut UnboundedReceiver<Bytes>,
    writing: &mut (impl AsyncWrite + Unpin),
    waiting: &AtomicUsize,
) -> io::Result<bool> {
    let Some(mut bytes) = frames.recv().await else { return Ok(false) };
    if let Ok(next) = frames.try_recv() {
        bytes = gather(&[bytes, next], frames);
    }
    timeout(WRITING, transport::write(writing, &bytes)).await??;
    waiting.fetch_sub(bytes.len(), Ordering::Relaxed);
    Ok(true)
}

/// What waits in one piece, so that it is written at once.
fn gather(first: &[Bytes], frames: &mut UnboundedReceiver<Bytes>) -> Bytes {
    let mut all = first.concat();
    while all.len() < 1 << 20 {
        match frames.try_recv() {
            Ok(next) => all.extend_from_slice(&next),
            Err(_) => break,
        }
    }
    all.into()
}

/// Reads a frame. One that is none is an error of invalid data, and so is whatever [`other`] says.
pub fn read(bytes: Bytes) -> io::Result<Frame> {
    Frame::read(bytes).map_err(|malformed| io::Error::new(io::ErrorKind::InvalidData, malformed))
}

pub fn other(why: &str) -> io::Error {
    io::Error::new(io::ErrorKind::InvalidData, why)
}

/// A number that no other connection has.
pub fn next_connection() -> u64 {
    CONNECTIONS.fetch_add(1, Ordering::Relaxed)
}
