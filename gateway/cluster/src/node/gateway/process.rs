//! The processes of a gateway, one after the other.

use std::fs::File;
use std::io::Write;
use std::os::fd::{AsRawFd, FromRawFd, OwnedFd, RawFd};
use std::os::unix::net::UnixStream as Socket;
use std::os::unix::process::CommandExt;
use std::path::PathBuf;
use std::process::{Command, Stdio};
use std::sync::atomic::AtomicUsize;
use std::sync::{mpsc, Arc};
use std::time::{Duration, Instant};
use std::{io, thread};

use bytes::Bytes;
use hobbychair_bytes::parts::{Frames, FRAME_LIMIT_BYTES};
use hobbychair_bytes::pipe::{FromGateway, FromNode};
use hobbychair_bytes::processes::end_with_this_process;
use tokio::io::{AsyncRead, AsyncWrite};
use tokio::net::UnixStream;
use tokio::process;
use tokio::sync::mpsc::{unbounded_channel, UnboundedReceiver};
use tokio::sync::oneshot;
use tokio::time::{sleep, timeout};

use super::super::connections::{next_connection, other, write_some, Outlet};
use super::super::{Event, Shared};
use super::port::Port;
use super::{GatewaySettings, Happening, CLIENTS};
use crate::child::said;
use crate::identity::Pems;
use crate::records::Cluster;
use crate::wire::Frame;

/// So many bytes may wait for a gateway. It has few open requests, and answers to these may be large.
const MOST_WAITING_BYTES: usize = 256 << 20;

/// The second pause between two gateways that ended early; each further one is twice as long. There is no first one.
const SHORTEST_PAUSE: Duration = Duration::from_millis(100);

/// No pause is longer.
const LONGEST_PAUSE: Duration = Duration::from_secs(5);

/// Behind a gateway that was there for so long the next one begins at once.
const LONG: Duration = Duration::from_secs(10);

/// A trial may take so long.
const LONGEST_TRIAL: Duration = Duration::from_secs(5);

/// Keeps a gateway for good: where one ends, another one is started.
pub async fn keep(node: Arc<Shared>, port: Arc<Port>) {
    let mut pause = Duration::ZERO;
    loop {
        let begun = Instant::now();
        let (life, why) = live(&node, &port).await;
        if begun.elapsed() >= LONG {
            pause = Duration::ZERO;
        }
        tracing::warn!(pause = ?pause, "the gateway is gone, and is started again: {why}");
        node.tell(Event::Gateway(Happening::Gone { life, why }));
        node.gateway_ended.notify_one();
        sleep(pause).await;
        pause = next_pause(pause);
    }
}

fn next_pause(pause: Duration) -> Duration {
    (2 * pause).clamp(SHORTEST_PAUSE, LONGEST_PAUSE)
}

/// One process from its start to its end. Gives the number of its life, if it had one, and says why it ended.
async fn live(node: &Shared, port: &Port) -> (Option<u64>, String) {
    let started = match command(&node.cluster, port) {
        // The files are there until the process has begun, which opens them then.
        Ok((command, socket, _files)) => spawn(command, socket).await,
        Err(error) => Err(error),
    };
    match started {
        Ok((socket, process)) => {
            let life = next_connection();
            tracing::info!(life, listen = %port.settings.place.listen, process = process.id, "a gateway begins");
            let tell = |happening| node.tell(Event::Gateway(happening));
            let why = converse(socket, life, &node.time_for_gateway(), &tell).await;
            tell(Happening::Ended { life });
            (Some(life), format!("{why}; {}", process.end().await))
        }
        Err(error) => (None, format!("it can't be started: {error}")),
    }
}

// ---- the process

/// A process that is ended when this is dropped.
struct GatewayProcess {
    id: u32,
    /// Nothing is sent by this: it is closed.
    wanted: mpsc::Sender<()>,
    ended: oneshot::Receiver<String>,
}

impl GatewayProcess {
    /// Ends it, if it hasn't ended already, and says how it did.
    async fn end(self) -> String {
        drop(self.wanted);
        self.ended.await.unwrap_or_else(|_| "nobody knows how it ended".into())
    }
}

/// Tries whether a gateway would begin: it reads its options and files. An error says what it said. `is_one_there`: another one
/// of this node has addresses that the options name.
pub async fn test(cluster: &Cluster, port: &Port, is_one_there: bool) -> Result<(), String> {
    let failed = |error: io::Error| format!("it can't be started: {error}");
    let (mut command, _files) = program(cluster, port).map_err(failed)?;
    command.arg("--only-prepare").args(is_one_there.then_some("--beside-another"));
    command.stdin(Stdio::null()).stdout(Stdio::null()).stderr(Stdio::piped());
    let process = process::Command::from(command).kill_on_drop(true).spawn().map_err(failed)?;
    // A file may be a pipe that nobody writes to.
    let output = timeout(LONGEST_TRIAL, process.wait_with_output()).await;
    let output = output.map_err(|_| format!("it reads its files for more than {} s", LONGEST_TRIAL.as_secs()))?;
    let output = output.map_err(failed)?;
    match output.status.success() {
        true => Ok(()),
        false if output.stderr.is_empty() => Err(said(output.status)),
        false => Err(String::from_utf8_lossy(&output.stderr).trim().into()),
    }
}

/// The command, this end of the socket that is its standard input, and files that it is given.
fn command(cluster: &Cluster, port: &Port) -> io::Result<(Command, Socket, Vec<OwnedFd>)> {
    let (own, other) = Socket::pair()?;
    own.set_nonblocking(true)?;
    let (mut command, files) = program(cluster, port)?;
    command.stdin(Stdio::from(OwnedFd::from(other)));
    Ok((command, own, files))
}

/// The command without its standard input, and files that it is given.
fn program(cluster: &Cluster, port: &Port) -> io::Result<(Command, Vec<OwnedFd>)> {
    let GatewaySettings { place, config } = &port.settings;
    let listen = place.listen;
    let mut command = Command::new(this_program());
    command.args(["serve", "--beside-node", "--host", &listen.ip().to_string()]);
    command.args(["--port", &listen.port().to_string()]);
    let socket = port.socket()?;
    command.arg("--listener").arg(socket.as_raw_fd().to_string());
    let mut files = vec![socket];
    if let Some(identity) = &cluster.identity {
        command.args(["--fronts-of", &cluster.name]);
        files.extend(give_identity(&mut command, &identity.pems)?);
    }
    if let Some(config) = config {
        command.arg("--config").arg(config);
    }
    command.process_group(0);
    end_with_this_process(&mut command);
    keep_open(&mut command, &files);
    Ok((command, files))
}

/// The node's own program. Where another one stands in its file by now, as behind an upgrade, the system has it still: a node and
/// its gateway are of one version.
fn this_program() -> PathBuf {
    let named = std::env::current_exe().ok().filter(|path| path.exists());
    named.unwrap_or_else(|| "/proc/self/exe".into())
}

/// The gateway shows the certificate that was registered, whatever stands in the files by now: it is given what was read, in
/// memory that this process and that one alone can open.
fn give_identity(command: &mut Command, pems: &Pems) -> io::Result<Vec<OwnedFd>> {
    let given = [("--certificate", &pems.certificate), ("--key", &pems.key), ("--fronts-authority", &pems.authority)];
    let mut files = Vec::new();
    for (option, pem) in given {
        let mut file = file_in_memory()?;
        file.write_all(pem.text())?;
        command.arg(option).arg(format!("/proc/self/fd/{}", file.as_raw_fd()));
        files.push(OwnedFd::from(file));
    }
    Ok(files)
}

/// These files stay open in what is executed. They have to be open until then.
fn keep_open(command: &mut Command, files: &[OwnedFd]) {
    let numbers: Vec<RawFd> = files.iter().map(AsRawFd::as_raw_fd).collect();
    // SAFETY: what runs between fork and exec takes no locks and no memory. Each number is that of a file which is kept open
    // until then.
    unsafe { command.pre_exec(move || numbers.iter().try_for_each(|number| stays_open(*number))) };
}

fn file_in_memory() -> io::Result<File> {
    // SAFETY: the name ends with a zero byte, and the number is a file's that nobody else has.
    unsafe {
        match libc::memfd_create(b"pem\0".as_ptr().cast(), libc::MFD_CLOEXEC) {
            -1 => Err(io::Error::last_os_error()),
            number => Ok(File::from_raw_fd(number)),
        }
    }
}

fn stays_open(number: RawFd) -> io::Result<()> {
    // SAFETY: the call touches no memory of this process.
    match unsafe { libc::fcntl(number, libc::F_SETFD, 0) } {
        0 => Ok(()),
        _ => Err(io::Error::last_os_error()),
    }
}

async fn spawn(command: Command, socket: Socket) -> io::Result<(UnixStream, GatewayProcess)> {
    let (wanted, is_wanted) = mpsc::channel();
    let (started, starting) = oneshot::channel();
    let (tell, ended) = oneshot::channel();
    let keep = move || keep_process(command, started, &is_wanted, tell);
    thread::Builder::new().name("gateway".into()).spawn(keep)?;
    let id = starting.await.map_err(|_| io::Error::from(io::ErrorKind::BrokenPipe))??;
    Ok((UnixStream::from_std(socket)?, GatewayProcess { id, wanted, ended }))
}

/// The system ends the process with the thread that started it: this one is there until nobody wants the process.
fn keep_process(
    mut command: Command,
    started: oneshot::Sender<io::Result<u32>>,
    is_wanted: &mpsc::Receiver<()>,
    ended: oneshot::Sender<String>,
) {
    let begun = command.spawn();
    // It has the other end of the socket: who reads from this one hears of the process's end.
    drop(command);
    match begun {
        Ok(mut process) => {
            let _ = started.send(Ok(process.id()));
            while is_wanted.recv().is_ok() {}
            // One that has ended already needs no end.
            let _ = process.kill();
            let _ = ended.send(process.wait().map_or_else(|error| error.to_string(), said));
        }
        Err(error) => drop(started.send(Err(error))),
    }
}

// ---- its socket

/// Carries what is told and heard until the gateway's life is over. Says why it is.
async fn converse(socket: UnixStream, life: u64, time: &FromNode, tell: &impl Fn(Happening)) -> String {
    let (frames, told) = unbounded_channel();
    let (wanted, is_wanted) = oneshot::channel();
    let waiting = Arc::new(AtomicUsize::new(0));
    let outlet = Outlet::to_another(CLIENTS, frames, waiting.clone(), MOST_WAITING_BYTES, as_gateway_hears);
    // The first time goes ahead of all else.
    outlet.send_bytes(time.bytes());
    tell(Happening::Begins { life, outlet, wanted });
    let (reading, writing) = socket.into_split();
    let ended = tokio::select! {
        ended = read_all(reading, life, tell) => ended,
        ended = write_all(writing, told, &waiting, tell) => ended,
        _ = is_wanted => Ok(()),
    };
    match ended {
        Err(error) if error.kind() == io::ErrorKind::UnexpectedEof => "its end of the socket is closed".into(),
        Err(error) if error.kind() == io::ErrorKind::TimedOut => "it takes nothing".into(),
        Err(error) => error.to_string(),
        Ok(()) => "the node gave it up".into(),
    }
}

/// What of a client's frames a gateway is told. Where servers stand it hears in another way.
pub fn as_gateway_hears(frame: &Frame) -> Option<Vec<u8>> {
    match frame {
        Frame::Answer { message } => Some(FromNode::Answer { message: message.clone() }.bytes()),
        Frame::Refused { stream, code, request } => {
            Some(FromNode::Refused { stream: *stream, code: *code, request: *request }.bytes())
        }
        _ => None,
    }
}

async fn read_all(from: impl AsyncRead + Unpin, life: u64, tell: &impl Fn(Happening)) -> io::Result<()> {
    let mut frames = Frames::new(from, FRAME_LIMIT_BYTES);
    loop {
        let told = FromGateway::read(frames.next().await?).map_err(|malformed| other(&malformed.to_string()))?;
        tell(Happening::Told { life, told });
    }
}

async fn write_all(
    mut to: impl AsyncWrite + Unpin,
    mut told: UnboundedReceiver<Bytes>,
    waiting: &AtomicUsize,
    tell: &impl Fn(Happening),
) -> io::Result<()> {
    while write_some(&mut told, &mut to, waiting).await? {
        tell(Happening::Wrote);
    }
    Ok(())
}

#[cfg(test)]
mod tests {
    use super::*;
    use tokio::io::AsyncWriteExt;

    fn shell(script: &str) -> (Command, Socket) {
        let (own, other) = Socket::pair().unwrap();
        own.set_nonblocking(true).unwrap();
        let mut command = Command::new("/bin/sh");
        command.args(["-c", script]).stdin(Stdio::from(OwnedFd::from(other)));
        end_with_this_process(&mut command);
        (command, own)
    }

    #[tokio::test]
    async fn a_process_that_ends_closes_its_socket_and_one_that_goes_on_is_ended() {
        let (command, socket) = shell("exit 3");
        let (socket, process) = spawn(command, socket).await.unwrap();
        let read = Frames::new(socket, FRAME_LIMIT_BYTES).next().await;
        assert_eq!(read.unwrap_err().kind(), io::ErrorKind::UnexpectedEof);
        assert_eq!(process.end().await, "it ended with status 3");
        let (command, socket) = shell("exec sleep 60");
        let (_socket, process) = spawn(command, socket).await.unwrap();
        assert_eq!(process.end().await, "it ended by signal 9");
        let (_, socket) = shell("");
        assert!(spawn(Command::new("/nowhere/hobbychair"), socket).await.is_err());
    }

    /// The next frame that a gateway reads.
    async fn read(frames: &mut Frames<UnixStream>) -> io::Result<FromNode> {
        Ok(FromNode::read(frames.next().await?).unwrap())
    }

    #[tokio::test]
    async fn a_gateway_is_told_the_time_first_and_what_it_tells_is_heard_until_nobody_wants_it() {
        let (own, far) = UnixStream::pair().unwrap();
        let (tell, mut heard) = unbounded_channel();
        let time = FromNode::Time { time: 7, since_start: 3 };
        let said = time.clone();
        let life = tokio::spawn(async move { converse(own, 5, &said, &|one| drop(tell.send(one))).await });
        let mut frames = Frames::new(far, FRAME_LIMIT_BYTES);
        assert_eq!(read(&mut frames).await.unwrap(), time);
        let Some(Happening::Begins { life: 5, outlet, wanted }) = heard.recv().await else {
            panic!("it doesn't begin")
        };
        assert!(matches!(heard.recv().await, Some(Happening::Wrote)) && outlet.waiting() == 0);
        // What is for it of a client's frames.
        outlet.send(&Frame::Standing { server: 1, is_head: true, is_acting: true });
        outlet.send(&Frame::Refused { stream: 4, code: 20, request: None });
        assert_eq!(read(&mut frames).await.unwrap(), FromNode::Refused { stream: 4, code: 20, request: None });
        let alive = FromGateway::Alive { time: 7, far: 0, serves: false };
        frames.reader().write_all(&alive.bytes()).await.unwrap();
        while !matches!(heard.recv().await, Some(Happening::Told { life: 5, told }) if told == alive) {}
        drop(wanted);
        assert_eq!(life.await.unwrap(), "the node gave it up");
        assert_eq!(read(&mut frames).await.unwrap_err().kind(), io::ErrorKind::UnexpectedEof);
    }

    #[tokio::test]
    async fn what_is_no_frame_ends_a_gateways_life() {
        let (own, mut far) = UnixStream::pair().unwrap();
        far.write_all(&FromNode::Acts.bytes()).await.unwrap();
        // Whoever is told that it begins keeps it.
        let (keep, _kept) = unbounded_channel();
        let why = converse(own, 5, &FromNode::Acts, &|one| drop(keep.send(one))).await;
        assert_eq!(why, "its kind is none of what a gateway tells");
    }

    #[test]
    fn pauses_begin_at_nothing_and_have_an_end() {
        let pauses = std::iter::successors(Some(Duration::ZERO), |pause| Some(next_pause(*pause)));
        let milliseconds: Vec<u128> = pauses.take(9).map(|pause| pause.as_millis()).collect();
        assert_eq!(milliseconds, [0, 100, 200, 400, 800, 1600, 3200, 5000, 5000]);
    }
}
