//! A process of `cq server` or `cq master`, which is told frames and tells frames.
//!
//! Two tasks write to its pipe and read from it. So nobody here waits for the process, and what it tells is always read, as
//! docs/PROCESSES.md asks for.

use std::io;
use std::os::unix::process::CommandExt;
use std::process::{Command, ExitStatus, Stdio};
use std::time::Duration;

use thiserror::Error;
use tokio::io::{AsyncReadExt, AsyncWriteExt};
use tokio::process::{self, ChildStdin, ChildStdout};
use tokio::sync::mpsc::{unbounded_channel, UnboundedReceiver, UnboundedSender};
use tokio::sync::oneshot;
use tokio::time::timeout;

use hobbychair_bytes::commands::Response;
use hobbychair_bytes::parts::{Cutter, FRAME_LIMIT_BYTES};
use hobbychair_bytes::processes::end_with_this_process;

/// So much is written at once.
const MOST_WRITTEN_BYTES: usize = 1 << 20;

/// So long a process that has closed its output has to end.
const LAST_MOMENTS: Duration = Duration::from_secs(1);

/// A process that couldn't be started.
#[derive(Debug, Error)]
#[error("{program} can't be started: {why}")]
pub struct NotStarted {
    program: String,
    why: String,
}

/// What is told of a process.
#[derive(Debug)]
pub enum ChildEvent {
    /// Some of its responses, in their order.
    Responses(Vec<Response>),
    /// It has ended, or told something that is no response. It is the last thing told.
    Ended(String),
}

/// A running process. It is ended when this is dropped.
pub struct Child {
    input: UnboundedSender<Vec<u8>>,
    id: u32,
    /// Nothing is sent by this: it is closed.
    _wanted: oneshot::Sender<()>,
}

impl Child {
    /// Starts the process. A task calls `told` with what the process tells. The system ends the process with the thread that
    /// calls this.
    pub fn start(
        program: &str,
        words: &[String],
        told: impl FnMut(ChildEvent) + Send + 'static,
    ) -> Result<Child, NotStarted> {
        let not_started = |error: io::Error| NotStarted { program: program.into(), why: error.to_string() };
        let mut command = Command::new(program);
        command.args(words).stdin(Stdio::piped()).stdout(Stdio::piped()).process_group(0);
        end_with_this_process(&mut command);
        let mut process = process::Command::from(command).kill_on_drop(true).spawn().map_err(not_started)?;
        let gone = || not_started(io::ErrorKind::BrokenPipe.into());
        let id = process.id().ok_or_else(gone)?;
        let (stdin, stdout) = process.stdin.take().zip(process.stdout.take()).ok_or_else(gone)?;
        let (input, frames) = unbounded_channel();
        let (wanted, unwanted) = oneshot::channel();
        tokio::spawn(write_all(stdin, frames));
        tokio::spawn(read_all(stdout, process, unwanted, told));
        Ok(Child { input, id, _wanted: wanted })
    }

    /// Writes a frame, some time. What is given to a process that has ended is lost, and the end is told.
    pub fn give(&self, frame: Vec<u8>) {
        let _ = self.input.send(frame);
    }

    /// The number by which the system knows the process.
    pub fn id(&self) -> u32 {
        self.id
    }
}

/// Writes what the process is told, until nobody tells any more. That the process has ended is told by who reads.
async fn write_all(mut input: ChildStdin, mut frames: UnboundedReceiver<Vec<u8>>) {
    while let Some(mut bytes) = frames.recv().await {
        while bytes.len() < MOST_WRITTEN_BYTES {
            match frames.try_recv() {
                Ok(more) => bytes.extend_from_slice(&more),
                Err(_) => break,
            }
        }
        if input.write_all(&bytes).await.is_err() {
            return;
        }
    }
}

/// Tells what the process tells, until that ends or isn't wanted any more. It is ended then.
async fn read_all(
    mut output: ChildStdout,
    mut process: process::Child,
    unwanted: oneshot::Receiver<()>,
    mut told: impl FnMut(ChildEvent),
) {
    let read = async {
        let why = match read_responses(&mut output, &mut told).await {
            Ok(()) => how_it_ended(&mut process).await,
            Err(error) => error.to_string(),
        };
        told(ChildEvent::Ended(why));
    };
    tokio::select! {
        () = read => {}
        _ = unwanted => {}
    }
}

async fn read_responses(output: &mut ChildStdout, told: &mut impl FnMut(ChildEvent)) -> io::Result<()> {
    let mut cutter = Cutter::default();
    loop {
        cutter.make_room();
        if output.read_buf(&mut cutter.buffer).await? == 0 {
            return Ok(());
        }
        let mut read = Vec::new();
        while let Some(frame) = cutter.next(FRAME_LIMIT_BYTES).map_err(other)? {
            read.push(Response::read(frame).map_err(other)?);
        }
        if !read.is_empty() {
            told(ChildEvent::Responses(read));
        }
    }
}

fn other(malformed: hobbychair_bytes::parts::Malformed) -> io::Error {
    io::Error::new(io::ErrorKind::InvalidData, format!("what it told is no response: {malformed}"))
}

async fn how_it_ended(process: &mut process::Child) -> String {
    match timeout(LAST_MOMENTS, process.wait()).await {
        Ok(Ok(status)) => said(status),
        Ok(Err(error)) => error.to_string(),
        Err(_) => "it closed its output and went on".into(),
    }
}

/// How a process ended.
pub fn said(status: ExitStatus) -> String {
    use std::os::unix::process::ExitStatusExt;
    match (status.code(), status.signal()) {
        (Some(code), _) => format!("it ended with status {code}"),
        (None, Some(signal)) => format!("it ended by signal {signal}"),
        (None, None) => "it ended with an unknown status".into(),
    }
}

#[cfg(test)]
mod tests {
    use hobbychair_bytes::parts::frame;

    use super::*;

    fn start(script: &str) -> (Child, UnboundedReceiver<ChildEvent>) {
        let (tell, told) = unbounded_channel();
        let words = ["-c".to_string(), script.to_string()];
        let child = Child::start("/bin/sh", &words, move |one| drop(tell.send(one))).unwrap();
        (child, told)
    }

    async fn next(told: &mut UnboundedReceiver<ChildEvent>) -> Option<ChildEvent> {
        timeout(Duration::from_secs(10), told.recv()).await.unwrap()
    }

    #[tokio::test]
    async fn what_is_given_comes_to_the_process_and_what_it_tells_comes_back() {
        let (child, mut told) = start("exec cat");
        // More than its pipes hold.
        let given = 200_000;
        for _ in 0..given {
            child.give(frame(6, |_| {}));
        }
        let mut heard = 0;
        while heard < given {
            match next(&mut told).await.unwrap() {
                ChildEvent::Responses(responses) => {
                    heard += responses.iter().filter(|one| **one == Response::Heard).count()
                }
                ChildEvent::Ended(why) => panic!("{why}"),
            }
        }
    }

    #[tokio::test]
    async fn an_end_is_told_and_so_is_what_is_no_response() {
        let (_child, mut told) = start("exit 3");
        assert!(matches!(next(&mut told).await, Some(ChildEvent::Ended(why)) if why == "it ended with status 3"));
        let (_child, mut told) = start("printf '\\2\\0\\0\\0\\1\\77'; sleep 60");
        assert!(matches!(next(&mut told).await, Some(ChildEvent::Ended(why)) if why.contains("no response")));
        assert!(Child::start("/nowhere/cq", &[], |_| {}).is_err());
    }

    #[tokio::test]
    async fn who_is_not_wanted_any_more_is_ended() {
        let (child, mut told) = start("trap '' HUP TERM; while :; do sleep 60; done");
        let process = format!("/proc/{}", child.id());
        assert!(std::path::Path::new(&process).exists());
        drop(child);
        assert!(next(&mut told).await.is_none());
        // It is gone, or waits to be reaped.
        let begun = std::time::Instant::now();
        while std::fs::read_to_string(format!("{process}/stat")).is_ok_and(|stat| !stat.contains(") Z ")) {
            assert!(begun.elapsed() < Duration::from_secs(10));
            tokio::time::sleep(Duration::from_millis(10)).await;
        }
    }
}
