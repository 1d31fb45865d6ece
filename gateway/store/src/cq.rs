//! What keeps the store: the process `cq server`, or a node.

use std::ffi::OsString;
use std::fs::OpenOptions;
use std::io::{self, BufRead, BufReader};
use std::os::unix::fs::OpenOptionsExt;
use std::os::unix::process::CommandExt;
use std::path::{Path, PathBuf};
use std::process::Stdio;
use std::time::Duration;

use bytes::BytesMut;
use hobbychair_bytes::processes::end_with_this_process;
use thiserror::Error;
use tokio::io::AsyncReadExt;
use tokio::net::UnixStream;
use tokio::process::{Child, ChildStderr, Command};

use crate::disk::lack_of_space;
use crate::pipes::{Input, Output};

/// Why there is no program to work with.
#[derive(Clone, Debug, Error)]
pub enum CqError {
    #[error("{program} can't be started: {why}")]
    NotStarted { program: String, why: String },
    #[error("{program} is of version {found}, and this gateway needs {needed}")]
    OtherVersion { program: String, found: String, needed: &'static str },
    #[error("{0} doesn't say at --version that it is cq")]
    NotCq(String),
    #[error("cq is gone: {0}")]
    Gone(String),
    #[error("it is missing, and none is made in its place")]
    FileMissing,
    #[error("it has nothing but zeros: it was emptied")]
    FileBlank,
    #[error("the node is gone, or it has ended this gateway's life")]
    NodeGone,
    #[error("{0}")]
    NotBuilt(String),
}

impl CqError {
    /// Whether another program has the file in which this one keeps what it is told.
    pub fn is_busy(&self) -> bool {
        self.has_said("JournalBusy")
    }

    /// Whether that file isn't the one that was there: another program would do no better.
    pub fn is_of_lost_file(&self) -> bool {
        matches!(self, CqError::FileMissing | CqError::FileBlank)
    }

    /// Whether a program ran, and is gone.
    pub fn is_gone(&self) -> bool {
        matches!(self, CqError::Gone(_))
    }

    /// Whether it said that something is wrong with its file, as `JournalDamaged` or `NotAJournal`: another program would say the
    /// same.
    pub fn is_of_journal(&self) -> bool {
        self.has_said("Journal")
    }

    fn has_said(&self, word: &str) -> bool {
        matches!(self, CqError::Gone(said) if said.contains(word))
    }
}

/// A running `cq`, which ends when this is dropped; or a node whose chain keeps the store.
pub struct Cq {
    /// None: it is a node's.
    process: Option<Child>,
    pub input: Input,
    pub output: Output,
    /// Of one that keeps a journal: what it says of its end.
    errors: Option<ChildStderr>,
    /// The file of that journal.
    file: Option<PathBuf>,
}

/// The file in which a program keeps what it is told.
#[derive(Clone, Debug)]
pub struct KeptFile {
    pub path: PathBuf,
    pub making: Making,
}

/// What a program does where its file is missing, or has nothing but zeros.
#[derive(Clone, Copy, Debug, PartialEq, Eq)]
pub enum Making {
    /// It isn't started: the file is to be the one that was there.
    Refused,
    /// It makes a journal: in a file of so many MiB, or of as many as it says itself.
    OfSize(Option<u64>),
}

impl KeptFile {
    /// Refuses one that isn't there, or that is blank, where none is to be made.
    fn test(&self) -> Result<(), CqError> {
        match (self.making, is_blank(&self.path)) {
            (Making::OfSize(_), _) => Ok(()),
            (Making::Refused, Err(error)) if error.kind() == io::ErrorKind::NotFound => Err(CqError::FileMissing),
            (Making::Refused, Ok(true)) => Err(CqError::FileBlank),
            // What else is wrong the program says.
            (Making::Refused, _) => Ok(()),
        }
    }

    fn words(&self) -> Vec<OsString> {
        let mut words = vec!["--journal".into(), self.path.clone().into()];
        match self.making {
            Making::OfSize(Some(size)) => words.extend(["--journal-size".into(), size.to_string().into()]),
            Making::OfSize(None) => {}
            Making::Refused => words.push("--no-create".into()),
        }
        words
    }
}

/// Whether a file has nothing but zeros. It takes time in proportion to those with which it begins.
pub fn is_blank(path: &Path) -> io::Result<bool> {
    let file = OpenOptions::new().read(true).custom_flags(libc::O_NONBLOCK).open(path)?;
    let mut reader = BufReader::with_capacity(PIECE_BYTES, file);
    loop {
        let piece = reader.fill_buf()?;
        if piece.is_empty() {
            return Ok(true);
        }
        if piece.iter().any(|byte| *byte != 0) {
            return Ok(false);
        }
        let length = piece.len();
        reader.consume(length);
    }
}

const VERSION: &str = env!("CARGO_PKG_VERSION");
/// So long a program that has closed its output has to end by itself.
const LAST_MOMENTS: Duration = Duration::from_secs(1);

/// No more is read of what it says of its end.
const LONGEST_WORDS_BYTES: u64 = 4096;

/// A file is read in pieces of so many bytes.
const PIECE_BYTES: usize = 64 << 10;

/// No more is read at once of what is told.
const READ_BYTES: usize = 256 << 10;

const VERSION_TIME: Duration = Duration::from_secs(10);

/// The status of a checkout's script `cq` where it would have to prove and build the program first.
const NOT_BUILT: i32 = 126;

impl Cq {
    /// Starts the only server of a chain. One that keeps its entries in a file first tells where it stands, however long that takes.
    pub fn start_server(program: &str, file: Option<&KeptFile>) -> Result<Cq, CqError> {
        Cq::start_as(program, &["server", "--id", "1", "--first", "1"], file)
    }

    /// Starts the only server of a chain, which begins with the store that it is given.
    pub fn start_loading(program: &str) -> Result<Cq, CqError> {
        Cq::start_as(program, &["server", "--id", "1", "--first", "1", "--load"], None)
    }

    /// Starts the program. It gets no signals of the terminal, so that it outlives the gateway's own end in good order.
    fn start_as(program: &str, words: &[&str], file: Option<&KeptFile>) -> Result<Cq, CqError> {
        let not_started = |why: String| CqError::NotStarted { program: program.into(), why };
        let mut command = std::process::Command::new(program);
        command.args(words).stdin(Stdio::piped()).stdout(Stdio::piped()).process_group(0);
        if let Some(file) = file {
            file.test()?;
            command.args(file.words()).stderr(Stdio::piped());
        }
        // It is started by threads that are there until the gateway ends.
        end_with_this_process(&mut command);
        let mut process =
            Command::from(command).kill_on_drop(true).spawn().map_err(|error| not_started(error.to_string()))?;
        let pipes = process.stdin.take().zip(process.stdout.take());
        let (input, output) = pipes.ok_or_else(|| not_started("it has no pipes".into()))?;
        let errors = process.stderr.take();
        let mut output = Output::new(output);
        let file = file.map(|file| file.path.clone());
        if file.is_some() {
            output.patience = Duration::MAX;
        }
        output.file = file.clone();
        Ok(Cq { process: Some(process), input: Input::new(input), output, errors, file })
    }

    /// What has the other end of this socket is a node.
    pub fn of_node(socket: UnixStream) -> Cq {
        let (output, input) = socket.into_split();
        Cq { process: None, input: Input::of_node(input), output: Output::of_node(output), errors: None, file: None }
    }

    /// From now on what is awaited of it comes within this time, or it counts as gone.
    pub fn with_patience(mut self, patience: Duration) -> Cq {
        self.output.patience = patience;
        self
    }

    /// Reads more of what it tells, behind what the buffer has.
    pub async fn read(&mut self, buffer: &mut BytesMut) -> Result<(), CqError> {
        buffer.reserve(READ_BYTES);
        match self.output.read_buf(buffer).await {
            Ok(0) => Err(self.end().await),
            Ok(_) => Ok(()),
            Err(_) if self.process.is_none() => Err(CqError::NodeGone),
            Err(error) => Err(CqError::Gone(error.to_string())),
        }
    }

    /// Waits for the end of a program that has closed its output, and says how it ended. One that goes on is ended.
    pub async fn end(&mut self) -> CqError {
        let Some(process) = &mut self.process else { return CqError::NodeGone };
        match tokio::time::timeout(LAST_MOMENTS, process.wait()).await {
            Ok(Ok(status)) => CqError::Gone(format!("it ended with {}{}", said(status), self.last_words().await)),
            Ok(Err(error)) => CqError::Gone(error.to_string()),
            Err(_) => {
                self.stop().await;
                CqError::Gone("it closed its output and went on".into())
            }
        }
    }

    /// What a program that has ended said of that, where it wasn't said in the log.
    async fn last_words(&mut self) -> String {
        let Some(errors) = self.errors.take() else { return String::new() };
        let (mut said, mut errors) = (Vec::new(), errors.take(LONGEST_WORDS_BYTES));
        let read = tokio::time::timeout(LAST_MOMENTS, errors.read_to_end(&mut said)).await;
        let said = String::from_utf8_lossy(&said);
        match (read, said.trim()) {
            (_, "") => String::new(),
            (_, words) => format!(": {words}{}", self.lack_of_space(words)),
        }
    }

    /// That its file lacks space, where it says that a call on that failed.
    fn lack_of_space(&self, words: &str) -> String {
        let Some(file) = &self.file else { return String::new() };
        let length = std::fs::metadata(file).map_or(0, |there| there.len());
        lack_of_space(words, file, length)
    }

    /// Ends the program, and all that it started, and waits for its end.
    pub async fn stop(&mut self) {
        self.end_group();
        if let Some(process) = &mut self.process {
            // Where it has ended already, there is nothing to end.
            let _ = process.kill().await;
        }
    }

    /// The program has a process group of its own, as long as it isn't waited for.
    fn end_group(&self) {
        let id = self.process.as_ref().and_then(Child::id);
        if let Some(id) = id.and_then(|id| i32::try_from(id).ok()) {
            // SAFETY: the call touches no memory of this process.
            unsafe { libc::killpg(id, libc::SIGKILL) };
        }
    }
}

impl Drop for Cq {
    fn drop(&mut self) {
        self.end_group();
    }
}

fn said(status: std::process::ExitStatus) -> String {
    use std::os::unix::process::ExitStatusExt;
    match (status.code(), status.signal()) {
        (Some(code), _) => format!("status {code}"),
        (None, Some(signal)) => format!("signal {signal}"),
        (None, None) => "an unknown status".into(),
    }
}

/// Refuses a checkout's script `cq` whose program isn't built, since nobody wants to wait for a proof here. The script
/// says what to type; the program itself knows no such word.
pub async fn test_built(program: &str) -> Result<(), CqError> {
    let asked = Command::new(program).arg("--built").stdin(Stdio::null()).kill_on_drop(true).output();
    match tokio::time::timeout(VERSION_TIME, asked).await {
        Ok(Ok(output)) if output.status.code() == Some(NOT_BUILT) => {
            let said = String::from_utf8_lossy(&output.stderr);
            let said = said.trim();
            Err(CqError::NotBuilt(said.strip_prefix("cq: ").unwrap_or(said).to_string()))
        }
        _ => Ok(()),
    }
}

/// Refuses a program that doesn't say `cq` and the gateway's own number at `--version`.
pub async fn test_version(program: &str) -> Result<(), CqError> {
    let not_started = |why: String| CqError::NotStarted { program: program.into(), why };
    let mut process = Command::new(program)
        .arg("--version")
        .stdin(Stdio::null())
        .stdout(Stdio::piped())
        .stderr(Stdio::null())
        .kill_on_drop(true)
        .spawn()
        .map_err(|error| not_started(error.to_string()))?;
    let mut said = Vec::new();
    if let Some(output) = process.stdout.take() {
        let mut output = output.take(1024);
        let read = tokio::time::timeout(VERSION_TIME, output.read_to_end(&mut said)).await;
        read.map_err(|_| not_started("it doesn't answer to --version".into()))?
            .map_err(|error| not_started(error.to_string()))?;
    }
    is_version(program, &String::from_utf8_lossy(&said))
}

fn is_version(program: &str, said: &str) -> Result<(), CqError> {
    match said.trim().strip_prefix("cq ") {
        Some(VERSION) => Ok(()),
        Some(found) => Err(CqError::OtherVersion { program: program.into(), found: found.into(), needed: VERSION }),
        None => Err(CqError::NotCq(program.into())),
    }
}

#[cfg(test)]
mod tests {
    use std::io;

    use super::*;

    fn script(text: &str) -> std::path::PathBuf {
        use std::os::unix::fs::PermissionsExt;
        let path = std::env::temp_dir().join(format!("hobbychair-{}", uuid::Uuid::new_v4()));
        std::fs::write(&path, format!("#!/bin/sh\n{text}\n")).unwrap();
        std::fs::set_permissions(&path, std::fs::Permissions::from_mode(0o700)).unwrap();
        path
    }

    #[tokio::test]
    async fn a_program_that_closes_its_output_and_goes_on_is_ended() {
        let path = script("exec >&-; sleep 60");
        let mut cq = Cq::start_server(path.to_str().unwrap(), None).unwrap();
        assert_eq!(cq.output.read_u8().await.unwrap_err().kind(), io::ErrorKind::UnexpectedEof);
        let begun = std::time::Instant::now();
        assert_eq!(cq.end().await.to_string(), "cq is gone: it closed its output and went on");
        assert!(begun.elapsed() < 10 * LAST_MOMENTS);
        std::fs::remove_file(path).unwrap();
    }

    #[test]
    fn another_version_is_refused() {
        assert!(is_version("cq", &format!("cq {VERSION}\n")).is_ok());
        assert_eq!(is_version("cq", "").unwrap_err().to_string(), "cq doesn't say at --version that it is cq");
        let refused = is_version("cq", "cq 99.0.0\n").unwrap_err().to_string();
        assert_eq!(refused, format!("cq is of version 99.0.0, and this gateway needs {VERSION}"));
    }
}
