//! A program that is given what a file has, and answers its entries.
//!
//! Entries are given ahead, in one stream, and the answers come in their order. What was given and isn't answered yet is bounded.

use std::io::Write;
use std::path::PathBuf;

use anyhow::{anyhow, Result};
use bytes::Bytes;
use hobbychair_bytes::commands::{append_arrival, Command, Party, Response, NO_MEMORY};
use hobbychair_bytes::journal::{JournalFile, JournalFileError, Kept};
use hobbychair_bytes::moment::Moment;
use hobbychair_bytes::parts::{Cutter, FRAME_LIMIT_BYTES};
use hobbychair_bytes::values::{BadFrame, Part, StoreAnswer, StoreEntry, StoreReader, StoreReply, StoreRequest};
use hobbychair_store::cq::{Cq, CqError};
use hobbychair_store::pipes::{Input, Output};
use tokio::io::{AsyncReadExt, AsyncWriteExt};
use tokio::sync::mpsc;

use super::names::Names;
use super::{Source, TimedLine};
use crate::history::line::Line;
use crate::history::stored::{line_of_chunk, line_of_request, told};

/// So many bytes are written at once, or a little more.
const BATCH_BYTES: usize = 64 * 1024;

/// So many batches are given ahead.
const BATCHES: usize = 4;

/// So many bytes of answers are read at once.
const PIECE_BYTES: usize = 256 * 1024;

/// All arrivals are of this stream: none of them is refused.
const STREAM: u64 = 1;

/// Something that was given.
enum Given {
    Chunk(Vec<u8>),
    /// Behind the last chunk.
    EndOfStore,
    Entry(Moment, StoreRequest),
}

/// Why there are no more lines.
enum Halt {
    /// The program doesn't read or write any more.
    Gone(std::io::Error),
    /// Nobody takes lines.
    Unwanted,
    Failed(anyhow::Error),
}

impl<E: Into<anyhow::Error>> From<E> for Halt {
    fn from(error: E) -> Halt {
        Halt::Failed(error.into())
    }
}

/// Sends a line for each entry of a file, with its answer. Before these come lines of the store with which the file begins, if it
/// does so.
pub async fn tell(program: &str, source: Source, lines: &mpsc::Sender<Result<TimedLine>>) -> Result<()> {
    let Source { path, number, journal } = source;
    let mut cq = if journal.has_store() { Cq::start_loading(program)? } else { Cq::start_server(program, None)? };
    let (batches, given) = mpsc::channel(BATCHES);
    let giving = Giving { journal, last: 0 };
    let answers = Answers { output: &mut cq.output, cutter: Cutter::default() };
    let telling = Telling { path, file: number, answers, begin: 0, names: Names::default(), lines };
    match tokio::try_join!(giving.give(&mut cq.input, batches), telling.tell(given)) {
        Ok(_) | Err(Halt::Unwanted) => Ok(()),
        Err(Halt::Gone(error)) if error.kind() == std::io::ErrorKind::TimedOut => {
            Err(CqError::Gone(error.to_string()).into())
        }
        Err(Halt::Gone(_)) => Err(cq.end().await.into()),
        Err(Halt::Failed(error)) => Err(error),
    }
}

/// What a file has, as it is given to a program.
struct Giving {
    journal: JournalFile,
    /// The moment of the last entry.
    last: Moment,
}

impl Giving {
    /// Gives all of it. What is given is told before it is written, so that whoever reads the answers knows.
    async fn give(mut self, input: &mut Input, batches: mpsc::Sender<Vec<Given>>) -> Result<(), Halt> {
        loop {
            let (mut batch, mut bytes) = (Vec::new(), Vec::new());
            while bytes.len() < BATCH_BYTES {
                let Some(given) = self.next(&mut bytes)? else { break };
                batch.push(given);
            }
            if batch.is_empty() {
                return Ok(());
            }
            if batches.send(batch).await.is_err() {
                return Err(Halt::Unwanted);
            }
            input.write_all(&bytes).await.map_err(Halt::Gone)?;
        }
    }

    /// The next thing, whose command is appended.
    fn next(&mut self, out: &mut Vec<u8>) -> Result<Option<Given>, JournalFileError> {
        let given = match self.journal.next_kept()? {
            None => return Ok(None),
            Some(Kept::Chunk(chunk)) => {
                out.extend(Command::Load(Bytes::copy_from_slice(&chunk)).frame());
                Given::Chunk(chunk)
            }
            Some(Kept::EndOfStore) => {
                out.extend(Command::Load(Bytes::new()).frame());
                Given::EndOfStore
            }
            Some(Kept::Entry(entry)) => self.arrival(&entry, out)?,
        };
        Ok(Some(given))
    }

    fn arrival(&mut self, entry: &[u8], out: &mut Vec<u8>) -> Result<Given, JournalFileError> {
        let StoreEntry { moment, request, written } = StoreEntry::read(entry).map_err(|_| self.journal.damaged())?;
        if moment < self.last {
            return Err(self.journal.damaged());
        }
        self.last = moment;
        append_arrival(out, STREAM, moment, |out| out.extend_from_slice(written));
        Ok(Given::Entry(moment, request))
    }
}

/// What is given to a program, as lines tell it.
struct Telling<'a> {
    path: PathBuf,
    /// The number of the file.
    file: u64,
    answers: Answers<'a>,
    /// The moment of the store with which the file begins.
    begin: Moment,
    names: Names,
    lines: &'a mpsc::Sender<Result<TimedLine>>,
}

impl Telling<'_> {
    /// Sends the lines of all that is given.
    async fn tell(mut self, mut given: mpsc::Receiver<Vec<Given>>) -> Result<(), Halt> {
        let mut store = StoreReader::default();
        while let Some(batch) = given.recv().await {
            for given in batch {
                let line = match given {
                    Given::Chunk(chunk) => self.chunk(&mut store, &chunk).await?,
                    Given::EndOfStore => {
                        self.answers.loaded().await?;
                        continue;
                    }
                    Given::Entry(moment, request) => self.entry(moment, &request).await?,
                };
                let told = TimedLine { at: line.at, line: serde_json::to_string(&line)? };
                self.lines.send(Ok(told)).await.map_err(|_| Halt::Unwanted)?;
            }
        }
        Ok(())
    }

    async fn chunk(&mut self, store: &mut StoreReader, chunk: &[u8]) -> Result<Line, Halt> {
        let (mut entries, names, begin) = (None, &mut self.names, &mut self.begin);
        let read = store.feed(chunk, |part| match part {
            Part::Start { entries: count, last } => (entries, *begin) = (Some(count), last),
            part => names.load(&part),
        });
        read.map_err(|fault| anyhow!("the store with which it begins can't be read: {fault}"))?;
        if let Some(entries) = entries {
            let file = self.path.display();
            // Where nobody reads that, the line says so, too.
            let _ = writeln!(
                std::io::stderr(),
                "hobbychair: {file}: its first {entries} requests are gone: the history begins with the store that they made"
            );
        }
        self.answers.chunk().await?;
        Ok(line_of_chunk(self.file, self.begin, chunk))
    }

    async fn entry(&mut self, moment: Moment, request: &StoreRequest) -> Result<Line, Halt> {
        let reply = self.answers.to(request).await?;
        let incarnation = self.names.incarnation(request, &reply);
        let told = told(request, incarnation, &reply).ok_or_else(other)?;
        Ok(line_of_request(request, self.file, moment, told))
    }
}

/// What a program answers.
struct Answers<'a> {
    output: &'a mut Output,
    cutter: Cutter,
}

impl Answers<'_> {
    /// A chunk was taken.
    async fn chunk(&mut self) -> Result<(), Halt> {
        match self.next().await? {
            Response::Heard => Ok(()),
            _ => Err(other().into()),
        }
    }

    /// So was the last one.
    async fn loaded(&mut self) -> Result<(), Halt> {
        match self.next().await? {
            Response::Done(_) => Ok(()),
            _ => Err(other().into()),
        }
    }

    /// The reply to the next request.
    async fn to(&mut self, request: &StoreRequest) -> Result<StoreReply, Halt> {
        let mut reply = None;
        loop {
            match self.next().await? {
                Response::Put { to: Party::Clients, piece, .. } if reply.is_none() => {
                    let answer = StoreAnswer::read(&piece).map_err(BadFrame::from)?;
                    if (answer.client, answer.number, answer.is_of_query) != (request.client, request.number, false) {
                        return Err(other().into());
                    }
                    reply = Some(answer.reply);
                }
                Response::Done(_) => return reply.ok_or_else(|| other().into()),
                Response::Waiting(_) | Response::Refused(NO_MEMORY) => return Err(anyhow!("cq has no memory").into()),
                Response::Refused(code) | Response::Unread(code) => {
                    let what = format!("client {}'s request {}", request.client, request.number);
                    return Err(anyhow!("{what} is none that a server takes: cq refuses it by {code}").into());
                }
                _ => return Err(other().into()),
            }
        }
    }

    async fn next(&mut self) -> Result<Response, Halt> {
        loop {
            if let Some(frame) = self.cutter.next(FRAME_LIMIT_BYTES).map_err(BadFrame)? {
                return Ok(Response::read(frame).map_err(BadFrame)?);
            }
            self.cutter.buffer.reserve(PIECE_BYTES);
            let read = self.output.read_buf(&mut self.cutter.buffer).await.map_err(Halt::Gone)?;
            if read == 0 {
                return Err(Halt::Gone(std::io::ErrorKind::UnexpectedEof.into()));
            }
        }
    }
}

fn other() -> anyhow::Error {
    anyhow!("cq answered what it wasn't asked")
}
