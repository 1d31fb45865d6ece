//! Starts programs, and takes up what they tell of their stores. Before, the files of a journal are taken, or made.

use std::path::{Path, PathBuf};
use std::time::{Duration, Instant};

use bytes::Bytes;
use hobbychair_bytes::commands::{Command, Response, NO_MEMORY};
use hobbychair_bytes::parts::{Cutter, Malformed, FRAME_LIMIT_BYTES};
use hobbychair_bytes::values::BadFrame;
use hobbychair_tables::image::{Image, ImageError};
use hobbychair_tables::queues::Queues;
use thiserror::Error;
use tokio::io::AsyncWriteExt;

use super::{ProgramBackend, StartAgain};
use crate::backend::start::{go_on_from, Programs, StartError, Started, StartedPipe, Take};
use crate::backend::Backend;
use crate::cq::{Cq, CqError, KeptFile};
use crate::journal::{emptied, has_had_requests, has_one_name, take_space, Files, JournalError, Lock};
use crate::shared::Shared;

/// Starts a program for each shard, and makes the tables of what each tells of its store, if it keeps its entries.
pub(in crate::backend) async fn start(programs: &Programs, shared: &Shared) -> Result<Started, StartError> {
    match &programs.journal {
        Some(files) => start_kept(programs, files, shared).await,
        None => start_without_journal(programs, shared),
    }
}

fn start_without_journal(programs: &Programs, shared: &Shared) -> Result<Started, StartError> {
    let (shards, now, mut pipes) = (programs.shards, shared.clock.now(), Vec::new());
    for _ in shards.all() {
        let pipe = Cq::start_server(&programs.program, None).map_err(ToldError::from)?;
        // Numbers in use begin above all that any earlier run can have used.
        let backend = ProgramBackend::new(now << 20, 0, None, shared.counters.clone());
        pipes.push(started(pipe.with_patience(programs.patience), backend));
    }
    Ok(Started { shards, pipes, paused: Some((0, now)), requests: 0, lock: None })
}

fn started(pipe: Cq, backend: ProgramBackend) -> StartedPipe {
    StartedPipe { pipe, backend: Backend::Program(backend), incoming: Cutter::default() }
}

async fn start_kept(programs: &Programs, files: &Files, shared: &Shared) -> Result<Started, StartError> {
    let lock = take_journal(programs, files).await?;
    take_space_of_all(programs, files).await;
    let shards = programs.shards;
    let starting: Vec<_> = shards
        .all()
        .map(|shard| {
            let Programs { program, patience, .. } = programs.clone();
            let (again, queues) =
                (StartAgain { program, patience, file: files.of(shard.place()) }, shared.queues.clone());
            tokio::spawn(async move { tell(&again, &queues).await.map(|(ready, image)| (again, ready, image)) })
        })
        .collect();
    let has_had_requests = has_had_requests(files.path()).map_err(JournalError::from)?;
    let (mut pipes, mut last, mut requests) = (Vec::new(), 0, 0);
    for (shard, starting) in shards.all().zip(starting) {
        let (again, ready, image) = starting.await??;
        if ready.entries == 0 && has_had_requests {
            return Err(emptied(files.path(), &again.file.path).into());
        }
        last = last.max(image.last());
        requests += ready.entries;
        let largest = image.largest_number();
        shared.queues.take_up(shard, image).map_err(|why| StartError::of_image(&again.file.path, why))?;
        let backend = ProgramBackend::new(largest, ready.entries, Some(again), shared.counters.clone());
        pipes.push(started(ready.cq, backend));
    }
    go_on_from(&shared.clock, last);
    Ok(Started { shards, pipes, paused: Some((last, shared.clock.now())), requests, lock: Some(lock) })
}

/// Starts a program that keeps its entries, and takes up what it tells of its store. Where it ends meanwhile, it is started once
/// more.
async fn tell(again: &StartAgain, queues: &Queues) -> Result<(Ready, Image), StartError> {
    let StartAgain { program, patience, file } = again;
    let mut has_ended = false;
    loop {
        let mut image = queues.new_image();
        let mut take = |chunk: &[u8]| image.feed(chunk);
        match start_on(program, file, *patience, Some(&mut take)).await {
            Ok(ready) => return Ok((ready, image)),
            Err(error) if error.is_of_program() && !has_ended => {
                tracing::warn!("cq is started again. Before, {error}");
                has_ended = true;
            }
            Err(error) => return Err(StartError::of_file(&file.path, error)),
        }
    }
}

/// Has the files of the journal be there. Nobody else has them for as long as what this gives is kept.
async fn take_journal(programs: &Programs, files: &Files) -> Result<Lock, StartError> {
    let lock = files.lock()?;
    if !files.is_there()? {
        let made = make_files(programs, files).await;
        if made.is_err() {
            // What a full disk took of them is wanted by others.
            let _ = files.clear_fresh();
        }
        made?;
        files.publish().map_err(JournalError::from)?;
    }
    Ok(lock)
}

/// Has programs make the files, by the names that these have first.
async fn make_files(programs: &Programs, files: &Files) -> Result<(), StartError> {
    for shard in programs.shards.all() {
        let file = files.fresh(shard.place());
        let made = start_on(&programs.program, &file, programs.patience, None).await;
        made.map_err(|why| StartError::OfFile { file: file.path, why })?;
    }
    Ok(())
}

/// A journal that was put back from a copy has as much space as it needs so far, and the disk may be full when it needs more. What is
/// wrong with a file is told by its program.
async fn take_space_of_all(programs: &Programs, files: &Files) {
    let paths: Vec<_> = programs.shards.all().map(|shard| files.of(shard.place()).path).collect();
    let taking = tokio::task::spawn_blocking(move || {
        for path in paths.iter().filter(|path| has_one_name(path)) {
            if let Err(error) = take_space(path) {
                tracing::warn!("{error}");
            }
        }
    });
    // It doesn't panic.
    let _ = taking.await;
}

/// So long a program may have the file that was ended just before.
const BUSY: Duration = Duration::from_secs(5);
const BUSY_PAUSE: Duration = Duration::from_millis(50);

/// Why a program told nothing that can be worked with.
#[derive(Debug, Error)]
pub enum ToldError {
    #[error(transparent)]
    Cq(#[from] CqError),
    #[error(transparent)]
    BadFrame(#[from] BadFrame),
    #[error("{}: {why}", .file.display())]
    Image { file: PathBuf, why: ImageError },
    #[error("cq has no memory to tell the store of {}", .0.display())]
    NoMemory(PathBuf),
}

impl ToldError {
    /// Whether the program is gone, or as good as that: another one may do better.
    pub fn is_of_program(&self) -> bool {
        match self {
            ToldError::Cq(error) => !error.is_of_lost_file(),
            ToldError::BadFrame(_) => true,
            ToldError::Image { .. } | ToldError::NoMemory(_) => false,
        }
    }

    /// Whether the program ended before it was ready, and said nothing of its file: it was killed, say.
    pub fn is_end_before_ready(&self) -> bool {
        match self {
            ToldError::Cq(error) => error.is_gone() && !error.is_of_journal(),
            ToldError::BadFrame(_) => true,
            ToldError::Image { .. } | ToldError::NoMemory(_) => false,
        }
    }
}

/// A program that is ready, and how many entries its store took.
pub struct Ready {
    pub cq: Cq,
    pub entries: u64,
}

/// Starts a program on a file, and takes up its store, if that is wanted. One that was ended just before may have the file for a
/// moment.
pub(super) async fn start_on(
    program: &str,
    file: &KeptFile,
    patience: Duration,
    mut take: Option<&mut Take<'_>>,
) -> Result<Ready, ToldError> {
    let begun = Instant::now();
    loop {
        let mut telling = Telling { cq: Cq::start_server(program, Some(file))?, cutter: Cutter::default() };
        match telling.read(&file.path, take.as_deref_mut()).await {
            Err(ToldError::Cq(error)) if error.is_busy() && begun.elapsed() < BUSY => {
                tokio::time::sleep(BUSY_PAUSE).await
            }
            Err(error) => return Err(error),
            Ok(entries) => return Ok(Ready { cq: telling.cq.with_patience(patience), entries }),
        }
    }
}

struct Telling {
    cq: Cq,
    cutter: Cutter,
}

impl Telling {
    /// Reads what the program tells. Tells how many entries its store took.
    async fn read(&mut self, file: &Path, take: Option<&mut Take<'_>>) -> Result<u64, ToldError> {
        let Response::Done(standing) = self.next().await? else { return Err(none_asked()) };
        if let Some(take) = take {
            self.save().await?;
            while let Some(chunk) = self.chunk(file).await? {
                // The next one is made meanwhile.
                self.save().await?;
                take(&chunk).map_err(|why| ToldError::Image { file: file.into(), why })?;
            }
        }
        Ok(standing.count)
    }

    /// Asks for the next chunk. Behind the last one there is nothing to be asked for: that would be another copy.
    async fn save(&mut self) -> Result<(), ToldError> {
        let frame = Command::Save.frame();
        Ok(self.cq.input.write_all(&frame).await.map_err(|error| CqError::Gone(error.to_string()))?)
    }

    /// The chunk that was asked for, or nothing behind the last one.
    async fn chunk(&mut self, file: &Path) -> Result<Option<Bytes>, ToldError> {
        let chunk = match self.next().await? {
            Response::Saved { chunk, .. } => chunk,
            Response::Refused(NO_MEMORY) => return Err(ToldError::NoMemory(file.into())),
            _ => return Err(none_asked()),
        };
        match self.next().await? {
            Response::Done(_) => Ok((!chunk.is_empty()).then_some(chunk)),
            _ => Err(none_asked()),
        }
    }

    async fn next(&mut self) -> Result<Response, ToldError> {
        loop {
            if let Some(frame) = self.cutter.next(FRAME_LIMIT_BYTES).map_err(BadFrame)? {
                return Ok(Response::read(frame).map_err(BadFrame)?);
            }
            self.cq.read(&mut self.cutter.buffer).await?;
        }
    }
}

fn none_asked() -> ToldError {
    BadFrame(Malformed("it is none of what was asked for")).into()
}
