//! A store that a program `cq server` keeps: it is given commands, and what comes of them is heard (docs/PROCESSES.md).
//!
//! Requests are given ahead, in one stream. One that isn't taken ends the stream, and what was given behind it did nothing:
//! that is given again in the next stream, in the same order, under its numbers and with its first clocks. So the program
//! takes what it is asked in the order in which it was asked first, but for what somebody was told that it isn't done.

mod start;
#[cfg(test)]
mod tests;

use std::collections::{HashMap, VecDeque};
use std::path::{Path, PathBuf};
use std::sync::Arc;
use std::time::Duration;

use hobbychair_bytes::commands::{append_arrival, append_query, Command, Party, Response, NO_MEMORY, NO_ROOM};
use hobbychair_bytes::parts::{Malformed, FRAME_LIMIT_BYTES};
use hobbychair_bytes::values::{BadFrame, Part, StoreAnswer, StoreReader};
use hobbychair_sqs::errors::SqsError;
use hobbychair_tables::ask::{Ask, Cause, Outcome};
use tokio::time::Instant;

use super::{append_ask, append_count, append_moment, is_answer_to, take_due, Ended, Heard, KeptNumbers};
use crate::cq::{Cq, CqError, KeptFile, Making};
use crate::exchange::{Entry, Exchange, Open};
use crate::figures::Counters;
use crate::room::{adds, refusal_for_room};
pub(super) use start::start;
pub use start::ToldError;

/// After this time something is tried again for which there was no memory.
const MEMORY_PAUSE: Duration = Duration::from_millis(50);

/// What is known of the program.
pub(crate) struct ProgramBackend {
    /// By what another one is started, where it keeps its entries.
    again: Option<StartAgain>,
    counters: Arc<Counters>,
    /// That of the last request or query.
    last_number: u64,
    /// The number of the stream of requests.
    stream: u64,
    /// The commands that it hasn't answered yet, in their order.
    given: VecDeque<Given>,
    /// There was no memory for a request: until then nothing more is given, and then that one first.
    stopped: Option<Stop>,
    /// The answer that is being read says that answers wait for memory.
    tells_of_waiting: bool,
    /// Answers wait for memory, and are asked for at this moment.
    more: Option<Instant>,
    /// How many entries its store has, as far as it has told.
    entries: u64,
}

/// By what a program is started again that keeps its entries.
pub(crate) struct StartAgain {
    pub(crate) program: String,
    /// So long an answer of it may take.
    pub(crate) patience: Duration,
    pub(crate) file: KeptFile,
}

/// A command that was given.
#[derive(Clone, Copy)]
struct Given {
    /// The stream that requests were of when it was given.
    stream: u64,
    /// That of the request, or the tag of the query; 0 where it is neither.
    number: u64,
}

struct Stop {
    until: Instant,
    /// That of the request for which there was no memory.
    number: u64,
}

impl ProgramBackend {
    /// One whose store has so many entries. Numbers begin above the last one.
    pub(crate) fn new(
        last_number: u64,
        entries: u64,
        again: Option<StartAgain>,
        counters: Arc<Counters>,
    ) -> ProgramBackend {
        let (given, stopped, tells_of_waiting, more) = Default::default();
        ProgramBackend { again, counters, last_number, stream: 1, given, stopped, tells_of_waiting, more, entries }
    }

    pub(super) fn next_number(&mut self) -> u64 {
        self.last_number += 1;
        self.last_number
    }

    /// The file in which it keeps its entries, if it does.
    pub(super) fn file(&self) -> Option<&Path> {
        self.again.as_ref().map(|again| again.file.path.as_path())
    }

    /// Gives what an entry asks, unless all waits for memory: then it is given when that is over.
    pub(super) fn give(&mut self, entry: &Entry, out: &mut Vec<u8>) {
        let Some(number) = entry.number().filter(|_| !self.is_stopped()) else { return };
        self.given.push_back(Given { stream: self.stream, number });
        match entry {
            Entry::Ask(asked) => append_arrival(out, self.stream, asked.moment, |out| append_ask(out, asked)),
            Entry::Moment { moment, number } => {
                append_arrival(out, self.stream, *moment, |out| append_moment(out, *number));
            }
            Entry::Count { tag, queue, .. } | Entry::Probe { tag, queue } => {
                append_query(out, |out| append_count(out, *tag, queue));
            }
            Entry::Ready(_) => {}
        }
    }

    /// Gives what is open from this place on.
    fn give_from(&mut self, place: usize, exchange: &mut Exchange) {
        exchange.open.iter().skip(place).for_each(|one| self.give(&one.entry, &mut exchange.out.bytes));
    }

    /// Whether all waits for memory.
    pub(super) fn is_stopped(&self) -> bool {
        self.stopped.is_some()
    }

    /// The request from which on all is to be given at this moment, if one is.
    fn take_stopped(&mut self, now: Instant) -> Option<u64> {
        let number = self.stopped.as_ref().filter(|stop| stop.until <= now)?.number;
        self.stopped = None;
        Some(number)
    }

    pub(super) fn due(&self) -> Option<Instant> {
        self.stopped.iter().map(|stop| stop.until).chain(self.more).min()
    }

    /// Gives what is to be given at this moment.
    pub(super) fn tick(&mut self, exchange: &mut Exchange) {
        let now = Instant::now();
        if let Some(number) = self.take_stopped(now) {
            let place = exchange.open.iter().position(|open| open.entry.number() == Some(number));
            self.give_from(place.unwrap_or(exchange.open.len()), exchange);
        }
        if take_due(&mut self.more, now) {
            exchange.out.bytes.extend(Command::More(Party::Clients).frame());
            self.given.push_back(Given { stream: self.stream, number: 0 });
        }
    }

    pub(super) fn hear(&mut self, exchange: &mut Exchange) -> Result<Option<Heard>, Ended> {
        let Some(frame) = exchange.incoming.next(FRAME_LIMIT_BYTES).map_err(BadFrame)? else { return Ok(None) };
        let heard = match Response::read(frame).map_err(BadFrame)? {
            Response::Put { to: Party::Clients, piece, .. } => take_put(&piece, exchange)?,
            Response::Waiting(Party::Clients) => {
                self.tells_of_waiting = true;
                Heard::Nothing
            }
            Response::Done(standing) => {
                self.entries = standing.count;
                self.command_done(exchange)?
            }
            Response::Refused(code) | Response::Unread(code) => self.command_refused(code, exchange)?,
            _ => return Err(BadFrame(Malformed("it means nothing to this gateway")).into()),
        };
        Ok(Some(heard))
    }

    /// The command at the front is answered.
    fn close(&mut self) -> Result<Given, BadFrame> {
        Ok(self.given.pop_front().ok_or(Malformed("it answers what nobody asked for"))?)
    }

    fn command_done(&mut self, exchange: &Exchange) -> Result<Heard, Ended> {
        let given = self.close()?;
        if std::mem::take(&mut self.tells_of_waiting) {
            self.more.get_or_insert_with(|| Instant::now() + MEMORY_PAUSE);
            return Ok(Heard::Nothing);
        }
        self.more = None;
        match exchange.open.front().and_then(|open| open.entry.number()) {
            Some(number) if number == given.number => Err(Ended::Unanswered(number)),
            _ => Ok(Heard::Nothing),
        }
    }

    /// A command did nothing. Requests of a stream that has ended are given again by then, or will be.
    fn command_refused(&mut self, code: u32, exchange: &mut Exchange) -> Result<Heard, Ended> {
        let given = self.close()?;
        let open = &mut exchange.open;
        let place = open.iter().position(|open| open.entry.number() == Some(given.number));
        let Some((place, found)) = place.and_then(|place| Some((place, open.get_mut(place)?))) else {
            return Ok(Heard::Nothing);
        };
        match &found.entry {
            Entry::Count { .. } => {
                let without_memory = SqsError::ServiceUnavailable("The store has no memory left.".into());
                let refusal = if code == NO_MEMORY { without_memory } else { SqsError::of_refusal(code) };
                found.entry = Entry::Ready(Some(Err(refusal)));
                Ok(Heard::Refused(Vec::new()))
            }
            // That is an answer, too.
            Entry::Probe { .. } => {
                found.entry = Entry::Ready(None);
                Ok(Heard::Refused(Vec::new()))
            }
            Entry::Ask(_) | Entry::Moment { .. } if given.stream == self.stream => {
                self.end_stream(place, exchange);
                match code {
                    NO_ROOM => self.request_without_room(place, exchange),
                    NO_MEMORY => Ok(self.request_without_memory(place, exchange)),
                    _ => Ok(self.request_unread(place, code, exchange)),
                }
            }
            Entry::Ask(_) | Entry::Moment { .. } | Entry::Ready(_) => Ok(Heard::Nothing),
        }
    }

    /// The request at this place wasn't taken: what was given behind it comes again. A query may have been answered by then,
    /// too early, so it has another tag the next time.
    fn end_stream(&mut self, place: usize, exchange: &mut Exchange) {
        self.stream += 1;
        for one in exchange.open.iter_mut().skip(place) {
            if let Entry::Count { tag, .. } | Entry::Probe { tag, .. } = &mut one.entry {
                *tag = self.next_number();
            }
        }
    }

    /// The program's journal has no room for a request. It did nothing, and is told so.
    fn request_without_room(&mut self, place: usize, exchange: &mut Exchange) -> Result<Heard, Ended> {
        match exchange.open.get(place).map(|open| &open.entry) {
            Some(Entry::Ask(asked)) if asked.is_done => Err(Ended::Full),
            Some(Entry::Ask(asked)) => {
                let (refusal, source) = (refusal_for_room(adds(&asked.ask)), source_of(&asked.ask));
                self.counters.count_lack_of_room();
                // Copies of a group's messages are there in their order.
                let are_refused = |ask: &Ask| source.is_some() && source_of(ask) == source;
                Ok(self.refuse(place, refusal, exchange, are_refused))
            }
            _ => Ok(self.moment_without_room(place, exchange)),
        }
    }

    /// A request that only moves the moment on is seen to answer all the same. A count behind it would be of an earlier moment.
    fn moment_without_room(&mut self, place: usize, exchange: &mut Exchange) -> Heard {
        if let Some(open) = exchange.open.get_mut(place) {
            open.entry = Entry::Ready(open.sender.is_some().then_some(Ok(Outcome::Done)));
        }
        if let Some(Open { entry: entry @ Entry::Count { .. }, .. }) = exchange.open.get_mut(place + 1) {
            *entry = Entry::Ready(Some(Err(refusal_for_room(false))));
        }
        self.give_from(place, exchange);
        Heard::Refused(Vec::new())
    }

    /// A send of a client for which there is no memory is given up, so that what frees memory comes behind it. All else waits.
    fn request_without_memory(&mut self, place: usize, exchange: &mut Exchange) -> Heard {
        let (number, is_given_up) = match exchange.open.get(place).map(|open| &open.entry) {
            Some(Entry::Ask(asked)) => (asked.number, adds(&asked.ask) && !asked.is_done),
            Some(Entry::Moment { number, .. }) => (*number, false),
            _ => return Heard::Nothing,
        };
        if is_given_up {
            let refusal = SqsError::OverLimit("The store has no memory left.".into());
            return self.refuse(place, refusal, exchange, |_| false);
        }
        tracing::warn!("cq has no memory for a request, which is given to it again");
        self.stopped = Some(Stop { until: Instant::now() + MEMORY_PAUSE, number });
        Heard::Refused(Vec::new())
    }

    /// A request that the program can't read is refused.
    fn request_unread(&mut self, place: usize, code: u32, exchange: &mut Exchange) -> Heard {
        if let Some(Open { entry: Entry::Ask(asked), .. }) = exchange.open.get(place) {
            let (queue, bytes) = (&asked.queue.name, asked.written.len());
            // What stands in it is the client's, and goes to no log.
            tracing::warn!(%queue, bytes, "cq refused {} ({code})", asked.ask.kind());
        }
        self.refuse(place, SqsError::of_refusal(code), exchange, |_| false)
    }

    /// Refuses the request at this place, and of the asks behind it those that `are_refused`, too. All others are given again.
    fn refuse(
        &mut self,
        place: usize,
        refusal: SqsError,
        exchange: &mut Exchange,
        are_refused: impl Fn(&Ask) -> bool,
    ) -> Heard {
        let mut refused = Vec::new();
        for (index, one) in exchange.open.iter_mut().enumerate().skip(place) {
            let (is_refused, is_answered) = match &one.entry {
                Entry::Ask(asked) => (index == place || are_refused(&asked.ask), true),
                Entry::Moment { .. } => (index == place, one.sender.is_some()),
                _ => (false, false),
            };
            if is_refused {
                let answer = is_answered.then(|| Err(refusal.clone()));
                if let Entry::Ask(asked) = std::mem::replace(&mut one.entry, Entry::Ready(answer)) {
                    refused.push(*asked);
                }
            }
        }
        self.give_from(place, exchange);
        Heard::Refused(refused)
    }

    /// Starts another program on the same file. It knows nothing of a stream, and of all that was given it has kept what it did.
    pub(super) async fn start_again(&mut self, pipe: &mut Cq) -> Result<KeptNumbers, Ended> {
        let Some(StartAgain { program, patience, file }) = &self.again else { return Err(pipe.end().await.into()) };
        pipe.stop().await;
        let (mut reader, mut kept) = (StoreReader::default(), HashMap::new());
        let mut take = |chunk: &[u8]| {
            let read = reader.feed(chunk, |part| {
                if let Part::Client { client, number, .. } = part {
                    kept.insert(client, number);
                }
            });
            Ok(read?)
        };
        // Whatever stands there now, no journal is made.
        let file = KeptFile { making: Making::Refused, ..file.clone() };
        let started = start::start_on(program, &file, *patience, Some(&mut take)).await;
        let ready = started.map_err(|why| why_not_started(file.path.clone(), why))?;
        if ready.entries < self.entries {
            return Err(Ended::FileChanged { file: file.path, found: ready.entries, heard: self.entries });
        }
        *pipe = ready.cq;
        *self = ProgramBackend::new(self.last_number, ready.entries, self.again.take(), self.counters.clone());
        Ok(kept)
    }
}

/// Takes an answer. Those come in the order of the asks. One to a query that nobody waits for is of a query that was given
/// again.
fn take_put(piece: &[u8], exchange: &Exchange) -> Result<Heard, Ended> {
    let answer = StoreAnswer::read(piece).map_err(BadFrame::from)?;
    let is_asked = |open: &Open| open.entry.number() == Some(answer.number);
    match exchange.open.front() {
        Some(open) if is_answer_to(&answer, &open.entry) => Ok(Heard::Answer(answer.reply)),
        _ if answer.is_of_query && !exchange.open.iter().any(is_asked) => Ok(Heard::Nothing),
        _ => Err(Ended::NotNext { client: answer.client, number: answer.number }),
    }
}

/// The queue out of which this sends a copy, if it does.
fn source_of(ask: &Ask) -> Option<u64> {
    match ask {
        Ask::Send { cause: Cause::Move(origin), .. } => Some(origin.mark),
        _ => None,
    }
}

/// Why a program isn't started again on its file.
fn why_not_started(file: PathBuf, why: ToldError) -> Ended {
    match why {
        ToldError::Cq(CqError::FileMissing) => Ended::FileGone(file),
        ToldError::Cq(_) | ToldError::BadFrame(_) => Ended::NotStartedAgain { file, why },
        // These have the file's name.
        ToldError::Image { .. } | ToldError::NoMemory(_) => why.into(),
    }
}
