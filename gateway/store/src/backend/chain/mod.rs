//! A store that the servers of a chain keep: frames go to and fro between it and the node of the head beside this gateway
//! (docs/CLUSTER.md, "The gateway's pipe").
//!
//! Requests go to the head in the order in which they were asked first, and are asked again in that order under their numbers
//! and with their first clocks: whatever the chain has by then it answers as it did the first time. Answers are settled in the
//! order of the asks, however they come.

mod start;
#[cfg(test)]
mod tests;

use std::collections::HashMap;
use std::time::Duration;

use hobbychair_bytes::parts::{Malformed, FRAME_LIMIT_BYTES};
use hobbychair_bytes::pipe::{FromGateway, FromNode};
use hobbychair_bytes::values::{RequestName, StoreAnswer, StoreReply};
use hobbychair_sqs::errors::SqsError;
use tokio::time::Instant;

use super::{append_ask, append_count, append_moment, is_answer_to, take_due, Ended, Heard};
use crate::exchange::{Entry, Exchange, Open, OpenAsk};
use crate::room::adds;
use crate::shared::Shared;
pub(super) use start::start;
pub use start::BesideNodeError;

/// Behind a refusal all is asked again after this time: there was no memory.
const MEMORY_PAUSE: Duration = Duration::from_millis(50);

/// So long the answer to a query is waited for, before it is asked again.
const QUERY_PATIENCE: Duration = Duration::from_secs(1);

/// While so many moments aren't answered, nothing more is asked: what the tables have to say shares one as far as it came by then.
const MOST_MOMENTS: usize = 128;

/// By this a server refuses what it has no memory for.
const NO_MEMORY: u32 = 20;

/// By these a server refuses what it can't read, whenever it is asked.
const UNREADABLE: std::ops::RangeInclusive<u32> = 91..=96;

/// So many numbers are between two of one gateway's requests. Its server's number says which ones are its own: a gateway whose
/// server was detected, and which hasn't heard of that, hears the answers to the next one's requests, and takes none of them
/// for its own. What one server's gateways ask one after the other has other numbers, since each begins above all that its server
/// was given.
const STEP: u64 = 1 << 16;

/// The largest number of the gateway beside that server that isn't above `largest` by a step.
fn number_before(largest: u64, server: u32) -> u64 {
    largest / STEP * STEP + u64::from(server) % STEP
}

/// What is known of the chain.
pub(crate) struct ChainBackend {
    shared: Shared,
    /// That of the last request or query.
    last_number: u64,
    /// The number of the stream of requests.
    stream: u64,
    /// Answers to entries that aren't at the front, by their numbers.
    early: HashMap<u64, StoreReply>,
    /// When all that is open is asked again, behind a refusal.
    again: Option<Instant>,
    /// When queries are asked again.
    queries: Option<Instant>,
    /// So many moments aren't answered.
    moments: usize,
}

impl ChainBackend {
    /// One whose clients have used no number above `largest`, beside the server of this number.
    pub(crate) fn new(largest: u64, server: u32, shared: Shared) -> ChainBackend {
        let (early, again, queries, moments) = Default::default();
        ChainBackend { shared, last_number: number_before(largest, server), stream: 1, early, again, queries, moments }
    }

    pub(super) fn next_number(&mut self) -> u64 {
        self.last_number += STEP;
        self.last_number
    }

    /// Whether nothing new is asked: the stream has ended, and what is open comes first in the next one, or too many moments wait.
    pub(super) fn is_stopped(&self) -> bool {
        self.again.is_some() || self.moments >= MOST_MOMENTS
    }

    /// Asks for the first time.
    pub(super) fn give(&mut self, entry: &Entry, out: &mut Vec<u8>) {
        self.moments += usize::from(matches!(entry, Entry::Moment { .. }));
        self.ask(entry, out);
    }

    /// Asks what an entry asks. A server that acts is asked for counts by another way than requests are: only behind the answer to
    /// the moment before.
    fn ask(&self, entry: &Entry, out: &mut Vec<u8>) {
        match entry {
            Entry::Ask(asked) => self.request(out, asked.moment, |out| append_ask(out, asked)),
            Entry::Moment { moment, number } => self.request(out, *moment, |out| append_moment(out, *number)),
            Entry::Count { tag, queue, least: Some(_) } => {
                let mut query = Vec::new();
                append_count(&mut query, *tag, queue);
                out.extend(FromGateway::Query { query: query.into() }.bytes());
            }
            Entry::Count { .. } | Entry::Probe { .. } | Entry::Ready(_) => {}
        }
    }

    /// Appends a request, which `write` writes.
    fn request(&self, out: &mut Vec<u8>, clock: u64, write: impl FnOnce(&mut Vec<u8>)) {
        let mut request = Vec::new();
        write(&mut request);
        out.extend(FromGateway::Request { stream: self.stream, clock, request: request.into() }.bytes());
    }

    pub(super) fn due(&self) -> Option<Instant> {
        self.again.into_iter().chain(self.queries).min()
    }

    /// Asks again what is to be asked at this moment.
    pub(super) fn tick(&mut self, exchange: &mut Exchange) {
        let now = Instant::now();
        if take_due(&mut self.again, now) {
            self.ask_open_again(exchange);
        } else if take_due(&mut self.queries, now) {
            self.ask_queries_again(exchange);
        }
    }

    /// An answer that came early is heard when it is its turn.
    pub(super) fn hear(&mut self, exchange: &mut Exchange) -> Result<Option<Heard>, Ended> {
        if let Some(reply) = self.take_early(exchange) {
            return Ok(Some(self.answer_front(reply, exchange)));
        }
        let Some(frame) = exchange.incoming.next(FRAME_LIMIT_BYTES)? else { return Ok(None) };
        self.hear_frame(FromNode::read(frame)?, exchange).map(Some)
    }

    fn hear_frame(&mut self, told: FromNode, exchange: &mut Exchange) -> Result<Heard, Ended> {
        match told {
            FromNode::Time { time, since_start } => {
                self.shared.clock.follow(time, since_start);
                // It has taken up the store.
                let alive = FromGateway::Alive { time, far: 0, serves: self.shared.counters.serves() };
                exchange.out.bytes.extend(alive.bytes());
            }
            FromNode::Answer { message } => {
                return Ok(self.take_answer(StoreAnswer::read(&message).map_err(Malformed::from)?, exchange));
            }
            // The next stream is to begin anyhow.
            FromNode::Acts if self.again.is_some() => {}
            FromNode::Acts => self.ask_open_again(exchange),
            FromNode::Refused { stream, code, request } => return self.stream_refused(stream, code, request, exchange),
            FromNode::Room { memory, is_disk_short } => self.shared.admission.bound_by_chain(memory, is_disk_short),
            FromNode::Chunk { .. } | FromNode::Stored { .. } | FromNode::Paused { .. } => {}
        }
        Ok(Heard::Nothing)
    }

    /// Takes an answer, or keeps it until those to all earlier entries are there. One that nobody waits for is the second to
    /// something that was asked twice.
    fn take_answer(&mut self, answer: StoreAnswer, exchange: &mut Exchange) -> Heard {
        let Some(place) = exchange.open.iter().position(|open| is_answer_to(&answer, &open.entry)) else {
            return Heard::Nothing;
        };
        let StoreAnswer { number, length, reply, .. } = answer;
        match &exchange.open[place].entry {
            Entry::Moment { .. } => self.ask_count_behind(place, length, exchange),
            // The server was detected, and hadn't heard of that.
            Entry::Count { least, .. } if least.map_or(true, |least| length < least) => return Heard::Nothing,
            _ => {}
        }
        if place > 0 {
            self.early.insert(number, reply);
            return Heard::Nothing;
        }
        self.answer_front(reply, exchange)
    }

    /// The entry at the front is answered.
    fn answer_front(&mut self, reply: StoreReply, exchange: &Exchange) -> Heard {
        let is_moment = matches!(exchange.open.front(), Some(Open { entry: Entry::Moment { .. }, .. }));
        self.moments -= usize::from(is_moment);
        Heard::Answer(reply)
    }

    /// The answer to the entry at the front, if it came early.
    fn take_early(&mut self, exchange: &Exchange) -> Option<StoreReply> {
        if self.early.is_empty() {
            return None;
        }
        self.early.remove(&exchange.open.front()?.entry.number()?)
    }

    fn has_answer(&self, entry: &Entry) -> bool {
        entry.number().is_some_and(|number| self.early.contains_key(&number))
    }

    /// The request before a count was answered: the count is asked of a server that has it.
    fn ask_count_behind(&mut self, place: usize, length: u64, exchange: &mut Exchange) {
        let Some(Open { entry, .. }) = exchange.open.get_mut(place + 1) else { return };
        let Entry::Count { least: least @ None, .. } = entry else { return };
        *least = Some(length);
        self.queries.get_or_insert_with(|| Instant::now() + QUERY_PATIENCE);
        self.ask(entry, &mut exchange.out.bytes);
    }

    /// The stream has ended: from some request on nothing was taken.
    fn stream_refused(
        &mut self,
        stream: u64,
        code: u32,
        request: Option<RequestName>,
        exchange: &mut Exchange,
    ) -> Result<Heard, Ended> {
        if self.stream != stream || self.again.is_some() {
            return Ok(Heard::Nothing);
        }
        if UNREADABLE.contains(&code) {
            return Err(Ended::Unread(code));
        }
        tracing::warn!(code, "requests were refused by the head, and are asked again");
        let now = Instant::now();
        match request.filter(|_| code == NO_MEMORY).and_then(|request| give_up_send(request, exchange)) {
            Some(asked) => {
                self.again = Some(now);
                Ok(Heard::Refused(vec![asked]))
            }
            None => {
                self.again = Some(now + MEMORY_PAUSE);
                Ok(Heard::Nothing)
            }
        }
    }

    /// Asks all that is open once more, in its order. What has its answer needs none. The next stream takes the place of what the
    /// node hasn't given the server yet.
    fn ask_open_again(&mut self, exchange: &mut Exchange) {
        self.stream += 1;
        for one in exchange.open.iter_mut().filter(|one| !self.has_answer(&one.entry)) {
            if let Entry::Ask(asked) = &mut one.entry {
                asked.ends += 1;
            }
            self.ask(&one.entry, &mut exchange.out.bytes);
        }
    }

    /// Asks for the counts again whose answers didn't come.
    fn ask_queries_again(&mut self, exchange: &mut Exchange) {
        let waits = |entry: &&Entry| matches!(entry, Entry::Count { least: Some(_), .. }) && !self.has_answer(entry);
        let waiting: Vec<_> = exchange.open.iter().map(|open| &open.entry).filter(waits).collect();
        waiting.iter().for_each(|entry| self.ask(entry, &mut exchange.out.bytes));
        if !waiting.is_empty() {
            self.queries = Some(Instant::now() + QUERY_PATIENCE);
        }
    }
}

/// Gives up a send of a client for which the head has no memory, so that what frees memory comes behind it. It was asked once, so
/// nobody has it. Nothing where the request is another one.
fn give_up_send(RequestName { client, number }: RequestName, exchange: &mut Exchange) -> Option<OpenAsk> {
    let is_it = |open: &&mut Open| match &open.entry {
        Entry::Ask(asked) => (asked.client, asked.number, asked.ends) == (client, number, 0) && adds(&asked.ask),
        _ => false,
    };
    let open = exchange.open.iter_mut().find(is_it)?;
    let refusal = SqsError::OverLimit("The servers have no memory left.".into());
    match std::mem::replace(&mut open.entry, Entry::Ready(Some(Err(refusal)))) {
        Entry::Ask(asked) => Some(*asked),
        _ => None,
    }
}
