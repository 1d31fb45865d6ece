//! Answers that were lost on their way: an SDK that asks again for the same call is given the first answer.

use std::collections::{HashMap, VecDeque};
use std::os::unix::io::RawFd;
use std::sync::{Arc, Mutex, MutexGuard, PoisonError};
use std::time::{Duration, Instant};

use hobbychair_bytes::values::Receipt;
use hobbychair_sqs::action::Action;
use hobbychair_sqs::wire::Reply;
use sha2::{Digest, Sha256};
use tokio::sync::watch;

use hobbychair_tables::clock::Clock;
use hobbychair_tables::presence::{Presence, Present};
use hobbychair_tables::queue::Queue;

/// So long an answer is kept.
const KEPT: Duration = Duration::from_secs(60);

/// So many bytes of answers are kept at most.
const MOST_BYTES: usize = 64 << 20;

/// What makes two requests the same call.
#[derive(Clone, Debug)]
pub struct CallFields<'a> {
    pub action: Action,
    /// `amz-sdk-invocation-id`.
    pub invocation: &'a str,
    /// Who asks, by the access key that the request names.
    pub access_key: &'a str,
    pub path: &'a str,
    pub body: &'a [u8],
}

/// The digest of what makes two requests the same call. Whatever a client says, it takes as many bytes.
#[derive(Clone, Copy, Debug, PartialEq, Eq, Hash)]
pub struct IdempotencyKey(pub [u8; 32]);

impl IdempotencyKey {
    pub fn of(fields: &CallFields<'_>) -> IdempotencyKey {
        let mut digest = Sha256::new();
        for text in [fields.action.name(), fields.invocation, fields.access_key, fields.path] {
            digest.update((text.len() as u64).to_be_bytes());
            digest.update(text.as_bytes());
        }
        digest.update(Sha256::digest(fields.body));
        IdempotencyKey(digest.finalize().into())
    }

    /// Whether a lost answer of this action does harm, so that it is kept.
    pub fn applies_to(action: Action) -> bool {
        matches!(action, Action::ReceiveMessage | Action::DeleteQueue | Action::PurgeQueue)
    }
}

/// Whether the header `amz-sdk-request` says that the call was tried before.
pub fn is_repeat(header: &str) -> bool {
    let attempt = header.split(';').find_map(|part| part.trim().strip_prefix("attempt="));
    attempt.and_then(|attempt| attempt.trim().parse::<u32>().ok()).is_some_and(|attempt| attempt >= 2)
}

/// An answer that was made, and what it handed out.
#[derive(Clone)]
pub struct CallResult {
    pub reply: Reply,
    pub handed: Option<(Arc<Queue>, Vec<Receipt>)>,
    /// It is worth to be given again: it handed something out, or removed or purged a queue.
    pub is_worth_keeping: bool,
}

type Finished = Option<Arc<CallResult>>;

struct KnownCall {
    presence: Presence,
    answer: watch::Receiver<Finished>,
    answered: Option<Instant>,
    bytes: usize,
    number: u64,
}

#[derive(Default)]
struct KnownCalls {
    calls: HashMap<IdempotencyKey, KnownCall>,
    /// Calls that were answered, in the order of their answers.
    by_age: VecDeque<(Instant, u64, IdempotencyKey)>,
    bytes: usize,
    last_number: u64,
}

/// Calls of the last minute, and those that go on.
#[derive(Default)]
pub struct Repeats(Mutex<KnownCalls>);

/// What a request finds.
pub enum Lookup {
    /// It is the first of its call. The answer goes to what this has.
    First(Presence, Present, OpenCall),
    /// It repeats one whose answer this gives, perhaps later.
    Again(Present, PendingAnswer),
}

/// The answer to a call, when it is there.
pub struct PendingAnswer(watch::Receiver<Finished>);

impl PendingAnswer {
    /// Waits for the answer. None if the call came to nothing.
    pub async fn wait(mut self) -> Option<Arc<CallResult>> {
        loop {
            let answer = self.0.borrow().clone();
            if answer.is_some() {
                return answer;
            }
            self.0.changed().await.ok()?;
        }
    }
}

/// A call that goes on.
pub struct OpenCall {
    key: IdempotencyKey,
    number: u64,
    answer: watch::Sender<Finished>,
}

impl Repeats {
    fn known(&self) -> MutexGuard<'_, KnownCalls> {
        self.0.lock().unwrap_or_else(PoisonError::into_inner)
    }

    /// Takes up a request of a connection that has this socket. A repeat is one only while what its call handed out is still in
    /// flight.
    pub fn enter(&self, key: IdempotencyKey, is_repeat: bool, socket: Option<RawFd>, clock: &Clock) -> Lookup {
        let mut known = self.known();
        known.forget_old();
        if is_repeat {
            if let Some(call) = known.calls.get(&key).filter(|call| call.is_good(clock)) {
                return Lookup::Again(call.presence.enter(socket), PendingAnswer(call.answer.clone()));
            }
        }
        known.last_number += 1;
        let number = known.last_number;
        let (answer, watched) = watch::channel(None);
        let presence = Presence::default();
        let present = presence.enter(socket);
        let call = KnownCall { presence: presence.clone(), answer: watched, answered: None, bytes: 0, number };
        if let Some(earlier) = known.calls.insert(key, call) {
            known.bytes -= earlier.bytes;
        }
        Lookup::First(presence, present, OpenCall { key, number, answer })
    }

    /// The answer to a call that goes on, for the request that began it.
    pub fn answer_of(&self, open: &OpenCall) -> PendingAnswer {
        PendingAnswer(open.answer.subscribe())
    }

    /// Keeps the answer of a call, if it is worth it, and gives it to all who wait.
    pub fn end(&self, open: OpenCall, result: CallResult) {
        let mut known = self.known();
        let (now, size) = (Instant::now(), result.reply.body.len() + 768);
        let own = known.calls.get_mut(&open.key).filter(|call| call.number == open.number);
        if let Some(call) = own {
            if result.is_worth_keeping {
                call.answered = Some(now);
                call.bytes = size;
                known.bytes += size;
                known.by_age.push_back((now, open.number, open.key));
            } else {
                known.calls.remove(&open.key);
            }
        }
        known.forget_old();
        drop(known);
        open.answer.send_replace(Some(Arc::new(result)));
    }
}

impl KnownCall {
    /// It goes on, or what it handed out is all still in flight by the same receipts.
    fn is_good(&self, clock: &Clock) -> bool {
        let answer = self.answer.borrow();
        match answer.as_ref().and_then(|result| result.handed.as_ref()) {
            Some((queue, receipts)) => {
                let state = queue.state();
                !state.removed && state.are_in_flight(receipts, clock.now())
            }
            None => true,
        }
    }
}

impl KnownCalls {
    fn forget_old(&mut self) {
        while let Some((answered, number, key)) = self.by_age.front() {
            if answered.elapsed() < KEPT && self.bytes <= MOST_BYTES {
                return;
            }
            if self.calls.get(key).is_some_and(|call| call.number == *number) {
                if let Some(call) = self.calls.remove(key) {
                    self.bytes -= call.bytes;
                }
            }
            self.by_age.pop_front();
        }
    }
}

#[cfg(test)]
mod tests {
    use super::*;

    fn key(invocation: &str) -> IdempotencyKey {
        IdempotencyKey::of(&CallFields {
            action: Action::PurgeQueue,
            invocation,
            access_key: "a",
            path: "/",
            body: b"",
        })
    }

    fn result(is_worth_keeping: bool) -> CallResult {
        let (query_error, needs_room, body) = (None, None, vec![1]);
        let reply = Reply { status: 200, content_type: "", query_error, request_id: "r".into(), needs_room, body };
        CallResult { reply, handed: None, is_worth_keeping }
    }

    #[test]
    fn attempts() {
        for (header, expected) in [
            ("attempt=1; max=5", false),
            ("attempt=2; max=5", true),
            ("attempt=12", true),
            ("max=5; attempt=3", true),
            ("", false),
            ("attempt=x", false),
        ] {
            assert_eq!(is_repeat(header), expected, "{header}");
        }
    }

    #[tokio::test]
    async fn a_repeat_is_given_the_first_answer_and_a_first_try_is_not() {
        let (repeats, clock) = (Repeats::default(), Clock::new());
        let Lookup::First(_, _present, open) = repeats.enter(key("1"), true, None, &clock) else { panic!() };
        let Lookup::Again(_again, waiting) = repeats.enter(key("1"), true, None, &clock) else { panic!() };
        repeats.end(open, result(true));
        assert_eq!(waiting.wait().await.unwrap().reply.request_id, "r");
        assert!(matches!(repeats.enter(key("1"), true, None, &clock), Lookup::Again(..)));
        assert!(matches!(repeats.enter(key("2"), true, None, &clock), Lookup::First(..)));
        let Lookup::First(_, _present, open) = repeats.enter(key("1"), false, None, &clock) else { panic!() };
        repeats.end(open, result(false));
        assert!(matches!(repeats.enter(key("1"), true, None, &clock), Lookup::First(..)));
    }
}
