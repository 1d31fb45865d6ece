//! Long polls: who waits at a queue for a message, in order of arrival.

use std::sync::Arc;
use std::time::Duration;

use hobbychair_sqs::errors::SqsError;
use hobbychair_store::store::Store;
use hobbychair_tables::ask::{Ask, Outcome};
use hobbychair_tables::presence::Presence;
use hobbychair_tables::queue::Queue;
use hobbychair_tables::waiting::{AnswerMemory, Poll, PollResult, Room};
use tokio::sync::oneshot;
use tokio::time::Instant;

use crate::ending::Ending;
use crate::work::deliveries::{ask_all, see_to, Seen};

/// Refuses a receive of so many messages before it is handed any, where its answer may not find room.
pub fn test_room(room: Room, queue: &Queue, size: u8) -> Result<(), SqsError> {
    let Room(Some(room)) = room else { return Ok(()) };
    let needed = queue.state().most_answered(size);
    (needed <= room).then_some(()).ok_or(SqsError::NeedsRoom(needed))
}

/// Takes what the answer to a receive of so many messages may keep. False if that isn't there, and then it has what it had.
fn take_memory(memory: &AnswerMemory, queue: &Queue, size: u8) -> bool {
    memory.share.try_set(memory.request + queue.state().most_handed(size))
}

/// How many messages a poll asks for at most; none where it asks for something else.
fn size_wanted(poll: &Poll) -> Option<u8> {
    match &poll.ask {
        Ask::Receive { size, .. } => Some(*size),
        _ => None,
    }
}

/// How long somebody waits, and who it is.
pub struct Waiter {
    pub presence: Presence,
    pub time: Duration,
    pub room: Room,
    pub memory: AnswerMemory,
    /// The end of the gateway is the end of the wait.
    pub ending: Ending,
}

/// The most receives that are tried at once.
const MOST_AT_ONCE: u64 = 64;

/// So often a poll whose time is up looks whether it is still being tried.
const LOOK_AGAIN: Duration = Duration::from_millis(20);

/// So often polls are tried again for which there was no memory.
const LOOK_FOR_MEMORY: Duration = Duration::from_millis(100);

/// How long a served queue whose polls have all gone is watched at most before the task looks again.
const LONGEST_WATCH: Duration = Duration::from_secs(20);

/// Waits at a queue for messages, and tells those that came, or none when the time is up or nobody is there any more.
///
/// `seen` is how many openings the receive had seen that came back empty. A queue that is removed meanwhile is
/// `QueueDoesNotExist`.
pub async fn wait(store: &Store, queue: &Arc<Queue>, ask: Ask, waiter: Waiter, seen: u64) -> PollResult {
    let Waiter { presence, time, room, memory, ending } = waiter;
    if ending.has_come() {
        return Ok(Vec::new());
    }
    let (done, mut found) = oneshot::channel();
    let (deadline, caller) = (Instant::now() + time, presence.clone());
    let (number, is_first) = queue.polls.add(Poll { number: 0, ask, room, memory, presence, deadline, done });
    if is_first {
        tokio::spawn(serve(store.clone(), queue.clone(), ending));
    }
    if queue.state().openings != seen {
        queue.opened.notify_one();
    }
    let mut until = deadline;
    loop {
        tokio::select! {
            biased;
            found = &mut found => {
                return found.unwrap_or_else(|_| Err(SqsError::store_is_gone()));
            }
            () = tokio::time::sleep_until(until) => {}
            () = caller.leaves(), if until == deadline => {}
        }
        if queue.polls.withdraw(number) {
            return Ok(Vec::new());
        }
        // It is being tried: what it is handed must not be lost. Perhaps it goes back among those that wait.
        until = Instant::now() + LOOK_AGAIN;
    }
}

/// Tries the polls of a queue whenever something has happened that can open a group. At the end of the gateway all of
/// them are answered.
async fn serve(store: Store, queue: Arc<Queue>, mut ending: Ending) {
    let mut seen = queue.state().openings;
    let mut lacks_memory = false;
    while queue.polls.goes_on() {
        tokio::select! {
            () = wait_for_opening(&store, &queue) => {}
            () = tokio::time::sleep(LOOK_FOR_MEMORY), if lacks_memory => {}
            () = ending.comes() => queue.polls.let_go(),
        }
        let openings = queue.state().openings;
        let news = openings.wrapping_sub(seen).clamp(1, MOST_AT_ONCE);
        seen = openings;
        lacks_memory = loop {
            match try_some(&store, &queue, news).await {
                Tried::AllHanded => {}
                Tried::NotAll => break false,
                Tried::LacksMemory => break true,
            }
        };
    }
}

async fn wait_for_opening(store: &Store, queue: &Queue) {
    let clock = store.clock();
    let next = {
        let (mut state, now) = (queue.state(), clock.now());
        let (end, due) = (state.next_end(now), state.next_due_moment(now));
        end.into_iter().chain(due).min()
    };
    let end = async {
        match next {
            Some(end) => clock.wait_until(end).await,
            None => tokio::time::sleep(LONGEST_WATCH).await,
        }
    };
    tokio::select! {
        _ = queue.opened.notified() => {}
        _ = end => {}
    }
}

/// Those polls whose answers find room. The others are refused, and have been handed nothing.
fn with_room(queue: &Queue, polls: Vec<Poll>) -> Vec<Poll> {
    let mut fitting = Vec::with_capacity(polls.len());
    for poll in polls {
        match size_wanted(&poll).map_or(Ok(()), |size| test_room(poll.room, queue, size)) {
            Ok(()) => fitting.push(poll),
            Err(error) => drop(poll.done.send(Err(error))),
        }
    }
    fitting
}

/// Those polls, from the first one on, whose answers find memory. The others go on waiting: they have been handed nothing. True if
/// there are some.
fn with_memory(queue: &Queue, polls: Vec<Poll>) -> (Vec<Poll>, bool) {
    let (mut fitting, mut others) = (Vec::with_capacity(polls.len()), Vec::new());
    for poll in polls {
        if others.is_empty() && size_wanted(&poll).map_or(true, |size| take_memory(&poll.memory, queue, size)) {
            fitting.push(poll);
        } else {
            others.push(poll);
        }
    }
    let lacks_memory = !others.is_empty();
    others.into_iter().rev().for_each(|poll| queue.polls.put_back(poll));
    (fitting, lacks_memory)
}

/// What came of a try of the first polls.
enum Tried {
    /// Each was handed something, be it for the gateway to see to.
    AllHanded,
    NotAll,
    /// The memory of requests hasn't room for the answers of all.
    LacksMemory,
}

/// Tries the first polls.
async fn try_some(store: &Store, queue: &Arc<Queue>, count: u64) -> Tried {
    let (polls, lacks_memory) = with_memory(queue, with_room(queue, queue.polls.take(count)));
    if polls.is_empty() {
        return if lacks_memory { Tried::LacksMemory } else { Tried::NotAll };
    }
    let asks = polls.iter().map(|poll| poll.ask.clone()).collect();
    let answers = ask_all(store, queue, asks).await;
    let mut all_handed = true;
    // From the last to the first, so that those that go back stand in their order.
    for (poll, answer) in polls.into_iter().zip(answers).rev() {
        match answer {
            Ok(Outcome::Received { handed, set_aside, .. }) => {
                let found = match see_to(store, queue, handed, set_aside).await {
                    // A client that went while its try was on its way isn't noticed here.
                    Ok(Seen::Handed(handed)) => Ok(handed),
                    Ok(other) => {
                        all_handed &= matches!(other, Seen::Gone);
                        if poll.deadline > Instant::now() {
                            queue.polls.put_back(poll);
                            continue;
                        }
                        Ok(Vec::new())
                    }
                    Err(error) => Err(error),
                };
                let _ = poll.done.send(found);
            }
            Ok(_) => {
                let _ = poll.done.send(Ok(Vec::new()));
            }
            Err(error) => {
                let _ = poll.done.send(Err(error));
            }
        }
    }
    match (lacks_memory, all_handed) {
        (true, _) => Tried::LacksMemory,
        (false, true) => Tried::AllHanded,
        (false, false) => Tried::NotAll,
    }
}
