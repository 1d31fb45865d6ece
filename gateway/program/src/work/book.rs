//! Keeps the book of each program: a queue of the gateway's own in the store, in which stands what is said of queues.
//!
//! Entries that others took the place of are old. Once they take more than those that count, a fresh book is begun, all that
//! counts is said there once more, and the earlier one is removed with what is old.

use std::sync::Arc;
use std::time::{Duration, Instant};

use hobbychair_sqs::errors::SqsError;
use hobbychair_tables::ask::Ask;
use hobbychair_tables::book::{Entry, ProgramEntry, Removal};
use hobbychair_tables::queue::Queue;
use hobbychair_tables::store_name::StoreName;

use hobbychair_store::jobs::Operation;
use hobbychair_store::store::Store;

/// So often books are looked at.
const PAUSE: Duration = Duration::from_millis(250);

/// One that hasn't changed is looked at again after this, since of what it says removals count for a minute alone.
const LOOK_AGAIN: Duration = Duration::from_secs(5);

/// What couldn't be done is tried again after this, and later each time up to [`LONGEST_REST`].
const LONGEST_REST: Duration = Duration::from_secs(10);

/// A book isn't begun anew for less than so many bytes, or so many while memory is wanted back.
const WORTH_IT_BYTES: u64 = 1 << 20;
const WORTH_IT_IF_FULL_BYTES: u64 = 64 << 10;

/// So many queues are said once more at once.
const AT_ONCE: usize = 64;

/// Has a book for each program, with all that counts, before anybody is served, and removes what no queue goes by. What can't
/// be done now, since a journal is full, is done later.
pub async fn prepare(store: &Store) {
    for place in store.places() {
        if let Err(error) = bring_up_to_date(store, place).await {
            warn_of(&error);
        }
    }
}

/// Says that a book is brought up to date later. Why a store is gone is told where it ends, as the last line of the log.
fn warn_of(error: &SqsError) {
    if *error != SqsError::store_is_gone() {
        tracing::warn!("the book is brought up to date later: {error}");
    }
}

/// Keeps the books for as long as the gateway serves.
pub async fn keep(store: Store) {
    let keeping: Vec<_> = store.places().map(|place| tokio::spawn(keep_one(store.clone(), place))).collect();
    for one in keeping {
        // It doesn't end.
        let _ = one.await;
    }
}

async fn keep_one(store: Store, place: usize) {
    // A start may have left something to do.
    let (mut is_due, mut rest, mut looked, mut looked_at) = (true, PAUSE, 0, Instant::now());
    loop {
        tokio::time::sleep(rest).await;
        let bytes = store.queues().books().bytes_of_current(place);
        if bytes != looked || looked_at.elapsed() > LOOK_AGAIN || store.is_memory_full() {
            (looked, looked_at) = (bytes, Instant::now());
            is_due |= is_worth_beginning_anew(&store, place);
        }
        if !is_due && store.queues().left_over().of(place).is_empty() {
            continue;
        }
        match bring_up_to_date(&store, place).await {
            Ok(()) => (is_due, rest) = (false, PAUSE),
            Err(error) => {
                rest = LONGEST_REST.min(2 * rest);
                warn_of(&error);
            }
        }
    }
}

/// Whether old entries take more than those that count.
fn is_worth_beginning_anew(store: &Store, place: usize) -> bool {
    let bytes = store.queues().books().bytes_of_current(place);
    let least = if store.is_memory_full() { WORTH_IT_IF_FULL_BYTES } else { WORTH_IT_BYTES };
    if bytes <= least {
        return false;
    }
    let counting = size_of_all(store, place);
    bytes.saturating_sub(counting) > least + counting
}

/// What all takes of memory that a fresh book is to say, in bytes.
fn size_of_all(store: &Store, place: usize) -> u64 {
    let of_removals = removals_of(store, place).map(|removal| Entry::Removed(removal).size());
    let of_queues = of_place(store, place).map(|queue| queue.state().size_of_entries());
    of_removals.chain(of_queues).sum()
}

fn removals_of(store: &Store, place: usize) -> impl Iterator<Item = Removal> + '_ {
    let removals = store.queues().removals(store.clock().now()).into_iter();
    removals.filter(move |removal| store.place_of(&removal.name) == place)
}

fn of_place(store: &Store, place: usize) -> impl Iterator<Item = Arc<Queue>> + '_ {
    store.queues().all().into_iter().filter(move |queue| store.place_of(&queue.name) == place)
}

/// Begins a book, behind which nothing is said in an earlier one that isn't asked by then.
async fn begin(store: &Store, place: usize) -> Result<(), SqsError> {
    if let Some(order) = store.queues().books().order_to_say(place) {
        store.perform_nameless(place, vec![Operation::Say(Entry::Book(order))]).await?;
    }
    let name = store.next_book(place);
    let begun = store.perform_nameless(place, vec![Ask::Create { store: name, visibility: 0, bytes: 0 }.into()]).await;
    if begun.is_err() {
        store.queues().names().give_back(place, name, store.clock().now());
    }
    begun
}

async fn bring_up_to_date(store: &Store, place: usize) -> Result<(), SqsError> {
    for name in store.queues().left_over().of(place) {
        remove_left_over(store, place, name).await?;
    }
    let books = store.queues().books();
    let is_first = books.current(place).is_none();
    if is_first || is_worth_beginning_anew(store, place) {
        begin(store, place).await?;
    }
    // From now on nothing is said in an earlier one.
    if !store.wait_for(place).await {
        return Err(SqsError::store_is_gone());
    }
    if store.is_kept() && !books.has_program(place) {
        say_program(store, place).await?;
    }
    let earlier = books.earlier(place);
    say_all(store, place).await?;
    if !earlier.is_empty() {
        say_removals(store, place).await?;
    }
    for number in earlier {
        remove(store, place, StoreName::of_book(number)).await?;
    }
    Ok(())
}

/// Has the current book say of each queue what it doesn't yet.
async fn say_all(store: &Store, place: usize) -> Result<(), SqsError> {
    let Some(current) = store.queues().books().current(place) else { return Ok(()) };
    let is_unsaid = |queue: &Arc<Queue>| !queue.state().unsaid_in(current).is_empty();
    let all: Vec<_> = of_place(store, place).filter(is_unsaid).collect();
    for some in all.chunks(AT_ONCE) {
        let unsaid = some.iter().map(|queue| (queue, queue.state().unsaid_in(current)));
        let unsaid = unsaid.filter(|(_, changes)| !changes.is_empty());
        let asked: Vec<_> = unsaid.map(|(queue, changes)| store.begin_changes(queue, changes)).collect();
        for answers in asked {
            for answer in answers.await {
                match answer {
                    Err(error) if is_for_now(&error) => return Err(error),
                    // It was removed meanwhile.
                    _ => {}
                }
            }
        }
    }
    Ok(())
}

/// Has a book say what nothing but the store says, where programs keep their entries: which program has it, the jumps of the
/// clock, and what attempts were given.
async fn say_program(store: &Store, place: usize) -> Result<(), SqsError> {
    let attempts = of_place(store, place).flat_map(|queue| queue.state().entries_of_attempts());
    let jumps = store.queues().jumps().all().into_iter().map(|(moment, uncounted)| Entry::Jump(moment, uncounted));
    let program = Entry::Program(program_entry(store, place));
    let entries = attempts.chain(jumps).chain([program]);
    store.perform_nameless(place, entries.map(Operation::Say).collect()).await
}

fn program_entry(store: &Store, place: usize) -> ProgramEntry {
    let secret = store.queues().secret_to_say(place);
    ProgramEntry::new(place, store.places().len() as u32, secret)
}

fn is_for_now(error: &SqsError) -> bool {
    matches!(error, SqsError::ServiceUnavailable(_) | SqsError::OverLimit(_) | SqsError::InternalFailure(_))
}

async fn say_removals(store: &Store, place: usize) -> Result<(), SqsError> {
    let own = removals_of(store, place);
    let operations: Vec<_> = own.map(|removal| Operation::Say(Entry::Removed(removal))).collect();
    if operations.is_empty() {
        return Ok(());
    }
    store.perform_nameless(place, operations).await
}

/// Removes a name from the store by which no queue goes, unless somebody has done so by now. Meanwhile no queue gets it.
pub async fn remove_left_over(store: &Store, place: usize, name: StoreName) -> Result<(), SqsError> {
    let _in_use = store.queues().names().keep(place, name);
    if !store.queues().left_over().has(place, name) {
        return Ok(());
    }
    remove(store, place, name).await?;
    store.queues().left_over().remove(place, name);
    Ok(())
}

async fn remove(store: &Store, place: usize, name: StoreName) -> Result<(), SqsError> {
    match store.perform_nameless(place, vec![Ask::Remove { store: name }.into()]).await {
        // The store hasn't got it.
        Err(SqsError::QueueDoesNotExist) => Ok(()),
        other => other,
    }
}

#[cfg(test)]
mod tests {
    use std::collections::BTreeMap;

    use hobbychair_sqs::texts::QueueName;
    use hobbychair_tables::book::QueueEntry;
    use hobbychair_tables::limits::MESSAGE_BYTES;
    use hobbychair_tables::queues::Queues;

    use super::*;

    #[test]
    fn what_counts_of_queues_is_counted_as_it_is_written() {
        for value in ["", "v", "\"", "\\", "\n", "\u{1}", "\u{7f}", "é", "\u{10400}"] {
            let tags: BTreeMap<_, _> = (0..50).map(|place| (format!("{place}{value}"), value.repeat(256))).collect();
            let name = QueueName::parse("q").unwrap();
            let entry = QueueEntry { tags, ..QueueEntry::plain(StoreName(1), name, u64::MAX) };
            let (queues, queue) = (Queues::default(), Arc::new(Queue::new(&entry)));
            let entry = Entry::Queue(entry);
            queues.said(0, &queue, &entry, 1, entry.size());
            assert_eq!(
                queue.state().size_of_entries(),
                entry.text().unwrap().len() as u64 + MESSAGE_BYTES,
                "{value:?}"
            );
        }
    }
}
