//! Tables that are made of a store's bytes are the tables that are there.

use hobbychair_bytes::seeded::check;
use hobbychair_bytes::values::written::{append, chunk};
use hobbychair_bytes::values::{KeptHandings, Receipt};
use hobbychair_sqs::envelope::{Envelope, Metadata};
use hobbychair_sqs::texts::{Body, QueueName};
use proptest::prelude::*;
use proptest::sample::Index;
use proptest::test_runner::TestCaseResult;

use super::*;
use crate::book::{ProgramEntry, QueueEntry};
use crate::living::{steps, told, Living, Seen, Step};
use crate::shards::Shards;

/// The tables that are made of what was there behind a request.
fn made_of(seen: &Seen, shards: Shards, keeps_copies: bool, parts: usize) -> Queues {
    let queues = Queues::new(keeps_copies);
    for (shard, store) in shards.all().zip(&seen.stores) {
        let mut image = Image::new(keeps_copies);
        store.bytes(parts, 7).iter().for_each(|chunk| image.feed(chunk).unwrap());
        assert_eq!(image.largest_number(), 7);
        assert!(image.last() <= seen.now);
        queues.take_up(shard, image).unwrap();
    }
    queues.parts().settle_all();
    queues
}

fn compare(living: &Living, count: usize, parts: usize) -> TestCaseResult {
    let Some(seen) = count.checked_sub(1).map(|last| &living.seen[last]) else { return Ok(()) };
    let queues = made_of(seen, living.shards, living.queues.keeps_copies, parts);
    let (mut made, mut there) = (told(&queues, living.shards, seen.now), seen.told.clone());
    if seen.is_attempt_unsaid {
        [&mut made, &mut there].into_iter().for_each(|told| told.attempts.clear());
    }
    prop_assert_eq!(made, there);
    for origin in &seen.copied {
        let original = queues.all_and_delays().into_iter().find(|queue| queue.mark.0 == origin.mark);
        let is_there = original.is_some_and(|queue| queue.state().last_receipt_of(origin.sequence).is_some());
        prop_assert!(!is_there || queues.copies().has(*origin), "{:?} has no copy", origin);
    }
    let places = 0..living.shards.count() as usize;
    let left: std::collections::BTreeSet<_> = places.flat_map(|place| queues.left_over().of(place)).collect();
    let is_left = |name: &StoreName| name.book().is_none() && name.parts().is_none() && !seen.used.contains(name);
    prop_assert_eq!(left, seen.there().into_iter().filter(is_left).collect());
    Ok(())
}

#[test]
fn the_tables_of_the_bytes_at_any_moment_are_those_that_are_there() {
    check(
        1000,
        (1..=2u32, any::<bool>(), steps(), any::<Index>(), 1..20usize),
        |(shards, keeps, steps, front, parts)| {
            let mut living = Living::new(Shards::new(shards).unwrap(), keeps);
            steps.iter().for_each(|(name, step)| living.step(name, step));
            compare(&living, living.seen.len(), parts)?;
            compare(&living, front.index(living.seen.len() + 1), parts)
        },
    );
}

#[test]
fn a_queue_that_is_gone_stays_so_while_several_earlier_books_go() {
    use Step::{BeginBook, Create, EndBook, Remove, RemoveLeftOver, Wait};
    let mut living = Living::new(Shards::ONE, false);
    let steps = [Create, BeginBook, Remove, RemoveLeftOver, Wait(60_000), BeginBook, EndBook];
    steps.iter().for_each(|step| living.step("a", step));
    (0..=living.seen.len()).for_each(|front| compare(&living, front, 3).unwrap());
}

#[test]
fn the_tables_of_the_bytes_know_queues_and_books_whose_names_were_used_before() {
    use Step::{BeginBook, Create, Delay, EndBook, Receive, Remove, RemoveLeftOver, Send, Tag, Take, Wait};
    let mut living = Living::new(Shards::ONE, false);
    let queue_of = |living: &Living, name| living.queues.find(&QueueName::parse(name).unwrap()).unwrap();
    for (turn, name) in (1..).zip(["a", "b.fifo", "c", "a"]) {
        let own = [Create, Send, Delay, Receive(3, 30), Take(true), BeginBook, Tag(1), EndBook];
        own.iter().for_each(|step| living.step(name, step));
        let queue = queue_of(&living, name);
        let state = queue.state();
        assert_eq!((state.entry.store, state.incarnation), (StoreName(1), turn));
        drop(state);
        [Remove, RemoveLeftOver, Wait(360_000)].iter().for_each(|step| living.step(name, step));
    }
    // The first book of the two whose names come by turns is there, for the third time.
    assert_eq!(living.queues.books().current(0), Some(1));
    (0..=living.seen.len()).for_each(|front| compare(&living, front, 3).unwrap());
}

/// What attempt `x` was given, as a store tells it whose client 3 has asked last by the request 7, which handed out two messages
/// until `until`, the second one for the time `ordinal`. A book said ahead of it by which request the attempt asks.
fn given_by(request: (u32, u64), ordinal: u64, until: Moment) -> Option<Vec<Receipt>> {
    let name = QueueName::parse("q.fifo").unwrap();
    let entry = QueueEntry::plain(StoreName(5), name.clone(), 8);
    let id = AttemptId::parse("x").unwrap();
    let (client, number) = request;
    let asked = AttemptRequest { mark: 8, id: id.clone(), moment: 900, client, number };
    let program = ProgramEntry::new(0, 1, uuid::Uuid::nil());
    let entries = [Entry::Program(program), Entry::Queue(entry), Entry::Asked(asked)];
    let receipts = [(1, 1), (2, ordinal)].map(|(sequence, ordinal)| Receipt { incarnation: 1, sequence, ordinal });
    let (group, mut bytes, mut handed) = ("g", chunk(), Vec::new());
    let queue = |sent| Some(QueuePart { incarnation: 1, timeout: 30, makes_ids: false, sent, uses: 9, last: 1000 });
    let mut write = |part: &Part<'_>| append(&mut bytes, part);
    write(&Part::Start { entries: 9, last: 1000 });
    write(&Part::Client { client: 3, number: 7, handed: KeptHandings::written(&receipts, &mut handed) });
    write(&Part::Name { name: "book1.fifo", creations: 1, removed: None, queue: queue(3) });
    for (place, entry) in entries.iter().enumerate() {
        let (sequence, body) = (place as u64 + 1, &entry.text().unwrap());
        write(&Part::Message { sequence, group, body, handings: 0, handed: 0, until: 0 });
    }
    write(&Part::Name { name: "5.fifo", creations: 1, removed: None, queue: queue(3) });
    let body = Envelope::new(&Metadata { sent: 500, ..Metadata::default() }, &Body::parse("b").unwrap()).unwrap();
    for (sequence, handings) in [(1, 1), (2, 1), (3, 0)] {
        let (handed, until) = if handings > 0 { (1000, until) } else { (0, 0) };
        write(&Part::Message { sequence, group, body: body.text(), handings, handed, until });
    }
    write(&Part::End);
    let (queues, mut image) = (Queues::new(false), Image::new(false));
    image.feed(&bytes).unwrap();
    queues.take_up(Shards::ONE.all().next().unwrap(), image).unwrap();
    let given = queues.find(&name).unwrap().state().attempt(&id, 1001);
    given.map(|handed| handed.into_iter().map(|one| one.receipt).collect())
}

#[test]
fn what_an_attempt_was_given_by_its_clients_last_request_is_known_though_no_book_says_it() {
    let both = [1, 2].map(|sequence| Receipt { incarnation: 1, sequence, ordinal: 1 }).to_vec();
    assert_eq!(given_by((3, 7), 1, 31_000), Some(both));
    // It asked by another request, of this client or of another one: it was told, or the store hasn't done that.
    assert_eq!([(3, 6), (3, 8), (4, 7)].map(|request| given_by(request, 1, 31_000)), [None, None, None]);
    // A message was handed out again since then, or its timeout is over.
    assert_eq!([given_by((3, 7), 2, 31_000), given_by((3, 7), 1, 1000)], [None, None]);
}

/// What comes of taking up a store with this message, whose one book has this entry.
fn taken_up(message: &str, entry: &str) -> Result<(), ImageError> {
    let mut bytes = chunk();
    let mut write = |part: &Part<'_>| append(&mut bytes, part);
    write(&Part::Start { entries: 4, last: 1000 });
    for (name, body) in [("1.fifo", message), ("book1.fifo", entry)] {
        let queue = Some(QueuePart { incarnation: 1, timeout: 30, makes_ids: false, sent: 1, uses: 1, last: 1000 });
        write(&Part::Name { name, creations: 1, removed: None, queue });
        write(&Part::Message { sequence: 1, group: "g", body, handings: 0, handed: 0, until: 0 });
    }
    write(&Part::End);
    let mut image = Image::new(false);
    image.feed(&bytes).unwrap();
    Queues::new(false).take_up(Shards::ONE.all().next().unwrap(), image)
}

#[test]
fn a_book_of_another_form_is_refused_whatever_else_is_there() {
    let own = Entry::Program(ProgramEntry::new(0, 1, uuid::Uuid::nil())).text().unwrap();
    let earlier = own.replace(&format!(",\"form\":{FORM}"), "");
    let later = format!("{{\"program\":{{\"form\":{},\"of\":\"another kind\"}}}}", FORM + 1);
    assert!(own.ends_with(&format!(",\"form\":{FORM}}}}}")) && taken_up("{\"sent\":1}\nb", &own).is_ok(), "{own}");
    assert!(matches!(taken_up("{\"elsewhere\":true}", &own), Err(ImageError::Foreign(..))));
    assert!(matches!(taken_up("{\"sent\":1}\nb", "{\"none\":[1,[]]}"), Err(ImageError::Foreign(..))));
    for message in ["{\"sent\":1}\nb", "{\"elsewhere\":true}"] {
        assert!(matches!(taken_up(message, &earlier), Err(ImageError::OtherForm(0))), "{earlier}");
        assert!(matches!(taken_up(message, &later), Err(ImageError::OtherForm(form)) if form == FORM + 1), "{later}");
    }
}
