//! The tables of a queue by themselves.

use std::collections::BTreeMap;
use std::sync::Arc;

use hobbychair_sqs::attributes::GivenAttributes;
use hobbychair_sqs::handles::Handle;
use hobbychair_sqs::texts::{DedupId, QueueName};

use super::*;
use crate::ask::TableChange;
use crate::book::{Entry, Purging};
use crate::queue::Queue;
use crate::queues::Queues;
use crate::store_name::StoreName;

fn state() -> State {
    state_of("q.fifo")
}

fn state_of(name: &str) -> State {
    let name = QueueName::parse(name).unwrap();
    let given = GivenAttributes::read(name.kind(), &[]).unwrap();
    let attributes = QueueAttributes::for_creation(name.kind(), &given).unwrap();
    State::new(&QueueEntry::new(StoreName(1), name, 1, attributes, BTreeMap::new(), 0))
}

/// Tells whether the book has anything to say.
fn change(state: &mut State, change: &TableChange, moment: Moment) -> bool {
    match state.entry_after(change, 0, moment) {
        Some(Entry::Queue(entry)) => {
            state.said(&entry, 1, 0);
            true
        }
        _ => false,
    }
}

fn send(state: &mut State, place: u64, moment: Moment) {
    let envelope = Envelope::from(format!("{{\"id\":\"{}\"}}\nbody", Uuid::from_u128(7)));
    let (group, dedup) = (GroupId::parse("g").unwrap(), DedupId::parse("d").unwrap());
    state
        .apply_reply(
            &Ask::Send { group, dedup, envelope, cause: Cause::Client },
            StoreReply::Sent(place),
            moment,
            &Jumps::default(),
        )
        .unwrap();
}

fn handing(sequence: u64, ordinal: u64) -> Receipt {
    Receipt { incarnation: 1, sequence, ordinal }
}

fn delete(state: &mut State, sequence: u64, moment: Moment) {
    let receipt = handing(sequence, 1);
    let ask = Ask::Delete { receipt, by_client: true };
    state.apply_reply(&ask, StoreReply::Deleted(true), moment, &Jumps::default()).unwrap();
}

#[test]
fn what_is_deleted_counts_by_its_id_until_that_is_too_old() {
    let mut state = state();
    send(&mut state, 1, 0);
    let one = state.bytes_in_use();
    assert!((MESSAGE_BYTES + 40..MESSAGE_BYTES + 100).contains(&one));
    send(&mut state, 2, 1000);
    send(&mut state, 3, 2000);
    delete(&mut state, 2, 2000);
    assert_eq!(state.bytes_in_use(), 2 * one + ID_BYTES);
    // The first one's id grows old before it is deleted: nothing is left of it.
    state.look_at_ages(WINDOW_MILLISECONDS);
    delete(&mut state, 1, WINDOW_MILLISECONDS);
    assert_eq!(state.bytes_in_use(), one + ID_BYTES);
    state.look_at_ages(WINDOW_MILLISECONDS + 999);
    assert_eq!(state.bytes_in_use(), one + ID_BYTES);
    // A send forgets what is old, also without a look.
    send(&mut state, 4, WINDOW_MILLISECONDS + 1000);
    assert_eq!(state.bytes_in_use(), 2 * one);
    delete(&mut state, 3, WINDOW_MILLISECONDS + 1000);
    delete(&mut state, 4, WINDOW_MILLISECONDS + 1000);
    assert_eq!(state.bytes_in_use(), 2 * ID_BYTES);
    state.look_at_ages(3 * WINDOW_MILLISECONDS);
    assert_eq!(state.bytes_in_use(), 0);
    state.removed = true;
    assert_eq!(state.bytes_in_use(), 0);
}

fn receive(state: &mut State, ordinal: u64, moment: Moment) -> (Vec<Handed>, Vec<(Handed, Fate)>) {
    let ask = Ask::Receive { size: 1, visibility: 5, attempt: None, most: Some(2), reach: Reach::All };
    let (group, receipt) = ("g".into(), handing(1, ordinal));
    let given = Delivery { receipt, group, body: "b".into() };
    let applied = state.apply_reply(&ask, StoreReply::Received(vec![given]), moment, &Jumps::default()).unwrap();
    match applied.outcome {
        Outcome::Received { handed, set_aside, .. } => (handed, set_aside),
        other => panic!("{other:?}"),
    }
}

#[test]
fn what_was_handed_out_too_often_is_set_aside_and_earlier_handles_are_known() {
    let mut state = state();
    send(&mut state, 1, 0);
    let handle = |ordinal, moment| Handle::new(hobbychair_sqs::handles::Mark(1), handing(1, ordinal), moment);
    assert!(state.receipt_of(&handle(1, 10_000)).is_err(), "nobody had it");
    let given = &receive(&mut state, 1, 10_000).0[0];
    assert_eq!((given.receipt.ordinal, given.first), (1, 10_000));
    assert!(state.cut_off(None, &Jumps::default(), 10_000).is_empty());
    let receipt = state.receipt_of(&handle(1, 10_000)).unwrap();
    assert!(state.receipt_of(&handle(1, 10_001)).is_err() && state.receipt_of(&handle(2, 20_000)).is_err());
    assert!(state.are_in_flight(&[receipt], 14_999) && !state.has_expired(receipt, 14_999));
    assert!(!state.are_in_flight(&[receipt], 15_000) && state.has_expired(receipt, 15_000));
    let again = &receive(&mut state, 2, 30_000).0[0];
    assert_eq!((again.receipt.ordinal, again.first), (2, 10_000));
    assert_eq!(state.receipt_of(&handle(1, 10_000)), Ok(receipt), "it was handed out by that");
    assert!(state.are_in_flight(&[again.receipt], 34_999) && !state.are_in_flight(&[receipt], 34_999));
    // Two handings are as many as there may be.
    let (handed, set_aside) = receive(&mut state, 3, 40_000);
    assert_eq!((handed.len(), set_aside[0].1, set_aside[0].0.receipt.ordinal), (0, Fate::Dead, 3));
    assert_eq!(state.last_receipt_of(1), Some(handing(1, 3)));
}

#[test]
fn what_no_client_has_is_told_by_its_last_handing_alone() {
    let mut state = state();
    let policy = r#"{"deadLetterTargetArn":"arn:aws:sqs:x:000000000000:dead.fifo","maxReceiveCount":2}"#;
    send(&mut state, 1, 0);
    let jumps = Jumps::default();
    let change =
        TableChange::Attributes(GivenAttributes::read(state.kind, &[("RedrivePolicy".into(), policy.into())]).unwrap());
    assert!(self::change(&mut state, &change, 25_000));
    receive(&mut state, 1, 10_000);
    receive(&mut state, 2, 20_000);
    assert!(state.cut_off(Some(0), &jumps, 20_000).is_empty(), "two handings are as many as there may be");
    receive(&mut state, 3, 25_000);
    assert!(state.cut_off(Some(0), &jumps, 25_000).is_empty(), "it may have been handed out by the policy before");
    receive(&mut state, 4, 30_001);
    assert!(state.cut_off(Some(30_001), &jumps, 30_001).is_empty(), "the target may have come after it");
    assert!(state.cut_off(None, &jumps, 30_001).is_empty(), "there is no target");
    assert_eq!(state.cut_off(Some(30_000), &jumps, 30_001), [(handing(1, 4), Fate::Dead)]);
    assert!(state.is_set_aside(1, 30_000) && !state.is_set_aside(1, 30_001) && !state.is_set_aside(2, 0));
    assert!(state.cut_off(Some(30_000), &jumps, 35_001).is_empty(), "it isn't in flight any more");
    let four_days = 345_600_000;
    receive(&mut state, 5, four_days);
    assert_eq!(state.cut_off(None, &jumps, four_days), [(handing(1, 5), Fate::Old)]);
}

#[test]
fn what_is_too_old_is_set_aside() {
    let mut state = state();
    send(&mut state, 1, 1000);
    let four_days = 345_600_000;
    assert_eq!(receive(&mut state, 1, 999 + four_days).1.len(), 0);
    assert!(!state.has_old(&Jumps::default(), 999 + four_days));
    assert!(state.has_old(&Jumps::default(), 1000 + four_days));
    let (handed, set_aside) = receive(&mut state, 2, 1000 + four_days);
    assert_eq!((handed.len(), set_aside[0].1), (0, Fate::Old));
}

fn envelope(id: u128, sent: Moment) -> Envelope {
    Envelope::from(format!("{{\"id\":\"{}\",\"sent\":{sent}}}\nbody", Uuid::from_u128(id)))
}

fn send_standard(state: &mut State, place: u64, sent: Moment, cause: Cause, moment: Moment) -> Outcome {
    let id = Uuid::from_u128(u128::from(place));
    let (group, dedup) = (GroupId::of_message(id), DedupId::of_message(id));
    let ask = Ask::Send { group, dedup, envelope: envelope(u128::from(place), sent), cause };
    state.apply_reply(&ask, StoreReply::Sent(place), moment, &Jumps::default()).unwrap().outcome
}

/// Sends a message that is due at some moment, as to the queue beside a standard one.
fn delay(state: &mut State, place: u64, due: Moment, moment: Moment) {
    let id = Uuid::from_u128(u128::from(place));
    let envelope = Envelope::from(format!("{{\"id\":\"{id}\",\"sent\":{moment},\"due\":{due}}}\nbody"));
    let ask =
        Ask::Send { group: GroupId::of_message(id), dedup: DedupId::of_message(id), envelope, cause: Cause::Client };
    let applied = state.apply_reply(&ask, StoreReply::Sent(place), moment, &Jumps::default()).unwrap();
    state.keep_copy(&ask, &applied);
}

#[test]
fn a_delayed_message_is_due_until_it_has_a_copy() {
    let mut state = state_of("standard");
    [(1, 5000), (2, 6000), (3, 7000)].into_iter().for_each(|(place, due)| delay(&mut state, place, due, 1000));
    let due = |state: &State| [4999, 5000, 6000].map(|now| state.due(now, 9));
    assert_eq!(due(&state), [vec![], vec![1], vec![1, 2]]);
    assert_eq!(state.count_due(6000), [3, 2]);
    state.has_copy(1);
    assert_eq!((due(&state), state.count_due(6000)), ([vec![], vec![], vec![2]], [2, 1]));
    delete(&mut state, 2, 6000);
    assert_eq!((due(&state), state.count_due(9000), state.count()), ([vec![], vec![], vec![]], [1, 1], 2));
    state.purge_with(Some(Purging { up_to: 9, delayed_up_to: 3 }));
    assert_eq!((state.purging(), state.count_due(9000), state.next_up_to(3, 9, 9000)), (Some(3), [0, 0], vec![1, 3]));
    delay(&mut state, 4, 8000, 7000);
    state.purge_with(Some(Purging { up_to: 9, delayed_up_to: 3 }));
    assert_eq!((state.purging(), state.count_due(9000)), (Some(3), [1, 1]), "it was sent since");
    state.purge_with(None);
    assert_eq!(state.purging(), None);
}

fn given(places: std::ops::RangeInclusive<u64>) -> StoreReply {
    let given = |place| Delivery { receipt: handing(place, 1), group: "g".into(), body: "b".into() };
    StoreReply::Received(places.map(given).collect())
}

#[test]
fn a_queue_has_at_most_120_000_messages_in_flight() {
    let most = MOST_IN_FLIGHT as u64;
    let ask = Ask::Receive { size: 1, visibility: 5, attempt: None, most: None, reach: Reach::All };
    for name in ["standard", "q.fifo"] {
        let mut state = state_of(name);
        (1..=most).for_each(|place| drop(send_standard(&mut state, place, 0, Cause::Client, 0)));
        state.apply_reply(&ask, given(1..=most - 1), 1000, &Jumps::default()).unwrap();
        let same_end = Ask::ChangeVisibility { receipt: handing(1, 1), visibility: 5, by: Changer::Client };
        state.apply_reply(&same_end, StoreReply::Changed, 1000, &Jumps::default()).unwrap();
        assert!(!state.has_most_in_flight(1000));
        state.apply_reply(&ask, given(most..=most), 2000, &Jumps::default()).unwrap();
        assert!(state.has_most_in_flight(2000) && state.has_most_in_flight(5999));
        delete(&mut state, 1, 5999);
        assert!(!state.has_most_in_flight(5999));
        assert_eq!((state.next_end(5999), state.next_end(6000)), (Some(6000), Some(7000)));
    }
}

/// Standard queues and FIFO queues with so many messages, of which all but the last are in flight until `end`.
fn in_flight(name: &str, count: u64, end: Moment) -> State {
    let mut state = state_of(name);
    for place in 1..=count {
        let (group, dedup) = (GroupId::of_message(Uuid::from_u128(place.into())), DedupId::parse("d").unwrap());
        let ask = Ask::Send { group, dedup, envelope: envelope(place.into(), 0), cause: Cause::Client };
        state.apply_reply(&ask, StoreReply::Sent(place), 0, &Jumps::default()).unwrap();
    }
    let visibility = (end / 1000) as u32;
    let ask = Ask::Receive { size: 10, visibility, attempt: None, most: None, reach: Reach::All };
    state.apply_reply(&ask, given(1..=count - 1), 0, &Jumps::default()).unwrap();
    state
}

fn set(state: &mut State, name: &str, value: &str) -> bool {
    let given = GivenAttributes::read(state.kind, &[(name.into(), value.into())]).unwrap();
    change(state, &TableChange::Attributes(given), 0)
}

/// How long 300 calls take behind a first one. Walks of a whole queue would take seconds.
fn time_of_many(mut call: impl FnMut()) -> std::time::Duration {
    call();
    let began = std::time::Instant::now();
    (0..300).for_each(|_| call());
    began.elapsed()
}

const SHORT: std::time::Duration = std::time::Duration::from_millis(100);

#[test]
fn what_is_in_flight_is_counted_without_a_walk() {
    let mut state = in_flight("standard", 120_001, 1_000_000);
    let took = time_of_many(|| assert!(state.has_most_in_flight(1000)));
    assert!(took < SHORT, "{took:?}");
}

#[test]
fn what_is_due_next_is_found_without_a_walk_of_what_is_in_flight() {
    let mut state = in_flight("q.fifo", 20_001, 1_000_000);
    assert!(set(&mut state, "DelaySeconds", "10"));
    let took = time_of_many(|| assert_eq!(state.next_due(10, 20_000).len(), 1));
    assert!(took < SHORT, "{took:?}");
}

#[test]
fn what_is_delayed_is_counted_without_a_walk() {
    let mut state = in_flight("q.fifo", 100_000, 1000);
    assert!(set(&mut state, "DelaySeconds", "10"));
    let took = time_of_many(|| assert_eq!(state.count_delayed(1000), 100_000));
    assert!(took < SHORT, "{took:?}");
    assert_eq!(state.count_delayed(10_000), 0);
}

#[test]
fn a_sweep_is_found_worth_it_without_a_walk_of_what_was_deleted() {
    let mut state = in_flight("q.fifo", 100_000, 1_000_000_000);
    (2..100_000).for_each(|sequence| delete(&mut state, sequence, 0));
    let jumps = Jumps::default();
    let took = time_of_many(|| assert!(!state.is_worth_sweeping(&jumps, 1000)));
    assert!(took < SHORT, "{took:?}");
    let took = time_of_many(|| assert!(state.is_worth_sweeping(&jumps, 400_000_000)));
    assert!(took < SHORT, "{took:?}");
}

#[test]
fn what_changes_nothing_is_no_change() {
    let mut state = state();
    let tags = |value: &str| TableChange::Tag(BTreeMap::from([("a".to_string(), value.to_string())]));
    let changes = [tags("1"), tags("1"), tags("2"), tags("2")].map(|one| change(&mut state, &one, 5));
    assert_eq!(changes, [true, false, true, false]);
    let untag = |key: &str| TableChange::Untag(vec![key.into()]);
    let changes = [untag("b"), untag("a"), untag("a")].map(|one| change(&mut state, &one, 5));
    assert_eq!(changes, [false, true, false]);
    let values = ["30", "31", "31"].map(|value| set(&mut state, "VisibilityTimeout", value));
    assert_eq!(values, [false, true, false]);
}

fn send_and_keep(state: &mut State, place: u64, moment: Moment) {
    let (group, dedup) = (GroupId::parse("g").unwrap(), DedupId::parse("d").unwrap());
    let ask = Ask::Send { group, dedup, envelope: envelope(u128::from(place), moment), cause: Cause::Client };
    let applied = state.apply_reply(&ask, StoreReply::Sent(place), moment, &Jumps::default()).unwrap();
    state.keep_copy(&ask, &applied);
}

fn peek_at_all(state: &State, at_once: usize, now: Moment) -> Vec<Peeked> {
    let (mut seen, mut place) = (Vec::new(), Some(Cursor::FIRST));
    while let Some(after) = place.filter(|after| matches!(after, Cursor::Stored(_))) {
        let step = state.peek(after, at_once, now);
        assert!(step.peeked.len() <= at_once);
        seen.extend(step.peeked);
        place = step.next;
    }
    seen
}

#[test]
fn looks_come_to_each_message_once_and_change_nothing() {
    let entry = QueueEntry::plain(StoreName(1), QueueName::parse("standard").unwrap(), 1);
    let queue = Arc::new(Queue::new(&entry));
    let (delays, create) = Queue::beside(&queue, StoreName(1));
    let delays = Arc::new(delays);
    Queues::default().apply_reply(0, &delays, &create, StoreReply::Created(1), 0).unwrap();
    (1..=5).for_each(|place| send_and_keep(&mut queue.state(), place, 10));
    [(1, 60), (2, 50), (3, 60)].into_iter().for_each(|(place, due)| delay(&mut delays.state(), place, due, 10));
    let refused = [70, 80, 90].map(|next| delays.state().refused_due(3, next));
    assert_eq!(refused, [false, false, true]);
    delete(&mut queue.state(), 2, 20);
    receive(&mut queue.state(), 1, 30);
    let bytes = queue.state().bytes_in_use();
    for at_once in 1..9 {
        let (mut seen, mut place) = (Vec::new(), Some(Cursor::FIRST));
        while let Some(after) = place {
            let (found_in, step) = queue.peek(after, at_once, 55);
            assert!(step.peeked.len() <= at_once);
            seen.extend(step.peeked.into_iter().map(|one| (found_in.mark, one)));
            place = step.next;
        }
        let places: Vec<_> = seen.iter().map(|(mark, one)| (*mark == queue.mark, one.sequence)).collect();
        let expected = [(true, 1), (true, 3), (true, 4), (true, 5), (false, 2), (false, 1), (false, 3)];
        assert_eq!(places, expected, "{at_once} at once");
        let seen: Vec<_> = seen.iter().map(|(_, one)| (one.visibility, one.count, one.first)).collect();
        let (visible, delayed) = ((Visibility::Visible, 0, None), (Visibility::Delayed, 0, None));
        assert_eq!(seen[..2], [(Visibility::InFlight, 1, Some(30)), visible]);
        assert_eq!(seen[2..], [visible, visible, visible, delayed, delayed]);
    }
    let state = queue.state();
    assert_eq!((state.bytes_in_use(), state.openings), (bytes, 6));
}

#[test]
fn what_is_kept_for_looks_counts_and_goes_with_its_message() {
    let (mut plain, mut kept) = (state(), state());
    send_standard(&mut plain, 1, 0, Cause::Client, 0);
    send_and_keep(&mut kept, 1, 0);
    let bytes = envelope(1, 0).bytes() + 1;
    assert_eq!(kept.bytes_in_use(), plain.bytes_in_use() + bytes);
    // A send that is repeated adds nothing.
    send_and_keep(&mut kept, 1, 0);
    assert_eq!(kept.bytes_in_use(), plain.bytes_in_use() + bytes);
    delete(&mut plain, 1, 0);
    delete(&mut kept, 1, 0);
    assert_eq!(kept.bytes_in_use(), plain.bytes_in_use());
    assert!(peek_at_all(&kept, 5, 0).is_empty());
}

#[test]
fn handings_and_delays_are_told_by_a_look() {
    let mut state = state();
    send_and_keep(&mut state, 1, 10_000);
    assert!(set(&mut state, "DelaySeconds", "5"));
    let look = |state: &State, now| {
        let (found, count) = (peek_at_all(state, 9, now), state.count());
        assert_eq!(found.len() as u64, count);
        (found[0].visibility, found[0].count, found[0].group.clone())
    };
    assert_eq!(look(&state, 14_999), (Visibility::Delayed, 0, "g".into()));
    assert_eq!(look(&state, 15_000), (Visibility::Visible, 0, "g".into()));
    receive(&mut state, 1, 30_000);
    assert_eq!(look(&state, 34_999), (Visibility::InFlight, 1, "g".into()));
    assert_eq!(look(&state, 35_000), (Visibility::Visible, 1, "g".into()));
}

/// Sends a message, whose id is made of its place.
fn send_with(state: &mut State, place: u64, dedup: &DedupId, moment: Moment) {
    let envelope = Envelope::from(format!("{{\"sent\":{moment}}}\nbody"));
    let group = GroupId::parse("g").unwrap();
    let ask = Ask::Send { group, dedup: dedup.clone(), envelope, cause: Cause::Client };
    let applied = state.apply_reply(&ask, StoreReply::Sent(place), moment, &Jumps::default()).unwrap();
    assert!(matches!(applied.outcome, Outcome::Sent { sequence, id: None } if sequence == place));
}

#[test]
fn a_repeat_is_told_the_first_ones_place_and_adds_nothing() {
    let (mut state, dedup) = (state(), DedupId::parse("d").unwrap());
    let sends = [
        (1, 0),
        (2, 10),
        (1, 20),
        (3, WINDOW_MILLISECONDS + 10),
        (1, WINDOW_MILLISECONDS + 20),
        (2, 2 * WINDOW_MILLISECONDS),
        (3, 2 * WINDOW_MILLISECONDS),
    ];
    sends.into_iter().for_each(|(place, moment)| send_with(&mut state, place, &dedup, moment));
    assert_eq!((state.last_sequence, state.count()), (3, 3));
}

#[test]
fn a_call_is_known_whether_it_sent_its_message_with_a_delay_or_without() {
    let call = DedupId::of_call(&[0; 32], None);
    let mut state = state_of("standard");
    send_with(&mut state, 1, &call, 10);
    state.remember_delayed(&call, Uuid::from_u128(9), 20);
    let first = state.sent_by(&call, 30);
    assert!(matches!(first, Some(Outcome::Sent { sequence: 1, id: None })), "{first:?}");
    assert!(state.sent_by(&call, 10 + WINDOW_MILLISECONDS).is_none());
    state.remember_delayed(&call, Uuid::from_u128(9), 20 + WINDOW_MILLISECONDS);
    let first = state.sent_by(&call, 20 + WINDOW_MILLISECONDS);
    assert!(matches!(first, Some(Outcome::Sent { id, .. }) if id == Some(Uuid::from_u128(9))), "{first:?}");
}

#[test]
fn a_call_that_is_looked_up_when_it_is_old_counts_until_it_is_forgotten() {
    let (queues, name) = (Queues::default(), QueueName::parse("q").unwrap());
    let entry = QueueEntry::plain(StoreName(1), name, 1);
    let queue = Arc::new(Queue::new(&entry));
    queues.said(0, &queue, &Entry::Queue(entry), 1, 0);
    let (group, call) = (GroupId::parse("g").unwrap(), DedupId::of_call(&[0; 32], None));
    let envelope = Envelope::from("{\"sent\":0}\nbody".to_string());
    let ask = Ask::Send { group, dedup: call.clone(), envelope, cause: Cause::Client };
    queues.apply_reply(0, &queue, &ask, StoreReply::Sent(1), 0).unwrap();
    let looked_up =
        [WINDOW_MILLISECONDS - 1, WINDOW_MILLISECONDS].map(|now| queue.state().sent_by(&call, now).is_some());
    queues.look_at_ages(WINDOW_MILLISECONDS);
    let in_use = queue.state().bytes_of_all();
    assert_eq!((looked_up, queues.bytes_in_use()), ([true, false], in_use));
}

#[test]
fn what_is_said_of_a_task_that_has_ended_is_that_it_has() {
    let mut state = state();
    let (destination, rate, failure, starter, status) = (None, None, None, None, Status::Running);
    let (id, up_to, to_move, moved, started) = (Uuid::from_u128(7), 9, 9, 3, 5);
    let task = MoveTask { id, destination, rate, up_to, to_move, moved, started, status, failure, starter };
    state.said_of_task(&MoveTask { status: Status::Cancelled, ..task.clone() }, 1, 0);
    let said = state.entry_after(&TableChange::Task(MoveTask { moved: 4, ..task.clone() }), 0, 9);
    let expected = MoveTask { moved: 4, status: Status::Cancelled, ..task };
    assert_eq!(said, Some(Entry::Task(state.entry.mark, expected)));
}
