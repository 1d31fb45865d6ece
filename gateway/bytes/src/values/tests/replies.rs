//! Answers: some by hand from the page, and such as the proved program wrote.

use proptest::prelude::*;

use super::{bytes_of, said_of};
use crate::seeded::{check, edits, spoilt};
use crate::values::{Delivery, Fault, Receipt, StoreAnswer, StoreReply};

fn delivery(numbers: [u64; 3], group: &str, body: &str) -> Delivery {
    let [incarnation, sequence, ordinal] = numbers;
    Delivery { receipt: Receipt { incarnation, sequence, ordinal }, group: group.into(), body: body.into() }
}

/// Replies, and their bytes.
fn by_hand() -> Vec<(StoreReply, Vec<u8>)> {
    let first = "0100000000000000 0201000000000000 0300000000000000 01000000 67 02000000 610a";
    let second = "0100000000000000 0400000000000000 0100000000000000 02000000 6768 02000000 c3a9";
    let replies = [
        (StoreReply::Created(1), "00 0100000000000000".to_string()),
        (StoreReply::Removed, "01".into()),
        (StoreReply::Sent(258), "02 0201000000000000".into()),
        (StoreReply::Received(Vec::new()), "03 0000000000000000".into()),
        (
            StoreReply::Received(vec![delivery([1, 258, 3], "g", "a\n"), delivery([1, 4, 1], "gh", "é")]),
            format!("03 0200000000000000 {first} {second}"),
        ),
        (StoreReply::Deleted(false), "04 00".into()),
        (StoreReply::Deleted(true), "04 01".into()),
        (StoreReply::Changed, "05".into()),
        (StoreReply::Counts { visible: 3, in_flight: 258 }, "06 0300000000000000 0201000000000000".into()),
        (StoreReply::Refused(8), "07 08000000".into()),
    ];
    replies.into_iter().map(|(reply, digits)| (reply, bytes_of(&digits))).collect()
}

/// The message by which client 5's request 6, the entry at place 7, is answered.
fn answer(reply: &[u8]) -> Vec<u8> {
    [&bytes_of("01 0c 05000000 0600000000000000 00 0700000000000000"), reply].concat()
}

#[test]
fn replies_are_read_from_the_bytes_of_the_page() {
    for (reply, bytes) in by_hand() {
        let expected = StoreAnswer { client: 5, number: 6, is_of_query: false, length: 7, reply };
        assert_eq!(StoreAnswer::read(&answer(&bytes)), Ok(expected.clone()));
        assert_eq!(expected.written(), answer(&bytes));
    }
}

#[test]
fn no_front_of_an_answer_is_one_and_nothing_stands_behind_it() {
    for (_, bytes) in by_hand() {
        let whole = answer(&bytes);
        let read = |bytes: &[u8]| StoreAnswer::read(bytes);
        (0..whole.len()).for_each(|end| assert_eq!(read(&whole[..end]), Err(Fault::Truncated), "{end}"));
        assert_eq!(read(&[&whole[..], &[0]].concat()), Err(Fault::BytesLeft));
    }
}

#[test]
fn an_answer_with_another_byte_is_another_one_or_none() {
    for (_, bytes) in by_hand() {
        let whole = answer(&bytes);
        for (place, byte) in (0..whole.len()).flat_map(|place| (1..=255).map(move |byte| (place, byte))) {
            let mut changed = whole.clone();
            changed[place] ^= byte;
            if let Ok(answer) = StoreAnswer::read(&changed) {
                assert_eq!(answer.written(), changed);
            }
        }
    }
}

#[test]
fn each_rule_of_a_reply_has_its_fault() {
    let receipt = "0100000000000000 0200000000000000";
    for (digits, fault) in [
        ("08".to_string(), Fault::BadTag),
        ("04 02".into(), Fault::BadTag),
        ("07 00000000".into(), Fault::BadNumber),
        ("07 09000000".into(), Fault::BadNumber),
        ("03 ffffffffffffffff".into(), Fault::Truncated),
        (format!("03 0100000000000000 {receipt} 0000000000000000 01000000 67 01000000 62"), Fault::BadNumber),
        (format!("03 0100000000000000 {receipt} 0100000000000000 01000000 20 01000000 62"), Fault::BadText),
        (format!("03 0100000000000000 {receipt} 0100000000000000 01000000 67 00000000"), Fault::BadText),
        (format!("03 0100000000000000 {receipt} 0100000000000000 01000000 67 01000000 ff"), Fault::BadText),
    ] {
        assert_eq!(StoreAnswer::read(&answer(&bytes_of(&digits))), Err(fault), "{digits}");
    }
    // An acknowledgement.
    assert_eq!(StoreAnswer::read(&bytes_of("01 02 0700000000000000")), Err(Fault::BadTag));
    assert_eq!(StoreAnswer::read(&bytes_of("02 0c")), Err(Fault::OtherVersion));
}

/// The words for a reply, as the proved program tells them. It wrote none of a receive.
fn words_of(reply: &StoreReply) -> String {
    match reply {
        StoreReply::Created(incarnation) => format!("created {incarnation}"),
        StoreReply::Removed => "removed".into(),
        StoreReply::Sent(sequence) => format!("sent {sequence}"),
        StoreReply::Received(given) => format!("received {}", given.len()),
        StoreReply::Deleted(removed) => format!("deleted {removed}"),
        StoreReply::Changed => "changed".into(),
        StoreReply::Counts { visible, in_flight } => format!("counts {visible} {in_flight}"),
        StoreReply::Refused(refusal) => format!("refused {refusal}"),
    }
}

#[test]
fn replies_and_answers_of_the_proved_program_are_those_here() {
    let (replies, answers) = (said_of("reply"), said_of("message answer"));
    assert!(replies.len() >= 4 && answers.len() >= 2);
    for (bytes, words) in replies {
        let read = StoreAnswer::read(&answer(&bytes[1..])).unwrap();
        assert_eq!(words_of(&read.reply), words);
        assert_eq!(read.written(), answer(&bytes[1..]));
    }
    for (bytes, words) in answers {
        let read = StoreAnswer::read(&bytes).unwrap();
        let StoreAnswer { client, number, is_of_query, length, reply } = &read;
        assert_eq!(format!("{client} {number} {is_of_query} {length} {}", words_of(reply)), words);
        assert_eq!(read.written(), bytes);
    }
}

fn answers() -> impl Strategy<Value = StoreAnswer> {
    let body = "[\\t\\n\\r -\u{d7ff}\u{e000}-\u{fffd}\u{10000}-\u{10ffff}]{1,40}";
    let given = ([1u64.., 1.., 1..], "[!-~]{1,128}", body);
    let given = given.prop_map(|(numbers, group, body)| delivery(numbers, &group, &body));
    let reply = prop_oneof![
        any::<u64>().prop_map(StoreReply::Created),
        Just(StoreReply::Removed),
        any::<u64>().prop_map(StoreReply::Sent),
        proptest::collection::vec(given, 0..12).prop_map(StoreReply::Received),
        any::<bool>().prop_map(StoreReply::Deleted),
        Just(StoreReply::Changed),
        (any::<u64>(), any::<u64>()).prop_map(|(visible, in_flight)| StoreReply::Counts { visible, in_flight }),
        (1u32..=8).prop_map(StoreReply::Refused),
    ];
    (any::<u32>(), any::<u64>(), any::<bool>(), any::<u64>(), reply).prop_map(
        |(client, number, is_of_query, length, reply)| StoreAnswer { client, number, is_of_query, length, reply },
    )
}

#[test]
fn any_answer_is_read_as_it_was_written() {
    check(2000, answers(), |answer| {
        prop_assert_eq!(StoreAnswer::read(&answer.written()), Ok(answer));
        Ok(())
    });
}

#[test]
fn any_bytes_are_read_as_the_answer_that_has_them_or_not_at_all() {
    check(20_000, (answers(), edits()), |(answer, edits)| {
        let spoilt = spoilt(&answer.written(), &edits);
        if let Ok(answer) = StoreAnswer::read(&spoilt) {
            prop_assert_eq!(answer.written(), spoilt);
        }
        Ok(())
    });
}
