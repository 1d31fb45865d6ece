//! Stores that the proved program wrote, and such that are none.

use std::collections::HashSet;

use proptest::prelude::*;
use proptest::sample::Index;

use super::{bytes_of, said_of, ASKED, SAID};
use crate::digits::hex;
use crate::moment::Moment;
use crate::parts::VERSION;
use crate::seeded::{check, edits, spoilt};
use crate::values::written::{append, chunk};
use crate::values::{Fault, KeptHandings, Part, QueuePart, StoreReader};

/// The stores that it wrote, and their words.
fn written_stores() -> Vec<(Vec<u8>, &'static str)> {
    let stores = said_of("store");
    assert!(stores.len() >= 4);
    stores
}

/// The words of a store as the page's reader tells them, without kept replies.
fn words_of(part: &Part<'_>) -> String {
    let text = |text: &str| hex(text.as_bytes());
    let optional = |moment: &Option<Moment>| moment.map_or("none".to_string(), |moment| moment.to_string());
    match part {
        Part::Start { entries, last } => format!("{entries} {last}"),
        Part::Client { client, number, .. } => format!("client {client} {number}"),
        Part::Name { name, creations, removed, queue } => {
            let queue = queue.map_or("none".to_string(), |queue| {
                let QueuePart { incarnation, timeout, makes_ids, sent, uses, last } = queue;
                format!("{incarnation} {timeout} {makes_ids} {sent} {uses} {last}")
            });
            format!("name {} {creations} {} {queue}", text(name), optional(removed))
        }
        Part::Message { sequence, group, body, handings, handed, until } => {
            format!("message {sequence} {} {} {handings} {handed} {until}", text(group), text(body))
        }
        Part::Accepted { id, moment, sequence } => format!("accepted {} {moment} {sequence}", text(id)),
        Part::End => String::new(),
    }
}

/// The words without kept replies: these stand behind a client's number.
fn without_replies(words: &str) -> String {
    let (mut kept, mut behind_client) = (Vec::new(), None);
    for word in words.split(' ') {
        match word {
            "client" => behind_client = Some(0),
            "name" => behind_client = None,
            _ => {}
        }
        if behind_client.map_or(true, |count| count < 3) {
            kept.push(word);
        }
        behind_client = behind_client.map(|count| count + 1);
    }
    kept.join(" ")
}

fn read(chunks: &[&[u8]]) -> Result<String, Fault> {
    let (mut reader, mut words) = (StoreReader::default(), Vec::new());
    for chunk in chunks {
        reader.feed(chunk, |part| words.push(words_of(&part)))?;
    }
    reader.end()?;
    words.retain(|words| !words.is_empty());
    Ok(words.join(" "))
}

#[test]
fn stores_are_read_as_what_they_are() {
    for (bytes, words) in written_stores() {
        assert_eq!(read(&[&bytes]).unwrap(), without_replies(words));
    }
}

fn of_store(words: String) -> String {
    format!("store {words}")
}

#[test]
fn each_store_that_is_none_has_its_fault() {
    let asked: Vec<_> = ASKED.lines().filter_map(|line| line.strip_prefix("read store ")).collect();
    let told: Vec<_> = asked.iter().map(|digits| read(&[&bytes_of(digits)])).collect();
    assert!(told.len() >= 9 && told.iter().filter(|told| told.is_err()).count() >= 8);
    let told: Vec<_> = told.into_iter().map(|told| told.map_or_else(|fault| fault.to_string(), of_store)).collect();
    // It said this of them, one after the other.
    let said: Vec<_> = SAID.lines().map(without_replies).collect();
    assert!(said.windows(told.len()).any(|said| said == told), "{told:#?}");
    let (first, _) = &written_stores()[0];
    let other = [&[2], &first[1..]].concat();
    assert_eq!([read(&[&other]), read(&[])], [Err(Fault::OtherVersion), Err(Fault::Truncated)]);
}

/// What a store of these parts is read as.
fn read_parts(parts: &[Part<'_>]) -> Result<String, Fault> {
    let mut bytes = chunk();
    parts.iter().for_each(|part| append(&mut bytes, part));
    read(&[&bytes])
}

#[test]
fn each_part_stands_where_it_can() {
    let living = QueuePart { incarnation: 1, timeout: 30, makes_ids: false, sent: 2, uses: 3, last: 9 };
    let start = Part::Start { entries: 3, last: 9 };
    let client = |client| Part::Client { client, number: 7, handed: KeptHandings::default() };
    let name = |name, creations, queue| Part::Name { name, creations, removed: None, queue };
    let (queue, removed) = (name("q.fifo", 1, Some(living)), name("r.fifo", 1, None));
    let handed = |sequence, handings| {
        let (group, body, handed, until) = ("g", "b", 0, 0);
        Part::Message { sequence, group, body, handings, handed, until }
    };
    let message = |sequence| handed(sequence, 0);
    let accepted = |id, moment| Part::Accepted { id, moment, sequence: 1 };
    let (end, tag, number) = (Part::End, Err(Fault::BadTag), Err(Fault::BadNumber));
    let good = [start, client(1), queue, message(1), message(2), accepted("a", 1), accepted("b", 1), removed, end];
    assert!(read_parts(&good).is_ok());
    for (parts, fault) in [
        (vec![queue, end], tag.clone()),
        (vec![start, start, end], tag.clone()),
        (vec![start, end, end], tag.clone()),
        (vec![start, queue, client(1), end], tag.clone()),
        (vec![start, message(1), end], tag.clone()),
        (vec![start, removed, message(1), end], tag.clone()),
        (vec![start, removed, accepted("a", 1), end], tag.clone()),
        (vec![start, queue, accepted("a", 1), message(1), end], tag),
        (vec![start, client(1), client(1), end], number.clone()),
        (vec![start, queue, removed, queue, end], number.clone()),
        (vec![start, removed, removed, end], number.clone()),
        (vec![start, name("q.fifo", 4, None), end], number.clone()),
        (vec![start, name("q.fifo", 1, Some(QueuePart { uses: 4, ..living })), end], number.clone()),
        (vec![start, name("q.fifo", 1, Some(QueuePart { last: 10, ..living })), end], number.clone()),
        (vec![start, name("q.fifo", 1, Some(QueuePart { sent: 4, ..living })), end], number.clone()),
        (vec![start, name("q.fifo", 1, Some(QueuePart { incarnation: 0, ..living })), end], number.clone()),
        (vec![start, queue, message(2), message(1), end], number.clone()),
        (vec![start, queue, message(3), end], number.clone()),
        (vec![start, queue, message(0), end], number.clone()),
        (vec![start, queue, handed(1, 4), end], number.clone()),
        (vec![start, queue, accepted("a", 2), accepted("b", 1), end], number.clone()),
        (vec![start, queue, accepted("a", 10), end], number.clone()),
        (vec![start, queue, accepted("a", 1), accepted("a", 1), end], number.clone()),
        (vec![start, queue, accepted("a", 1), accepted("b", 1), accepted("c", 1), end], number),
        (vec![start, queue, message(1)], Err(Fault::Truncated)),
    ] {
        assert_eq!(read_parts(&parts), fault, "{parts:?}");
    }
}

#[test]
fn no_front_of_a_store_is_one_and_nothing_comes_behind_its_end() {
    for (bytes, _) in written_stores() {
        for end in 0..bytes.len() {
            assert_eq!(read(&[&bytes[..end]]), Err(Fault::Truncated), "{end}");
        }
        assert_eq!(read(&[&bytes, &[VERSION, 5]]), Err(Fault::BadTag));
        assert!(read(&[&bytes, &[VERSION]]).is_ok());
    }
}

#[test]
fn where_a_store_is_cut_into_chunks_means_nothing() {
    check(500, (any::<Index>(), proptest::collection::vec(any::<bool>(), 100)), |(which, cuts)| {
        let stores = written_stores();
        let (bytes, _) = &stores[which.index(stores.len())];
        let mut chunks = vec![chunk()];
        let (mut reader, mut cuts) = (StoreReader::default(), cuts.into_iter().cycle());
        let told = reader.feed(bytes, |part| {
            if cuts.next() == Some(true) {
                chunks.push(chunk());
            }
            append(chunks.last_mut().unwrap(), &part);
        });
        prop_assert_eq!(told, Ok(()));
        let chunks: Vec<_> = chunks.iter().map(Vec::as_slice).collect();
        prop_assert_eq!(read(&chunks), read(&[bytes]));
        Ok(())
    });
}

#[test]
fn any_bytes_are_read_or_refused() {
    let stores = written_stores();
    let (mut read_as_stores, mut faults) = (0, HashSet::new());
    let seen = std::cell::RefCell::new((&mut read_as_stores, &mut faults));
    check(100_000, (any::<Index>(), edits()), |(which, edits)| {
        let (bytes, _) = &stores[which.index(stores.len())];
        let mut seen = seen.borrow_mut();
        match read(&[&spoilt(bytes, &edits)]) {
            Ok(_) => *seen.0 += 1,
            Err(fault) => drop(seen.1.insert(fault.to_string())),
        }
        Ok(())
    });
    assert!(read_as_stores > 1000 && faults.len() == 5, "{read_as_stores} {faults:?}");
}
