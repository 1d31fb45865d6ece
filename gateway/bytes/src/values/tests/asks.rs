//! Asks, entries and queries: some by hand from the page, and such as the proved program wrote.

use std::fmt::Debug;

use proptest::prelude::*;

use super::{bytes_of, said_of};
use crate::digits::hex;
use crate::parts::{Parts, VERSION};
use crate::seeded::{check, edits, spoilt};
use crate::values::{append_query, append_request, Fault, Receipt, StoreAsk, StoreEntry, StoreRequest};

const RECEIPT: Receipt = Receipt { incarnation: 1, sequence: 258, ordinal: 3 };

/// Asks of `q.fifo`, and their bytes.
fn by_hand() -> Vec<(StoreAsk<&'static str>, Vec<u8>)> {
    let name = "06000000 712e6669666f";
    let receipt = "0100000000000000 0201000000000000 0300000000000000";
    let asks = [
        (StoreAsk::Create { timeout: 30, makes_ids: true }, format!("00 {name} 1e000000 01")),
        (StoreAsk::Create { timeout: 43_200, makes_ids: false }, format!("00 {name} c0a80000 00")),
        (StoreAsk::Remove, format!("01 {name}")),
        (
            StoreAsk::Send { group: "g", dedup: Some("d"), body: "body" },
            format!("02 {name} 01000000 67 01 01000000 64 04000000 626f6479"),
        ),
        (StoreAsk::Send { group: "g", dedup: None, body: "é\n" }, format!("02 {name} 01000000 67 00 03000000 c3a90a")),
        (StoreAsk::Receive { size: 10, timeout: None }, format!("03 {name} 0a000000 00")),
        (StoreAsk::Receive { size: 1, timeout: Some(9) }, format!("03 {name} 01000000 01 09000000")),
        (StoreAsk::Delete { receipt: RECEIPT }, format!("04 {name} {receipt}")),
        (StoreAsk::Change { receipt: RECEIPT, timeout: 0 }, format!("05 {name} {receipt} 00000000")),
    ];
    asks.into_iter().map(|(ask, digits)| (ask, bytes_of(&digits))).collect()
}

/// The entry of moment 258 with request 9 of client 7, which asks this.
fn entry(ask: &[u8]) -> Vec<u8> {
    [&bytes_of("01 0201000000000000 07000000 0900000000000000"), ask].concat()
}

fn read(bytes: &[u8]) -> Result<StoreEntry<'_>, Fault> {
    StoreEntry::read(bytes)
}

/// The bytes of an entry that was read.
fn written<T: AsRef<str> + Debug>(entry: &StoreEntry<'_, T>) -> Vec<u8> {
    let StoreRequest { client, number, queue, ask } = &entry.request;
    let mut out = vec![VERSION];
    out.number64(entry.moment);
    append_request(&mut out, *client, *number, &ask.written(queue.as_ref()));
    assert_eq!(out[9..], *entry.written, "{entry:?}");
    out
}

#[test]
fn asks_have_the_bytes_of_the_page_and_are_read_from_them() {
    for (ask, bytes) in by_hand() {
        assert_eq!(ask.written("q.fifo"), bytes, "{ask:?}");
        let whole = entry(&bytes);
        let request = StoreRequest { client: 7, number: 9, queue: "q.fifo", ask };
        assert_eq!(StoreEntry::read(&whole), Ok(StoreEntry { moment: 258, request, written: &whole[9..] }));
    }
    // The example of the page.
    let example = "01 02 01 00 00 00 00 00 00 07 00 00 00 09 00 00 00 00 00 00 00 01 06 00 00 00 71 2e 66 69 66 6f";
    assert_eq!(entry(&StoreAsk::<&str>::Remove.written("q.fifo")), bytes_of(example));
    let mut query = Vec::new();
    append_query(&mut query, 7, 9, "q.fifo");
    assert_eq!(query, bytes_of("07000000 0900000000000000 06000000 712e6669666f"));
}

#[test]
fn no_front_of_an_entry_is_one_and_nothing_stands_behind_it() {
    for (_, bytes) in by_hand() {
        let whole = entry(&bytes);
        (0..whole.len()).for_each(|end| assert_eq!(read(&whole[..end]), Err(Fault::Truncated), "{end}"));
        assert_eq!(read(&[&whole[..], &[0]].concat()), Err(Fault::BytesLeft));
    }
}

#[test]
fn an_entry_with_another_byte_is_another_one_or_none() {
    for (_, bytes) in by_hand() {
        let whole = entry(&bytes);
        for (place, byte) in (0..whole.len()).flat_map(|place| (1..=255).map(move |byte| (place, byte))) {
            let mut changed = whole.clone();
            changed[place] ^= byte;
            if let Ok(entry) = read(&changed) {
                assert_eq!(written(&entry), changed);
            }
        }
    }
}

#[test]
fn each_rule_of_a_part_has_its_fault() {
    let name = "06000000 712e6669666f";
    let numbers = "0100000000000000 0200000000000000";
    let (long_name, long_id) = (format!("{}.fifo", "x".repeat(76)), "x".repeat(129));
    let text = |text: &str| format!("{} {}", hex(&(text.len() as u32).to_le_bytes()), hex(text.as_bytes()));
    for (digits, fault) in [
        ("06".to_string(), Fault::BadTag),
        (format!("00 {name} c1a80000 00"), Fault::BadNumber),
        (format!("00 {name} c0a80000 02"), Fault::BadTag),
        (format!("01 {}", text("q.fif")), Fault::BadText),
        (format!("01 {}", text(".fifo")), Fault::BadText),
        (format!("01 {}", text("a b.fifo")), Fault::BadText),
        (format!("01 {}", text(&long_name)), Fault::BadText),
        ("01 01000000 ff".to_string(), Fault::BadText),
        (format!("02 {name} {} 00 {}", text("a b"), text("body")), Fault::BadText),
        (format!("02 {name} {} 00 {}", text(&long_id), text("body")), Fault::BadText),
        (format!("02 {name} {} 01 {} {}", text("g"), text(""), text("body")), Fault::BadText),
        (format!("02 {name} {} 02 {}", text("g"), text("body")), Fault::BadTag),
        (format!("02 {name} {} 00 {}", text("g"), text("")), Fault::BadText),
        (format!("02 {name} {} 00 {}", text("g"), text("\0")), Fault::BadText),
        (format!("02 {name} {} 00 {}", text("g"), text("\u{ffff}")), Fault::BadText),
        (format!("02 {name} {} 00 ffffffff 78", text("g")), Fault::Truncated),
        (format!("03 {name} 00000000 00"), Fault::BadNumber),
        (format!("03 {name} 0b000000 00"), Fault::BadNumber),
        (format!("03 {name} 0a000000 01 c1a80000"), Fault::BadNumber),
        (format!("04 {name} {numbers} 0000000000000000"), Fault::BadNumber),
        (format!("04 {name} 0000000000000000 {numbers}"), Fault::BadNumber),
        (format!("05 {name} {numbers} 0100000000000000 c1a80000"), Fault::BadNumber),
    ] {
        assert_eq!(read(&entry(&bytes_of(&digits))), Err(fault), "{digits}");
    }
    let body = "x".repeat(262_145);
    let send = StoreAsk::Send { group: "g", dedup: None, body: body.as_str() };
    assert_eq!(read(&entry(&send.written("q.fifo"))), Err(Fault::BadText));
    let send = StoreAsk::Send { group: "g", dedup: None, body: &body[1..] };
    assert!(read(&entry(&send.written("q.fifo"))).is_ok());
    let late = bytes_of(&format!("01 0100000000000010 07000000 0900000000000000 01 {name}"));
    assert_eq!(read(&late), Err(Fault::BadNumber));
    assert_eq!(read(&[&[2], &late[1..]].concat()), Err(Fault::OtherVersion));
}

/// The words for a request, as the proved program tells them.
fn words_of(request: &StoreRequest) -> String {
    let StoreRequest { client, number, queue, ask } = request;
    let of_receipt = |receipt: &Receipt| format!("{} {} {}", receipt.incarnation, receipt.sequence, receipt.ordinal);
    let (kind, parts) = match ask {
        StoreAsk::Create { timeout, makes_ids } => ("create", format!(" {timeout} {makes_ids}")),
        StoreAsk::Remove => ("remove", String::new()),
        StoreAsk::Send { group, dedup, body } => {
            let dedup = dedup.as_ref().map_or("none".to_string(), |dedup| hex(dedup.as_bytes()));
            ("send", format!(" {} {dedup} {}", hex(group.as_bytes()), hex(body.as_bytes())))
        }
        StoreAsk::Receive { size, timeout } => {
            let timeout = timeout.map_or("none".to_string(), |timeout| timeout.to_string());
            ("receive", format!(" {size} {timeout}"))
        }
        StoreAsk::Delete { receipt } => ("delete", format!(" {}", of_receipt(receipt))),
        StoreAsk::Change { receipt, timeout } => ("change", format!(" {} {timeout}", of_receipt(receipt))),
    };
    format!("{client} {number} {kind} {}{parts}", hex(queue.as_bytes()))
}

#[test]
fn entries_requests_and_queries_of_the_proved_program_are_those_here() {
    let (entries, requests, queries) = (said_of("entry"), said_of("request"), said_of("query"));
    assert!(entries.len() >= 4 && requests.len() >= 6 && queries.len() >= 9);
    for (bytes, words) in entries {
        let entry = read(&bytes).unwrap();
        assert_eq!(format!("{} {}", entry.moment, words_of(&entry.request)), words);
        assert_eq!(written(&entry), bytes);
    }
    for (bytes, words) in requests {
        let whole = [&[VERSION; 1][..], &[0; 8], &bytes[1..]].concat();
        let entry = read(&whole).unwrap();
        assert_eq!(words_of(&entry.request), words);
        assert_eq!(written(&entry), whole);
    }
    for (bytes, words) in queries {
        let words: Vec<_> = words.split(' ').collect();
        let name = String::from_utf8(bytes_of(words[2])).unwrap();
        let mut query = vec![VERSION];
        append_query(&mut query, words[0].parse().unwrap(), words[1].parse().unwrap(), name);
        assert_eq!(query, bytes);
    }
}

fn receipts() -> impl Strategy<Value = Receipt> {
    [1u64.., 1.., 1..].prop_map(|[incarnation, sequence, ordinal]| Receipt { incarnation, sequence, ordinal })
}

fn asks() -> impl Strategy<Value = StoreAsk> {
    let body = "[\\t\\n\\r -\u{d7ff}\u{e000}-\u{fffd}\u{10000}-\u{10ffff}]{1,40}";
    let send = ("[!-~]{1,128}", proptest::option::of("[!-~]{1,128}"), body);
    let timeout = || 0u32..=43_200;
    prop_oneof![
        (timeout(), any::<bool>()).prop_map(|(timeout, makes_ids)| StoreAsk::Create { timeout, makes_ids }),
        Just(StoreAsk::Remove),
        send.prop_map(|(group, dedup, body)| StoreAsk::Send { group, dedup, body }),
        (1u32..=10, proptest::option::of(timeout())).prop_map(|(size, timeout)| StoreAsk::Receive { size, timeout }),
        receipts().prop_map(|receipt| StoreAsk::Delete { receipt }),
        (receipts(), timeout()).prop_map(|(receipt, timeout)| StoreAsk::Change { receipt, timeout }),
    ]
}

/// Entries as they are written.
fn entries() -> impl Strategy<Value = (u64, StoreRequest, Vec<u8>)> {
    let request = (any::<u32>(), any::<u64>(), "[a-zA-Z0-9_-]{1,75}\\.fifo", asks());
    (0..=1u64 << 60, request).prop_map(|(moment, (client, number, queue, ask))| {
        let mut bytes = vec![VERSION];
        bytes.number64(moment);
        append_request(&mut bytes, client, number, &ask.written(&queue));
        (moment, StoreRequest { client, number, queue, ask }, bytes)
    })
}

#[test]
fn any_entry_is_read_as_it_was_written() {
    check(2000, entries(), |(moment, request, bytes)| {
        prop_assert_eq!(read(&bytes), Ok(StoreEntry { moment, request, written: &bytes[9..] }));
        Ok(())
    });
}

#[test]
fn any_bytes_are_read_as_the_entry_that_has_them_or_not_at_all() {
    check(20_000, (entries(), edits()), |((.., bytes), edits)| {
        let spoilt = spoilt(&bytes, &edits);
        if let Ok(entry) = read(&spoilt) {
            prop_assert_eq!(written(&entry), spoilt);
        }
        Ok(())
    });
}
