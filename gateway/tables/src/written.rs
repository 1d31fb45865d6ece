//! Asks as the store is asked them.

use hobbychair_bytes::digits::hex;
use hobbychair_bytes::values::StoreAsk;

use crate::ask::{Ask, PartsAsk};
use crate::store_name::StoreName;

/// The group of all parts, and that of all entries of a book.
const PARTS_GROUP: &str = "parts";
const BOOK_GROUP: &str = "book";

/// The most messages that a receive is handed.
const MOST_HANDED: u8 = 10;

impl Ask {
    /// The bytes of this ask of the queue that has that name in the store.
    pub fn written(&self, queue: StoreName) -> Vec<u8> {
        match self {
            Ask::Create { store, visibility, .. } => creation(*visibility).written(*store),
            Ask::Remove { store } => StoreAsk::<&str>::Remove.written(*store),
            Ask::Say { book, text, .. } => {
                let dedup = hex(&rand::random::<[u8; 16]>());
                sending(BOOK_GROUP, &dedup, text).written(StoreName::of_book(*book))
            }
            Ask::Send { group, dedup, envelope, .. } => {
                sending(group.as_str(), dedup.as_str(), envelope.text()).written(queue)
            }
            Ask::Receive { size, visibility, .. } => receiving(*size, *visibility).written(queue),
            Ask::Delete { receipt, .. } => StoreAsk::<&str>::Delete { receipt: *receipt }.written(queue),
            Ask::ChangeVisibility { receipt, visibility, .. } => {
                StoreAsk::<&str>::Change { receipt: *receipt, timeout: *visibility }.written(queue)
            }
            Ask::Parts { number, ask } => ask.written(StoreName::of_parts(*number)),
        }
    }

    /// How many bytes the texts of a send have: only by these one is longer than another.
    pub fn length_of_texts(&self) -> usize {
        let Ask::Send { group, dedup, envelope, .. } = self else { return 0 };
        group.as_str().len() + dedup.as_str().len() + envelope.text().len()
    }
}

impl PartsAsk {
    fn written(&self, queue: StoreName) -> Vec<u8> {
        match self {
            PartsAsk::Create(_) => creation(0).written(queue),
            PartsAsk::Add(_, place, text) => sending(PARTS_GROUP, &place.to_string(), text).written(queue),
            PartsAsk::Read => receiving(MOST_HANDED, 0).written(queue),
            PartsAsk::Remove => StoreAsk::<&str>::Remove.written(queue),
        }
    }
}

/// Deduplication ids are the gateway's, so no queue of the store makes any.
fn creation(timeout: u32) -> StoreAsk<&'static str> {
    StoreAsk::Create { timeout, makes_ids: false }
}

fn sending<'a>(group: &'a str, dedup: &'a str, body: &'a str) -> StoreAsk<&'a str> {
    StoreAsk::Send { group, dedup: Some(dedup), body }
}

fn receiving(size: u8, timeout: u32) -> StoreAsk<&'static str> {
    StoreAsk::Receive { size: size.into(), timeout: Some(timeout) }
}

#[cfg(test)]
mod tests {
    use std::sync::Arc;

    use hobbychair_bytes::values::Receipt;
    use hobbychair_sqs::envelope::Envelope;
    use hobbychair_sqs::texts::{DedupId, GroupId};

    use super::*;
    use crate::ask::{Cause, Changer, PartsCause, Reach};
    use crate::book::{Entry, ProgramEntry};

    const QUEUE: StoreName = StoreName(7);

    /// The bytes of the ask `kind` of a queue of this name.
    fn bytes(kind: u8, name: &str, parts: &[u8]) -> Vec<u8> {
        [&[kind][..], &(name.len() as u32).to_le_bytes(), name.as_bytes(), parts].concat()
    }

    #[test]
    fn each_ask_has_the_bytes_of_the_page() {
        let receipt = Receipt { incarnation: 9, sequence: 258, ordinal: 3 };
        let of_receipt = b"\x09\0\0\0\0\0\0\0\x02\x01\0\0\0\0\0\0\x03\0\0\0\0\0\0\0";
        let (group, dedup) = (GroupId::parse("g").unwrap(), DedupId::parse("d").unwrap());
        let send = Ask::Send { group, dedup, envelope: Envelope::from("body".to_string()), cause: Cause::Client };
        let reach = Reach::Own(Vec::new());
        let receive = Ask::Receive { size: 2, visibility: 9, attempt: None, most: None, reach };
        let change = Ask::ChangeVisibility { receipt, visibility: 9, by: Changer::Client };
        for (ask, kind, parts) in [
            (Ask::Create { store: QUEUE, visibility: 9, bytes: 0 }, 0, b"\x09\0\0\0\0".to_vec()),
            (Ask::Remove { store: QUEUE }, 1, Vec::new()),
            (send, 2, b"\x01\0\0\0g\x01\x01\0\0\0d\x04\0\0\0body".to_vec()),
            (receive, 3, b"\x02\0\0\0\x01\x09\0\0\0".to_vec()),
            (Ask::Delete { receipt, by_client: true }, 4, of_receipt.to_vec()),
            (change, 5, [&of_receipt[..], b"\x09\0\0\0"].concat()),
        ] {
            assert_eq!(ask.written(QUEUE), bytes(kind, "7.fifo", &parts), "{ask:?}");
        }
    }

    #[test]
    fn parts_and_books_have_queues_of_their_own() {
        let add = PartsAsk::Add(PartsCause::Client, 1, "text".into());
        for (ask, kind, parts) in [
            (PartsAsk::Create(PartsCause::Move), 0, &b"\0\0\0\0\0"[..]),
            (PartsAsk::Remove, 1, b""),
            (add, 2, b"\x05\0\0\0parts\x01\x01\0\0\x001\x04\0\0\0text"),
            (PartsAsk::Read, 3, b"\x0a\0\0\0\x01\0\0\0\0"),
        ] {
            let written = Ask::Parts { number: 5, ask }.written(QUEUE);
            assert_eq!(written, bytes(kind, "b5.fifo", parts));
        }
        let entry = Arc::new(Entry::Program(ProgramEntry::new(0, 1, uuid::Uuid::nil())));
        let written = Ask::Say { book: 5, entry, text: "text".into() }.written(QUEUE);
        let front = bytes(2, "book5.fifo", b"\x04\0\0\0book\x01\x20\0\0\0");
        assert!(written.starts_with(&front) && written.ends_with(b"\x04\0\0\0text"), "{written:?}");
        assert_eq!(written.len(), front.len() + 32 + 8);
    }
}
