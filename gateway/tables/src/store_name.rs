//! The names by which queues stand in the store.

use std::fmt;

use serde::{Deserialize, Serialize};

/// The name under which a queue stands in the store: a number, and another one each time. Queues that have the parts of
/// large messages have numbers of their own, and so have books. One that has what is delayed has that of the queue beside
/// which it stands.
#[derive(Clone, Copy, Debug, PartialEq, Eq, Hash, PartialOrd, Ord, Serialize, Deserialize)]
#[serde(try_from = "String", into = "String")]
pub struct StoreName(pub u64);

/// Of the numbers of names that are for parts.
const PARTS: u64 = 1 << 63;

/// Of those that are for what is delayed.
const DELAYS: u64 = 1 << 62;

/// Of those of books.
const BOOKS: u64 = 1 << 61;

impl StoreName {
    /// The name of a queue that has the parts of one message, by its number.
    pub fn of_parts(number: u64) -> StoreName {
        StoreName(PARTS | number)
    }

    /// Its number, if it has the parts of a message.
    pub fn parts(self) -> Option<u64> {
        (self.0 & PARTS > 0).then_some(self.0 & !PARTS)
    }

    /// The name of the queue that has what is delayed of this one.
    pub fn of_delays(self) -> StoreName {
        StoreName(DELAYS | self.0)
    }

    /// The name of the book of this number.
    pub fn of_book(number: u64) -> StoreName {
        StoreName(BOOKS | number)
    }

    /// Its number, if it is that of a book.
    pub fn book(self) -> Option<u64> {
        (self.0 & (PARTS | DELAYS | BOOKS) == BOOKS).then_some(self.0 & !BOOKS)
    }

    /// The name of the queue of which it has what is delayed, if it has that of one.
    pub fn main(self) -> Option<StoreName> {
        (self.0 & (PARTS | DELAYS) == DELAYS).then_some(StoreName(self.0 & !DELAYS))
    }

    /// The name in a text; none where the gateway gives no such name.
    pub fn parse(text: &str) -> Option<StoreName> {
        let number = text.strip_suffix(".fifo")?;
        let name = if let Some(number) = number.strip_prefix("book") {
            StoreName::of_book(number.parse().ok()?)
        } else if let Some(number) = number.strip_prefix('b') {
            StoreName::of_parts(number.parse().ok()?)
        } else if let Some(number) = number.strip_suffix('d') {
            StoreName(number.parse().ok()?).of_delays()
        } else {
            StoreName(number.parse().ok()?)
        };
        Some(name).filter(|name| name.to_string() == text)
    }
}

/// The name as the store's rules want it.
impl fmt::Display for StoreName {
    fn fmt(&self, out: &mut fmt::Formatter<'_>) -> fmt::Result {
        match (self.parts(), self.main(), self.book()) {
            (Some(number), ..) => write!(out, "b{number}.fifo"),
            (_, Some(main), _) => write!(out, "{}d.fifo", main.0),
            (.., Some(number)) => write!(out, "book{number}.fifo"),
            (None, None, None) => write!(out, "{}.fifo", self.0),
        }
    }
}

impl TryFrom<String> for StoreName {
    type Error = &'static str;

    fn try_from(text: String) -> Result<StoreName, &'static str> {
        StoreName::parse(&text).ok_or("no name of the store")
    }
}

impl From<StoreName> for String {
    fn from(name: StoreName) -> String {
        name.to_string()
    }
}
