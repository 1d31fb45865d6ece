//! The bytes of what stores are asked and answer, and of stores themselves (`docs/WIRE.md`).
//!
//! All that the gateway writes for a store, or reads of one, is written and read here. Bytes that are read as a value are those
//! that are written for it, and all others are a [`Fault`].

mod asks;
mod fault;
mod parts;
mod reader;
mod receipt;
mod replies;
mod store;
#[cfg(test)]
mod tests;
#[cfg(any(test, feature = "testing"))]
pub mod written;

pub use asks::{append_query, append_request, RequestName, StoreAsk, StoreEntry, StoreRequest};
pub use fault::{BadFrame, Fault};
pub use parts::{KeptHandings, Part, QueuePart};
pub use reader::STORE_LIMIT_BYTES;
pub use receipt::Receipt;
pub use replies::{Delivery, StoreAnswer, StoreReply};
pub use store::StoreReader;
