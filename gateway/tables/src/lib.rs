//! The tables: what the gateway keeps of each queue that lives. They follow the answers of the store.
//!
//! Here is also what an ask of a store is, and what the book says of queues; and what requests keep of memory, who waits, and the
//! clock, since tables count by these. No pipe, process or file is known here.

pub mod alarms;
pub mod ask;
pub mod book;
pub mod budget;
#[cfg(any(test, feature = "testing"))]
pub mod by_rules;
pub mod clock;
pub mod copies;
mod groups;
pub mod image;
pub mod jumps;
pub mod limits;
#[cfg(test)]
mod living;
pub mod names;
pub mod parts;
pub mod presence;
pub mod queue;
pub mod queues;
mod removals;
pub mod shards;
pub mod state;
pub mod store_name;
mod stored;
pub mod tasks;
#[cfg(test)]
mod tests;
pub mod waiting;
mod written;
