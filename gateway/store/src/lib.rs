//! The store: asks in, answers out. One task owns each program's pipe, or a node's.
//!
//! What keeps the store is a `backend`: a process of `cq server`, with or without a file of a journal, or a chain of servers behind
//! a node. The tables follow what it answers. Of HTTP and of actions nothing is known here, and of a cluster the pipe alone.

mod admission;
pub mod backend;
pub mod cq;
pub mod disk;
mod exchange;
pub mod figures;
pub mod jobs;
pub mod journal;
pub mod pipes;
mod room;
pub mod shared;
pub mod store;
pub mod task;
