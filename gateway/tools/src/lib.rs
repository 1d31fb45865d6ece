//! What the program does beside serving: it judges histories, looks at journals, draws runs of chains, and has a shell for one.
//!
//! Nothing here asks a store for a client or knows a cluster or HTTP: programs `cq` are run, and what they tell is read.

pub mod answers;
pub mod draw;
pub mod history;
pub mod inspect;
pub mod misuse;
pub mod shell;
mod watch;
