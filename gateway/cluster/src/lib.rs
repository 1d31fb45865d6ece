//! Nodes and masters of a chain of servers on several machines (docs/CLUSTER.md).
//!
//! A node (`node`) runs one `cq server` (`child`) and carries what it puts to the others by links (`link`,
//! `wire`). A candidate for the master (`master`) appends lines (`decision`, of what `silence` and `roster` say) to a log
//! in etcd (`etcd`, `records`, `contact`, `slowness`), which it compacts (`compaction`) and of which is told how it is
//! (`condition`); `cut` says which links carry nothing, and `serving` whether the head's gateway serves: nodes say how far it
//! is, and fronts, by their pings, which gateways' ports they reach (`witness`, `node/fronts`).
//! `suspension` has whoever stood still look at etcd first. The node of the head starts the gateway that acts
//! (`node/gateway`), and fronts find it (`acting`). Who is at the other end of a connection (`transport`) is known by
//! certificates (`identity`, `pem`), which `certificates` makes. `memory` says how much there is, and `log_limit` bounds what
//! the log tells of strangers. Two rules are kept: no clock and no lease is part of what keeps data safe, and a server ends
//! only because the log says so, by a fault of its own, or since whoever runs it insists.
//!
//! Requests and stores are bytes here, whose form is that of `hobbychair_bytes`: nothing is known of SQS, and nothing of tables.

pub mod acting;
mod addresses;
mod certificates;
mod child;
mod clock;
pub mod command_line;
mod compaction;
pub mod condition;
mod contact;
mod cut;
mod decision;
mod etcd;
pub mod identity;
mod journal;
mod link;
pub mod log_limit;
mod master;
pub mod memory;
mod node;
pub mod pem;
mod records;
mod recover;
mod roster;
mod serving;
mod silence;
mod slowness;
mod status;
mod suspension;
pub mod transport;
mod up;
mod wire;
mod witness;

use std::io::{self, Write};
use std::sync::{Mutex, MutexGuard, PoisonError};

/// What a lock protects, also behind a thread that panicked: all that is kept here is whole between two statements.
fn lock<T>(mutex: &Mutex<T>) -> MutexGuard<'_, T> {
    mutex.lock().unwrap_or_else(PoisonError::into_inner)
}

/// Writes a line to standard output. Where nobody reads it, all goes on.
fn say(line: &str) {
    let _ = writeln!(io::stdout(), "{line}");
}
