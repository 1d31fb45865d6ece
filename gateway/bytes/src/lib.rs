//! The bytes of all that goes between processes or stays in files, beside HTTP: frames and their parts, what `cq` is told and tells,
//! the values of stores (`docs/WIRE.md`, `docs/PROCESSES.md`), the pipe between a node and its gateway (`docs/CLUSTER.md`), and
//! the files of journals (`docs/JOURNAL.md`).
//!
//! It reads and writes, and decides nothing: it knows neither SQS nor tables, stores or clusters. Bytes that are no value are
//! refused, by a `Fault` or as `Malformed`.

pub mod characters;
pub mod commands;
pub mod digits;
pub mod framing;
pub mod journal;
pub mod messages;
pub mod moment;
pub mod parts;
pub mod pipe;
pub mod processes;
#[cfg(any(test, feature = "testing"))]
pub mod seeded;
#[cfg(any(test, feature = "testing"))]
pub mod temporary;
pub mod values;
