//! What `cq watch` tells of a chain: of each line its answer or its refusal, and what the chain holds where a line asks.

mod told;

use std::process::{Command, Stdio};

pub use told::{OutputLine, Party, Reply, Shown, ShownServer, Way};

/// The line that asks what the chain holds.
pub const SHOW: &str = r#"{"op":"show"}"#;

/// The words by which `cq` runs lines that may ask what the chain holds.
pub fn watching(program: &str, servers: u8) -> Command {
    let mut command = Command::new(program);
    command.args(["watch", "--servers", &servers.to_string()]).stdin(Stdio::piped()).stdout(Stdio::piped());
    command
}
