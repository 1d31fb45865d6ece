//! What a server was told and told, in a file, for tests.

use std::fs::{File, OpenOptions};
use std::io::{self, Write};
use std::path::Path;

use hobbychair_bytes::commands::Response;

/// The file: each command that wasn't refused, and behind it its responses, as frames. In each frame a byte stands in front:
/// 0 for a command and 1 for a response.
pub struct Trace(File);

impl Trace {
    /// A new file.
    pub fn begin(path: &Path) -> io::Result<Trace> {
        Ok(Trace(OpenOptions::new().write(true).create_new(true).open(path)?))
    }

    /// Writes a command's frame and its responses.
    pub fn write<'r>(&mut self, command: &[u8], responses: impl Iterator<Item = &'r Response>) -> io::Result<()> {
        let mut all = Vec::with_capacity(command.len() + 64);
        put(&mut all, 0, command);
        responses.for_each(|response| put(&mut all, 1, &response.frame()));
        self.0.write_all(&all)
    }
}

fn put(all: &mut Vec<u8>, kind: u8, frame: &[u8]) {
    let bytes = frame.get(4..).unwrap_or_default();
    all.extend_from_slice(&(bytes.len() as u32 + 1).to_le_bytes());
    all.push(kind);
    all.extend_from_slice(bytes);
}
