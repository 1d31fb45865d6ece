//! What the book in a file says of the program that keeps it.

use std::io::{BufRead, BufReader};
use std::path::Path;
use std::process::{Command, Stdio};

use anyhow::{Context, Result};
use hobbychair_bytes::values::{Part, StoreReader};
use hobbychair_tables::book::{form_said_by, Entry, ProgramEntry, FORM};
use hobbychair_tables::image::ImageError;
use hobbychair_tables::store_name::StoreName;
use serde::Deserialize;

use hobbychair_store::journal::JournalError;

/// A line of `cq dump` that tells a chunk of a store.
#[derive(Deserialize)]
struct ChunkLine {
    /// In hexadecimal digits.
    chunk: String,
}

/// What was read so far.
#[derive(Default)]
struct BookReader {
    store: StoreReader,
    /// Whether messages that come next are entries of a book.
    is_in_book: bool,
    program: Option<ProgramEntry>,
    /// Of a book of another build.
    other_form: Option<u32>,
}

impl BookReader {
    fn feed(&mut self, chunk: &[u8]) -> Result<()> {
        let BookReader { store, is_in_book, program, other_form } = self;
        store.feed(chunk, |part| match part {
            Part::Name { name, .. } => *is_in_book = StoreName::parse(name).is_some_and(|name| name.book().is_some()),
            Part::Message { body, .. } if *is_in_book => {
                *other_form = other_form.or(form_said_by(body).filter(|form| *form != FORM));
                if let Ok(Entry::Program(entry)) = serde_json::from_str(body) {
                    *program = Some(entry);
                }
            }
            _ => {}
        })?;
        Ok(())
    }
}

/// Which program keeps a file, as the book in its store says last; none where it says nothing of that. A book of another build is
/// refused. It takes time in proportion to the store.
pub fn program_of(program: &str, file: &Path) -> Result<Option<ProgramEntry>> {
    let mut dump = Command::new(program);
    dump.arg("dump").arg(file).stdin(Stdio::null()).stdout(Stdio::piped()).stderr(Stdio::null());
    let mut process = dump.spawn().with_context(|| format!("{program} can't be started"))?;
    let mut reader = BookReader::default();
    let output = process.stdout.take().context("cq has no output")?;
    let read = read_lines(BufReader::new(output), &mut reader);
    // Where it wasn't read to its end, it ends at its next write.
    let ended = process.wait()?;
    read.with_context(|| file.display().to_string())?;
    anyhow::ensure!(ended.success(), "{}: cq can't tell what it has", file.display());
    match reader.other_form {
        Some(form) => {
            Err(JournalError::OtherForm(file.display().to_string(), ImageError::OtherForm(form).to_string()).into())
        }
        None => Ok(reader.program),
    }
}

/// Lines that tell no chunk are passed over.
fn read_lines(mut output: impl BufRead, reader: &mut BookReader) -> Result<()> {
    let mut line = Vec::new();
    while output.read_until(b'\n', &mut line)? > 0 {
        if let Ok(ChunkLine { chunk }) = serde_json::from_slice(&line) {
            reader.feed(&bytes_of(&chunk).context("cq dump told no digits")?)?;
        }
        line.clear();
    }
    Ok(())
}

fn bytes_of(digits: &str) -> Option<Vec<u8>> {
    let digit = |byte: &u8| char::from(*byte).to_digit(16).map(|value| value as u8);
    digits.as_bytes().chunks(2).map(|pair| Some(digit(pair.first()?)? << 4 | digit(pair.get(1)?)?)).collect()
}

#[cfg(test)]
mod tests {
    use super::*;

    #[test]
    fn digits_stand_for_bytes() {
        assert_eq!(bytes_of("00ff1A"), Some(vec![0, 255, 26]));
        assert_eq!(bytes_of(""), Some(Vec::new()));
        assert!(bytes_of("0").is_none() && bytes_of("0g").is_none());
    }
}
