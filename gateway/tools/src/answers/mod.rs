//! `dump --answers`: what the stores of a journal were asked, and what they answered, as a history that `check` judges
//! (`docs/CHECKING.md`).
//!
//! A journal keeps entries and no answers. But what a server answers depends on its entries alone: one that is given those of a
//! file anew (`server`) gives the answers that were given.

mod names;
mod server;

use std::io::Write;
use std::path::{Path, PathBuf};

use anyhow::{Context, Result};
use hobbychair_bytes::journal::JournalFile;
use hobbychair_bytes::moment::Moment;
use hobbychair_store::cq::{test_built, test_version};
use tokio::runtime;
use tokio::sync::mpsc;

use crate::inspect::{files_there, open_journal_file};

/// So many lines of a file may wait for earlier ones of others.
const AHEAD_LINES: usize = 16;

/// A line of a history, and its moment.
#[derive(Debug)]
struct TimedLine {
    at: Moment,
    line: String,
}

/// A file that is read from its first entry on.
struct Source {
    path: PathBuf,
    /// From 1.
    number: u64,
    journal: JournalFile,
}

type Lines = mpsc::Receiver<Result<TimedLine>>;

/// Writes a line for each request that the files of a journal have, in the order of their moments, and those of one moment file by
/// file. Where a store has the place of a file's first requests, that is said, and its lines begin with that store. Behind an error
/// the lines are there that were before.
pub fn dump(program: &str, path: &Path, out: &mut impl Write) -> Result<()> {
    runtime::Builder::new_current_thread().enable_all().build()?.block_on(async {
        test_built(program).await?;
        test_version(program).await?;
        let lines = open(path)?.into_iter().map(|source| begin(program, source)).collect();
        merge(lines, out).await
    })
}

/// Opens the files of a journal.
fn open(path: &Path) -> Result<Vec<Source>> {
    let mut sources = Vec::new();
    for (number, path) in (1..).zip(files_there(path)?) {
        let journal = open_journal_file(&path).with_context(|| path.display().to_string())?;
        sources.push(Source { path, number, journal });
    }
    Ok(sources)
}

/// Has a program answer the entries of a file. An error is the last that comes of it.
fn begin(program: &str, source: Source) -> Lines {
    let (sender, lines) = mpsc::channel(AHEAD_LINES);
    let program = program.to_string();
    tokio::spawn(async move {
        let path = source.path.clone();
        let told = server::tell(&program, source, &sender).await;
        if let Err(error) = told.with_context(|| path.display().to_string()) {
            // Where nobody takes lines any more, there is another error.
            let _ = sender.send(Err(error)).await;
        }
    });
    lines
}

/// Writes the lines of all files by their moments, which never fall in a file.
async fn merge(mut lines: Vec<Lines>, out: &mut impl Write) -> Result<()> {
    let mut next = Vec::new();
    for lines in &mut lines {
        next.push(lines.recv().await.transpose()?);
    }
    let first = |next: &[Option<TimedLine>]| {
        let moments = next.iter().enumerate().filter_map(|(place, told)| Some((told.as_ref()?.at, place)));
        moments.min().map(|(_, place)| place)
    };
    while let Some(place) = first(&next) {
        if let Some(told) = next[place].take() {
            writeln!(out, "{}", told.line)?;
        }
        next[place] = lines[place].recv().await.transpose()?;
    }
    Ok(())
}

#[cfg(test)]
mod tests {
    use super::*;

    /// A file's lines, which are there already.
    fn lines(told: &[(Moment, &str)]) -> Lines {
        let (sender, lines) = mpsc::channel(told.len().max(1));
        for (at, line) in told {
            sender.try_send(Ok(TimedLine { at: *at, line: line.to_string() })).unwrap();
        }
        lines
    }

    #[tokio::test]
    async fn lines_of_several_files_stand_by_their_moments_and_then_by_their_files() {
        let mut out = Vec::new();
        let files =
            vec![lines(&[(1, "a"), (5, "d"), (5, "e")]), lines(&[]), lines(&[(1, "b"), (2, "c"), (5, "f"), (9, "g")])];
        merge(files, &mut out).await.unwrap();
        assert_eq!(String::from_utf8(out).unwrap(), "a\nb\nc\nd\ne\nf\ng\n");
    }

    #[tokio::test]
    async fn behind_an_error_nothing_is_written() {
        let (sender, failing) = mpsc::channel(2);
        sender.try_send(Ok(TimedLine { at: 3, line: "c".into() })).unwrap();
        sender.try_send(Err(anyhow::anyhow!("damaged"))).unwrap();
        drop(sender);
        let mut out = Vec::new();
        let error = merge(vec![lines(&[(1, "a"), (2, "b"), (4, "d")]), failing], &mut out).await.unwrap_err();
        assert_eq!((error.to_string(), String::from_utf8(out).unwrap()), ("damaged".into(), "a\nb\nc\n".into()));
    }
}
