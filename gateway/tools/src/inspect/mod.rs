//! Commands that look at a journal. The programs that keep it do so, by words of their own, also while a gateway runs.

mod book;

use std::fs::OpenOptions;
use std::io::Write;
use std::path::{Path, PathBuf};
use std::process::{Command, Stdio};

use anyhow::{anyhow, bail, Context, Result};
use hobbychair_bytes::journal::{JournalFile, JournalFileError, SERVER};
use serde::Deserialize;

use hobbychair_store::cq::is_blank;
use hobbychair_store::disk::{lack_of_space, taken};
use hobbychair_store::journal::{
    emptied, file_of, files_found, files_of, has_had_requests, has_own_form, lost, open_file, test_path, JournalError,
};

/// What `cq verify` says of a file of a server.
#[derive(Debug, Deserialize)]
struct Found {
    bytes: u64,
    records: u64,
    /// All for which its store stands, and those behind it.
    entries: u64,
}

/// Refuses what another build left by the path of a journal, before a program opens it. What else is wrong is told by that one.
/// Books aren't read whose form was noted as this build's.
pub fn refuse_other_builds(program: &str, path: &Path) -> Result<()> {
    test_path(path)?;
    refuse_other_forms(path)?;
    if has_own_form(path)? {
        return Ok(());
    }
    for file in files_found(path)? {
        match book::program_of(program, &file) {
            Err(error) if error.is::<JournalError>() => return Err(error),
            _ => {}
        }
    }
    Ok(())
}

/// Refuses the files of a journal of which one has another form: that of an earlier build, or of a session, or none at all. What else
/// is wrong with them is told by their programs.
fn refuse_other_forms(path: &Path) -> Result<(), JournalError> {
    for file in files_found(path)? {
        match open_journal_file(&file) {
            Err(why @ (JournalFileError::NotAJournal | JournalFileError::OtherJournal)) if !is_emptied(&file) => {
                return Err(JournalError::OtherForm(file.display().to_string(), why.to_string()));
            }
            _ => {}
        }
    }
    Ok(())
}

fn is_emptied(file: &Path) -> bool {
    is_blank(file).unwrap_or(true)
}

/// Opens a server's file of a journal, and reads where its entries begin.
pub fn open_journal_file(path: &Path) -> Result<JournalFile, JournalFileError> {
    JournalFile::read(&open_file(path, OpenOptions::new().read(true))?, SERVER)
}

/// The files of a journal that is there.
pub fn files_there(path: &Path) -> Result<Vec<PathBuf>> {
    test_path(path)?;
    refuse_other_forms(path)?;
    let files = files_of(path)?;
    if files.is_empty() && has_had_requests(path)? {
        return Err(lost(path).into());
    }
    if files.is_empty() {
        bail!("{}: there is no journal", path.display());
    }
    if let Some(missing) = files.iter().find(|file| !file.exists()) {
        bail!("{} is missing", missing.display());
    }
    Ok(files)
}

/// A word of the program about a file. What it says is given where it is asked for by `output`; where it fails, it has said why.
fn ask(program: &str, word: &str, files: &[&Path], output: Stdio) -> Result<Vec<u8>> {
    let mut command = Command::new(program);
    command.arg(word).args(files).stdin(Stdio::null()).stdout(output).stderr(Stdio::piped());
    let ended = command.spawn().and_then(std::process::Child::wait_with_output);
    let ended = ended.with_context(|| format!("{program} can't be started"))?;
    if !ended.status.success() {
        let said = String::from_utf8_lossy(&ended.stderr);
        let file = files.first().map(|file| file.display().to_string()).unwrap_or_default();
        bail!("{file}: {}", said.trim().lines().next().unwrap_or("cq says nothing of it"));
    }
    Ok(ended.stdout)
}

/// Says what a journal holds. An error says where it is damaged, which file lacks, or which one was emptied.
pub fn verify(program: &str, path: &Path, out: &mut impl Write) -> Result<()> {
    verify_copy(program, path, path, out)
}

/// Says what a copy of a journal holds.
fn verify_copy(program: &str, path: &Path, copy: &Path, out: &mut impl Write) -> Result<()> {
    let (files, has_had_requests) = (files_there(copy)?, has_had_requests(path)?);
    for file in &files {
        let said = ask(program, "verify", &[file], Stdio::piped())?;
        let found = serde_json::from_slice(&said).context("cq said what can't be read")?;
        let (name, Found { bytes, records, entries }) = (file.display(), found);
        writeln!(out, "{name}: {bytes} bytes in {records} records: the store of {entries} requests")?;
        if has_had_requests && entries == 0 {
            return Err(emptied(path, file).into());
        }
    }
    test_books(program, copy, &files)?;
    Ok(writeln!(out, "undamaged")?)
}

/// Refuses the files of a journal of which more programs have one, as a book says, or of which one has a book of another build.
fn test_books(program: &str, path: &Path, files: &[PathBuf]) -> Result<()> {
    let told = files.iter().map(|file| book::program_of(program, file)).collect::<Result<Vec<_>>>()?;
    let Some(told) = told.into_iter().flatten().next() else { return Ok(()) };
    let mut lacks = (1..=told.count).skip(files.len()).map(|number| file_of(path, number.into()));
    match lacks.next() {
        Some(file) => Err(JournalError::Lacks(file.display().to_string(), told.count).into()),
        None => Ok(()),
    }
}

/// Writes the stores of a journal, as chunks, file by file.
pub fn dump(program: &str, path: &Path, out: &mut impl Write) -> Result<()> {
    out.flush()?;
    for file in files_there(path)? {
        ask(program, "dump", &[&file], Stdio::inherit())?;
    }
    Ok(())
}

/// Copies a file of a journal.
fn copy_file(program: &str, file: &Path, copy: &Path) -> Result<()> {
    let copied = ask(program, "copy", &[file, copy], Stdio::piped()).map(drop);
    copied.map_err(|error| {
        let said = error.to_string();
        anyhow!("{said}{}", lack_of_space(&said, copy, taken(file)))
    })
}

/// Copies a journal. The file of the first program is copied last, and the copy counts as a journal from then on.
pub fn back_up(program: &str, path: &Path, copy: &Path, out: &mut impl Write) -> Result<()> {
    let files = files_there(path)?;
    if let Some(file) = files_of(copy)?.into_iter().find(|file| file.exists()) {
        bail!("{} is there: a copy needs a name that nothing has", file.display());
    }
    test_path(copy)?;
    test_books(program, path, &files)?;
    // A copy has what can be read: nobody could see there what a damaged file has lost.
    for file in &files {
        ask(program, "verify", &[file], Stdio::piped())?;
    }
    let copies: Vec<_> = (1..).take(files.len()).map(|number| file_of(copy, number)).collect();
    let copied = files.iter().zip(&copies).rev().try_for_each(|(file, copy)| copy_file(program, file, copy));
    let verified = copied.and_then(|()| verify_copy(program, path, copy, out));
    if verified.is_err() {
        // Of a copy that isn't whole nothing stays.
        copies.iter().for_each(|copy| drop(std::fs::remove_file(copy)));
    }
    verified
}
