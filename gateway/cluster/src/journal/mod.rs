//! The journal of a node: all entries of its server, in a folder that no start deletes (docs/CLUSTER.md, "Disks").
//!
//! The folder has segments, `entries.N`, with what the server took, and at times a copy of its whole store, `store.N`: all
//! segments before N are gone then. Both are made of frames (`framing`), each with some records. A thread writes them
//! (`writer`); after the loss of all nodes `reader` reads what is there.

mod reader;
mod record;
mod writer;

use std::fs::{self, DirBuilder, File, OpenOptions};
use std::io;
use std::os::unix::fs::{DirBuilderExt, OpenOptionsExt};
use std::path::{Path, PathBuf};

use rustix::fs::{flock, FlockOperation};

pub use reader::{find, Found, Unusable};
pub use record::{Entry, Head, Known, Record, VERSION};
pub use writer::{NewStore, Writer, Written, LONGEST_BATCH_BYTES};

/// The name of a part of a journal has its number in so many digits at least.
const DIGITS: usize = 6;

/// The folder of one node's journal.
#[derive(Clone, Debug, PartialEq, Eq)]
pub struct JournalFolder(pub PathBuf);

/// The journal is this process's for as long as this is kept.
#[derive(Debug)]
pub struct Lock {
    _file: File,
}

impl JournalFolder {
    /// That of a server of a cluster's incarnation, among those of others.
    pub fn of(journals: &Path, incarnation: &str, server: u32) -> JournalFolder {
        JournalFolder(journals.join(format!("{incarnation}-{server}")))
    }

    /// The incarnation and the number of the server that a folder's name says.
    pub fn named(path: &Path) -> Option<(String, u32)> {
        let (incarnation, server) = path.file_name()?.to_str()?.rsplit_once('-')?;
        let is_incarnation = incarnation.len() == 16 && incarnation.bytes().all(|digit| digit.is_ascii_hexdigit());
        let server = server.parse().ok().filter(|server: &u32| server.to_string() == *path_end(path))?;
        is_incarnation.then(|| (incarnation.into(), server))
    }

    pub fn entries(&self, part: u64) -> PathBuf {
        self.0.join(format!("entries.{part:0DIGITS$}"))
    }

    pub fn store(&self, part: u64) -> PathBuf {
        self.0.join(format!("store.{part:0DIGITS$}"))
    }

    /// What a store is called before it is whole.
    fn new_store(&self, part: u64) -> PathBuf {
        self.0.join(format!("store.{part:0DIGITS$}.new"))
    }

    /// The numbers of the parts of that kind that are there, in order.
    fn parts(&self, kind: &str) -> io::Result<Vec<u64>> {
        let mut parts = Vec::new();
        for entry in about(&self.0, fs::read_dir(&self.0))? {
            let name = entry?.file_name();
            let digits = name.to_str().and_then(|name| name.strip_prefix(kind)?.strip_prefix('.'));
            let digits =
                digits.filter(|digits| digits.len() >= DIGITS && digits.bytes().all(|one| one.is_ascii_digit()));
            parts.extend(digits.and_then(|digits| digits.parse::<u64>().ok()));
        }
        parts.sort_unstable();
        Ok(parts)
    }

    /// Makes the folder, for its owner alone. One that is there is an error: it is another process's journal.
    pub fn make(&self) -> io::Result<()> {
        about(&self.0, DirBuilder::new().mode(0o700).create(&self.0))?;
        sync_folder(self.0.parent().unwrap_or(&self.0))
    }

    /// Keeps others from the journal, or says that it is another process's.
    pub fn lock(&self) -> io::Result<Lock> {
        let path = self.0.join("lock");
        let mut options = OpenOptions::new();
        options.create(true).write(true).truncate(false).mode(0o600);
        let file = about(&path, options.open(&path))?;
        about(&path, flock(&file, FlockOperation::NonBlockingLockExclusive).map_err(io::Error::from))?;
        Ok(Lock { _file: file })
    }

    /// Whether a process has the journal. A folder that can't be written to has no process.
    pub fn is_in_use(&self) -> bool {
        let file = match File::open(self.0.join("lock")) {
            Ok(file) => file,
            Err(_) => return false,
        };
        flock(file, FlockOperation::NonBlockingLockShared) == Err(rustix::io::Errno::WOULDBLOCK)
    }

    fn sync(&self) -> io::Result<()> {
        sync_folder(&self.0)
    }
}

/// The number behind the last hyphen of a path, as it stands there.
fn path_end(path: &Path) -> &str {
    path.file_name().and_then(|name| name.to_str()?.rsplit('-').next()).unwrap_or_default()
}

/// After this, names that were given and removed in the folder outlive a power cut.
fn sync_folder(folder: &Path) -> io::Result<()> {
    about(folder, File::open(folder).and_then(|folder| folder.sync_all()))
}

/// An error names the file that it is about.
fn about<T>(path: &Path, result: io::Result<T>) -> io::Result<T> {
    result.map_err(|error| io::Error::new(error.kind(), format!("{}: {error}", path.display())))
}

/// Makes a folder for journals where there is none, and tries whether files can be made in it.
pub fn prepare(journals: &Path) -> io::Result<()> {
    about(journals, fs::create_dir_all(journals))?;
    let probe = journals.join(format!("probe-{}", std::process::id()));
    about(&probe, OpenOptions::new().write(true).create(true).truncate(true).mode(0o600).open(&probe))?;
    about(&probe, fs::remove_file(&probe))
}

#[cfg(test)]
mod tests;
