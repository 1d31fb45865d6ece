//! The files of a journal. Each program keeps its entries in one of its own; what keeps them is proved.
//!
//! All files are made under other names and get theirs when they are whole, that of the first program last. So where that
//! one has its name, the journal is there.

use std::ffi::OsString;
use std::fs::{File, OpenOptions, Permissions};
use std::io::{self, Read};
use std::os::unix::fs::{FileExt, MetadataExt, OpenOptionsExt, PermissionsExt};
use std::path::{Path, PathBuf};
use std::thread;
use std::time::{Duration, Instant};

use hobbychair_tables::book::FORM;
use hobbychair_tables::shards::Shards;
use rustix::fs::{fallocate, flock, fstatfs, FallocateFlags, FlockOperation, OFlags};
use thiserror::Error;

use crate::cq::{KeptFile, Making};

/// Why the files of a journal can't be used.
#[derive(Clone, Debug, PartialEq, Eq, Error)]
pub enum JournalError {
    #[error("{0}")]
    Io(String),
    #[error("there is no folder {folder} for the journal {path}")]
    NoFolder { path: String, folder: String },
    #[error("{0} is a folder: a journal is named by a file in one, as {0}/journal")]
    IsFolder(String),
    #[error("{0} is in use by another process")]
    InUse(String),
    #[error("{0}: a journal must be on a disk of this machine")]
    Network(String),
    #[error("{0} is no journal by itself: the files of one are FILE.cq1 and so on, and --journal names FILE")]
    NoJournal(String),
    #[error("{0} is of the journal of an earlier build. {why}", why = NOT_PROMISED)]
    Earlier(String),
    #[error(
        "{0} is no journal of this build: it is of another one, cut off, or none at all ({1}). {why}",
        why = NOT_PROMISED
    )]
    OtherForm(String, String),
    #[error("{0} is missing: the journal has a file for each program, as many as --shards says")]
    Missing(String),
    #[error(
        "{0} is missing, and had requests, as {1} notes. Put the file or a copy of the journal there; to begin with \
         nothing, remove {1}"
    )]
    Lost(String, String),
    #[error("{0} is missing: the journal has a file for each program, and its book says that there are {1}")]
    Lacks(String, u32),
    #[error("{0} is there: the journal has a file for each program, and --shards says {1}")]
    OtherShards(String, u32),
    #[error(
        "{0} has no requests, and had some: it was emptied, or is another file. Put the file or a copy of the journal there; \
         to begin with nothing, remove {1}"
    )]
    Emptied(String, String),
}

/// What whoever has the journal of another build has to know.
const NOT_PROMISED: &str =
    "Before version 0.2.0 no format of a journal is promised, and none is upgraded: docs/GATEWAY.md, \
     \"Upgrade\", says how the messages get into a new one";

impl From<io::Error> for JournalError {
    fn from(error: io::Error) -> JournalError {
        JournalError::Io(error.to_string())
    }
}

/// How long another gateway may hold the lock until it counts as one that goes on. One that was killed while it started a program
/// holds it for a moment more: that program has it until it runs.
const PATIENCE: Duration = Duration::from_secs(2);

const PAUSE: Duration = Duration::from_millis(20);

/// The names of the files, and how large each is made.
#[derive(Clone, Debug)]
pub struct Files {
    path: PathBuf,
    shards: Shards,
    /// In MiB.
    size: Option<u64>,
}

/// The journal is this gateway's for as long as this is kept.
pub struct Lock {
    file: File,
}

/// What stands in the lock once the file of each program has requests. Behind it stands of which form the books are.
const HAS_REQUESTS: &str = "hobbychair: each file of this journal has requests\n";

/// What this build notes in the lock.
fn note() -> String {
    format!("{HAS_REQUESTS}form {FORM}\n")
}

impl Lock {
    /// Notes for good that the file of each program has requests, and that their books are of this build's form. From then on a
    /// file that has no requests isn't the one that was there.
    pub fn note_requests(&self) -> io::Result<()> {
        let note = note().into_bytes();
        let mut noted = vec![0; note.len()];
        if self.file.read_exact_at(&mut noted, 0).is_ok() && noted == note {
            return Ok(());
        }
        self.file.write_all_at(&note, 0)?;
        self.file.sync_all()
    }
}

/// Whether it was noted of the journal of this path that the file of each program has requests.
pub fn has_had_requests(path: &Path) -> io::Result<bool> {
    lock_begins_with(path, HAS_REQUESTS)
}

/// Whether it was noted of the journal of this path that its books are of this build's form.
pub fn has_own_form(path: &Path) -> io::Result<bool> {
    lock_begins_with(path, &note())
}

fn lock_begins_with(path: &Path, text: &str) -> io::Result<bool> {
    Ok(front_of(&lock_of(path))?.is_some_and(|front| front.starts_with(text.as_bytes())))
}

/// Why a file of a journal isn't taken that has no requests, and had some.
pub fn emptied(path: &Path, file: &Path) -> JournalError {
    JournalError::Emptied(file.display().to_string(), lock_of(path).display().to_string())
}

/// Why a journal isn't begun anew of which no file is there, and that had requests.
pub fn lost(path: &Path) -> JournalError {
    JournalError::Lost(file_of(path, 1).display().to_string(), lock_of(path).display().to_string())
}

fn lock_of(path: &Path) -> PathBuf {
    with_suffix(path, "lock")
}

/// The path with something behind it.
fn with_suffix(path: &Path, suffix: &str) -> PathBuf {
    let mut name = OsString::from(path.as_os_str());
    name.push(".");
    name.push(suffix);
    name.into()
}

impl Files {
    /// The files of a journal by the path that names it, each of so many MiB where it is made.
    pub fn new(path: PathBuf, shards: Shards, size: Option<u64>) -> Files {
        Files { path, shards, size }
    }

    /// The path that names the journal.
    pub fn path(&self) -> &Path {
        &self.path
    }

    /// The file of the program at this place, which is there.
    pub fn of(&self, place: usize) -> KeptFile {
        KeptFile { path: file_of(&self.path, place as u64 + 1), making: Making::Refused }
    }

    /// The same under the name that it has first, where it may be made.
    pub fn fresh(&self, place: usize) -> KeptFile {
        KeptFile { path: with_suffix(&self.of(place).path, "new"), making: Making::OfSize(self.size) }
    }

    fn places(&self) -> std::ops::Range<usize> {
        0..self.shards.count() as usize
    }

    /// The places of the files that are there.
    fn found(&self) -> io::Result<Vec<usize>> {
        let numbers = numbers_of_files(&self.path)?;
        Ok(numbers.into_iter().filter_map(|number| usize::try_from(number).ok()?.checked_sub(1)).collect())
    }

    /// Keeps all other gateways from the journal.
    pub fn lock(&self) -> Result<Lock, JournalError> {
        let name = lock_of(&self.path);
        let mut options = OpenOptions::new();
        // Whoever can read it could hold it, and keep the gateway from starting.
        options.create(true).read(true).write(true).truncate(false).mode(0o600);
        let file = open_own_file(&name, &mut options)?;
        about(&name, file.set_permissions(Permissions::from_mode(0o600)))?;
        test_disk(&file, &self.path)?;
        let begun = Instant::now();
        loop {
            match flock(&file, FlockOperation::NonBlockingLockExclusive) {
                Ok(()) => return Ok(Lock { file }),
                Err(rustix::io::Errno::WOULDBLOCK) if begun.elapsed() < PATIENCE => thread::sleep(PAUSE),
                Err(rustix::io::Errno::WOULDBLOCK) => return Err(JournalError::InUse(self.path.display().to_string())),
                Err(error) => return Err(JournalError::Io(format!("{} can't be locked: {error}", name.display()))),
            }
        }
    }

    /// Whether the journal is there. What was left where its making was cut off is gone after this.
    pub fn is_there(&self) -> Result<bool, JournalError> {
        let found = self.found()?;
        let missing = |place: usize| JournalError::Missing(self.of(place).path.display().to_string());
        if found.contains(&0) {
            if let Some(place) = self.places().find(|place| !found.contains(place)) {
                return Err(missing(place));
            }
            if let Some(place) = found.into_iter().find(|place| !self.places().contains(place)) {
                let name = self.of(place).path.display().to_string();
                return Err(JournalError::OtherShards(name, self.shards.count()));
            }
            self.clear_fresh()?;
            return Ok(true);
        }
        let had_requests = has_had_requests(&self.path)?;
        if had_requests && found.is_empty() {
            return Err(lost(&self.path));
        }
        // That of the first program was about to get its name.
        let was_cut_off = self.fresh(0).path.exists();
        if had_requests || (!was_cut_off && !found.is_empty()) {
            return Err(missing(0));
        }
        for place in found {
            remove(&self.of(place).path)?;
        }
        sync_folder(&self.path)?;
        self.clear_fresh()?;
        Ok(false)
    }

    /// Removes files that have no name of the journal yet.
    pub fn clear_fresh(&self) -> io::Result<()> {
        for number in numbers_behind(&self.path, |suffix| suffix.strip_prefix("cq")?.strip_suffix(".new"))? {
            remove(&with_suffix(&self.path, &format!("cq{number}.new")))?;
        }
        Ok(())
    }

    /// Gives the files their names. From the last of these on the journal is there.
    pub fn publish(&self) -> io::Result<()> {
        for place in self.places().rev() {
            let (fresh, name) = (self.fresh(place).path, self.of(place).path);
            if place == 0 {
                sync_folder(&self.path)?;
            }
            about(&fresh, std::fs::rename(&fresh, &name))?;
        }
        sync_folder(&self.path)
    }
}

/// How the files of earlier builds begin that kept the journal themselves.
const EARLIER_FRONT: &[u8] = b"hobbychair journal ";

/// Refuses a path by which no journal can go, and one by which an earlier build kept something. Nothing is changed.
pub fn test_path(path: &Path) -> Result<(), JournalError> {
    test_place(path)?;
    let named = |path: &Path| path.display().to_string();
    match front_of(path)? {
        Some(front) if front.starts_with(EARLIER_FRONT) => return Err(JournalError::Earlier(named(path))),
        Some(_) => return Err(JournalError::NoJournal(named(path))),
        None => {}
    }
    let mut suffixes = suffixes_behind(path)?;
    suffixes.sort_unstable();
    let is_there = suffixes.iter().any(|suffix| suffix == "cq1");
    let is_earlier = |suffix: &&String| is_of_earlier(suffix) || (!is_there && is_put_away(suffix));
    match suffixes.iter().find(is_earlier) {
        Some(suffix) => Err(JournalError::Earlier(named(&with_suffix(path, suffix)))),
        None => Ok(()),
    }
}

/// Whether a file is an earlier build's that has this behind the path: a segment, or what the upgrade of a file left that was cut off.
fn is_of_earlier(suffix: &str) -> bool {
    let of_program = suffix.strip_prefix("cq").and_then(|rest| rest.split_once('.'));
    let is_left = |(number, word)| is_number(number) && ["lines", "entries", "entries.part"].contains(&word);
    is_number(suffix) || of_program.is_some_and(is_left)
}

/// Whether an earlier build's upgrade put it away by this name. Where no journal is there, somebody may look for that one.
fn is_put_away(suffix: &str) -> bool {
    let is_turn = |turn: &str| turn.is_empty() || is_number(turn);
    let of_old = suffix.strip_prefix("old").and_then(|rest| rest.split_once('.'));
    let is_old = |(turn, file): (&str, &str)| is_turn(turn) && is_number(file.strip_prefix("cq").unwrap_or(file));
    of_old.is_some_and(is_old) || suffix.strip_prefix("version1").is_some_and(is_turn)
}

fn is_number(text: &str) -> bool {
    !text.is_empty() && text.bytes().all(|byte| byte.is_ascii_digit())
}

/// The numbers of the programs' files that are there, from 1.
fn numbers_of_files(path: &Path) -> io::Result<Vec<u64>> {
    numbers_behind(path, |suffix| suffix.strip_prefix("cq"))
}

/// The files of the journal of this path, up to the last one that is there. Others may be missing.
pub fn files_of(path: &Path) -> io::Result<Vec<PathBuf>> {
    let last = numbers_of_files(path)?.into_iter().max().unwrap_or(0);
    Ok((1..=last).map(|number| file_of(path, number)).collect())
}

/// Those that are there.
pub fn files_found(path: &Path) -> io::Result<Vec<PathBuf>> {
    Ok(numbers_of_files(path)?.into_iter().map(|number| file_of(path, number)).collect())
}

/// The name of the file of this number, from 1.
pub fn file_of(path: &Path, number: u64) -> PathBuf {
    with_suffix(path, &format!("cq{number}"))
}

/// The numbers in the names of files that begin as the path does, of which `number_in` finds one behind that.
fn numbers_behind(path: &Path, number_in: impl Fn(&str) -> Option<&str>) -> io::Result<Vec<u64>> {
    let suffixes = suffixes_behind(path)?;
    let digits =
        suffixes.iter().filter_map(|suffix| number_in(suffix)).filter(|digits| !digits.starts_with(['0', '+']));
    let mut numbers: Vec<_> = digits.filter_map(|digits| digits.parse::<u64>().ok()).collect();
    numbers.sort_unstable();
    Ok(numbers)
}

/// What stands behind the path and a dot in the names of files.
fn suffixes_behind(path: &Path) -> io::Result<Vec<String>> {
    let Some(own) = path.file_name().and_then(|name| name.to_str()) else {
        return Err(io::Error::new(io::ErrorKind::InvalidInput, "the journal has no name"));
    };
    let mut suffixes = Vec::new();
    for entry in about(folder_of(path), std::fs::read_dir(folder_of(path)))? {
        let name = entry?.file_name();
        let suffix = name.to_str().and_then(|name| name.strip_prefix(own)?.strip_prefix('.'));
        suffixes.extend(suffix.map(str::to_string));
    }
    Ok(suffixes)
}

fn folder_of(path: &Path) -> &Path {
    match path.parent() {
        Some(parent) if parent != Path::new("") => parent,
        _ => Path::new("."),
    }
}

/// After this, names that were given and removed in the folder of the path outlive a power cut.
fn sync_folder(path: &Path) -> io::Result<()> {
    let folder = folder_of(path);
    about(folder, File::open(folder).and_then(|folder| folder.sync_all()))
}

fn remove(path: &Path) -> io::Result<()> {
    match std::fs::remove_file(path) {
        Err(error) if error.kind() != io::ErrorKind::NotFound => about(path, Err(error)),
        _ => Ok(()),
    }
}

/// A disk counts the space of files in blocks of so many bytes.
const BLOCK_BYTES: u64 = 512;

/// Has a file have all of its space from now on, if the disk has so much. One that is made of another, as a copy is, takes it as it
/// needs it otherwise. One that has it already stays as it is.
pub fn take_space(path: &Path) -> io::Result<()> {
    let file = open_file(path, OpenOptions::new().write(true))?;
    let found = about(path, file.metadata())?;
    let length = found.len();
    let lacking = length.saturating_sub(BLOCK_BYTES * found.blocks());
    if lacking == 0 {
        return Ok(());
    }
    // Where there is less, a part of it would be taken all the same.
    let left = fstatfs(&file).map(|disk| disk.f_bavail * disk.f_bsize as u64).unwrap_or(u64::MAX);
    if left < lacking {
        let name = path.display();
        tracing::warn!("{name} takes space as it needs it: it lacks {lacking} bytes, and the disk has {left} left");
        return Ok(());
    }
    match fallocate(&file, FallocateFlags::empty(), 0, length) {
        Ok(()) => about(path, file.sync_all()),
        Err(error) => {
            tracing::warn!("{} takes space as it needs it, since the disk gives it none: {error}", path.display());
            Ok(())
        }
    }
}

/// The first bytes of a file; none where there is no such file.
fn front_of(path: &Path) -> io::Result<Option<Vec<u8>>> {
    let file = match open_file(path, OpenOptions::new().read(true)) {
        Ok(file) => file,
        Err(error) if error.kind() == io::ErrorKind::NotFound => return Ok(None),
        Err(error) => return Err(error),
    };
    let mut front = Vec::new();
    about(path, file.take(64).read_to_end(&mut front))?;
    Ok(Some(front))
}

/// An error names the file that it is about.
fn about<T>(path: &Path, result: io::Result<T>) -> io::Result<T> {
    result.map_err(|error| io::Error::new(error.kind(), format!("{}: {error}", path.display())))
}

/// Opens what has to be a file. A pipe would be waited for.
pub fn open_file(path: &Path, options: &mut OpenOptions) -> io::Result<File> {
    about(path, open_with(path, options, OFlags::empty()))
}

fn open_with(path: &Path, options: &mut OpenOptions, more: OFlags) -> io::Result<File> {
    let flags = OFlags::NONBLOCK | OFlags::NOCTTY | more;
    let file = options.custom_flags(flags.bits() as i32).open(path)?;
    if file.metadata()?.is_file() {
        return Ok(file);
    }
    Err(io::Error::new(io::ErrorKind::InvalidInput, "it is no file"))
}

/// Whether there is a file of this name, which is no link and has no other one.
pub fn has_one_name(path: &Path) -> bool {
    std::fs::symlink_metadata(path).is_ok_and(|found| found.is_file() && found.nlink() == 1)
}

/// Opens a file that has this name alone: what is behind a link is somebody else's.
fn open_own_file(path: &Path, options: &mut OpenOptions) -> io::Result<File> {
    let refused = |why: &str| Err(io::Error::new(io::ErrorKind::InvalidInput, why));
    let opened = match open_with(path, options, OFlags::NOFOLLOW) {
        Err(error) if error.raw_os_error() == Some(libc::ELOOP) => refused("it is a symbolic link"),
        Ok(file) if file.metadata().is_ok_and(|found| found.nlink() != 1) => refused("it has a hard link"),
        opened => opened,
    };
    about(path, opened)
}

/// Refuses a path by which nothing can be named in a folder that is there.
fn test_place(path: &Path) -> Result<(), JournalError> {
    let named = |path: &Path| path.to_string_lossy().trim_end_matches('/').to_string();
    if path.is_dir() {
        return Err(JournalError::IsFolder(named(path)));
    }
    match path.parent() {
        Some(folder) if !folder.as_os_str().is_empty() && !folder.is_dir() => {
            Err(JournalError::NoFolder { path: named(path), folder: named(folder) })
        }
        _ => Ok(()),
    }
}

/// Refuses disks of the network, and those that several machines share.
fn test_disk(file: &File, path: &Path) -> Result<(), JournalError> {
    let kind = fstatfs(file).map_or(0, |found| found.f_type as u64 & 0xffff_ffff);
    if let Some(kind) = network(kind) {
        return Err(JournalError::Network(format!("{} is on {kind}", path.display())));
    }
    if kind == FUSE {
        tracing::warn!("{} is on FUSE: what stands behind that has to be a disk of this machine", path.display());
    }
    Ok(())
}

/// A program of its own is behind such a file system (statfs(2)): one of the network, or one of this machine.
const FUSE: u64 = 0x6573_5546;

/// The name of a file system of the network or one that several machines share, by its type (statfs(2)).
fn network(kind: u64) -> Option<&'static str> {
    Some(match kind {
        0x6969 => "NFS",
        0x517b | 0xfe53_4d42 | 0xff53_4d42 => "SMB",
        0x0102_1997 => "9P",
        0x00c3_6400 => "Ceph",
        0x5346_414f | 0x6b41_4653 => "AFS",
        0x0bd0_0bd0 => "Lustre",
        0x0116_1970 => "GFS2",
        0x7461_636f => "OCFS2",
        _ => return None,
    })
}

#[cfg(test)]
mod tests {
    use super::*;

    use hobbychair_bytes::temporary::Room;

    fn names_in(room: &Room) -> Vec<String> {
        let entries = std::fs::read_dir(&room.0).unwrap();
        let mut names: Vec<_> = entries.map(|entry| entry.unwrap().file_name().into_string().unwrap()).collect();
        names.sort_unstable();
        names
    }

    fn put(room: &Room, name: &str, text: &[u8]) {
        std::fs::write(room.0.join(name), text).unwrap();
    }

    fn files(room: &Room, count: u32) -> Files {
        Files::new(room.0.join("j"), Shards::new(count).unwrap(), None)
    }

    #[test]
    fn a_journal_is_there_once_its_first_file_has_its_name() {
        let room = Room::new("there");
        let files = files(&room, 3);
        assert_eq!(files.is_there(), Ok(false));
        (1..=3).for_each(|number| put(&room, &format!("j.cq{number}.new"), b"new"));
        assert_eq!((files.is_there(), names_in(&room).len()), (Ok(false), 0), "its making was cut off");
        (2..=3).for_each(|number| put(&room, &format!("j.cq{number}"), b"named"));
        put(&room, "j.cq1.new", b"not yet");
        assert_eq!((files.is_there(), names_in(&room).len()), (Ok(false), 0), "so was this");
        (1..=3).for_each(|number| put(&room, &format!("j.cq{number}.new"), number.to_string().as_bytes()));
        files.publish().unwrap();
        assert_eq!(names_in(&room), ["j.cq1", "j.cq2", "j.cq3"]);
        assert_eq!(std::fs::read(room.0.join("j.cq2")).unwrap(), b"2");
        assert_eq!(files.is_there(), Ok(true));
    }

    #[test]
    fn what_an_earlier_build_kept_is_refused_by_its_name_and_stays() {
        let names = [
            "1",
            "2",
            "17",
            "cq1.lines",
            "cq2.entries",
            "cq2.entries.part",
            "old.1",
            "old.cq1",
            "old2.cq1",
            "version1",
            "version12",
        ];
        for name in names.map(|suffix| format!("j.{suffix}")) {
            let room = Room::new("earlier");
            put(&room, &name, b"kept");
            let refused = JournalError::Earlier(room.0.join(&name).display().to_string());
            assert_eq!(test_path(&room.0.join("j")), Err(refused));
            assert_eq!(names_in(&room), [name]);
        }
        let room = Room::new("other");
        put(&room, "j", b"hobbychair journal 1\n..");
        assert!(matches!(test_path(&room.0.join("j")), Err(JournalError::Earlier(_))));
        put(&room, "j", b"Dear Sir or Madam");
        assert!(matches!(test_path(&room.0.join("j")), Err(JournalError::NoJournal(_))));
        assert_eq!(names_in(&room), ["j"]);
    }

    #[test]
    fn names_beside_a_journal_that_no_earlier_build_kept_are_passed_over() {
        let room = Room::new("beside");
        for name in ["j.cq1", "j.old.cq1", "j.old.1", "j.version1", "j.cq1.new", "j.log", "j2.1", "j.1.gz", "j.lines"] {
            put(&room, name, b"kept");
        }
        assert_eq!(test_path(&room.0.join("j")), Ok(()));
        std::fs::remove_file(room.0.join("j.cq1")).unwrap();
        assert!(matches!(test_path(&room.0.join("j")), Err(JournalError::Earlier(_))));
        ["j.old.cq1", "j.old.1", "j.version1"].iter().for_each(|name| std::fs::remove_file(room.0.join(name)).unwrap());
        ["j.old.gz", "j.older.1", "j.version1.txt", "j.cqx.lines"].iter().for_each(|name| put(&room, name, b"kept"));
        assert_eq!(test_path(&room.0.join("j")), Ok(()));
    }

    #[test]
    fn a_file_that_is_missing_or_one_too_many_is_told() {
        let room = Room::new("missing");
        (1..=3).for_each(|number| put(&room, &format!("j.cq{number}"), b""));
        let name = |number| room.0.join(format!("j.cq{number}")).display().to_string();
        assert_eq!(files(&room, 4).is_there(), Err(JournalError::Missing(name(4))));
        assert_eq!(files(&room, 2).is_there(), Err(JournalError::OtherShards(name(3), 2)));
        std::fs::remove_file(room.0.join("j.cq1")).unwrap();
        assert_eq!(files(&room, 3).is_there(), Err(JournalError::Missing(name(1))));
        (2..=3).for_each(|number| std::fs::remove_file(room.0.join(format!("j.cq{number}"))).unwrap());
        put(&room, "j.lock", b"");
        assert_eq!(files(&room, 3).is_there(), Ok(false));
        put(&room, "j.lock", HAS_REQUESTS.as_bytes());
        for _ in 0..2 {
            assert_eq!(files(&room, 3).is_there(), Err(lost(&room.0.join("j"))));
            // Whatever this is, it hasn't got the requests.
            put(&room, "j.cq1.new", b"new");
        }
    }

    #[test]
    fn a_journal_has_one_gateway() {
        let room = Room::new("one");
        let first = files(&room, 1).lock().unwrap();
        let refused = files(&room, 1).lock().map(drop);
        assert_eq!(refused, Err(JournalError::InUse(room.0.join("j").display().to_string())));
        drop(first);
        assert!(files(&room, 1).lock().is_ok());
    }

    #[test]
    fn a_journal_is_named_by_a_file_in_a_folder_that_is_there() {
        let room = Room::new("named");
        assert!(matches!(test_path(&room.0), Err(JournalError::IsFolder(_))));
        assert!(matches!(test_path(&room.0.join("a/b")), Err(JournalError::NoFolder { .. })));
    }

    #[test]
    fn the_lock_notes_that_there_were_requests_and_the_form_of_their_books() {
        let (room, path) = (Room::new("noted"), |room: &Room| room.0.join("j"));
        let noted = |room: &Room| (has_had_requests(&path(room)).unwrap(), has_own_form(&path(room)).unwrap());
        let lock = files(&room, 1).lock().unwrap();
        assert_eq!(noted(&room), (false, false));
        for other in ["", "form 0\n", "form 99\n"] {
            put(&room, "j.lock", format!("{HAS_REQUESTS}{other}").as_bytes());
            assert_eq!(noted(&room), (true, false), "{other:?}");
            lock.note_requests().unwrap();
            assert_eq!(noted(&room), (true, true));
        }
    }
}
