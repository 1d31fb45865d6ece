//! Reads the journals of nodes that are gone.

use std::fs;
use std::io;
use std::path::{Path, PathBuf};

use bytes::Bytes;
use hobbychair_bytes::framing::{self, FileFrames};
use hobbychair_bytes::parts::Reader;
use thiserror::Error;

use super::{Entry, Head, JournalFolder, Known, Record, VERSION};

/// Bytes that were spoilt: something good is behind them.
#[derive(Clone, Debug, PartialEq, Eq, Error)]
#[error("{} is damaged at byte {place}, and more is behind it", file.display())]
pub struct Damage {
    pub file: PathBuf,
    pub place: u64,
}

/// Why nothing can be made of a journal.
#[derive(Debug, Error)]
pub enum Unusable {
    #[error("{0}")]
    Io(#[from] io::Error),
    #[error("{} holds no journal of a node", .0.display())]
    None(PathBuf),
    #[error(
        "{} is of version {found}, and this program of version {VERSION}: docs/CLUSTER.md, \"To upgrade\", says what to do",
        file.display()
    )]
    OtherVersion { file: PathBuf, found: u32 },
    #[error("{} was written as part of another journal", .0.display())]
    OtherJournal(PathBuf),
    #[error("{} isn't whole, or damaged at byte {place}: it is the copy of the store with which the journal begins", file.display())]
    Store { file: PathBuf, place: u64 },
    #[error("{} is missing", .0.display())]
    Missing(PathBuf),
}

/// A segment, as far as it is good.
#[derive(Clone, Debug)]
struct Segment {
    path: PathBuf,
    /// So many entries are ahead of it.
    count: u64,
    /// Where its good frames end.
    end: u64,
}

/// A journal that was found. Its head is that of the part with which it begins; it is durable where all parts are.
#[derive(Clone, Debug)]
pub struct Found {
    pub folder: JournalFolder,
    pub head: Head,
    /// The store with which it begins, if it does.
    pub store: Option<PathBuf>,
    /// How many entries that is made of.
    pub base: u64,
    /// How many entries there are up to the end of the journal.
    pub count: u64,
    /// The moment of the last one, in milliseconds; 0 where there is none.
    pub last: u64,
    /// The last that its node knew of the master's log.
    pub known: Known,
    /// So many bytes at the end are of something that wasn't written whole. Nothing that left its node rests on them where
    /// the journal is durable.
    pub torn: u64,
    /// What is behind it doesn't count.
    pub damage: Option<Damage>,
    segments: Vec<Segment>,
}

/// The journals in a folder: that folder itself, or those in it. Others in it are passed over.
pub fn find(path: &Path) -> io::Result<Vec<JournalFolder>> {
    if JournalFolder::named(path).is_some() {
        return Ok(vec![JournalFolder(path.into())]);
    }
    let mut found = Vec::new();
    for entry in super::about(path, fs::read_dir(path))? {
        let path = entry?.path();
        if path.is_dir() && JournalFolder::named(&path).is_some() {
            found.push(JournalFolder(path));
        }
    }
    found.sort_by(|one, other| one.0.cmp(&other.0));
    Ok(found)
}

impl Found {
    /// Reads a journal from its begin to its end, and looks at each byte.
    pub fn read(folder: &JournalFolder) -> Result<Found, Unusable> {
        let store = folder.parts("store")?.last().copied();
        let parts = folder.parts("entries")?;
        let parts: Vec<u64> = parts.into_iter().filter(|part| store.map_or(true, |store| *part >= store)).collect();
        let mut found = Found::begin(folder, store, parts.first().copied())?;
        let mut number = None;
        for (place, part) in parts.iter().enumerate() {
            let expected = store.unwrap_or(1) + place as u64;
            if *part != expected {
                return Err(Unusable::Missing(folder.entries(expected)));
            }
            let is_last = place + 1 == parts.len();
            number = found.read_segment(*part, number, is_last)?;
            if found.damage.is_some() {
                break;
            }
        }
        Ok(found)
    }

    fn begin(folder: &JournalFolder, store: Option<u64>, first: Option<u64>) -> Result<Found, Unusable> {
        let (head, path, last) = match (store.map(|part| folder.store(part)), first) {
            (Some(path), _) => {
                let (head, last) = read_store(&path)?;
                (head, Some(path), last)
            }
            (None, Some(first)) => {
                let path = folder.entries(first);
                let bytes = read(&path)?;
                let head = match framing::read(&bytes, 0) {
                    Some(frame) => head_of(&path, frame.payload)?,
                    None => return Err(Unusable::None(folder.0.clone())),
                };
                (head, None, 0)
            }
            (None, None) => return Err(Unusable::None(folder.0.clone())),
        };
        if JournalFolder::named(&folder.0) != Some((head.incarnation.clone(), head.server)) {
            return Err(Unusable::OtherJournal(folder.0.clone()));
        }
        let (base, known) = (if path.is_some() { head.count } else { 0 }, head.known.clone());
        let folder = folder.clone();
        Ok(Found {
            folder,
            head,
            store: path,
            base,
            count: base,
            last,
            known,
            torn: 0,
            damage: None,
            segments: Vec::new(),
        })
    }

    /// Reads the next segment, whose first frame has to follow that number. Tells the number of its last frame.
    fn read_segment(&mut self, part: u64, before: Option<u64>, is_last: bool) -> Result<Option<u64>, Unusable> {
        let path = self.folder.entries(part);
        let bytes = Bytes::from(read(&path)?);
        let mut end = 0;
        let mut number = before;
        while let Some(frame) = framing::read(&bytes, end) {
            match number {
                Some(number) if end == 0 && frame.number <= number => return Err(Unusable::OtherJournal(path)),
                Some(number) if frame.number != number + 1 => break,
                _ => {}
            }
            let payload = bytes.slice_ref(frame.payload);
            let Ok(records) = Record::read_all(payload) else { break };
            if end == 0 {
                self.follow(&path, records.first())?;
                self.segments.push(Segment { path: path.clone(), count: self.count, end: 0 });
            }
            records.into_iter().for_each(|record| self.note(record));
            number = Some(frame.number);
            end = frame.end();
        }
        if let Some(segment) = self.segments.last_mut().filter(|segment| segment.path == path) {
            segment.end = end;
        }
        let left = bytes.len() as u64 - end;
        let is_spoilt = left > 0 && framing::find_higher(&bytes, end, number.unwrap_or(0)).is_some();
        // Behind a segment there is another one only where it was whole.
        if is_spoilt || (left > 0 && !is_last) {
            self.damage = Some(Damage { file: path, place: end });
        }
        self.torn = left;
        Ok(number)
    }

    /// That the segment begins where the journal ends.
    fn follow(&self, path: &Path, first: Option<&Record>) -> Result<(), Unusable> {
        let Some(Record::Head(head)) = first else { return Err(Unusable::OtherJournal(path.into())) };
        test_version(path, head)?;
        let is_same = (&head.incarnation, head.server) == (&self.head.incarnation, self.head.server);
        if !is_same || head.count != self.count {
            return Err(Unusable::OtherJournal(path.into()));
        }
        Ok(())
    }

    fn note(&mut self, record: Record) {
        match record {
            Record::Entry(entry) => {
                self.count += 1;
                self.last = entry.moment;
            }
            Record::Known(known) => self.known = known,
            Record::Head(Head { known, is_durable, .. }) => {
                self.known = known;
                self.head.is_durable &= is_durable;
            }
            Record::Chunk(_) | Record::End => {}
        }
    }

    /// Its entries from that place on, the first of which is place 1. Those before its base aren't there.
    pub fn entries(&self, from: u64) -> Entries<'_> {
        Entries { found: self, next: from.max(self.base + 1), segment: None, ahead: Vec::new().into_iter() }
    }

    /// The chunks of its store, in order.
    pub fn chunks(&self) -> io::Result<Chunks> {
        let frames = self.store.as_deref().map(open).transpose()?;
        Ok(Chunks { frames, ahead: Vec::new().into_iter() })
    }
}

/// Entries in their order. Each segment is read when its turn comes.
pub struct Entries<'f> {
    found: &'f Found,
    /// The place of the next entry.
    next: u64,
    segment: Option<usize>,
    /// The entries of the segment that are left.
    ahead: std::vec::IntoIter<Entry>,
}

impl Entries<'_> {
    /// The next one; none behind the last.
    pub fn next(&mut self) -> io::Result<Option<Entry>> {
        loop {
            if self.next > self.found.count {
                return Ok(None);
            }
            if let Some(entry) = self.ahead.next() {
                self.next += 1;
                return Ok(Some(entry));
            }
            let segments = &self.found.segments;
            let following = match self.segment {
                // The last segment that has nothing but what is before the next one.
                None => segments.partition_point(|segment| segment.count < self.next).saturating_sub(1),
                Some(segment) => segment + 1,
            };
            let Some(segment) = segments.get(following) else { return Ok(None) };
            self.segment = Some(following);
            let passed_over = (self.next - 1 - segment.count) as usize;
            let entries: Vec<Entry> = entries_of(segment)?.into_iter().skip(passed_over).collect();
            self.ahead = entries.into_iter();
        }
    }
}

fn entries_of(segment: &Segment) -> io::Result<Vec<Entry>> {
    let bytes = Bytes::from(read(&segment.path)?);
    let (mut entries, mut place) = (Vec::new(), 0);
    while let Some(frame) = framing::read(&bytes, place).filter(|frame| frame.end() <= segment.end) {
        place = frame.end();
        let records = Record::read_all(bytes.slice_ref(frame.payload)).unwrap_or_default();
        entries.extend(records.into_iter().filter_map(|record| match record {
            Record::Entry(entry) => Some(entry),
            _ => None,
        }));
    }
    Ok(entries)
}

/// The chunks of a store. A part of it is in memory at a time.
pub struct Chunks {
    frames: Option<FileFrames>,
    /// What is left of the last frame.
    ahead: std::vec::IntoIter<Record>,
}

impl Chunks {
    /// The next one; none behind the last.
    pub fn next(&mut self) -> io::Result<Option<Bytes>> {
        loop {
            if let Some(chunk) = self.ahead.find_map(chunk_of) {
                return Ok(Some(chunk));
            }
            let Some(frame) = self.frames.as_mut().map_or(Ok(None), FileFrames::next_frame)? else { return Ok(None) };
            let malformed = |malformed| io::Error::new(io::ErrorKind::InvalidData, malformed);
            self.ahead = Record::read_all(Bytes::copy_from_slice(frame.payload)).map_err(malformed)?.into_iter();
        }
    }
}

fn chunk_of(record: Record) -> Option<Bytes> {
    match record {
        Record::Chunk(chunk) => Some(chunk),
        _ => None,
    }
}

/// The head of a store, and the moment of its last entry. The whole of it has to be good.
fn read_store(path: &Path) -> Result<(Head, u64), Unusable> {
    let (mut frames, mut number) = (open(path)?, 0);
    let (mut head, mut start, mut is_whole) = (None, None, false);
    let spoilt = |place| Unusable::Store { file: path.into(), place };
    while let Some(frame) = super::about(path, frames.next_frame())? {
        let place = frame.place;
        if frame.number != number + 1 {
            return Err(spoilt(place));
        }
        for record in Record::read_all(Bytes::copy_from_slice(frame.payload)).map_err(|_| spoilt(place))? {
            match record {
                Record::Head(one) => head = Some(one),
                Record::Chunk(chunk) => start = start.or_else(|| start_of(&chunk)),
                Record::End => is_whole = true,
                Record::Entry(_) | Record::Known(_) => return Err(spoilt(place)),
            }
        }
        number += 1;
    }
    match (head, start) {
        (Some(head), Some((count, last))) if is_whole && frames.is_at_end() && count == head.count => {
            test_version(path, &head)?;
            Ok((head, last))
        }
        _ => Err(spoilt(frames.place())),
    }
}

/// With what a store starts: how many entries it is made of, and the moment of the last (docs/WIRE.md, "A store").
pub fn start_of(chunk: &Bytes) -> Option<(u64, u64)> {
    let mut reader = Reader::of_frame(chunk.clone()).ok()?;
    (reader.byte().ok()? == 0).then_some(())?;
    Some((reader.number64().ok()?, reader.number64().ok()?))
}

fn head_of(path: &Path, payload: &[u8]) -> Result<Head, Unusable> {
    match Record::read_all(Bytes::copy_from_slice(payload)).ok().and_then(|records| records.into_iter().next()) {
        Some(Record::Head(head)) => {
            test_version(path, &head)?;
            Ok(head)
        }
        _ => Err(Unusable::OtherJournal(path.into())),
    }
}

fn test_version(path: &Path, head: &Head) -> Result<(), Unusable> {
    match head.version {
        VERSION => Ok(()),
        found => Err(Unusable::OtherVersion { file: path.into(), found }),
    }
}

fn open(path: &Path) -> io::Result<FileFrames> {
    super::about(path, FileFrames::open(path))
}

fn read(path: &Path) -> io::Result<Vec<u8>> {
    super::about(path, fs::read(path))
}
