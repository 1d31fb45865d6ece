//! Writes a journal, in a thread of its own: nobody waits for the disk but what has to.
//!
//! What comes while the disk is busy is one frame, one write and one sync: either all of it counts or nothing.

use std::fs::{self, File, OpenOptions};
use std::io;
use std::os::unix::fs::{FileExt, OpenOptionsExt};
use std::path::{Path, PathBuf};
use std::sync::mpsc::{channel, Receiver, Sender};
use std::thread;
use std::time::Duration;

use bytes::Bytes;
use hobbychair_bytes::framing;

use super::{Head, JournalFolder, Known, Record};

/// A batch with more bytes than this is given in several.
pub const LONGEST_BATCH_BYTES: usize = 1 << 20;

/// So many bytes are written at once.
const MOST_WRITTEN_BYTES: usize = 8 << 20;

/// A segment that has so many bytes is followed by another one.
const SEGMENT_BYTES: u64 = 64 << 20;

/// So often a write to a full disk is tried again.
const PAUSE: Duration = Duration::from_millis(500);

/// What the thread tells.
#[derive(Clone, Debug, PartialEq, Eq)]
pub enum Written {
    /// All batches up to that one are written, and on the disk where the journal is durable. So many bytes are behind the
    /// last store.
    UpTo { ticket: u64, bytes: u64 },
    /// Something of a store is written, and the next chunk may come.
    Chunk,
    /// A store of so many bytes is on the disk, and what was before it is gone; so many bytes are behind it.
    Store { size: u64, bytes: u64 },
    /// The store that was begun is gone, and all goes on without it.
    NoStore { why: String },
    /// The disk is full. What was given last is tried again and again.
    Full { why: String },
    /// It isn't any more.
    Room,
    /// Nothing is written any more. It is the last thing told.
    Failed { why: String },
}

/// What the thread is given.
enum WriterOrder {
    Append(Batch),
    /// A store takes the place of all before it. Nothing goes on before it is there.
    Replace {
        count: u64,
        chunks: Vec<Bytes>,
        ticket: u64,
    },
    /// A store is begun, beside which all goes on. It is made of the entries that were given by now.
    Begin {
        count: u64,
    },
    Chunk(Bytes),
    End,
    LetGo,
}

struct Batch {
    records: Vec<u8>,
    /// How many entries are ahead of it.
    count: u64,
    /// What is known of the log with it, if that is new.
    known: Option<Known>,
    ticket: u64,
}

/// Gives work to the thread. It ends once this is dropped.
pub struct Writer(Sender<WriterOrder>);

impl Writer {
    /// Begins the segment of that number in a folder. The thread calls `told`.
    pub fn begin(
        folder: JournalFolder,
        head: Head,
        part: u64,
        is_durable: bool,
        told: impl FnMut(Written) + Send + 'static,
    ) -> io::Result<Writer> {
        let path = folder.entries(part);
        if path.exists() {
            // Another process wrote it.
            return super::about(&path, Err(io::ErrorKind::AlreadyExists.into()));
        }
        let begun = FrameFile::create(&path, &head, 1).and_then(|segment| {
            segment.file.sync_all()?;
            Ok(segment)
        });
        let segment = super::about(&path, begun)?;
        folder.sync()?;
        let (orders, given) = channel();
        let keeper = Keeper { folder, head, is_durable, segment, part, bytes: 0, behind: 0, store: None, told };
        thread::Builder::new().name("journal".into()).spawn(move || keeper.keep(&given))?;
        Ok(Writer(orders))
    }

    /// Appends records, ahead of which there are so many entries.
    pub fn append(&self, records: Vec<u8>, count: u64, known: Option<Known>, ticket: u64) {
        self.give(WriterOrder::Append(Batch { records, count, known, ticket }));
    }

    /// A store of so many entries takes the place of all that was written.
    pub fn replace(&self, count: u64, chunks: Vec<Bytes>, ticket: u64) {
        self.give(WriterOrder::Replace { count, chunks, ticket });
    }

    /// Begins a store of so many entries: all those that were given. Its chunks follow, one behind another.
    pub fn begin_store(&self, count: u64) {
        self.give(WriterOrder::Begin { count });
    }

    pub fn add_chunk(&self, chunk: Bytes) {
        self.give(WriterOrder::Chunk(chunk));
    }

    /// The store is whole.
    pub fn end_store(&self) {
        self.give(WriterOrder::End);
    }

    /// The store won't be whole.
    pub fn let_go_of_store(&self) {
        self.give(WriterOrder::LetGo);
    }

    fn give(&self, order: WriterOrder) {
        // A thread that has ended has told why.
        let _ = self.0.send(order);
    }
}

/// A file of frames.
struct FrameFile {
    file: File,
    path: PathBuf,
    end: u64,
    /// The number of the last frame.
    number: u64,
}

impl FrameFile {
    /// A file that begins with that head, in a frame with that number. What an earlier try left there is written over.
    fn create(path: &Path, head: &Head, number: u64) -> io::Result<FrameFile> {
        let file = OpenOptions::new().write(true).create(true).truncate(true).mode(0o600).open(path)?;
        let mut created = FrameFile { file, path: path.into(), end: 0, number: number - 1 };
        let mut payload = Vec::new();
        Record::Head(head.clone()).write(&mut payload);
        created.append(&payload, false)?;
        Ok(created)
    }

    /// Appends a frame. Where that fails, nothing counts as written, and it may be tried again.
    fn append(&mut self, payload: &[u8], is_synced: bool) -> io::Result<()> {
        let frame = framing::encode(self.number + 1, self.end, payload);
        self.file.write_all_at(&frame, self.end)?;
        if is_synced {
            self.file.sync_data()?;
        }
        self.end += frame.len() as u64;
        self.number += 1;
        Ok(())
    }

    fn append_record(&mut self, record: &Record, is_synced: bool) -> io::Result<()> {
        let mut payload = Vec::new();
        record.write(&mut payload);
        self.append(&payload, is_synced)
    }
}

/// A store that isn't whole yet.
pub struct NewStore {
    file: FrameFile,
    part: u64,
}

impl NewStore {
    /// Begins that which is ahead of all segments from `part` on.
    pub fn begin(folder: &JournalFolder, part: u64, head: &Head) -> io::Result<NewStore> {
        Ok(NewStore { file: FrameFile::create(&folder.new_store(part), head, 1)?, part })
    }

    /// Each chunk is on the disk behind this, so that the last moment isn't a long one.
    pub fn add(&mut self, chunk: Bytes) -> io::Result<()> {
        self.file.append_record(&Record::Chunk(chunk), true)
    }

    /// The store gets its name. Tells its size.
    pub fn end(mut self, folder: &JournalFolder) -> io::Result<u64> {
        self.file.append_record(&Record::End, false)?;
        self.file.file.sync_all()?;
        fs::rename(&self.file.path, folder.store(self.part))?;
        folder.sync()?;
        Ok(self.file.end)
    }
}

/// All that the thread has.
struct Keeper<T> {
    folder: JournalFolder,
    /// That of the next part, but for its count.
    head: Head,
    is_durable: bool,
    segment: FrameFile,
    /// The segment's number.
    part: u64,
    /// So many bytes are behind the last store, and so many behind the one that is begun.
    bytes: u64,
    behind: u64,
    store: Option<NewStore>,
    told: T,
}

impl<T: FnMut(Written)> Keeper<T> {
    fn keep(mut self, orders: &Receiver<WriterOrder>) {
        while let Ok(first) = orders.recv() {
            if let Err(error) = self.follow(first, orders) {
                let why = format!("{}: {error}", self.folder.0.display());
                return (self.told)(Written::Failed { why });
            }
        }
    }

    /// Does what is given by now.
    fn follow(&mut self, first: WriterOrder, orders: &Receiver<WriterOrder>) -> io::Result<()> {
        let (mut batches, mut size) = (Vec::new(), 0);
        let mut next = Some(first);
        while let Some(order) = next {
            match order {
                WriterOrder::Append(batch) => {
                    size += batch.records.len();
                    batches.push(batch);
                }
                other => {
                    self.commit(std::mem::take(&mut batches))?;
                    self.keep_store(other)?;
                }
            }
            next = if size < MOST_WRITTEN_BYTES { orders.try_recv().ok() } else { None };
        }
        self.commit(batches)
    }

    fn commit(&mut self, batches: Vec<Batch>) -> io::Result<()> {
        let Some((first, last)) = batches.first().zip(batches.last()) else { return Ok(()) };
        let ticket = last.ticket;
        if self.segment.end >= SEGMENT_BYTES {
            self.roll(first.count)?;
        }
        let before = self.segment.end;
        let payload: Vec<u8> = batches.iter().flat_map(|batch| batch.records.iter().copied()).collect();
        self.persist(|this| this.segment.append(&payload, this.is_durable))?;
        let written = self.segment.end - before;
        self.bytes += written;
        self.behind += written;
        if let Some(known) = batches.into_iter().rev().find_map(|batch| batch.known) {
            self.head.known = known;
        }
        (self.told)(Written::UpTo { ticket, bytes: self.bytes });
        Ok(())
    }

    /// Another segment follows, ahead of which there are so many entries. All before it is on the disk then: where something
    /// is missing in a segment, nothing is behind it.
    fn roll(&mut self, count: u64) -> io::Result<()> {
        self.segment.file.sync_data()?;
        self.begin_segment(count)
    }

    fn begin_segment(&mut self, count: u64) -> io::Result<()> {
        self.head.count = count;
        self.persist(|this| {
            let (path, number) = (this.folder.entries(this.part + 1), this.segment.number + 1);
            let segment = FrameFile::create(&path, &this.head, number)?;
            segment.file.sync_all()?;
            this.segment = segment;
            Ok(())
        })?;
        self.part += 1;
        File::open(&self.folder.0)?.sync_all()
    }

    /// Tries until there is room. Another fault is an error.
    fn persist(&mut self, mut write: impl FnMut(&mut Self) -> io::Result<()>) -> io::Result<()> {
        let mut is_full = false;
        loop {
            match write(self) {
                Err(error) if tells_of_no_room(&error) => {
                    if !std::mem::replace(&mut is_full, true) {
                        let why = format!("{}: {error}", self.folder.0.display());
                        (self.told)(Written::Full { why });
                    }
                    thread::sleep(PAUSE);
                }
                Ok(()) => {
                    if is_full {
                        (self.told)(Written::Room);
                    }
                    return Ok(());
                }
                Err(error) => return Err(error),
            }
        }
    }

    fn keep_store(&mut self, order: WriterOrder) -> io::Result<()> {
        match order {
            WriterOrder::Append(_) => {}
            WriterOrder::Replace { count, chunks, ticket } => {
                self.replace(count, &chunks)?;
                (self.told)(Written::UpTo { ticket, bytes: self.bytes });
            }
            WriterOrder::Begin { count } => {
                self.roll(count)?;
                self.behind = 0;
                let begun = NewStore::begin(&self.folder, self.part, &self.head);
                self.store = self.or_no_store(begun);
            }
            WriterOrder::Chunk(chunk) => {
                let added = self.store.take().map(|mut store| store.add(chunk).map(|()| store));
                self.store = added.and_then(|added| self.or_no_store(added));
                (self.told)(Written::Chunk);
            }
            WriterOrder::End => {
                let ended = self.store.take().map(|store| (store.part, store.end(&self.folder)));
                if let Some((part, ended)) = ended {
                    if let Some(size) = self.or_no_store(ended) {
                        self.forget_before(part);
                        self.bytes = self.behind;
                        (self.told)(Written::Store { size, bytes: self.bytes });
                    }
                }
            }
            WriterOrder::LetGo => self.let_go(),
        }
        Ok(())
    }

    /// A store that can't be written is no harm: all that it would stand for is there.
    fn or_no_store<R>(&mut self, result: io::Result<R>) -> Option<R> {
        match result {
            Ok(value) => Some(value),
            Err(error) => {
                self.let_go();
                (self.told)(Written::NoStore { why: error.to_string() });
                None
            }
        }
    }

    fn let_go(&mut self) {
        self.store = None;
        // It may not have been made.
        let _ = fs::remove_file(self.folder.new_store(self.part));
    }

    fn replace(&mut self, count: u64, chunks: &[Bytes]) -> io::Result<()> {
        self.let_go();
        self.head.count = count;
        let part = self.part + 1;
        self.persist(|this| {
            let mut store = NewStore::begin(&this.folder, part, &this.head)?;
            for chunk in chunks {
                store.add(chunk.clone())?;
                (this.told)(Written::Chunk);
            }
            store.end(&this.folder).map(drop)
        })?;
        self.begin_segment(count)?;
        self.bytes = 0;
        self.forget_before(part);
        Ok(())
    }

    /// What stands before a store is needed no more.
    fn forget_before(&self, part: u64) {
        for (kind, path) in
            [("entries", JournalFolder::entries as fn(&JournalFolder, u64) -> PathBuf), ("store", JournalFolder::store)]
        {
            let before = self.folder.parts(kind).unwrap_or_default().into_iter().filter(|one| *one < part);
            for path in before.map(|one| path(&self.folder, one)) {
                if let Err(error) = fs::remove_file(&path) {
                    tracing::warn!(path = %path.display(), %error, "a part of the journal that is needed no more stays");
                }
            }
        }
    }
}

fn tells_of_no_room(error: &io::Error) -> bool {
    matches!(error.raw_os_error(), Some(libc::ENOSPC | libc::EDQUOT))
}
