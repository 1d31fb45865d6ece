//! What a node's journal is given, and what waits until that is written.
//!
//! The server's answers are heard at once, and what comes of them waits in their order: nothing leaves this node before all
//! that it comes of is in the journal. So do lines of the master's log.

use std::collections::VecDeque;
use std::path::PathBuf;
use std::time::{Duration, Instant};

use bytes::Bytes;
use hobbychair_bytes::commands::Standing;
use hobbychair_bytes::messages::Message;

use super::Event;
use crate::journal::{self, Entry, Head, JournalFolder, Known, Record, Writer, Written, LONGEST_BATCH_BYTES, VERSION};
use crate::records::{Chain, Cluster, DISK_HANGS};

/// A disk that ends no write for so long doesn't work.
const HANGING: Duration = Duration::from_secs(2);

/// How a node keeps its journal.
#[derive(Clone, Debug, PartialEq, Eq)]
pub struct JournalSettings {
    /// The journals of this machine's nodes.
    pub folder: PathBuf,
    /// Whether what leaves waits for the disk.
    pub is_durable: bool,
    /// A copy of the store is written once so many bytes, and as many as the last copy has, are behind that.
    pub size: u64,
    /// With less room than so many bytes on the disk sends are refused.
    pub reserve: u64,
}

/// What a server's answer adds to its list.
#[derive(Debug, PartialEq, Eq)]
pub enum Added {
    Nothing,
    Entry(Entry),
    /// The store of a snapshot takes the place of all before it.
    Store,
}

/// How far a copy of the store is that the journal is to have.
#[derive(Clone, Copy, Debug, PartialEq, Eq)]
enum JournalCopying {
    No,
    /// Its next chunk is asked for.
    Asked,
    /// The next one is asked for once this one is written.
    Writing,
    Ready,
}

/// The journal, and what waits for it. `W` is what waits.
pub struct Keeping<W> {
    writer: Writer,
    limit: u64,
    /// Records that weren't given to the writer yet, and how many entries are ahead of them.
    pending: Vec<u8>,
    ahead: u64,
    /// How many entries the server has.
    count: u64,
    known: Known,
    is_known_new: bool,
    /// So many batches were given, and so many are written.
    given: u64,
    written: u64,
    /// What waits, and for which batch.
    waiting: VecDeque<(u64, W)>,
    /// When the writer told something last, or was given something while it had nothing to do.
    moved: Instant,
    trouble: Option<String>,
    copying: JournalCopying,
    /// The writer has begun a store for it.
    is_begun: bool,
    /// It is thrown away.
    is_abandoned: bool,
    /// A copy is due with so many bytes.
    due: u64,
    bytes: u64,
    _lock: journal::Lock,
}

/// What is at the front of a journal.
fn head(cluster: &Cluster, server: u32, is_durable: bool, count: u64) -> Head {
    Head {
        version: VERSION,
        cluster: cluster.name.clone(),
        incarnation: cluster.settings.incarnation.clone(),
        follows: cluster.settings.recovered.as_ref().map(|recovered| recovered.incarnation.clone()),
        servers: cluster.settings.servers,
        has_certificates: cluster.settings.has_certificates,
        is_durable,
        server,
        count,
        known: Known::default(),
    }
}

impl<W> Keeping<W> {
    /// Begins the journal of a server, or goes on with one that has a store of so many entries and nothing else.
    pub fn begin(
        cluster: &Cluster,
        server: u32,
        settings: &JournalSettings,
        store: Option<u64>,
        tell: impl Fn(Event) + Send + 'static,
    ) -> std::io::Result<Keeping<W>> {
        let folder = JournalFolder::of(&settings.folder, &cluster.settings.incarnation, server);
        if store.is_none() {
            folder.make()?;
        }
        let lock = folder.lock()?;
        let count = store.unwrap_or(0);
        let head = head(cluster, server, settings.is_durable, count);
        let told = move |written| tell(Event::Journal(written));
        let writer = Writer::begin(folder, head, 1, settings.is_durable, told)?;
        Ok(Keeping {
            writer,
            limit: settings.size,
            pending: Vec::new(),
            ahead: count,
            count,
            known: Known::default(),
            is_known_new: false,
            given: 0,
            written: 0,
            waiting: VecDeque::new(),
            moved: Instant::now(),
            trouble: None,
            copying: JournalCopying::No,
            is_begun: false,
            is_abandoned: false,
            due: settings.size,
            bytes: 0,
            _lock: lock,
        })
    }

    // ---- what is written

    /// The server has taken what it was told, and stands there now. `content` is the request or the piece that it was told.
    pub fn added(&self, content: Option<&Bytes>, is_arrival: bool, standing: &Standing) -> Result<Added, String> {
        if standing.count == self.count {
            return Ok(Added::Nothing);
        }
        let is_next = standing.count == self.count + 1;
        let moment = standing.last;
        let no_entry = || format!("its server has {} entries, by no message that has one", standing.count);
        match content {
            Some(request) if is_arrival && is_next => Ok(Added::Entry(Entry { moment, request: request.clone() })),
            Some(piece) if !is_arrival => match Message::read(piece) {
                Ok(Message::Forward) if is_next => {
                    let request = Message::request_of(piece).ok_or_else(no_entry)?;
                    Ok(Added::Entry(Entry { moment, request }))
                }
                Ok(Message::SnapshotEnds) if standing.count > self.count => Ok(Added::Store),
                _ => Err(no_entry()),
            },
            _ => Err(format!("its server has {} entries, and had {}", standing.count, self.count)),
        }
    }

    pub fn add_entry(&mut self, entry: Entry) {
        Record::Entry(entry).write(&mut self.pending);
        self.count += 1;
        if self.pending.len() >= LONGEST_BATCH_BYTES {
            self.flush();
        }
    }

    /// A snapshot brings a store of so many entries.
    pub fn replace(&mut self, count: u64, chunks: Vec<Bytes>) {
        self.flush();
        self.count = count;
        self.ahead = count;
        self.begin_to_wait();
        self.given += 1;
        self.writer.replace(count, chunks, self.given);
        // A copy of what was before is of no use.
        self.is_abandoned = self.is_copying();
    }

    /// Whether the chain behind a line of the log is one that the journal doesn't have yet. Then it is written.
    pub fn learn_chain(&mut self, chain: &Chain) -> bool {
        let is_new = self.known.chain.as_ref().map_or(true, |known| known.line < chain.line);
        if is_new {
            self.known.chain = Some(chain.clone());
            self.write_known();
        }
        is_new
    }

    pub fn learn_gone(&mut self, server: u32) {
        if self.known.gone.insert(server) {
            self.write_known();
        }
    }

    fn write_known(&mut self) {
        Record::Known(self.known.clone()).write(&mut self.pending);
        self.is_known_new = true;
    }

    /// Gives the writer all that is to be written by now.
    pub fn flush(&mut self) {
        if self.pending.is_empty() {
            return;
        }
        let records = std::mem::take(&mut self.pending);
        let known = std::mem::take(&mut self.is_known_new).then(|| self.known.clone());
        self.begin_to_wait();
        self.given += 1;
        self.writer.append(records, self.ahead, known, self.given);
        self.ahead = self.count;
    }

    fn begin_to_wait(&mut self) {
        if self.given == self.written {
            self.moved = Instant::now();
        }
    }

    // ---- what waits

    /// This waits for all that is to be written by now.
    pub fn wait(&mut self, what: W) {
        let ticket = self.given + u64::from(!self.pending.is_empty());
        self.waiting.push_back((ticket, what));
    }

    /// The next thing that waits for nothing more.
    pub fn next(&mut self) -> Option<W> {
        let written = self.written;
        let is_ready = self.waiting.front().is_some_and(|(ticket, _)| *ticket <= written);
        is_ready.then(|| self.waiting.pop_front()).flatten().map(|(_, what)| what)
    }

    pub fn has_waiting(&self) -> bool {
        !self.waiting.is_empty()
    }

    /// The writer tells something.
    pub fn hear(&mut self, written: Written) {
        self.moved = Instant::now();
        match written {
            Written::UpTo { ticket, bytes } => {
                self.written = ticket;
                self.bytes = bytes;
            }
            Written::Chunk => {
                if self.copying == JournalCopying::Writing {
                    self.copying = JournalCopying::Ready;
                }
            }
            Written::Store { size, bytes } => {
                tracing::info!(bytes = size, "the journal has a copy of the store");
                self.due = self.limit.max(size);
                self.bytes = bytes;
            }
            Written::NoStore { why } => {
                tracing::warn!("the journal has no new copy of the store: {why}");
                self.is_abandoned = self.is_copying();
                self.put_off_copy();
            }
            Written::Full { why } | Written::Failed { why } => {
                tracing::error!("the journal can't be written, and nothing leaves this node: {why}");
                self.trouble = Some(why);
            }
            Written::Room => {
                tracing::warn!("there is room for the journal again");
                self.trouble = None;
            }
        }
    }

    /// Why the master is asked to do without this server: for the log in etcd, and for people.
    pub fn fault(&self) -> Option<(&'static str, &str)> {
        let hangs = self.given > self.written && self.moved.elapsed() > HANGING;
        match &self.trouble {
            Some(why) => Some(("its journal can't be written", why)),
            None => hangs.then_some((DISK_HANGS, "the disk doesn't end a write")),
        }
    }

    /// This process was stopped: nothing is known of the disk.
    pub fn begin_again(&mut self) {
        self.moved = Instant::now();
    }

    // ---- copies

    /// Whether the server is to be asked for the next chunk of a copy. Where others need one, none is begun, and one that is
    /// begun is asked for to its end and thrown away.
    pub fn next_copy(&mut self, others_need_one: bool) -> bool {
        if others_need_one && self.is_copying() && !self.is_abandoned {
            self.is_abandoned = true;
            self.writer.let_go_of_store();
            self.put_off_copy();
        }
        let is_next = match self.copying {
            JournalCopying::No => !others_need_one && self.bytes >= self.due && self.trouble.is_none(),
            JournalCopying::Writing => self.is_abandoned,
            JournalCopying::Ready => true,
            JournalCopying::Asked => false,
        };
        if is_next {
            self.copying = JournalCopying::Asked;
        }
        is_next
    }

    /// Whether a copy is made that has to be asked for to its end.
    pub fn is_copying(&self) -> bool {
        self.copying != JournalCopying::No
    }

    /// The server tells the next chunk of a copy of so many entries, or an empty one behind the last.
    pub fn copied(&mut self, count: u64, chunk: Bytes) {
        if !self.is_begun && !self.is_abandoned {
            self.begin_store(count);
        }
        let is_last = chunk.is_empty();
        match (self.is_abandoned, is_last) {
            (true, _) => {}
            (false, true) => {
                self.writer.end_store();
                // The writer says when it is there.
                self.due = u64::MAX;
            }
            (false, false) => self.writer.add_chunk(chunk),
        }
        self.copying = match (self.is_abandoned, is_last) {
            (_, true) => JournalCopying::No,
            (true, false) => JournalCopying::Ready,
            (false, false) => JournalCopying::Writing,
        };
        if is_last {
            (self.is_begun, self.is_abandoned) = (false, false);
        }
    }

    /// A copy of all entries that were given stands for them.
    fn begin_store(&mut self, count: u64) {
        self.flush();
        self.is_begun = count == self.count;
        if self.is_begun {
            self.writer.begin_store(count);
        } else {
            tracing::warn!(count, entries = self.count, "a copy of other entries than the journal has is thrown away");
            self.is_abandoned = true;
            self.put_off_copy();
        }
    }

    /// The server refuses, and the copy is gone.
    pub fn not_copied(&mut self) {
        self.copying = JournalCopying::No;
        (self.is_begun, self.is_abandoned) = (false, false);
        self.writer.let_go_of_store();
        self.put_off_copy();
    }

    fn put_off_copy(&mut self) {
        self.due = self.bytes + self.limit / 4;
    }
}

#[cfg(test)]
mod tests {
    use std::sync::mpsc::{channel, Receiver};

    use hobbychair_bytes::parts::Parts;

    use super::*;
    use crate::etcd::Etcd;
    use crate::records::{self, random_name, Keys};

    /// A journal whose writer is heard by the test, and what it tells.
    struct Tested {
        room: PathBuf,
        keeping: Keeping<&'static str>,
        told: Receiver<Event>,
    }

    impl Drop for Tested {
        fn drop(&mut self) {
            let _ = std::fs::remove_dir_all(&self.room);
        }
    }

    fn begin(size: u64) -> Tested {
        let room = std::env::temp_dir().join(format!("hobbychair-keeping-{}", random_name()));
        std::fs::create_dir(&room).unwrap();
        let settings = records::ClusterSettings {
            version: records::VERSION,
            incarnation: "0123456789abcdef".into(),
            servers: 3,
            has_certificates: false,
            recovered: None,
        };
        let etcd = Etcd::new(&["http://127.0.0.1:1".into()], None).unwrap();
        let cluster = Cluster { name: "tested".into(), etcd, settings, keys: Keys::for_tests(), identity: None };
        let (tell, told) = channel();
        let settings = JournalSettings { folder: room.clone(), is_durable: false, size, reserve: 0 };
        let keeping = Keeping::begin(&cluster, 2, &settings, None, move |event| drop(tell.send(event))).unwrap();
        Tested { room, keeping, told }
    }

    impl Tested {
        fn entry(&mut self) {
            self.keeping.add_entry(Entry { moment: 7, request: Bytes::from_static(b"request") });
        }

        /// Hears the writer until there is something that waits for nothing more.
        fn next(&mut self) -> &'static str {
            loop {
                if let Some(what) = self.keeping.next() {
                    return what;
                }
                let Ok(Event::Journal(written)) = self.told.recv() else { panic!("another event") };
                self.keeping.hear(written);
            }
        }
    }

    fn standing(count: u64) -> Standing {
        Standing { count, last: 7, ..Standing::default() }
    }

    #[test]
    fn what_comes_of_an_entry_waits_until_that_is_written() {
        let mut tested = begin(1 << 20);
        tested.keeping.wait("before");
        assert_eq!(tested.keeping.next(), Some("before"));
        tested.entry();
        tested.keeping.wait("of the entry");
        tested.keeping.wait("behind it");
        assert_eq!(tested.keeping.next(), None, "it isn't even given to the writer");
        tested.keeping.flush();
        assert_eq!(tested.keeping.next(), None, "nobody said that it is written");
        tested.entry();
        tested.keeping.wait("of another entry");
        assert_eq!((tested.next(), tested.next()), ("of the entry", "behind it"));
        assert_eq!(tested.keeping.next(), None);
        tested.keeping.flush();
        assert_eq!(tested.next(), "of another entry");
        assert!(!tested.keeping.has_waiting() && tested.keeping.fault().is_none());
    }

    #[test]
    fn a_line_of_the_log_is_written_once() {
        let mut tested = begin(1 << 20);
        let chain = Chain::first(3);
        assert!(tested.keeping.learn_chain(&chain) && !tested.keeping.learn_chain(&chain));
        tested.keeping.wait("of the line");
        assert!(tested.keeping.learn_chain(&Chain { line: 1, ..chain.clone() }) && !tested.keeping.learn_chain(&chain));
        tested.keeping.flush();
        assert_eq!(tested.next(), "of the line");
    }

    #[test]
    fn an_answer_adds_what_its_message_has_and_nothing_else() {
        let tested = begin(1 << 20);
        let added = |content: Option<&[u8]>, is_arrival, count| {
            let content = content.map(Bytes::copy_from_slice);
            tested.keeping.added(content.as_ref(), is_arrival, &standing(count))
        };
        assert_eq!(added(Some(b"request"), true, 0), Ok(Added::Nothing));
        let entry = Entry { moment: 7, request: Bytes::from_static(b"request") };
        assert_eq!(added(Some(b"request"), true, 1), Ok(Added::Entry(entry.clone())));
        // The version, the kind, the place and the moment of an entry, and the kind of what ends a snapshot.
        let mut forward = vec![1, 0];
        forward.number64(1);
        forward.number64(7);
        forward.extend_from_slice(b"request");
        assert_eq!(added(Some(&forward), false, 1), Ok(Added::Entry(entry)));
        assert_eq!(added(Some(&[1, 13]), false, 5), Ok(Added::Store));
        for (content, is_arrival, count) in
            [(None, false, 1), (Some(&b"request"[..]), true, 2), (Some(&forward), false, 2), (Some(&[1, 9]), false, 1)]
        {
            assert!(added(content, is_arrival, count).is_err(), "{content:?} {count}");
        }
    }

    #[test]
    fn a_copy_is_made_once_enough_is_behind_the_last_and_gives_way_to_others() {
        let mut tested = begin(1000);
        assert!(!tested.keeping.next_copy(false));
        (0..100).for_each(|_| tested.entry());
        tested.keeping.wait("entries");
        tested.keeping.flush();
        tested.next();
        assert!(!tested.keeping.next_copy(true) && tested.keeping.next_copy(false) && tested.keeping.is_copying());
        assert!(!tested.keeping.next_copy(false), "a chunk is asked for");
        tested.keeping.copied(100, Bytes::from_static(b"chunk"));
        assert!(!tested.keeping.next_copy(false), "it is being written");
        // A gateway needs one: this one is asked for to its end, and thrown away.
        assert!(tested.keeping.next_copy(true));
        tested.keeping.copied(100, Bytes::from_static(b"chunk"));
        assert!(tested.keeping.next_copy(true));
        tested.keeping.copied(100, Bytes::new());
        assert!(!tested.keeping.is_copying() && !tested.keeping.next_copy(true));
        assert!(!tested.keeping.next_copy(false), "it is put off");
        (0..20).for_each(|_| tested.entry());
        tested.keeping.wait("more entries");
        tested.keeping.flush();
        tested.next();
        assert!(tested.keeping.next_copy(false));
        tested.keeping.not_copied();
        assert!(!tested.keeping.is_copying());
    }

    #[test]
    fn a_disk_that_ends_no_write_for_two_seconds_is_a_fault_until_it_does() {
        let mut tested = begin(1 << 20);
        let long_ago = |seconds| Instant::now().checked_sub(Duration::from_secs(seconds)).unwrap();
        tested.entry();
        tested.keeping.wait("of the entry");
        tested.keeping.flush();
        tested.keeping.moved = long_ago(1);
        assert_eq!(tested.keeping.fault(), None);
        tested.keeping.moved = long_ago(3);
        assert_eq!(tested.keeping.fault(), Some((DISK_HANGS, "the disk doesn't end a write")));
        tested.keeping.begin_again();
        assert_eq!(tested.keeping.fault(), None, "this process was stopped itself");
        tested.next();
        tested.keeping.moved = long_ago(3);
        assert_eq!(tested.keeping.fault(), None, "nothing is to be written");
    }

    #[test]
    fn a_full_disk_is_a_fault_until_there_is_room() {
        let mut tested = begin(1 << 20);
        tested.keeping.hear(Written::Full { why: "no room".into() });
        assert_eq!(tested.keeping.fault(), Some(("its journal can't be written", "no room")));
        tested.keeping.hear(Written::Room);
        assert_eq!(tested.keeping.fault(), None);
        tested.keeping.hear(Written::Failed { why: "broken".into() });
        assert!(tested.keeping.fault().is_some());
    }
}
