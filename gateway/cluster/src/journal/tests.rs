use std::sync::mpsc::{channel, Receiver};
use std::time::Duration;

use bytes::Bytes;
use hobbychair_bytes::parts::{frame, Parts};
use proptest::prelude::*;

use super::reader::Damage;
use super::*;
use crate::records::{random_name, Chain};

/// A folder that goes with the test.
struct Room(PathBuf);

impl Drop for Room {
    fn drop(&mut self) {
        let _ = fs::remove_dir_all(&self.0);
    }
}

fn room() -> (Room, JournalFolder) {
    let room = Room(std::env::temp_dir().join(format!("hobbychair-journal-{}", random_name())));
    prepare(&room.0).unwrap();
    let folder = JournalFolder::of(&room.0, "0123456789abcdef", 2);
    folder.make().unwrap();
    (room, folder)
}

fn head(count: u64) -> Head {
    Head {
        version: VERSION,
        cluster: "tested".into(),
        incarnation: "0123456789abcdef".into(),
        follows: None,
        servers: 3,
        has_certificates: false,
        is_durable: false,
        server: 2,
        count,
        known: Known::default(),
    }
}

fn entry(place: u64) -> Entry {
    let request = Bytes::from(format!("request {place}").repeat(place as usize % 7));
    Entry { moment: 1000 + place, request }
}

/// The first chunk of a store of so many entries.
fn chunk(count: u64) -> Bytes {
    let bytes = frame(0, |out| {
        out.number64(count);
        out.number64(1000 + count);
    });
    Bytes::from(bytes).slice(4..)
}

/// A journal that is written.
struct WrittenJournal {
    writer: Writer,
    told: Receiver<Written>,
    count: u64,
    ticket: u64,
}

impl WrittenJournal {
    fn begin(folder: &JournalFolder, is_durable: bool) -> WrittenJournal {
        let (tell, told) = channel();
        let tell = move |written| drop(tell.send(written));
        let writer = Writer::begin(folder.clone(), head(0), 1, is_durable, tell).unwrap();
        WrittenJournal { writer, told, count: 0, ticket: 0 }
    }

    /// So many entries as one batch.
    fn add(&mut self, entries: u64) {
        let mut records = Vec::new();
        (1..=entries).for_each(|one| Record::Entry(entry(self.count + one)).write(&mut records));
        self.ticket += 1;
        self.writer.append(records, self.count, None, self.ticket);
        self.count += entries;
    }

    fn learn(&mut self, known: &Known) {
        let mut records = Vec::new();
        Record::Known(known.clone()).write(&mut records);
        self.ticket += 1;
        self.writer.append(records, self.count, Some(known.clone()), self.ticket);
    }

    fn wait(&self) {
        self.wait_for(|written| matches!(written, Written::UpTo { ticket, .. } if *ticket == self.ticket));
    }

    fn wait_for(&self, is_it: impl Fn(&Written) -> bool) {
        while !is_it(&self.told.recv_timeout(Duration::from_secs(20)).unwrap()) {}
    }
}

fn all(found: &Found, from: u64) -> Vec<Entry> {
    let mut entries = found.entries(from);
    std::iter::from_fn(|| entries.next().unwrap()).collect()
}

fn expected(places: std::ops::RangeInclusive<u64>) -> Vec<Entry> {
    places.map(entry).collect()
}

fn written(folder: &JournalFolder, batches: &[u64]) -> u64 {
    let mut writing = WrittenJournal::begin(folder, false);
    for entries in batches {
        writing.add(*entries);
        writing.wait();
    }
    writing.count
}

proptest! {
    #![proptest_config(ProptestConfig::with_cases(60))]

    #[test]
    fn what_was_written_is_read_and_so_is_each_front_of_it(batches in prop::collection::vec(0u64..6, 1..12), cut: prop::sample::Index) {
        let (_room, folder) = room();
        let count = written(&folder, &batches);
        let found = Found::read(&folder).unwrap();
        prop_assert_eq!((found.count, found.base, found.torn, &found.damage), (count, 0, 0, &None));
        prop_assert_eq!(all(&found, 1), expected(1..=count));
        prop_assert_eq!(all(&found, 3), expected(3..=count));
        let bytes = fs::read(folder.entries(1)).unwrap();
        let length = cut.index(bytes.len() + 1);
        fs::write(folder.entries(1), &bytes[..length]).unwrap();
        match Found::read(&folder) {
            Ok(found) => {
                // Whole batches are there, and what is left of the next one is torn.
                let sums: Vec<u64> = std::iter::once(0).chain(batches.iter().scan(0, |sum, one| { *sum += one; Some(*sum) })).collect();
                prop_assert!(sums.contains(&found.count) && found.damage.is_none());
                prop_assert_eq!(all(&found, 1), expected(1..=found.count));
                prop_assert!(length < bytes.len() || found.count == count);
            }
            Err(error) => prop_assert!(matches!(error, Unusable::None(_)), "{}", error),
        }
    }

    #[test]
    fn a_spoilt_bit_is_damage_where_more_is_behind_it(batches in prop::collection::vec(1u64..6, 2..9), which: prop::sample::Index, bit in 0..8) {
        let (_room, folder) = room();
        written(&folder, &batches);
        let mut bytes = fs::read(folder.entries(1)).unwrap();
        let place = which.index(bytes.len());
        bytes[place] ^= 1u8 << bit;
        fs::write(folder.entries(1), &bytes).unwrap();
        let mut ends = vec![0];
        let (_room, other) = room();
        written(&other, &batches);
        let good = fs::read(other.entries(1)).unwrap();
        while let Some(frame) = hobbychair_bytes::framing::read(&good, *ends.last().unwrap()) {
            ends.push(frame.end());
        }
        let spoilt = ends.iter().rposition(|end| *end <= place as u64).unwrap();
        match Found::read(&folder) {
            Ok(found) => {
                let is_last = spoilt + 2 == ends.len();
                let damage = Damage { file: folder.entries(1), place: ends[spoilt] };
                prop_assert_eq!(found.damage.clone(), (!is_last).then_some(damage));
                prop_assert_eq!(found.torn, bytes.len() as u64 - ends[spoilt]);
                prop_assert_eq!(found.count, batches[..spoilt - 1].iter().sum::<u64>());
                prop_assert_eq!(all(&found, 1), expected(1..=found.count));
            }
            Err(error) => {
                prop_assert_eq!(spoilt, 0, "only without its head nothing is known of a journal");
                prop_assert!(matches!(error, Unusable::None(_)), "{}", error);
            }
        }
    }
}

#[test]
fn a_copy_takes_the_place_of_what_was_before_and_the_log_is_known_behind_it() {
    let (_room, folder) = room();
    let mut writing = WrittenJournal::begin(&folder, true);
    let known = Known { chain: Some(Chain::first(3)), gone: [1].into() };
    writing.learn(&known);
    writing.add(5);
    writing.writer.begin_store(5);
    writing.add(2);
    writing.writer.add_chunk(chunk(5));
    writing.writer.add_chunk(Bytes::from_static(b"more"));
    writing.add(2);
    writing.wait();
    let found = Found::read(&folder).unwrap();
    assert_eq!((found.base, found.count, &found.known), (0, 9, &known), "a copy that isn't whole is nothing yet");
    assert_eq!(all(&found, 1), expected(1..=9));
    writing.writer.end_store();
    writing.wait_for(|written| matches!(written, Written::Store { .. }));
    writing.add(1);
    writing.wait();
    let found = Found::read(&folder).unwrap();
    assert_eq!((found.base, found.count, found.last, &found.known), (5, 10, 1010, &known));
    assert_eq!(all(&found, 1), expected(6..=10));
    let mut chunks = found.chunks().unwrap();
    let next: Vec<_> = (0..3).map(|_| chunks.next().unwrap()).collect();
    assert_eq!(next, [Some(chunk(5)), Some(Bytes::from_static(b"more")), None]);
    assert_eq!((folder.parts("entries").unwrap(), folder.parts("store").unwrap()), (vec![2], vec![2]));
    fs::remove_file(folder.entries(2)).unwrap();
    assert_eq!(Found::read(&folder).unwrap().count, 5, "what is behind the copy is gone");
    let mut bytes = fs::read(folder.store(2)).unwrap();
    bytes[100] ^= 1;
    fs::write(folder.store(2), &bytes).unwrap();
    assert!(matches!(Found::read(&folder).unwrap_err(), Unusable::Store { place: 0, .. }));
}

#[test]
fn a_copy_that_is_let_go_of_leaves_all_as_it_was() {
    let (_room, folder) = room();
    let mut writing = WrittenJournal::begin(&folder, false);
    writing.add(3);
    writing.writer.begin_store(3);
    writing.writer.add_chunk(chunk(3));
    writing.add(3);
    writing.writer.let_go_of_store();
    writing.add(3);
    writing.wait();
    let found = Found::read(&folder).unwrap();
    assert_eq!((found.base, found.count), (0, 9));
    assert_eq!(all(&found, 2), expected(2..=9));
    assert_eq!(fs::read_dir(&folder.0).unwrap().count(), 2);
    fs::remove_file(folder.entries(1)).unwrap();
    assert!(matches!(Found::read(&folder).unwrap_err(), Unusable::Missing(path) if path == folder.entries(1)));
}

#[test]
fn a_snapshot_takes_the_place_of_all_before_it() {
    let (_room, folder) = room();
    let mut writing = WrittenJournal::begin(&folder, true);
    writing.ticket += 1;
    writing.count = 7;
    writing.writer.replace(7, vec![chunk(7)], writing.ticket);
    writing.add(2);
    writing.wait();
    let found = Found::read(&folder).unwrap();
    assert_eq!((found.base, found.count), (7, 9));
    assert_eq!(all(&found, 1), expected(8..=9));
}

#[test]
fn parts_of_another_journal_are_told_apart() {
    let (_room, folder) = room();
    let mut writing = WrittenJournal::begin(&folder, false);
    writing.add(3);
    writing.writer.begin_store(3);
    writing.writer.let_go_of_store();
    writing.add(3);
    writing.wait();
    fs::copy(folder.entries(1), folder.entries(3)).unwrap();
    assert!(matches!(Found::read(&folder).unwrap_err(), Unusable::OtherJournal(path) if path == folder.entries(3)));
    let other = JournalFolder(folder.0.parent().unwrap().join("0123456789abcdef-3"));
    fs::rename(&folder.0, &other.0).unwrap();
    assert!(matches!(Found::read(&other).unwrap_err(), Unusable::OtherJournal(path) if path == other.0));
}

#[test]
fn a_folder_is_one_process_s() {
    let (room, folder) = room();
    assert!(!folder.is_in_use());
    let lock = folder.lock().unwrap();
    assert!(folder.is_in_use() && folder.lock().is_err() && folder.make().is_err());
    drop(lock);
    assert!(!folder.is_in_use());
    fs::create_dir(room.0.join("other")).unwrap();
    assert_eq!(find(&room.0).unwrap(), std::slice::from_ref(&folder));
    assert_eq!(find(&folder.0).unwrap(), [folder]);
    for name in ["0123456789abcdef", "0123456789abcdef-02", "0123-2", "0123456789abcdeg-2"] {
        assert_eq!(JournalFolder::named(Path::new(name)), None, "{name}");
    }
}

/// A store that is durable, as that of a cluster which was recovered, says nothing of what comes behind it.
#[test]
fn a_journal_is_durable_where_all_its_parts_are() {
    for is_durable in [true, false] {
        let (_room, folder) = room();
        let mut store = NewStore::begin(&folder, 1, &Head { is_durable: true, ..head(3) }).unwrap();
        store.add(chunk(3)).unwrap();
        store.end(&folder).unwrap();
        assert!(Found::read(&folder).unwrap().head.is_durable);
        let writer = Writer::begin(folder.clone(), Head { is_durable, ..head(3) }, 1, is_durable, drop).unwrap();
        drop(writer);
        let found = Found::read(&folder).unwrap();
        assert_eq!((found.head.is_durable, found.count), (is_durable, 3));
    }
}
