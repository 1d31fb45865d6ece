//! Files that are made here by the page, and such that are damaged.

use std::fs::write;
use std::path::PathBuf;

use super::frames::record_at;
use super::*;
use crate::temporary::Room;

const PAGE: &str = include_str!(concat!(env!("CARGO_MANIFEST_DIR"), "/../../docs/JOURNAL.md"));

const LENGTHS: Lengths = Lengths { half: 64, region: 128 };
const FRONT: usize = 2 * LENGTHS.half;
const FIRST: usize = FRONT;
const SECOND: usize = FRONT + LENGTHS.region;
const THIRD: usize = FRONT + 2 * LENGTHS.region;

const HEAD: &[u8] = b"\x02E\n";

fn digits(number: u64, count: u32) -> Vec<u8> {
    (0..count).map(|place| (number / 254u64.pow(place) % 254) as u8 + 2).collect()
}

fn frame(record: &[u8]) -> Vec<u8> {
    let sum = u64::from(crc32fast::hash(record)) % 254u64.pow(4);
    [&[2][..], &digits(record.len() as u64, 3), &digits(sum, 4), &[1], record].concat()
}

fn root(number: u64, places: &[usize]) -> Vec<u8> {
    let places = places.iter().flat_map(|place| digits(*place as u64, 5));
    frame(&digits(number, 5).into_iter().chain([2]).chain(places).collect::<Vec<_>>())
}

/// A piece for these bytes, with its line feed.
fn piece(bytes: &[u8]) -> Vec<u8> {
    let mut text = Vec::new();
    for byte in bytes {
        match byte {
            0 => text.extend([3, 11]),
            1 => text.extend([3, 4]),
            3 => text.extend([3, 3]),
            b'\n' => text.extend([3, 2]),
            other => text.push(*other),
        }
    }
    text.push(b'\n');
    text
}

/// A file in a folder that goes with it.
struct Made {
    room: Room,
    bytes: Vec<u8>,
}

impl Made {
    /// With three regions, of which the first root names the first two.
    fn new(name: &str) -> Made {
        let mut made = Made { room: Room::new(name), bytes: vec![0; THIRD + LENGTHS.region] };
        made.put(0, &root(1, &[FIRST, SECOND]));
        made
    }

    /// The same with an entry in each region, and two in one record.
    fn with_entries(name: &str) -> Made {
        let mut made = Made::new(name);
        made.put(FIRST, &[frame(HEAD), frame(&[piece(b"one"), piece(b"t\0w\x01o\n")].concat())].concat());
        made.put(SECOND, &frame(&piece(b"three")));
        made.put(THIRD, &frame(&piece(b"elsewhere")));
        made
    }

    fn put(&mut self, at: usize, bytes: &[u8]) {
        self.bytes[at..at + bytes.len()].copy_from_slice(bytes);
    }

    fn write(&self) -> PathBuf {
        let path = self.room.0.join("file");
        write(&path, &self.bytes).unwrap();
        path
    }

    fn open(&self) -> Result<JournalFile, JournalFileError> {
        JournalFile::read(&File::open(self.write())?, LENGTHS)
    }

    /// All that stands there, in words.
    fn read(&self) -> String {
        let mut words = Vec::new();
        let read = self.open().and_then(|mut journal| rest(&mut journal, &mut words));
        if let Err(error) = read {
            words.push(error.to_string());
        }
        words.join(", ")
    }
}

fn rest(journal: &mut JournalFile, words: &mut Vec<String>) -> Result<(), JournalFileError> {
    while let Some(kept) = journal.next_kept()? {
        words.push(match kept {
            Kept::Entry(bytes) => format!("{:?}", String::from_utf8_lossy(&bytes)),
            Kept::EndOfStore => "end".into(),
            Kept::Chunk(bytes) => format!("chunk {:?}", String::from_utf8_lossy(&bytes)),
        });
    }
    Ok(())
}

const ALL: &str = r#""one", "t\0w\u{1}o\n", "three""#;

#[test]
fn the_file_of_the_page_is_read() {
    let is_digits = |word: &&str| word.len() == 2 && word.bytes().all(|digit| digit.is_ascii_hexdigit());
    let rows = PAGE.lines().filter(|line| line.split_whitespace().skip(1).filter(is_digits).count() == 16);
    let digits = rows.flat_map(|row| row.split_whitespace().skip(1));
    let bytes: Vec<u8> = digits.map(|digits| u8::from_str_radix(digits, 16).unwrap()).collect();
    assert_eq!(bytes.len(), 128);
    let room = Room::new("page");
    let path = room.0.join("file");
    write(&path, &bytes).unwrap();
    let root = Root::read(&File::open(path).unwrap(), Lengths { half: 32, region: 32 }).unwrap();
    let mut records = Vec::new();
    for place in root.places {
        let (log, mut at) = (&bytes[place as usize..place as usize + 32], 0);
        while let Some(record) = record_at(log, at).unwrap() {
            at = record.end;
            records.push(std::str::from_utf8(&log[record]).unwrap());
        }
    }
    assert_eq!(records, ["hi", "you", "!"]);
}

#[test]
fn entries_are_read_region_by_region_and_those_behind_a_store_too() {
    let mut made = Made::with_entries("entries");
    assert_eq!(made.read(), ALL);
    assert!(!made.open().unwrap().has_store());
    // The half with the higher number counts, and other regions don't.
    made.put(LENGTHS.half, &root(2, &[FIRST, THIRD]));
    assert_eq!(made.read(), r#""one", "t\0w\u{1}o\n", "elsewhere""#);

    let mut made = Made::new("store");
    assert_eq!(made.read(), "", "no record has come");
    let zeros = [b'x', 0, 0, 0, b'\n'];
    made.put(
        FIRST,
        &[frame(b"\x02S\n"), frame(&piece(b"chunk")), frame(b"x\x03\x0d\x03\x02\n"), frame(b"\n")].concat(),
    );
    made.put(SECOND, &frame(&piece(b"one")));
    assert!(made.open().unwrap().has_store());
    assert_eq!(made.read(), format!("chunk \"chunk\", chunk {:?}, end, \"one\"", String::from_utf8_lossy(&zeros)));
}

#[test]
fn a_flipped_byte_is_told_by_its_place_or_ends_its_log() {
    let made = Made::with_entries("flipped");
    let second = FIRST + frame(HEAD).len();
    for start in [FIRST, second, SECOND] {
        let end = record_at(&made.bytes, start).unwrap().unwrap().end;
        for at in start..end {
            let mut flipped = Made { room: Room::new("flipped"), bytes: made.bytes.clone() };
            flipped.bytes[at] ^= 0x10;
            let read = flipped.read();
            let is_of_head = at < start + 4 || at == start + 8;
            if is_of_head {
                // Where its gate, its length or its mark is another one, it isn't whole, or has another checksum.
                let is_less = [r#""one", "t\0w\u{1}o\n""#, r#""three""#, ""].contains(&read.as_str());
                let is_none = read == "it has the lines of a session";
                assert!(
                    read.ends_with(&format!("it is damaged at byte {start}")) || is_less || is_none,
                    "{at}: {read}"
                );
            } else {
                assert!(read.ends_with(&format!("it is damaged at byte {start}")), "{at}: {read}");
            }
        }
    }
    for at in 0..9 + 16 {
        let mut flipped = Made { room: Room::new("flipped"), bytes: made.bytes.clone() };
        flipped.bytes[at] ^= 0x10;
        let read = flipped.read();
        assert!(
            read == "it is damaged at byte 0" || (at < 4 || at == 8) && read == "it has no root that this build reads",
            "{at}: {read}"
        );
        // Where the other half has a later root, none of this matters but its damage.
        flipped.put(LENGTHS.half, &root(2, &[FIRST, SECOND]));
        assert!(
            flipped.read() == read && read != "it has no root that this build reads" || flipped.read() == ALL,
            "{at}"
        );
    }
}

#[test]
fn a_torn_record_at_the_end_is_none_and_a_cut_file_is_no_journal() {
    let mut made = Made::with_entries("torn");
    let (torn, at) = (frame(&piece(b"torn")), SECOND + frame(&piece(b"three")).len());
    made.put(at, &torn);
    assert_eq!(made.read(), format!("{ALL}, \"torn\""));
    for lost in 0..torn.len() {
        let mut made = Made { room: Room::new("torn"), bytes: made.bytes.clone() };
        made.bytes[at + lost] = 0;
        assert_eq!(made.read(), ALL, "{lost}");
    }
    for length in 0..made.bytes.len() {
        let cut = Made { room: Room::new("torn"), bytes: made.bytes[..length].to_vec() };
        let is_whole = length >= SECOND + LENGTHS.region;
        let expected =
            if is_whole { format!("{ALL}, \"torn\"") } else { "it has no root that this build reads".into() };
        assert_eq!(cut.read(), expected, "{length}");
    }
}

#[test]
fn what_no_journal_of_entries_has_is_refused() {
    let read = |region: &[u8]| {
        let mut made = Made::new("refused");
        made.put(FIRST, region);
        made.read()
    };
    let with = |record: &[u8]| read(&[frame(HEAD), frame(record)].concat());
    let damaged = format!("it is damaged at byte {}", FIRST + frame(HEAD).len());
    assert_eq!(read(&frame(b"{\"op\":\"show\"}\n")), "it has the lines of a session");
    assert_eq!(with(b"no line feed"), damaged);
    assert_eq!(with(b"escaped\x03\n"), damaged);
    assert_eq!(with(b"\x03\x0a\n"), damaged);
    assert_eq!(with(b"\x03\x05\n"), damaged);
    assert_eq!(with(b"one\ntwo"), format!("\"one\", {damaged}"));
    let store = read(&[frame(b"\x02S\n"), frame(b"chunk\n")].concat());
    assert!(store.starts_with("chunk \"chunk\", it is damaged at byte "), "{store}: it has no end");
    let places = |places: &[usize]| {
        let mut made = Made::with_entries("places");
        made.put(0, &root(1, places));
        made.read()
    };
    for none in [&[][..], &[0], &[FIRST + 1], &[FIRST, FIRST], &[THIRD + LENGTHS.region]] {
        assert_eq!(places(none), "it has no root that this build reads", "{none:?}");
    }
    let mut made = Made::with_entries("places");
    made.put(LENGTHS.half, &root(1, &[FIRST, SECOND]));
    assert_eq!(made.read(), "it is damaged at byte 0", "two roots have one number");
    made.put(0, &frame(b"1234567"));
    assert_eq!(made.read(), "it is damaged at byte 0", "a root has five digits for each place");
}

#[test]
fn a_file_that_changes_meanwhile_is_read_as_it_was_or_refused() {
    let read_behind = |number: u64, places: &[usize]| {
        let mut made = Made::with_entries("changes");
        let mut journal = made.open().unwrap();
        made.put(LENGTHS.half, &root(number, places));
        made.write();
        let mut words = Vec::new();
        let read = rest(&mut journal, &mut words);
        (words.join(", "), read.map_err(|error| error.to_string()))
    };
    let front = r#""one", "t\0w\u{1}o\n""#.to_string();
    let changed = Err("its records were written anew while it was read: read a copy of it".to_string());
    for number in 2..5 {
        let read = read_behind(number, &[FIRST, SECOND, THIRD]);
        assert_eq!(read, (ALL.into(), Ok(())), "one region more, which isn't read: {number}");
    }
    assert_eq!(read_behind(2, &[FIRST, SECOND]), (ALL.into(), Ok(())), "the other half has it, too");
    assert_eq!(read_behind(5, &[FIRST, SECOND, THIRD]), (front.clone(), changed.clone()), "it was changed twice");
    assert_eq!(read_behind(2, &[FIRST, THIRD]), (front.clone(), changed.clone()), "its last region lies elsewhere");
    assert_eq!(read_behind(2, &[THIRD]), (front.clone(), changed.clone()));
    assert_eq!(read_behind(4, &[FIRST, SECOND]), (front, changed), "it was changed between");
}
