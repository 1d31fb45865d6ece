//! Frames of a file: one for each commit. A frame says its number and its place, so that old bytes never pass for new ones.
//! So a torn end, behind which nothing good comes, is told from bytes that were spoilt.

use std::fs::File;
use std::io::{self, BufReader, Read};
use std::path::Path;

/// Each frame begins with these bytes. Two of them are in no text in UTF-8, so no record has them.
const MARK: [u8; 4] = *b"\xffHC\xfe";

/// The bytes of a frame before its payload: mark, number, place and length, and a checksum over all but the mark.
const HEAD_BYTES: usize = 4 + 8 + 8 + 4 + 4;

/// The longest payload that is read.
const LONGEST_PAYLOAD_BYTES: usize = 1 << 30;

/// A good frame in the bytes of a file.
#[derive(Clone, Copy, Debug, PartialEq, Eq)]
pub struct Frame<'a> {
    /// The number of the commit. It rises, and is never used again.
    pub number: u64,
    pub place: u64,
    pub payload: &'a [u8],
}

impl Frame<'_> {
    /// The place behind the frame.
    pub fn end(&self) -> u64 {
        self.place + (HEAD_BYTES + self.payload.len()) as u64
    }
}

fn checksum(head: &[u8], payload: &[u8]) -> u32 {
    let mut sum = crc32fast::Hasher::new();
    sum.update(head);
    sum.update(payload);
    sum.finalize()
}

/// The bytes of a frame that is to stand at this place. The payload has at most 2^30 bytes, or nobody reads it.
pub fn encode(number: u64, place: u64, payload: &[u8]) -> Vec<u8> {
    let mut bytes = Vec::with_capacity(HEAD_BYTES + payload.len());
    bytes.extend_from_slice(&MARK);
    bytes.extend_from_slice(&number.to_be_bytes());
    bytes.extend_from_slice(&place.to_be_bytes());
    bytes.extend_from_slice(&(payload.len() as u32).to_be_bytes());
    bytes.extend_from_slice(&checksum(&bytes[4..24], payload).to_be_bytes());
    bytes.extend_from_slice(payload);
    bytes
}

/// The frame at this place of a file's bytes, if there is a good one.
pub fn read(bytes: &[u8], place: u64) -> Option<Frame<'_>> {
    let rest = bytes.get(usize::try_from(place).ok()?..)?;
    let head = Head::read(rest, place)?;
    head.frame(rest.get(HEAD_BYTES..HEAD_BYTES.checked_add(head.length)?)?)
}

/// What stands before a frame's payload.
struct Head {
    number: u64,
    place: u64,
    length: usize,
    checksum: u32,
    /// Over all of this but the mark and the checksum.
    summed: [u8; 20],
}

impl Head {
    /// That of a frame which is to stand at this place, if the bytes begin with one.
    fn read(bytes: &[u8], place: u64) -> Option<Head> {
        let head = bytes.get(..HEAD_BYTES)?;
        let number_at = |at: usize| -> Option<u64> { Some(u64::from_be_bytes(head.get(at..at + 8)?.try_into().ok()?)) };
        let word_at = |at: usize| -> Option<u32> { Some(u32::from_be_bytes(head.get(at..at + 4)?.try_into().ok()?)) };
        let (number, length, checksum) = (number_at(4)?, word_at(20)? as usize, word_at(24)?);
        let is_good = head[..4] == MARK && number_at(12)? == place && length <= LONGEST_PAYLOAD_BYTES;
        is_good.then_some(Head { number, place, length, checksum, summed: head[4..24].try_into().ok()? })
    }

    /// The frame, if that is its payload.
    fn frame<'p>(&self, payload: &'p [u8]) -> Option<Frame<'p>> {
        let is_good = checksum(&self.summed, payload) == self.checksum;
        is_good.then_some(Frame { number: self.number, place: self.place, payload })
    }
}

/// Reads the frames of a file one behind the other, and has one of them in memory.
pub struct FileFrames {
    file: BufReader<File>,
    size: u64,
    /// The place behind the last good frame.
    place: u64,
    /// What is behind that is no good frame.
    is_over: bool,
    payload: Vec<u8>,
}

impl FileFrames {
    /// Opens a file, to read its frames from the first one on.
    pub fn open(path: &Path) -> io::Result<FileFrames> {
        let file = File::open(path)?;
        let size = file.metadata()?.len();
        Ok(FileFrames { file: BufReader::new(file), size, place: 0, is_over: false, payload: Vec::new() })
    }

    /// The next frame, if there is a good one. Behind one that isn't good there is none.
    pub fn next_frame(&mut self) -> io::Result<Option<Frame<'_>>> {
        let head = if self.is_over { None } else { self.read()? };
        let frame = head.and_then(|head| head.frame(&self.payload));
        match &frame {
            Some(frame) => self.place = frame.end(),
            None => self.is_over = true,
        }
        Ok(frame)
    }

    /// Reads what may be the next frame.
    fn read(&mut self) -> io::Result<Option<Head>> {
        let Some(most) = (self.size - self.place).checked_sub(HEAD_BYTES as u64) else { return Ok(None) };
        let mut bytes = [0; HEAD_BYTES];
        self.file.read_exact(&mut bytes)?;
        let Some(head) = Head::read(&bytes, self.place).filter(|head| head.length as u64 <= most) else {
            return Ok(None);
        };
        self.payload.resize(head.length, 0);
        self.file.read_exact(&mut self.payload)?;
        Ok(Some(head))
    }

    /// The place behind the last good frame.
    pub fn place(&self) -> u64 {
        self.place
    }

    /// Whether nothing is behind the last good frame.
    pub fn is_at_end(&self) -> bool {
        self.place == self.size
    }
}

/// The place of the first good frame from `place` on that has a higher number than `number`.
pub fn find_higher(bytes: &[u8], place: u64, number: u64) -> Option<u64> {
    let start = usize::try_from(place).ok()?;
    let rest = bytes.get(start..)?;
    let mut found = memchr::memmem::find_iter(rest, &MARK).map(|at| (start + at) as u64);
    found.find(|at| read(bytes, *at).is_some_and(|frame| frame.number > number))
}

#[cfg(test)]
mod tests {
    use super::*;

    #[test]
    fn a_frame_is_read_at_its_own_place_alone() {
        let mut file = vec![0; 10];
        file.extend(encode(7, 10, b"hello"));
        let frame = read(&file, 10).unwrap();
        assert_eq!((frame.number, frame.payload, frame.end()), (7, &b"hello"[..], file.len() as u64));
        assert_eq!(read(&file[1..], 9), None);
        assert_eq!(read(&file, 11), None);
        assert_eq!((find_higher(&file, 0, 6), find_higher(&file, 0, 7)), (Some(10), None));
    }

    /// The numbers of the frames of a file, and the place behind them, if that isn't its end.
    fn read_file(path: &Path) -> (Vec<u64>, Option<u64>) {
        let (mut frames, mut numbers) = (FileFrames::open(path).unwrap(), Vec::new());
        while let Some(frame) = frames.next_frame().unwrap() {
            numbers.push(frame.number);
        }
        assert_eq!(frames.next_frame().unwrap(), None, "nothing comes behind the end");
        (numbers, (!frames.is_at_end()).then(|| frames.place()))
    }

    #[test]
    fn frames_of_a_file_are_those_of_its_bytes_wherever_it_is_cut_or_spoilt() {
        let mut file = Vec::new();
        for (number, payload) in [(7, &b"hello"[..]), (8, b""), (9, b"a longer one")] {
            file.extend(encode(number, file.len() as u64, payload));
        }
        let path = std::env::temp_dir().join(format!("hobbychair-framing-{}", std::process::id()));
        let whole = file.len();
        for cut in 0..=whole {
            std::fs::write(&path, &file[..cut]).unwrap();
            let (numbers, left) = read_file(&path);
            let expected = [HEAD_BYTES + 5, 2 * HEAD_BYTES + 5, whole].iter().filter(|end| **end <= cut).count();
            assert_eq!(numbers, [7, 8, 9][..expected], "cut at {cut}");
            assert_eq!(left.is_none(), [0, HEAD_BYTES + 5, 2 * HEAD_BYTES + 5, whole].contains(&cut), "cut at {cut}");
        }
        for byte in 0..whole {
            let mut spoilt = file.clone();
            spoilt[byte] ^= 1;
            std::fs::write(&path, &spoilt).unwrap();
            let mut expected = Vec::new();
            let mut place = 0;
            while let Some(frame) = read(&spoilt, place) {
                expected.push(frame.number);
                place = frame.end();
            }
            assert_eq!(read_file(&path), (expected, Some(place)), "byte {byte}");
        }
        std::fs::remove_file(&path).unwrap();
    }

    #[test]
    fn no_flipped_bit_and_no_cut_is_a_good_frame() {
        let whole = encode(7, 0, b"hello");
        for bit in 0..8 * whole.len() {
            let mut spoilt = whole.clone();
            spoilt[bit / 8] ^= 1 << (bit % 8);
            assert_eq!(read(&spoilt, 0), None, "bit {bit}");
        }
        for length in 0..whole.len() {
            assert_eq!(read(&whole[..length], 0), None);
        }
    }
}
