//! The parts of which frames are made: numbers, texts and runs of bytes (docs/WIRE.md, "Parts").

use bytes::{Buf, Bytes, BytesMut};
use thiserror::Error;
use tokio::io::{self, AsyncRead, AsyncReadExt};

/// The first byte of each frame.
pub const VERSION: u8 = 1;

/// No frame has more bytes behind its length.
pub const FRAME_LIMIT_BYTES: usize = 4_194_304;

/// So many bytes are read at once.
const CHUNK_BYTES: usize = 64 << 10;

/// Where there is room for less, more is made.
const LEAST_ROOM_BYTES: usize = 16 << 10;

/// Why bytes aren't a frame of this version.
#[derive(Clone, Copy, Debug, Error, PartialEq, Eq)]
#[error("{0}")]
pub struct Malformed(pub &'static str);

/// Reads parts from left to right.
pub struct Reader(Bytes);

impl Reader {
    /// Of any bytes.
    pub fn of(bytes: Bytes) -> Reader {
        Reader(bytes)
    }

    /// Of a frame's bytes: the version is read.
    pub fn of_frame(bytes: Bytes) -> Result<Reader, Malformed> {
        let mut reader = Reader(bytes);
        match reader.byte()? {
            VERSION => Ok(reader),
            _ => Err(Malformed("it is of another version")),
        }
    }

    fn needs(&self, count: usize) -> Result<(), Malformed> {
        if self.0.remaining() < count {
            return Err(Malformed("it ends inside a value"));
        }
        Ok(())
    }

    /// The next byte. Where none is left, that is refused; so it is of all parts below.
    pub fn byte(&mut self) -> Result<u8, Malformed> {
        self.needs(1)?;
        Ok(self.0.get_u8())
    }

    /// A number of four bytes, the lowest first.
    pub fn number32(&mut self) -> Result<u32, Malformed> {
        self.needs(4)?;
        Ok(self.0.get_u32_le())
    }

    /// A number of eight bytes, the lowest first.
    pub fn number64(&mut self) -> Result<u64, Malformed> {
        self.needs(8)?;
        Ok(self.0.get_u64_le())
    }

    /// A byte that is 0 or 1; any other is refused.
    pub fn flag(&mut self) -> Result<bool, Malformed> {
        match self.byte()? {
            0 => Ok(false),
            1 => Ok(true),
            _ => Err(Malformed("a flag is neither 0 nor 1")),
        }
    }

    /// Bytes behind their number.
    pub fn run(&mut self) -> Result<Bytes, Malformed> {
        let length = self.number32()? as usize;
        self.needs(length)?;
        Ok(self.0.split_to(length))
    }

    /// The same, refused where they aren't UTF-8.
    pub fn text(&mut self) -> Result<String, Malformed> {
        String::from_utf8(self.run()?.to_vec()).map_err(|_| Malformed("a text isn't UTF-8"))
    }

    /// The number of a server, which isn't 0.
    pub fn server(&mut self) -> Result<u32, Malformed> {
        match self.number32()? {
            0 => Err(Malformed("no server has the number 0")),
            server => Ok(server),
        }
    }

    /// Numbers of servers behind their count.
    pub fn servers(&mut self) -> Result<Vec<u32>, Malformed> {
        let count = self.number32()? as usize;
        self.needs(count.saturating_mul(4))?;
        (0..count).map(|_| self.server()).collect()
    }

    /// What isn't read yet.
    pub fn rest(self) -> Bytes {
        self.0
    }

    /// Whether nothing is left.
    pub fn is_empty(&self) -> bool {
        !self.0.has_remaining()
    }

    /// Nothing is left.
    pub fn end(self) -> Result<(), Malformed> {
        if self.0.has_remaining() {
            return Err(Malformed("bytes are left over behind it"));
        }
        Ok(())
    }
}

/// Writes parts.
pub trait Parts {
    fn number32(&mut self, number: u32);
    fn number64(&mut self, number: u64);
    fn flag(&mut self, flag: bool);
    fn run(&mut self, bytes: &[u8]);
    fn servers(&mut self, servers: &[u32]);
}

impl Parts for Vec<u8> {
    fn number32(&mut self, number: u32) {
        self.extend_from_slice(&number.to_le_bytes());
    }

    fn number64(&mut self, number: u64) {
        self.extend_from_slice(&number.to_le_bytes());
    }

    fn flag(&mut self, flag: bool) {
        self.push(flag.into());
    }

    fn run(&mut self, bytes: &[u8]) {
        self.number32(bytes.len() as u32);
        self.extend_from_slice(bytes);
    }

    fn servers(&mut self, servers: &[u32]) {
        self.number32(servers.len() as u32);
        servers.iter().for_each(|server| self.number32(*server));
    }
}

/// A whole frame: its length, the version, its kind, and what `write` writes.
pub fn frame(kind: u8, write: impl FnOnce(&mut Vec<u8>)) -> Vec<u8> {
    let mut bytes = Vec::new();
    append_frame(&mut bytes, kind, write);
    bytes
}

/// Appends a whole frame.
pub fn append_frame(out: &mut Vec<u8>, kind: u8, write: impl FnOnce(&mut Vec<u8>)) {
    let start = out.len();
    out.extend_from_slice(&[0, 0, 0, 0, VERSION, kind]);
    write(out);
    let length = (out.len() - start - 4) as u32;
    out[start..start + 4].copy_from_slice(&length.to_le_bytes());
}

/// Makes room for more bytes behind those that are there. What is left of the last piece of memory is used first: what was cut
/// off before keeps that one in use.
pub fn make_room(buffer: &mut BytesMut) {
    if buffer.capacity() - buffer.len() < LEAST_ROOM_BYTES {
        buffer.reserve(CHUNK_BYTES);
    }
}

/// Cuts a stream of bytes into frames.
#[derive(Default)]
pub struct Cutter {
    pub buffer: BytesMut,
}

impl Cutter {
    /// Makes room for more of the stream.
    pub fn make_room(&mut self) {
        make_room(&mut self.buffer);
    }

    /// The next whole frame, without its length.
    pub fn next(&mut self, limit: usize) -> Result<Option<Bytes>, Malformed> {
        let Some(length) = self.buffer.get(..4) else { return Ok(None) };
        let length = u32::from_le_bytes([length[0], length[1], length[2], length[3]]) as usize;
        if length > limit {
            return Err(Malformed("it is too long"));
        }
        if self.buffer.len() - 4 < length {
            return Ok(None);
        }
        self.buffer.advance(4);
        Ok(Some(self.buffer.split_to(length).freeze()))
    }
}

/// Reads frames from a connection. It holds no more than one frame and a piece of the next.
pub struct Frames<R> {
    from: R,
    cutter: Cutter,
    limit: usize,
}

impl<R: AsyncRead + Unpin> Frames<R> {
    /// Reads frames of at most so many bytes behind their length. Longer ones are `InvalidData`.
    pub fn new(from: R, limit: usize) -> Frames<R> {
        Frames { from, cutter: Cutter::default(), limit }
    }

    /// The same behind bytes that were read already.
    pub fn behind(read: Bytes, from: R, limit: usize) -> Frames<R> {
        Frames { from, cutter: Cutter { buffer: BytesMut::from(&read[..]) }, limit }
    }

    /// The same, with frames that may be longer or shorter from now on.
    pub fn with_limit(self, limit: usize) -> Frames<R> {
        Frames { limit, ..self }
    }

    /// Where it reads.
    #[cfg(any(test, feature = "testing"))]
    pub fn reader(&mut self) -> &mut R {
        &mut self.from
    }

    /// The next frame. The end of the connection is an error, also between two frames.
    pub async fn next(&mut self) -> io::Result<Bytes> {
        loop {
            match self.cutter.next(self.limit) {
                Ok(Some(frame)) => return Ok(frame),
                Ok(None) => {}
                Err(malformed) => return Err(io::Error::new(io::ErrorKind::InvalidData, malformed)),
            }
            self.cutter.make_room();
            if self.from.read_buf(&mut self.cutter.buffer).await? == 0 {
                return Err(io::ErrorKind::UnexpectedEof.into());
            }
        }
    }
}

#[cfg(test)]
mod tests {
    use super::*;

    #[test]
    fn frames_are_cut_wherever_bytes_end() {
        let sent = [frame(1, |out| out.run(b"one")), frame(2, |_| {}), frame(3, |out| out.servers(&[7, 9]))].concat();
        for cut in 0..sent.len() {
            let mut cutter = Cutter::default();
            let mut kinds = Vec::new();
            for part in [&sent[..cut], &sent[cut..]] {
                cutter.buffer.extend_from_slice(part);
                while let Some(bytes) = cutter.next(100).unwrap() {
                    let mut reader = Reader::of_frame(bytes).unwrap();
                    kinds.push(reader.byte().unwrap());
                }
            }
            assert_eq!(kinds, [1, 2, 3]);
        }
    }

    #[test]
    fn lengths_are_not_believed() {
        let mut cutter = Cutter { buffer: BytesMut::from(&[0xff, 0xff, 0xff, 0xff, 1][..]) };
        assert_eq!(cutter.next(FRAME_LIMIT_BYTES), Err(Malformed("it is too long")));
        let bytes = Bytes::from_static(&[VERSION, 0xff, 0xff, 0xff, 0xff, 1]);
        assert!(Reader::of_frame(bytes.clone()).unwrap().run().is_err());
        assert!(Reader::of_frame(bytes).unwrap().servers().is_err());
        assert!(Reader::of_frame(Bytes::from_static(&[2, 0])).is_err());
    }

    #[tokio::test]
    async fn half_a_frame_is_an_end() {
        let whole = frame(1, |out| out.run(b"some bytes"));
        let mut frames = Frames::new(&whole[..whole.len() - 1], FRAME_LIMIT_BYTES);
        assert_eq!(frames.next().await.unwrap_err().kind(), io::ErrorKind::UnexpectedEof);
    }
}
