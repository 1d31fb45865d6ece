//! Messages of servers and the master, as far as others than these read them (docs/WIRE.md, "A message in pieces").

use bytes::Bytes;

use crate::parts::{Malformed, Reader};

/// The bytes that say of which kind a message is, or a piece of one.
const FORWARD: u8 = 0;
const CHUNK: u8 = 1;
const ACK: u8 = 2;
const ADOPTED: u8 = 9;
const CAUGHT: u8 = 10;
const READY: u8 = 11;
pub(crate) const ANSWER: u8 = 12;
const SNAPSHOT_ENDS: u8 = 13;

/// What a host has to know of a message: it reads the others for the master and for clients alone.
#[derive(Clone, Copy, Debug, PartialEq, Eq)]
pub enum Message {
    /// An entry for a server that stands behind.
    Forward,
    Adopted {
        successor: u32,
    },
    Caught {
        predecessor: u32,
    },
    Ready,
    Answer {
        client: u32,
    },
    /// A piece of a snapshot that isn't its last.
    Chunk,
    /// The piece that ends a snapshot.
    SnapshotEnds,
    /// A server tells the one before it that an entry is with all behind.
    Ack,
    Other,
}

impl Message {
    /// What the piece says that it is, and what it says of that.
    pub fn read(piece: &Bytes) -> Result<Message, Malformed> {
        let mut reader = Reader::of_frame(piece.clone())?;
        Ok(match reader.byte()? {
            FORWARD => Message::Forward,
            CHUNK => Message::Chunk,
            ACK => Message::Ack,
            ADOPTED => Message::Adopted { successor: reader.server()? },
            CAUGHT => Message::Caught { predecessor: reader.server()? },
            READY => Message::Ready,
            ANSWER => Message::Answer { client: reader.number32()? },
            SNAPSHOT_ENDS => Message::SnapshotEnds,
            _ => Message::Other,
        })
    }

    /// Whether a message ends with the piece.
    pub fn ends_with(piece: &Bytes) -> bool {
        !matches!(Message::read(piece), Ok(Message::Chunk))
    }

    /// The request of the entry that the piece forwards, as it is written; nothing where it forwards none.
    pub fn request_of(piece: &Bytes) -> Option<Bytes> {
        let mut reader = Reader::of_frame(piece.clone()).ok()?;
        let is_forward = reader.byte().ok()? == FORWARD;
        // Its place, and its moment.
        reader.number64().ok()?;
        reader.number64().ok()?;
        Some(reader.rest()).filter(|request| is_forward && !request.is_empty())
    }

    /// The chunk of the store that the piece of a snapshot has; nothing where it has none.
    pub fn chunk_of(piece: &Bytes) -> Option<Bytes> {
        let mut reader = Reader::of_frame(piece.clone()).ok()?;
        (reader.byte().ok()? == CHUNK).then(|| reader.rest())
    }
}
