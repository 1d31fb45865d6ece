//! What goes between a node and the gateway beside it (docs/CLUSTER.md, "The gateway's pipe").
//!
//! The node starts the gateway once its server is the head, or may soon be, with one end of a socket as its standard input. It
//! tells the time and the store. From when it says that the gateway may ask, that one asks and the node tells answers. Either
//! ends with the other.

use bytes::Bytes;

use crate::parts::{frame, Malformed, Parts, Reader};
use crate::values::RequestName;

/// What the node tells.
#[derive(Clone, Debug, PartialEq, Eq)]
pub enum FromNode {
    /// The cluster's time at a moment since the system's start, both in milliseconds. It is the first thing told, and comes
    /// again each half second: the gateway answers each by `Alive`.
    Time { time: u64, since_start: u64 },
    /// The next chunk of the store, or an empty one behind the last: the tables may be made.
    Chunk { chunk: Bytes },
    /// The store that was told is all that this server has, and that one is the head. From now on the gateway may ask.
    Stored { server: u32 },
    /// An answer, as a server put it. It may come twice, for what was asked twice.
    Answer { message: Bytes },
    /// Another server acts: what it held by then it answers to nobody. So all that is open has to be asked again.
    Acts,
    /// Nothing of the stream is taken from the first request on that was refused, for this number. All that is open has to
    /// be asked again, in order, in a stream with a larger number. `request`: the one that was refused first, if it has a name.
    Refused { stream: u64, code: u32, request: Option<RequestName> },
    /// Messages may use so many bytes at each server of the chain, by the gateway's count, and whether the disk of one of them
    /// has less room than it is to keep in reserve.
    Room { memory: u64, is_disk_short: bool },
    /// The chain went on at the moment `begun` from a store that was recovered, whose last entry is of the moment `last`. It is
    /// told ahead of the store.
    Paused { last: u64, begun: u64 },
}

/// What the gateway tells.
#[derive(Clone, Debug, PartialEq, Eq)]
pub enum FromGateway {
    /// A request, as it is written, and the moment that its clock showed.
    Request { stream: u64, clock: u64, request: Bytes },
    /// A query, as it is written. It goes to the server that acts; where none does, or it refuses, it is lost.
    Query { query: Bytes },
    /// The gateway works: it has heard of this time. `far` changes as long as it moves on in taking up the store, and
    /// `serves` says whether it takes connections.
    Alive { time: u64, far: u64, serves: bool },
}

impl FromNode {
    /// The bytes, with their length.
    pub fn bytes(&self) -> Vec<u8> {
        match self {
            FromNode::Time { time, since_start } => frame(0, |out| {
                out.number64(*time);
                out.number64(*since_start);
            }),
            FromNode::Chunk { chunk } => frame(1, |out| out.run(chunk)),
            FromNode::Stored { server } => frame(2, |out| out.number32(*server)),
            FromNode::Answer { message } => frame(3, |out| out.run(message)),
            FromNode::Acts => frame(4, |_| {}),
            FromNode::Refused { stream, code, request } => frame(5, |out| {
                out.number64(*stream);
                out.number32(*code);
                out.flag(request.is_some());
                request.iter().for_each(|request| {
                    out.number32(request.client);
                    out.number64(request.number);
                });
            }),
            FromNode::Room { memory, is_disk_short } => frame(6, |out| {
                out.number64(*memory);
                out.flag(*is_disk_short);
            }),
            FromNode::Paused { last, begun } => frame(7, |out| {
                out.number64(*last);
                out.number64(*begun);
            }),
        }
    }

    /// Reads a frame without its length.
    pub fn read(bytes: Bytes) -> Result<FromNode, Malformed> {
        let mut from = Reader::of_frame(bytes)?;
        let read = match from.byte()? {
            0 => FromNode::Time { time: from.number64()?, since_start: from.number64()? },
            1 => FromNode::Chunk { chunk: from.run()? },
            2 => FromNode::Stored { server: from.server()? },
            3 => FromNode::Answer { message: from.run()? },
            4 => FromNode::Acts,
            5 => {
                let (stream, code, is_named) = (from.number64()?, from.number32()?, from.flag()?);
                let name = |from: &mut Reader| -> Result<RequestName, Malformed> {
                    Ok(RequestName { client: from.number32()?, number: from.number64()? })
                };
                FromNode::Refused { stream, code, request: is_named.then(|| name(&mut from)).transpose()? }
            }
            6 => FromNode::Room { memory: from.number64()?, is_disk_short: from.flag()? },
            7 => FromNode::Paused { last: from.number64()?, begun: from.number64()? },
            _ => return Err(Malformed("its kind is none of what a node tells")),
        };
        from.end()?;
        Ok(read)
    }
}

impl FromGateway {
    /// The bytes, with their length.
    pub fn bytes(&self) -> Vec<u8> {
        match self {
            FromGateway::Request { stream, clock, request } => frame(16, |out| {
                out.number64(*stream);
                out.number64(*clock);
                out.run(request);
            }),
            FromGateway::Query { query } => frame(17, |out| out.run(query)),
            FromGateway::Alive { time, far, serves } => frame(18, |out| {
                out.number64(*time);
                out.number64(*far);
                out.flag(*serves);
            }),
        }
    }

    /// Reads a frame without its length.
    pub fn read(bytes: Bytes) -> Result<FromGateway, Malformed> {
        let mut from = Reader::of_frame(bytes)?;
        let read = match from.byte()? {
            16 => FromGateway::Request { stream: from.number64()?, clock: from.number64()?, request: from.run()? },
            17 => FromGateway::Query { query: from.run()? },
            18 => FromGateway::Alive { time: from.number64()?, far: from.number64()?, serves: from.flag()? },
            _ => return Err(Malformed("its kind is none of what a gateway tells")),
        };
        from.end()?;
        Ok(read)
    }
}

#[cfg(test)]
mod tests {
    use super::*;

    #[test]
    fn what_either_tells_is_read_as_it_was_written_and_no_front_of_it_is() {
        let run = Bytes::from_static(b"run");
        let node = [
            FromNode::Time { time: 1, since_start: 2 },
            FromNode::Chunk { chunk: run.clone() },
            FromNode::Stored { server: 7 },
            FromNode::Answer { message: run.clone() },
            FromNode::Acts,
            FromNode::Refused { stream: 3, code: 20, request: None },
            FromNode::Room { memory: 1 << 30, is_disk_short: true },
            FromNode::Paused { last: 5, begun: 9 },
            FromNode::Refused { stream: 3, code: 20, request: Some(RequestName { client: 4, number: 5 }) },
        ];
        let gateway = [
            FromGateway::Request { stream: 1, clock: 2, request: run.clone() },
            FromGateway::Query { query: run },
            FromGateway::Alive { time: 3, far: 4, serves: true },
        ];
        for one in node {
            let bytes = Bytes::from(one.bytes()).slice(4..);
            assert_eq!(FromNode::read(bytes.clone()), Ok(one));
            assert!((0..bytes.len()).all(|cut| FromNode::read(bytes.slice(..cut)).is_err()));
            assert!(FromGateway::read(bytes).is_err());
        }
        for one in gateway {
            let bytes = Bytes::from(one.bytes()).slice(4..);
            assert_eq!(FromGateway::read(bytes.clone()), Ok(one));
            assert!((0..bytes.len()).all(|cut| FromGateway::read(bytes.slice(..cut)).is_err()));
            assert!(FromNode::read(bytes).is_err());
        }
    }
}
