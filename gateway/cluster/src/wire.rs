//! What goes over a connection to a node's port (docs/CLUSTER.md, "Frames").

use bytes::Bytes;

use hobbychair_bytes::commands::Place;
use hobbychair_bytes::parts::{frame, Malformed, Parts, Reader};
use hobbychair_bytes::values::RequestName;

/// The first frame of a connection isn't longer: a stranger gets no more memory.
pub const GREETING_LIMIT_BYTES: usize = 64 << 10;

/// No batch has more requests.
pub const MOST_REQUESTS: u32 = 1024;

/// Whom a connection is about.
#[derive(Clone, Debug, PartialEq, Eq)]
pub struct About {
    pub cluster: String,
    pub incarnation: String,
}

/// One frame.
#[derive(Clone, Debug, PartialEq, Eq)]
pub enum Frame {
    // ---- from who connects
    /// A link begins or goes on: the sender, the nonce of its registration, for whom it is, and all servers that are gone
    /// as far as the sender knows.
    Link { about: About, from: u32, nonce: String, to: u32, gone: Vec<u32> },
    /// A front, whose pings say that it is in contact.
    Front { about: About },
    /// A client, who wants the answers for client numbers from the first to the last.
    Client { about: About, first: u32, last: u32 },
    /// A piece of a message. The number in front is the frame's own on its link.
    Message { frame: u64, place: Place, piece: Bytes },
    /// That server was detected.
    Gone { frame: u64, server: u32 },
    /// The cluster's time at the sender; 0 from a front that knows of no head. A front is answered by one.
    Ping { time: u64 },
    /// A front's ping: which server it takes for the head, whether it reaches the port of that one's gateway, and whether that
    /// of the gateway beside the node that is pinged.
    Reach { head: u32, reaches_head: bool, reaches_this: bool },
    /// Requests of a stream.
    Batch { stream: u64, requests: Vec<Bytes> },
    /// A query of a stream.
    Query { stream: u64, query: Bytes },
    // ---- from who was connected to
    /// The link goes on behind that frame.
    Welcome { received: u64, gone: Vec<u32> },
    /// All frames up to that one have come.
    Received { frame: u64 },
    /// Where the server stands, for clients.
    Standing { server: u32, is_head: bool, is_acting: bool },
    /// An answer, as its server put it.
    Answer { message: Bytes },
    /// Nothing of the stream is taken from here on, by the number of a refusal.
    /// The first request that was refused is told to gateways alone, by their pipe.
    Refused { stream: u64, code: u32, request: Option<RequestName> },
    /// Why the connection ends.
    Away { why: String },
}

impl Frame {
    /// The bytes, with their length.
    pub fn bytes(&self) -> Vec<u8> {
        match self {
            Frame::Link { about, from, nonce, to, gone } => frame(0, |out| {
                put_about(out, about);
                out.number32(*from);
                out.run(nonce.as_bytes());
                out.number32(*to);
                out.servers(gone);
            }),
            Frame::Client { about, first, last } => frame(1, |out| {
                put_about(out, about);
                out.number32(*first);
                out.number32(*last);
            }),
            Frame::Message { frame: number, place, piece } => frame(2, |out| {
                out.number64(*number);
                out.number64(place.number);
                out.number64(place.index);
                out.run(piece);
            }),
            Frame::Gone { frame: number, server } => frame(3, |out| {
                out.number64(*number);
                out.number32(*server);
            }),
            Frame::Ping { time } => frame(4, |out| out.number64(*time)),
            Frame::Batch { stream, requests } => frame(5, |out| {
                out.number64(*stream);
                out.number32(requests.len() as u32);
                requests.iter().for_each(|request| out.run(request));
            }),
            Frame::Query { stream, query } => frame(6, |out| {
                out.number64(*stream);
                out.run(query);
            }),
            Frame::Front { about } => frame(7, |out| put_about(out, about)),
            Frame::Reach { head, reaches_head, reaches_this } => frame(8, |out| {
                out.number32(*head);
                out.flag(*reaches_head);
                out.flag(*reaches_this);
            }),
            Frame::Welcome { received, gone } => frame(16, |out| {
                out.number64(*received);
                out.servers(gone);
            }),
            Frame::Received { frame: number } => frame(17, |out| out.number64(*number)),
            Frame::Standing { server, is_head, is_acting } => frame(18, |out| {
                out.number32(*server);
                out.flag(*is_head);
                out.flag(*is_acting);
            }),
            Frame::Answer { message } => frame(19, |out| out.run(message)),
            Frame::Refused { stream, code, .. } => frame(20, |out| {
                out.number64(*stream);
                out.number32(*code);
            }),
            Frame::Away { why } => frame(21, |out| out.run(why.as_bytes())),
        }
    }

    /// Reads a frame without its length.
    pub fn read(bytes: Bytes) -> Result<Frame, Malformed> {
        let mut from = Reader::of_frame(bytes)?;
        let read = match from.byte()? {
            0 => Frame::Link {
                about: about(&mut from)?,
                from: from.server()?,
                nonce: from.text()?,
                to: from.server()?,
                gone: from.servers()?,
            },
            1 => Frame::Client { about: about(&mut from)?, first: from.number32()?, last: from.number32()? },
            2 => Frame::Message { frame: from.number64()?, place: place(&mut from)?, piece: from.run()? },
            3 => Frame::Gone { frame: from.number64()?, server: from.server()? },
            4 => Frame::Ping { time: from.number64()? },
            5 => Frame::Batch { stream: from.number64()?, requests: runs(&mut from)? },
            6 => Frame::Query { stream: from.number64()?, query: from.run()? },
            7 => Frame::Front { about: about(&mut from)? },
            8 => Frame::Reach { head: from.server()?, reaches_head: from.flag()?, reaches_this: from.flag()? },
            16 => Frame::Welcome { received: from.number64()?, gone: from.servers()? },
            17 => Frame::Received { frame: from.number64()? },
            18 => Frame::Standing { server: from.server()?, is_head: from.flag()?, is_acting: from.flag()? },
            19 => Frame::Answer { message: from.run()? },
            20 => Frame::Refused { stream: from.number64()?, code: from.number32()?, request: None },
            21 => Frame::Away { why: from.text()? },
            _ => return Err(Malformed("its kind is none of a frame")),
        };
        from.end()?;
        Ok(read)
    }
}

fn put_about(out: &mut Vec<u8>, about: &About) {
    out.run(about.cluster.as_bytes());
    out.run(about.incarnation.as_bytes());
}

fn about(from: &mut Reader) -> Result<About, Malformed> {
    Ok(About { cluster: from.text()?, incarnation: from.text()? })
}

fn place(from: &mut Reader) -> Result<Place, Malformed> {
    Ok(Place { number: from.number64()?, index: from.number64()? })
}

/// Runs behind their count, which isn't believed: each is read from bytes that are there.
fn runs(from: &mut Reader) -> Result<Vec<Bytes>, Malformed> {
    let count = from.number32()?;
    if count > MOST_REQUESTS {
        return Err(Malformed("a batch has too many requests"));
    }
    let mut runs = Vec::new();
    for _ in 0..count {
        runs.push(from.run()?);
    }
    Ok(runs)
}

#[cfg(test)]
mod tests {
    use super::*;

    fn all() -> Vec<Frame> {
        let about = About { cluster: "c".into(), incarnation: "1f".into() };
        let piece = Bytes::from_static(b"piece");
        let place = Place { number: 7, index: 8 };
        vec![
            Frame::Link { about: about.clone(), from: 1, nonce: "n".into(), to: 2, gone: vec![3, 4] },
            Frame::Front { about: about.clone() },
            Frame::Client { about, first: 0, last: 255 },
            Frame::Message { frame: 1, place, piece: piece.clone() },
            Frame::Gone { frame: 2, server: 3 },
            Frame::Ping { time: 5 },
            Frame::Reach { head: 3, reaches_head: false, reaches_this: true },
            Frame::Batch { stream: 1, requests: vec![piece.clone(), Bytes::new()] },
            Frame::Query { stream: 1, query: piece.clone() },
            Frame::Welcome { received: 9, gone: vec![] },
            Frame::Received { frame: 9 },
            Frame::Standing { server: 1, is_head: true, is_acting: false },
            Frame::Answer { message: piece },
            Frame::Refused { stream: 1, code: 40, request: None },
            Frame::Away { why: "é".into() },
        ]
    }

    #[test]
    fn a_frame_is_read_as_it_was_written_and_no_front_of_it_is() {
        for one in all() {
            let bytes = Bytes::from(one.bytes()).slice(4..);
            assert_eq!(Frame::read(bytes.clone()), Ok(one.clone()));
            for cut in 0..bytes.len() {
                assert!(Frame::read(bytes.slice(..cut)).is_err(), "{one:?} up to {cut}");
            }
            let longer = [&bytes[..], &[0]].concat();
            assert!(Frame::read(Bytes::from(longer)).is_err(), "{one:?}");
        }
    }

    #[test]
    fn counts_take_no_memory() {
        let batch = Bytes::from_static(&[1, 5, 0, 0, 0, 0, 0, 0, 0, 0, 0xff, 0xff, 0xff, 0xff]);
        assert!(Frame::read(batch).is_err());
    }
}
