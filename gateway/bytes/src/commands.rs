//! What `cq server` and `cq master` are told, and what they tell, as bytes (docs/WIRE.md, "Commands, responses and
//! frames").

use std::fmt;

use bytes::Bytes;

use crate::parts::{append_frame, frame, Malformed, Parts, Reader};

/// There was no memory for the command.
pub const NO_MEMORY: u32 = 20;
/// The server's journal has no room for the entry.
pub const NO_ROOM: u32 = 70;
/// The process isn't the head of its chain.
pub const NOT_HEAD: u32 = 40;
/// The message isn't the next one of its link, or its sender is gone.
pub const NOT_NEXT: u32 = 45;
/// An arrival before it was refused, and its stream has ended.
pub const STREAM_ENDED: u32 = 49;
/// What was read of the message is let go.
pub const BEGIN_AGAIN: u32 = 48;
/// The piece isn't one of a message.
pub const UNREADABLE: std::ops::RangeInclusive<u32> = 91..=96;

/// One end of a link.
#[derive(Clone, Copy, Debug, PartialEq, Eq, Hash, PartialOrd, Ord)]
pub enum Party {
    Master,
    Clients,
    Server(u32),
}

impl fmt::Display for Party {
    fn fmt(&self, out: &mut fmt::Formatter<'_>) -> fmt::Result {
        match self {
            Party::Master => out.write_str("the master"),
            Party::Clients => out.write_str("the clients"),
            Party::Server(server) => write!(out, "server {server}"),
        }
    }
}

/// Where a piece stands: the number of its message on its link, and how many pieces of that message are before it.
#[derive(Clone, Copy, Debug, PartialEq, Eq, PartialOrd, Ord)]
pub struct Place {
    pub number: u64,
    pub index: u64,
}

/// What a process is told.
#[derive(Clone, Debug, PartialEq, Eq)]
pub enum Command {
    /// A request, as it is written, and its stream: one that is refused ends its stream and all lower ones.
    Arrive {
        stream: u64,
        clock: u64,
        request: Bytes,
    },
    /// A query, as it is written.
    Ask {
        query: Bytes,
    },
    Take {
        from: Party,
        place: Place,
        piece: Bytes,
    },
    Detect(u32),
    Join(u32),
    More(Party),
    Gone(u32),
    /// The next chunk of a copy of the server's store.
    Save,
    /// The next chunk of the store with which the server begins, or an empty one behind the last.
    Load(Bytes),
}

/// What a process tells.
#[derive(Clone, Debug, PartialEq, Eq)]
pub enum Response {
    Put {
        to: Party,
        place: Place,
        piece: Bytes,
    },
    Refused(u32),
    Unread(u32),
    Waiting(Party),
    /// A chunk of a copy that was made at so many entries. An empty one ends the copy.
    Saved {
        count: u64,
        chunk: Bytes,
    },
    Done(Standing),
    Heard,
}

/// Where a server stands.
#[derive(Clone, Copy, Debug, Default, PartialEq, Eq)]
pub struct Standing {
    pub count: u64,
    pub acked: u64,
    pub last: u64,
    pub is_head: bool,
    pub is_acting: bool,
    pub is_full: bool,
}

impl Command {
    /// The bytes, with their length.
    pub fn frame(&self) -> Vec<u8> {
        match self {
            Command::Arrive { stream, clock, request } => {
                let mut bytes = Vec::new();
                append_arrival(&mut bytes, *stream, *clock, |out| out.extend_from_slice(request));
                bytes
            }
            Command::Ask { query } => {
                let mut bytes = Vec::new();
                append_query(&mut bytes, |out| out.extend_from_slice(query));
                bytes
            }
            Command::Take { from, place, piece } => frame(2, |out| {
                put_party(out, *from);
                out.number64(place.number);
                out.number64(place.index);
                out.run(piece);
            }),
            Command::Detect(server) => frame(3, |out| out.number32(*server)),
            Command::Join(server) => frame(4, |out| out.number32(*server)),
            Command::More(to) => frame(5, |out| put_party(out, *to)),
            Command::Gone(server) => frame(6, |out| out.number32(*server)),
            Command::Save => frame(7, |_| {}),
            Command::Load(chunk) => frame(8, |out| out.run(chunk)),
        }
    }
}

/// Appends the command that a request arrives, which `write` writes.
pub fn append_arrival(out: &mut Vec<u8>, stream: u64, clock: u64, write: impl FnOnce(&mut Vec<u8>)) {
    append_frame(out, 0, |out| {
        out.number64(stream);
        out.number64(clock);
        write(out);
    });
}

/// Appends the command that a query is asked, which `write` writes.
pub fn append_query(out: &mut Vec<u8>, write: impl FnOnce(&mut Vec<u8>)) {
    append_frame(out, 1, write);
}

impl Response {
    /// Why a command was refused, if it was.
    pub fn refusal(&self) -> Option<u32> {
        match self {
            Response::Refused(code) | Response::Unread(code) => Some(*code),
            _ => None,
        }
    }

    /// The bytes, with their length.
    pub fn frame(&self) -> Vec<u8> {
        match self {
            Response::Put { to, place, piece } => frame(0, |out| {
                put_party(out, *to);
                out.number64(place.number);
                out.number64(place.index);
                out.run(piece);
            }),
            Response::Refused(code) => frame(1, |out| out.number32(*code)),
            Response::Unread(code) => frame(2, |out| out.number32(*code)),
            Response::Waiting(party) => frame(3, |out| put_party(out, *party)),
            Response::Saved { count, chunk } => frame(4, |out| {
                out.number64(*count);
                out.run(chunk);
            }),
            Response::Done(standing) => frame(5, |out| {
                [standing.count, standing.acked, standing.last].into_iter().for_each(|number| out.number64(number));
                [standing.is_head, standing.is_acting, standing.is_full].into_iter().for_each(|flag| out.flag(flag));
            }),
            Response::Heard => frame(6, |_| {}),
        }
    }

    /// Reads a frame without its length.
    pub fn read(bytes: Bytes) -> Result<Response, Malformed> {
        let mut reader = Reader::of_frame(bytes)?;
        let response = match reader.byte()? {
            0 => Response::Put {
                to: party(&mut reader)?,
                place: Place { number: reader.number64()?, index: reader.number64()? },
                piece: reader.run()?,
            },
            1 => Response::Refused(reader.number32()?),
            2 => Response::Unread(reader.number32()?),
            3 => Response::Waiting(party(&mut reader)?),
            4 => Response::Saved { count: reader.number64()?, chunk: reader.run()? },
            5 => Response::Done(standing(&mut reader)?),
            6 => Response::Heard,
            _ => return Err(Malformed("its kind is none of a response")),
        };
        reader.end()?;
        Ok(response)
    }

    /// Whether it ends the answer to a command.
    pub fn is_last(&self) -> bool {
        !matches!(self, Response::Put { .. } | Response::Waiting(_) | Response::Saved { .. })
    }
}

fn standing(reader: &mut Reader) -> Result<Standing, Malformed> {
    Ok(Standing {
        count: reader.number64()?,
        acked: reader.number64()?,
        last: reader.number64()?,
        is_head: reader.flag()?,
        is_acting: reader.flag()?,
        is_full: reader.flag()?,
    })
}

fn put_party(out: &mut Vec<u8>, party: Party) {
    match party {
        Party::Master => out.push(0),
        Party::Clients => out.push(1),
        Party::Server(server) => {
            out.push(2);
            out.number32(server);
        }
    }
}

fn party(reader: &mut Reader) -> Result<Party, Malformed> {
    match reader.byte()? {
        0 => Ok(Party::Master),
        1 => Ok(Party::Clients),
        2 => Ok(Party::Server(reader.server()?)),
        _ => Err(Malformed("it names no party")),
    }
}

#[cfg(test)]
mod tests {
    use super::*;

    #[test]
    fn a_command_is_that_of_the_page() {
        assert_eq!(Command::Detect(7).frame(), [6, 0, 0, 0, 1, 3, 7, 0, 0, 0]);
        let more = Command::More(Party::Server(258)).frame();
        assert_eq!(more, [7, 0, 0, 0, 1, 5, 2, 2, 1, 0, 0]);
        assert_eq!(Command::Save.frame(), [2, 0, 0, 0, 1, 7]);
        assert_eq!(Command::Load(Bytes::from_static(b"c")).frame(), [7, 0, 0, 0, 1, 8, 1, 0, 0, 0, b'c']);
        let request = Bytes::from_static(&[9]);
        let arrive = Command::Arrive { stream: 3, clock: 258, request }.frame();
        assert_eq!(arrive, [19, 0, 0, 0, 1, 0, 3, 0, 0, 0, 0, 0, 0, 0, 2, 1, 0, 0, 0, 0, 0, 0, 9]);
    }

    #[test]
    fn a_response_is_read_as_it_was_written() {
        let put = |number: u64, index: u64| Response::Put {
            to: Party::Server(2),
            place: Place { number, index },
            piece: Bytes::from_static(&[1, 1]),
        };
        let standing = Standing { count: 5, acked: 4, last: 3, is_head: true, is_acting: false, is_full: true };
        let puts = [put(1, 0), put(2, 0), put(2, 1), put(2, 2), put(3, 0)];
        let others = [Response::Refused(20), Response::Unread(91), Response::Waiting(Party::Clients), Response::Heard];
        let saved = Response::Saved { count: 3, chunk: Bytes::from_static(b"chunk") };
        for response in puts.into_iter().chain(others).chain([saved, Response::Done(standing)]) {
            let bytes = Bytes::from(response.frame()).slice(4..);
            assert_eq!(Response::read(bytes), Ok(response));
        }
    }

    #[test]
    fn a_response_that_is_none_is_refused() {
        for bytes in [&[][..], &[1], &[2, 6], &[1, 7], &[1, 6, 0], &[1, 0, 3], &[1, 0, 2, 0, 0, 0, 0]] {
            assert!(Response::read(Bytes::copy_from_slice(bytes)).is_err(), "{bytes:?}");
        }
    }
}
