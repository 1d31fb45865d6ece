//! Calls that a front passes on, and their answers, over one connection to the gateway that acts (docs/CLUSTER.md, "Calls").
//!
//! A front asks for it by `Upgrade`. From then on both sides write frames, as nodes do. Calls have numbers, and are answered in
//! any order. A large answer comes in pieces, between which others come.

use std::io;
use std::time::Duration;

use bytes::Bytes;
use hobbychair_bytes::parts::{append_frame, Malformed, Parts, Reader};
use hyper::header::{HeaderMap, HeaderName, HeaderValue};
use hyper::http::uri::PathAndQuery;
use hyper::{Method, StatusCode};
use tokio::io::{AsyncWrite, AsyncWriteExt};
use tokio::time::timeout;

/// What a front asks for by `Upgrade`.
pub const PROTOCOL: &str = "hobbychair-calls-1";

/// A body with more bytes isn't passed on as a call, but as a request of its own.
pub const LONGEST_BODY_BYTES: usize = 64 << 10;

/// So many bytes of an answer's body are in one frame.
pub const PIECE_BYTES: usize = 64 << 10;

/// No frame has more bytes: a body, and the longest head twice.
pub const FRAME_LIMIT_BYTES: usize = 192 << 10;

/// No head has more headers.
const MOST_HEADERS: u32 = 256;

/// Writes all of it. Whoever doesn't take the next [`PIECE_BYTES`] of it in time is an error.
pub async fn write(writing: &mut (impl AsyncWrite + Unpin), bytes: &[u8], patience: Duration) -> io::Result<()> {
    for piece in bytes.chunks(PIECE_BYTES) {
        timeout(patience, writing.write_all(piece)).await??;
    }
    timeout(patience, writing.flush()).await?
}

/// A request that is passed on.
#[derive(Clone, Debug, PartialEq)]
pub struct Call {
    pub method: Method,
    pub target: PathAndQuery,
    pub headers: HeaderMap,
    pub body: Bytes,
}

/// What a front tells. Each call has a number of its own.
#[derive(Clone, Debug, PartialEq)]
pub enum FromFront {
    Call {
        number: u64,
        call: Call,
    },
    /// Nobody waits for the answer to that one any more.
    Gone {
        number: u64,
    },
    /// The front is there.
    Alive,
}

/// What the gateway tells.
#[derive(Clone, Debug, PartialEq)]
pub enum FromGateway {
    /// The answer to a call. `piece` is the first one of its body.
    Answer { number: u64, status: StatusCode, headers: HeaderMap, piece: Bytes, is_whole: bool },
    /// The next piece of the body of that call's answer.
    Piece { number: u64, piece: Bytes, is_last: bool },
    /// The cluster's time, in milliseconds; nothing where the store is gone.
    Time { time: Option<u64> },
}

/// A request as it is passed on.
#[derive(Clone, Copy, Debug)]
pub struct PassedOn<'a> {
    pub method: &'a Method,
    pub target: &'a PathAndQuery,
    pub headers: &'a HeaderMap,
    /// What the front says beside these.
    pub added: &'a [(&'a HeaderName, HeaderValue)],
    pub body: &'a [u8],
}

/// Appends a call.
pub fn append_call(out: &mut Vec<u8>, number: u64, call: PassedOn<'_>) {
    append_frame(out, 0, |out| {
        out.number64(number);
        out.run(call.method.as_str().as_bytes());
        out.run(call.target.as_str().as_bytes());
        out.number32((call.headers.len() + call.added.len()) as u32);
        call.headers.iter().for_each(|(name, value)| put_header(out, name, value));
        call.added.iter().for_each(|(name, value)| put_header(out, name, value));
        out.run(call.body);
    });
}

/// Appends an answer, with the first piece of its body.
pub fn append_answer(
    out: &mut Vec<u8>,
    number: u64,
    (status, headers): (StatusCode, &HeaderMap),
    piece: &[u8],
    is_whole: bool,
) {
    append_frame(out, 16, |out| {
        out.number64(number);
        out.number32(status.as_u16().into());
        out.number32(headers.len() as u32);
        headers.iter().for_each(|(name, value)| put_header(out, name, value));
        out.run(piece);
        out.flag(is_whole);
    });
}

pub fn append_piece(out: &mut Vec<u8>, number: u64, piece: &[u8], is_last: bool) {
    append_frame(out, 17, |out| {
        out.number64(number);
        out.run(piece);
        out.flag(is_last);
    });
}

pub fn append_time(out: &mut Vec<u8>, time: Option<u64>) {
    append_frame(out, 18, |out| {
        out.flag(time.is_some());
        time.iter().for_each(|time| out.number64(*time));
    });
}

pub fn append_gone(out: &mut Vec<u8>, number: u64) {
    append_frame(out, 1, |out| out.number64(number));
}

pub fn append_alive(out: &mut Vec<u8>) {
    append_frame(out, 2, |_| {});
}

impl FromFront {
    /// Reads a frame without its length.
    pub fn read(bytes: Bytes) -> Result<FromFront, Malformed> {
        let mut from = Reader::of_frame(bytes)?;
        let read = match from.byte()? {
            0 => FromFront::Call { number: from.number64()?, call: call(&mut from)? },
            1 => FromFront::Gone { number: from.number64()? },
            2 => FromFront::Alive,
            _ => return Err(Malformed("its kind is none of what a front tells")),
        };
        from.end()?;
        Ok(read)
    }
}

impl FromGateway {
    /// Reads a frame without its length.
    pub fn read(bytes: Bytes) -> Result<FromGateway, Malformed> {
        let mut from = Reader::of_frame(bytes)?;
        let read = match from.byte()? {
            16 => FromGateway::Answer {
                number: from.number64()?,
                status: status(&mut from)?,
                headers: headers(&mut from)?,
                piece: from.run()?,
                is_whole: from.flag()?,
            },
            17 => FromGateway::Piece { number: from.number64()?, piece: from.run()?, is_last: from.flag()? },
            18 => {
                let is_known = from.flag()?;
                FromGateway::Time { time: is_known.then(|| from.number64()).transpose()? }
            }
            _ => return Err(Malformed("its kind is none of what a gateway tells")),
        };
        from.end()?;
        Ok(read)
    }
}

fn put_header(out: &mut Vec<u8>, name: &HeaderName, value: &HeaderValue) {
    out.run(name.as_str().as_bytes());
    out.run(value.as_bytes());
}

fn call(from: &mut Reader) -> Result<Call, Malformed> {
    let method = Method::from_bytes(&from.run()?).map_err(|_| Malformed("a method is none"))?;
    let target = PathAndQuery::from_maybe_shared(from.run()?).map_err(|_| Malformed("a target is none"))?;
    Ok(Call { method, target, headers: headers(from)?, body: from.run()? })
}

fn status(from: &mut Reader) -> Result<StatusCode, Malformed> {
    let number = u16::try_from(from.number32()?).ok();
    number.and_then(|number| StatusCode::from_u16(number).ok()).ok_or(Malformed("a status is none"))
}

fn headers(from: &mut Reader) -> Result<HeaderMap, Malformed> {
    let count = from.number32()?;
    if count > MOST_HEADERS {
        return Err(Malformed("there are too many headers"));
    }
    let mut headers = HeaderMap::with_capacity(count as usize);
    for _ in 0..count {
        let name = HeaderName::from_bytes(&from.run()?).map_err(|_| Malformed("a header's name is none"))?;
        let value = HeaderValue::from_maybe_shared(from.run()?).map_err(|_| Malformed("a header's value is none"))?;
        headers.append(name, value);
    }
    Ok(headers)
}

#[cfg(test)]
mod tests {
    use super::*;

    fn headers_of(pairs: &[(&'static str, &'static str)]) -> HeaderMap {
        let pair = |(name, value): &(&'static str, &'static str)| {
            (HeaderName::from_static(name), HeaderValue::from_static(value))
        };
        pairs.iter().map(pair).collect()
    }

    fn call() -> Call {
        let mut headers = headers_of(&[("host", "queues:80"), ("x-amz-date", "d")]);
        headers.append("x-amz-date", HeaderValue::from_bytes(b"\xe9").unwrap());
        headers.append("x-own", HeaderValue::from_static("own"));
        let target = PathAndQuery::from_static("/1/q.fifo?A=b%2f");
        Call { method: Method::POST, target, headers, body: Bytes::from_static(b"body") }
    }

    /// The call with its last header added by the front.
    fn passed_on(call: &Call, write: impl FnOnce(PassedOn<'_>)) {
        let mut headers = call.headers.clone();
        let added = (HeaderName::from_static("x-own"), headers.remove("x-own").unwrap());
        let added = [(&added.0, added.1)];
        let Call { method, target, body, .. } = call;
        write(PassedOn { method, target, headers: &headers, added: &added, body });
    }

    fn frame(write: impl FnOnce(&mut Vec<u8>)) -> Bytes {
        let mut out = Vec::new();
        write(&mut out);
        Bytes::from(out).slice(4..)
    }

    #[test]
    fn what_either_tells_is_read_as_it_was_written_and_no_front_of_it_is() {
        let told = [
            (
                frame(|out| passed_on(&call(), |passed| append_call(out, 7, passed))),
                FromFront::Call { number: 7, call: call() },
            ),
            (frame(|out| append_gone(out, 8)), FromFront::Gone { number: 8 }),
            (frame(append_alive), FromFront::Alive),
        ];
        for (bytes, one) in told {
            assert_eq!(FromFront::read(bytes.clone()), Ok(one));
            assert!((0..bytes.len()).all(|cut| FromFront::read(bytes.slice(..cut)).is_err()));
            assert!(FromGateway::read(bytes).is_err());
        }
        let (status, headers) = (StatusCode::FORBIDDEN, headers_of(&[("x-amzn-requestid", "r")]));
        let piece = Bytes::from_static(b"piece");
        let answer =
            FromGateway::Answer { number: 7, status, headers: headers.clone(), piece: piece.clone(), is_whole: false };
        let told = [
            (frame(|out| append_answer(out, 7, (status, &headers), &piece, false)), answer),
            (
                frame(|out| append_piece(out, 7, &piece, true)),
                FromGateway::Piece { number: 7, piece: piece.clone(), is_last: true },
            ),
            (frame(|out| append_time(out, Some(9))), FromGateway::Time { time: Some(9) }),
            (frame(|out| append_time(out, None)), FromGateway::Time { time: None }),
        ];
        for (bytes, one) in told {
            assert_eq!(FromGateway::read(bytes.clone()), Ok(one));
            assert!((0..bytes.len()).all(|cut| FromGateway::read(bytes.slice(..cut)).is_err()));
            assert!(FromFront::read(bytes).is_err());
        }
    }

    #[test]
    fn what_is_no_part_of_http_is_refused() {
        let call = |method: &[u8], target: &[u8], headers: &[(&[u8], &[u8])], count: u32| {
            let bytes = frame(|out| {
                append_frame(out, 0, |out| {
                    out.number64(1);
                    out.run(method);
                    out.run(target);
                    out.number32(count);
                    for (name, value) in headers {
                        out.run(name);
                        out.run(value);
                    }
                    out.run(b"");
                });
            });
            FromFront::read(bytes).is_ok()
        };
        assert!(call(b"POST", b"/", &[(b"a", b"b")], 1));
        assert!(!call(b"PO ST", b"/", &[], 0) && !call(b"POST", b"/\n", &[], 0));
        assert!(!call(b"POST", b"/", &[(b"a b", b"c")], 1) && !call(b"POST", b"/", &[(b"a", b"b\r\nc: d")], 1));
        assert!(!call(b"POST", b"/", &[], u32::MAX));
        let many = vec![(&b"a"[..], &b"b"[..]); MOST_HEADERS as usize + 1];
        assert!(call(b"POST", b"/", &many[1..], MOST_HEADERS) && !call(b"POST", b"/", &many, MOST_HEADERS + 1));
    }
}
