//! Where requests begin and end in what a client sends, as far as deadlines need it. hyper reads them; what is found here
//! decides nothing of what they say.

/// As many bytes of a line are looked at.
const LOOKED_AT_BYTES: usize = 64;

/// The end of a body in chunks without trailers.
const LAST_CHUNK: &[u8; 5] = b"0\r\n\r\n";

/// Follows the bytes of a connection.
#[derive(Debug, Default)]
pub struct Framing {
    place: FramingPlace,
    /// How many requests have begun.
    pub begun: u64,
    /// A request had both a length and chunks, or there may be more behind its chunks: the connection ends behind its
    /// answer (RFC 9112, 6.1).
    pub must_close: bool,
}

#[derive(Debug, Default)]
enum FramingPlace {
    #[default]
    Between,
    Head(Head),
    /// So many bytes of a body are still to come.
    Body(u64),
    /// A body in chunks, and the last bytes of it that came.
    Chunks([u8; LAST_CHUNK.len()]),
}

/// The part of a head that has come.
#[derive(Debug)]
struct Head {
    line: [u8; LOOKED_AT_BYTES],
    length_of_line: usize,
    length: Option<u64>,
    has_chunks: bool,
}

impl Default for Head {
    fn default() -> Head {
        Head { line: [0; LOOKED_AT_BYTES], length_of_line: 0, length: None, has_chunks: false }
    }
}

impl Framing {
    /// Takes up bytes that came.
    pub fn take(&mut self, mut bytes: &[u8]) {
        while !bytes.is_empty() {
            match &mut self.place {
                // Line ends before a request are no part of it (RFC 9112, 2.2).
                FramingPlace::Between => match bytes.iter().position(|byte| !matches!(byte, b'\r' | b'\n')) {
                    None => return,
                    Some(begin) => {
                        bytes = &bytes[begin..];
                        self.place = FramingPlace::Head(Head::default());
                        self.begun += 1;
                    }
                },
                FramingPlace::Head(head) => {
                    let Some(end) = head.end_in(bytes) else { return };
                    bytes = &bytes[end..];
                    self.must_close |= head.has_chunks && head.length.is_some();
                    self.place = head.body();
                }
                FramingPlace::Body(left) => {
                    let count = bytes.len().min(usize::try_from(*left).unwrap_or(usize::MAX));
                    bytes = &bytes[count..];
                    *left -= count as u64;
                    if *left == 0 {
                        self.place = FramingPlace::Between;
                    }
                }
                FramingPlace::Chunks(last) => {
                    let count = bytes.len().min(last.len());
                    last.rotate_left(count);
                    let begin = last.len() - count;
                    last[begin..].copy_from_slice(&bytes[bytes.len() - count..]);
                    return;
                }
            }
        }
    }

    /// The request whose body comes in chunks was read to its end.
    pub fn is_read(&mut self) {
        if let FramingPlace::Chunks(last) = &self.place {
            self.must_close |= last != LAST_CHUNK;
            self.place = FramingPlace::Between;
        }
    }

    /// Whether a part of a request is there, and not all of it.
    pub fn is_within(&self) -> bool {
        !matches!(self.place, FramingPlace::Between)
    }
}

impl Head {
    /// Takes up bytes, and tells where the head ends in them, if it does.
    fn end_in(&mut self, bytes: &[u8]) -> Option<usize> {
        let mut begin = 0;
        for end in memchr::memchr_iter(b'\n', bytes) {
            if self.end_line(&bytes[begin..end]) {
                return Some(end + 1);
            }
            begin = end + 1;
        }
        self.add(&bytes[begin..]);
        None
    }

    /// Takes up a part of a line.
    fn add(&mut self, bytes: &[u8]) {
        let begin = self.length_of_line.min(LOOKED_AT_BYTES);
        let count = bytes.len().min(LOOKED_AT_BYTES - begin);
        self.line[begin..begin + count].copy_from_slice(&bytes[..count]);
        self.length_of_line = self.length_of_line.saturating_add(bytes.len());
    }

    /// Takes up the last part of a line, without its line feed. True if it is the empty one behind the head.
    fn end_line(&mut self, bytes: &[u8]) -> bool {
        if self.length_of_line == 0 {
            // Most heads come in one piece.
            return self.take_line(&bytes[..bytes.len().min(LOOKED_AT_BYTES)]);
        }
        self.add(bytes);
        let (line, length) = (self.line, self.length_of_line.min(LOOKED_AT_BYTES));
        self.length_of_line = 0;
        self.take_line(&line[..length])
    }

    #[inline]
    fn take_line(&mut self, line: &[u8]) -> bool {
        match line {
            [] | [b'\r'] => return true,
            [b'c' | b'C', ..] => {
                if let Some(value) = value_of(line, b"content-length:") {
                    self.length = std::str::from_utf8(value).ok().and_then(|value| value.trim().parse().ok());
                }
            }
            [b't' | b'T', ..] => self.has_chunks |= value_of(line, b"transfer-encoding:").is_some(),
            _ => {}
        }
        false
    }

    fn body(&self) -> FramingPlace {
        match self.length {
            _ if self.has_chunks => FramingPlace::Chunks([0; LAST_CHUNK.len()]),
            Some(length) if length > 0 => FramingPlace::Body(length),
            _ => FramingPlace::Between,
        }
    }
}

/// What stands behind this name, which has its colon with it, in a line of a head.
fn value_of<'l>(line: &'l [u8], name: &[u8]) -> Option<&'l [u8]> {
    let (start, value) = (line.get(..name.len())?, &line[name.len()..]);
    start.eq_ignore_ascii_case(name).then_some(value)
}

#[cfg(test)]
mod tests {
    use super::*;

    /// What is found, whatever the pieces in which the bytes come.
    fn framing(bytes: &[u8]) -> Framing {
        let mut whole = Framing::default();
        whole.take(bytes);
        let mut by_bytes = Framing::default();
        bytes.iter().for_each(|byte| by_bytes.take(&[*byte]));
        assert_eq!((whole.is_within(), whole.must_close), (by_bytes.is_within(), by_bytes.must_close));
        whole
    }

    #[test]
    fn requests_end_where_their_lengths_say() {
        let post = "POST / HTTP/1.1\r\nhost: a\r\nContent-Length: 3\r\n\r\nabc";
        for whole in
            ["", "\r\n\r\n", "GET / HTTP/1.1\r\n\r\n", "GET / HTTP/1.1\n\n", post, &format!("{post}\r\n{post}")]
        {
            assert!(!framing(whole.as_bytes()).is_within(), "{whole}");
        }
        for half in [
            "G",
            "\r\nG",
            "GET / HTTP/1.1\r\n",
            &post[..post.len() - 1],
            &format!("{post}P"),
            &format!("{post}{}", &post[..30]),
        ] {
            assert!(framing(half.as_bytes()).is_within(), "{half}");
        }
        let long = format!("GET / HTTP/1.1\r\nx: {}\r\ncontent-length:1\r\n\r\n", "y".repeat(300));
        assert!(framing(long.as_bytes()).is_within() && !framing(format!("{long}z").as_bytes()).is_within());
    }

    #[test]
    fn chunks_end_when_they_were_read() {
        let head = "POST / HTTP/1.1\r\nTransfer-Encoding: chunked\r\n\r\n";
        let mut read = framing(format!("{head}1\r\na\r\n0\r\n\r\n").as_bytes());
        assert!(read.is_within());
        read.is_read();
        assert!(!read.is_within() && !read.must_close);
        let mut more = framing(format!("{head}1\r\na\r\n0\r\n\r\nGET /").as_bytes());
        more.is_read();
        assert!(more.must_close, "half a request stands behind it");
    }

    #[test]
    fn a_length_beside_chunks_ends_the_connection() {
        for (one, other) in
            [("Content-Length: 5", "Transfer-Encoding: chunked"), ("transfer-encoding:chunked", "CONTENT-LENGTH:0")]
        {
            assert!(framing(format!("POST / HTTP/1.1\r\n{one}\r\n{other}\r\n\r\n").as_bytes()).must_close);
        }
    }
}
