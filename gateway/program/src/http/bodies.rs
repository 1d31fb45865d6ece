//! Reading the bodies of requests, within bounds of bytes and of time.

use std::pin::Pin;
use std::task::Poll;

use bytes::{Bytes, BytesMut};
use hobbychair_sqs::attributes::LONGEST_MESSAGE_BYTES;
use hobbychair_sqs::errors::SqsError;
use hyper::body::HttpBody;
use hyper::Body;
use tokio::time::{timeout_at, Instant};

use hobbychair_tables::budget::Share;

/// The longest body of a request, in bytes: JSON writes one byte of a message as six at most, and 64 KiB are for the
/// rest.
pub const LONGEST_BODY_BYTES: usize = 6 * LONGEST_MESSAGE_BYTES + (64 << 10);

/// Reads a body to its end, and has it count for the share. It is refused where it is longer than [`LONGEST_BODY_BYTES`], isn't
/// whole at `deadline`, or finds no room. What is refused for its length or for want of room is read on beside the refusal
/// and thrown away: what is left unread would have the connection reset before its client has read the answer.
pub async fn read(mut body: Body, share: &Share, deadline: Instant) -> Result<Bytes, SqsError> {
    let read = read_whole(&mut body, share, deadline).await;
    if read.is_err() {
        share.set(0);
    }
    if matches!(read, Err(SqsError::RequestTooLong { .. } | SqsError::ServiceUnavailable(_))) {
        tokio::spawn(throw_away(body, deadline));
    }
    read
}

fn too_long() -> SqsError {
    SqsError::RequestTooLong { limit: LONGEST_BODY_BYTES }
}

async fn read_whole(body: &mut Body, share: &Share, deadline: Instant) -> Result<Bytes, SqsError> {
    if body.size_hint().lower() > LONGEST_BODY_BYTES as u64 {
        return Err(too_long());
    }
    let mut pieces = Pieces::default();
    while let Some(piece) = next_piece(body, deadline).await? {
        if pieces.len() + piece.len() > LONGEST_BODY_BYTES {
            return Err(too_long());
        }
        if !share.try_set(pieces.len() + piece.len()) {
            return Err(SqsError::ServiceUnavailable("Too many requests are being served.".into()));
        }
        pieces.add(piece);
    }
    Ok(pieces.into_bytes())
}

async fn next_piece(body: &mut Body, deadline: Instant) -> Result<Option<Bytes>, SqsError> {
    let found = match what_is_there(body).await {
        Some(found) => found,
        // Most bodies come with their heads, and need no timer.
        None => Box::pin(timeout_at(deadline, body.data())).await.map_err(|_| SqsError::RequestTimeout)?,
    };
    match found {
        Some(Ok(piece)) => Ok(Some(piece)),
        // Where nobody had time to refuse it, the connection has ended it in the meantime.
        Some(Err(_)) if Instant::now() >= deadline => Err(SqsError::RequestTimeout),
        Some(Err(_)) => Err(SqsError::InvalidParameterValue("The request's body broke off.".into())),
        None => Ok(None),
    }
}

/// The next piece, or the end, if it is there already.
async fn what_is_there(body: &mut Body) -> Option<Option<hyper::Result<Bytes>>> {
    std::future::poll_fn(|context| match Pin::new(&mut *body).poll_data(context) {
        Poll::Ready(found) => Poll::Ready(Some(found)),
        Poll::Pending => Poll::Ready(None),
    })
    .await
}

async fn throw_away(mut body: Body, deadline: Instant) {
    while let Ok(Some(_)) = next_piece(&mut body, deadline).await {}
}

/// The pieces of a body. A body of one piece isn't copied.
#[derive(Default)]
struct Pieces {
    first: Bytes,
    whole: BytesMut,
}

impl Pieces {
    fn len(&self) -> usize {
        self.first.len().max(self.whole.len())
    }

    fn add(&mut self, piece: Bytes) {
        if self.first.is_empty() {
            self.first = piece;
            return;
        }
        if self.whole.is_empty() {
            self.whole.extend_from_slice(&self.first);
        }
        self.whole.extend_from_slice(&piece);
    }

    fn into_bytes(self) -> Bytes {
        if self.whole.is_empty() {
            self.first
        } else {
            self.whole.freeze()
        }
    }
}

#[cfg(test)]
mod tests {
    use super::*;

    use std::time::Duration;

    use hobbychair_tables::budget::Budget;

    fn soon() -> Instant {
        Instant::now() + Duration::from_secs(5)
    }

    fn body_of(pieces: &[&'static str]) -> Body {
        let (mut sender, body) = Body::channel();
        let pieces: Vec<&'static str> = pieces.to_vec();
        tokio::spawn(async move {
            for piece in pieces {
                if sender.send_data(Bytes::from_static(piece.as_bytes())).await.is_err() {
                    return;
                }
            }
        });
        body
    }

    #[tokio::test]
    async fn pieces_are_put_together() {
        let share = Budget::new(256 << 20).share();
        for (pieces, whole) in [(&[][..], ""), (&["ab"], "ab"), (&["a", "b", "cd"], "abcd")] {
            assert_eq!(read(body_of(pieces), &share, soon()).await.unwrap(), whole);
        }
    }

    #[tokio::test]
    async fn a_body_that_is_too_long_is_refused_with_and_without_a_length() {
        let budget = Budget::new(256 << 20);
        let share = budget.share();
        let long = vec![b'x'; LONGEST_BODY_BYTES + 1];
        let sized = read(Body::from(long.clone()), &share, soon()).await;
        assert!(matches!(sized, Err(SqsError::RequestTooLong { .. })));
        let (mut sender, body) = Body::channel();
        tokio::spawn(async move { while sender.send_data(Bytes::from(vec![b'x'; 1 << 16])).await.is_ok() {} });
        let chunked = read(body, &share, soon()).await;
        assert!(matches!(chunked, Err(SqsError::RequestTooLong { .. })));
        assert_eq!(budget.used(), 0);
        assert!(read(Body::from(long[1..].to_vec()), &share, soon()).await.is_ok());
        assert!(budget.used() > 6 << 20);
    }

    #[tokio::test]
    async fn what_is_being_read_has_a_bound_that_is_given_back() {
        let budget = Budget::of(10, 3);
        let (first, second) = (budget.share(), budget.share());
        assert!(read(Body::from("12345678901"), &first, soon()).await.is_ok());
        let refused = read(Body::from("123456"), &second, soon()).await;
        assert!(matches!(refused, Err(SqsError::ServiceUnavailable(_))));
        assert_eq!(budget.used(), 8);
        // A small one gets in all the same.
        assert!(read(Body::from("123"), &second, soon()).await.is_ok());
        drop(first);
        assert!(read(Body::from("1234567890123"), &second, soon()).await.is_ok());
        drop(second);
        assert_eq!(budget.used(), 0);
    }

    #[tokio::test]
    async fn a_body_that_breaks_off_when_it_is_late_is_a_timeout() {
        let share = Budget::new(256 << 20).share();
        for (deadline, is_late) in [(soon(), false), (Instant::now(), true)] {
            let (sender, body) = Body::channel();
            sender.abort();
            let refused = read(body, &share, deadline).await.unwrap_err();
            assert_eq!(matches!(refused, SqsError::RequestTimeout), is_late, "{refused}");
        }
    }

    #[tokio::test]
    async fn a_body_that_does_not_come_is_a_timeout() {
        let (_sender, body) = Body::channel();
        let share = Budget::new(256 << 20).share();
        let read = read(body, &share, Instant::now() + Duration::from_millis(20)).await;
        assert!(matches!(read, Err(SqsError::RequestTimeout)));
    }
}
