//! The bodies of answers: large ones count for the budget of requests until they are written.

use std::sync::Arc;

use bytes::Bytes;
use hyper::body::Sender;
use hyper::header::CONTENT_LENGTH;
use hyper::{Body, Response};

use hobbychair_tables::budget::Share;

/// So many bytes go to a connection at once. It takes the next ones when these are on their way.
const PIECE_BYTES: usize = 64 << 10;

/// The answer as a connection writes it. It counts by this share until all but its last piece is written.
pub fn to_be_written(mut answer: Response<Bytes>, share: &Arc<Share>) -> Response<Body> {
    if answer.body().len() <= PIECE_BYTES {
        share.set(0);
        return answer.map(Body::from);
    }
    let length = answer.body().len();
    answer.headers_mut().insert(CONTENT_LENGTH, length.into());
    share.set(length);
    let share = share.clone();
    answer.map(|bytes| {
        let (sender, body) = Body::channel();
        tokio::spawn(write(bytes, sender, share));
        body
    })
}

async fn write(mut rest: Bytes, mut sender: Sender, share: Arc<Share>) {
    while !rest.is_empty() {
        let piece = rest.split_to(rest.len().min(PIECE_BYTES));
        if rest.is_empty() {
            // Behind this one the connection's next request may count.
            share.set(0);
        }
        if sender.send_data(piece).await.is_err() {
            return;
        }
    }
}

/// A body of which a connection has a piece at a time: where it can't write the bytes as they stand, as by TLS, it copies them.
/// Its length has to stand in a header.
pub fn in_pieces(bytes: Bytes) -> Body {
    if bytes.len() <= PIECE_BYTES {
        return Body::from(bytes);
    }
    let (mut sender, body) = Body::channel();
    tokio::spawn(async move {
        let mut rest = bytes;
        while !rest.is_empty() {
            if sender.send_data(rest.split_to(rest.len().min(PIECE_BYTES))).await.is_err() {
                return;
            }
        }
    });
    body
}

#[cfg(test)]
mod tests {
    use super::*;

    use hyper::body::HttpBody;

    use hobbychair_tables::budget::Budget;

    #[tokio::test]
    async fn a_large_answer_counts_until_its_last_piece_is_on_its_way() {
        let budget = Budget::of(usize::MAX, 0);
        let share = Arc::new(budget.share());
        let bytes = Bytes::from(vec![7; 3 * PIECE_BYTES + 1]);
        let mut answer = to_be_written(Response::new(bytes.clone()), &share);
        assert_eq!(answer.headers()[CONTENT_LENGTH], "196609");
        let mut written = Vec::new();
        for _ in 0..2 {
            assert_eq!(budget.used(), bytes.len());
            written.extend(answer.body_mut().data().await.unwrap().unwrap());
        }
        while let Some(piece) = answer.body_mut().data().await {
            written.extend(piece.unwrap());
        }
        assert_eq!((written, budget.used()), (bytes.to_vec(), 0));
    }

    #[tokio::test]
    async fn a_large_body_in_pieces_is_whole_and_nobody_has_all_of_it() {
        let bytes: Bytes = (0..3 * PIECE_BYTES + 1).map(|place| place as u8).collect::<Vec<_>>().into();
        for length in [0, PIECE_BYTES, PIECE_BYTES + 1, bytes.len()] {
            let (mut body, mut whole) = (in_pieces(bytes.slice(..length)), Vec::new());
            while let Some(piece) = body.data().await {
                let piece = piece.unwrap();
                assert!(piece.len() <= PIECE_BYTES);
                whole.extend(piece);
            }
            assert!(whole == bytes[..length], "{length}");
        }
    }

    #[tokio::test]
    async fn an_answer_that_nobody_reads_counts_no_more() {
        let budget = Budget::of(usize::MAX, 0);
        let share = Arc::new(budget.share());
        drop(to_be_written(Response::new(vec![7; 2 * PIECE_BYTES].into()), &share));
        drop(share);
        while budget.used() > 0 {
            tokio::task::yield_now().await;
        }
    }

    #[tokio::test]
    async fn a_small_answer_counts_nothing() {
        let budget = Budget::of(usize::MAX, 0);
        let share = Arc::new(budget.share());
        share.set(9);
        let answer = to_be_written(Response::new(vec![7; PIECE_BYTES].into()), &share);
        assert_eq!((budget.used(), answer.body().size_hint().exact()), (0, Some(PIECE_BYTES as u64)));
    }
}
