use std::sync::atomic::{AtomicUsize, Ordering};
use std::sync::Arc;

use hobbychair_cluster::acting::Acting;
use hobbychair_tables::budget::Budget;
use hyper::header::HeaderValue;
use tokio::io::{AsyncReadExt, AsyncWriteExt};
use tokio::net::{TcpListener, TcpStream};
use tokio::sync::mpsc::{unbounded_channel, UnboundedReceiver};

use super::super::headers::Came;
use super::*;

fn share() -> Share {
    Budget::new(1 << 20).share()
}

/// What a gateway of a test does with a request other than one of the time.
#[derive(Clone, Copy)]
enum Does {
    Answers,
    /// Its store is gone.
    Ends,
    Breaks,
    Nothing,
    /// It wants a front to have room for so many bytes first.
    Wants(usize),
    /// Its answer has so many.
    Tells(usize),
}

/// A gateway whose time is 1,000,000, and the heads of the requests that come to it, in small letters.
async fn gateway(server: u32, does: &'static [Does]) -> (Acting, UnboundedReceiver<String>) {
    let listener = TcpListener::bind("127.0.0.1:0").await.unwrap();
    let address = listener.local_addr().unwrap();
    let (tell, heads) = unbounded_channel();
    let count = Arc::new(AtomicUsize::new(0));
    tokio::spawn(async move {
        while let Ok((stream, _)) = listener.accept().await {
            let (tell, count) = (tell.clone(), count.clone());
            tokio::spawn(async move {
                let next = || does.get(count.fetch_add(1, Ordering::Relaxed)).copied().unwrap_or(Does::Answers);
                let say = |head: &str| drop(tell.send(head.to_string()));
                converse(stream, next, say).await
            });
        }
    });
    (Acting { server, address, certificate: None }, heads)
}

async fn converse(mut stream: TcpStream, next: impl Fn() -> Does, say: impl Fn(&str)) -> Option<()> {
    let mut read = Vec::new();
    loop {
        while !read.windows(4).any(|bytes| bytes == b"\r\n\r\n") {
            stream.read_buf(&mut read).await.ok().filter(|count| *count > 0)?;
        }
        let head = String::from_utf8(std::mem::take(&mut read)).unwrap().to_ascii_lowercase();
        let (status, does) = if head.starts_with("get / ") { ("400 Bad", Does::Answers) } else { ("200 OK", next()) };
        if status.starts_with("200") {
            say(&head);
        }
        match does {
            Does::Answers => {
                let answer = format!("HTTP/1.1 {status}\r\nx-hobbychair-time: 1000000\r\ncontent-length: 2\r\n\r\nok");
                stream.write_all(answer.as_bytes()).await.ok()?;
            }
            Does::Ends => {
                let answer = "HTTP/1.1 503 Service Unavailable\r\ncontent-length: 2\r\n\r\nno";
                stream.write_all(answer.as_bytes()).await.ok()?;
            }
            Does::Wants(bytes) => {
                let head = format!(
                    "HTTP/1.1 503 Service Unavailable\r\nx-hobbychair-time: 1000000\r\nx-hobbychair-room: {bytes}\r\n"
                );
                stream.write_all(format!("{head}content-length: 2\r\n\r\nno").as_bytes()).await.ok()?;
            }
            Does::Tells(bytes) => {
                let head = format!("HTTP/1.1 200 OK\r\nx-hobbychair-time: 1000000\r\ncontent-length: {bytes}\r\n\r\n");
                stream.write_all(&[head.as_bytes(), &vec![b'a'; bytes]].concat()).await.ok()?;
            }
            Does::Breaks => return None,
            Does::Nothing => std::future::pending().await,
        }
    }
}

fn passing_by(follower: Follower) -> Passing {
    Passing::new(follower, None, Arc::new(Figures::new().unwrap()), Arc::default())
}

fn asked() -> Arc<Asked> {
    let request = Request::get("/1/q").header("host", "queues").body(()).unwrap();
    Arc::new(Asked::of(request.into_parts().0, Bytes::new(), Came { is_near: true, by_tls: false }).unwrap())
}

fn said<'h>(head: &'h str, name: &str) -> &'h str {
    let line = head.lines().find_map(|line| line.strip_prefix(name)?.strip_prefix(": "));
    line.unwrap_or_else(|| panic!("there is no {name} in {head}"))
}

#[tokio::test]
async fn a_request_is_asked_again_as_the_same_call_with_the_same_end() {
    let (acting, mut heads) = gateway(1, &[Does::Breaks, Does::Ends]).await;
    let (tell, follower) = Follower::for_tests();
    tell.send_replace(Some(acting));
    let passing = passing_by(follower);
    let answer = passing.pass(&asked(), false, Instant::now(), &share()).await.unwrap();
    assert_eq!((answer.status().as_u16(), &answer.body()[..], answer.headers().len()), (200, &b"ok"[..], 0));
    let tries = [heads.recv().await.unwrap(), heads.recv().await.unwrap(), heads.recv().await.unwrap()];
    let again: Vec<bool> = tries.iter().map(|head| head.contains("x-hobbychair-again")).collect();
    assert_eq!(again, [false, true, true]);
    for head in &tries {
        assert_eq!(said(head, "amz-sdk-invocation-id"), said(&tries[0], "amz-sdk-invocation-id"));
        assert_eq!(said(head, "host"), "queues");
        let until: u64 = said(head, "x-hobbychair-until").parse().unwrap();
        assert!((1_040_000..=1_045_000).contains(&until), "{until}");
    }
}

#[tokio::test]
async fn where_another_gateway_acts_it_is_asked_at_once() {
    let (first, mut heads) = gateway(1, &[Does::Nothing]).await;
    let (second, mut others) = gateway(2, &[]).await;
    let (tell, follower) = Follower::for_tests();
    let passing = Arc::new(passing_by(follower));
    let passed = {
        let passing = passing.clone();
        tokio::spawn(async move { passing.pass(&asked(), false, Instant::now(), &share()).await })
    };
    tell.send_replace(Some(first));
    let head = heads.recv().await.unwrap();
    tell.send_replace(Some(second));
    let answer = passed.await.unwrap().unwrap();
    assert_eq!((answer.status().as_u16(), answer.headers().get("x-hobbychair-time")), (200, None::<&HeaderValue>));
    let name = "amz-sdk-invocation-id";
    assert_eq!(said(&head, name), said(&others.recv().await.unwrap(), name));
}

#[tokio::test(start_paused = true)]
async fn where_nobody_acts_there_is_an_error_after_a_while() {
    let (_tell, follower) = Follower::for_tests();
    let passing = passing_by(follower);
    let arrived = Instant::now();
    let refused = passing.pass(&asked(), false, arrived, &share()).await.unwrap_err();
    assert!(matches!(refused, SqsError::ServiceUnavailable(_)));
    assert_eq!(arrived.elapsed().as_secs(), ASKING.as_secs());
}

#[tokio::test]
async fn an_answer_that_there_is_no_room_for_is_refused() {
    let (acting, _heads) = gateway(1, &[]).await;
    let (tell, follower) = Follower::for_tests();
    tell.send_replace(Some(acting));
    let passing = passing_by(follower);
    let (asked, full) = (asked(), Budget::of(0, 0).share());
    let refused = passing.pass(&asked, false, Instant::now(), &full).await.unwrap_err();
    assert!(matches!(&refused, SqsError::ServiceUnavailable(why) if why.contains("Too many")), "{refused:?}");
    assert!(passing.pass(&asked, false, Instant::now(), &share()).await.is_ok());
}

/// What a receive came to that a front with this room passed on to a gateway, for how many bytes it said each time that it has
/// room, and how many count behind it.
async fn receive(does: &'static [Does], budget: usize) -> (Result<Response<Bytes>, SqsError>, Vec<usize>, usize) {
    let (acting, mut heads) = gateway(1, does).await;
    let (tell, follower) = Follower::for_tests();
    tell.send_replace(Some(acting));
    let budget = Budget::of(budget, 0);
    let share = budget.share();
    let answer = passing_by(follower).pass(&asked(), true, Instant::now(), &share).await;
    let rooms = std::iter::from_fn(|| heads.try_recv().ok());
    (answer, rooms.map(|head| said(&head, "x-hobbychair-room").parse().unwrap()).collect(), budget.used())
}

#[tokio::test]
async fn a_receive_is_passed_on_with_room_for_its_answer_and_refused_before_it_is_handed_anything() {
    let (answer, rooms, used) = receive(&[Does::Wants(50_000), Does::Wants(60_000), Does::Tells(40_000)], 60_000).await;
    assert_eq!((answer.unwrap().body().len(), rooms, used), (40_000, vec![FIRST_ROOM_BYTES, 50_000, 60_000], 40_000));
    let refusal = |answer: Result<Response<Bytes>, SqsError>| match answer {
        Err(SqsError::ServiceUnavailable(why)) => why,
        other => panic!("{other:?}"),
    };
    let (answer, rooms, used) = receive(&[Does::Wants(60_001)], 60_000).await;
    assert_eq!(
        (refusal(answer).as_str(), rooms, used),
        ("Too many requests are being served.", vec![FIRST_ROOM_BYTES], FIRST_ROOM_BYTES)
    );
    let (answer, rooms, _) = receive(&[], FIRST_ROOM_BYTES - 1).await;
    assert_eq!((refusal(answer).as_str(), rooms), ("Too many requests are being served.", vec![]));
    // Escapes have made the answer longer than was reckoned with. It is told all the same, and counts.
    let (answer, rooms, used) = receive(&[Does::Wants(50_000), Does::Tells(70_000)], 60_000).await;
    assert_eq!((answer.unwrap().body().len(), rooms, used), (70_000, vec![FIRST_ROOM_BYTES, 50_000], 70_000));
    // A gateway that wants what it was told is there goes on without end for nobody.
    let (answer, rooms, _) = receive(&[Does::Wants(50_000), Does::Wants(50_000)], 60_000).await;
    let answer = answer.unwrap();
    assert_eq!((answer.status().as_u16(), answer.headers().get("x-hobbychair-room"), rooms.len()), (503, None, 2));
}
