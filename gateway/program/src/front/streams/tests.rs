use hobbychair_cluster::identity::Role;
use hyper::header::HeaderMap;
use hyper::http::uri::PathAndQuery;
use hyper::Method;
use tokio::io::{AsyncReadExt, AsyncWriteExt};
use tokio::net::{TcpListener, TcpStream};
use tokio::time::sleep;

use super::*;
use crate::calls::{Call, FromFront};

/// The gateway's end of a connection of calls.
struct Gateway {
    frames: Frames<tokio::net::tcp::OwnedReadHalf>,
    writing: tokio::net::tcp::OwnedWriteHalf,
}

impl Gateway {
    /// The next thing that the front tells, other than that it is there.
    async fn hear(&mut self) -> Option<FromFront> {
        loop {
            match FromFront::read(self.frames.next().await.ok()?).unwrap() {
                FromFront::Alive => {}
                told => return Some(told),
            }
        }
    }

    async fn hear_call(&mut self) -> (u64, Call) {
        match self.hear().await {
            Some(FromFront::Call { number, call }) => (number, call),
            told => panic!("{told:?}"),
        }
    }

    async fn tell(&mut self, write: impl FnOnce(&mut Vec<u8>)) {
        let mut out = Vec::new();
        write(&mut out);
        self.writing.write_all(&out).await.unwrap();
    }

    async fn answer(&mut self, number: u64, body: &'static str, is_whole: bool) {
        self.tell(|out| {
            calls::append_answer(out, number, (StatusCode::OK, &HeaderMap::new()), body.as_bytes(), is_whole)
        })
        .await;
    }
}

fn streams() -> Streams {
    Streams::new(Connector::new(None, Role::Node, Duration::from_secs(1)), Arc::default())
}

async fn listen() -> (TcpListener, Acting) {
    let listener = TcpListener::bind("127.0.0.1:0").await.unwrap();
    let acting = Acting { server: 3, address: listener.local_addr().unwrap(), certificate: None };
    (listener, acting)
}

async fn read_head(stream: &mut TcpStream) -> String {
    let mut head = Vec::new();
    while !head.ends_with(b"\r\n\r\n") {
        head.push(stream.read_u8().await.unwrap());
    }
    String::from_utf8(head).unwrap().to_ascii_lowercase()
}

/// Takes in a front, which asks for calls.
async fn accept(listener: &TcpListener) -> Gateway {
    let (mut stream, _) = listener.accept().await.unwrap();
    let head = read_head(&mut stream).await;
    assert!(head.starts_with("get / http/1.1\r\n") && head.contains("\r\nupgrade: hobbychair-calls-1\r\n"), "{head}");
    let answer = "HTTP/1.1 101 Switching Protocols\r\nconnection: upgrade\r\nupgrade: hobbychair-calls-1\r\n\
                  x-hobbychair-time: 1000\r\n\r\n";
    stream.write_all(answer.as_bytes()).await.unwrap();
    let (reading, writing) = stream.into_split();
    Gateway { frames: Frames::new(reading, FRAME_LIMIT_BYTES), writing }
}

async fn open(streams: &Streams) -> (Arc<Stream>, Gateway, Acting) {
    let (listener, acting) = listen().await;
    let (stream, gateway) = tokio::join!(streams.to(acting), accept(&listener));
    (stream.unwrap().unwrap(), gateway, acting)
}

fn call(body: &'static str) -> Call {
    let target = PathAndQuery::from_static("/1/q");
    Call { method: Method::POST, target, headers: HeaderMap::new(), body: Bytes::from_static(body.as_bytes()) }
}

/// The request that is passed on as that call.
fn request(body: &'static str) -> Arc<Asked> {
    Arc::new(Asked::plain("/1/q", Bytes::from_static(body.as_bytes())))
}

async fn asked(stream: &Stream, body: &'static str) -> Result<String, Failed> {
    let answer = stream.ask(&request(body), Vec::new(), |_| true).await?;
    Ok(String::from_utf8(answer.into_body().to_vec()).unwrap())
}

#[tokio::test]
async fn calls_are_answered_in_any_order_and_the_time_is_known() {
    let streams = streams();
    let (stream, mut gateway, acting) = open(&streams).await;
    assert!(streams.times.of(3, Instant::now()).is_some_and(|time| (1000..2000).contains(&time)));
    let answering = async {
        let (first, second) = (gateway.hear_call().await, gateway.hear_call().await);
        assert_eq!((first.1, second.1), (call("a"), call("b")));
        gateway.answer(second.0, "to b", true).await;
        gateway.answer(first.0, "to a", true).await;
        gateway.tell(|out| calls::append_time(out, Some(5000))).await;
        gateway
    };
    let (first, second, mut gateway) = tokio::join!(asked(&stream, "a"), asked(&stream, "b"), answering);
    assert_eq!((first.unwrap(), second.unwrap()), ("to a".into(), "to b".into()));
    // The same connection has what is asked next.
    let same = streams.to(acting).await.unwrap().unwrap();
    let answering = async {
        let (number, _) = gateway.hear_call().await;
        gateway.answer(number, "to c", true).await;
    };
    assert_eq!(tokio::join!(asked(&same, "c"), answering).0.unwrap(), "to c");
    assert!(Arc::ptr_eq(&same, &stream) && streams.times.of(3, Instant::now()) >= Some(5000));
}

#[tokio::test]
async fn an_answer_in_pieces_is_whole_with_its_last_one_and_others_come_between() {
    let streams = streams();
    let (stream, mut gateway, _) = open(&streams).await;
    let answering = async {
        let (first, second) = (gateway.hear_call().await.0, gateway.hear_call().await.0);
        gateway.answer(first, "one ", false).await;
        gateway.tell(|out| calls::append_piece(out, first, b"two ", false)).await;
        gateway.answer(second, "other", true).await;
        gateway.tell(|out| calls::append_piece(out, first, b"three", true)).await;
        // Half an answer is none.
        let (third, _) = gateway.hear_call().await;
        gateway.answer(third, "half", false).await;
        drop(gateway);
    };
    let asking = async {
        let both = tokio::join!(asked(&stream, "a"), asked(&stream, "b"));
        (both, asked(&stream, "c").await)
    };
    let (((first, second), third), ()) = tokio::join!(asking, answering);
    assert_eq!((first.unwrap(), second.unwrap()), ("one two three".into(), "other".into()));
    assert!(matches!(third, Err(Failed::Ended)), "{third:?}");
}

#[tokio::test]
async fn who_does_not_wait_any_more_is_told_of_and_who_has_no_room_neither_waits() {
    let streams = streams();
    let (stream, mut gateway, _) = open(&streams).await;
    let gone = timeout(Duration::from_millis(50), asked(&stream, "a"));
    assert!(gone.await.is_err());
    let (number, _) = gateway.hear_call().await;
    assert_eq!(gateway.hear().await, Some(FromFront::Gone { number }));
    // The answer comes all the same, and nobody minds.
    gateway.answer(number, "late", true).await;
    let answering = async {
        let (number, _) = gateway.hear_call().await;
        gateway.answer(number, "four", false).await;
        assert_eq!(gateway.hear().await, Some(FromFront::Gone { number }));
    };
    let (asked, has_room) = (request("b"), |bytes| bytes < 4);
    let (refused, ()) = tokio::join!(stream.ask(&asked, Vec::new(), has_room), answering);
    assert!(matches!(refused, Err(Failed::NoRoom)));
}

#[tokio::test]
async fn bodies_that_wait_for_a_gateway_that_reads_nothing_are_copied_only_as_they_are_written() {
    let streams = streams();
    let (stream, mut gateway, _) = open(&streams).await;
    let body = Bytes::from(vec![7; calls::LONGEST_BODY_BYTES]);
    let all: Vec<_> = (0..200).map(|_| Arc::new(Asked::plain("/1/q", body.clone()))).collect();
    let ask = |asked: &Arc<Asked>| {
        let (stream, asked) = (stream.clone(), asked.clone());
        tokio::spawn(async move { stream.ask(&asked, Vec::new(), |_| true).await.map(drop) })
    };
    let asking: Vec<_> = all.iter().map(ask).collect();
    // None is answered, and the sockets between take only some.
    sleep(Duration::from_millis(300)).await;
    let (waiting, written, copied) = {
        let state = lock(&stream.state);
        (state.calls.len(), 200 - state.calls.len(), state.out.len())
    };
    assert!(waiting > 50 && copied < 1024, "{waiting} wait, {copied} bytes are copied");
    // Who goes before that takes his body along, and the gateway never hears of him.
    for task in asking {
        task.abort();
        assert!(task.await.unwrap_err().is_cancelled());
    }
    assert!(lock(&stream.state).calls.is_empty() && Arc::strong_count(&all[199]) == 1);
    let (mut calls, mut gone) = (0, 0);
    while calls < written || gone < written {
        match gateway.hear().await {
            Some(FromFront::Call { call, .. }) => {
                assert_eq!(call.body, body);
                calls += 1;
            }
            Some(FromFront::Gone { .. }) => gone += 1,
            told => panic!("{told:?}"),
        }
    }
    assert_eq!((calls, gone), (written, written));
    let answering = async {
        let (number, told) = gateway.hear_call().await;
        assert_eq!((number, told), (201, call("next")));
        gateway.answer(number, "yes", true).await;
    };
    assert_eq!(tokio::join!(asked(&stream, "next"), answering).0.unwrap(), "yes");
}

#[tokio::test]
async fn where_the_connection_breaks_nobody_waits_and_the_next_call_has_another_one() {
    let streams = streams();
    let (listener, acting) = listen().await;
    let (stream, mut gateway) = tokio::join!(streams.to(acting), accept(&listener));
    let stream = stream.unwrap().unwrap();
    let breaking = async {
        gateway.hear_call().await;
        drop(gateway);
    };
    let (broken, ()) = tokio::join!(asked(&stream, "a"), breaking);
    assert!(matches!(broken, Err(Failed::Ended)), "{broken:?}");
    assert!(matches!(asked(&stream, "a").await, Err(Failed::Ended)));
    let answering = async {
        let mut gateway = accept(&listener).await;
        let (number, _) = gateway.hear_call().await;
        gateway.answer(number, "yes", true).await;
        gateway
    };
    let asking = async { asked(&streams.to(acting).await.unwrap().unwrap(), "b").await };
    assert_eq!(tokio::join!(asking, answering).0.unwrap(), "yes");
}

#[tokio::test]
async fn a_gateway_that_is_silent_or_without_a_store_is_not_asked_any_more() {
    let streams = streams();
    let (stream, mut gateway, _) = open(&streams).await;
    let begun = Instant::now();
    let (silent, _) = tokio::join!(asked(&stream, "a"), gateway.hear_call());
    assert!(matches!(silent, Err(Failed::Ended)) && begun.elapsed() >= QUIET, "{silent:?}");
    let (stream, mut gateway, _) = open(&streams).await;
    let telling = async {
        gateway.hear_call().await;
        gateway.tell(|out| calls::append_time(out, None)).await;
    };
    let (without, ()) = tokio::join!(asked(&stream, "a"), telling);
    assert!(matches!(without, Err(Failed::Ended)), "{without:?}");
}

#[tokio::test]
async fn an_older_gateway_is_known_to_have_no_calls_and_one_without_a_store_is_asked_again() {
    let streams = streams();
    let (listener, acting) = listen().await;
    let answers = ["503 Service Unavailable\r\n", "400 Bad Request\r\nx-hobbychair-time: 1000\r\n"];
    let answering = async {
        for answer in answers {
            let (mut stream, _) = listener.accept().await.unwrap();
            read_head(&mut stream).await;
            let answer = format!("HTTP/1.1 {answer}content-length: 0\r\n\r\n");
            stream.write_all(answer.as_bytes()).await.unwrap();
        }
    };
    let asking = async {
        assert!(matches!(streams.to(acting).await, Err(Failed::NoTime)));
        assert!(streams.to(acting).await.unwrap().is_none());
        assert!(streams.to(acting).await.unwrap().is_none(), "it isn't asked a third time");
        assert!(streams.times.of(3, Instant::now()).is_some());
    };
    timeout(Duration::from_secs(10), async { tokio::join!(answering, asking) }).await.unwrap();
}

#[tokio::test]
async fn where_another_gateway_acts_the_connection_to_the_one_before_ends() {
    let streams = streams();
    let (stream, mut before, _) = open(&streams).await;
    let (_, _now, _) = open(&streams).await;
    assert!(matches!(asked(&stream, "a").await, Err(Failed::Ended)));
    assert_eq!(before.hear().await, None);
}

#[tokio::test]
async fn of_many_who_wait_for_a_connection_none_waits_for_a_try_of_its_own() {
    let (streams, (_listener, acting)) = (streams(), listen().await);
    let begun = Instant::now();
    // Nobody accepts connections there, and the system takes them in all the same.
    let tries = [(); 8].map(|()| streams.to(acting));
    let [a, b, c, d, e, f, g, h] = tries;
    let failed = tokio::join!(a, b, c, d, e, f, g, h);
    assert!(matches!(failed.0, Err(Failed::Silent)) && matches!(failed.7, Err(Failed::Unopened)));
    assert!(begun.elapsed() < 2 * BEGINNING, "{:?}", begun.elapsed());
    assert!(matches!(streams.to(acting).await, Err(Failed::Silent)), "who comes later tries it again");
}
