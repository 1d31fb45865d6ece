//! What of a request and of its answer goes through a front.

use std::net::SocketAddr;

use bytes::Bytes;
use hyper::header::{HeaderMap, HeaderName, HeaderValue, CONNECTION, CONTENT_LENGTH, HOST};
use hyper::http::request::Parts;
use hyper::http::uri::PathAndQuery;
use hyper::{Body, Method, Request, Response, Uri, Version};
use uuid::Uuid;

use crate::calls::PassedOn;
use crate::http::in_pieces;

/// The name of a call, as SDKs give it: what has the same one is one call.
static INVOCATION: HeaderName = HeaderName::from_static("amz-sdk-invocation-id");

/// Until when a front wants the answer, in milliseconds of the cluster's time.
static UNTIL: HeaderName = HeaderName::from_static("x-hobbychair-until");

/// That a front has asked before.
static AGAIN: HeaderName = HeaderName::from_static("x-hobbychair-again");

/// For how many bytes of an answer a front has room; in an answer, how many it needs room for, where nothing was received for
/// want of that.
static ROOM: HeaderName = HeaderName::from_static("x-hobbychair-room");

/// The cluster's time at the gateway that acts, in milliseconds, in each of its answers to fronts.
static TIME: HeaderName = HeaderName::from_static("x-hobbychair-time");

/// By which scheme a client came.
static FORWARDED_PROTO: HeaderName = HeaderName::from_static("x-forwarded-proto");

/// How a client came to a front.
#[derive(Clone, Copy, Debug)]
pub struct Came {
    /// From this machine, where it may be a proxy of others: what it says of the scheme is believed.
    pub is_near: bool,
    pub by_tls: bool,
}

/// Headers that are about one connection (RFC 9110, 7.6.1), beside those that `Connection` names.
const OF_CONNECTION: [&str; 9] = [
    "connection",
    "keep-alive",
    "proxy-authenticate",
    "proxy-authorization",
    "proxy-connection",
    "te",
    "trailer",
    "transfer-encoding",
    "upgrade",
];

/// What a front says of one try.
#[derive(Clone, Copy, Debug)]
pub struct Try {
    /// Until when the answer is wanted, in milliseconds of the cluster's time.
    pub until: u64,
    /// There was a try before.
    pub is_again: bool,
    /// For how many bytes of an answer there is room, where it is a receive's.
    pub room: Option<usize>,
}

/// What a gateway is told of a try.
pub type Said = Vec<(&'static HeaderName, HeaderValue)>;

impl Try {
    /// What a gateway is told of it.
    pub fn said(self) -> Said {
        let mut said = vec![(&UNTIL, HeaderValue::from(self.until))];
        if self.is_again {
            said.push((&AGAIN, HeaderValue::from_static("true")));
        }
        said.extend(self.room.map(|room| (&ROOM, HeaderValue::from(room))));
        said
    }
}

/// A request that can be asked again and again.
pub struct Asked {
    method: Method,
    target: PathAndQuery,
    headers: HeaderMap,
    body: Bytes,
}

impl Asked {
    /// Nothing where the request isn't one of a resource here.
    pub fn of(head: Parts, body: Bytes, came: Came) -> Option<Asked> {
        let Parts { method, uri, mut headers, .. } = head;
        if method == Method::CONNECT {
            return None;
        }
        take_those_of_connection(&mut headers);
        // These are the front's own to say.
        [&UNTIL, &AGAIN, &ROOM].into_iter().for_each(|own| drop(headers.remove(own)));
        // The body has one length, however it came.
        if headers.remove(CONTENT_LENGTH).is_some() || !body.is_empty() {
            headers.insert(CONTENT_LENGTH, body.len().into());
        }
        if !came.is_near || !headers.contains_key(&FORWARDED_PROTO) {
            let scheme = if came.by_tls { "https" } else { "http" };
            headers.insert(&FORWARDED_PROTO, HeaderValue::from_static(scheme));
        }
        // A target with a host counts for more than the header.
        if let Some(authority) = uri.authority() {
            headers.insert(HOST, HeaderValue::try_from(authority.as_str()).ok()?);
        }
        if headers.get(&INVOCATION).map_or(true, |name| name.to_str().is_err()) {
            headers.insert(&INVOCATION, HeaderValue::try_from(Uuid::new_v4().to_string()).ok()?);
        }
        let target = uri.path_and_query().filter(|target| target.as_str().starts_with('/'))?.clone();
        Some(Asked { method, target, headers, body })
    }

    /// What asks a gateway whatever has an answer, and changes nothing.
    pub fn of_time() -> Asked {
        let target = PathAndQuery::from_static("/");
        Asked { method: Method::GET, target, headers: HeaderMap::new(), body: Bytes::new() }
    }

    /// A POST without headers.
    #[cfg(test)]
    pub fn plain(target: &'static str, body: Bytes) -> Asked {
        Asked { method: Method::POST, target: PathAndQuery::from_static(target), headers: HeaderMap::new(), body }
    }

    /// As it is asked at an address.
    pub fn at(&self, address: SocketAddr, tried: Option<Try>) -> Option<Request<Body>> {
        let authority = address.to_string();
        let uri = Uri::builder().scheme("http").authority(authority.as_str()).path_and_query(self.target.clone());
        let mut request = Request::new(in_pieces(self.body.clone()));
        *request.method_mut() = self.method.clone();
        *request.uri_mut() = uri.build().ok()?;
        *request.version_mut() = Version::HTTP_11;
        *request.headers_mut() = self.headers.clone();
        for (name, value) in tried.into_iter().flat_map(Try::said) {
            request.headers_mut().insert(name, value);
        }
        Some(request)
    }

    /// As it is passed on over a connection of calls.
    pub fn passed_on<'a>(&'a self, added: &'a [(&'static HeaderName, HeaderValue)]) -> PassedOn<'a> {
        PassedOn { method: &self.method, target: &self.target, headers: &self.headers, added, body: &self.body }
    }

    /// How many bytes its body has.
    pub fn bytes(&self) -> usize {
        self.body.len()
    }

    /// About how many bytes it has as it is passed on.
    pub fn bytes_passed_on(&self) -> usize {
        let of_header = |(name, value): (&HeaderName, &HeaderValue)| name.as_str().len() + value.len();
        self.headers.iter().map(of_header).sum::<usize>() + self.target.as_str().len() + self.body.len()
    }

    pub fn is_head(&self) -> bool {
        self.method == Method::HEAD
    }
}

/// The time that an answer tells.
pub fn time_of<B>(response: &Response<B>) -> Option<u64> {
    response.headers().get(&TIME)?.to_str().ok()?.parse().ok()
}

/// How many bytes there has to be room for before the gateway receives anything, if it says so.
pub fn room_needed<B>(response: &Response<B>) -> Option<usize> {
    response.headers().get(&ROOM)?.to_str().ok()?.parse().ok()
}

/// An answer as the client gets it.
pub fn as_answered(mut response: Response<Bytes>, was_head: bool) -> Response<Bytes> {
    let headers = response.headers_mut();
    take_those_of_connection(headers);
    headers.remove(&TIME);
    headers.remove(&ROOM);
    if !was_head {
        headers.remove(CONTENT_LENGTH);
    }
    *response.version_mut() = Version::HTTP_11;
    response
}

/// Headers that go to the gateway whatever `Connection` names: by them it knows who asks, and for what.
const OF_CLIENT: [&str; 6] = ["authorization", "content-type", "host", "origin", "referer", "user-agent"];

fn is_of_client(name: &str) -> bool {
    OF_CLIENT.contains(&name) || ["amz-", "sec-fetch-", "x-amz-"].iter().any(|front| name.starts_with(front))
}

fn take_those_of_connection(headers: &mut HeaderMap) {
    let named = headers.get_all(CONNECTION).iter().filter_map(|value| value.to_str().ok());
    let named = named.flat_map(|value| value.split(',')).map(|name| name.trim().to_ascii_lowercase());
    let named: Vec<String> = named.filter(|name| !is_of_client(name)).collect();
    let is_taken =
        |name: &&HeaderName| OF_CONNECTION.contains(&name.as_str()) || named.iter().any(|one| one == name.as_str());
    let taken: Vec<HeaderName> = headers.keys().filter(is_taken).cloned().collect();
    taken.iter().for_each(|name| drop(headers.remove(name)));
}

#[cfg(test)]
mod tests {
    use super::*;

    const ADDRESS: ([u8; 4], u16) = ([127, 0, 0, 1], 9);

    fn asked(request: hyper::http::request::Builder, body: &'static str) -> Option<Asked> {
        let (head, ()) = request.body(()).unwrap().into_parts();
        Asked::of(head, Bytes::from_static(body.as_bytes()), Came { is_near: false, by_tls: false })
    }

    #[test]
    fn who_is_a_proxy_here_says_by_which_scheme_its_clients_came_and_nobody_else() {
        let scheme = |said: Option<&str>, is_near, by_tls| {
            let request =
                said.into_iter().fold(Request::get("/"), |request, said| request.header("x-forwarded-proto", said));
            let asked =
                Asked::of(request.body(()).unwrap().into_parts().0, Bytes::new(), Came { is_near, by_tls }).unwrap();
            asked.headers[&FORWARDED_PROTO].to_str().unwrap().to_string()
        };
        assert_eq!([false, true].map(|by_tls| scheme(None, true, by_tls)), ["http", "https"]);
        assert_eq!([false, true].map(|by_tls| scheme(Some("https"), false, by_tls)), ["http", "https"]);
        assert_eq!([false, true].map(|by_tls| scheme(Some("https"), true, by_tls)), ["https", "https"]);
    }

    #[test]
    fn no_client_has_a_front_take_out_who_asks_and_for_what() {
        let named = "Host, authorization, X-Amz-Date, x-amz-target, sec-fetch-site, origin, amz-sdk-request, x-own";
        let mut request = Request::post("/").header("connection", named);
        for name in named.split(", ") {
            request = request.header(name, "v");
        }
        let asked = asked(request, "").unwrap().at(ADDRESS.into(), None).unwrap();
        let left = |name: &&str| asked.headers().contains_key(*name);
        let lost: Vec<&str> = named.split(", ").filter(|name| !left(name)).collect();
        assert_eq!(lost, ["x-own"]);
    }

    #[test]
    fn what_is_of_one_connection_stays_there_and_all_else_goes_on() {
        let request = Request::post("/1/q.fifo?A=b%2f")
            .header("host", "queues:80")
            .header("x-amz-date", "d")
            .header("x-amz-date", "e")
            .header("connection", "close, X-Private")
            .header("x-private", "p")
            .header("transfer-encoding", "chunked")
            .header("x-hobbychair-until", "9")
            .header("x-hobbychair-again", "true")
            .header("x-hobbychair-room", "9")
            .header("amz-sdk-invocation-id", "call");
        let asked = asked(request, "body").unwrap();
        let tries =
            [None, Some(false), Some(true)].map(|is_again| Some(Try { until: 7, is_again: is_again?, room: None }));
        for tried in tries {
            let passed = asked.at(ADDRESS.into(), tried).unwrap();
            assert_eq!(
                (passed.method(), passed.uri().to_string().as_str()),
                (&Method::POST, "http://127.0.0.1:9/1/q.fifo?A=b%2f")
            );
            let mut said: Vec<_> =
                passed.headers().iter().map(|(name, value)| (name.as_str(), value.to_str().unwrap())).collect();
            said.sort_unstable();
            let mut wanted = vec![
                ("amz-sdk-invocation-id", "call"),
                ("content-length", "4"),
                ("host", "queues:80"),
                ("x-amz-date", "d"),
                ("x-amz-date", "e"),
                ("x-forwarded-proto", "http"),
            ];
            wanted.extend(tried.filter(|tried| tried.is_again).map(|_| ("x-hobbychair-again", "true")));
            wanted.extend(tried.map(|_| ("x-hobbychair-until", "7")));
            assert_eq!(said, wanted);
        }
    }

    #[test]
    fn a_call_without_a_name_gets_one_that_each_try_has() {
        let asked_once = asked(Request::get("/"), "").unwrap();
        let name = |asked: &Asked| asked.at(ADDRESS.into(), None).unwrap().headers()[&INVOCATION].clone();
        assert_eq!(name(&asked_once), name(&asked_once));
        assert_ne!(name(&asked_once), name(&asked(Request::get("/"), "").unwrap()));
        let unreadable = HeaderValue::from_bytes(b"\xff").unwrap();
        let named = asked(Request::get("/").header(&INVOCATION, unreadable), "").unwrap();
        assert_eq!(name(&named).len(), 36);
    }

    #[test]
    fn what_is_for_no_resource_here_is_not_passed_on() {
        assert!(asked(Request::builder().method("CONNECT").uri("a:80"), "").is_none());
        assert!(asked(Request::builder().method("OPTIONS").uri("*"), "").is_none());
        let absolute = asked(Request::get("http://other/1/q").header("host", "localhost"), "").unwrap();
        let passed = absolute.at(ADDRESS.into(), None).unwrap();
        assert_eq!((passed.uri().path(), &passed.headers()[HOST]), ("/1/q", &HeaderValue::from_static("other")));
    }

    #[test]
    fn an_answer_goes_back_without_what_is_for_the_front() {
        let response = Response::builder()
            .status(403)
            .header("x-hobbychair-time", "17")
            .header("connection", "close")
            .header("content-length", "4")
            .header("x-amzn-requestid", "r")
            .body(Bytes::from_static(b"body"))
            .unwrap();
        assert_eq!(time_of(&response), Some(17));
        let answered = as_answered(response, false);
        assert_eq!((answered.status().as_u16(), answered.headers().len()), (403, 1));
        assert_eq!(
            (&answered.headers()["x-amzn-requestid"], &answered.body()[..]),
            (&HeaderValue::from_static("r"), &b"body"[..])
        );
    }
}
