//! Requests that are spoilt at random, and parsers that get any text. The seed is always the same.

use std::cell::Cell;
use std::collections::BTreeMap;
use std::time::{Duration, SystemTime};

use hobbychair_bytes::seeded::check;
use hyper::header::{HeaderMap, HeaderName, HeaderValue};
use proptest::collection::vec;
use proptest::prelude::*;
use proptest::sample::{select, Index};

use super::{all_signed, signed, signed_at, SpoilableRequest};
use crate::access::file::parse;
use crate::access::timestamp::Timestamp;

/// A part of a request that is text. Headers count from the first on.
#[derive(Clone, Debug)]
enum Part {
    Method,
    Path,
    Query,
    Body,
    Header(Index),
}

#[derive(Clone, Debug)]
enum Edit {
    Insert(Index, char),
    Remove(Index),
    Replace(Index, char),
    Swap(Index, Index),
    /// A piece again, behind itself.
    Repeat(Index, Index),
}

#[derive(Clone, Debug)]
enum Spoil {
    Edit(Part, Edit),
    AddHeader(&'static str, &'static str),
    RemoveHeader(Index),
    DoubleHeader(Index),
    /// A header of another request.
    TakeHeader(Index, Index),
}

fn character() -> impl Strategy<Value = char> {
    prop_oneof![
        select("%+&=/.;,: ~-_\t?".chars().collect::<Vec<_>>()),
        select("abcfxzABCFXZ0129".chars().collect::<Vec<_>>()),
        any::<char>(),
    ]
}

fn edit() -> impl Strategy<Value = Edit> {
    prop_oneof![
        (any::<Index>(), character()).prop_map(|(place, character)| Edit::Insert(place, character)),
        any::<Index>().prop_map(Edit::Remove),
        (any::<Index>(), character()).prop_map(|(place, character)| Edit::Replace(place, character)),
        (any::<Index>(), any::<Index>()).prop_map(|(one, other)| Edit::Swap(one, other)),
        (any::<Index>(), any::<Index>()).prop_map(|(one, other)| Edit::Repeat(one, other)),
    ]
}

fn spoil() -> impl Strategy<Value = Spoil> {
    let part = prop_oneof![
        1 => Just(Part::Method),
        3 => Just(Part::Path),
        5 => Just(Part::Query),
        3 => Just(Part::Body),
        8 => any::<Index>().prop_map(Part::Header),
    ];
    let added = vec![
        ("x-amz-target", "AmazonSQS.PurgeQueue"),
        ("x-amz-date", "20260228T235958Z"),
        ("x-amz-content-sha256", "UNSIGNED-PAYLOAD"),
        ("x-amz-security-token", "token"),
        ("authorization", "AWS4-HMAC-SHA256 Credential=AKIDEXAMPLE/20260228/a/sqs/aws4_request"),
        ("host", "example.com"),
        ("date", "Sat, 28 Feb 2026 23:59:58 GMT"),
        ("user-agent", "any"),
    ];
    prop_oneof![
        12 => (part, edit()).prop_map(|(part, edit)| Spoil::Edit(part, edit)),
        2 => select(added).prop_map(|(name, value)| Spoil::AddHeader(name, value)),
        1 => any::<Index>().prop_map(Spoil::RemoveHeader),
        1 => any::<Index>().prop_map(Spoil::DoubleHeader),
        1 => (any::<Index>(), any::<Index>()).prop_map(|(from, header)| Spoil::TakeHeader(from, header)),
    ]
}

fn edited(text: &str, edit: &Edit) -> String {
    let mut characters: Vec<char> = text.chars().collect();
    if let Edit::Insert(place, character) = edit {
        characters.insert(place.index(characters.len() + 1), *character);
        return characters.into_iter().collect();
    }
    if characters.is_empty() {
        return String::new();
    }
    let count = characters.len();
    match edit {
        Edit::Insert(..) => {}
        Edit::Remove(place) => drop(characters.remove(place.index(count))),
        Edit::Replace(place, character) => characters[place.index(count)] = *character,
        Edit::Swap(one, other) => characters.swap(one.index(count), other.index(count)),
        Edit::Repeat(one, other) => {
            let (first, last) = (one.index(count).min(other.index(count)), one.index(count).max(other.index(count)));
            let piece = characters[first..=last].to_vec();
            characters.splice(last + 1..last + 1, piece);
        }
    }
    characters.into_iter().collect()
}

fn nth_header(headers: &HeaderMap, place: &Index) -> Option<HeaderName> {
    (!headers.is_empty()).then(|| headers.keys().nth(place.index(headers.keys_len())).unwrap().clone())
}

impl SpoilableRequest {
    /// `others` are the requests that headers are taken from.
    fn spoil(&mut self, spoil: &Spoil, others: &[SpoilableRequest]) {
        match spoil {
            Spoil::Edit(Part::Method, edit) => self.method = edited(&self.method, edit),
            Spoil::Edit(Part::Path, edit) => self.path = edited(&self.path, edit),
            Spoil::Edit(Part::Query, edit) => self.query = edited(&self.query, edit),
            Spoil::Edit(Part::Body, edit) => self.body = edited(&self.body, edit),
            Spoil::Edit(Part::Header(place), edit) => {
                let Some(name) = nth_header(&self.headers, place) else { return };
                let value = edited(self.headers[&name].to_str().unwrap_or_default(), edit);
                // What is no value of a header doesn't come through the server.
                if let Ok(value) = HeaderValue::from_str(&value) {
                    self.headers.insert(name, value);
                }
            }
            Spoil::AddHeader(name, value) => drop(self.headers.append(*name, HeaderValue::from_static(value))),
            Spoil::RemoveHeader(place) => {
                if let Some(name) = nth_header(&self.headers, place) {
                    self.headers.remove(name);
                }
            }
            Spoil::DoubleHeader(place) => {
                if let Some(name) = nth_header(&self.headers, place) {
                    let value = self.headers[&name].clone();
                    self.headers.append(name, value);
                }
            }
            Spoil::TakeHeader(from, place) => {
                let other = &others[from.index(others.len())];
                if let Some(name) = nth_header(&other.headers, place) {
                    let value = other.headers[&name].clone();
                    self.headers.insert(name, value);
                }
            }
        }
    }
}

/// What a request says, in no order and without what doesn't count. It is made by other means than the canonical form.
#[derive(Debug, PartialEq)]
struct Meaning {
    method: String,
    path: Vec<String>,
    query: Vec<(String, String)>,
    body: String,
    headers: BTreeMap<String, String>,
    authorization: Vec<String>,
}

/// `signed` are the names of the headers that were signed, with semicolons around them.
fn meaning(request: &SpoilableRequest, signed: &str) -> Meaning {
    let mut path = Vec::new();
    for segment in request.path.split('/').filter(|segment| !matches!(*segment, "" | ".")) {
        if segment != ".." {
            path.push(segment.to_string());
        } else {
            path.pop();
        }
    }
    if request.path.ends_with('/') {
        path.push(String::new());
    }
    let mut query: Vec<(String, String)> = form_urlencoded::parse(request.query.as_bytes()).into_owned().collect();
    query.sort();
    let counts = |name: &str| name.starts_with("x-amz-") || signed.contains(&format!(";{name};"));
    let value = |name: &HeaderName| {
        let values = request.headers.get_all(name).iter();
        let values = values.map(|value| String::from_utf8_lossy(value.as_bytes()).into_owned());
        let values = values.map(|value| value.split_ascii_whitespace().collect::<Vec<_>>().join(" "));
        values.collect::<Vec<_>>().join(",")
    };
    let counting = request.headers.keys().filter(|name| counts(name.as_str()));
    let authorization = request.headers.get("authorization").map_or("", |value| value.to_str().unwrap_or_default());
    let authorization = authorization.trim().trim_start_matches("AWS4-HMAC-SHA256 ");
    let mut authorization: Vec<String> = authorization.split(',').map(|part| part.trim().to_string()).collect();
    authorization.sort();
    let is_signed_without_body =
        request.headers.get("x-amz-content-sha256").is_some_and(|value| value == "UNSIGNED-PAYLOAD");
    Meaning {
        method: request.method.clone(),
        path: if path == [""] { Vec::new() } else { path },
        query,
        body: if is_signed_without_body { String::new() } else { request.body.clone() },
        headers: counting.map(|name| (name.to_string(), value(name))).collect(),
        authorization,
    }
}

fn signed_names(request: &SpoilableRequest) -> String {
    let text = request.headers.get("authorization").map_or("", |value| value.to_str().unwrap());
    match text.split_once("SignedHeaders=") {
        Some((_, rest)) => format!(";{};", rest.split(',').next().unwrap()),
        None => {
            let mut members = form_urlencoded::parse(request.query.as_bytes());
            format!(";{};", members.find(|(name, _)| name == "X-Amz-SignedHeaders").unwrap().1)
        }
    }
}

#[test]
fn a_request_that_was_spoilt_is_let_in_only_if_it_says_the_same() {
    let requests = all_signed();
    let let_in = Cell::new(0);
    check(20_000, (any::<Index>(), vec(spoil(), 1..4)), |(place, spoils)| {
        let good = &requests[place.index(requests.len())];
        let mut request = good.clone();
        spoils.iter().for_each(|spoil| request.spoil(spoil, &requests));
        if request.verify().is_ok() {
            let_in.set(let_in.get() + 1);
            let signed = signed_names(good);
            prop_assert_eq!(meaning(&request, &signed), meaning(good, &signed));
        }
        Ok(())
    });
    // Some were spoilt where it doesn't count, so not just everything is refused.
    assert!(let_in.get() > 100, "{}", let_in.get());
}

#[test]
fn any_text_in_the_place_of_a_signature_is_refused() {
    let authorizations = prop_oneof![
        "[ -~]{0,100}",
        "AWS4-HMAC-SHA256 [ -~]{0,100}",
        "AWS4-HMAC-SHA256 Credential=[ -+.-~]{0,40}, SignedHeaders=[ -+.-~]{0,40}, Signature=[ -~]{0,70}",
        "AWS4-HMAC-SHA256 Credential=AKIDEXAMPLE/[0-9]{8}/[a-z]{0,5}/sqs/aws4_request, \
            SignedHeaders=host;x-amz-date, Signature=[0-9a-f]{64}",
    ];
    let good = signed("POST of JSON");
    check(5_000, authorizations, |text| {
        let mut request = good.clone();
        request.headers.insert("authorization", HeaderValue::from_str(&text).unwrap());
        prop_assert!(request.verify().is_err());
        Ok(())
    });
}

#[test]
fn any_query_string_and_path_are_refused() {
    let queries = prop_oneof![
        ".{0,100}",
        "X-Amz-Algorithm=AWS4-HMAC-SHA256&X-Amz-Credential=AKIDEXAMPLE/20260228/a/sqs/aws4_request\
            &X-Amz-Date=20260228T[0-9]{6}Z&X-Amz-Expires=[0-9]{1,7}&X-Amz-SignedHeaders=[%;a-z]{1,9}\
            &X-Amz-Signature=[0-9a-f%]{60,70}",
    ];
    let good = signed("presigned GET");
    check(5_000, (queries, ".{0,40}"), |(query, path)| {
        let request = SpoilableRequest { query, path, ..good.clone() };
        prop_assert!(request.verify().is_err());
        Ok(())
    });
}

#[test]
fn moments_are_those_that_another_calendar_has() {
    check(5_000, 0u64..253_402_300_800, |seconds| {
        let moment = SystemTime::UNIX_EPOCH + Duration::from_secs(seconds);
        let timestamp = Timestamp::of_system_time(moment).unwrap();
        prop_assert_eq!(Timestamp::parse(&timestamp.to_string()), Some(timestamp));
        let text = httpdate::fmt_http_date(moment);
        prop_assert_eq!(Timestamp::of_http_date(&text), Some(timestamp));
        // "Sun, 06 Nov 1994 08:49:37 GMT": day, year and time stand at the same places.
        let basic = timestamp.to_string();
        prop_assert_eq!(&basic[..4], &text[12..16]);
        prop_assert_eq!(&basic[6..8], &text[5..7]);
        prop_assert_eq!(&basic[9..15], text[17..25].replace(':', ""));
        Ok(())
    });
}

#[test]
fn any_text_is_a_moment_or_none() {
    let texts = prop_oneof![
        ".{0,40}",
        "[0-9]{8}T[0-9]{6}Z",
        "(Mon|Sun|Xxx), [0-9]{2} (Jan|Feb|Dec) [0-9]{4} [0-9]{2}:[0-9]{2}:[0-9]{2} (GMT|-0000|\\+0000)",
    ];
    check(20_000, texts, |text| {
        if let Some(moment) = Timestamp::parse(&text) {
            prop_assert_eq!(moment.to_string(), text.clone());
            prop_assert_eq!(moment.day(), &text[..8]);
        }
        if let Some(moment) = Timestamp::of_http_date(&text) {
            prop_assert_eq!(Timestamp::parse(&moment.to_string()), Some(moment));
        }
        Ok(())
    });
}

#[test]
fn any_text_is_a_file_of_keys_or_has_a_fault() {
    let pieces = [
        "[[key]]",
        "[key]",
        "\n",
        "access_key",
        "secret",
        "queues",
        "actions",
        "=",
        "\"",
        "\"AKID\"",
        "\"longenough\"",
        "[",
        "]",
        ",",
        "'",
        "{",
        "}",
        ".",
        "#",
        "1",
        "true",
        "\"SendMessage\"",
        "\\",
        "ä",
        " ",
    ];
    let soup = vec(select(pieces.to_vec()), 0..40).prop_map(|pieces| pieces.concat());
    check(20_000, prop_oneof![soup, ".{0,100}".boxed()], |text| {
        if let Err(fault) = parse(&text) {
            prop_assert!(!fault.to_string().contains("longenough"));
        }
        Ok(())
    });
}

/// The clock of the server is an input as well.
#[test]
fn a_signature_is_good_for_ten_minutes_alone() {
    let request = signed("client");
    check(5_000, -3_000i64..3_000, |offset| {
        let distance = Duration::from_secs(offset.unsigned_abs());
        let now = if offset < 0 { signed_at() - distance } else { signed_at() + distance };
        prop_assert_eq!(request.verify_at(now).is_ok(), offset.abs() <= 300);
        Ok(())
    });
}
