//! Good requests with one element spoilt.

use super::{all_signed, SpoilableRequest};
use crate::errors::SqsError;

/// Each text that differs from `text` in one byte of ASCII.
fn spoilt(text: &str) -> impl Iterator<Item = String> + '_ {
    let places = text.char_indices().filter(|(_, character)| character.is_ascii_graphic() || *character == ' ');
    places.map(|(place, character)| {
        let other = if character == 'x' { 'y' } else { 'x' };
        format!("{}{other}{}", &text[..place], &text[place + 1..])
    })
}

fn assert_refused(request: &SpoilableRequest, what: &str) {
    assert!(request.verify().is_err(), "{} was let in with another {what}", request.name);
}

#[test]
fn any_byte_of_a_body() {
    for request in all_signed().iter().filter(|request| request.name != "POST without its payload") {
        let added = [format!("{} ", request.body), format!("x{}", request.body)];
        for body in spoilt(&request.body).chain(added) {
            let error = SpoilableRequest { body, ..request.clone() }.verify().unwrap_err();
            assert!(matches!(error, SqsError::InvalidSignature(_)), "{}: {error}", request.name);
        }
    }
}

#[test]
fn any_byte_of_a_path_or_a_query_string() {
    // Of a path that is normalized some bytes don't matter.
    for request in all_signed().iter().filter(|request| request.name != "GET of a path that is normalized") {
        for path in spoilt(&request.path).chain([format!("{}/x", request.path), "/x".into()]) {
            assert_refused(&SpoilableRequest { path, ..request.clone() }, "path");
        }
        for query in spoilt(&request.query).chain([format!("{}&x", request.query), format!("x&{}", request.query)]) {
            assert_refused(&SpoilableRequest { query, ..request.clone() }, "query string");
        }
    }
}

#[test]
fn any_byte_of_a_signed_header() {
    for request in &all_signed() {
        let signed = request.headers.get("authorization").map(|value| value.to_str().unwrap()).unwrap_or("=host,");
        let signed = signed.split("SignedHeaders=").last().unwrap().split(',').next().unwrap().to_string();
        for name in signed.split(';').filter(|name| request.headers.contains_key(*name)) {
            let value = request.headers[name].to_str().unwrap();
            for other in spoilt(value) {
                let mut request = request.clone();
                request.headers.insert(name.parse::<hyper::header::HeaderName>().unwrap(), other.parse().unwrap());
                assert_refused(&request, name);
            }
        }
    }
}

#[test]
fn any_byte_of_the_authorization() {
    for request in all_signed().iter().filter(|request| !request.is_presigned()) {
        let authorization = request.headers["authorization"].to_str().unwrap().to_string();
        for other in spoilt(&authorization) {
            let mut request = request.clone();
            request.set("authorization", &other);
            assert_refused(&request, "Authorization");
        }
    }
}

#[test]
fn another_method() {
    for request in &all_signed() {
        for method in ["GET", "POST", "PUT", "post", ""].into_iter().filter(|method| *method != request.method) {
            assert_refused(&SpoilableRequest { method: method.into(), ..request.clone() }, "method");
        }
    }
}
