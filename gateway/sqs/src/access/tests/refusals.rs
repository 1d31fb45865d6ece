//! Each way in which a request is refused.

use hobbychair_bytes::digits::hex;
use hyper::header::{HeaderMap, HeaderValue};
use sha2::{Digest, Sha256};

use super::{keys, signed, signed_at, SpoilableRequest, KEY};
use crate::errors::SqsError;

/// The query form's code, and the status.
fn refusal(request: &SpoilableRequest) -> (&'static str, u16) {
    let coded = request.verify().expect_err("this must be refused").coded();
    (coded.code, coded.status)
}

const INCOMPLETE: (&str, u16) = ("IncompleteSignature", 400);
const WRONG: (&str, u16) = ("SignatureDoesNotMatch", 403);

#[test]
fn a_request_without_a_signature() {
    let mut request = signed("POST of JSON");
    request.headers.remove("authorization");
    let coded = request.verify().unwrap_err().coded();
    assert_eq!(coded.type_name, "com.amazon.coral.service#MissingAuthenticationTokenException");
    assert_eq!((coded.code, coded.status), ("MissingAuthenticationToken", 403));
    request.headers = HeaderMap::new();
    assert_eq!(request.verify(), Err(SqsError::MissingAuthenticationToken));
}

#[test]
fn headers_that_are_not_of_the_form() {
    let request = signed("POST of JSON");
    assert!(request.with_authorization(", ", " ,\t").verify().is_ok());
    assert!(request.with_authorization(", ", ",").verify().is_ok());
    let spoilt = [
        ("AWS4-HMAC-SHA256 ", "AWS4-ECDSA-P256-SHA256 "),
        ("AWS4-HMAC-SHA256 ", "AWS4-HMAC-SHA256"),
        ("AWS4-HMAC-SHA256 ", "Bearer "),
        ("Credential=", "Credentials="),
        ("Credential=", "credential="),
        ("Credential=AKIDEXAMPLE", "Credential=A/AKIDEXAMPLE"),
        ("Credential=AKIDEXAMPLE", "Credential="),
        ("Credential=AKIDEXAMPLE/", "Credential="),
        ("/eu-central-1/", "//"),
        ("/eu-central-1/", "/eu central/"),
        ("SignedHeaders=", "SignedHeader="),
        ("SignedHeaders=content-type", "SignedHeaders=Content-Type"),
        ("content-type;host", "host;content-type"),
        ("content-type;host", "content-type;host;host"),
        ("content-type;host", "content-type;;host"),
        ("Signature=", "Signature=x, Signature="),
        ("Signature=", "Signature=, X="),
        (", Signature=", ""),
        (", Signature=", ", Other=x, Signature="),
    ];
    for (old, new) in spoilt {
        assert_eq!(refusal(&request.with_authorization(old, new)), INCOMPLETE, "{new}");
    }
    let mut request = request;
    for text in ["", "AWS4-HMAC-SHA256", "AWS4-HMAC-SHA256 ", "AWS4-HMAC-SHA256 ,,,", "=", "\t"] {
        request.set("authorization", text);
        assert_eq!(refusal(&request), INCOMPLETE, "{text:?}");
    }
    request.headers.insert("authorization", HeaderValue::from_bytes(b"AWS4-HMAC-SHA256 \xff").unwrap());
    assert_eq!(refusal(&request), INCOMPLETE);
}

#[test]
fn query_strings_that_are_not_of_the_form() {
    let request = signed("presigned GET");
    let spoilt = [
        ("X-Amz-Algorithm=AWS4-HMAC-SHA256", "X-Amz-Algorithm=AWS4-HMAC-SHA1"),
        ("X-Amz-Algorithm=AWS4-HMAC-SHA256", "x=1"),
        ("X-Amz-Credential=", "X-Amz-Credential=A%2F"),
        ("X-Amz-Credential=AKIDEXAMPLE", "X-Amz-Credential=%FF"),
        ("X-Amz-Credential=", "x-amz-credential="),
        ("X-Amz-Date=20260228T235958Z", "X-Amz-Date=20260228T235960Z"),
        ("X-Amz-Date=20260228T235958Z", "X-Amz-Date=20260229T235958Z"),
        ("X-Amz-Date=", "X-Amz-Date=20260228T235958Z&X-Amz-Date="),
        ("X-Amz-Expires=3600", "X-Amz-Expires=0"),
        ("X-Amz-Expires=3600", "X-Amz-Expires=604801"),
        ("X-Amz-Expires=3600", "X-Amz-Expires=%2B3600"),
        ("X-Amz-Expires=3600", "X-Amz-Expires=-1"),
        ("X-Amz-Expires=3600", "X-Amz-Expires=99999999999999999999999"),
        ("X-Amz-Expires=3600", "x=1"),
        ("X-Amz-SignedHeaders=host", "X-Amz-SignedHeaders=Host"),
        ("X-Amz-SignedHeaders=host", "X-Amz-SignedHeaders="),
        ("X-Amz-Signature=", "X-Amz-Signature=0&X-Amz-Signature="),
        ("X-Amz-Signature=", "Signature="),
    ];
    for (old, new) in spoilt {
        assert_eq!(refusal(&request.with_query(old, new)), INCOMPLETE, "{new}");
    }
    for member in ["X-Amz-Algorithm", "X-Amz-Signature=", "X-Amz-Credential=AKIDEXAMPLE"] {
        assert_eq!(refusal(&SpoilableRequest { query: member.into(), ..request.clone() }), INCOMPLETE, "{member}");
    }
}

#[test]
fn dates_that_are_not_of_the_form() {
    for name in ["POST of JSON", "POST with Date"] {
        let mut request = signed(name);
        let header = if request.headers.contains_key("date") { "date" } else { "x-amz-date" };
        for text in
            ["", "2026-02-28T23:59:58Z", "20260228T235958", "20261328T235958Z", "20260228T245958Z", "1", "+0000"]
        {
            request.set(header, text);
            assert_eq!(refusal(&request), INCOMPLETE, "{text:?}");
        }
        request.headers.remove(header);
        assert_eq!(refusal(&request), INCOMPLETE);
    }
    let mut request = signed("POST of JSON");
    request.headers.append("x-amz-date", "20260228T235958Z".parse().unwrap());
    assert_eq!(refusal(&request), INCOMPLETE);
}

#[test]
fn two_signatures_at_once() {
    let mut request = signed("POST of JSON");
    request.headers.append("authorization", request.headers["authorization"].clone());
    assert_eq!(refusal(&request), INCOMPLETE);
    let mut request = signed("presigned GET");
    request.headers.insert("authorization", signed("POST of JSON").headers["authorization"].clone());
    assert_eq!(refusal(&request), INCOMPLETE);
    let mut request = signed("POST of JSON");
    request.query = "X-Amz-Signature=0".into();
    assert_eq!(refusal(&request), INCOMPLETE);
}

#[test]
fn an_unknown_key() {
    let request = signed("POST of JSON").with_authorization("AKIDEXAMPLE", "AKIDEXAMPLF");
    let coded = request.verify().unwrap_err().coded();
    assert_eq!(coded.type_name, "com.amazon.coral.service#UnrecognizedClientException");
    assert_eq!((coded.code, coded.status), ("InvalidClientTokenId", 403));
}

#[test]
fn another_secret() {
    let keys = keys(&KEY.replace("EXAMPLEKEY", "EXAMPLEKEy"));
    for name in ["client", "client with a token", "presigned GET"] {
        let error = keys.verify(&signed(name).signable(), "sqs", signed_at()).unwrap_err();
        assert_eq!(error, SqsError::wrong_signature(), "{name}");
        assert_eq!(error.coded().type_name, "com.amazon.coral.service#InvalidSignatureException");
    }
}

#[test]
fn another_scope() {
    for (old, new) in [("/sqs/", "/sns/"), ("/aws4_request", "/aws4_reques"), ("/20260228/", "/20260301/")] {
        let by_header = signed("POST of JSON").with_authorization(old, new);
        let by_query = signed("presigned GET").with_query(&old.replace('/', "%2F"), &new.replace('/', "%2F"));
        for request in [by_header, by_query] {
            let error = request.verify().unwrap_err();
            assert_eq!((error.coded().code, error.coded().status), WRONG, "{new}");
            assert!(error.to_string().contains("Credential"), "{error}");
        }
    }
    let another_region = signed("POST of JSON").with_authorization("eu-central-1", "eu-central-2");
    assert_eq!(another_region.verify(), Err(SqsError::wrong_signature()));
}

#[test]
fn signatures_that_are_not_64_hex_digits_in_lower_case() {
    let request = signed("POST of JSON");
    let authorization = request.headers["authorization"].to_str().unwrap();
    let signature = authorization.split_once("Signature=").unwrap().1;
    for bad in [&signature[1..], &format!("0{signature}"), &signature.to_uppercase(), &"g".repeat(64), "0", "\t0"] {
        assert_eq!(request.with_authorization(signature, bad).verify(), Err(SqsError::wrong_signature()), "{bad}");
    }
}

#[test]
fn headers_that_must_be_signed() {
    for name in ["POST of JSON", "presigned GET", "client with a token", "POST with Date"] {
        for header in ["x-amz-target", "x-amz-security-token", "x-amz-content-sha256", "x-amz-date", "x-amz-other"] {
            let mut request = signed(name);
            if request.headers.contains_key(header) {
                continue;
            }
            // What is added has a good value, so that it is only not signed.
            let value = match header {
                "x-amz-content-sha256" => hex(&Sha256::digest(&request.body)),
                "x-amz-date" => "20260228T235958Z".into(),
                _ => "AmazonSQS.PurgeQueue".into(),
            };
            request.set(header, &value);
            assert_eq!(refusal(&request), WRONG, "{name}: {header}");
        }
    }
    let unsigned_host = signed("POST of JSON").with_authorization(";host", "");
    let message = "'host' must be a 'SignedHeader' in the AWS Authorization.";
    assert_eq!(unsigned_host.verify(), Err(SqsError::InvalidSignature(message.into())));
    let unsigned_date = signed("POST of JSON").with_authorization(";x-amz-date", "");
    let message = "'x-amz-date' must be a 'SignedHeader' in the AWS Authorization.";
    assert_eq!(unsigned_date.verify(), Err(SqsError::InvalidSignature(message.into())));
}

#[test]
fn headers_that_need_not_be_signed() {
    let mut request = signed("client");
    request.set("amz-sdk-request", "attempt=2; max=3");
    request.set("x-amzn-trace-id", "Root=1");
    request.set("user-agent", "any");
    assert!(request.verify().is_ok());
}

#[test]
fn a_signed_header_that_is_gone_or_doubled() {
    let mut request = signed("POST of JSON");
    request.headers.append("content-type", "application/json".parse().unwrap());
    assert_eq!(refusal(&request), WRONG);
    request.headers.remove("content-type");
    assert_eq!(request.verify(), Err(SqsError::InvalidSignature("A header that was signed isn't there.".into())));
}

#[test]
fn hashes_that_are_not_of_the_body() {
    let mut request = signed("POST without its payload");
    for said in
        ["STREAMING-AWS4-HMAC-SHA256-PAYLOAD", "STREAMING-UNSIGNED-PAYLOAD-TRAILER", "", "0", "unsigned-payload"]
    {
        request.set("x-amz-content-sha256", said);
        let error = request.verify().unwrap_err();
        assert_eq!((error.coded().code, error.coded().status), WRONG, "{said}");
        assert_ne!(error, SqsError::wrong_signature(), "{said}");
    }
    let mut spoilt = signed("POST with the hash of its payload");
    spoilt.body = "{\"a\": 2}".into();
    let message = "The value passed in as x-amz-content-sha256 does not match the computed hash.";
    assert_eq!(spoilt.verify(), Err(SqsError::InvalidSignature(message.into())));
    // The right hash isn't what was signed.
    let own = hex(&Sha256::digest(&request.body));
    request.set("x-amz-content-sha256", &own);
    assert_eq!(request.verify(), Err(SqsError::wrong_signature()));
}
