//! What botocore signs is let in, for as long as it is good.

use std::time::Duration;

use super::{all_signed, signed, signed_at};
use crate::errors::SqsError;

const SECOND: Duration = Duration::from_secs(1);
const FIVE_MINUTES: Duration = Duration::from_secs(300);
const HOUR: Duration = Duration::from_secs(3600);

#[test]
fn all_that_it_signs_is_let_in() {
    let requests = all_signed();
    assert_eq!(requests.len(), 42);
    for request in requests {
        let identity = request.verify().unwrap_or_else(|error| panic!("{}: {error}", request.name));
        assert_eq!(identity.name(), "AKIDEXAMPLE");
    }
}

#[test]
fn a_clock_may_be_off_by_five_minutes() {
    for request in all_signed().iter().filter(|request| !request.is_presigned()) {
        assert!(request.verify_at(signed_at() + FIVE_MINUTES).is_ok(), "{}", request.name);
        assert!(request.verify_at(signed_at() - FIVE_MINUTES).is_ok(), "{}", request.name);
    }
    let late = signed("client").verify_at(signed_at() + FIVE_MINUTES + SECOND);
    let message = "Signature expired: 20260228T235958Z is now earlier than 20260228T235959Z \
        (20260301T000459Z - 5 min.)";
    assert_eq!(late, Err(SqsError::InvalidSignature(message.into())));
    let early = signed("POST with Date").verify_at(signed_at() - FIVE_MINUTES - SECOND);
    let message = "Signature not yet current: 20260228T235958Z is still later than 20260228T235957Z \
        (20260228T235457Z + 5 min.)";
    assert_eq!(early, Err(SqsError::InvalidSignature(message.into())));
}

#[test]
fn a_presigned_request_is_good_until_it_expires() {
    for request in all_signed().iter().filter(|request| request.is_presigned()) {
        assert!(request.verify_at(signed_at() + HOUR).is_ok(), "{}", request.name);
        assert_eq!(request.verify_at(signed_at() + HOUR + SECOND), Err(SqsError::RequestExpired), "{}", request.name);
        assert!(request.verify_at(signed_at() - FIVE_MINUTES).is_ok(), "{}", request.name);
        let early = request.verify_at(signed_at() - FIVE_MINUTES - SECOND);
        assert!(matches!(early, Err(SqsError::InvalidSignature(message)) if message.contains("not yet current")));
    }
}

#[test]
fn a_body_that_was_not_signed_may_be_any() {
    let mut request = signed("POST without its payload");
    request.body = "another".into();
    assert!(request.verify().is_ok());
}
