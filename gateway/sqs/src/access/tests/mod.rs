//! Requests that others signed, good and spoilt.

mod botocore;
mod files;
mod properties;
mod published;
mod refusals;
mod spoilt;

use std::collections::BTreeMap;
use std::fs;
use std::path::PathBuf;
use std::sync::{Arc, OnceLock};
use std::time::{Duration, SystemTime};

use hyper::header::{HeaderMap, HeaderName, HeaderValue};
use serde::Deserialize;

use super::{Identity, Keys, Signable};
use crate::errors::SqsError;

/// The key of AWS's examples, with which botocore signed as well.
const KEY: &str = "[[key]]\naccess_key = \"AKIDEXAMPLE\"\nsecret = \"wJalrXUtnFEMI/K7MDENG+bPxRfiCYEXAMPLEKEY\"\n";

/// When botocore signed, in seconds since 1970: 20260228T235958Z.
const SIGNED_AT_SECONDS: u64 = 1_772_323_198;

/// What `tests/golden/sign_requests.py` writes.
const SIGNED: [&str; 2] = [
    include_str!("../../../../tests/golden/signed_by_botocore_1.29.27.jsonl"),
    include_str!("../../../../tests/golden/signed_by_botocore_1.43.11.jsonl"),
];

/// A request as its parts, which tests can spoil.
#[derive(Clone, Debug, Deserialize)]
struct SpoilableRequest {
    name: String,
    method: String,
    path: String,
    query: String,
    #[serde(deserialize_with = "headers")]
    headers: HeaderMap,
    body: String,
}

fn headers<'de, D: serde::Deserializer<'de>>(deserializer: D) -> Result<HeaderMap, D::Error> {
    Ok(header_map(BTreeMap::<String, String>::deserialize(deserializer)?))
}

fn header_map<N: AsRef<str>, V: AsRef<str>>(headers: impl IntoIterator<Item = (N, V)>) -> HeaderMap {
    let headers = headers.into_iter().map(|(name, value)| {
        let name: HeaderName = name.as_ref().parse().unwrap();
        (name, HeaderValue::from_bytes(value.as_ref().as_bytes()).unwrap())
    });
    let mut map = HeaderMap::new();
    for (name, value) in headers {
        map.append(name, value);
    }
    map
}

impl SpoilableRequest {
    fn signable(&self) -> Signable<'_> {
        let SpoilableRequest { method, path, query, headers, body, .. } = self;
        Signable { method, path, query, headers, body: body.as_bytes() }
    }

    fn verify_at(&self, now: SystemTime) -> Result<Arc<Identity>, SqsError> {
        static KEYS: OnceLock<Keys> = OnceLock::new();
        KEYS.get_or_init(|| keys(KEY)).verify(&self.signable(), "sqs", now)
    }

    fn verify(&self) -> Result<Arc<Identity>, SqsError> {
        self.verify_at(signed_at())
    }

    fn is_presigned(&self) -> bool {
        !self.headers.contains_key("authorization")
    }

    fn set(&mut self, name: &'static str, value: &str) {
        self.headers.insert(name, value.parse().unwrap());
    }

    /// With a text in the header Authorization replaced.
    fn with_authorization(&self, old: &str, new: &str) -> SpoilableRequest {
        let mut request = self.clone();
        let text = request.headers["authorization"].to_str().unwrap().to_string();
        assert!(text.contains(old), "{text}");
        request.set("authorization", &text.replacen(old, new, 1));
        request
    }

    /// With a text in the query string replaced.
    fn with_query(&self, old: &str, new: &str) -> SpoilableRequest {
        assert!(self.query.contains(old), "{}", self.query);
        SpoilableRequest { query: self.query.replacen(old, new, 1), ..self.clone() }
    }
}

fn all_signed() -> Vec<SpoilableRequest> {
    SIGNED.iter().flat_map(|text| text.lines()).map(|line| serde_json::from_str(line).unwrap()).collect()
}

/// The first request of that name, which is of the older botocore.
fn signed(name: &str) -> SpoilableRequest {
    all_signed().into_iter().find(|request| request.name == name).unwrap()
}

fn signed_at() -> SystemTime {
    SystemTime::UNIX_EPOCH + Duration::from_secs(SIGNED_AT_SECONDS)
}

/// A folder of this test alone, with a file in it.
struct Written(PathBuf);

impl Written {
    fn new(name: &str, text: &str) -> Written {
        let folder = std::env::temp_dir().join(format!("hobbychair-{}", uuid::Uuid::new_v4()));
        fs::create_dir(&folder).unwrap();
        let path = folder.join(name);
        fs::write(&path, text).unwrap();
        Written(path)
    }
}

impl Drop for Written {
    fn drop(&mut self) {
        let _ = self.0.parent().map(fs::remove_dir_all);
    }
}

fn keys(text: &str) -> Keys {
    Keys::read(&Written::new("keys.toml", text).0).unwrap()
}
