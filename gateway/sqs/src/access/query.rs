//! The query string of a URL.

use percent_encoding::{percent_decode_str, percent_encode, AsciiSet, NON_ALPHANUMERIC};

/// All bytes but those that stay as they are in a canonical request
/// (IAM User Guide, "Create a signed AWS API request", `UriEncode`).
pub const RESERVED: &AsciiSet = &NON_ALPHANUMERIC.remove(b'-').remove(b'_').remove(b'.').remove(b'~');

/// The member that holds the signature of a presigned request, which can't be signed itself.
pub const SIGNATURE: &str = "X-Amz-Signature";

/// The members of a query string in order, decoded as form fields are: a plus is a blank.
pub struct Query {
    members: Vec<(Vec<u8>, Vec<u8>)>,
}

/// A member that may be there once stands there several times.
#[derive(Debug, PartialEq, Eq)]
pub struct Doubled;

impl Query {
    pub fn parse(text: &str) -> Query {
        let parts = text.split('&').filter(|part| !part.is_empty());
        let members = parts.map(|part| {
            let (name, value) = part.split_once('=').unwrap_or((part, ""));
            (decoded(name), decoded(value))
        });
        Query { members: members.collect() }
    }

    /// The value of the one member with this name.
    pub fn only(&self, name: &str) -> Result<Option<&[u8]>, Doubled> {
        let mut values = self.members.iter().filter(|(known, _)| known == name.as_bytes());
        let first = values.next().map(|(_, value)| value.as_slice());
        match values.next() {
            None => Ok(first),
            Some(_) => Err(Doubled),
        }
    }

    pub fn has(&self, name: &str) -> bool {
        self.members.iter().any(|(known, _)| known == name.as_bytes())
    }

    /// The canonical query string: encoded anew, in order of the encoded names and then of the values, without the
    /// signature itself.
    pub fn canonical(&self) -> String {
        let signed = self.members.iter().filter(|(name, _)| name != SIGNATURE.as_bytes());
        let mut members: Vec<(String, String)> = signed.map(|(name, value)| (encoded(name), encoded(value))).collect();
        members.sort_unstable();
        let members: Vec<String> = members.iter().map(|(name, value)| format!("{name}={value}")).collect();
        members.join("&")
    }
}

fn decoded(text: &str) -> Vec<u8> {
    percent_decode_str(&text.replace('+', " ")).collect()
}

fn encoded(bytes: &[u8]) -> String {
    percent_encode(bytes, RESERVED).to_string()
}
