//! The canonical request, over which a signature is made (IAM User Guide, "Create a signed AWS API request").

use std::borrow::Cow;

use hobbychair_bytes::digits::hex;
use hyper::header::HeaderMap;
use percent_encoding::utf8_percent_encode;
use sha2::{Digest, Sha256};

use super::claim::{only, Claim};
use super::query::{Query, RESERVED};
use super::Signable;
use crate::errors::SqsError;

/// What stands for the hash of a body that wasn't signed.
const UNSIGNED: &str = "UNSIGNED-PAYLOAD";

/// The canonical form of a request. A body whose hash isn't the one that its header says is refused.
pub fn canonical_request(request: &Signable<'_>, query: &Query, claim: &Claim) -> Result<Vec<u8>, SqsError> {
    let mut canonical = Vec::with_capacity(1024);
    push_line(&mut canonical, request.method);
    push_line(&mut canonical, &canonical_path(request.path));
    push_line(&mut canonical, &query.canonical());
    for name in &claim.signed_headers {
        push_header(&mut canonical, request.headers, name);
    }
    canonical.push(b'\n');
    push_line(&mut canonical, &claim.signed_headers.join(";"));
    canonical.extend_from_slice(payload_hash(request)?.as_bytes());
    Ok(canonical)
}

fn push_line(canonical: &mut Vec<u8>, line: &str) {
    canonical.extend_from_slice(line.as_bytes());
    canonical.push(b'\n');
}

/// A path without empty, `.` and `..` segments, encoded once more than it came. (Only S3 takes paths as they are.)
fn canonical_path(path: &str) -> String {
    let mut segments: Vec<Cow<'_, str>> = Vec::new();
    for segment in path.split('/') {
        match segment {
            "" | "." => {}
            ".." => drop(segments.pop()),
            segment => segments.push(utf8_percent_encode(segment, RESERVED).into()),
        }
    }
    let end = if path.ends_with('/') && !segments.is_empty() { "/" } else { "" };
    format!("/{}{end}", segments.join("/"))
}

/// A header's line: its values in order with commas between them, without blanks around them, and with one where
/// several are inside.
fn push_header(canonical: &mut Vec<u8>, headers: &HeaderMap, name: &str) {
    canonical.extend_from_slice(name.as_bytes());
    for (place, value) in headers.get_all(name).iter().enumerate() {
        canonical.push(if place == 0 { b':' } else { b',' });
        let words = value.as_bytes().split(|byte| matches!(byte, b' ' | b'\t')).filter(|word| !word.is_empty());
        for (place, word) in words.enumerate() {
            if place > 0 {
                canonical.push(b' ');
            }
            canonical.extend_from_slice(word);
        }
    }
    canonical.push(b'\n');
}

/// The hash of the body, in hex, or what the client says in its place.
fn payload_hash(request: &Signable<'_>) -> Result<Cow<'static, str>, SqsError> {
    let refused = |message: &str| Err(SqsError::InvalidSignature(message.into()));
    let said = only(request.headers, "x-amz-content-sha256")?;
    if said == Some(UNSIGNED) {
        return Ok(UNSIGNED.into());
    }
    if said.is_some_and(|said| said.starts_with("STREAMING-")) {
        return refused("Bodies that are signed in pieces are not supported.");
    }
    let own = hex(&Sha256::digest(request.body));
    match said {
        Some(said) if said != own => {
            refused("The value passed in as x-amz-content-sha256 does not match the computed hash.")
        }
        _ => Ok(own.into()),
    }
}
