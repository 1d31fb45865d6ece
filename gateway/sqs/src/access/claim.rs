//! What a request says of its signature: who made it, when, and over which headers.

use std::time::Duration;

use hyper::header::{HeaderMap, HeaderValue, AUTHORIZATION, DATE};

use super::query::{Query, SIGNATURE};
use super::timestamp::Timestamp;
use super::Signable;
use crate::errors::SqsError;

/// The algorithm of version 4.
pub const ALGORITHM: &str = "AWS4-HMAC-SHA256";

/// What a credential scope ends with.
const TERMINATOR: &str = "aws4_request";

/// So far a client's clock may be off (IAM User Guide, "Troubleshoot Signature Version 4 signing for AWS API
/// requests").
const SKEW: Duration = Duration::from_secs(5 * 60);

/// So long a presigned request is good at most, in seconds: seven days (Amazon S3 API Reference, "Authenticating
/// requests: using query parameters").
const LONGEST_PRESIGNED_SECONDS: u64 = 604_800;

/// The members of a query string that make a presigned request.
const PRESIGNED: [&str; 6] =
    ["X-Amz-Algorithm", "X-Amz-Credential", "X-Amz-Date", "X-Amz-Expires", "X-Amz-SignedHeaders", SIGNATURE];

/// For what a signature was made, beside its moment.
#[derive(Clone, Debug, PartialEq, Eq)]
pub struct Scope {
    /// The day, as `20150830`.
    pub day: String,
    pub region: String,
    pub service: String,
    pub terminator: String,
}

/// How long a signature is good.
#[derive(Clone, Copy, Debug, PartialEq, Eq)]
pub enum Validity {
    /// One in a header: as far as a clock may be off.
    Moment,
    /// A presigned one: so long after its moment.
    Expires(Duration),
}

/// What a request says of its signature. Nothing of it is tested yet but its form.
#[derive(Clone, Debug)]
pub struct Claim {
    pub access_key: String,
    pub scope: Scope,
    pub moment: Timestamp,
    /// In lower case, in rising order.
    pub signed_headers: Vec<String>,
    /// As it came.
    pub signature: String,
    pub validity: Validity,
}

impl Claim {
    /// What a request's header or its query string says. Neither is `MissingAuthenticationToken`; both, and what isn't
    /// of the form, are `IncompleteSignature`.
    pub fn read(request: &Signable<'_>, query: &Query) -> Result<Claim, SqsError> {
        let mut headers = request.headers.get_all(AUTHORIZATION).iter();
        let is_presigned = PRESIGNED.iter().any(|name| query.has(name));
        match (headers.next(), headers.next(), is_presigned) {
            (None, _, false) => Err(SqsError::MissingAuthenticationToken),
            (None, _, true) => Claim::of_query(query),
            (Some(authorization), None, false) => Claim::of_header(authorization, request.headers),
            (Some(_), None, true) => Err(incomplete("A request is signed in its header or in its query string.")),
            (Some(_), Some(_), _) => Err(incomplete("There is more than one header Authorization.")),
        }
    }

    fn of_header(authorization: &HeaderValue, headers: &HeaderMap) -> Result<Claim, SqsError> {
        let text = authorization.to_str().map_err(|_| incomplete("Authorization header has other than ASCII."))?;
        let parts = text.trim().strip_prefix(ALGORITHM).and_then(|rest| rest.strip_prefix(' '));
        let parts = parts.ok_or_else(|| incomplete("Authorization header must begin with AWS4-HMAC-SHA256."))?;
        let parts = Parts::read(parts)?;
        let (access_key, scope) = credential(parts.credential)?;
        Ok(Claim {
            access_key,
            scope,
            moment: moment(headers)?,
            signed_headers: signed_headers(parts.signed_headers)?,
            signature: parts.signature.into(),
            validity: Validity::Moment,
        })
    }

    fn of_query(query: &Query) -> Result<Claim, SqsError> {
        if member(query, "X-Amz-Algorithm")? != ALGORITHM {
            return Err(incomplete("X-Amz-Algorithm must be AWS4-HMAC-SHA256."));
        }
        let (access_key, scope) = credential(member(query, "X-Amz-Credential")?)?;
        Ok(Claim {
            access_key,
            scope,
            moment: basic_moment(member(query, "X-Amz-Date")?)?,
            signed_headers: signed_headers(member(query, "X-Amz-SignedHeaders")?)?,
            signature: member(query, SIGNATURE)?.into(),
            validity: Validity::Expires(expires(member(query, "X-Amz-Expires")?)?),
        })
    }

    /// Refuses a scope of another service, of another day than the signature's, or of another form.
    pub fn test_scope(&self, service: &str) -> Result<(), SqsError> {
        let refusal = if self.scope.service != service {
            format!("Credential should be scoped to correct service: '{service}'. ")
        } else if self.scope.terminator != TERMINATOR {
            format!("Credential should be scoped with a valid terminator: '{TERMINATOR}'. ")
        } else if self.scope.day != self.moment.day() {
            format!(
                "Date in Credential scope does not match YYYYMMDD from ISO-8601 version of date from HTTP: \
                 '{}', from '{}'.",
                self.moment.day(),
                self.moment
            )
        } else {
            return Ok(());
        };
        Err(SqsError::InvalidSignature(refusal))
    }

    /// Refuses a signature that isn't good yet or that is over. The messages say the server's time in the form by which
    /// SDKs mend their clocks.
    pub fn test_moment(&self, now: &Timestamp) -> Result<(), SqsError> {
        let minutes = SKEW.as_secs() / 60;
        let (earliest, latest) = (now.minus(SKEW), now.plus(SKEW));
        if self.moment > latest {
            return Err(SqsError::InvalidSignature(format!(
                "Signature not yet current: {} is still later than {latest} ({now} + {minutes} min.)",
                self.moment
            )));
        }
        match self.validity {
            Validity::Moment if self.moment < earliest => Err(SqsError::InvalidSignature(format!(
                "Signature expired: {} is now earlier than {earliest} ({now} - {minutes} min.)",
                self.moment
            ))),
            Validity::Expires(after) if self.moment.plus(after) < *now => Err(SqsError::RequestExpired),
            _ => Ok(()),
        }
    }

    /// Refuses a request of which something that counts wasn't signed: `host`, and every `x-amz-*` that is there.
    pub fn test_signed_headers(&self, headers: &HeaderMap) -> Result<(), SqsError> {
        let counting = headers.keys().map(|name| name.as_str()).filter(|name| name.starts_with("x-amz-"));
        let unsigned = std::iter::once("host").chain(counting).find(|name| !self.has_signed(name));
        if let Some(name) = unsigned {
            let message = format!("'{name}' must be a 'SignedHeader' in the AWS Authorization.");
            return Err(SqsError::InvalidSignature(message));
        }
        match self.signed_headers.iter().find(|name| !headers.contains_key(name.as_str())) {
            Some(_) => Err(SqsError::InvalidSignature("A header that was signed isn't there.".into())),
            None => Ok(()),
        }
    }

    fn has_signed(&self, name: &str) -> bool {
        self.signed_headers.binary_search_by(|signed| signed.as_str().cmp(name)).is_ok()
    }
}

/// The parts of the header `Authorization` behind its algorithm.
struct Parts<'a> {
    credential: &'a str,
    signed_headers: &'a str,
    signature: &'a str,
}

impl<'a> Parts<'a> {
    fn read(text: &'a str) -> Result<Parts<'a>, SqsError> {
        let (mut credential, mut signed_headers, mut signature) = (None, None, None);
        for part in text.split(',') {
            let (name, value) = part.trim().split_once('=').unwrap_or((part, ""));
            let place = match name {
                "Credential" => &mut credential,
                "SignedHeaders" => &mut signed_headers,
                "Signature" => &mut signature,
                _ => return Err(incomplete("Authorization header has an unknown parameter.")),
            };
            if place.replace(value).is_some() {
                return Err(incomplete("Authorization header has a parameter twice."));
            }
        }
        let required = |value: Option<&'a str>, name: &str| {
            let message = || incomplete(&format!("Authorization header requires '{name}' parameter."));
            value.filter(|value| !value.is_empty()).ok_or_else(message)
        };
        Ok(Parts {
            credential: required(credential, "Credential")?,
            signed_headers: required(signed_headers, "SignedHeaders")?,
            signature: required(signature, "Signature")?,
        })
    }
}

/// A member of a presigned request's query string, which must be there once and be text.
fn member<'q>(query: &'q Query, name: &str) -> Result<&'q str, SqsError> {
    let value = query.only(name).map_err(|_| incomplete(&format!("AWS query-string parameters have {name} twice.")))?;
    let value = value.and_then(|value| std::str::from_utf8(value).ok()).filter(|value| !value.is_empty());
    value.ok_or_else(|| {
        incomplete(&format!(
            "AWS query-string parameters must include '{name}'. Re-examine the query-string parameters."
        ))
    })
}

/// The moment of a request that is signed in its header: `x-amz-date`, or `Date` where that is missing.
fn moment(headers: &HeaderMap) -> Result<Timestamp, SqsError> {
    if let Some(text) = only(headers, "x-amz-date")? {
        return basic_moment(text);
    }
    let text = only(headers, DATE.as_str())?.ok_or_else(|| {
        incomplete("Authorization header requires existence of either a 'X-Amz-Date' or a 'Date' header.")
    })?;
    Timestamp::of_http_date(text).ok_or_else(|| incomplete("Date must be in the form of RFC 1123."))
}

/// The one value of a header. Several values, and other than printable ASCII, are refused.
pub fn only<'h>(headers: &'h HeaderMap, name: &str) -> Result<Option<&'h str>, SqsError> {
    let mut values = headers.get_all(name).iter();
    match (values.next(), values.next()) {
        (None, _) => Ok(None),
        (Some(value), None) => {
            let text = value.to_str().map_err(|_| incomplete(&format!("'{name}' has other than ASCII.")))?;
            Ok(Some(text.trim()))
        }
        (Some(_), Some(_)) => Err(incomplete(&format!("There is more than one header '{name}'."))),
    }
}

fn basic_moment(text: &str) -> Result<Timestamp, SqsError> {
    let message = "Date must be in ISO-8601 'basic format'. See http://en.wikipedia.org/wiki/ISO_8601";
    Timestamp::parse(text).ok_or_else(|| incomplete(message))
}

/// An access key and a scope of `key/day/region/service/aws4_request`.
fn credential(text: &str) -> Result<(String, Scope), SqsError> {
    let is_printable = |part: &&str| !part.is_empty() && part.bytes().all(|byte| byte.is_ascii_graphic());
    let parts: Vec<&str> = text.split('/').collect();
    match parts[..] {
        [access_key, day, region, service, terminator] if parts.iter().all(is_printable) => {
            let scope = Scope {
                day: day.into(),
                region: region.into(),
                service: service.into(),
                terminator: terminator.into(),
            };
            Ok((access_key.into(), scope))
        }
        _ => Err(incomplete(
            "Credential must have exactly 5 slash-delimited elements, e.g. keyid/date/region/service/term.",
        )),
    }
}

/// Names of headers with semicolons between them, in lower case and in rising order.
fn signed_headers(text: &str) -> Result<Vec<String>, SqsError> {
    let names: Vec<String> = text.split(';').map(String::from).collect();
    let is_name = |name: &String| !name.is_empty() && !name.bytes().any(|byte| byte.is_ascii_uppercase());
    let rises = names.windows(2).all(|pair| pair[0] < pair[1]);
    if !rises || !names.iter().all(is_name) {
        return Err(incomplete("SignedHeaders must be names in lower case and in order, each once."));
    }
    Ok(names)
}

fn expires(text: &str) -> Result<Duration, SqsError> {
    let has_digits = text.len() <= 6 && text.bytes().all(|byte| byte.is_ascii_digit());
    let seconds = text.parse().ok().filter(|seconds| has_digits && (1..=LONGEST_PRESIGNED_SECONDS).contains(seconds));
    let message = || incomplete(&format!("X-Amz-Expires must be between 1 and {LONGEST_PRESIGNED_SECONDS} seconds."));
    seconds.map(Duration::from_secs).ok_or_else(message)
}

fn incomplete(message: &str) -> SqsError {
    SqsError::IncompleteSignature(message.into())
}
