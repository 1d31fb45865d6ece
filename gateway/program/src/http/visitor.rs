//! Where no keys are asked for, whoever reaches the gateway may command it, and so may a page in a browser that runs on
//! the same machine. Browsers say from which page a request comes, and by which name they reached the gateway.

use std::sync::OnceLock;

use hyper::header::{HeaderMap, HeaderName, HeaderValue, AUTHORIZATION, HOST, ORIGIN};
use hyper::{Method, Uri};

use hobbychair_sqs::errors::SqsError;

/// The names by which the gateway is reached, beside addresses and `localhost`.
#[derive(Clone, Debug, Default)]
pub struct Hosts {
    /// In lower case, without ports.
    names: Vec<String>,
    /// Whatever name a client says is taken.
    any: bool,
}

/// Stands for all names.
const ANY: &str = "*";

/// As many bytes a host has that is kept: the longest name, and a port.
const LONGEST_KNOWN_BYTES: usize = 260;

/// What a signature in a header begins with. That of a link with a name and a password doesn't.
const SIGNED: &[u8] = b"AWS4-HMAC-SHA256 ";

static SEC_FETCH_SITE: HeaderName = HeaderName::from_static("sec-fetch-site");

/// The name by which the client of a connection has reached the gateway. Most say the same each time. It is a copy: what
/// was read of a connection goes with its request.
#[derive(Debug, Default)]
pub struct KnownHost(OnceLock<Box<[u8]>>);

impl KnownHost {
    /// Whether this is what `Hosts` knew before.
    fn is(&self, host: &HeaderValue) -> bool {
        self.0.get().is_some_and(|known| **known == *host.as_bytes())
    }
}

impl Hosts {
    /// `allowed` are names without ports, or `*`; `url` is the one under which clients know the gateway.
    pub fn new(allowed: &[String], url: Option<&str>) -> Hosts {
        let of_url = url.and_then(|url| url.parse::<Uri>().ok()).and_then(|uri| uri.host().map(String::from));
        let names = allowed.iter().cloned().chain(of_url).map(|name| name.to_ascii_lowercase());
        Hosts { any: allowed.iter().any(|name| name == ANY), names: names.collect() }
    }

    /// Does what `test` does, for a request of a connection whose client may have been found to know the gateway.
    pub fn test_again(&self, uri: &Uri, headers: &HeaderMap, known: &KnownHost) -> Result<(), SqsError> {
        let mut hosts = headers.get_all(HOST).iter();
        let (Some(host), None) = (hosts.next(), hosts.next()) else { return self.test(uri, headers) };
        let is_page = headers.contains_key(ORIGIN) || headers.contains_key(&SEC_FETCH_SITE);
        if known.is(host) && uri.authority().is_none() && !is_page {
            return Ok(());
        }
        self.test(uri, headers)?;
        if host.len() <= LONGEST_KNOWN_BYTES {
            // Where another one is known, that one stays.
            let _ = known.0.set(host.as_bytes().into());
        }
        Ok(())
    }

    /// Refuses what a page of another site sends, and what names a host that isn't the gateway's: a name that somebody
    /// else has bound to the gateway's address makes a page of theirs one of the same origin.
    pub fn test(&self, uri: &Uri, headers: &HeaderMap) -> Result<(), SqsError> {
        let named = headers.get_all(HOST).iter().map(|host| host.to_str().unwrap_or_default());
        let in_uri = uri.authority().map(|authority| authority.as_str());
        if let Some(unknown) = named.chain(in_uri).map(host_of).find(|host| !self.knows(host)) {
            return Err(SqsError::UnknownHost(unknown.into()));
        }
        if is_of_another_site(headers) {
            let origin = headers.get(ORIGIN).and_then(|origin| origin.to_str().ok()).unwrap_or("another site");
            return Err(SqsError::OtherSite(origin.into()));
        }
        Ok(())
    }

    fn knows(&self, host: &str) -> bool {
        let is_address = host.trim_matches(['[', ']']).parse::<std::net::IpAddr>().is_ok();
        let is_named = || self.names.iter().any(|name| name.eq_ignore_ascii_case(host));
        self.any || is_address || host.eq_ignore_ascii_case("localhost") || is_named()
    }
}

/// Whether a link can be this request: it has no body, and no header that a page sends only once it was let in. Browsers don't say of
/// each that a page asked for it. What a link says in its URL is no sign of anything, a signature there no more than a name.
pub fn may_be_link(method: &Method, headers: &HeaderMap) -> bool {
    let is_signed = |value: &HeaderValue| value.as_bytes().starts_with(SIGNED);
    *method != Method::POST && !headers.get_all(AUTHORIZATION).iter().any(is_signed)
}

/// The host of an authority, without its port.
fn host_of(authority: &str) -> &str {
    let end = authority.rfind(']').map_or(0, |bracket| bracket + 1);
    authority[end..].find(':').map_or(authority, |colon| &authority[..end + colon])
}

/// Whether a browser says that a page of another site sent it (Fetch, "The `Origin` header"; Fetch Metadata Request
/// Headers). Programs say nothing of the kind. A page of the same site, on another port, say, tells its origin.
fn is_of_another_site(headers: &HeaderMap) -> bool {
    let own = headers.get(HOST).and_then(|host| host.to_str().ok()).map(host_of).unwrap_or_default();
    let is_own = |origin: &str| {
        let authority = origin.split_once("://").map(|(_, authority)| authority);
        authority.is_some_and(|authority| !own.is_empty() && host_of(authority).eq_ignore_ascii_case(own))
    };
    let mut origins = headers.get_all(ORIGIN).iter().peekable();
    let has_origin = origins.peek().is_some();
    if !origins.all(|origin| origin.to_str().is_ok_and(is_own)) {
        return true;
    }
    headers.get_all(&SEC_FETCH_SITE).iter().any(|site| match site.as_bytes() {
        b"same-origin" | b"none" => false,
        b"same-site" => !has_origin,
        _ => true,
    })
}

#[cfg(test)]
mod tests {
    use super::*;

    fn tested(hosts: &Hosts, uri: &str, headers: &[(&'static str, &str)]) -> Result<(), SqsError> {
        let headers = headers.iter().map(|(name, value)| (name.parse().unwrap(), value.parse().unwrap())).collect();
        hosts.test(&uri.parse().unwrap(), &headers)
    }

    #[test]
    fn what_is_known_of_a_connection_lets_nobody_else_in() {
        let (hosts, known) = (Hosts::default(), KnownHost::default());
        let again = |uri: &str, headers: &[(&'static str, &str)]| {
            let headers = headers.iter().map(|(name, value)| (name.parse().unwrap(), value.parse().unwrap())).collect();
            hosts.test_again(&uri.parse().unwrap(), &headers, &known).is_ok()
        };
        let local = ("host", "localhost:9324");
        assert!(!again("/", &[("host", "evil.example")]));
        for _ in 0..2 {
            assert!(again("/", &[local]) && again("/", &[("host", "127.0.0.1")]));
            assert!(!again("/", &[("host", "evil.example")]));
            assert!(!again("/", &[local, ("host", "evil.example")]));
            assert!(!again("http://evil.example/", &[local]));
            assert!(!again("/", &[local, ("origin", "http://evil.example")]));
            assert!(!again("/", &[local, ("sec-fetch-site", "cross-site")]));
        }
    }

    #[test]
    fn hosts_that_are_the_gateways() {
        let hosts = Hosts::new(&["Queues".into()], Some("https://known.example:8443/sqs"));
        for good in ["127.0.0.1:9324", "127.0.0.1", "[::1]:9324", "[::1]", "10.1.2.3:1", "localhost", "LOCALHOST:9324"]
        {
            assert_eq!(tested(&hosts, "/", &[("host", good)]), Ok(()), "{good}");
        }
        for good in ["queues:9324", "known.example", "Known.Example:443"] {
            assert_eq!(tested(&hosts, "/", &[("host", good)]), Ok(()), "{good}");
        }
        for bad in
            ["evil.example", "evil.example:9324", "localhost.evil.example", "127.0.0.1.evil.example", "", "a:b:c"]
        {
            assert!(matches!(tested(&hosts, "/", &[("host", bad)]), Err(SqsError::UnknownHost(_))), "{bad}");
        }
        let two = [("host", "localhost"), ("host", "evil.example")];
        assert_eq!(tested(&hosts, "/", &two), Err(SqsError::UnknownHost("evil.example".into())));
        let whole = tested(&hosts, "http://evil.example/", &[("host", "localhost")]);
        assert_eq!(whole, Err(SqsError::UnknownHost("evil.example".into())));
        assert_eq!(tested(&hosts, "/", &[]), Ok(()), "a program of HTTP/1.0");
        assert_eq!(tested(&Hosts::new(&["*".into()], None), "/", &[("host", "any.example")]), Ok(()));
    }

    #[test]
    fn a_link_has_no_body_and_no_signature_in_a_header() {
        let tested = |method: Method, headers: &[(&'static str, &str)]| {
            let headers = headers.iter().map(|(name, value)| (name.parse().unwrap(), value.parse().unwrap())).collect();
            may_be_link(&method, &headers)
        };
        let signed = ("authorization", "AWS4-HMAC-SHA256 Credential=a/20150830/us-east-1/sqs/aws4_request");
        for method in [Method::GET, Method::HEAD] {
            assert!(tested(method.clone(), &[]) && tested(method.clone(), &[("authorization", "Basic YTpi")]));
            assert!(tested(method.clone(), &[("x-amz-date", "20150830T123600Z"), ("authorization", "")]));
            assert!(!tested(method, &[signed]));
        }
        assert!(!tested(Method::POST, &[]) && !tested(Method::POST, &[signed]));
    }

    #[test]
    fn pages_of_other_sites_are_told_by_what_browsers_say() {
        let hosts = Hosts::default();
        let local = ("host", "localhost:9324");
        for good in [
            &[local][..],
            &[local, ("origin", "http://localhost:9324"), ("sec-fetch-site", "same-origin")],
            &[local, ("origin", "http://localhost:3000"), ("sec-fetch-site", "same-site")],
            &[local, ("sec-fetch-site", "none")],
        ] {
            assert_eq!(tested(&hosts, "/", good), Ok(()), "{good:?}");
        }
        for bad in [
            &[local, ("origin", "http://evil.example")][..],
            &[local, ("origin", "null")],
            &[local, ("origin", "http://93.184.216.34")],
            &[local, ("sec-fetch-site", "cross-site")],
            &[local, ("sec-fetch-site", "same-site")],
            &[local, ("origin", "http://localhost:9324"), ("sec-fetch-site", "cross-site")],
            &[("origin", "http://localhost")],
        ] {
            assert!(matches!(tested(&hosts, "/", bad), Err(SqsError::OtherSite(_))), "{bad:?}");
        }
    }
}
