//! Paths, and the URLs that clients are told.

use std::net::SocketAddr;

use hyper::header::{HeaderMap, HOST};

use crate::door::is_of_this_machine;

/// A path at which there is nothing.
#[derive(Debug)]
pub struct NotFound;

/// The queue that a path names: `/` names none, and `/{account}/{queue}` one. So do the forms that others give out:
/// `/{region}/{account}/{queue}`, `/queue/{queue}` and `/queue/{region}/{account}/{queue}`. A slash may stand behind each.
pub fn queue_of_path(path: &str) -> Result<Option<&str>, NotFound> {
    let path = path.strip_prefix('/').unwrap_or(path);
    if path.is_empty() {
        return Ok(None);
    }
    let parts: Vec<&str> = path.strip_suffix('/').unwrap_or(path).split('/').collect();
    match parts[..] {
        _ if parts.iter().any(|part| part.is_empty()) => Err(NotFound),
        [_, queue] | [_, _, queue] | ["queue", _, _, queue] => Ok(Some(queue)),
        _ => Err(NotFound),
    }
}

/// Where the gateway is reached.
pub struct Addresses {
    /// What was said at the start, if anything was.
    pub url: Option<String>,
    /// The socket that listens.
    pub local: SocketAddr,
    pub has_tls: bool,
    /// Fronts of a cluster alone ask here: they say by which scheme their clients came.
    pub behind_fronts: bool,
}

impl Addresses {
    pub fn scheme(&self) -> &'static str {
        if self.has_tls {
            "https"
        } else {
            "http"
        }
    }

    /// The URL before `/{account}/{queue}` in what a client is told: the one that was said at the start, or else the
    /// host that the client names. A client of this machine may be a proxy, so what it says of the scheme is believed, and
    /// so is what a front says.
    pub fn base_url(&self, headers: &HeaderMap, peer: SocketAddr) -> String {
        if let Some(url) = &self.url {
            return url.clone();
        }
        let own = self.scheme();
        let is_believed = self.behind_fronts || is_of_this_machine(peer.ip());
        let scheme = if is_believed { forwarded_scheme(headers).unwrap_or(own) } else { own };
        match headers.get(HOST).and_then(|host| host.to_str().ok()).filter(|host| is_authority(host)) {
            Some(host) => format!("{scheme}://{host}"),
            None => format!("{scheme}://{}", self.local),
        }
    }
}

/// Of several proxies the first one, which the client spoke to, stands first.
fn forwarded_scheme(headers: &HeaderMap) -> Option<&'static str> {
    let said = headers.get("x-forwarded-proto")?.to_str().ok()?;
    match said.split(',').next().map(str::trim) {
        Some("https") => Some("https"),
        Some("http") => Some("http"),
        _ => None,
    }
}

/// The longest name of a host, with a port.
const LONGEST_AUTHORITY_BYTES: usize = 260;

fn is_authority(host: &str) -> bool {
    (1..=LONGEST_AUTHORITY_BYTES).contains(&host.len())
        && host.bytes().all(|byte| byte.is_ascii_alphanumeric() || b".-_:[]%~".contains(&byte))
}

#[cfg(test)]
mod tests {
    use super::*;

    #[test]
    fn paths() {
        assert!(matches!(queue_of_path("/"), Ok(None)));
        for good in ["/1/q.fifo", "/1/q.fifo/", "/r/1/q.fifo", "/r/1/q.fifo/", "/queue/q.fifo", "/queue/r/1/q.fifo"] {
            assert!(matches!(queue_of_path(good), Ok(Some("q.fifo"))), "{good}");
        }
        for bad in ["/1", "/1/", "//q", "//", "/1//q", "/1/q//", "/1/2/3/4", "/queue/1/2/3/4"] {
            assert!(queue_of_path(bad).is_err(), "{bad}");
        }
    }

    fn base_url(addresses: &Addresses, peer: &str, headers: &[(&'static str, &str)]) -> String {
        let headers = headers.iter().map(|(name, value)| (name.parse().unwrap(), value.parse().unwrap())).collect();
        addresses.base_url(&headers, peer.parse().unwrap())
    }

    #[test]
    fn urls_have_the_host_that_the_client_names() {
        let mut addresses =
            Addresses { url: None, local: "127.0.0.1:9324".parse().unwrap(), has_tls: false, behind_fronts: false };
        let (near, far) = ("127.0.0.1:5", "10.1.2.3:5");
        assert_eq!(base_url(&addresses, near, &[]), "http://127.0.0.1:9324");
        assert_eq!(base_url(&addresses, far, &[("host", "queues:80")]), "http://queues:80");
        assert_eq!(base_url(&addresses, far, &[("host", "a\"b")]), "http://127.0.0.1:9324");
        let proxied = [("host", "queues"), ("x-forwarded-proto", "https, http")];
        assert_eq!(base_url(&addresses, near, &proxied), "https://queues");
        assert_eq!(base_url(&addresses, "[::ffff:127.0.0.1]:5", &proxied), "https://queues");
        assert_eq!(base_url(&addresses, far, &proxied), "http://queues");
        assert_eq!(base_url(&addresses, near, &[("host", "queues"), ("x-forwarded-proto", "ftp")]), "http://queues");
        addresses.behind_fronts = true;
        assert_eq!(base_url(&addresses, far, &proxied), "https://queues");
        assert_eq!(base_url(&addresses, far, &[("host", "queues")]), "http://queues");
        addresses.has_tls = true;
        assert_eq!(base_url(&addresses, far, &[("host", "[::1]:9324")]), "https://[::1]:9324");
        addresses.url = Some("https://known".into());
        assert_eq!(base_url(&addresses, near, &proxied), "https://known");
    }
}
