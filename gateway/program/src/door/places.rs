//! How many connections are served: as many as were asked for, or as the system allows open files for.

use rustix::process::{getrlimit, setrlimit, Resource, Rlimit};
use thiserror::Error;

/// So many files the gateway has open beside its connections: those of the journal, pipes of programs, sockets that
/// listen. They are kept back, so that none is missing when it is needed.
const OWN_FILES: u64 = 96;

/// So many connections above the bound are told so at once. More wait until these have ended.
const TURNED_AWAY_CONNECTIONS: u64 = 256;

/// So many connections of operators are served at once.
const OPERATOR_CONNECTIONS: u64 = 32;

/// With fewer connections nothing can be served.
const LEAST_CONNECTIONS: u64 = 8;

/// How many connections of each kind are served at once.
#[derive(Clone, Copy, Debug, PartialEq, Eq)]
pub struct Places {
    pub served: u32,
    pub turned_away: u32,
    pub operators: u32,
}

#[derive(Debug, Error, PartialEq, Eq)]
#[error("the system allows {0} open files, and the gateway needs {} at least: ulimit -n raises that", OWN_FILES + 2 * LEAST_CONNECTIONS)]
pub struct TooFewFiles(u64);

impl Places {
    /// Raises the limit of open files to what so many connections need, if the system allows it. Otherwise fewer are
    /// served, and the log says how many.
    pub fn for_connections(wanted: u32) -> Result<Places, TooFewFiles> {
        Places::with_files(wanted, 1)
    }

    /// The same for a front, which has a connection to a gateway for each one of a client.
    pub fn for_front(wanted: u32) -> Result<Places, TooFewFiles> {
        Places::with_files(wanted, 2)
    }

    /// The same where each connection needs so many files.
    fn with_files(wanted: u32, each: u64) -> Result<Places, TooFewFiles> {
        let needed = OWN_FILES + TURNED_AWAY_CONNECTIONS + OPERATOR_CONNECTIONS + each * u64::from(wanted);
        let now = getrlimit(Resource::Nofile);
        let allowed = now.maximum.map_or(needed, |most| needed.min(most));
        let mut limit = now.current.unwrap_or(needed);
        if limit < allowed {
            match setrlimit(Resource::Nofile, Rlimit { current: Some(allowed), maximum: now.maximum }) {
                Ok(()) => limit = allowed,
                Err(error) => tracing::warn!("the limit of open files stays as it is: {error}"),
            }
        }
        let places = Places::within(limit, wanted, each)?;
        if places.served < wanted {
            tracing::warn!(
                "the system allows {limit} open files, so {} connections are served at once, and not {wanted}: \
                 ulimit -n raises that",
                places.served
            );
        }
        Ok(places)
    }

    fn within(limit: u64, wanted: u32, each: u64) -> Result<Places, TooFewFiles> {
        let free = limit.saturating_sub(OWN_FILES);
        let turned_away = TURNED_AWAY_CONNECTIONS.min(free / 8).max(1);
        let operators = OPERATOR_CONNECTIONS.min(free / 8).max(1);
        let served = (free.saturating_sub(turned_away + operators) / each).min(u64::from(wanted));
        if served < LEAST_CONNECTIONS.min(u64::from(wanted)) {
            return Err(TooFewFiles(limit));
        }
        Ok(Places { served: served as u32, turned_away: turned_away as u32, operators: operators as u32 })
    }
}

#[cfg(test)]
mod tests {
    use super::*;

    #[test]
    fn files_of_its_own_are_kept_back() {
        let places = |served, turned_away, operators| Ok(Places { served, turned_away, operators });
        assert_eq!(Places::within(1 << 20, 10_000, 1), places(10_000, 256, 32));
        assert_eq!(Places::within(10_384, 10_000, 1), places(10_000, 256, 32));
        assert_eq!(Places::within(1_024, 10_000, 1), places(780, 116, 32));
        assert_eq!(Places::within(256, 200, 1), places(120, 20, 20));
        assert_eq!(Places::within(1_024, 1, 1), places(1, 116, 32));
        assert_eq!(Places::within(100, 10_000, 1), Err(TooFewFiles(100)));
        assert_eq!(Places::within(20_000, 10_000, 2), places(9_808, 256, 32));
        for (limit, each) in (0..5_000).flat_map(|limit| [(limit, 1), (limit, 2)]) {
            if let Ok(Places { served, turned_away, operators }) = Places::within(limit, 10_000, each) {
                assert!(each * u64::from(served) + u64::from(turned_away + operators) + OWN_FILES <= limit);
            }
        }
    }
}
