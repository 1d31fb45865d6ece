//! How a front stays in contact with all servers of a chain: it pings each, and tells it by that which gateways' ports it reaches.
//! Nodes tell of that in their beats.

use std::collections::BTreeMap;
use std::io;
use std::net::SocketAddr;
use std::sync::{Arc, Mutex};
use std::time::{Duration, Instant};

use hobbychair_bytes::parts::Frames;
use tokio::net::TcpStream;
use tokio::task::JoinHandle;
use tokio::time::{interval, sleep, timeout, MissedTickBehavior};

use crate::identity::Identity;
use crate::lock;
use crate::records::Registration;
use crate::transport::{self, Reading};
use crate::wire::{About, Frame, GREETING_LIMIT_BYTES};

/// So often a server is pinged.
const PING: Duration = Duration::from_millis(300);

/// A connection may take so long to begin, and what is written or awaited on it.
const QUIET: Duration = Duration::from_secs(2);

/// So long it takes until the next try.
const PAUSE: Duration = Duration::from_millis(300);

/// So often a gateway's port is tried.
const TRIAL: Duration = Duration::from_millis(500);

/// A connection to a gateway's port comes about in this time.
const CONNECTING: Duration = Duration::from_secs(1);

/// A gateway that was heard within this time is reached.
const HEARD: Duration = Duration::from_secs(1);

/// Which gateways' ports a front reaches.
#[derive(Default)]
pub struct Reach(Mutex<ReachState>);

#[derive(Default)]
struct ReachState {
    head: Option<u32>,
    reached: BTreeMap<u32, bool>,
    /// When the gateway of a server was heard last by which requests go.
    heard: Option<(u32, Instant)>,
}

impl Reach {
    /// Requests go to the gateway of that server.
    pub fn know_head(&self, head: Option<u32>) {
        lock(&self.0).head = head;
    }

    /// The gateway of that server answers requests.
    pub fn hear(&self, server: u32) {
        lock(&self.0).heard = Some((server, Instant::now()));
    }

    fn is_heard(&self, server: u32) -> bool {
        lock(&self.0).heard.is_some_and(|(heard, moment)| heard == server && moment.elapsed() <= HEARD)
    }

    /// Whether its port is reached has been found out. Says whether that is news.
    fn find(&self, server: u32, is_reached: bool) -> bool {
        lock(&self.0).reached.insert(server, is_reached) != Some(is_reached)
    }

    /// The ping for a server.
    fn ping(&self, server: u32) -> Frame {
        let known = lock(&self.0);
        let reaches = |server: u32| known.reached.get(&server) == Some(&true);
        match known.head {
            Some(head) => Frame::Reach { head, reaches_head: reaches(head), reaches_this: reaches(server) },
            // A front keeps no time of its own.
            None => Frame::Ping { time: 0 },
        }
    }
}

/// Pings servers and tries their gateways' ports, each by a task of its own, which ends with this.
pub struct Witness {
    about: About,
    identity: Option<Arc<Identity>>,
    reach: Arc<Reach>,
    pinging: BTreeMap<u32, JoinHandle<()>>,
}

impl Witness {
    pub fn new(about: About, identity: Option<Arc<Identity>>, reach: Arc<Reach>) -> Witness {
        Witness { about, identity, reach, pinging: BTreeMap::new() }
    }

    /// From now on these servers are pinged, and no others.
    pub fn ping(&mut self, servers: &BTreeMap<u32, Registration>) {
        self.pinging.retain(|server, task| {
            let stays = servers.contains_key(server);
            if !stays {
                task.abort();
            }
            stays
        });
        for (server, registration) in servers {
            let begin = || {
                let (about, identity, reach) = (self.about.clone(), self.identity.clone(), self.reach.clone());
                let (server, registration) = (*server, registration.clone());
                tokio::spawn(async move {
                    let pinging = keep(server, &registration, about, identity, &reach);
                    tokio::join!(pinging, try_port(server, registration.gateway, &reach));
                })
            };
            self.pinging.entry(*server).or_insert_with(begin);
        }
    }
}

impl Drop for Witness {
    fn drop(&mut self) {
        self.pinging.values().for_each(JoinHandle::abort);
    }
}

async fn keep(server: u32, to: &Registration, about: About, identity: Option<Arc<Identity>>, reach: &Reach) {
    let mut said = String::new();
    loop {
        let Err(error) = ping(server, to, &about, identity.as_deref(), reach).await;
        // A reason is told once.
        let why = error.to_string();
        if why != said {
            tracing::info!(server, %error, "no contact with a server");
        }
        said = why;
        sleep(PAUSE).await;
    }
}

/// Pings by one connection until it breaks.
async fn ping(
    server: u32,
    to: &Registration,
    about: &About,
    identity: Option<&Identity>,
    reach: &Reach,
) -> io::Result<std::convert::Infallible> {
    let (reading, mut writing) = timeout(QUIET, transport::connect(identity, to)).await??;
    let mut reading = Frames::new(reading, GREETING_LIMIT_BYTES);
    let mut bytes = Frame::Front { about: about.clone() }.bytes();
    let mut pings = interval(PING);
    pings.set_missed_tick_behavior(MissedTickBehavior::Delay);
    loop {
        pings.tick().await;
        bytes.extend(reach.ping(server).bytes());
        timeout(QUIET, transport::write(&mut writing, &bytes)).await??;
        bytes.clear();
        hear(&mut reading).await?;
    }
}

async fn hear(reading: &mut Frames<Reading>) -> io::Result<()> {
    let bytes = timeout(QUIET, reading.next()).await??;
    match Frame::read(bytes) {
        Ok(Frame::Ping { .. }) => Ok(()),
        Ok(Frame::Away { why }) => Err(io::Error::new(io::ErrorKind::Other, why)),
        _ => Err(io::Error::new(io::ErrorKind::InvalidData, "it answers with another frame")),
    }
}

/// Tries for good whether the port of a server's gateway is reached. One by which requests are answered needs no try.
async fn try_port(server: u32, at: Option<SocketAddr>, reach: &Reach) {
    let Some(at) = at else { return };
    loop {
        let is_reached = reach.is_heard(server) || is_open(at).await;
        match (reach.find(server, is_reached), is_reached) {
            (true, true) => tracing::info!(server, %at, "the port of a gateway is reached"),
            (true, false) => tracing::warn!(server, %at, "the port of a gateway isn't reached"),
            (false, _) => {}
        }
        sleep(TRIAL).await;
    }
}

/// Whether a connection comes about. Where a gateway isn't needed yet its node ends it at once, which says the same.
async fn is_open(at: SocketAddr) -> bool {
    match timeout(CONNECTING, TcpStream::connect(at)).await {
        Ok(Ok(_)) => true,
        // It was there. A port that is closed or rejected refuses it.
        Ok(Err(error)) => matches!(error.kind(), io::ErrorKind::ConnectionReset | io::ErrorKind::BrokenPipe),
        Err(_) => false,
    }
}

#[cfg(test)]
mod tests {
    use super::*;

    #[test]
    fn a_ping_says_what_was_found_out_by_then() {
        let reach = Reach::default();
        assert_eq!(reach.ping(2), Frame::Ping { time: 0 });
        reach.know_head(Some(1));
        let said = |reaches_head, reaches_this| Frame::Reach { head: 1, reaches_head, reaches_this };
        assert_eq!(reach.ping(2), said(false, false));
        assert!(reach.find(1, true) && reach.find(2, false) && reach.find(3, true) && !reach.find(3, true));
        assert_eq!(
            [reach.ping(1), reach.ping(2), reach.ping(3)],
            [said(true, true), said(true, false), said(true, true)]
        );
        assert!(reach.find(1, false));
        assert_eq!([reach.ping(1), reach.ping(3)], [said(false, false), said(false, true)]);
        reach.hear(1);
        assert!(reach.is_heard(1) && !reach.is_heard(3));
    }

    #[tokio::test]
    async fn a_port_is_reached_whether_anybody_answers_there_or_not() {
        let listener = tokio::net::TcpListener::bind("127.0.0.1:0").await.unwrap();
        let at = listener.local_addr().unwrap();
        assert!(is_open(at).await, "nobody accepts");
        let ends = tokio::spawn(async move {
            loop {
                let (stream, _) = listener.accept().await.unwrap();
                stream.set_linger(Some(Duration::ZERO)).unwrap();
            }
        });
        for _ in 0..200 {
            assert!(is_open(at).await, "each is ended at once");
        }
        ends.abort();
        assert!(ends.await.unwrap_err().is_cancelled());
        assert!(!is_open(at).await);
    }
}
