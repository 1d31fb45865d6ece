//! The receiving ends of a node's links: what came by which connection, and from whom something comes.

use std::collections::BTreeMap;
use std::sync::atomic::{AtomicBool, AtomicU64, Ordering};
use std::sync::Arc;
use std::time::{Duration, Instant};

use tokio::sync::Notify;

use super::connections::{next_connection, Acknowledging, Linked};

/// From whom nothing came for so long isn't heard any more.
const HEARD: Duration = Duration::from_secs(1);

/// Nor is one whose connection has ended, if no other one begins in so long.
const RECONNECTING: Duration = Duration::from_millis(300);

/// The receiving end of a link.
struct Peer {
    /// The connection that counts.
    connection: u64,
    /// The number of the last frame.
    received: u64,
    /// Until when it counts as heard, if something came of it.
    heard_until: Option<Instant>,
    acknowledging: Arc<Acknowledging>,
}

/// The receiving ends of all links, by the servers at their other ends.
#[derive(Default)]
pub struct Peers(BTreeMap<u32, Peer>);

impl Peers {
    /// The link goes on over a new connection: what comes by an earlier one counts no more.
    pub fn begin_connection(&mut self, from: u32) -> Linked {
        let connection = next_connection();
        let before = self.0.get(&from);
        let (received, heard_until) = before.map_or((0, None), |peer| (peer.received, peer.heard_until));
        let acknowledging = Arc::new(Acknowledging {
            received: AtomicU64::new(received),
            is_over: AtomicBool::new(false),
            wake: Notify::new(),
        });
        let peer = Peer { connection, received, heard_until, acknowledging: acknowledging.clone() };
        if let Some(before) = self.0.insert(from, peer) {
            before.acknowledging.end();
        }
        Linked { connection, received, acknowledging }
    }

    /// Something comes by a connection. Says whether that one counts.
    pub fn came(&mut self, from: u32, connection: u64) -> bool {
        let Some(peer) = self.0.get_mut(&from).filter(|peer| peer.connection == connection) else { return false };
        peer.heard_until = Some(Instant::now() + HEARD);
        true
    }

    /// Whether that frame is the next one of its link. If so it counts as received.
    pub fn is_next(&mut self, from: u32, frame: u64) -> bool {
        let Some(peer) = self.0.get_mut(&from) else { return false };
        if frame != peer.received + 1 {
            tracing::warn!(from, frame, received = peer.received, "a frame comes out of its turn: its connection ends");
            peer.acknowledging.end();
            // What comes before the next connection counts no more.
            peer.connection = 0;
            return false;
        }
        peer.received = frame;
        peer.acknowledging.received.store(frame, Ordering::Release);
        peer.acknowledging.wake.notify_one();
        true
    }

    /// A connection has ended. Where the other end lives it soon begins another one.
    pub fn ended(&mut self, from: u32, connection: u64) {
        if let Some(peer) = self.0.get_mut(&from).filter(|peer| peer.connection == connection) {
            let soon = Instant::now() + RECONNECTING;
            peer.heard_until = peer.heard_until.map(|until| until.min(soon));
        }
    }

    /// Nothing of that server counts any more. It begins a new connection, and is told there that it is gone.
    pub fn remove(&mut self, from: u32) {
        if let Some(peer) = self.0.remove(&from) {
            peer.acknowledging.end();
        }
    }

    /// Those that are heard.
    pub fn heard(&self) -> Vec<u32> {
        let is_heard = |peer: &Peer| peer.heard_until.is_some_and(|until| Instant::now() < until);
        self.0.iter().filter(|(_, peer)| is_heard(peer)).map(|(server, _)| *server).collect()
    }

    /// Whether a server was heard, and isn't any more. This process goes on since `awake`: of what came while it stood still it
    /// may have read nothing yet.
    pub fn is_silent(&self, server: u32, awake: Instant) -> bool {
        let until = self.0.get(&server).and_then(|peer| peer.heard_until);
        until.is_some_and(|until| Instant::now() >= until.max(awake + HEARD))
    }
}

#[cfg(test)]
mod tests {
    use super::*;

    /// What was heard by then counts as earlier by so much.
    fn pass(peers: &mut Peers, time: Duration) {
        for peer in peers.0.values_mut() {
            peer.heard_until = peer.heard_until.and_then(|until| until.checked_sub(time));
        }
    }

    fn long_ago() -> Instant {
        Instant::now().checked_sub(10 * HEARD).unwrap()
    }

    #[test]
    fn what_comes_by_an_earlier_connection_counts_no_more() {
        let mut peers = Peers::default();
        assert!(!peers.came(1, 7) && !peers.is_next(1, 1));
        let first = peers.begin_connection(1);
        assert!(peers.came(1, first.connection) && peers.is_next(1, 1) && peers.is_next(1, 2));
        let second = peers.begin_connection(1);
        assert_eq!((second.received, first.acknowledging.is_over.load(Ordering::Relaxed)), (2, true));
        assert!(!peers.came(1, first.connection) && peers.came(1, second.connection));
        assert!(!peers.is_next(1, 2) && !peers.came(1, second.connection), "out of its turn");
        peers.remove(1);
        assert_eq!(peers.begin_connection(1).received, 0);
    }

    #[test]
    fn a_server_is_heard_for_a_second_and_silent_behind_that() {
        let mut peers = Peers::default();
        let linked = peers.begin_connection(1);
        assert!(peers.heard().is_empty() && !peers.is_silent(1, long_ago()), "nothing came of it yet");
        peers.came(1, linked.connection);
        pass(&mut peers, HEARD / 2);
        assert_eq!(peers.heard(), [1]);
        pass(&mut peers, HEARD);
        assert!(peers.heard().is_empty() && peers.is_silent(1, long_ago()));
        assert!(!peers.is_silent(1, Instant::now()), "this process stood still");
        peers.came(1, linked.connection);
        assert!(!peers.is_silent(1, long_ago()));
    }

    #[test]
    fn one_whose_connection_ended_is_silent_soon_unless_another_one_begins() {
        let mut peers = Peers::default();
        let linked = peers.begin_connection(1);
        peers.came(1, linked.connection);
        peers.ended(1, linked.connection);
        assert_eq!(peers.heard(), [1]);
        pass(&mut peers, RECONNECTING);
        assert!(peers.heard().is_empty() && peers.is_silent(1, long_ago()));
        let next = peers.begin_connection(1);
        peers.came(1, next.connection);
        peers.ended(1, linked.connection);
        pass(&mut peers, RECONNECTING);
        assert_eq!(peers.heard(), [1], "that was an earlier one");
    }
}
