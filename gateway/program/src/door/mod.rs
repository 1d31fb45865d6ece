//! The door: connections are accepted, by TLS or without, as many as there are places for, until the end comes.
//!
//! Clients, fronts and operators come by it. What they ask for, and what they are answered, is nothing to it.

mod certificate;
mod conversation;
mod framing;
mod listening;
mod places;
mod protection;
mod watched;

use std::future::Future;
use std::net::SocketAddr;
use std::os::unix::io::{AsRawFd, RawFd};
use std::sync::Arc;
use std::time::Duration;

use hobbychair_cluster::transport::Stream;
use prometheus::IntGauge;
use tokio::net::TcpListener;
use tokio::sync::{OwnedSemaphorePermit, Semaphore};

use crate::ending::Ending;
use crate::metrics::Counted;
pub use certificate::Certificate;
pub use conversation::{converse, upgraded, LONGEST_HEAD_BYTES, LONGEST_REQUEST};
pub use listening::{is_of_this_machine, listen, shared, test_free, test_near};
pub use places::Places;
pub use protection::Protection;
pub use watched::Progress;

/// Between two looks for a connection where accepting them failed.
const ACCEPT_PAUSE: Duration = Duration::from_millis(50);

/// How connections are taken in.
pub struct Door {
    protection: Arc<Protection>,
    /// As many are served at once.
    served: u32,
    /// As many above that are told so at once.
    turned_away: u32,
    /// Counts the connections that are open.
    open: Option<IntGauge>,
}

/// A connection over which requests come.
pub struct Guest {
    pub stream: Stream,
    /// It is open as long as the stream.
    pub socket: RawFd,
    pub peer: SocketAddr,
    /// Where it isn't, it is one too many, and is to be told so.
    pub is_served: bool,
    pub ending: Ending,
}

impl Door {
    /// Serves so many connections at once. More wait until there is a place.
    pub fn new(protection: Protection, served: u32) -> Door {
        Door { protection: Arc::new(protection), served, turned_away: 0, open: None }
    }

    /// The same, where so many connections above that are told so at once. More wait until these have ended.
    pub fn turning_away(self, turned_away: u32) -> Door {
        Door { turned_away, ..self }
    }

    /// The same, where the connections that are open are counted.
    pub fn counted_by(self, gauge: IntGauge) -> Door {
        Door { open: Some(gauge), ..self }
    }

    /// Gives each connection to `welcome` until the end comes, and then waits until all that are served have ended. Whoever calls
    /// this says how long that may take. A connection whose TLS doesn't come about in time ends.
    pub async fn serve<W, F>(self, listener: TcpListener, mut ending: Ending, welcome: W)
    where
        W: Fn(Guest) -> F + Clone + Send + 'static,
        F: Future<Output = ()> + Send,
    {
        let served = Arc::new(Semaphore::new(self.served as usize));
        let turned_away = Arc::new(Semaphore::new(self.turned_away as usize));
        loop {
            let accepted = tokio::select! {
                accepted = listener.accept() => accepted,
                () = ending.comes() => break,
            };
            let (stream, peer) = match accepted {
                Ok(accepted) => accepted,
                Err(error) => {
                    tracing::warn!("no connection can be accepted: {error}");
                    tokio::time::sleep(ACCEPT_PAUSE).await;
                    continue;
                }
            };
            let Some((place, is_served)) = enter(&served, &turned_away).await else { break };
            let kept = (place, self.open.as_ref().map(Counted::one_more));
            let (protection, mut ending, welcome) = (self.protection.clone(), ending.clone(), welcome.clone());
            tokio::spawn(async move {
                let _kept = kept;
                // Where this fails, small answers wait a little longer.
                let _ = stream.set_nodelay(true);
                let socket = stream.as_raw_fd();
                if let Some(stream) = protection.secured(stream, peer, &mut ending).await {
                    welcome(Guest { stream, socket, peer, is_served, ending }).await;
                }
            });
        }
        drop(listener);
        let _ = served.acquire_many(self.served).await;
    }
}

/// A permit to be served, or else one to be turned away: the first of them that is free.
async fn enter(served: &Arc<Semaphore>, turned_away: &Arc<Semaphore>) -> Option<(OwnedSemaphorePermit, bool)> {
    tokio::select! {
        biased;
        permit = served.clone().acquire_owned() => permit.ok().map(|permit| (permit, true)),
        permit = turned_away.clone().acquire_owned() => permit.ok().map(|permit| (permit, false)),
    }
}

#[cfg(test)]
mod tests {
    use tokio::io::{AsyncReadExt, AsyncWriteExt};
    use tokio::net::TcpStream;
    use tokio::time::timeout;

    use super::*;
    use crate::ending::End;

    #[tokio::test]
    async fn whoever_waits_to_be_turned_away_is_served_where_that_is_free_first() {
        let (open, turned_away) = (Arc::new(Semaphore::new(1)), Arc::new(Semaphore::new(1)));
        let (first, is_served) = enter(&open, &turned_away).await.unwrap();
        assert!(is_served);
        let (_second, is_served) = enter(&open, &turned_away).await.unwrap();
        assert!(!is_served);
        let waiting = tokio::spawn(async move { enter(&open, &turned_away).await });
        tokio::task::yield_now().await;
        assert!(!waiting.is_finished());
        drop(first);
        let third = timeout(Duration::from_secs(5), waiting).await.expect("a place is free").unwrap();
        assert!(third.unwrap().1);
    }

    /// Says a byte to each guest, and ends once that one has said one.
    async fn greet(Guest { mut stream, is_served, .. }: Guest) {
        stream.write_all(if is_served { b"s" } else { b"t" }).await.unwrap();
        stream.read_u8().await.unwrap();
    }

    async fn greeted(at: SocketAddr) -> (TcpStream, u8) {
        let mut stream = TcpStream::connect(at).await.unwrap();
        let word = stream.read_u8().await.unwrap();
        (stream, word)
    }

    #[tokio::test]
    async fn more_wait_for_a_place_and_the_end_waits_for_those_that_are_served() {
        let listener = listen("127.0.0.1", 0).unwrap();
        let at = listener.local_addr().unwrap();
        let (end, ending) = End::new();
        let serving = tokio::spawn(Door::new(Protection::None, 1).turning_away(1).serve(listener, ending, greet));
        let ((mut first, one), (_second, other)) = (greeted(at).await, greeted(at).await);
        assert_eq!((one, other), (b's', b't'));
        let waiting = tokio::spawn(greeted(at));
        tokio::time::sleep(Duration::from_millis(50)).await;
        assert!(!waiting.is_finished());
        first.write_all(b"x").await.unwrap();
        let (mut third, word) = timeout(Duration::from_secs(5), waiting).await.expect("a place is free").unwrap();
        assert_eq!(word, b's');
        end.announce();
        tokio::time::sleep(Duration::from_millis(50)).await;
        assert!(!serving.is_finished() && TcpStream::connect(at).await.is_err());
        third.write_all(b"x").await.unwrap();
        timeout(Duration::from_secs(5), serving).await.expect("all have ended").unwrap();
    }
}
