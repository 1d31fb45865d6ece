//! The port of the gateway beside a node. The node keeps it from its own start on and hands it to each gateway that it starts, so
//! that no other program takes it in between.
//!
//! While no gateway may ask, the node ends each connection that comes, by a reset. Who tries learns at once that nobody serves
//! there, and looks again which gateway acts; what waited would fill the queue of the socket, and a front would take a
//! connection that nobody will answer for one that only takes long. That the connection came about shows that the port is
//! reached.

use std::io;
use std::net::SocketAddr;
use std::os::fd::{AsFd, OwnedFd};
use std::sync::Arc;
use std::time::Duration;

use anyhow::{Context, Result};
use tokio::net::{TcpListener, TcpSocket};
use tokio::sync::watch;
use tokio::time::sleep;

use super::GatewaySettings;

/// How many connections may wait to be accepted.
const BACKLOG: u32 = 4096;

/// So long accepting rests where the system has no more descriptors.
const REST: Duration = Duration::from_millis(100);

/// How a gateway is started, and the socket that listens for it.
pub struct Port {
    pub settings: GatewaySettings,
    listener: std::net::TcpListener,
    /// Whether a gateway takes connections there.
    is_taken: watch::Sender<bool>,
}

impl Port {
    /// Takes the address. An error says which it is.
    pub fn keep(settings: GatewaySettings) -> Result<Arc<Port>> {
        let at = settings.place.listen;
        let listener = listen(at).with_context(|| format!("can't listen on {at} for the gateway"))?;
        let (is_taken, _) = watch::channel(false);
        let port = Arc::new(Port { settings, listener, is_taken });
        tokio::spawn(turn_away(port.clone()));
        Ok(port)
    }

    /// One more descriptor of the socket.
    pub fn socket(&self) -> io::Result<OwnedFd> {
        self.listener.as_fd().try_clone_to_owned()
    }

    /// From now on a gateway takes connections, or none does.
    pub fn is_taken(&self, is_taken: bool) {
        self.is_taken.send_replace(is_taken);
    }
}

fn listen(at: SocketAddr) -> io::Result<std::net::TcpListener> {
    let socket = if at.is_ipv4() { TcpSocket::new_v4()? } else { TcpSocket::new_v6()? };
    // So that a node can begin again at once. A second one still finds the address in use.
    socket.set_reuseaddr(true)?;
    socket.bind(at)?;
    socket.listen(BACKLOG)?.into_std()
}

/// Ends connections for good while no gateway takes them.
async fn turn_away(port: Arc<Port>) {
    let mut is_taken = port.is_taken.subscribe();
    loop {
        while *is_taken.borrow_and_update() {
            if is_taken.changed().await.is_err() {
                return;
            }
        }
        // A gateway shares the socket: this wakes for its connections only as long as it is there.
        let ended = tokio::select! {
            ended = end_all(&port) => ended,
            _ = is_taken.changed() => Ok(()),
        };
        if let Err(error) = ended {
            tracing::warn!(%error, "no connection to the gateway's port can be ended");
            sleep(REST).await;
        }
    }
}

async fn end_all(port: &Port) -> io::Result<()> {
    let listener = TcpListener::from_std(std::net::TcpListener::from(port.socket()?))?;
    loop {
        let (stream, _) = listener.accept().await?;
        // A reset, by which nothing is kept of it.
        let _ = stream.set_linger(Some(Duration::ZERO));
    }
}

#[cfg(test)]
mod tests {
    use tokio::io::AsyncReadExt;
    use tokio::net::TcpStream;
    use tokio::time::timeout;

    use super::*;
    use crate::addresses::Place;

    fn keep(listen: &str) -> Result<Arc<Port>> {
        let place = Place { listen: listen.parse().unwrap(), advertise: None };
        Port::keep(GatewaySettings { place, config: None })
    }

    /// How a connection ends to which nobody says anything; nothing if it goes on.
    async fn end(at: SocketAddr) -> Option<io::Error> {
        let connected = async {
            let mut stream = TcpStream::connect(at).await?;
            stream.read_u8().await
        };
        timeout(Duration::from_millis(300), connected).await.ok()?.err()
    }

    #[tokio::test]
    async fn connections_are_ended_at_once_unless_a_gateway_takes_them() {
        let port = keep("127.0.0.1:0").unwrap();
        let at = port.listener.local_addr().unwrap();
        for _ in 0..100 {
            assert_eq!(end(at).await.unwrap().kind(), io::ErrorKind::ConnectionReset);
        }
        port.is_taken(true);
        tokio::task::yield_now().await;
        let gateway = TcpListener::from_std(std::net::TcpListener::from(port.socket().unwrap())).unwrap();
        for _ in 0..100 {
            let (connected, accepted) = tokio::join!(TcpStream::connect(at), gateway.accept());
            let (mut one, _other) = (connected.unwrap(), accepted.unwrap());
            assert!(timeout(Duration::from_millis(1), one.read_u8()).await.is_err(), "it goes on");
        }
        drop(gateway);
        // What comes while there is no gateway any more waits, and is ended then.
        let waits = tokio::spawn(end(at));
        tokio::task::yield_now().await;
        port.is_taken(false);
        assert_eq!(waits.await.unwrap().unwrap().kind(), io::ErrorKind::ConnectionReset);
        assert_eq!(end(at).await.unwrap().kind(), io::ErrorKind::ConnectionReset);
    }

    #[tokio::test]
    async fn nobody_else_takes_a_port_that_is_kept() {
        let port = keep("127.0.0.1:0").unwrap();
        let at = port.listener.local_addr().unwrap();
        let error = keep(&at.to_string()).err().unwrap();
        assert!(
            format!("{error:#}").starts_with(&format!("can't listen on {at} for the gateway: Address already in use"))
        );
        assert!(std::net::TcpListener::bind(at).is_err());
    }
}
