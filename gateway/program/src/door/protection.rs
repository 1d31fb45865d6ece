//! The handshake of TLS, and whom it lets in.

use std::future::Future;
use std::io;
use std::net::SocketAddr;
use std::pin::Pin;
use std::sync::Arc;
use std::time::Duration;

use hobbychair_cluster::identity::{Identity, Role};
use hobbychair_cluster::log_limit::LogLimit;
use hobbychair_cluster::transport::Stream;
use tokio::net::TcpStream;
use tokio::time::timeout;
use tokio_rustls::server::TlsStream;

use super::certificate::Certificate;
use crate::ending::Ending;

/// So long whoever comes may take to begin TLS.
const LONGEST_HANDSHAKE: Duration = Duration::from_secs(10);

/// It is large, and connections without one don't pay for it.
type Handshake<'a> = Pin<Box<dyn Future<Output = io::Result<TlsStream<TcpStream>>> + Send + 'a>>;

/// By what connections are protected.
pub enum Protection {
    None,
    /// Whoever comes is shown this.
    Certificate(Arc<Certificate>),
    /// The fronts of a cluster alone come in, which show who they are.
    Fronts(FrontsOnly),
}

/// How fronts of a cluster are told from others.
pub struct FrontsOnly {
    identity: Arc<Identity>,
    /// Connections that aren't fronts'.
    refused: LogLimit,
}

impl Protection {
    /// Whoever comes is shown this certificate, if it is there.
    pub fn by(certificate: Option<Arc<Certificate>>) -> Protection {
        certificate.map_or(Protection::None, Protection::Certificate)
    }

    /// The fronts of the cluster of this certificate alone come in.
    pub fn for_fronts(identity: Arc<Identity>) -> Protection {
        Protection::Fronts(FrontsOnly { identity, refused: LogLimit::default() })
    }

    /// The stream of a connection, once its TLS has begun, where it is to. Nothing where none came about in time, or before the end.
    pub(super) async fn secured(&self, stream: TcpStream, peer: SocketAddr, ending: &mut Ending) -> Option<Stream> {
        let handshake: Handshake<'_> = match self {
            Protection::None => return Some(Stream::Tcp(stream)),
            Protection::Certificate(certificate) => Box::pin(certificate.acceptor().accept(stream)),
            Protection::Fronts(fronts) => Box::pin(fronts.take_in(stream)),
        };
        let shaken = tokio::select! {
            shaken = timeout(LONGEST_HANDSHAKE, handshake) => shaken,
            () = ending.comes() => return None,
        };
        let why = match shaken {
            Ok(Ok(stream)) => return Some(Stream::Tls(Box::new(stream.into()))),
            Ok(Err(error)) if has_gone(&error) => {
                tracing::debug!(%peer, "no TLS came about: {error}");
                return None;
            }
            Ok(Err(error)) => error.to_string(),
            Err(_) => "it says nothing".into(),
        };
        match self {
            Protection::Fronts(fronts) => fronts.tell_refused(peer, &why),
            _ => tracing::debug!(%peer, "no TLS came about: {why}"),
        }
        None
    }
}

impl FrontsOnly {
    /// Takes in a front of the cluster. A node may be one, too.
    async fn take_in(&self, stream: TcpStream) -> io::Result<TlsStream<TcpStream>> {
        let (stream, peer) = self.identity.accept(stream).await?;
        let refused = |why| io::Error::new(io::ErrorKind::InvalidData, why);
        peer.test(&[Role::Front, Role::Node]).map_err(refused)?;
        Ok(stream)
    }

    /// Anybody may connect as often as he likes, so the log tells how many were refused, and why the last one was.
    fn tell_refused(&self, peer: SocketAddr, why: &str) {
        if let Some(count) = self.refused.count() {
            tracing::warn!(%peer, count, "who is no front of the cluster is refused: {why}");
        }
    }
}

/// Whether somebody looked whether the port is open, and no more.
fn has_gone(error: &io::Error) -> bool {
    matches!(error.kind(), io::ErrorKind::UnexpectedEof | io::ErrorKind::ConnectionReset)
}
