//! Connections: TCP, and TLS over it where there are certificates.

use std::future::Future;
use std::io;
use std::os::fd::AsRawFd;
use std::pin::Pin;
use std::sync::{Arc, Mutex};
use std::task::{Context, Poll};
use std::time::Duration;

use hyper::client::connect::{Connected, Connection};
use hyper::client::HttpConnector;
use hyper::service::Service;
use hyper::Uri;
use tokio::io::{AsyncRead, AsyncWrite, AsyncWriteExt, ReadBuf};
use tokio::net::TcpStream;
use tokio::time::timeout;
use tokio_rustls::TlsStream;

use crate::identity::{Fingerprint, Identity, PeerCertificate, Role};
use crate::lock;
use crate::records::Registration;

/// What comes over a connection.
pub type Reading = Box<dyn AsyncRead + Send + Unpin>;

/// What goes over it.
pub type Writing = Box<dyn AsyncWrite + Send + Unpin>;

/// Connects to the node of a registration. Where there are certificates, the one that was registered is at the other end.
pub async fn connect(identity: Option<&Identity>, to: &Registration) -> io::Result<(Reading, Writing)> {
    let wanted = wanted(identity, to.certificate).map_err(other)?;
    let stream = TcpStream::connect(to.address).await?;
    stream.set_nodelay(true)?;
    match identity {
        None => Ok(halves_of_tcp(stream)),
        Some(identity) => Ok(halves(identity.connect(stream, Role::Node, wanted).await?)),
    }
}

/// Takes a connection in, and says who made it, where there are certificates.
pub async fn accept(
    identity: Option<&Identity>,
    stream: TcpStream,
) -> io::Result<(Reading, Writing, Option<PeerCertificate>)> {
    stream.set_nodelay(true)?;
    let Some(identity) = identity else {
        let (reading, writing) = halves_of_tcp(stream);
        return Ok((reading, writing, None));
    };
    let (stream, peer) = identity.accept(stream).await?;
    let (reading, writing) = halves(stream);
    Ok((reading, writing, Some(peer)))
}

/// The certificate that a server has to show, as it was registered.
fn wanted(identity: Option<&Identity>, registered: Option<Fingerprint>) -> Result<Option<Fingerprint>, &'static str> {
    match (identity, registered) {
        (Some(_), None) => Err("its process was registered without a certificate"),
        (None, Some(_)) => Err("its process has a certificate, and this one has none"),
        (_, registered) => Ok(registered),
    }
}

fn halves_of_tcp(stream: TcpStream) -> (Reading, Writing) {
    let (reading, writing) = stream.into_split();
    (Box::new(reading), Box::new(writing))
}

fn halves(stream: impl AsyncRead + AsyncWrite + Send + 'static) -> (Reading, Writing) {
    let (reading, writing) = tokio::io::split(stream);
    (Box::new(reading), Box::new(writing))
}

/// Writes all of it, and keeps nothing of it back.
pub async fn write(writing: &mut (impl AsyncWrite + Unpin), bytes: &[u8]) -> io::Result<()> {
    writing.write_all(bytes).await?;
    writing.flush().await
}

fn other(why: &str) -> io::Error {
    io::Error::new(io::ErrorKind::InvalidData, why)
}

/// The certificate that has to be at an address, or why nobody there is believed.
type WantedAt = Arc<dyn Fn(&Uri) -> Result<Option<Fingerprint>, &'static str> + Send + Sync>;

/// Connects clients of HTTP: by TLS where there are certificates, whatever the scheme is.
#[derive(Clone)]
pub struct Connector {
    tcp: HttpConnector,
    identity: Option<Arc<Identity>>,
    role: Role,
    wanted: WantedAt,
    patience: Duration,
    /// Why somebody wasn't believed the last time, where that is logged.
    said: Option<Arc<Mutex<String>>>,
}

impl Connector {
    /// To those of a role. A connection has so long to come about, for TCP and for TLS.
    pub fn new(identity: Option<Arc<Identity>>, role: Role, patience: Duration) -> Connector {
        let mut tcp = HttpConnector::new();
        tcp.set_nodelay(true);
        tcp.set_connect_timeout(Some(patience));
        tcp.enforce_http(false);
        Connector { tcp, identity, role, wanted: Arc::new(|_| Ok(None)), patience, said: None }
    }

    /// The same to those alone who show the certificate that is registered for the process at an address. Why one isn't
    /// believed is logged once.
    ///
    /// `registered` knows it by the address; nothing where nobody is known to be there.
    pub fn to_registered(
        self,
        registered: impl Fn(&Uri) -> Option<Option<Fingerprint>> + Send + Sync + 'static,
    ) -> Connector {
        let identity = self.identity.clone();
        let wanted: WantedAt = Arc::new(move |uri| match registered(uri) {
            None if identity.is_some() => Err("nobody is known to be there any more"),
            registered => wanted(identity.as_deref(), registered.flatten()),
        });
        Connector { wanted, said: Some(Arc::default()), ..self }
    }
}

impl Service<Uri> for Connector {
    type Response = Stream;
    type Error = Box<dyn std::error::Error + Send + Sync>;
    type Future = Pin<Box<dyn Future<Output = Result<Stream, Self::Error>> + Send>>;

    fn poll_ready(&mut self, context: &mut Context<'_>) -> Poll<Result<(), Self::Error>> {
        self.tcp.poll_ready(context).map_err(Into::into)
    }

    fn call(&mut self, uri: Uri) -> Self::Future {
        let wanted = (self.wanted)(&uri);
        let at = uri.authority().map(ToString::to_string).unwrap_or_default();
        let connecting = self.tcp.call(uri);
        let (identity, role, patience, said) = (self.identity.clone(), self.role, self.patience, self.said.clone());
        Box::pin(async move {
            let Some(identity) = identity else {
                wanted?;
                return Ok(Stream::Tcp(connecting.await?));
            };
            let stream = connecting.await?;
            let secure = async { identity.connect(stream, role, wanted.map_err(other)?).await };
            let secured =
                timeout(patience, secure).await.unwrap_or_else(|_| Err(other("TLS doesn't come about in time")));
            if let Some(said) = said {
                tell_of(secured.as_ref().err(), &at, &said);
            }
            Ok(Stream::Tls(Box::new(secured?.into())))
        })
    }
}

/// Logs why somebody isn't believed, unless that was the reason the last time.
fn tell_of(error: Option<&io::Error>, at: &str, said: &Mutex<String>) {
    let why = error.map_or_else(String::new, |error| format!("{at}: {error}"));
    let mut said = lock(said);
    if !why.is_empty() && why != *said {
        tracing::warn!(%at, error = error.map(tracing::field::display), "whoever is there isn't believed");
    }
    *said = why;
}

/// A connection of HTTP, at either end.
pub enum Stream {
    Tcp(TcpStream),
    /// What TLS keeps is large, and connections without it don't pay for it.
    Tls(Box<TlsStream<TcpStream>>),
}

impl Stream {
    pub fn is_tls(&self) -> bool {
        matches!(self, Stream::Tls(_))
    }

    /// The connection ends where the system at the other end has acknowledged nothing of what was written for so long.
    pub fn end_where_unacknowledged(&self, time: Duration) -> io::Result<()> {
        let socket = match self {
            Stream::Tcp(stream) => stream.as_raw_fd(),
            Stream::Tls(stream) => stream.get_ref().0.as_raw_fd(),
        };
        let milliseconds = libc::c_uint::try_from(time.as_millis()).unwrap_or(libc::c_uint::MAX);
        let (value, size) = (std::ptr::addr_of!(milliseconds), std::mem::size_of::<libc::c_uint>() as u32);
        // SAFETY: the socket is open, and the call reads no more than `size` bytes.
        match unsafe { libc::setsockopt(socket, libc::IPPROTO_TCP, libc::TCP_USER_TIMEOUT, value.cast(), size) } {
            0 => Ok(()),
            _ => Err(io::Error::last_os_error()),
        }
    }
}

impl Connection for Stream {
    fn connected(&self) -> Connected {
        Connected::new()
    }
}

/// Has the stream below do something, whichever it is.
macro_rules! either {
    ($stream:expr, $it:ident => $does:expr) => {
        match $stream {
            Stream::Tcp($it) => $does,
            Stream::Tls($it) => $does,
        }
    };
}

impl AsyncRead for Stream {
    fn poll_read(self: Pin<&mut Self>, context: &mut Context<'_>, buffer: &mut ReadBuf<'_>) -> Poll<io::Result<()>> {
        either!(self.get_mut(), it => Pin::new(it).poll_read(context, buffer))
    }
}

impl AsyncWrite for Stream {
    fn poll_write(self: Pin<&mut Self>, context: &mut Context<'_>, bytes: &[u8]) -> Poll<io::Result<usize>> {
        either!(self.get_mut(), it => Pin::new(it).poll_write(context, bytes))
    }

    fn poll_write_vectored(
        self: Pin<&mut Self>,
        context: &mut Context<'_>,
        pieces: &[io::IoSlice<'_>],
    ) -> Poll<io::Result<usize>> {
        either!(self.get_mut(), it => Pin::new(it).poll_write_vectored(context, pieces))
    }

    fn is_write_vectored(&self) -> bool {
        either!(self, it => it.is_write_vectored())
    }

    fn poll_flush(self: Pin<&mut Self>, context: &mut Context<'_>) -> Poll<io::Result<()>> {
        either!(self.get_mut(), it => Pin::new(it).poll_flush(context))
    }

    fn poll_shutdown(self: Pin<&mut Self>, context: &mut Context<'_>) -> Poll<io::Result<()>> {
        either!(self.get_mut(), it => Pin::new(it).poll_shutdown(context))
    }
}
