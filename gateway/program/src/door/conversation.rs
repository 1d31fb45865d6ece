//! A conversation by HTTP/1.1 over a connection: requests and their answers, one after the other.

use std::error::Error;
use std::future::Future;
use std::io;
use std::time::Duration;

use bytes::Bytes;
use hobbychair_cluster::transport::Stream;
use hyper::server::conn::Http;
use hyper::service::service_fn;
use hyper::upgrade::OnUpgrade;
use hyper::{Body, Request, Response};

use super::watched::{Progress, Watched};
use crate::ending::Ending;

/// The longest head of a request, in bytes.
pub const LONGEST_HEAD_BYTES: usize = 32 << 10;

/// A request is whole so long after its first byte.
pub const LONGEST_REQUEST: Duration = Duration::from_secs(30);

/// Gives each request to `answer`. Once the end comes, one that has begun is answered, and no other. `longest`: so long the
/// connection stays until then, where it may not stay for ever.
pub async fn converse<A, F, E>(
    stream: Stream,
    progress: &Progress,
    ending: &mut Ending,
    longest: Option<Duration>,
    answer: A,
) -> hyper::Result<()>
where
    A: FnMut(Request<Body>) -> F,
    F: Future<Output = Result<Response<Body>, E>> + Send + 'static,
    E: Into<Box<dyn Error + Send + Sync>>,
{
    let mut http = Http::new();
    http.http1_only(true).max_buf_size(LONGEST_HEAD_BYTES);
    let stream = Watched::new(stream, progress.clone());
    let connection = http.serve_connection(stream, service_fn(answer)).with_upgrades();
    tokio::pin!(connection);
    tokio::select! {
        ended = connection.as_mut() => ended,
        () = ending.comes() => {
            // hyper would wait for the first request of a connection that has had none.
            if !progress.is_begun() {
                return Ok(());
            }
            connection.as_mut().graceful_shutdown();
            connection.await
        }
        () = is_over(longest) => Ok(()),
    }
}

async fn is_over(longest: Option<Duration>) {
    match longest {
        Some(longest) => tokio::time::sleep(longest).await,
        None => std::future::pending().await,
    }
}

/// The stream of a connection that `converse` has given up for another protocol, and what was read of that already.
pub async fn upgraded(upgrading: OnUpgrade) -> anyhow::Result<(Stream, Bytes)> {
    let other = |_| io::Error::from(io::ErrorKind::Unsupported);
    let parts = upgrading.await?.downcast::<Watched<Stream>>().map_err(other)?;
    Ok((parts.io.into_inner(), parts.read_buf))
}
