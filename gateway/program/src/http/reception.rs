//! How clients and fronts are received: their requests are answered, and those who are too many are told so.

use std::io;
use std::net::SocketAddr;
use std::sync::Arc;
use std::time::Duration;

use bytes::Bytes;
use hyper::header::{HeaderValue, CONNECTION};
use hyper::upgrade::OnUpgrade;
use hyper::{Body, Request, Response};
use tokio::sync::Semaphore;
use tokio::time::Instant;

use super::{answers, calls, Admitted, Arrival, Connection, Service};
use crate::door::{converse, upgraded, Guest, Progress, LONGEST_REQUEST};
use crate::ending::Ending;

/// A client that is turned away has so long for its request.
const LONGEST_TURNING_AWAY: Duration = Duration::from_secs(5);

/// What the connections of clients have in common, or those of fronts.
pub struct Reception {
    service: Arc<Service>,
    /// As many calls of fronts are answered at once.
    calls: Arc<Semaphore>,
}

impl Reception {
    /// `most`: as many calls of fronts are answered at once.
    pub fn new(service: Arc<Service>, most: u32) -> Reception {
        Reception { service, calls: Arc::new(Semaphore::new(most as usize)) }
    }

    /// Answers all that comes over a connection.
    pub async fn welcome(self: Arc<Reception>, guest: Guest) {
        let Guest { stream, socket, peer, is_served, mut ending } = guest;
        // A connection that is turned away doesn't stay to be idle.
        let (longest_request, longest) =
            if is_served { (LONGEST_REQUEST, None) } else { (LONGEST_TURNING_AWAY, Some(2 * LONGEST_TURNING_AWAY)) };
        let progress = Progress::new(longest_request).of_socket(socket);
        let requests = self.service.clone().connection(peer, progress.clone());
        let answer = {
            let requests = requests.clone();
            move |request| handle(requests.clone(), request, is_served)
        };
        let ended = converse(stream, &progress, &mut ending, longest, answer).await;
        let ended = match requests.take_upgrade() {
            Some(upgrading) => self.serve_calls(upgrading, peer, ending).await,
            None => ended.map_err(Into::into),
        };
        if let Err(error) = ended {
            tracing::debug!(%peer, "a connection ended: {error}");
        }
    }

    /// Serves the calls of a front, which have the connection from now on.
    async fn serve_calls(&self, upgrading: OnUpgrade, peer: SocketAddr, ending: Ending) -> anyhow::Result<()> {
        let (stream, read) = upgraded(upgrading).await?;
        calls::serve(stream, read, self.service.clone(), (peer, self.calls.clone()), ending).await?;
        Ok(())
    }
}

/// Answers a request.
async fn handle(
    connection: Arc<Connection>,
    mut request: Request<Body>,
    is_served: bool,
) -> io::Result<Response<Body>> {
    if is_served && calls::are_asked_for(&request) && connection.is_of_chain() {
        return Ok(connection.begin_calls(hyper::upgrade::on(&mut request)));
    }
    let began = Instant::now();
    let arrival = Arrival { began, deadline: connection.progress.deadline(began) };
    if !is_served {
        return Ok(Box::pin(connection.turn_away(arrival, request)).await.map(Body::from));
    }
    let admitted = connection.clone().admit(arrival, request).await;
    let mut response = answer(admitted, &connection.progress).await?;
    let must_close = connection.progress.answers(response.body().len() as u64);
    if must_close {
        response.headers_mut().insert(CONNECTION, HeaderValue::from_static("close"));
    }
    Ok(answers::to_be_written(response, &connection.share))
}

/// The answer, unless the client goes before it is there. What it asked for is given up then.
async fn answer(admitted: Admitted, progress: &Progress) -> io::Result<Response<Bytes>> {
    if !admitted.may_wait() {
        return Ok(admitted.answer().await);
    }
    tokio::select! {
        biased;
        response = admitted.answer() => Ok(response),
        () = progress.leaves() => Err(io::ErrorKind::ConnectionAborted.into()),
    }
}
