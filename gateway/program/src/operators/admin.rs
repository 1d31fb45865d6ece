//! What operators are told, on an address of their own: `/health`, `/metrics`, and messages where that was asked for.

use std::convert::Infallible;
use std::future::Future;
use std::sync::atomic::{AtomicU8, Ordering};
use std::sync::{Arc, OnceLock};
use std::time::Duration;

use bytes::Bytes;
use hobbychair_store::store::Store;
use hobbychair_tables::ask::Outcome;
use hobbychair_tables::budget::Share;
use hyper::header::{HeaderMap, HeaderValue, CONTENT_TYPE};
use hyper::{Body, Method, Request, Response, StatusCode, Uri};
use tokio::net::TcpListener;

use crate::door::{converse, Door, Guest, Progress, Protection};
use crate::ending::End;
use crate::http::{to_be_written, Hosts};
use crate::metrics::{Counts, Metrics};
use crate::operators::peek::{self, Peeks};

/// So long a look waits for the programs that keep the queues.
const LONGEST_LOOK: Duration = Duration::from_secs(2);

/// How far the gateway is.
#[derive(Default)]
pub struct Health {
    phase: AtomicU8,
}

/// So long an operator's request may take from its first byte on.
const LONGEST_REQUEST: Duration = Duration::from_secs(10);

/// So long an operator's connection may be idle.
const LONGEST_IDLE: Duration = Duration::from_secs(60);

const STARTING: u8 = 0;
const SERVING: u8 = 1;
const ENDING: u8 = 2;

impl Health {
    pub fn serves(&self) {
        self.phase.store(SERVING, Ordering::Relaxed);
    }

    pub fn ends(&self) {
        self.phase.store(ENDING, Ordering::Relaxed);
    }

    /// A word for probes, and the status: 200 while it serves, else 503.
    fn status(&self) -> (StatusCode, &'static str) {
        match self.phase.load(Ordering::Relaxed) {
            STARTING => (StatusCode::SERVICE_UNAVAILABLE, "starting\n"),
            SERVING => (StatusCode::OK, "serving\n"),
            _ => (StatusCode::SERVICE_UNAVAILABLE, "ending\n"),
        }
    }
}

/// What the paths tell of.
pub struct Admin {
    pub health: Arc<Health>,
    pub metrics: Arc<Metrics>,
    /// Where messages may be looked at.
    pub peeks: Option<Peeks>,
    /// By which names bodies of messages may be asked for. Health and figures are told by any name.
    pub hosts: Hosts,
    /// There once the journal is read.
    pub store: OnceLock<Store>,
}

/// Serves operators for as long as the process lives, so many connections at once. More wait until these have ended. `answer` tells
/// the answer to a request, and what that counts, if it does.
pub async fn serve_operators<F, A>(listener: TcpListener, most: u32, answer: F)
where
    F: Fn(Request<Body>) -> A + Clone + Send + Sync + 'static,
    A: Future<Output = (Response<Bytes>, Option<Arc<Share>>)> + Send + 'static,
{
    let (_end, ending) = End::new();
    let welcome = move |Guest { stream, mut ending, .. }: Guest| {
        let answer = answer.clone();
        async move {
            let progress = Progress::new(LONGEST_REQUEST).with_idle(LONGEST_IDLE);
            let answer = |request| {
                progress.is_read();
                as_written(answer(request), progress.clone())
            };
            if let Err(error) = converse(stream, &progress, &mut ending, None, answer).await {
                tracing::debug!("an operator's connection ended: {error}");
            }
        }
    };
    Door::new(Protection::None, most).serve(listener, ending, welcome).await;
}

/// An answer as a connection writes it.
async fn as_written(
    answer: impl Future<Output = (Response<Bytes>, Option<Arc<Share>>)>,
    progress: Progress,
) -> Result<Response<Body>, Infallible> {
    let (response, share) = answer.await;
    progress.answers(response.body().len() as u64);
    Ok(match share {
        Some(share) => to_be_written(response, &share),
        None => response.map(Body::from),
    })
}

impl Admin {
    /// Serves for as long as the process lives, so many connections at once.
    pub async fn serve(self: Arc<Admin>, listener: TcpListener, most: u32) {
        let answer = move |request: Request<Body>| {
            let admin = self.clone();
            async move { admin.answer(&request).await }
        };
        serve_operators(listener, most, answer).await;
    }

    /// The answer to a request, and what it counts, if it does.
    async fn answer(&self, request: &Request<Body>) -> (Response<Bytes>, Option<Arc<Share>>) {
        let is_read = matches!(*request.method(), Method::GET | Method::HEAD);
        if is_read && request.uri().path().starts_with(peek::PATH) {
            if let Err(error) = self.hosts.test(request.uri(), request.headers()) {
                return (text(StatusCode::FORBIDDEN, format!("{error}\n")), None);
            }
            return self.answer_peek(request.uri(), request.headers()).await;
        }
        (self.answer_get(request).await, None)
    }

    async fn answer_get(&self, request: &Request<Body>) -> Response<Bytes> {
        if !matches!(*request.method(), Method::GET | Method::HEAD) {
            return text(StatusCode::METHOD_NOT_ALLOWED, "There is only GET here.\n".into());
        }
        match request.uri().path() {
            "/health" => match self.health.status() {
                (StatusCode::OK, _) if !self.is_answering().await => {
                    text(StatusCode::SERVICE_UNAVAILABLE, "waiting: cq doesn't answer\n".into())
                }
                (status, word) => text(status, word.into()),
            },
            "/metrics" => self.answer_metrics().await,
            _ => text(StatusCode::NOT_FOUND, "There are /health and /metrics here.\n".into()),
        }
    }

    /// Whether all programs answer.
    async fn is_answering(&self) -> bool {
        let Some(store) = self.store.get() else { return false };
        tokio::time::timeout(LONGEST_LOOK, store.is_answering()).await.unwrap_or(false)
    }

    async fn answer_peek(&self, uri: &Uri, headers: &HeaderMap) -> (Response<Bytes>, Option<Arc<Share>>) {
        let refusal = match (&self.peeks, self.store.get()) {
            (None, _) => text(StatusCode::NOT_FOUND, "Messages are shown where --peek is said at the start.\n".into()),
            (_, None) => text(StatusCode::SERVICE_UNAVAILABLE, "starting\n".into()),
            (Some(peeks), Some(store)) => {
                let (response, share) = peeks.answer(store, uri, headers).await;
                return (response, Some(share));
            }
        };
        (refusal, None)
    }

    async fn answer_metrics(&self) -> Response<Bytes> {
        let told = match self.store.get() {
            Some(store) => {
                let counts = tokio::time::timeout(LONGEST_LOOK, counts(store)).await;
                self.metrics.set_answering(counts.is_ok());
                self.metrics.text(&counts.unwrap_or_default(), Some(&store.figures()))
            }
            None => self.metrics.text(&[], None),
        };
        metrics(told)
    }
}

/// How many messages each queue has. A queue that goes meanwhile is left out.
async fn counts(store: &Store) -> Vec<Counts> {
    let mut counts = Vec::new();
    for queue in store.queues().all() {
        if let Ok(Outcome::Counts { visible, in_flight }) = store.count(&queue).await {
            let [visible, in_flight, delayed] = queue.counts(visible, in_flight, store.clock().now());
            let set_aside = queue.count_set_aside();
            counts.push(Counts { queue: queue.name.to_string(), visible, in_flight, delayed, set_aside });
        }
    }
    counts
}

/// An answer with metrics, or why there are none.
pub fn metrics(told: prometheus::Result<Vec<u8>>) -> Response<Bytes> {
    match told {
        Ok(told) => {
            let mut response = Response::new(Bytes::from(told));
            let content_type = HeaderValue::from_static(Metrics::content_type());
            response.headers_mut().insert(CONTENT_TYPE, content_type);
            response
        }
        Err(error) => text(StatusCode::INTERNAL_SERVER_ERROR, format!("{error}\n")),
    }
}

/// An answer in plain text.
pub fn text(status: StatusCode, told: String) -> Response<Bytes> {
    let mut response = Response::new(Bytes::from(told));
    *response.status_mut() = status;
    response.headers_mut().insert(CONTENT_TYPE, HeaderValue::from_static("text/plain; charset=utf-8"));
    response
}

#[cfg(test)]
mod tests {
    use super::*;

    #[test]
    fn health_is_good_while_it_serves() {
        let health = Health::default();
        assert_eq!(health.status(), (StatusCode::SERVICE_UNAVAILABLE, "starting\n"));
        health.serves();
        assert_eq!(health.status(), (StatusCode::OK, "serving\n"));
        health.ends();
        assert_eq!(health.status().0, StatusCode::SERVICE_UNAVAILABLE);
    }
}
