//! What operators are told of a front, on an address of their own: `/health` and `/metrics`.

use std::sync::Arc;
use std::time::Duration;

use bytes::Bytes;
use hobbychair_cluster::acting::Follower;
use hobbychair_cluster::condition::Condition;
use hyper::{Body, Method, Request, Response, StatusCode};
use prometheus::{
    Encoder, Gauge, Histogram, HistogramOpts, IntCounter, IntCounterVec, IntGauge, Opts, Registry, TextEncoder,
};
use tokio::time::Instant;

use super::contact::Contact;
use crate::metrics::SECONDS;
use crate::operators::admin::{metrics, text};

/// The metrics of a front.
pub struct Figures {
    registry: Registry,
    answered: IntCounterVec,
    seconds: Histogram,
    again: IntCounter,
    open: IntGauge,
    acting: IntGauge,
    alarms: IntGauge,
    slowest: Gauge,
}

impl Figures {
    pub fn new() -> prometheus::Result<Figures> {
        let registry = Registry::new();
        let answered = Opts::new("hobbychair_front_requests_total", "Requests answered, by HTTP status.");
        let seconds = "From a request's arrival to its answer, whatever was asked again. Long polls count their wait.";
        let seconds =
            HistogramOpts::new("hobbychair_front_request_duration_seconds", seconds).buckets(SECONDS.to_vec());
        let figures = Figures {
            answered: IntCounterVec::new(answered, &["status"])?,
            seconds: Histogram::with_opts(seconds)?,
            again: IntCounter::new(
                "hobbychair_front_again_total",
                "Tries that came to nothing, and were followed by another.",
            )?,
            open: IntGauge::new("hobbychair_front_open_requests", "Requests that are being passed on.")?,
            acting: IntGauge::new(
                "hobbychair_front_acting_server",
                "The server whose gateway acts; 0 where none is known.",
            )?,
            alarms: IntGauge::new("hobbychair_front_etcd_alarms", "Kinds of alarms that etcd has, as NOSPACE.")?,
            slowest: Gauge::new(
                "hobbychair_front_etcd_slowest_answer_seconds",
                "How long the front waited for etcd's slowest answer lately.",
            )?,
            registry,
        };
        figures.registry.register(Box::new(figures.answered.clone()))?;
        figures.registry.register(Box::new(figures.seconds.clone()))?;
        figures.registry.register(Box::new(figures.again.clone()))?;
        figures.registry.register(Box::new(figures.open.clone()))?;
        figures.registry.register(Box::new(figures.acting.clone()))?;
        figures.registry.register(Box::new(figures.alarms.clone()))?;
        figures.registry.register(Box::new(figures.slowest.clone()))?;
        Ok(figures)
    }

    /// Counts a request as open for as long as this is kept.
    pub fn passes(&self) -> Open {
        self.open.inc();
        Open(self.open.clone())
    }

    /// A try came to nothing.
    pub fn is_asked_again(&self) {
        self.again.inc();
    }

    pub fn answered(&self, status: StatusCode, time: Duration) {
        self.answered.with_label_values(&[status.as_str()]).inc();
        self.seconds.observe(time.as_secs_f64());
    }

    fn text(&self, acting: u32, etcd: &Condition) -> prometheus::Result<Vec<u8>> {
        self.acting.set(acting.into());
        self.alarms.set(etcd.alarms.len() as i64);
        self.slowest.set(Duration::from_millis(etcd.slowest_milliseconds).as_secs_f64());
        let mut out = Vec::new();
        TextEncoder::new().encode(&self.registry.gather(), &mut out)?;
        Ok(out)
    }
}

/// A request that is being passed on.
pub struct Open(IntGauge);

impl Drop for Open {
    fn drop(&mut self) {
        self.0.dec();
    }
}

/// What the paths tell of.
#[derive(Clone)]
pub struct Operators {
    pub figures: Arc<Figures>,
    pub follower: Follower,
    pub contact: Arc<Contact>,
}

impl Operators {
    /// `/health` is good where the gateway that acts answers.
    pub fn answer(&self, request: &Request<Body>) -> Response<Bytes> {
        if !matches!(*request.method(), Method::GET | Method::HEAD) {
            return text(StatusCode::METHOD_NOT_ALLOWED, "There is only GET here.\n".into());
        }
        let acting = self.follower.acting().map_or(0, |acting| acting.server);
        match request.uri().path() {
            "/health" => match self.trouble(acting) {
                None => text(StatusCode::OK, format!("serving by the gateway of server {acting}\n")),
                Some(why) => text(StatusCode::SERVICE_UNAVAILABLE, format!("waiting: {why}\n")),
            },
            "/metrics" => metrics(self.figures.text(acting, &self.follower.condition())),
            _ => text(StatusCode::NOT_FOUND, "There are /health and /metrics here.\n".into()),
        }
    }

    /// Why requests aren't answered now, as far as that is known.
    fn trouble(&self, acting: u32) -> Option<String> {
        let (trouble, away) = (self.contact.trouble(Instant::now()), self.follower.why_away());
        match (acting, trouble, away) {
            (0, _, None) => Some("no gateway of the cluster is known".into()),
            (0, _, Some(away)) => {
                Some(format!("no gateway of the cluster is known, and there is no contact with etcd: {away}"))
            }
            (_, None, _) => None,
            (server, Some(why), None) => Some(format!("the gateway of server {server} doesn't answer: {why}")),
            (server, Some(why), Some(away)) => {
                Some(format!("neither the gateway of server {server} answers ({why}) nor etcd ({away})"))
            }
        }
    }
}

#[cfg(test)]
mod tests {
    use hobbychair_cluster::acting::Acting;

    use super::*;

    fn get(operators: &Operators, path: &str) -> (u16, String) {
        let request = Request::get(path).body(Body::empty()).unwrap();
        let response = operators.answer(&request);
        (response.status().as_u16(), String::from_utf8(response.body().to_vec()).unwrap())
    }

    #[test]
    fn a_front_is_well_where_a_gateway_acts_and_its_requests_are_counted() {
        let (tell, follower) = Follower::for_tests();
        let contact = Arc::new(Contact::default());
        let operators = Operators { figures: Arc::new(Figures::new().unwrap()), follower, contact: contact.clone() };
        let waits = |why: &str| (503, format!("waiting: {why}\n"));
        assert_eq!(get(&operators, "/health"), waits("no gateway of the cluster is known"));
        let address = "127.0.0.1:9".parse().unwrap();
        tell.send_replace(Some(Acting { server: 3, address, certificate: None }));
        contact.fails(Instant::now(), &"no way");
        assert_eq!(get(&operators, "/health"), waits("the gateway of server 3 doesn't answer: no way"));
        contact.goes_well(Instant::now());
        assert_eq!(get(&operators, "/health"), (200, "serving by the gateway of server 3\n".into()));
        let open = operators.figures.passes();
        operators.figures.is_asked_again();
        operators.figures.answered(StatusCode::OK, Duration::from_millis(3));
        let (status, told) = get(&operators, "/metrics");
        assert_eq!(status, 200);
        for line in [
            "hobbychair_front_requests_total{status=\"200\"} 1",
            "hobbychair_front_request_duration_seconds_count 1",
            "hobbychair_front_again_total 1",
            "hobbychair_front_open_requests 1",
            "hobbychair_front_acting_server 3",
            "hobbychair_front_etcd_alarms 0",
            "hobbychair_front_etcd_slowest_answer_seconds 0",
        ] {
            assert!(told.lines().any(|told| told == line), "{line} in {told}");
        }
        drop(open);
        assert!(get(&operators, "/metrics").1.contains("hobbychair_front_open_requests 0"));
        let post = Request::post("/health").body(Body::empty()).unwrap();
        assert_eq!((operators.answer(&post).status().as_u16(), get(&operators, "/").0), (405, 404));
    }
}
