//! What operators are told in numbers, in the text form of Prometheus.

use std::time::Duration;

use hobbychair_sqs::action::Action;
use prometheus::{
    Encoder, Histogram, HistogramOpts, HistogramVec, IntCounter, IntCounterVec, IntGauge, IntGaugeVec, Opts, Registry,
    TextEncoder,
};

use hobbychair_store::figures::Figures;

/// Bounds of the histogram of latencies, in seconds. Long polls take up to 20.
pub const SECONDS: [f64; 14] = [0.0005, 0.001, 0.0025, 0.005, 0.01, 0.025, 0.05, 0.1, 0.25, 0.5, 1.0, 5.0, 10.0, 20.0];

/// The metrics of a gateway.
pub struct Metrics {
    registry: Registry,
    requests: IntCounterVec,
    /// By the place of an action among all, and last of requests that name none.
    by_action: Vec<OfAction>,
    connections: IntGauge,
    polls: IntGauge,
    messages: IntGaugeVec,
    queues: IntGauge,
    open: IntGauge,
    memory: IntGauge,
    memory_bound: IntGauge,
    disk_short: IntGauge,
    lacked_room: IntCounter,
    restarts: IntCounter,
    answering: IntGauge,
    clock_lead: IntGauge,
    lines_lost: IntCounter,
}

/// What most requests need, so that it is looked up once.
struct OfAction {
    name: &'static str,
    answered_well: IntCounter,
    seconds: Histogram,
}

/// How many messages a queue has.
#[derive(Clone, Debug, PartialEq, Eq)]
pub struct Counts {
    pub queue: String,
    pub visible: u64,
    pub in_flight: u64,
    pub delayed: u64,
    /// Of the delayed ones: those that the store refuses.
    pub set_aside: u64,
}

/// Counts one more of something for as long as it is kept.
pub struct Counted(IntGauge);

impl Counted {
    /// Counts one more by this.
    pub fn one_more(gauge: &IntGauge) -> Counted {
        gauge.inc();
        Counted(gauge.clone())
    }
}

impl Drop for Counted {
    fn drop(&mut self) {
        self.0.dec();
    }
}

impl Metrics {
    pub fn new() -> prometheus::Result<Metrics> {
        let registry = Registry::new();
        let labels = |names: &'static [&'static str]| names;
        let requests = IntCounterVec::new(
            Opts::new("hobbychair_requests_total", "Requests answered, by action and HTTP status."),
            labels(&["action", "status"]),
        )?;
        let seconds = HistogramVec::new(
            HistogramOpts::new(
                "hobbychair_request_duration_seconds",
                "From a request's head to its answer, by action. Long polls count their wait.",
            )
            .buckets(SECONDS.to_vec()),
            labels(&["action"]),
        )?;
        let messages = IntGaugeVec::new(
            Opts::new(
                "hobbychair_messages",
                "Messages of a queue that are visible, in flight or delayed, and how many of the delayed ones can't be sent.",
            ),
            labels(&["queue", "state"]),
        )?;
        registry.register(Box::new(requests.clone()))?;
        registry.register(Box::new(seconds.clone()))?;
        registry.register(Box::new(messages.clone()))?;
        let gauge = |name: &str, help: &str| {
            let gauge = IntGauge::new(name, help)?;
            registry.register(Box::new(gauge.clone()))?;
            Ok::<_, prometheus::Error>(gauge)
        };
        let counter = |name: &str, help: &str| {
            let counter = IntCounter::new(name, help)?;
            registry.register(Box::new(counter.clone()))?;
            Ok::<_, prometheus::Error>(counter)
        };
        let names = Action::ALL.iter().map(|action| action.name()).chain(["none"]);
        let by_action = names.map(|name| OfAction {
            name,
            answered_well: requests.with_label_values(&[name, "200"]),
            seconds: seconds.with_label_values(&[name]),
        });
        Ok(Metrics {
            by_action: by_action.collect(),
            requests,
            connections: gauge("hobbychair_connections", "Connections that are open.")?,
            polls: gauge("hobbychair_long_polls", "Receives that wait for a message.")?,
            messages,
            queues: gauge("hobbychair_queues", "Queues that are there.")?,
            open: gauge("hobbychair_open_asks", "Asks that the store hasn't answered yet.")?,
            memory: gauge("hobbychair_memory_used_bytes", "Bytes that messages and deduplication ids use.")?,
            memory_bound: gauge("hobbychair_memory_bound_bytes", "The bound of that; 0 if there is none.")?,
            disk_short: gauge(
                "hobbychair_cluster_disk_short",
                "1 if the disk of a server of the cluster has less room than its reserve.",
            )?,
            lacked_room: counter(
                "hobbychair_journal_full_total",
                "How often a request was refused since the journal had no room for it.",
            )?,
            answering: gauge(
                "hobbychair_cq_answering",
                "1 where cq answers, and 0 where the counts of messages are missing.",
            )?,
            clock_lead: gauge(
                "hobbychair_clock_lead_seconds",
                "How far the clock is ahead of this machine's, since times never go back.",
            )?,
            lines_lost: counter("hobbychair_log_lines_lost_total", "Lines of the log that nobody read in time.")?,
            restarts: counter("hobbychair_cq_restarts_total", "How often the program cq was started again.")?,
            registry,
        })
    }

    /// Counts a request that was answered. `action` is none where it couldn't be read.
    pub fn answered(&self, action: Option<Action>, status: u16, time: Duration) {
        let place = action.map_or(Action::ALL.len(), |action| action as usize);
        let of_action = &self.by_action[place];
        of_action.seconds.observe(time.as_secs_f64());
        match status {
            200 => of_action.answered_well.inc(),
            _ => self.requests.with_label_values(&[of_action.name, &status.to_string()]).inc(),
        }
    }

    /// Counts the connections that are open.
    pub fn connections(&self) -> IntGauge {
        self.connections.clone()
    }

    /// Notes whether the programs told how many messages there are.
    pub fn set_answering(&self, is_answering: bool) {
        self.answering.set(i64::from(is_answering));
    }

    pub fn poll(&self) -> Counted {
        Counted::one_more(&self.polls)
    }

    /// The metrics as text, with what was just looked up: nothing while the store isn't there yet.
    pub fn text(&self, messages: &[Counts], figures: Option<&Figures>) -> prometheus::Result<Vec<u8>> {
        self.take_in_messages(messages);
        raise(&self.lines_lost, crate::log::lines_lost());
        if let Some(figures) = figures {
            self.take_in_figures(figures);
        }
        let mut text = Vec::new();
        TextEncoder::new().encode(&self.registry.gather(), &mut text)?;
        Ok(text)
    }

    fn take_in_messages(&self, messages: &[Counts]) {
        // Queues that are gone leave no row behind.
        self.messages.reset();
        for Counts { queue, visible, in_flight, delayed, set_aside } in messages {
            let counts =
                [("visible", visible), ("in flight", in_flight), ("delayed", delayed), ("set aside", set_aside)];
            for (state, count) in counts {
                self.messages.with_label_values(&[queue, state]).set(*count as i64);
            }
        }
    }

    fn take_in_figures(&self, figures: &Figures) {
        self.queues.set(figures.queues as i64);
        self.open.set(figures.open as i64);
        self.memory.set(figures.memory_bytes as i64);
        self.memory_bound.set(figures.memory_bound.unwrap_or(0) as i64);
        self.disk_short.set(figures.is_disk_short.into());
        self.clock_lead.set(figures.clock_lead as i64);
        raise(&self.restarts, figures.restarts);
        raise(&self.lacked_room, figures.lacked_room);
    }

    /// The content type of the text.
    pub fn content_type() -> &'static str {
        "text/plain; version=0.0.4"
    }
}

/// Raises a counter to a number that was counted elsewhere.
fn raise(counter: &IntCounter, to: u64) {
    counter.inc_by(to.saturating_sub(counter.get()));
}

#[cfg(test)]
mod tests {
    use super::*;

    #[test]
    fn each_action_has_its_place() {
        for (place, action) in Action::ALL.into_iter().enumerate() {
            assert_eq!(action as usize, place);
        }
    }

    #[test]
    fn all_of_it_is_told() {
        let metrics = Metrics::new().unwrap();
        metrics.answered(Some(Action::SendMessage), 200, Duration::from_millis(2));
        metrics.answered(Some(Action::SendMessage), 400, Duration::from_millis(2));
        metrics.answered(None, 403, Duration::from_millis(2));
        let poll = metrics.poll();
        let messages = [Counts { queue: "a.fifo".into(), visible: 3, in_flight: 1, delayed: 2, set_aside: 1 }];
        let (queues, memory_bytes, memory_bound, is_disk_short) = (1, 2, None, true);
        let (lacked_room, restarts, clock_lead, open) = (7, 4, 61, 9);
        let figures =
            Figures { queues, memory_bytes, memory_bound, is_disk_short, lacked_room, restarts, clock_lead, open };
        let text = String::from_utf8(metrics.text(&messages, Some(&figures)).unwrap()).unwrap();
        for line in [
            "hobbychair_requests_total{action=\"SendMessage\",status=\"200\"} 1",
            "hobbychair_requests_total{action=\"SendMessage\",status=\"400\"} 1",
            "hobbychair_requests_total{action=\"UntagQueue\",status=\"200\"} 0",
            "hobbychair_requests_total{action=\"none\",status=\"403\"} 1",
            "hobbychair_request_duration_seconds_bucket{action=\"SendMessage\",le=\"0.0025\"} 2",
            "hobbychair_request_duration_seconds_bucket{action=\"SendMessage\",le=\"0.001\"} 0",
            "hobbychair_messages{queue=\"a.fifo\",state=\"in flight\"} 1",
            "hobbychair_messages{queue=\"a.fifo\",state=\"delayed\"} 2",
            "hobbychair_messages{queue=\"a.fifo\",state=\"set aside\"} 1",
            "hobbychair_long_polls 1",
            "hobbychair_queues 1",
            "hobbychair_memory_used_bytes 2",
            "hobbychair_memory_bound_bytes 0",
            "hobbychair_cluster_disk_short 1",
            "hobbychair_journal_full_total 7",
            "hobbychair_cq_restarts_total 4",
            "hobbychair_clock_lead_seconds 61",
        ] {
            assert!(text.lines().any(|found| found == line), "{line}");
        }
        drop(poll);
        let text = String::from_utf8(metrics.text(&[], None).unwrap()).unwrap();
        assert!(text.contains("hobbychair_long_polls 0") && !text.contains("a.fifo"));
        assert!(text.contains("hobbychair_journal_full_total 7"));
    }
}
