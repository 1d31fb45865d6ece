//! A load generator for the JSON protocol of SQS, to measure servers side by side.
//!
//! It sends, receives and deletes messages of 100 bytes, each in a group of its own, one and ten a request, over
//! connections that are kept alive, one request open on each; and then it opens long polls, and tells how long a send
//! takes to reach one. Each row is one work of one server.

use std::path::{Path, PathBuf};
use std::str::FromStr;
use std::sync::atomic::{AtomicUsize, Ordering};
use std::sync::{Arc, Mutex, PoisonError};
use std::time::{Duration, Instant};

use anyhow::{anyhow, bail, Context, Result};
use clap::Parser;
use hyper::client::conn::{Builder, SendRequest};
use hyper::{Body, Request};
use serde_json::{json, Value};
use tokio::net::TcpStream;
use tokio::sync::mpsc;

/// Load SQS servers, and say how fast they are.
#[derive(Parser, Clone)]
#[command(version)]
struct Options {
    /// A server: a name for its rows, and its address; several times for several servers
    #[arg(long = "target", value_name = "NAME=URL", default_value = "hobbychair=http://127.0.0.1:9324")]
    targets: Vec<Target>,
    /// Connections; several numbers give several runs, each on a queue of its own
    #[arg(long, value_delimiter = ',', default_value = "1,16,64,256")]
    connections: Vec<usize>,
    /// Messages in a run
    #[arg(long, default_value_t = 20_000)]
    messages: usize,
    /// Messages in a request, 1 to 10; several numbers give several runs
    #[arg(long, value_delimiter = ',', default_value = "1,10", value_parser = clap::value_parser!(u32).range(1..=10))]
    batches: Vec<u32>,
    /// Long polls that are open at once; each needs a file of both sides (ulimit -n)
    #[arg(long, default_value_t = 0)]
    polls: usize,
    /// Threads of the generator
    #[arg(long, default_value_t = 1)]
    threads: usize,
}

/// A server that is measured.
#[derive(Clone, Debug)]
struct Target {
    name: String,
    /// Host and port.
    address: String,
}

impl FromStr for Target {
    type Err = anyhow::Error;

    fn from_str(text: &str) -> Result<Target> {
        let (name, url) = text.split_once('=').context("it is no NAME=URL")?;
        let address = url.strip_prefix("http://").unwrap_or(url).trim_end_matches('/');
        if address.contains('/') || !address.contains(':') {
            bail!("{url} is no http://HOST:PORT");
        }
        Ok(Target { name: name.into(), address: address.into() })
    }
}

/// One connection, with one request open at a time.
struct Connection {
    server: String,
    sender: SendRequest<Body>,
}

impl Connection {
    async fn open(server: &str) -> Result<Connection> {
        let stream = TcpStream::connect(server).await.with_context(|| format!("{server} can't be reached"))?;
        stream.set_nodelay(true)?;
        let (sender, connection) = Builder::new().handshake(stream).await?;
        tokio::spawn(connection);
        Ok(Connection { server: server.into(), sender })
    }

    async fn call(&mut self, action: &str, members: Vec<u8>) -> Result<Vec<u8>> {
        let request = Request::post("/")
            .header("host", &self.server)
            .header("x-amz-target", format!("AmazonSQS.{action}"))
            .header("content-type", "application/x-amz-json-1.0")
            // Some servers read the region out of this; the signature is none.
            .header(
                "authorization",
                "AWS4-HMAC-SHA256 Credential=any/20260101/us-east-1/sqs/aws4_request, SignedHeaders=host, Signature=00",
            )
            .body(Body::from(members))?;
        ready(&mut self.sender).await?;
        let response = self.sender.send_request(request).await?;
        let status = response.status();
        let body = hyper::body::to_bytes(response.into_body()).await?;
        if !status.is_success() {
            bail!("{action}: {status}: {}", String::from_utf8_lossy(&body));
        }
        Ok(body.to_vec())
    }
}

async fn ready(sender: &mut SendRequest<Body>) -> Result<()> {
    Ok(std::future::poll_fn(|context| sender.poll_ready(context)).await?)
}

/// Creates a queue, and tells its URL.
async fn create(server: &str, name: &str) -> Result<String> {
    let attributes = json!({"FifoQueue": "true", "VisibilityTimeout": "600"});
    let members = serde_json::to_vec(&json!({"QueueName": name, "Attributes": attributes}))?;
    let created = Connection::open(server).await?.call("CreateQueue", members).await?;
    let url = serde_json::from_slice::<Value>(&created)?["QueueUrl"].as_str().map(String::from);
    url.context("there is no URL")
}

/// The share of latencies that is given, of sorted ones, in milliseconds.
fn at(latencies: &[Duration], share: f64) -> f64 {
    let place = (latencies.len() as f64 * share) as usize;
    latencies.get(place).copied().unwrap_or_default().as_secs_f64() * 1e3
}

/// The numbers of one phase.
struct Figures {
    took: Duration,
    latencies: Vec<Duration>,
    messages: usize,
}

impl Figures {
    fn tell(&mut self, target: &Target, work: &str, connections: usize) {
        self.latencies.sort_unstable();
        let rate = |count: usize| count as f64 / self.took.as_secs_f64();
        println!(
            "{:12} {work:10} {connections:4} connections {:9.0} requests/s {:9.0} messages/s   p50 {:8.3} ms   p99 {:8.3} ms",
            target.name,
            rate(self.latencies.len()),
            rate(self.messages),
            at(&self.latencies, 0.5),
            at(&self.latencies, 0.99)
        );
    }
}

/// Makes `count` calls over so many connections. `members` gives each call's members, and `take` sees its answer, and
/// tells how many messages it is about.
async fn phase(
    server: &str,
    action: &'static str,
    connections: usize,
    count: usize,
    members: impl Fn(usize) -> Value + Send + Sync + 'static,
    take: impl Fn(&[u8]) -> Result<usize> + Send + Sync + 'static,
) -> Result<Figures> {
    let (next, messages) = (Arc::new(AtomicUsize::new(0)), Arc::new(AtomicUsize::new(0)));
    let (members, take) = (Arc::new(members), Arc::new(take));
    let mut open = Vec::new();
    for _ in 0..connections {
        open.push(Connection::open(server).await?);
    }
    let start = Instant::now();
    let tasks = open.into_iter().map(|mut connection| {
        let (next, messages, members, take) = (next.clone(), messages.clone(), members.clone(), take.clone());
        tokio::spawn(async move {
            let mut latencies = Vec::new();
            loop {
                let place = next.fetch_add(1, Ordering::Relaxed);
                if place >= count {
                    return Ok::<_, anyhow::Error>(latencies);
                }
                let body = serde_json::to_vec(&members(place))?;
                let begun = Instant::now();
                let answer = connection.call(action, body).await?;
                latencies.push(begun.elapsed());
                messages.fetch_add(take(&answer)?, Ordering::Relaxed);
            }
        })
    });
    let mut latencies = Vec::with_capacity(count);
    for task in tasks.collect::<Vec<_>>() {
        latencies.extend(task.await??);
    }
    Ok(Figures { took: start.elapsed(), latencies, messages: messages.load(Ordering::Relaxed) })
}

/// A queue of one target that is sent messages, which are received and deleted.
struct Run {
    target: Target,
    url: String,
    connections: usize,
    batch: usize,
    calls: usize,
    handles: Vec<Value>,
}

impl Run {
    async fn new(options: &Options, target: &Target, connections: usize, batch: usize) -> Result<Run> {
        let name = format!("load-{}-{connections}-{batch}.fifo", std::process::id());
        let url = create(&target.address, &name).await?;
        let calls = options.messages / batch;
        Ok(Run { target: target.clone(), url, connections, batch, calls, handles: Vec::new() })
    }

    fn work(&self, work: &str) -> String {
        if self.batch == 1 {
            work.into()
        } else {
            format!("{work} x{}", self.batch)
        }
    }

    async fn send(&self) -> Result<Figures> {
        let (url, batch, body) = (self.url.clone(), self.batch, "x".repeat(100));
        let message = move |place: usize| {
            let id = place.to_string();
            json!({"Id": id, "MessageBody": body, "MessageGroupId": id, "MessageDeduplicationId": id})
        };
        let is_batch = batch > 1;
        let members = move |call: usize| {
            if is_batch {
                let entries: Vec<_> = (call * batch..(call + 1) * batch).map(&message).collect();
                return json!({"QueueUrl": url, "Entries": entries});
            }
            let mut members = message(call);
            members["QueueUrl"] = url.clone().into();
            members
        };
        let action = if is_batch { "SendMessageBatch" } else { "SendMessage" };
        self.phase(action, self.calls, members, move |_| Ok(batch)).await
    }

    async fn receive(&mut self) -> Result<Figures> {
        let handles = Arc::new(Mutex::new(Vec::with_capacity(self.calls * self.batch)));
        let (found, url, batch) = (handles.clone(), self.url.clone(), self.batch);
        let members = move |_| json!({"QueueUrl": url, "MaxNumberOfMessages": batch});
        let take = move |answer: &[u8]| {
            let answer: Value = serde_json::from_slice(answer)?;
            let messages = answer["Messages"].as_array().map(Vec::as_slice).unwrap_or_default();
            let mut found = found.lock().unwrap_or_else(PoisonError::into_inner);
            found.extend(messages.iter().map(|message| message["ReceiptHandle"].clone()));
            Ok(messages.len())
        };
        let figures = self.phase("ReceiveMessage", self.calls, members, take).await?;
        self.handles = std::mem::take(&mut *handles.lock().unwrap_or_else(PoisonError::into_inner));
        Ok(figures)
    }

    async fn delete(&mut self) -> Result<Figures> {
        let (url, batch, handles) = (self.url.clone(), self.batch, std::mem::take(&mut self.handles));
        let count = handles.len().div_ceil(batch);
        let is_batch = batch > 1;
        let members = move |call: usize| {
            if is_batch {
                let some = handles.iter().skip(call * batch).take(batch).enumerate();
                let entry = |(id, handle): (usize, &Value)| json!({"Id": id.to_string(), "ReceiptHandle": handle});
                return json!({"QueueUrl": url, "Entries": some.map(entry).collect::<Vec<_>>()});
            }
            json!({"QueueUrl": url, "ReceiptHandle": handles[call]})
        };
        let action = if is_batch { "DeleteMessageBatch" } else { "DeleteMessage" };
        self.phase(action, count, members, move |_| Ok(batch)).await
    }

    async fn phase(
        &self,
        action: &'static str,
        calls: usize,
        members: impl Fn(usize) -> Value + Send + Sync + 'static,
        take: impl Fn(&[u8]) -> Result<usize> + Send + Sync + 'static,
    ) -> Result<Figures> {
        phase(&self.target.address, action, self.connections, calls, members, take).await
    }

    fn tell(&self, work: &str, figures: Result<Figures>) {
        let work = self.work(work);
        match figures {
            Ok(mut figures) => figures.tell(&self.target, &work, self.connections),
            Err(error) => tell_failure(&self.target, &work, self.connections, &error),
        }
    }
}

fn tell_failure(target: &Target, work: &str, connections: usize, error: &anyhow::Error) {
    println!("{:12} {work:10} {connections:4} connections failed: {error:#}", target.name);
}

/// One work after the other, each on all targets.
async fn run(options: &Options, connections: usize, batch: usize) {
    let mut runs = Vec::new();
    for target in &options.targets {
        match Run::new(options, target, connections, batch).await {
            Ok(run) => runs.push(run),
            Err(error) => tell_failure(target, "create", connections, &error),
        }
    }
    for run in &runs {
        run.tell("send", run.send().await);
    }
    for run in &mut runs {
        let figures = run.receive().await;
        run.tell("receive", figures);
    }
    for run in &mut runs {
        let figures = run.delete().await;
        run.tell("delete", figures);
    }
}

/// Polls are shared out among so many queues.
const POLLED_QUEUES: usize = 100;

/// So long polls are let alone when they have been opened, so that all of them wait.
const SETTLING: Duration = Duration::from_secs(3);

/// Opens long polls, sends a message to each queue, and tells how long it took to reach a poll.
async fn run_polls(target: &Target, polls: usize) -> Result<()> {
    let process = process_of(&target.address);
    let before = process.as_deref().and_then(resident);
    let mut urls = Vec::new();
    for queue in 0..POLLED_QUEUES.min(polls) {
        urls.push(create(&target.address, &format!("polled-{}-{queue}.fifo", std::process::id())).await?);
    }
    let mut open = Vec::new();
    for _ in 0..polls {
        open.push(Connection::open(&target.address).await?);
    }
    let (reached, mut arrivals) = mpsc::unbounded_channel();
    let mut tasks = Vec::new();
    for (place, mut connection) in open.into_iter().enumerate() {
        let members = serde_json::to_vec(&json!({"QueueUrl": urls[place % urls.len()], "WaitTimeSeconds": 20}))?;
        let reached = reached.clone();
        tasks.push(tokio::spawn(async move {
            let answer = connection.call("ReceiveMessage", members).await?;
            let arrived = Instant::now();
            let answer: Value = serde_json::from_slice(&answer)?;
            if let Some(queue) = answer["Messages"][0]["Body"].as_str() {
                let _ = reached.send((queue.parse::<usize>()?, arrived));
            }
            Ok::<_, anyhow::Error>(())
        }));
    }
    tokio::time::sleep(SETTLING).await;
    let waiting = process.as_deref().and_then(resident);
    let mut sender = Connection::open(&target.address).await?;
    let (mut sent, mut latencies) = (Vec::new(), Vec::new());
    for (queue, url) in urls.iter().enumerate() {
        let id = queue.to_string();
        let members = json!({"QueueUrl": url, "MessageBody": id, "MessageGroupId": id, "MessageDeduplicationId": id});
        let members = serde_json::to_vec(&members)?;
        sent.push(Instant::now());
        sender.call("SendMessage", members).await?;
    }
    drop(reached);
    let all = async {
        while latencies.len() < urls.len() {
            let Some((queue, arrived)) = arrivals.recv().await else { break };
            latencies.push(arrived - sent[queue]);
        }
    };
    let _ = tokio::time::timeout(Duration::from_secs(20), all).await;
    tasks.iter().for_each(tokio::task::JoinHandle::abort);
    latencies.sort_unstable();
    let mebibytes = |bytes: Option<u64>| bytes.map_or("-".into(), |bytes| format!("{:.1}", bytes as f64 / 1_048_576.0));
    println!(
        "{:12} {:10} {polls:5} open, {} of {} sends reached one   p50 {:8.3} ms   p99 {:8.3} ms   memory {} MiB before, {} MiB with them",
        target.name,
        "polls",
        latencies.len(),
        urls.len(),
        at(&latencies, 0.5),
        at(&latencies, 0.99),
        mebibytes(before),
        mebibytes(waiting),
    );
    Ok(())
}

/// The folder under /proc of the process that listens at a port of this machine, where it can be found.
fn process_of(address: &str) -> Option<PathBuf> {
    let port: u16 = address.rsplit(':').next()?.parse().ok()?;
    let table = std::fs::read_to_string("/proc/net/tcp").ok()?;
    let inode = table.lines().find_map(|line| {
        let fields: Vec<_> = line.split_whitespace().collect();
        let local = u16::from_str_radix(fields.get(1)?.rsplit(':').next()?, 16).ok()?;
        let is_listening = *fields.get(3)? == "0A";
        (local == port && is_listening).then(|| fields.get(9).map(|inode| format!("socket:[{inode}]")))?
    })?;
    let processes = std::fs::read_dir("/proc").ok()?.flatten().map(|entry| entry.path());
    processes.into_iter().find(|process| {
        let files = std::fs::read_dir(process.join("fd"));
        let mut links = files.into_iter().flatten().flatten().filter_map(|file| std::fs::read_link(file.path()).ok());
        links.any(|link| link.as_os_str() == inode.as_str())
    })
}

/// What of a process is in memory, in bytes.
fn resident(process: &Path) -> Option<u64> {
    let status = std::fs::read_to_string(process.join("status")).ok()?;
    let line = status.lines().find_map(|line| line.strip_prefix("VmRSS:"))?;
    Some(line.split_whitespace().next()?.parse::<u64>().ok()? * 1024)
}

fn main() -> Result<()> {
    let options = Options::parse();
    let runtime = tokio::runtime::Builder::new_multi_thread().worker_threads(options.threads).enable_all().build()?;
    runtime.block_on(async {
        if options.messages == 0 {
            return Err(anyhow!("there is nothing to send"));
        }
        for &connections in &options.connections {
            for &batch in &options.batches {
                run(&options, connections, batch as usize).await;
            }
        }
        for target in options.targets.iter().filter(|_| options.polls > 0) {
            if let Err(error) = run_polls(target, options.polls).await {
                tell_failure(target, "polls", options.polls, &error);
            }
        }
        Ok(())
    })
}
