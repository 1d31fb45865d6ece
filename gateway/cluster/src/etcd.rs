//! A client of etcd, by its HTTP and JSON gateway.
//!
//! A member that says nothing for a short time isn't waited for alone: the next one is asked as well. A transaction whose
//! answer is lost may have happened, and one that two members were asked for, too: what its caller reads next says so.

use std::collections::BTreeSet;
use std::net::IpAddr;
use std::sync::atomic::{AtomicUsize, Ordering};
use std::sync::{Arc, Mutex};
use std::time::Duration;

use anyhow::{anyhow, bail, Result};
use hyper::body::HttpBody;
use hyper::{Body, Client, Request, Response, Uri};
use serde_json::{json, Value};
use thiserror::Error;
use tokio::sync::Notify;
use tokio::task::JoinSet;
use tokio::time::{sleep, timeout, timeout_at, Instant};

use crate::identity::{Identity, Role};
use crate::lock;
use crate::slowness::Slowest;
use crate::transport::Connector;

/// A member that says nothing for so long isn't waited for alone, as long as another one wasn't asked. Behind that it is twice as
/// long.
pub const SOON: Duration = Duration::from_millis(400);

/// An answer is waited for so long, and a connection.
pub const LONGEST: Duration = Duration::from_secs(3);

/// A watch that says nothing for so long is begun anew, at the next member.
const QUIET: Duration = Duration::from_secs(5);

/// No answer is longer.
const LONGEST_ANSWER_BYTES: usize = 64 << 20;

/// What etcd says of a database that is as large as its quota.
const FULL: &str = "database space exceeded";

/// Why there is no answer.
#[derive(Debug, Error)]
pub enum EtcdError {
    #[error("no member of etcd answers: {0}")]
    Unreachable(String),
    #[error("etcd refuses a request: {0}")]
    Refused(String),
    #[error("etcd takes no writes ({FULL}): its database is as large as its quota. {REMEDY}")]
    Full,
}

/// What to do about a database that is full.
pub const REMEDY: &str =
    "Compact it, shrink the database of each member, and take back the alarm: etcdctl compact REVISION, \
                          etcdctl defrag, etcdctl alarm disarm";

/// What has to be so for a transaction to happen.
#[derive(Clone, Debug, PartialEq, Eq)]
pub enum Guard {
    IsAbsent(String),
    IsPresent(String),
    /// The key was last changed by that revision; 0 if it isn't there.
    IsOfRevision(String, i64),
    Is(String, String),
}

/// What a transaction does.
#[derive(Clone, Debug, PartialEq, Eq)]
pub enum Operation {
    Put(String, String),
    Get(String),
    /// The keys from the first one up to, and without, the second one, at most so many; all for 0.
    Range(String, String, u32),
    DeleteRange(String, String),
}

/// A key as it was read.
#[derive(Clone, Debug, PartialEq, Eq)]
pub struct KeyValue {
    pub key: String,
    pub value: String,
    pub revision: i64,
}

/// What came of a transaction.
#[derive(Debug)]
pub struct Outcome {
    /// Whether its guards held.
    pub succeeded: bool,
    /// What each operation read, in their order.
    pub read: Vec<Vec<KeyValue>>,
    /// The revision of all of etcd by then.
    pub revision: i64,
}

/// The members of one etcd.
#[derive(Clone)]
pub struct Etcd {
    client: Client<Connector>,
    members: Arc<Vec<String>>,
    /// The member that answered last: it is asked first.
    at: Arc<AtomicUsize>,
    slowest: Arc<Mutex<Slowest>>,
}

/// What comes of the members that were asked.
type Answers = JoinSet<(usize, Result<Value, EtcdError>)>;

/// What was heard of them for a while.
enum MemberAnswer {
    /// This member answers.
    Answer(usize, Value),
    /// One doesn't and another one wasn't asked, or all were asked and none does.
    Failure,
    Silence,
}

impl Etcd {
    /// Members by their URLs. Without certificates they are on this machine, and with certificates their URLs are of https.
    pub fn new(urls: &[String], identity: Option<Arc<Identity>>) -> Result<Etcd> {
        if urls.is_empty() {
            bail!("no URL of etcd is given");
        }
        let test = if identity.is_some() { secured } else { loopback };
        let members = urls.iter().map(|url| test(url)).collect::<Result<Vec<_>>>()?;
        let connector = Connector::new(identity, Role::Etcd, LONGEST);
        let at = rand::random::<usize>() % members.len();
        let client = Client::builder().pool_max_idle_per_host(2).build(connector);
        Ok(Etcd { client, members: Arc::new(members), at: Arc::new(AtomicUsize::new(at)), slowest: Arc::default() })
    }

    /// The longest that this process has waited for an answer lately.
    pub fn slowest(&self) -> Duration {
        lock(&self.slowest).longest(Instant::now())
    }

    /// What is done if all guards hold, and else. It ends within [`LONGEST`] and [`SOON`] for each member but one. Where members
    /// are slow it may be done more than once, also behind its end: guards have to say where that isn't to be.
    pub async fn transact(
        &self,
        guards: &[Guard],
        then: &[Operation],
        otherwise: &[Operation],
    ) -> Result<Outcome, EtcdError> {
        let body = json!({
            "compare": guards.iter().map(Guard::json).collect::<Vec<_>>(),
            "success": then.iter().map(Operation::json).collect::<Vec<_>>(),
            "failure": otherwise.iter().map(Operation::json).collect::<Vec<_>>(),
        })
        .to_string();
        let answer = self.call("/v3/kv/txn", body).await?;
        outcome(&answer).ok_or_else(|| EtcdError::Refused("it is no answer".into()))
    }

    /// The names of its alarms, as NOSPACE.
    pub async fn alarms(&self) -> Result<BTreeSet<String>, EtcdError> {
        let answer = self.call("/v3/maintenance/alarm", json!({"action": "GET"}).to_string()).await?;
        let alarms = answer.get("alarms").and_then(Value::as_array).cloned().unwrap_or_default();
        Ok(alarms.iter().filter_map(|alarm| Some(alarm.get("alarm")?.as_str()?.to_string())).collect())
    }

    /// How many keys there are that don't begin with this.
    pub async fn count_others(&self, prefix: &str) -> Result<u64, EtcdError> {
        // Where it is the end, this key stands for that of all keys.
        let least = "\0".to_string();
        Ok(self.count(&least, prefix).await? + self.count(&behind(prefix), &least).await?)
    }

    async fn count(&self, from: &str, to: &str) -> Result<u64, EtcdError> {
        let asked = json!({"key": base64::encode(from), "range_end": base64::encode(to), "count_only": true});
        let answer = self.call("/v3/kv/range", asked.to_string()).await?;
        // Where there are none, it isn't said.
        Ok(answer.get("count").and_then(Value::as_str).and_then(|count| count.parse().ok()).unwrap_or(0))
    }

    /// Has all of etcd forget what was overwritten or deleted before that revision. What has been forgotten already is no error.
    pub async fn compact(&self, revision: i64) -> Result<(), EtcdError> {
        match self.call("/v3/kv/compaction", json!({"revision": revision.to_string()}).to_string()).await {
            Err(EtcdError::Refused(said)) if said.contains("has been compacted") => Ok(()),
            answer => answer.map(drop),
        }
    }

    /// What the first member says that answers. One after the other is asked, and whoever was asked is heard until the end. Behind
    /// a cut a new request goes through earlier than TCP repeats an old one.
    async fn call(&self, path: &'static str, body: String) -> Result<Value, EtcdError> {
        let (begun, count, first) = (Instant::now(), self.members.len(), self.at.load(Ordering::Relaxed));
        let end = begun + LONGEST + SOON * (count as u32 - 1);
        let mut asked = Answers::new();
        let mut why = None;
        for turn in 0.. {
            let member = (first + turn) % count;
            let (etcd, body) = (self.clone(), body.clone());
            asked.spawn(async move { (member, etcd.post(member, path, body).await) });
            let is_last = turn + 1 >= count;
            match hear(&mut asked, end.min(Instant::now() + pause(turn / count)), is_last, &mut why).await {
                MemberAnswer::Answer(member, answer) => {
                    self.at.store(member, Ordering::Relaxed);
                    self.note(begun, end);
                    return Ok(answer);
                }
                MemberAnswer::Failure if is_last => break,
                _ if Instant::now() >= end => break,
                _ => {}
            }
        }
        self.at.store((first + 1) % count, Ordering::Relaxed);
        Err(why.unwrap_or_else(|| EtcdError::Unreachable(format!("{} is silent", self.members[first % count]))))
    }

    /// An answer came. Behind its end this process stood still, and how slow etcd is isn't known.
    fn note(&self, begun: Instant, end: Instant) {
        let now = Instant::now();
        if now <= end + SOON {
            lock(&self.slowest).note(now - begun, now);
        }
    }

    async fn ask(&self, member: usize, path: &str, body: String) -> Result<Response<Body>, EtcdError> {
        let unreachable = |error: &dyn std::fmt::Display| EtcdError::Unreachable(error.to_string());
        let request = Request::post(format!("{}{path}", self.members[member]))
            .header("content-type", "application/json")
            .body(Body::from(body))
            .map_err(|error| unreachable(&error))?;
        self.client.request(request).await.map_err(|error| unreachable(&error))
    }

    async fn post(&self, member: usize, path: &str, body: String) -> Result<Value, EtcdError> {
        let mut answer = self.ask(member, path, body).await?;
        let mut bytes = Vec::new();
        while let Some(chunk) = answer.body_mut().data().await {
            bytes.extend_from_slice(&chunk.map_err(|error| EtcdError::Unreachable(error.to_string()))?);
            if bytes.len() > LONGEST_ANSWER_BYTES {
                return Err(EtcdError::Refused("its answer is too long".into()));
            }
        }
        if !answer.status().is_success() {
            let said = String::from_utf8_lossy(&bytes[..bytes.len().min(300)]).trim().to_string();
            return Err(if said.contains(FULL) { EtcdError::Full } else { EtcdError::Refused(said) });
        }
        serde_json::from_slice(&bytes).map_err(|error| EtcdError::Refused(error.to_string()))
    }

    /// Calls for a look whenever something under the prefix may have changed. Nobody waits for that alone.
    pub async fn watch(self, prefix: String, look: Arc<Notify>) {
        loop {
            let member = self.at.load(Ordering::Relaxed) % self.members.len();
            // Whatever ends it, the next one begins at once.
            let _ = self.watch_at(member, &prefix, &look).await;
            sleep(Duration::from_millis(100)).await;
        }
    }

    async fn watch_at(&self, member: usize, prefix: &str, look: &Notify) -> Result<()> {
        let asked =
            json!({"create_request": {"key": base64::encode(prefix), "range_end": base64::encode(behind(prefix))}});
        let answer = timeout(LONGEST, self.ask(member, "/v3/watch", asked.to_string())).await??;
        let mut body = answer.into_body();
        while let Some(chunk) = timeout(QUIET, body.data()).await? {
            chunk?;
            look.notify_one();
        }
        Ok(())
    }
}

/// For how long one that was asked in that round is waited for before the next one is asked. Where etcd takes long for writes alone,
/// the beats that a node asks for come as often, so this is less than what is silent.
fn pause(round: usize) -> Duration {
    if round == 0 {
        SOON
    } else {
        2 * SOON
    }
}

/// What is heard by then of those that were asked. Unless all were asked, a failure is heard at once, since the next one may do.
async fn hear(asked: &mut Answers, until: Instant, is_last: bool, why: &mut Option<EtcdError>) -> MemberAnswer {
    loop {
        let heard = match timeout_at(until, asked.join_next()).await {
            Ok(Some(Ok((member, Ok(answer))))) => return MemberAnswer::Answer(member, answer),
            Ok(Some(Ok((_, Err(error))))) => error,
            Ok(Some(Err(error))) => EtcdError::Unreachable(error.to_string()),
            Ok(None) => return MemberAnswer::Failure,
            Err(_) => return MemberAnswer::Silence,
        };
        *why = Some(heard);
        if !is_last {
            return MemberAnswer::Failure;
        }
    }
}

/// The first text behind all that begin with the prefix, which ends with a letter or a mark of ASCII.
pub fn behind(prefix: &str) -> String {
    let mut bytes = prefix.as_bytes().to_vec();
    if let Some(last) = bytes.last_mut() {
        *last += 1;
    }
    String::from_utf8_lossy(&bytes).into_owned()
}

fn secured(url: &str) -> Result<String> {
    let uri: Uri = url.parse().map_err(|_| anyhow!("{url} is no URL"))?;
    if uri.scheme_str() != Some("https") {
        bail!("{url} isn't of https, and there are certificates");
    }
    Ok(url.trim_end_matches('/').to_string())
}

fn loopback(url: &str) -> Result<String> {
    let uri: Uri = url.parse().map_err(|_| anyhow!("{url} is no URL"))?;
    if uri.scheme_str() != Some("http") {
        bail!("{url} isn't of http: for https give --certificate, --key and --authority");
    }
    let host = uri.host().unwrap_or_default().trim_start_matches('[').trim_end_matches(']');
    let is_here = host == "localhost" || host.parse::<IpAddr>().is_ok_and(|address| address.is_loopback());
    if !is_here {
        bail!("{url} isn't on this machine: without certificates (--certificate) etcd has a loopback address");
    }
    Ok(url.trim_end_matches('/').to_string())
}

impl Guard {
    fn json(&self) -> Value {
        match self {
            Guard::IsAbsent(key) => {
                json!({"key": base64::encode(key), "target": "VERSION", "result": "EQUAL", "version": "0"})
            }
            Guard::IsPresent(key) => {
                json!({"key": base64::encode(key), "target": "VERSION", "result": "GREATER", "version": "0"})
            }
            Guard::IsOfRevision(key, revision) => json!({
                "key": base64::encode(key), "target": "MOD", "result": "EQUAL", "mod_revision": revision.to_string(),
            }),
            Guard::Is(key, value) => json!({
                "key": base64::encode(key), "target": "VALUE", "result": "EQUAL", "value": base64::encode(value),
            }),
        }
    }
}

impl Operation {
    fn json(&self) -> Value {
        match self {
            Operation::Put(key, value) => {
                json!({"request_put": {"key": base64::encode(key), "value": base64::encode(value)}})
            }
            Operation::Get(key) => json!({"request_range": {"key": base64::encode(key)}}),
            Operation::Range(from, to, limit) => json!({"request_range": {
                "key": base64::encode(from), "range_end": base64::encode(to), "limit": limit.to_string(),
            }}),
            Operation::DeleteRange(from, to) => {
                json!({"request_delete_range": {"key": base64::encode(from), "range_end": base64::encode(to)}})
            }
        }
    }

    /// Takes away a key, if it is there.
    pub fn delete(key: &str) -> Operation {
        Operation::DeleteRange(key.into(), format!("{key}\0"))
    }

    /// All keys that begin with the prefix.
    pub fn all(prefix: &str) -> Operation {
        Operation::Range(prefix.into(), behind(prefix), 0)
    }
}

/// What the gateway of etcd tells: a field that is false, zero or empty isn't there, and numbers are texts.
fn outcome(answer: &Value) -> Option<Outcome> {
    let revision = answer.get("header")?.get("revision").and_then(Value::as_str);
    let revision = revision.and_then(|revision| revision.parse().ok()).unwrap_or(0);
    let succeeded = answer.get("succeeded").and_then(Value::as_bool).unwrap_or(false);
    let responses = answer.get("responses").and_then(Value::as_array).cloned().unwrap_or_default();
    let read = responses.iter().map(|one| entries(&one["response_range"]["kvs"])).collect::<Option<_>>()?;
    Some(Outcome { succeeded, read, revision })
}

fn entries(found: &Value) -> Option<Vec<KeyValue>> {
    found.as_array().map_or(Some(Vec::new()), |found| found.iter().map(entry).collect())
}

fn entry(found: &Value) -> Option<KeyValue> {
    let text = |name: &str| {
        let bytes = base64::decode(found.get(name).and_then(Value::as_str).unwrap_or_default()).ok()?;
        String::from_utf8(bytes).ok()
    };
    let revision = found.get("mod_revision")?.as_str()?.parse().ok()?;
    Some(KeyValue { key: text("key")?, value: text("value")?, revision })
}

#[cfg(test)]
mod tests {
    use tokio::io::{AsyncReadExt, AsyncWriteExt};
    use tokio::net::TcpListener;

    use super::*;

    #[test]
    fn an_answer_without_its_empty_fields_is_read() {
        let answer = json!({"header": {"revision": "7"}, "responses": [
            {"response_put": {}},
            {"response_range": {"kvs": [{"key": base64::encode("a"), "mod_revision": "5", "value": base64::encode("b")}]}},
            {"response_range": {}},
        ]});
        let outcome = outcome(&answer).unwrap();
        assert!(!outcome.succeeded && outcome.revision == 7);
        let read = KeyValue { key: "a".into(), value: "b".into(), revision: 5 };
        assert_eq!(outcome.read, [vec![], vec![read], vec![]]);
    }

    #[test]
    fn what_is_no_answer_is_told() {
        assert!(outcome(&json!({"error": "x"})).is_none());
        let bad = json!({"header": {}, "responses": [{"response_range": {"kvs": [{"key": "%"}]}}]});
        assert!(outcome(&bad).is_none());
    }

    /// A member that answers with this status behind a time; one without an answer is silent.
    async fn member(answers: Option<(Duration, u16, &'static str)>) -> String {
        let listener = TcpListener::bind("127.0.0.1:0").await.unwrap();
        let url = format!("http://{}", listener.local_addr().unwrap());
        tokio::spawn(async move {
            while let Ok((mut stream, _)) = listener.accept().await {
                tokio::spawn(async move {
                    let mut bytes = [0; 4096];
                    while matches!(stream.read(&mut bytes).await, Ok(1..)) {
                        let Some((time, status, said)) = answers else { continue };
                        sleep(time).await;
                        let head = format!("HTTP/1.1 {status} x\r\ncontent-length: {}\r\n\r\n", said.len());
                        let _ = stream.write_all((head + said).as_bytes()).await;
                    }
                });
            }
        });
        url
    }

    const GOOD: &str = r#"{"header":{"revision":"1"},"succeeded":true}"#;

    async fn asked(urls: &[String]) -> (Result<Outcome, EtcdError>, Duration, Etcd) {
        let etcd = Etcd::new(urls, None).unwrap();
        etcd.at.store(0, Ordering::Relaxed);
        let begun = Instant::now();
        let outcome = etcd.transact(&[], &[Operation::Get("a".into())], &[]).await;
        (outcome, begun.elapsed(), etcd)
    }

    #[tokio::test]
    async fn a_slow_member_is_waited_for() {
        let slow = member(Some((Duration::from_millis(1500), 200, GOOD))).await;
        let (outcome, _, etcd) = asked(&[slow]).await;
        assert!(outcome.unwrap().succeeded && etcd.slowest() >= Duration::from_millis(1500));
    }

    #[tokio::test]
    async fn beside_a_silent_member_the_next_one_is_asked_and_stays_the_first() {
        let urls = [member(None).await, member(Some((SOON / 2, 200, GOOD))).await];
        let (outcome, took, etcd) = asked(&urls).await;
        assert!(outcome.unwrap().succeeded && (SOON..LONGEST).contains(&took), "{took:?}");
        assert_eq!(etcd.at.load(Ordering::Relaxed), 1);
    }

    #[tokio::test]
    async fn beside_one_that_is_slow_and_one_that_is_silent_the_slow_one_is_heard() {
        let urls = [member(Some((3 * SOON, 200, GOOD))).await, member(None).await];
        let (outcome, took, etcd) = asked(&urls).await;
        assert!(outcome.unwrap().succeeded && took >= 3 * SOON, "{took:?}");
        assert_eq!(etcd.at.load(Ordering::Relaxed), 0);
    }

    #[tokio::test]
    async fn where_all_are_silent_there_is_an_end() {
        let urls = [member(None).await, member(None).await];
        let (outcome, took, etcd) = asked(&urls).await;
        let said = outcome.unwrap_err().to_string();
        assert!(said.starts_with("no member of etcd answers: http://") && said.ends_with("is silent"), "{said}");
        assert!(took >= LONGEST + SOON && etcd.slowest() == Duration::ZERO, "{took:?}");
        assert_eq!(etcd.at.load(Ordering::Relaxed), 1);
    }

    #[tokio::test]
    async fn of_a_full_etcd_is_said_what_to_do() {
        let full = r#"{"error":"etcdserver: mvcc: database space exceeded","code":8}"#;
        let (outcome, ..) = asked(&[member(Some((Duration::ZERO, 429, full))).await]).await;
        let said = outcome.unwrap_err().to_string();
        assert!(said.contains("database space exceeded") && said.ends_with("etcdctl alarm disarm"), "{said}");
    }

    #[tokio::test]
    async fn alarms_and_keys_are_read_and_what_was_forgotten_already_is_no_error() {
        let etcd = |status, said| async move {
            Etcd::new(&[member(Some((Duration::ZERO, status, said))).await], None).unwrap()
        };
        let alarms =
            r#"{"header":{},"alarms":[{"memberID":"1","alarm":"NOSPACE"},{"memberID":"2","alarm":"NOSPACE"}]}"#;
        assert_eq!(etcd(200, alarms).await.alarms().await.unwrap(), ["NOSPACE".to_string()].into());
        let none = etcd(200, r#"{"header":{}}"#).await;
        assert!(none.alarms().await.unwrap().is_empty() && none.count_others("a/").await.unwrap() == 0);
        assert_eq!(etcd(200, r#"{"header":{},"count":"3"}"#).await.count_others("a/").await.unwrap(), 6);
        let compacted = r#"{"error":"etcdserver: mvcc: required revision has been compacted","code":11}"#;
        assert!(etcd(400, compacted).await.compact(7).await.is_ok());
        assert!(etcd(400, "etcdserver: no way").await.compact(7).await.is_err());
    }

    #[tokio::test]
    async fn of_those_that_refuse_each_is_asked_once_and_at_once() {
        let refuses = member(Some((Duration::ZERO, 503, "no leader"))).await;
        let gone = "http://127.0.0.1:1".to_string();
        let (outcome, took, _) = asked(&[gone.clone(), refuses.clone()]).await;
        assert!(matches!(outcome.unwrap_err(), EtcdError::Refused(said) if said == "no leader"));
        assert!(took < LONGEST, "{took:?}");
        let (outcome, ..) = asked(&[gone, refuses, member(Some((Duration::ZERO, 200, GOOD))).await]).await;
        assert!(outcome.unwrap().succeeded);
    }

    #[test]
    fn other_machines_are_refused() {
        let refused = |url: &str| Etcd::new(&[url.to_string()], None).is_err();
        assert!(refused("http://10.0.0.1:2379") && refused("https://127.0.0.1:2379") && refused("x y"));
        assert!(!refused("http://127.0.0.1:2379") && !refused("http://[::1]:2379/") && !refused("http://localhost:1"));
        assert!(Etcd::new(&[], None).is_err());
        assert!(secured("http://127.0.0.1:2379").is_err() && secured("https://10.0.0.1:2379/").is_ok());
    }
}
