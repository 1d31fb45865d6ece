//! Whether processes go on of a cluster that is to be recovered: what they acknowledge behind that would be lost.
//!
//! A node that goes on beats in etcd, or answers where it is registered, as one does that is cut off from etcd. One that takes a
//! connection and says nothing may stand still, and go on later. Where nothing takes one, nobody can be asked: whoever
//! recovers has to know.

use std::collections::BTreeMap;
use std::io;
use std::net::SocketAddr;
use std::time::Duration;

use anyhow::{ensure, Context, Result};
use hobbychair_bytes::parts::Frames;
use hyper::client::conn::handshake;
use hyper::{Body, Request};
use tokio::io::{AsyncRead, AsyncWrite};
use tokio::net::TcpStream;
use tokio::task::JoinSet;
use tokio::time::{sleep, timeout, Instant};

use crate::etcd::{Guard, KeyValue, Operation};
use crate::identity::Role;
use crate::records::{self, last_number, Beat, Chain, Cluster, Registration};
use crate::say;
use crate::transport;
use crate::wire::{About, Frame, GREETING_LIMIT_BYTES};

/// Somebody has so long to take a connection, and to answer.
const PATIENCE: Duration = Duration::from_secs(3);

/// So often beats are looked at.
const ROUND: Duration = Duration::from_millis(500);

/// What etcd says of a cluster's processes.
pub struct Processes {
    pub chain: Chain,
    /// The revision of each server's last beat, and what it said.
    beats: BTreeMap<u32, (i64, Beat)>,
    /// All servers that weren't detected.
    registered: BTreeMap<u32, Registration>,
}

impl Processes {
    /// What etcd says by now.
    pub async fn find(cluster: &Cluster) -> Result<Processes> {
        let keys = &cluster.keys;
        let all = [
            Operation::Get(keys.chain()),
            Operation::all(&keys.beats()),
            Operation::all(&keys.nodes()),
            Operation::all(&keys.all_detected()),
        ];
        let [chain, beats, nodes, detected]: [Vec<KeyValue>; 4] =
            cluster.read(&all).await?.try_into().ok().context("etcd answers with too little")?;
        let chain = records::value(chain.first().context("the cluster has no chain")?)?;
        let (mut said, mut registered) = (BTreeMap::new(), BTreeMap::new());
        for entry in &beats {
            said.extend(last_number(&entry.key).zip(Some((entry.revision, records::value(entry)?))));
        }
        for entry in &nodes {
            registered.extend(last_number(&entry.key).zip(Some(records::value(entry)?)));
        }
        for server in detected.iter().filter_map(|entry| last_number(&entry.key)) {
            registered.remove(&server);
        }
        Ok(Processes { chain, beats: said, registered })
    }

    /// Says where processes are, as far as etcd knows that.
    pub fn say(&self) {
        for (server, registration) in &self.registered {
            let gateway = registration.gateway.map(|address| format!(", its gateway at {address}")).unwrap_or_default();
            say(&format!("server {server}: its node at {}{gateway}", registration.address));
        }
        let fronts = self.beats.values().map(|(_, beat)| beat.fronts).max().unwrap_or(0);
        say(&format!(
            "fronts in contact by the last beats: {fronts}. Where they are, and candidates, etcd doesn't know"
        ));
    }

    /// That no beat changes for so long from now on, and none has since this was found.
    pub async fn test_silence(&self, cluster: &Cluster, time: Duration) -> Result<()> {
        let begun = Instant::now();
        loop {
            let now = Processes::find(cluster).await?;
            let revision = |(revision, _): &(i64, Beat)| *revision;
            let is_new = |server: &&u32| now.beats.get(server).map(revision) != self.beats.get(server).map(revision);
            let beat: Vec<String> = now.beats.keys().filter(is_new).map(|server| now.named(*server)).collect();
            ensure!(
                beat.is_empty(),
                "nodes of this cluster go on: {}. To recover it, stop all of its nodes, candidates and fronts",
                beat.join(", ")
            );
            let Some(left) = time.checked_sub(begun.elapsed()).filter(|left| !left.is_zero()) else { return Ok(()) };
            sleep(left.min(ROUND)).await;
        }
    }

    fn named(&self, server: u32) -> String {
        let at = self.registered.get(&server).map(|registration| format!(" at {}", registration.address));
        format!("server {server}{}", at.unwrap_or_default())
    }

    /// That no node and no gateway answers where it is registered, nor takes a connection there and says nothing.
    pub async fn test_answers(&self, cluster: &Cluster) -> Result<()> {
        let mut asked = JoinSet::new();
        for (server, registration) in &self.registered {
            asked.spawn(ask_node(*server, cluster.clone(), registration.clone()));
            if let Some(address) = registration.gateway {
                asked.spawn(ask_gateway(*server, address, cluster.clone(), registration.clone()));
            }
        }
        let mut heard = Vec::new();
        while let Some(answered) = asked.join_next().await {
            heard.extend(answered?);
        }
        heard.sort();
        ensure!(
            heard.is_empty(),
            "processes of this cluster may go on: {}. Stop them. Once all are stopped or cut off, --fenced says so",
            heard.join("; ")
        );
        Ok(())
    }

    /// That no server of the chain has beaten since this was found.
    pub fn guards(&self, cluster: &Cluster) -> Vec<Guard> {
        let guard = |server: u32| match self.beats.get(&server) {
            Some((revision, _)) => Guard::IsOfRevision(cluster.keys.beat(server), *revision),
            None => Guard::IsAbsent(cluster.keys.beat(server)),
        };
        self.chain.servers().map(guard).collect()
    }
}

/// Says who answers where a node is registered, if anybody does.
async fn ask_node(server: u32, cluster: Cluster, registration: Registration) -> Option<String> {
    let named = format!("server {server} at {}", registration.address);
    let stream = connect(&named, registration.address).await?;
    let answered = async {
        match &cluster.identity {
            Some(identity) => identity.connect(stream, Role::Node, registration.certificate).await.map(drop),
            None => greet(stream, &cluster).await,
        }
    };
    said(named, timeout(PATIENCE, answered).await.ok())
}

async fn ask_gateway(server: u32, address: SocketAddr, cluster: Cluster, registration: Registration) -> Option<String> {
    let named = format!("the gateway of server {server} at {address}");
    let stream = connect(&named, address).await?;
    let answered = async {
        match &cluster.identity {
            Some(identity) => identity.connect(stream, Role::Node, registration.certificate).await.map(drop),
            None => get(stream, &address.to_string()).await,
        }
    };
    said(named, timeout(PATIENCE, answered).await.ok())
}

/// A connection, if somebody takes it. Where the machine doesn't say that nobody does, that is told.
async fn connect(named: &str, address: SocketAddr) -> Option<TcpStream> {
    let connected = timeout(PATIENCE, TcpStream::connect(address)).await.unwrap_or_else(|late| Err(late.into()));
    match connected {
        Ok(stream) => return Some(stream),
        Err(error) if error.kind() == io::ErrorKind::ConnectionRefused => {}
        Err(error) => say(&format!("{named} isn't reached, and may go on for all that is known here: {error}")),
    }
    None
}

/// What comes of an answer, or of none.
fn said(named: String, answered: Option<io::Result<()>>) -> Option<String> {
    match answered {
        Some(Ok(())) => Some(format!("{named} answers")),
        Some(Err(error)) => {
            say(&format!("{named} is somebody else, or a connection there leads nowhere: {error}"));
            None
        }
        None => Some(format!("{named} takes connections and says nothing: it may stand still")),
    }
}

/// Greets a node as a front does. What it turns away it answers, too.
async fn greet(mut stream: TcpStream, cluster: &Cluster) -> io::Result<()> {
    let about = About { cluster: cluster.name.clone(), incarnation: cluster.settings.incarnation.clone() };
    let mut greeting = Frame::Front { about }.bytes();
    greeting.extend(Frame::Ping { time: 0 }.bytes());
    transport::write(&mut stream, &greeting).await?;
    let answer = Frames::new(stream, GREETING_LIMIT_BYTES).next().await?;
    Frame::read(answer).map(drop).map_err(|malformed| io::Error::new(io::ErrorKind::InvalidData, malformed))
}

/// Asks for a page, whatever that is.
async fn get(stream: impl AsyncRead + AsyncWrite + Unpin + Send + 'static, host: &str) -> io::Result<()> {
    let other = |error: hyper::Error| io::Error::new(io::ErrorKind::Other, error);
    let (mut sender, connection) = handshake(stream).await.map_err(other)?;
    tokio::spawn(connection);
    let mut request = Request::new(Body::empty());
    let value = hyper::header::HeaderValue::from_str(host);
    request.headers_mut().extend(value.ok().map(|value| (hyper::header::HOST, value)));
    sender.send_request(request).await.map(drop).map_err(other)
}
