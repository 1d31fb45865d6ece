//! A node: one server of the chain, and what carries its messages.

mod connections;
mod core;
mod disk;
mod fronts;
pub mod gateway;
mod inbox;
pub mod keeping;
mod loading;
mod membership;
mod peers;
mod streams;
mod trace;

use std::collections::{BTreeMap, BTreeSet, VecDeque};
use std::fmt;
use std::net::SocketAddr;
use std::path::PathBuf;
use std::sync::{Arc, Mutex};

use anyhow::{anyhow, bail, Context, Result};
use bytes::Bytes;
use hobbychair_bytes::commands::Standing;
use hobbychair_bytes::pipe::FromNode;
use tokio::net::TcpListener;
use tokio::signal::unix::{signal, Signal, SignalKind};
use tokio::sync::mpsc::{unbounded_channel, UnboundedSender};
use tokio::sync::{oneshot, Notify, Semaphore};

use self::connections::{Linked, Outlet};
use self::core::NodeCore;
use self::fronts::Fronts;
use self::keeping::Keeping;
use self::streams::Work;
use crate::addresses::{test_here, Place};
use crate::child::{Child, ChildEvent};
use crate::clock::{self, Clock};
use crate::etcd::{Guard, Operation};
use crate::journal::{self, JournalFolder, Written};
use crate::records::{self, random_name, Chain, Cluster, Disk, JournalKind, Pause, Readiness, Registration};
use crate::suspension::Suspension;
use crate::wire::{About, Frame};
use crate::{lock, say};

/// With this server a cluster begins that was recovered.
const FIRST: u32 = 1;

/// How a node begins.
#[derive(Clone, Copy, Debug, PartialEq, Eq)]
pub enum Beginning {
    /// As that server of the first chain.
    First(u32),
    /// With the next number, behind the chain's last member.
    Join,
}

/// What a node is told at its start.
pub struct NodeSettings {
    pub place: Place,
    pub beginning: Beginning,
    pub program: String,
    /// The gateway beside it, if it has one.
    pub gateway: Option<gateway::GatewaySettings>,
    pub limits: Limits,
    /// The journal that it keeps, if it keeps one.
    pub journal: Option<keeping::JournalSettings>,
    /// A file for all that the server was told and told, for tests.
    pub trace: Option<PathBuf>,
}

/// What a node may use, in bytes.
#[derive(Clone, Copy, Debug, PartialEq, Eq)]
pub struct Limits {
    /// What messages may use here, by the count of the gateway that acts.
    pub memory: u64,
    /// What may wait here for a server that joins. Beyond it that one is given up.
    pub joiner: u64,
}

/// Why a node ends.
#[derive(Debug, PartialEq, Eq)]
pub enum End {
    /// By the log: it was detected.
    Detected,
    /// By the log: the chain let go of it while it joined.
    Dropped,
    /// By whoever runs it, before it had a place in the chain.
    Left,
    /// By a fault of its own, or by whoever runs it, though the log doesn't say that it is lost.
    Fault(String),
}

impl fmt::Display for End {
    fn fmt(&self, out: &mut fmt::Formatter<'_>) -> fmt::Result {
        match self {
            End::Detected => out.write_str("the master's log says that it is lost"),
            End::Dropped => out.write_str("the master's log says that the chain let go of it while it joined"),
            End::Left => out.write_str("it was told to, and has no place in the chain"),
            End::Fault(why) => out.write_str(why),
        }
    }
}

/// What happens at a node. One task hears of all of it, in order.
pub enum Event {
    /// The server tells something.
    Told(ChildEvent),
    /// These servers were detected, somebody says.
    Learned(Vec<u32>),
    /// Another node begins a connection of its link.
    Linking { from: u32, gone: Vec<u32>, reply: oneshot::Sender<Option<Linked>> },
    /// Something came by a link, over the connection with that number.
    Came { from: u32, connection: u64, frame: Frame },
    /// That connection of a link has ended.
    Unlinked { from: u32, connection: u64 },
    /// Something that was awaited has come to the other end of a link.
    Received,
    /// What was read in etcd at one moment.
    Read { detected: Vec<u32>, chain: Chain, orders: Vec<(u64, Bytes)> },
    /// A client is there.
    Client { client: u64, outlet: Outlet },
    /// What a client asks for, in the order of its stream.
    Asked { client: u64, stream: u64, work: VecDeque<Work>, done: oneshot::Sender<()> },
    /// A client is gone.
    Left { client: u64 },
    /// Something about the gateway beside this node.
    Gateway(gateway::Happening),
    /// The journal is written so far.
    Journal(Written),
    /// A signal: somebody ends this node.
    Leave,
    /// Some time has passed.
    Tick,
}

/// Where a node stands, for its beat.
#[derive(Clone, Debug, Default)]
pub struct Report {
    pub standing: Standing,
    pub hears: Vec<u32>,
    pub clients: usize,
    /// Why the master is asked to do without this server.
    pub condemned: Option<&'static str>,
    /// One that joins is to be given up, since too much waits for it.
    pub late_joiner: Option<u32>,
    pub gateway: gateway::GatewayBeat,
    /// A gateway is kept, so there is a process of one, or will be soon.
    pub keeps_gateway: bool,
}

/// What all tasks of a node know.
pub struct Shared {
    pub cluster: Cluster,
    pub id: u32,
    nonce: String,
    limits: Limits,
    /// The process of the server.
    child: u32,
    events: UnboundedSender<Event>,
    clock: Mutex<Clock>,
    gone: Mutex<BTreeSet<u32>>,
    registrations: Mutex<BTreeMap<u32, Registration>>,
    /// Servers to which there are links.
    linked: Mutex<BTreeSet<u32>>,
    /// Messages for the master that don't stand in etcd yet.
    letters: Mutex<VecDeque<(u64, Bytes)>>,
    report: Mutex<Report>,
    /// Places for clients.
    clients: Semaphore,
    fronts: Fronts,
    /// Places for fronts.
    front_places: Semaphore,
    /// There may be something to read or to write in etcd.
    look: Arc<Notify>,
    /// Whether this process stood still.
    suspension: Suspension,
    /// The disk of the journal, as far as it was looked at.
    disk: Mutex<Option<Disk>>,
    /// Servers whose disks have too little room, as they said by their last beats. The head alone reads it.
    short_of_disk: Mutex<BTreeSet<u32>>,
    /// Whether a gateway would begin, as far as that was tried.
    readiness: Mutex<Option<Readiness>>,
    /// A gateway has ended.
    gateway_ended: Notify,
}

impl Shared {
    pub fn tell(&self, event: Event) {
        // Where nobody hears it, the node ends.
        let _ = self.events.send(event);
    }

    /// The cluster's time.
    pub fn now(&self) -> u64 {
        lock(&self.clock).now(clock::since_start())
    }

    /// The same for a gateway.
    fn time_for_gateway(&self) -> FromNode {
        let since_start = clock::since_start();
        FromNode::Time { time: lock(&self.clock).now(since_start), since_start }
    }

    /// What is known of a server's process.
    pub fn registration(&self, server: u32) -> Option<Registration> {
        lock(&self.registrations).get(&server).cloned()
    }

    /// What gateways are told of how long a recovered cluster stood still, as far as that is known.
    fn pause(&self) -> Option<FromNode> {
        let Pause { last, begun } = self.registration(FIRST)?.paused?;
        Some(FromNode::Paused { last, begun })
    }

    /// With what a link to a server begins.
    pub fn greeting(&self, to: u32) -> Frame {
        Frame::Link { about: self.about(), from: self.id, nonce: self.nonce.clone(), to, gone: self.all_gone() }
    }

    /// What a gateway is told of the room at the servers of a chain and here, as far as that is known.
    fn room(&self, chain: Option<&Chain>) -> FromNode {
        let servers: Vec<u32> = chain.iter().flat_map(|chain| chain.servers()).collect();
        FromNode::Room { memory: self.least_memory(&servers), is_disk_short: self.is_any_disk_short(&servers) }
    }

    /// The least of what messages may use.
    fn least_memory(&self, servers: &[u32]) -> u64 {
        let known = lock(&self.registrations);
        let others = servers.iter().filter_map(|server| known.get(server)).map(|registration| registration.memory);
        others.filter(|memory| *memory > 0).fold(self.limits.memory, u64::min)
    }

    fn is_any_disk_short(&self, servers: &[u32]) -> bool {
        let is_own_short = lock(&self.disk).is_some_and(|disk| disk.is_short());
        let short = lock(&self.short_of_disk);
        is_own_short || servers.iter().any(|server| short.contains(server))
    }

    fn about(&self) -> About {
        About { cluster: self.cluster.name.clone(), incarnation: self.cluster.settings.incarnation.clone() }
    }

    fn all_gone(&self) -> Vec<u32> {
        lock(&self.gone).iter().copied().collect()
    }
}

/// Runs a node until the log says that it ends, or it fails.
pub async fn run(cluster: Cluster, settings: NodeSettings) -> Result<End> {
    let has_certificates = cluster.identity.is_some();
    let gateway = match &settings.gateway {
        Some(gateway) => Some(find_gateway(&gateway.place, has_certificates).await?),
        None => None,
    };
    let listen = settings.place.listen;
    if !has_certificates {
        test_here(listen, "a node")?;
    }
    let port = settings.gateway.clone().map(gateway::Port::keep).transpose()?;
    if let Some(port) = &port {
        let tested = gateway::test(&cluster, port, false).await;
        tested.map_err(|said| anyhow!("a gateway wouldn't begin beside this node: {said}"))?;
    }
    let (events, mut heard) = unbounded_channel();
    // One that can't begin with its store has taken no number.
    let loaded = match find_store(&cluster, &settings)? {
        Some(found) => {
            let child = start_child(&cluster, found.head.server, &settings, events.clone())?;
            let standing = loading::load(&child, &mut heard, &found).await?;
            Some((child, standing))
        }
        None => None,
    };
    let listener = TcpListener::bind(listen).await.with_context(|| format!("can't listen on {listen}"))?;
    let local = listener.local_addr()?;
    let address = settings.place.found_at(local, "a node", "--advertise", has_certificates).await?;
    let nonce = random_name();
    let certificate = cluster.identity.as_ref().map(|identity| identity.fingerprint());
    let kind = |journal: &keeping::JournalSettings| match journal.is_durable {
        true => JournalKind::Durable,
        false => JournalKind::Buffered,
    };
    let (memory, journal) = (settings.limits.memory, settings.journal.as_ref().map(kind));
    let (clock, paused) = begin_time(loaded.as_ref().map(|(_, standing)| standing));
    let registration = Registration { nonce: nonce.clone(), address, gateway, certificate, memory, journal, paused };
    let id = register(&cluster, settings.beginning, &registration).await?;
    let (child, loaded) = match loaded {
        Some((child, standing)) => (child, Some(standing)),
        None => (start_child(&cluster, id, &settings, events.clone())?, None),
    };
    let tell = events.clone();
    let tell = move |event| drop(tell.send(event));
    let count = loaded.map(|standing| standing.count);
    let look = Arc::new(Notify::new());
    let keep = |settings| Keeping::begin(&cluster, id, settings, count, tell);
    let keeping = settings.journal.as_ref().map(keep).transpose().context("the journal can't be begun")?;
    let node = Arc::new(Shared {
        cluster: cluster.for_long(),
        id,
        nonce,
        limits: settings.limits,
        child: child.id(),
        events,
        clock: Mutex::new(clock),
        gone: Mutex::default(),
        registrations: Mutex::new([(id, registration)].into()),
        linked: Mutex::default(),
        letters: Mutex::default(),
        report: Mutex::default(),
        clients: Semaphore::new(connections::MOST_CLIENTS),
        fronts: Fronts::default(),
        front_places: Semaphore::new(fronts::MOST_FRONTS),
        suspension: Suspension::new(look.clone()),
        look,
        disk: Mutex::default(),
        short_of_disk: Mutex::default(),
        readiness: Mutex::new(port.as_ref().map(|_| Readiness::Ready)),
        gateway_ended: Notify::new(),
    });
    let found = if address == local { String::new() } else { format!(" and is found at {address}") };
    say(&format!("server {id} listens on {local}{found}"));
    tracing::info!(server = id, %address, child = child.id(), "a node begins");
    if let Some(journal) = &settings.journal {
        tokio::spawn(disk::watch(node.clone(), journal.folder.clone(), journal.reserve));
    }
    if let Some(port) = &port {
        tokio::spawn(gateway::trial::keep(node.clone(), port.clone()));
    }
    let core = NodeCore::new(node.clone(), child, port, settings.trace.as_deref(), keeping)?;
    for kind in [SignalKind::terminate(), SignalKind::interrupt()] {
        tokio::spawn(hear_signals(signal(kind)?, node.clone()));
    }
    tokio::spawn(connections::accept(listener, node.clone()));
    tokio::spawn(tick(node.clone()));
    // Both are this one task: where the cluster is another one now, nothing of this node runs between that and its end.
    Ok(tokio::select! {
        biased;
        replaced = membership::keep(node, settings.beginning == Beginning::Join) => End::Fault(replaced.to_string()),
        end = core.run(heard) => end,
    })
}

/// The time, and how long the cluster stood still where the server begins with a store that was recovered.
fn begin_time(loaded: Option<&Standing>) -> (Clock, Option<Pause>) {
    let mut clock = Clock::default();
    let paused = loaded.map(|standing| {
        let since_start = clock::since_start();
        clock.go_on_from(standing.last, clock::wall(), since_start);
        Pause { last: standing.last, begun: clock.now(since_start) }
    });
    (clock, paused)
}

/// The journal with which the node begins, where the cluster was recovered. Without it, nothing of what was recovered would be
/// there.
fn find_store(cluster: &Cluster, settings: &NodeSettings) -> Result<Option<journal::Found>> {
    if let Some(journal) = &settings.journal {
        journal::prepare(&journal.folder).context("journals can't be kept")?;
    }
    let (Some(recovered), Beginning::First(server)) = (&cluster.settings.recovered, settings.beginning) else {
        return Ok(None);
    };
    let Some(journal) = &settings.journal else {
        bail!("this cluster was recovered: give the --journal that hobbychair cluster recover wrote to");
    };
    let folder = JournalFolder::of(&journal.folder, &cluster.settings.incarnation, server);
    let found = journal::Found::read(&folder)
        .context("this cluster was recovered, and its server begins with what hobbychair cluster recover wrote")?;
    let is_it = found.base == recovered.count && found.count == found.base && found.store.is_some();
    if !is_it {
        bail!("{} isn't what hobbychair cluster recover wrote: a number is used once", folder.0.display());
    }
    Ok(Some(found))
}

/// Where fronts find the gateway.
async fn find_gateway(place: &Place, has_certificates: bool) -> Result<SocketAddr> {
    let listen = place.listen;
    if !has_certificates {
        test_here(listen, "its gateway")?;
    }
    if listen.port() == 0 {
        bail!("{listen} has no port: fronts have to find the gateway there");
    }
    place.found_at(listen, "its gateway", "--advertise-gateway", has_certificates).await
}

fn start_child(cluster: &Cluster, id: u32, settings: &NodeSettings, events: UnboundedSender<Event>) -> Result<Child> {
    let mut words = vec!["server".to_string(), "--id".into(), id.to_string()];
    match settings.beginning {
        Beginning::First(_) => {
            words.extend(["--first".into(), cluster.settings.servers.to_string()]);
            words.extend(cluster.settings.recovered.as_ref().map(|_| "--load".into()));
        }
        Beginning::Join => words.push("--joining".into()),
    }
    let told = move |told| drop(events.send(Event::Told(told)));
    Ok(Child::start(&settings.program, &words, told)?)
}

/// Takes a number, which nobody has taken before.
async fn register(cluster: &Cluster, beginning: Beginning, registration: &Registration) -> Result<u32> {
    let Beginning::First(first) = beginning else { return take_number(cluster, registration).await };
    if first == 0 || first > cluster.settings.servers {
        bail!("the first chain has servers 1 to {}: there is no server {first}", cluster.settings.servers);
    }
    let is_kept = Guard::IsAbsent(cluster.keys.detected(first));
    if !put_registration(cluster, first, registration, vec![is_kept], Vec::new()).await? {
        bail!(
            "server {first} was started before, or the master's log says that it is lost. A number is used once, since what \
             that server knew may be gone: start this node with --join"
        );
    }
    Ok(first)
}

async fn take_number(cluster: &Cluster, registration: &Registration) -> Result<u32> {
    loop {
        let key = cluster.keys.next();
        let read = cluster.etcd.transact(&[cluster.guard()], &[Operation::Get(key.clone())], &[]).await?.read;
        let next = read.first().and_then(|found| found.first()).map(|found| found.value.clone());
        let next = next.context("the cluster has no next number")?;
        let number: u32 = next.parse().context("the cluster's next number is none")?;
        let raise = Operation::Put(key.clone(), (number + 1).to_string());
        if put_registration(cluster, number, registration, vec![Guard::Is(key, next)], vec![raise]).await? {
            return Ok(number);
        }
    }
}

/// Whether the number is this process's now.
async fn put_registration(
    cluster: &Cluster,
    number: u32,
    registration: &Registration,
    mut guards: Vec<Guard>,
    mut operations: Vec<Operation>,
) -> Result<bool> {
    let key = cluster.keys.node(number);
    guards.extend([cluster.guard(), Guard::IsAbsent(key.clone())]);
    operations.push(Operation::Put(key.clone(), records::text(registration)));
    let outcome = cluster.etcd.transact(&guards, &operations, &[Operation::Get(key)]).await?;
    // An earlier answer may have been lost on its way.
    let is_own = || outcome.read.iter().flatten().any(|found| found.value == records::text(registration));
    Ok(outcome.succeeded || is_own())
}

async fn hear_signals(mut signals: Signal, node: Arc<Shared>) {
    while signals.recv().await.is_some() {
        node.tell(Event::Leave);
    }
}

async fn tick(node: Arc<Shared>) {
    loop {
        tokio::time::sleep(core::TICK).await;
        node.suspension.note();
        node.tell(Event::Tick);
    }
}
