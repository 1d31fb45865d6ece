//! The gateway as a whole: `cq`, the store in front of it, the journal, the HTTP server, and what operators are told.

use std::cell::Cell;
use std::io::Write;
use std::os::unix::io::RawFd;
use std::path::PathBuf;
use std::sync::{Arc, OnceLock};

use anyhow::{anyhow, bail, Context, Result};
use hobbychair_bytes::moment::Moment;
use hobbychair_cluster::identity::{Identity, IdentityFiles, Role};
use hobbychair_sqs::access::Keys;
use hobbychair_store::backend::{self, Keeper, Programs};
use hobbychair_store::cq::{test_built, test_version};
use hobbychair_store::journal::Lock;
use hobbychair_store::shared::Shared;
use hobbychair_store::store::Store;
use hobbychair_store::task::{self, Ends};
use hobbychair_tables::budget::Budget;
use hobbychair_tables::clock::Clock;
use hobbychair_tables::queues::Queues;
use hobbychair_tools::inspect::refuse_other_builds;
use tokio::net::TcpListener;
use tokio::task::JoinHandle;

use crate::actions::{Actions, Owner, Pauses};
use crate::config::{Address, DeclaredQueue};
use crate::door::{listen, shared, test_free, test_near, Certificate, Door, Places, Protection};
use crate::ending::{End, Signals};
use crate::http::{Addresses, Hosts, Reception, Service};
use crate::metrics::Metrics;
use crate::operators::admin::{Admin, Health};
use crate::operators::peek::Peeks;
use crate::work::{book, delays, move_tasks, moves, parts, purges, retention};

/// What a gateway is told at its start.
#[derive(Clone, Debug)]
pub struct GatewaySettings {
    pub host: String,
    pub port: u16,
    /// What is to keep the store.
    pub keeper: Keeper,
    /// A socket that listens, which the node keeps and shares.
    pub listener: Option<RawFd>,
    /// It ends once it has read all that it was given, and could listen.
    pub only_prepares: bool,
    /// Another gateway of this machine has the addresses that it would take.
    pub beside_another: bool,
    /// So many bytes messages and what else counts may use.
    pub memory: Option<u64>,
    /// So many bytes may be kept by all requests that are being served.
    pub request_memory: usize,
    /// The file of keys; none where everybody is served.
    pub credentials: Option<PathBuf>,
    /// Everybody is served also from other machines.
    pub open: bool,
    /// A chain of certificates and its key.
    pub certificate: Option<(PathBuf, PathBuf)>,
    /// The cluster whose fronts alone are served, and the certificate that they are shown.
    pub members: Option<(String, IdentityFiles)>,
    /// The URL under which clients know the gateway.
    pub url: Option<String>,
    /// By which further names clients without keys reach it.
    pub allowed_hosts: Vec<String>,
    pub owner: Owner,
    pub connections: u32,
    pub polls: u32,
    pub pauses: Pauses,
    pub admin: Option<Address>,
    /// Operators may look at messages.
    pub peek: bool,
    pub queues: Vec<DeclaredQueue>,
    /// A file whose number is the clock, for tests.
    pub clock_file: Option<PathBuf>,
}

impl GatewaySettings {
    fn hosts(&self) -> Hosts {
        Hosts::new(&self.allowed_hosts, self.url.as_deref())
    }
}

/// Serves until a signal comes, be it during the start. An error says why it couldn't begin or go on.
pub async fn serve(settings: GatewaySettings) -> Result<()> {
    let mut signals = Signals::new()?;
    let settings = Arc::new(settings);
    // Both parts of the start may take long without a pause.
    let wants_reading = Cell::new(false);
    let preparing = tokio::spawn(prepare(settings.clone()));
    let Some(prepared) = unless_ended(preparing, &mut signals, &wants_reading).await? else { return Ok(()) };
    if settings.only_prepares {
        return Ok(());
    }
    let starting = tokio::spawn(start(settings.clone(), prepared));
    let Some(started) = unless_ended(starting, &mut signals, &wants_reading).await? else { return Ok(()) };
    if wants_reading.get() {
        let entrance = &started.prepared.entrance;
        read_again(&entrance.keys, &entrance.certificate);
    }
    answer(&settings, started, &mut signals).await
}

/// What a part of the start came to; nothing if a signal ended it.
async fn unless_ended<T>(
    part: JoinHandle<Result<T>>,
    signals: &mut Signals,
    wants_reading: &Cell<bool>,
) -> Result<Option<T>> {
    tokio::select! {
        done = part => Ok(Some(done??)),
        () = signals.wait_for_end(|| wants_reading.set(true)) => {
            tracing::info!("ending before anybody was served");
            Ok(None)
        }
    }
}

/// What is there before the programs are.
struct Prepared {
    entrance: Entrance,
    places: Places,
    admin: Arc<Admin>,
}

/// What is there when the store is.
struct Started {
    prepared: Prepared,
    running: RunningStore,
}

async fn prepare(settings: Arc<GatewaySettings>) -> Result<Prepared> {
    let entrance = Entrance::of(&settings)?;
    let places = Places::for_connections(settings.connections)?;
    if let Keeper::Programs(Programs { program, .. }) = &settings.keeper {
        test_built(program).await?;
        test_version(program).await?;
    }
    let admin = Arc::new(Admin {
        health: Arc::new(Health::default()),
        metrics: Arc::new(Metrics::new()?),
        peeks: settings.peek.then(|| Peeks::new(settings.owner.clone())),
        hosts: settings.hosts(),
        store: OnceLock::new(),
    });
    match &settings.admin {
        Some(address) if !settings.only_prepares => {
            let listener = listen_for_operators(address)?;
            tokio::spawn(admin.clone().serve(listener, places.operators));
        }
        Some(Address { host, port }) if !settings.beside_another => {
            test_free(host, *port).with_context(|| format!("can't listen on {host}:{port} for operators"))?;
        }
        _ => {}
    }
    Ok(Prepared { entrance, places, admin })
}

async fn start(settings: Arc<GatewaySettings>, prepared: Prepared) -> Result<Started> {
    let running = begin(&settings).await?;
    // Only one store is ever set.
    let _ = prepared.admin.store.set(running.store.clone());
    tokio::spawn(retention::keep_sweeping(running.store.clone()));
    tokio::spawn(parts::keep_removing(running.store.clone()));
    tokio::spawn(delays::keep_moving(running.store.clone()));
    tokio::spawn(book::keep(running.store.clone()));
    Ok(Started { prepared, running })
}

/// Who may come in, and by what.
struct Entrance {
    listener: TcpListener,
    keys: Option<Arc<Keys>>,
    certificate: Option<Arc<Certificate>>,
    /// What fronts are shown, where they alone are served.
    identity: Option<Arc<Identity>>,
}

impl Entrance {
    /// Reads keys and certificates, and takes the address. Where there are no keys, that is one of this machine, unless
    /// it was said that everybody is served.
    fn of(settings: &GatewaySettings) -> Result<Entrance> {
        let keys = settings.credentials.as_deref().map(Keys::read).transpose()?.map(Arc::new);
        let certificate = Certificate::read_named(&settings.certificate)?;
        let identity = match &settings.members {
            Some((cluster, files)) => files.identity(cluster, &[Role::Node])?,
            None => None,
        };
        let (host, port) = (&settings.host, settings.port);
        let listener = match settings.listener {
            Some(socket) => shared(socket).context("the socket that is shared can't be used")?,
            None => listen(host, port).with_context(|| format!("can't listen on {host}:{port}"))?,
        };
        // Fronts show who they are, and say themselves whom they serve.
        let is_open = settings.open || identity.is_some();
        if keys.is_none() && !is_open {
            test_near(host, listener.local_addr()?)?;
        }
        Ok(Entrance { listener, keys, certificate, identity })
    }
}

/// Reads files of keys and of a certificate again, beside all else: one may be a pipe that nobody writes to. What can't be read stays
/// as it was.
pub fn read_again(keys: &Option<Arc<Keys>>, certificate: &Option<Arc<Certificate>>) {
    let (keys, certificate) = (keys.clone(), certificate.clone());
    tokio::task::spawn_blocking(move || {
        log_read_again("keys", keys.as_deref().map(Keys::read_again));
        log_read_again("certificate", certificate.as_deref().map(Certificate::read_again));
    });
}

/// Says whether files were read again.
fn log_read_again(what: &str, read: Option<Result<()>>) {
    match read {
        None => {}
        Some(Ok(())) => tracing::info!("the {what} were read again"),
        Some(Err(error)) => tracing::error!("the {what} stay as they were: {error:#}"),
    }
}

/// Takes the operators' address, and says where that is.
pub fn listen_for_operators(address: &Address) -> Result<TcpListener> {
    let Address { host, port } = address;
    let listener = listen(host, *port).with_context(|| format!("can't listen on {host}:{port} for operators"))?;
    say(&format!("health and metrics on http://{}", listener.local_addr()?));
    Ok(listener)
}

/// What goes on from the start to the end.
struct RunningStore {
    store: Store,
    ends: Ends,
    _lock: Option<Lock>,
}

fn clock_of(settings: &GatewaySettings) -> Arc<Clock> {
    Arc::new(match &settings.clock_file {
        Some(path) => Clock::of_file(path),
        None => Clock::new(),
    })
}

/// Starts what keeps the store, and the store in front of it.
async fn begin(settings: &GatewaySettings) -> Result<RunningStore> {
    if let Keeper::Programs(Programs { program, journal: Some(files), .. }) = &settings.keeper {
        let (program, path) = (program.clone(), files.path().to_path_buf());
        tokio::task::spawn_blocking(move || refuse_other_builds(&program, &path)).await??;
    }
    let shared = Shared::new(Arc::new(Queues::new(settings.peek)), clock_of(settings), settings.memory);
    let backend::Started { shards, pipes, paused, requests, lock } = backend::start(&settings.keeper, &shared).await?;
    if requests > 0 {
        say(&format!("took up {requests} requests of the journal"));
    }
    let (store, ends) = task::start(shards, pipes, shared);
    finish_all(&store, paused).await;
    if let Some(lock) = &lock {
        note_requests(&store, lock);
    }
    Ok(RunningStore { store, ends, _lock: lock })
}

/// Notes that the file of each program has requests, where each has a book: without that one is begun later.
fn note_requests(store: &Store, lock: &Lock) {
    if store.places().all(|place| store.queues().books().current(place).is_some()) {
        if let Err(error) = lock.note_requests() {
            tracing::warn!("it can't be noted in FILE.lock that the journal has requests: {error}");
        }
    }
}

/// Brings to its end what was cut off, before anybody is served. `paused`: between which moments nobody was.
async fn finish_all(store: &Store, paused: Option<(Moment, Moment)>) {
    book::prepare(store).await;
    if let Some((last, begun)) = paused {
        retention::tell_jump(store, last, begun).await;
    }
    store.queues().parts().settle_all();
    moves::finish(store).await;
    purges::finish(store).await;
}

async fn answer(settings: &GatewaySettings, started: Started, signals: &mut Signals) -> Result<()> {
    let Started { prepared: Prepared { entrance, places, admin }, running } = started;
    let Entrance { listener, keys, certificate, identity } = entrance;
    let RunningStore { store, mut ends, _lock } = running;
    // The program has to answer before anybody is told that there is something to ask.
    let is_answering = tokio::select! {
        is_answering = store.is_answering() => is_answering,
        () = signals.wait_for_end(|| read_again(&keys, &certificate)) => return Ok(()),
    };
    if !is_answering {
        bail!(why(&mut ends).await);
    }
    let (end, ending) = End::new();
    move_tasks::resume(&store, &keys);
    let of_store = store.clone();
    let (owner, metrics) = (settings.owner.clone(), admin.metrics.clone());
    let is_cut = places.served < settings.connections;
    let polls = if is_cut { settings.polls.min(places.served - places.served / 10) } else { settings.polls };
    let actions = Actions::new(store, owner, polls, settings.pauses, metrics, ending.clone(), keys.clone());
    actions.declare(&settings.queues).await;
    let local = listener.local_addr()?;
    let (url, has_tls, behind_fronts) = (settings.url.clone(), certificate.is_some(), of_store.is_of_chain());
    let addresses = Addresses { url, local, has_tls, behind_fronts };
    let url = format!("{}://{local}", if identity.is_some() { "https" } else { addresses.scheme() });
    let budget = Budget::new(settings.request_memory);
    let (hosts, metrics) = (settings.hosts(), admin.metrics.clone());
    let service = Arc::new(Service::new(actions, keys.clone(), hosts, addresses, metrics, budget));
    let reception = Arc::new(Reception::new(service, places.served));
    let protection = identity.map_or_else(|| Protection::by(certificate.clone()), Protection::for_fronts);
    let door =
        Door::new(protection, places.served).turning_away(places.turned_away).counted_by(admin.metrics.connections());
    let mut served = tokio::spawn(door.serve(listener, ending, move |guest| reception.clone().welcome(guest)));
    admin.health.serves();
    of_store.says_that_it_serves();
    drop(of_store);
    notify_supervisor(sd_notify::NotifyState::Ready);
    tracing::info!(%url, "the gateway serves");
    say(&format!("listening on {url}"));
    tokio::select! {
        () = signals.wait_for_end(|| read_again(&keys, &certificate)) => {}
        ended = &mut served => return Err(anyhow!("the server ended: {ended:?}")),
        reason = why(&mut ends) => bail!(reason),
    }
    admin.health.ends();
    notify_supervisor(sd_notify::NotifyState::Stopping);
    end.wait_for(served).await;
    Ok(())
}

/// Tells systemd, where it started this.
pub fn notify_supervisor(state: sd_notify::NotifyState<'_>) {
    if let Err(error) = sd_notify::notify(false, &[state]) {
        tracing::warn!("the supervisor can't be told: {error}");
    }
}

/// Lets SIGHUP, which has files read again, end nothing before it is listened to.
pub fn ignore_hangups() {
    // SAFETY: the call touches no memory of this process, and no other thread is there yet.
    unsafe { libc::signal(libc::SIGHUP, libc::SIG_IGN) };
}

async fn why(ends: &mut Ends) -> String {
    ends.recv().await.map_or_else(|| "The store is gone.".to_string(), |ended| ended.to_string())
}

/// Writes a line on standard output. Where nobody reads it, it is lost.
pub fn say(line: &str) {
    let mut out = std::io::stdout();
    let _ = writeln!(out, "{line}").and_then(|()| out.flush());
}
