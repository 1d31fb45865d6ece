//! The gateway beside a node: what the node's task knows of it (docs/CLUSTER.md, "The gateway's pipe").
//!
//! The node starts a gateway once its server is the head (`process`), tells it the store, and hears for it what the servers of
//! the chain answer (`hearing`). A gateway's life begins with a copy of the store, and the copy is asked for behind all that
//! an earlier life gave to the server: nothing of that one comes later. A gateway's end or silence never ends its node.
//!
//! Where the server may soon be the head, a gateway is started and told the store ahead of that. That is a guess, and costs
//! nothing but time where it is wrong: the gateway may ask only once the server is the head, and only if that one has no entry
//! more than the copy.

mod hearing;
mod port;
mod process;
pub mod trial;

use std::collections::{BTreeMap, BTreeSet, VecDeque};
use std::ops::RangeInclusive;
use std::path::PathBuf;
use std::sync::Arc;
use std::time::{Duration, Instant};

use bytes::Bytes;
use hobbychair_bytes::commands::Standing;
use hobbychair_bytes::pipe::{FromGateway, FromNode};
use tokio::sync::mpsc::UnboundedSender;
use tokio::sync::oneshot;
use tokio::task::JoinHandle;

use super::connections::{next_connection, Outlet};
use super::streams::{Streams, Work};
use super::Shared;
use crate::addresses::Place;
use crate::records::{Failing, GatewayPhase};
use crate::wire::Frame;

/// The client numbers of a gateway.
const CLIENTS: RangeInclusive<u32> = 0..=256;

/// So many requests of a gateway may wait, and so many queries. It has one request open for each client number.
const MOST_ASKED: usize = 1024;

/// So often a gateway is told the time.
const TIME: Duration = Duration::from_millis(500);

/// So long the start of a process may take.
const STARTING: Duration = Duration::from_secs(1);

/// A gateway that may ask and answers none of so many times, one after the other, doesn't work. They are counted, since
/// this process may have stood still itself.
const MOST_UNANSWERED: u32 = 10;

/// A gateway that has served for so long has begun. One that ends before has failed.
const SETTLED: Duration = Duration::from_secs(2);

/// How a gateway is started.
#[derive(Clone, Debug, PartialEq, Eq)]
pub struct GatewaySettings {
    /// Where it listens, and where fronts find it.
    pub place: Place,
    /// Its file of options.
    pub config: Option<PathBuf>,
}

/// What happens about a gateway.
pub enum Happening {
    /// A process was started, was told the time, and is told something by this. Each has a number of its own. It is ended
    /// where `wanted` is dropped.
    Begins { life: u64, outlet: Outlet, wanted: oneshot::Sender<()> },
    /// It tells something.
    Told { life: u64, told: FromGateway },
    /// Something that one was told was written to its socket.
    Wrote,
    /// Its socket has ended.
    Ended { life: u64 },
    /// Its process is gone, or there was none, for that reason.
    Gone { life: Option<u64>, why: String },
    /// Something comes of another server, over the connection with that number.
    Heard { server: u32, connection: u64, heard: PeerEvent },
}

/// What comes of another server.
pub enum PeerEvent {
    /// There is a connection to its node, by which it can be asked.
    Begins(UnboundedSender<Frame>),
    Frame(Frame),
    Ended,
}

/// So many bytes of the store may wait for a gateway before the next chunk is asked for: while it reads some, the server
/// writes more.
const MOST_CHUNK_BYTES: usize = 16 << 20;

/// Whether a gateway is kept, or started again and again.
#[derive(Clone, Copy, Default, PartialEq, Eq)]
enum Kept {
    #[default]
    No,
    /// As long as the server may soon be the head.
    Ahead,
    ForGood,
}

/// How much of the store a gateway has.
#[derive(Clone, Copy, PartialEq, Eq)]
enum Store {
    None,
    Some,
    All,
    /// All of it, and it may ask.
    Open,
}

/// One process of a gateway. It is ended when this is dropped.
struct Life {
    number: u64,
    outlet: Outlet,
    _wanted: oneshot::Sender<()>,
    store: Store,
    /// How many entries the copy has that it is told, where the server wasn't the head when that was begun.
    ahead: Option<u64>,
    /// Whose requests the streams have, once it may ask.
    client: Option<u64>,
    /// When it was told the time.
    timed: Instant,
    /// So many times were told since it said that it works, or may ask.
    unanswered: u32,
    /// How far it says that it is in taking up the store.
    far: u64,
    /// It has asked for something, so it has taken up the store.
    asked: bool,
    /// Since when it says that it serves.
    serves: Option<Instant>,
}

/// What a beat says of a gateway.
#[derive(Clone, Debug, Default, PartialEq, Eq)]
pub struct GatewayBeat {
    /// Nothing where it isn't kept for good.
    pub phase: Option<GatewayPhase>,
    pub failing: Option<Failing>,
    /// While it takes up the store: a number that changes as long as it moves on.
    pub reading: Option<u64>,
}

impl Life {
    /// Whether it has served for a while.
    fn has_settled(&self) -> bool {
        self.serves.is_some_and(|since| since.elapsed() >= SETTLED)
    }
}

/// How far the server is with a copy of its store, and for which life that is.
#[derive(Clone, Copy, Debug, Default, PartialEq, Eq)]
enum GatewayCopying {
    #[default]
    No,
    /// Its next chunk is asked for.
    Asked(u64),
    /// Chunks are left, which are to be asked for.
    Begun(u64),
    /// There was no memory for it, so that it is gone.
    Later,
}

/// A connection to another server's node.
struct Ear {
    connection: u64,
    asks: UnboundedSender<Frame>,
    acts: bool,
    /// The number of the last query's stream.
    stream: u64,
}

/// All that a node's task knows of the gateway beside it.
#[derive(Default)]
pub struct Beside {
    /// The node's own server.
    server: u32,
    port: Option<Arc<Port>>,
    kept: Kept,
    /// What starts processes, and since when.
    keeper: Option<JoinHandle<()>>,
    started: Option<Instant>,
    life: Option<Life>,
    /// The last life that ended, if that was its own fault and it had hardly served.
    failed: Option<u64>,
    failing: Option<Failing>,
    /// Raised by all by which a gateway gets further in taking up the store, or another copy ends that it waits for.
    moves: u64,
    copy: GatewayCopying,
    /// The server wasn't the head when the copy was begun.
    is_copy_ahead: bool,
    listening: BTreeMap<u32, JoinHandle<()>>,
    ears: BTreeMap<u32, Ear>,
    /// The server that began to act last, and acts still.
    acting: Option<u32>,
    /// Queries for the node's own server.
    queries: VecDeque<Bytes>,
    /// What room there is at all servers, as it is told.
    room: Option<FromNode>,
    /// That the chain began with a store that was recovered, for gateways.
    paused: Option<FromNode>,
}

pub use port::Port;
pub use process::test;

impl Beside {
    /// `paused` is told to each gateway ahead of the store, if it is there.
    pub fn new(server: u32, port: Option<Arc<Port>>, paused: Option<FromNode>) -> Beside {
        Beside { server, port, paused, ..Beside::default() }
    }

    /// The server is the head: a gateway is kept from now on.
    pub fn keep(&mut self, node: &Arc<Shared>) {
        if self.kept == Kept::ForGood || self.port.is_none() {
            return;
        }
        // Where one was to be there by now and isn't, another try needn't wait for its turn.
        let is_late = self.started.map_or(true, |started| started.elapsed() > STARTING);
        if self.life.is_none() && is_late {
            self.start(node);
        }
        self.kept = Kept::ForGood;
    }

    /// The server may soon be the head, or isn't likely to be any more. Before it is the head this has no effect on others.
    pub fn foresee(&mut self, is_likely: bool, node: &Arc<Shared>, streams: &mut Streams) {
        match self.kept {
            Kept::No if is_likely && self.port.is_some() => {
                tracing::info!("this server may soon be the head: a gateway is started");
                self.start(node);
                self.kept = Kept::Ahead;
            }
            Kept::Ahead if !is_likely => {
                tracing::info!("a server that stands before this one is heard again: the gateway is ended");
                self.keeper.take().iter().for_each(JoinHandle::abort);
                (self.kept, self.started, self.failing) = (Kept::No, None, None);
                self.end(streams);
            }
            _ => {}
        }
    }

    fn start(&mut self, node: &Arc<Shared>) {
        let Some(port) = self.port.clone() else { return };
        self.started = Some(Instant::now());
        let keeper = tokio::spawn(process::keep(node.clone(), port));
        self.keeper.replace(keeper).iter().for_each(JoinHandle::abort);
    }

    /// Listens to these servers, and to no others. Nobody listens where no gateway is kept.
    pub fn listen_to(&mut self, servers: &BTreeSet<u32>, node: &Arc<Shared>) {
        let gone: Vec<u32> = self.listening.keys().copied().filter(|server| !servers.contains(server)).collect();
        for server in gone {
            self.listening.remove(&server).iter().for_each(JoinHandle::abort);
            self.lose(server);
        }
        for server in servers.iter().filter(|_| self.kept == Kept::ForGood) {
            let listen = || tokio::spawn(hearing::listen(*server, node.clone()));
            self.listening.entry(*server).or_insert_with(listen);
        }
    }

    /// What a beat says of the gateway.
    pub fn said(&self) -> GatewayBeat {
        let is_kept = self.kept == Kept::ForGood;
        let life = self.life.as_ref();
        let phase =
            if life.is_some_and(|life| life.serves.is_some()) { GatewayPhase::Acts } else { GatewayPhase::Begins };
        let reads = life.filter(|life| is_kept && !life.asked && life.serves.is_none());
        GatewayBeat {
            phase: is_kept.then_some(phase),
            failing: self.failing.clone(),
            reading: reads.map(|_| self.moves),
        }
    }

    /// Whether there is a process of a gateway, or will be soon.
    pub fn is_kept(&self) -> bool {
        self.kept != Kept::No
    }

    pub fn happen(&mut self, happening: Happening, streams: &mut Streams) {
        match happening {
            // Nobody wants one any more that was started ahead.
            Happening::Begins { .. } if self.kept == Kept::No => {}
            Happening::Begins { life, outlet, wanted } => {
                self.end(streams);
                self.begin(life, outlet, wanted);
            }
            Happening::Told { life, told } if self.is_current(life) => self.told(told, streams),
            Happening::Ended { life } if self.is_current(life) => self.fail(streams),
            Happening::Gone { life, why } => self.gone(life, &why),
            // Whether a chunk may be asked for is looked at behind each event.
            Happening::Told { .. } | Happening::Ended { .. } | Happening::Wrote => {}
            Happening::Heard { server, connection, heard } => self.heard(server, connection, heard),
        }
    }

    fn is_current(&self, life: u64) -> bool {
        self.life.as_ref().is_some_and(|current| current.number == life)
    }

    // ---- lives

    fn begin(&mut self, number: u64, outlet: Outlet, wanted: oneshot::Sender<()>) {
        // One that is gone, or doesn't read, is given up by others.
        if let Some(paused) = &self.paused {
            let _ = outlet.send_bytes(paused.bytes());
        }
        self.life = Some(Life {
            number,
            outlet,
            _wanted: wanted,
            store: Store::None,
            ahead: None,
            client: None,
            timed: Instant::now(),
            unanswered: 0,
            far: 0,
            asked: false,
            serves: None,
        });
    }

    /// What waits of this life is thrown away, and its process ends.
    fn end(&mut self, streams: &mut Streams) {
        if let Some(client) = self.life.take().and_then(|life| life.client) {
            streams.leave(client);
        }
        self.queries.clear();
        self.let_in(false);
    }

    /// The same by its own fault.
    fn fail(&mut self, streams: &mut Streams) {
        self.failed = self.life.as_ref().filter(|life| !life.has_settled()).map(|life| life.number);
        self.end(streams);
    }

    /// A process is gone. Where its life has failed, or there was none, that is one more in a row.
    fn gone(&mut self, life: Option<u64>, why: &str) {
        let has_failed = life.map_or(true, |life| self.failed == Some(life));
        if has_failed && self.kept != Kept::No {
            let times = self.failing.as_ref().map_or(1, |failing| failing.times.saturating_add(1));
            self.failing = Some(Failing { times, why: trial::cut(why) });
        }
    }

    /// The node gives it up, for no fault of its own.
    fn give_up(&mut self, why: &str, streams: &mut Streams) {
        tracing::warn!("the gateway is ended: {why}");
        self.end(streams);
    }

    /// The same for a fault of its own.
    fn give_up_failed(&mut self, why: &str, streams: &mut Streams) {
        tracing::warn!("the gateway is ended: {why}");
        self.fail(streams);
    }

    /// Connections to the gateway's port are left to it, or ended.
    fn let_in(&self, is_taken: bool) {
        if let Some(port) = &self.port {
            port.is_taken(is_taken);
        }
    }

    fn told(&mut self, told: FromGateway, streams: &mut Streams) {
        let Some(life) = &mut self.life else { return };
        match told {
            FromGateway::Alive { far, serves, .. } => {
                life.unanswered = 0;
                if std::mem::replace(&mut life.far, far) != far {
                    self.moves += 1;
                }
                let serves = serves && life.store == Store::Open;
                life.serves = serves.then(|| life.serves.unwrap_or_else(Instant::now));
            }
            FromGateway::Query { query } => self.query(query),
            FromGateway::Request { stream, clock, request } => {
                let Some(client) = life.client else {
                    return self.give_up_failed("it asks for something before it has the store", streams);
                };
                life.asked = true;
                if streams.add(client, stream, Work::Request { request, clock: Some(clock) }) > MOST_ASKED {
                    self.give_up_failed("it asks for more at once than it has client numbers", streams);
                }
            }
        }
    }

    /// Some time has passed, and it is this one now.
    pub fn tick(&mut self, time: &FromNode, streams: &mut Streams) {
        if self.copy == GatewayCopying::Later {
            self.copy = GatewayCopying::No;
        }
        let Some(life) = &mut self.life else { return };
        if life.timed.elapsed() >= TIME {
            life.timed = Instant::now();
            life.outlet.send_bytes(time.bytes());
            if life.store == Store::Open {
                if let Some(room) = &self.room {
                    life.outlet.send_bytes(room.bytes());
                }
                life.unanswered += 1;
            }
        }
        if life.has_settled() {
            self.failing = None;
        }
        if life.unanswered >= MOST_UNANSWERED {
            self.give_up_failed("it doesn't say that it works", streams);
        } else if life.client.is_some_and(|client| !streams.has(client)) {
            self.give_up_failed("it doesn't read what it is told", streams);
        }
    }

    /// How long the cluster stood still before it was recovered, as far as that is known by now. Each gateway is told so at its
    /// start: the first one that acts writes it into the book.
    pub fn know_pause(&mut self, paused: Option<FromNode>) {
        self.paused = paused.or(self.paused.take());
    }

    /// What room there is at all servers. A gateway is told so with the time.
    pub fn know_room(&mut self, room: FromNode) {
        self.room = Some(room);
    }

    /// Tells the gateway something. Before it may ask nothing of this is about what it asked.
    fn tell(&mut self, frame: &FromNode) {
        if let Some(life) = self.life.as_ref().filter(|life| life.store == Store::Open) {
            // One that is gone, or doesn't read, is given up by others.
            let _ = life.outlet.send_bytes(frame.bytes());
        }
    }

    // ---- the copy

    /// Whether a copy is made for a gateway, or is to be made.
    pub fn needs_copies(&self) -> bool {
        let is_wanted = self.life.as_ref().is_some_and(|life| life.store == Store::None);
        is_wanted || matches!(self.copy, GatewayCopying::Asked(_) | GatewayCopying::Begun(_))
    }

    /// Whether the server, which stands there, is to be asked for the next chunk of a copy. If so it counts as asked for.
    pub fn next_save(&mut self, standing: &Standing) -> bool {
        let life = self.life.as_ref();
        let asked = match self.copy {
            GatewayCopying::No => life.filter(|life| life.store == Store::None).map(|life| life.number),
            // A copy whose gateway is gone is asked for to its end all the same.
            GatewayCopying::Begun(of) => {
                let has_room = |life: &Life| life.outlet.waiting() < MOST_CHUNK_BYTES;
                let is_ready = life.map_or(true, |life| life.number != of || has_room(life));
                is_ready.then_some(of)
            }
            GatewayCopying::Asked(_) | GatewayCopying::Later => None,
        };
        if let Some(life) = asked {
            if self.copy == GatewayCopying::No {
                self.is_copy_ahead = !standing.is_head;
            }
            self.copy = GatewayCopying::Asked(life);
        }
        asked.is_some()
    }

    /// A chunk comes of the node's own server, of a copy of so many entries. An empty one is the end of the copy.
    pub fn saved(&mut self, count: u64, chunk: Bytes, standing: &Standing, streams: &mut Streams) {
        self.moves += 1;
        let GatewayCopying::Asked(of) = self.copy else { return };
        let is_last = chunk.is_empty();
        self.copy = if is_last { GatewayCopying::No } else { GatewayCopying::Begun(of) };
        let ahead = self.is_copy_ahead.then_some(count);
        let Some(life) = self.life.as_mut().filter(|life| life.number == of) else { return };
        life.ahead = ahead;
        life.store = if is_last { Store::All } else { Store::Some };
        if !life.outlet.send_bytes(FromNode::Chunk { chunk }.bytes()) {
            return self.give_up_failed("it isn't told the store any more", streams);
        }
        self.open(standing, streams);
    }

    /// The node's own server stands there. If that is the head, a gateway that has all of the store may ask from now on: all
    /// further entries are what it asks. One that was told a copy ahead is ended if the server has taken an entry since.
    pub fn open(&mut self, standing: &Standing, streams: &mut Streams) {
        let Some(life) = self.life.as_mut().filter(|life| life.store != Store::Open) else { return };
        if life.ahead.is_some_and(|count| count != standing.count) {
            return self.give_up("the server has more entries than the copy that it was told ahead", streams);
        }
        if life.store != Store::All || !standing.is_head {
            return;
        }
        tracing::info!(
            life = life.number,
            entries = standing.count,
            ahead = life.ahead.is_some(),
            "the gateway may ask"
        );
        let client = next_connection();
        (life.store, life.client) = (Store::Open, Some(client));
        let is_there = life.outlet.send_bytes(FromNode::Stored { server: self.server }.bytes());
        streams.enter(client, life.outlet.clone());
        self.let_in(true);
        if !is_there {
            self.give_up_failed("it isn't told that it may ask", streams);
        }
    }

    /// The server refused a chunk, and the copy is gone.
    pub fn not_saved(&mut self, code: u32, streams: &mut Streams) {
        let GatewayCopying::Asked(of) = self.copy else { return };
        self.copy = GatewayCopying::Later;
        let has_some = self.life.as_ref().is_some_and(|life| life.number == of && life.store == Store::Some);
        if has_some {
            self.give_up(&format!("the copy of the store that it was told is gone, by {code}"), streams);
        }
    }

    // ---- servers

    /// Another server's node tells something, or a connection to it begins or ends.
    fn heard(&mut self, server: u32, connection: u64, heard: PeerEvent) {
        if let PeerEvent::Begins(asks) = heard {
            self.lose(server);
            // It may have been given up by now.
            if self.listening.contains_key(&server) {
                self.ears.insert(server, Ear { connection, asks, acts: false, stream: 0 });
            }
            return;
        }
        let Some(ear) = self.ears.get_mut(&server).filter(|ear| ear.connection == connection) else { return };
        match heard {
            PeerEvent::Frame(Frame::Standing { is_acting, .. }) => {
                let acted = std::mem::replace(&mut ear.acts, is_acting);
                self.stands(server, acted, is_acting);
            }
            PeerEvent::Frame(Frame::Answer { message }) => self.tell(&FromNode::Answer { message }),
            PeerEvent::Ended => self.lose(server),
            // A query that is refused is lost.
            PeerEvent::Begins(_) | PeerEvent::Frame(_) => {}
        }
    }

    fn lose(&mut self, server: u32) {
        self.ears.remove(&server);
        self.acting = self.acting.filter(|acting| *acting != server);
    }

    /// A server acted before, and acts now, as far as it says by the connection that there is. What one held that begins to
    /// act, or that acts behind a new connection, may have been answered to nobody.
    pub fn stands(&mut self, server: u32, acted: bool, acts: bool) {
        if acts && !acted {
            self.acting = Some(server);
            self.tell(&FromNode::Acts);
        } else if !acts {
            self.acting = self.acting.filter(|acting| *acting != server);
        }
    }

    fn query(&mut self, query: Bytes) {
        let Some(acting) = self.acting else { return };
        match self.ears.get_mut(&acting) {
            Some(ear) => {
                // A refusal ends the stream of this query alone.
                ear.stream += 1;
                let _ = ear.asks.send(Frame::Query { stream: ear.stream, query });
            }
            None if self.queries.len() < MOST_ASKED => self.queries.push_back(query),
            None => {}
        }
    }

    /// The next query for the node's own server.
    pub fn next_query(&mut self) -> Option<Bytes> {
        self.queries.pop_front()
    }
}

#[cfg(test)]
mod tests;
