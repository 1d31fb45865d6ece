//! The one task that hears of all that happens at a node, and tells the server of it in order.

use std::collections::{BTreeMap, BTreeSet, VecDeque};
use std::path::Path;
use std::sync::Arc;
use std::time::{Duration, Instant};

use anyhow::Result;
use bytes::Bytes;
use hobbychair_bytes::commands::{Command, Party, Place, Response, Standing, NO_MEMORY};
use hobbychair_bytes::messages::Message;
use tokio::sync::mpsc::UnboundedReceiver;

use super::gateway::{self, Beside};
use super::inbox::{Inbox, Taken};
use super::keeping::{Added, Keeping};
use super::peers::Peers;
use super::streams::{Streams, Turn, Work};
use super::trace::Trace;
use super::{End, Event, Report, Shared};
use crate::child::{Child, ChildEvent};
use crate::clock;
use crate::journal::Written;
use crate::link::Link;
use crate::lock;
use crate::records::Chain;
use crate::wire::Frame;

/// So often what waits for memory is tried again, and timers are looked at.
pub const TICK: Duration = Duration::from_millis(50);

/// So often clients are told where the server stands.
const SAYING: Duration = Duration::from_millis(500);

/// A server that is told something, and tells nothing for so long, doesn't work.
const STUCK: Duration = Duration::from_secs(5);

/// Between two ticks of a process that wasn't stopped.
const STOPPED: Duration = Duration::from_millis(1500);

/// A node that is told to end waits so long for the log to say that it is lost.
const LEAVING: Duration = Duration::from_secs(10);

/// So many things happen before the server is told of what comes of them.
const MOST_EVENTS: usize = 256;

/// So many frames of a snapshot are on their way before the next piece is asked for.
const MOST_PIECES: usize = 16;

/// A command that wasn't answered.
pub struct Open {
    what: What,
    since: Instant,
    /// The request or the piece that it tells.
    content: Option<Bytes>,
    /// Its frame, where it is traced.
    frame: Option<Vec<u8>>,
    /// The responses so far.
    responses: Vec<Response>,
}

/// What a command is about.
enum What {
    Take(Party, Place),
    Request(u64),
    Query(u64),
    More(Party),
    Gone(u32),
    /// A query of the gateway, which is lost where it is refused.
    OfGateway,
    Save,
    /// A copy of the store for the journal.
    Copy,
}

/// What waits until the journal has what it comes of.
pub enum Waits {
    /// What comes of an answer of the server.
    Heard(Open, Response),
    /// What was read of the log.
    Read { detected: Vec<u32>, chain: Chain, orders: Vec<(u64, Bytes)> },
}

/// When something that waits at the server is asked for.
#[derive(Clone, Copy, PartialEq, Eq)]
enum Wait {
    Now,
    /// At the next tick, since there was no memory.
    Later,
    /// It is asked for.
    Asked,
}

/// All that a node knows.
pub struct NodeCore {
    node: Arc<Shared>,
    child: Child,
    /// Frames for the server, which are given together.
    frames: Vec<u8>,
    open: VecDeque<Open>,
    standing: Standing,
    chain: Option<Chain>,
    gone: BTreeSet<u32>,
    /// Servers that the chain let go of while they joined: they never come back.
    dropped: BTreeSet<u32>,
    /// Servers that are gone, of which the server is told at the next tick, since there was no memory.
    untold: BTreeSet<u32>,
    /// So many servers are gone of which the server is told, and hasn't answered.
    telling: usize,
    links: BTreeMap<u32, Arc<Link>>,
    peers: Peers,
    inboxes: BTreeMap<Party, Inbox>,
    /// For whom something waits at the server.
    waiting: BTreeMap<Party, Wait>,
    streams: Streams,
    gateway: Beside,
    trace: Option<Trace>,
    keeping: Option<Keeping<Waits>>,
    /// When the server told something last.
    told: Instant,
    is_stuck: bool,
    /// Since when it is to end.
    leaving: Option<Instant>,
    /// A server that joins, for which too much waits here.
    late_joiner: Option<u32>,
    ticked: Instant,
    /// When clients were told where the server stands.
    said: Instant,
    /// When this process went on that had been stopped, or began.
    awake: Instant,
    end: Option<End>,
}

impl NodeCore {
    pub fn new(
        node: Arc<Shared>,
        child: Child,
        port: Option<Arc<gateway::Port>>,
        trace: Option<&Path>,
        keeping: Option<Keeping<Waits>>,
    ) -> Result<NodeCore> {
        let gateway = Beside::new(node.id, port, node.pause());
        Ok(NodeCore {
            node,
            child,
            frames: Vec::new(),
            open: VecDeque::new(),
            standing: Standing::default(),
            chain: None,
            gone: BTreeSet::new(),
            dropped: BTreeSet::new(),
            untold: BTreeSet::new(),
            telling: 0,
            links: BTreeMap::new(),
            peers: Peers::default(),
            inboxes: BTreeMap::new(),
            waiting: BTreeMap::new(),
            streams: Streams::default(),
            gateway,
            trace: trace.map(Trace::begin).transpose()?,
            keeping,
            told: Instant::now(),
            is_stuck: false,
            leaving: None,
            late_joiner: None,
            ticked: Instant::now(),
            said: Instant::now(),
            awake: Instant::now(),
            end: None,
        })
    }

    /// Runs until the node ends.
    pub async fn run(mut self, mut events: UnboundedReceiver<Event>) -> End {
        // Its answer says where the server stands.
        self.give(What::More(Party::Clients), &Command::More(Party::Clients));
        self.write();
        while let Some(event) = events.recv().await {
            // Where this process stood still, nothing comes of what has come before it has looked at etcd.
            self.node.suspension.pass().await;
            self.happen(event);
            self.happen_too(&mut events);
            self.settle();
            if let Some(end) = self.end {
                return end;
            }
            self.go_on();
            self.write();
        }
        End::Fault("nothing happens any more".into())
    }

    /// What else has come by now happens too, so that what comes of all of it goes on its way together.
    fn happen_too(&mut self, events: &mut UnboundedReceiver<Event>) {
        for _ in 1..MOST_EVENTS {
            let next = if self.end.is_none() { events.try_recv() } else { return };
            match next {
                Ok(event) => self.happen(event),
                Err(_) => return,
            }
        }
    }

    fn happen(&mut self, event: Event) {
        match event {
            Event::Told(ChildEvent::Responses(responses)) => {
                self.told = Instant::now();
                for response in responses {
                    self.hear(response);
                    if self.end.is_some() {
                        return;
                    }
                }
            }
            Event::Told(ChildEvent::Ended(why)) => self.fail(format!("cq server is gone: {why}")),
            Event::Learned(gone) => self.learn(&gone),
            Event::Linking { from, gone, reply } => {
                self.learn(&gone);
                let linked =
                    (self.end.is_none() && !self.gone.contains(&from)).then(|| self.peers.begin_connection(from));
                let _ = reply.send(linked);
            }
            Event::Came { from, connection, frame } => self.came(from, connection, frame),
            Event::Unlinked { from, connection } => self.peers.ended(from, connection),
            Event::Received => {}
            Event::Read { detected, chain, orders } => self.hear_of_log(detected, chain, orders),
            Event::Journal(written) => self.hear_of_journal(written),
            Event::Client { client, outlet } => {
                self.streams.enter(client, outlet);
                self.streams.send(client, &self.frame_of_standing());
            }
            Event::Asked { client, stream, work, done } => self.streams.ask(client, stream, work, done),
            Event::Left { client } => self.streams.leave(client),
            Event::Gateway(happening) => self.gateway.happen(happening, &mut self.streams),
            Event::Leave => self.leave(),
            Event::Tick => self.tick(),
        }
    }

    fn fail(&mut self, why: String) {
        self.end = Some(End::Fault(why));
    }

    /// The node is told to end. Where its server has a place in the chain, the master is asked to do without it first, so
    /// that the others go on at once. All goes on here until the log says that it is lost.
    fn leave(&mut self) {
        let has_place = self.chain.as_ref().map_or(true, |chain| chain.has_place(self.node.id));
        if !has_place {
            self.end = Some(End::Left);
        } else if self.leaving.is_some() {
            self.fail("it was told to twice, and the chain hasn't let go of it".into());
        } else {
            tracing::info!("this node is told to end: the master is asked to do without it");
            self.leaving = Some(Instant::now());
            self.report();
            self.node.look.notify_one();
        }
    }

    // ---- the server

    fn give(&mut self, what: What, command: &Command) {
        let frame = command.frame();
        let kept = self.trace.is_some().then(|| frame.clone());
        let content = match command {
            Command::Arrive { request: content, .. } | Command::Take { piece: content, .. } => Some(content.clone()),
            _ => None,
        };
        self.frames.extend_from_slice(&frame);
        self.open.push_back(Open { what, since: Instant::now(), content, frame: kept, responses: Vec::new() });
    }

    /// The server is told what it was given.
    fn write(&mut self) {
        if !self.frames.is_empty() {
            self.child.give(std::mem::take(&mut self.frames));
        }
    }

    fn hear(&mut self, response: Response) {
        if !response.is_last() {
            match self.open.front_mut() {
                Some(open) => open.responses.push(response),
                None => self.fail("cq server tells something that nobody asked for".into()),
            }
            return;
        }
        let Some(open) = self.open.pop_front() else {
            return self.fail("cq server answers what nobody asked for".into());
        };
        if response.refusal().is_none() {
            if let Err(error) = self.write_down(&open, &response) {
                return self.fail(format!("the trace can't be written: {error}"));
            }
        }
        if let Err(why) = self.keep(&open, &response) {
            return self.fail(why);
        }
        match &mut self.keeping {
            Some(keeping) => keeping.wait(Waits::Heard(open, response)),
            None => self.take_effect(open, response),
        }
    }

    /// What comes of an answer.
    fn take_effect(&mut self, open: Open, response: Response) {
        let refused = response.refusal();
        if let Response::Done(standing) = response {
            self.stand(standing);
        }
        self.answered(open.what, refused);
        for response in open.responses {
            match response {
                Response::Put { to, place, piece } => self.put(to, place, piece),
                // What waits for a server that is gone is thrown away.
                Response::Waiting(Party::Server(server)) if self.gone.contains(&server) => {}
                Response::Waiting(party) => drop(self.waiting.entry(party).or_insert(Wait::Now)),
                Response::Saved { count, chunk } => {
                    self.gateway.saved(count, chunk, &self.standing, &mut self.streams);
                }
                _ => {}
            }
        }
    }

    /// What the answer adds to the list goes to the journal.
    fn keep(&mut self, open: &Open, last: &Response) -> Result<(), String> {
        let Some(keeping) = &mut self.keeping else { return Ok(()) };
        if let What::Copy = open.what {
            let chunk = open.responses.iter().find_map(|response| match response {
                Response::Saved { count, chunk } => Some((*count, chunk.clone())),
                _ => None,
            });
            match chunk {
                Some((count, chunk)) => keeping.copied(count, chunk),
                None => keeping.not_copied(),
            }
        }
        let Response::Done(standing) = last else { return Ok(()) };
        let is_arrival = matches!(open.what, What::Request(_));
        match (keeping.added(open.content.as_ref(), is_arrival, standing)?, &open.what) {
            (Added::Entry(entry), _) => keeping.add_entry(entry),
            (Added::Store, What::Take(from, place)) => {
                let chunks = self.inboxes.get(from).map(|inbox| inbox.chunks(place.number)).unwrap_or_default();
                keeping.replace(standing.count, chunks);
            }
            (Added::Store | Added::Nothing, _) => {}
        }
        Ok(())
    }

    /// What waits for nothing more happens.
    fn settle(&mut self) {
        self.keeping.iter_mut().for_each(Keeping::flush);
        while let Some(what) = self.keeping.as_mut().filter(|_| self.end.is_none()).and_then(Keeping::next) {
            match what {
                Waits::Heard(open, response) => self.take_effect(open, response),
                Waits::Read { detected, chain, orders } => self.read(&detected, chain, orders),
            }
        }
    }

    fn hear_of_journal(&mut self, written: Written) {
        let Some(keeping) = &mut self.keeping else { return };
        let had_fault = keeping.fault().is_some();
        keeping.hear(written);
        if keeping.fault().is_some() != had_fault {
            self.report();
            self.node.look.notify_one();
        }
    }

    /// Before anything leaves that it causes.
    fn write_down(&mut self, open: &Open, last: &Response) -> std::io::Result<()> {
        let Some((trace, frame)) = self.trace.as_mut().zip(open.frame.as_ref()) else { return Ok(()) };
        trace.write(frame, open.responses.iter().chain([last]))
    }

    fn answered(&mut self, what: What, refused: Option<u32>) {
        match what {
            What::Take(from, place) => {
                let taken = self.inboxes.get_mut(&from).map(|inbox| inbox.answered(place, refused));
                if let Some(Taken::Broken(code)) = taken {
                    tracing::error!(%from, number = place.number, code, "what came is no message: its link stands still");
                }
            }
            What::Request(client) => self.streams.answered(client, true, refused),
            What::Query(client) => self.streams.answered(client, false, refused),
            What::OfGateway | What::Copy => {}
            What::Save => {
                if let Some(code) = refused {
                    self.gateway.not_saved(code, &mut self.streams);
                }
            }
            What::More(to) => {
                self.waiting.remove(&to);
                if refused == Some(NO_MEMORY) {
                    self.waiting.insert(to, Wait::Later);
                }
            }
            What::Gone(server) => {
                self.telling -= 1;
                match refused {
                    None => {}
                    Some(NO_MEMORY) => drop(self.untold.insert(server)),
                    Some(code) => self.fail(format!("cq server doesn't hear that server {server} is gone, by {code}")),
                }
            }
        }
    }

    fn stand(&mut self, standing: Standing) {
        let before = std::mem::replace(&mut self.standing, standing);
        {
            let mut clock = lock(&self.node.clock);
            let since_start = clock::since_start();
            clock.took(standing.last, since_start);
            if standing.is_head && !before.is_head {
                clock.lead(clock::wall(), since_start);
            }
        }
        self.streams.stand(&standing);
        self.gateway.stands(self.node.id, before.is_acting, standing.is_acting);
        self.gateway.open(&standing, &mut self.streams);
        if standing.is_head && !before.is_head {
            self.gateway.keep(&self.node);
            self.hear_others();
        }
        let is_news = |one: bool, other: bool| one != other;
        if is_news(before.is_head, standing.is_head) || is_news(before.is_acting, standing.is_acting) {
            tracing::info!(
                count = standing.count,
                head = standing.is_head,
                acting = standing.is_acting,
                "the server's place"
            );
            let frame = self.frame_of_standing();
            self.streams.tell_all(&frame);
            self.report();
        }
    }

    fn frame_of_standing(&self) -> Frame {
        let Standing { is_head, is_acting, .. } = self.standing;
        Frame::Standing { server: self.node.id, is_head, is_acting }
    }

    /// What the server puts goes on its way.
    fn put(&mut self, to: Party, place: Place, piece: Bytes) {
        match to {
            Party::Clients => match Message::read(&piece) {
                Ok(Message::Answer { client }) => self.streams.tell_of(client, &Frame::Answer { message: piece }),
                _ => self.fail("cq server puts something for clients that is no answer".into()),
            },
            Party::Master => {
                lock(&self.node.letters).push_back((place.number, piece));
                self.node.look.notify_one();
            }
            Party::Server(server) if self.gone.contains(&server) || self.dropped.contains(&server) => {}
            Party::Server(server) => self.link(server).send_message(place, piece),
        }
    }

    /// Gives the server what may be given: nothing before it has heard of all that are gone, since what comes behind may
    /// be of servers that have.
    fn go_on(&mut self) {
        if self.telling > 0 || !self.untold.is_empty() {
            return;
        }
        let parties: Vec<Party> = self.inboxes.keys().copied().collect();
        for from in parties {
            while let Some((place, command)) = self.inboxes.get_mut(&from).and_then(Inbox::next) {
                self.give(What::Take(from, place), &command);
            }
        }
        while let Some(Turn { client, stream, work }) = self.streams.next(&self.standing) {
            match work {
                Work::Request { request, clock } => {
                    let clock = clock.unwrap_or_else(|| self.node.now());
                    self.give(What::Request(client), &Command::Arrive { stream, clock, request });
                }
                Work::Query(query) => self.give(What::Query(client), &Command::Ask { query }),
            }
        }
        while let Some(query) = self.gateway.next_query() {
            self.give(What::OfGateway, &Command::Ask { query });
        }
        self.ask_for_copies();
        self.ask_for_more();
    }

    /// The server makes one copy at a time. The gateway's goes ahead of the journal's.
    fn ask_for_copies(&mut self) {
        let gateway_needs_one = self.gateway.needs_copies();
        let is_for_journal = self.keeping.as_mut().is_some_and(|keeping| keeping.next_copy(gateway_needs_one));
        let is_copying = self.keeping.as_ref().is_some_and(Keeping::is_copying);
        if is_for_journal {
            self.give(What::Copy, &Command::Save);
        } else if !is_copying && self.gateway.next_save(&self.standing) {
            self.give(What::Save, &Command::Save);
        }
    }

    /// Asks for what waits. Of a snapshot, a few pieces are on their way at once.
    fn ask_for_more(&mut self) {
        let now = |(party, wait): (&Party, &Wait)| (*wait == Wait::Now).then_some(*party);
        for party in self.waiting.iter().filter_map(now).collect::<Vec<_>>() {
            if !self.is_full(party) {
                self.ask_for(party);
            }
        }
    }

    /// Whether the link to a party has as many frames as it may have before more are asked for. Once some have come, this
    /// is looked at again.
    fn is_full(&mut self, party: Party) -> bool {
        let Party::Server(server) = party else { return false };
        if self.dropped.contains(&server) {
            // What waits for it is thrown away.
            return false;
        }
        let link = self.link(server);
        if link.waiting() < MOST_PIECES {
            return false;
        }
        link.await_received();
        link.waiting() >= MOST_PIECES
    }

    fn ask_for(&mut self, party: Party) {
        self.waiting.insert(party, Wait::Asked);
        self.give(What::More(party), &Command::More(party));
    }

    // ---- detections

    /// Servers were detected. That goes ahead of all that is written from now on.
    fn learn(&mut self, detected: &[u32]) {
        for server in detected {
            if !self.gone.insert(*server) {
                continue;
            }
            if *server == self.node.id {
                self.end = Some(self.end_by_log());
                return;
            }
            tracing::info!(server, "a server is gone");
            if let Some(keeping) = &mut self.keeping {
                keeping.learn_gone(*server);
            }
            lock(&self.node.gone).insert(*server);
            lock(&self.node.linked).remove(server);
            if let Some(link) = self.links.remove(server) {
                link.close();
            }
            self.peers.remove(*server);
            self.inboxes.remove(&Party::Server(*server));
            self.waiting.remove(&Party::Server(*server));
            self.links.values().for_each(|link| link.send_gone(*server));
            self.tell_gone(*server);
        }
        self.hear_others();
    }

    /// This server was detected.
    fn end_by_log(&self) -> End {
        match self.keeping.as_ref().and_then(Keeping::fault) {
            Some((_, why)) => End::Fault(format!("its journal can't be written, and others go on without it: {why}")),
            None => End::Detected,
        }
    }

    /// The gateway hears all other servers of the chain, since answers come from the one that acts.
    fn hear_others(&mut self) {
        let Some(chain) = &self.chain else { return };
        let is_there = |server: &u32| *server != self.node.id && !self.gone.contains(server);
        let others = chain.members.iter().chain(&chain.joiner).copied().filter(is_there).collect();
        self.gateway.listen_to(&others, &self.node);
    }

    fn tell_gone(&mut self, server: u32) {
        self.telling += 1;
        self.give(What::Gone(server), &Command::Gone(server));
    }

    // ---- links

    fn link(&mut self, server: u32) -> Arc<Link> {
        let node = &self.node;
        let begin = || {
            lock(&node.linked).insert(server);
            node.look.notify_one();
            Link::begin(server, node.clone())
        };
        self.links.entry(server).or_insert_with(begin).clone()
    }

    fn came(&mut self, from: u32, connection: u64, frame: Frame) {
        if !self.peers.came(from, connection) {
            return;
        }
        match frame {
            Frame::Ping { time } if self.precedes(from) => lock(&self.node.clock).follow(time, clock::since_start()),
            Frame::Message { frame, place, piece } if self.peers.is_next(from, frame) => {
                let inbox = self.inboxes.entry(Party::Server(from)).or_insert_with(|| Inbox::new(Party::Server(from)));
                inbox.push(place, piece);
            }
            Frame::Gone { frame, server } if self.peers.is_next(from, frame) => self.learn(&[server]),
            _ => {}
        }
    }

    /// Whether that server stands right before this one.
    fn precedes(&self, from: u32) -> bool {
        self.chain.as_ref().is_some_and(|chain| chain.before(self.node.id).last() == Some(&from))
    }

    /// Whether all servers that stand before this one are gone, or silent for a while. It is a guess.
    fn may_become_head(&self) -> bool {
        let is_silent = |server: &u32| self.gone.contains(server) || self.peers.is_silent(*server, self.awake);
        let chain = self.chain.as_ref().filter(|chain| chain.members.contains(&self.node.id));
        chain.is_some_and(|chain| chain.before(self.node.id).iter().all(is_silent))
    }

    // ---- what the log says

    /// What was read of the log happens once the journal has it. That this server is lost needs no journal.
    fn hear_of_log(&mut self, detected: Vec<u32>, chain: Chain, orders: Vec<(u64, Bytes)>) {
        if detected.contains(&self.node.id) {
            return self.learn(&[self.node.id]);
        }
        let Some(keeping) = &mut self.keeping else { return self.read(&detected, chain, orders) };
        let is_new = keeping.learn_chain(&chain);
        if is_new || keeping.has_waiting() {
            keeping.wait(Waits::Read { detected, chain, orders });
        } else {
            self.read(&detected, chain, orders);
        }
    }

    fn read(&mut self, detected: &[u32], chain: Chain, orders: Vec<(u64, Bytes)>) {
        self.learn(detected);
        if self.end.is_some() {
            return;
        }
        let id = self.node.id;
        let has_place = chain.has_place(id);
        if chain.used.contains(&id) && !has_place {
            self.end = Some(End::Dropped);
            return;
        }
        if self.leaving.is_some() && !has_place {
            // It was told to end before it knew the chain.
            self.end = Some(End::Left);
            return;
        }
        for (number, piece) in orders {
            let inbox = self.inboxes.entry(Party::Master).or_insert_with(|| Inbox::new(Party::Master));
            inbox.push(Place { number, index: 0 }, piece);
        }
        if has_place {
            // All hear from all, so that each has witnesses.
            for server in chain.members.iter().chain(&chain.joiner) {
                if *server != id && !self.gone.contains(server) {
                    self.link(*server);
                }
            }
        }
        self.let_go(&chain);
        self.chain = Some(chain);
        self.hear_others();
    }

    /// The links end to servers that are in the chain no more.
    fn let_go(&mut self, chain: &Chain) {
        let is_out = |server: &u32| {
            chain.used.contains(server) && !chain.members.contains(server) && chain.joiner != Some(*server)
        };
        for server in self.links.keys().copied().filter(is_out).collect::<Vec<_>>() {
            tracing::info!(server, "the chain let go of a server that joined");
            self.dropped.insert(server);
            lock(&self.node.linked).remove(&server);
            if let Some(link) = self.links.remove(&server) {
                link.close();
            }
        }
    }

    // ---- time

    fn look_at_clock(&self) {
        let (mut clock, wall, since_start) = (lock(&self.node.clock), clock::wall(), clock::since_start());
        if self.standing.is_head {
            clock.lead(wall, since_start);
        }
        if let Some(milliseconds) = clock.compare(wall, since_start) {
            tracing::warn!(
                milliseconds,
                "the wall clock of this machine is off the cluster's time, which goes towards that of the head slowly"
            );
        }
    }

    fn tick(&mut self) {
        if self.ticked.elapsed() > STOPPED {
            // This process was stopped, and perhaps the server with it.
            (self.told, self.awake) = (Instant::now(), Instant::now());
            self.keeping.iter_mut().for_each(Keeping::begin_again);
        }
        self.ticked = Instant::now();
        self.inboxes.values_mut().for_each(Inbox::begin_again);
        for server in std::mem::take(&mut self.untold) {
            self.tell_gone(server);
        }
        for wait in self.waiting.values_mut().filter(|wait| **wait == Wait::Later) {
            *wait = Wait::Now;
        }
        self.look_at_clock();
        self.look_at_server();
        self.look_at_joiner();
        if self.leaving.is_some_and(|since| since.elapsed() > LEAVING) {
            let seconds = LEAVING.as_secs();
            return self.fail(format!("it was told to, and the chain hasn't let go of it within {seconds} s"));
        }
        self.tell_clients();
        self.gateway.know_room(self.node.room(self.chain.as_ref()));
        self.gateway.know_pause(self.node.pause());
        self.gateway.foresee(self.may_become_head(), &self.node, &mut self.streams);
        self.gateway.tick(&self.node.time_for_gateway(), &mut self.streams);
        self.report();
    }

    /// Where the server stands, so that clients see that their connections work.
    fn tell_clients(&mut self) {
        if self.said.elapsed() >= SAYING {
            self.said = Instant::now();
            let frame = self.frame_of_standing();
            self.streams.tell_all(&frame);
        }
    }

    fn look_at_server(&mut self) {
        let silent = |open: &Open| open.since.max(self.told).elapsed() > STUCK;
        let is_stuck = self.open.front().is_some_and(silent);
        if is_stuck && !self.is_stuck {
            tracing::error!("cq server doesn't answer: the master is asked to do without it");
        }
        self.is_stuck = is_stuck;
    }

    /// Looks whether too much waits here for the server that joins.
    fn look_at_joiner(&mut self) {
        let joiner = self.chain.as_ref().and_then(|chain| chain.joiner);
        let waiting = joiner.and_then(|joiner| self.links.get(&joiner)).map_or(0, |link| link.waiting_bytes());
        let late = joiner.filter(|_| waiting as u64 > self.node.limits.joiner);
        if late.is_some() && late != self.late_joiner {
            tracing::warn!(
                server = late,
                bytes = waiting,
                "too much waits for a server that joins: it is to be given up"
            );
            self.node.look.notify_one();
        }
        self.late_joiner = late;
    }

    fn report(&self) {
        let leaves = self.leaving.map(|_| "its node is told to end");
        let disk = self.keeping.as_ref().and_then(Keeping::fault).map(|(why, _)| why);
        *lock(&self.node.report) = Report {
            standing: self.standing,
            hears: self.peers.heard(),
            clients: self.streams.len(),
            condemned: self.is_stuck.then_some("its process doesn't answer").or(disk).or(leaves),
            late_joiner: self.late_joiner,
            gateway: self.gateway.said(),
            keeps_gateway: self.gateway.is_kept(),
        };
    }
}
