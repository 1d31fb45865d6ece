//! A live chain in plain Rust, to measure ours against: servers, a master and two clients on threads of their own, wired as
//! ours are: a ring of 64 places from each party to each other one, and an inbox for each server, on which both clients
//! put. A node takes turns as ours do, and each server keeps a store made of the collections that come to mind.
//!
//! What it lacks: servers don't crash and none joins, so the master has nothing to say and no client asks twice; no trace
//! of what was done is kept, and nothing is audited. It reads the same lines as `cq_bench live`, without crashes and joins,
//! and writes the same ones.
use std::cell::UnsafeCell;
use std::collections::{BTreeMap, HashMap, VecDeque};
use std::io::BufRead;
use std::sync::atomic::{AtomicBool, AtomicUsize, Ordering};
use std::sync::mpsc::{sync_channel, Receiver, SyncSender};
use std::sync::Arc;
use std::thread;
use std::time::Instant;

/// The room of each link and of each inbox.
const PLACES: usize = 64;
/// After so many turns in a row without work a node lets other threads run, each time.
const IDLE_LIMIT: u32 = 64;
/// Messages go to so many groups, one after another.
const GROUPS: u64 = 16;
/// For so long an id is kept, in turns of the head, which are its clock.
const WINDOW: u64 = 300_000;

/// A place of a ring, which has its cache line for itself. It counts on and on: its slot is what is left of it.
#[repr(align(128))]
struct Apart(AtomicUsize);

/// A link. Each end keeps its own place, and reads the other one's only when the own copy says full or empty.
struct Ring {
    slots: Box<[UnsafeCell<Option<Message>>]>,
    head: Apart,
    tail: Apart,
}

// Each slot is written by the putting end while it is free, and read by the taking end while it is full.
unsafe impl Sync for Ring {}

/// The putting end of a link, or the taking one.
struct End {
    ring: Arc<Ring>,
    head: usize,
    tail: usize,
}

impl End {
    /// A full ring hands the message back.
    fn put(&mut self, message: Message) -> Result<(), Message> {
        if self.tail - self.head == PLACES {
            self.head = self.ring.head.0.load(Ordering::Acquire);
            if self.tail - self.head == PLACES {
                return Err(message);
            }
        }
        unsafe { *self.ring.slots[self.tail % PLACES].get() = Some(message) };
        self.tail += 1;
        self.ring.tail.0.store(self.tail, Ordering::Release);
        Ok(())
    }

    fn take(&mut self) -> Option<Message> {
        if self.head == self.tail {
            self.tail = self.ring.tail.0.load(Ordering::Acquire);
            if self.head == self.tail {
                return None;
            }
        }
        let message = unsafe { (*self.ring.slots[self.head % PLACES].get()).take() };
        self.head += 1;
        self.ring.head.0.store(self.head, Ordering::Release);
        message
    }
}

/// What a client asks: to send a message of that group, id and body, or else to make the queue.
type Ask = Option<[Arc<str>; 3]>;

/// A request, and an entry once the head has stamped it with a moment.
#[derive(Clone)]
struct Request {
    client: usize,
    number: u64,
    moment: u64,
    queue: Arc<str>,
    ask: Ask,
}

/// The sequence number of a send that was accepted.
type Reply = Option<u64>;

enum Message {
    /// To the next server: the entry at that place, from 1.
    Fwd { place: u64, entry: Request },
    /// To the server before: all entries up to that place have reached the tail.
    Ack { place: u64 },
    /// To a client: what its request of that number got.
    Answer { number: u64, reply: Reply },
}

/// A queue, as far as sends need it; what receives and deletes would need is kept, too.
#[derive(Default)]
struct Queue {
    sent: u64,
    /// The group and the body of each, and three numbers on how it was handed out.
    messages: BTreeMap<u64, (Arc<str>, Arc<str>, [u64; 3])>,
    groups: HashMap<Arc<str>, VecDeque<u64>>,
    /// The open groups, by their oldest messages.
    open: BTreeMap<u64, Arc<str>>,
    accepted: VecDeque<(u64, Arc<str>)>,
    ids: HashMap<Arc<str>, u64>,
}

impl Queue {
    fn send(&mut self, moment: u64, [group, id, body]: &[Arc<str>; 3]) -> u64 {
        while self.accepted.front().is_some_and(|(sent, _)| sent + WINDOW <= moment) {
            let (_, old) = self.accepted.pop_front().unwrap();
            self.ids.remove(&old);
        }
        if let Some(sequence) = self.ids.get(id) {
            return *sequence;
        }
        self.sent += 1;
        self.ids.insert(id.clone(), self.sent);
        self.accepted.push_back((moment, id.clone()));
        let own = self.groups.entry(group.clone()).or_default();
        if own.is_empty() {
            self.open.insert(self.sent, group.clone());
        }
        own.push_back(self.sent);
        self.messages.insert(self.sent, (group.clone(), body.clone(), [0; 3]));
        self.sent
    }
}

#[derive(Default)]
struct Store {
    count: u64,
    last: u64,
    /// The last request of each client and its reply.
    clients: HashMap<usize, (u64, Reply)>,
    queues: HashMap<Arc<str>, Queue>,
}

impl Store {
    fn apply(&mut self, entry: &Request) -> Reply {
        self.count += 1;
        self.last = entry.moment;
        match self.clients.get(&entry.client) {
            Some((number, reply)) if entry.number == *number => return *reply,
            Some((number, _)) if entry.number < *number => return None,
            _ => {}
        }
        let queue = self.queues.entry(entry.queue.clone()).or_default();
        let reply = entry.ask.as_ref().map(|message| queue.send(entry.moment, message));
        self.clients.insert(entry.client, (entry.number, reply));
        reply
    }
}

/// The putting end of a link with the messages that wait to be put on it.
struct Out {
    end: End,
    waiting: VecDeque<Message>,
}

impl Out {
    /// Puts the first message that waits, if there is one, and answers how many it put. A full link hands it back.
    fn put(&mut self) -> u64 {
        let Some(message) = self.waiting.pop_front() else { return 0 };
        let Err(back) = self.end.put(message) else { return 1 };
        self.waiting.push_front(back);
        0
    }
}

/// A new link: what puts on it, and the end that takes.
fn link() -> (Out, End) {
    let slots = (0..PLACES).map(|_| UnsafeCell::new(None)).collect();
    let ring = Arc::new(Ring { slots, head: Apart(AtomicUsize::new(0)), tail: Apart(AtomicUsize::new(0)) });
    let [put, take] = [0, 0].map(|place| End { ring: ring.clone(), head: place, tail: place });
    (Out { end: put, waiting: VecDeque::new() }, take)
}

/// The ends of a party's links to and from all parties, the master at 0 and each server at its number.
#[derive(Default)]
struct Ends {
    outs: Vec<Out>,
    ins: Vec<End>,
}

/// A server, its inbox, and the ends of its links, those to the clients apart.
struct Server {
    id: usize,
    is_tail: bool,
    ends: Ends,
    clients: Vec<Out>,
    inbox: Receiver<Request>,
    store: Store,
    /// The entries that aren't acknowledged, which another server might need.
    entries: VecDeque<Request>,
}

impl Server {
    fn tell(&mut self, place: usize, message: Message) {
        self.ends.outs[place].waiting.push_back(message);
    }

    fn acknowledge(&mut self, place: u64) {
        let before = self.store.count - self.entries.len() as u64;
        self.entries.drain(..place.saturating_sub(before) as usize);
        if before < place && self.id > 1 {
            self.tell(self.id - 1, Message::Ack { place });
        }
    }

    /// One more entry, which goes on to the next server. The tail answers it, and acknowledges it.
    fn append(&mut self, entry: Request) {
        let reply = self.store.apply(&entry);
        let (client, number, place) = (entry.client, entry.number, self.store.count);
        self.entries.push_back(entry.clone());
        if self.is_tail {
            self.clients[client].waiting.push_back(Message::Answer { number, reply });
            self.acknowledge(place);
        } else {
            self.tell(self.id + 1, Message::Fwd { place, entry });
        }
    }

    fn take(&mut self, message: Message) {
        match message {
            Message::Fwd { place, entry } if place == self.store.count + 1 => self.append(entry),
            Message::Ack { place } => self.acknowledge(place),
            _ => panic!("no such message comes here"),
        }
    }

    /// The turn of that number, which is its clock: a take from each link and from the inbox, then a put on each link.
    /// Answers how much was done.
    fn turn(&mut self, number: u64) -> u64 {
        let mut done = 0;
        for place in 0..self.ends.ins.len() {
            if let Some(message) = self.ends.ins[place].take() {
                self.take(message);
                done += 1;
            }
        }
        if let Ok(request) = self.inbox.try_recv() {
            self.append(Request { moment: number.max(self.store.last), ..request });
            done += 1;
        }
        done + self.ends.outs.iter_mut().chain(&mut self.clients).map(Out::put).sum::<u64>()
    }
}

struct Client {
    id: usize,
    /// What it is still to ask.
    asks: std::vec::IntoIter<Ask>,
    /// The number of the last ask, and whether it has no answer yet.
    number: u64,
    is_open: bool,
    accepted: u64,
    outs: Vec<SyncSender<Request>>,
    ins: Vec<End>,
}

impl Client {
    /// A client of that number, which is to make the queue, and then so many sends with ids of their own.
    fn new(id: usize, requests: u64) -> Client {
        let mut asks = vec![None];
        for number in 0..requests {
            let (group, dedup) = (format!("g{}", number % GROUPS), format!("{id}-{number}"));
            asks.push(Some([group.into(), dedup.into(), "a body of thirty-two bytes, or so".into()]));
        }
        Client { id, asks: asks.into_iter(), number: 0, is_open: false, accepted: 0, outs: vec![], ins: vec![] }
    }

    fn ask(&mut self, ask: Ask, queue: &Arc<str>) {
        self.number += 1;
        self.is_open = true;
        let request = Request { client: self.id, number: self.number, moment: 0, queue: queue.clone(), ask };
        // There is room in the head's inbox, since each client has one request there at most.
        assert!(self.outs[0].try_send(request).is_ok());
    }

    /// A take from each link, and the next ask once the last is answered. Answers how much was done; none at its end.
    fn turn(&mut self, queue: &Arc<str>) -> Option<u64> {
        let mut done = 0;
        for message in self.ins.iter_mut().filter_map(End::take) {
            let Message::Answer { number, reply } = message else { panic!("no such message comes here") };
            assert!(self.is_open && number == self.number);
            self.is_open = false;
            self.accepted += reply.is_some() as u64;
            done += 1;
        }
        if self.is_open {
            return Some(done);
        }
        let ask = self.asks.next()?;
        self.ask(ask, queue);
        Some(done + 1)
    }
}

/// Turns until the node has ended: how many there were, and how much was done in them. `turn` is given the number of its
/// turn, and answers how much it did, or that the node has ended.
fn turns(mut turn: impl FnMut(u64) -> Option<u64>) -> (u64, u64) {
    let (mut number, mut events, mut idle) = (0, 0, 0);
    while let Some(done) = turn(number + 1) {
        number += 1;
        events += done;
        idle = if done == 0 { idle + 1 } else { 0 };
        if idle > IDLE_LIMIT {
            thread::yield_now();
        }
    }
    (number, events)
}

/// The ends of all parties, the master's first.
fn wires(parties: usize) -> Vec<Ends> {
    let mut all: Vec<Ends> = (0..parties).map(|_| Ends::default()).collect();
    for from in 0..parties {
        for to in 0..parties {
            let (out, end) = link();
            all[from].outs.push(out);
            all[to].ins.push(end);
        }
    }
    all
}

/// A server between these ends, and new ones to and from the clients.
fn server(id: usize, is_tail: bool, ends: Ends, clients: &mut [Client; 2]) -> Server {
    let (sender, inbox) = sync_channel(PLACES);
    let mut outs = Vec::new();
    for client in clients {
        let (out, end) = link();
        outs.push(out);
        client.outs.push(sender.clone());
        client.ins.push(end);
    }
    Server { id, is_tail, ends, clients: outs, inbox, store: Store::default(), entries: VecDeque::new() }
}

fn run(size: usize, requests: u64) {
    let queue: Arc<str> = "q.fifo".into();
    let mut clients = [Client::new(0, requests), Client::new(1, requests)];
    let start = Instant::now();
    let mut ends = wires(size + 1).into_iter();
    let Ends { mut outs, mut ins } = ends.next().unwrap();
    let mut servers: Vec<_> = ends.zip(1..).map(|(own, id)| server(id, id == size, own, &mut clients)).collect();
    let ended = [AtomicBool::new(false), AtomicBool::new(false)];
    let goes_on = &|| !ended.iter().all(|flag| flag.load(Ordering::SeqCst));
    let done: Vec<(u64, u64)> = thread::scope(|scope| {
        let mut serving = Vec::new();
        for server in &mut servers {
            serving.push(scope.spawn(move || turns(|number| goes_on().then(|| server.turn(number)))));
        }
        // The master has nothing to say, and hears nothing, but it looks at all its links.
        let mut look = || ins.iter_mut().filter_map(End::take).count() as u64 + outs.iter_mut().map(Out::put).sum::<u64>();
        scope.spawn(move || turns(|_| goes_on().then(&mut look)));
        for (client, flag) in clients.iter_mut().zip(&ended) {
            let queue = &queue;
            scope.spawn(move || {
                turns(|_| client.turn(queue));
                flag.store(true, Ordering::SeqCst);
            });
        }
        serving.into_iter().map(|thread| thread.join().unwrap()).collect()
    });
    let time = start.elapsed().as_micros();
    let accepted = clients[0].accepted + clients[1].accepted;
    let most = done.iter().map(|(turns, _)| turns).max().unwrap();
    let events: u64 = done.iter().map(|(_, events)| events).sum();
    println!("accepted {accepted} events {events} turns {most} microseconds {time} running {time}");
}

fn main() {
    for line in std::io::stdin().lock().lines() {
        let line = line.unwrap();
        let (servers, requests) = line.split_once(' ').expect("two numbers");
        run(servers.parse().unwrap(), requests.parse().unwrap());
    }
}
