//! A store of FIFO queues in plain Rust with the collections that come to mind, to measure ours against. It keeps the same
//! rules as far as the benchmark asks for them, with a kept reply for each client, reads the same lines as `cq_bench store`
//! and writes the same ones.
use std::collections::{BTreeMap, BTreeSet, HashMap, VecDeque};
use std::io::BufRead;
use std::rc::Rc;
use std::time::Instant;

const RECEIVES: u64 = 1_000;
const COUNTS: u64 = 1_000;
const SENDING: u64 = 299_000;
const WINDOW: u64 = 300_000;

#[derive(Clone)]
struct Message {
    group: Rc<str>,
    body: Rc<str>,
    handings: u64,
    handed_at: u64,
    until: u64,
}

#[derive(Clone, Default)]
struct Group {
    numbers: VecDeque<u64>,
    in_flight: u64,
}

#[derive(Clone)]
struct Delivery {
    sequence: u64,
    handing: u64,
    _group: Rc<str>,
    _body: Rc<str>,
}

enum Ask {
    Create,
    Send { group: String, id: String, body: &'static str },
    Receive { size: usize },
    Change { delivery: Delivery, seconds: u64 },
    Delete { delivery: Delivery },
}

struct Request {
    client: u32,
    number: u64,
    queue: Rc<str>,
    ask: Ask,
}

/// What is kept for a repeat, which never comes here.
#[allow(dead_code)]
#[derive(Clone)]
enum Reply {
    Created,
    Sent(u64),
    Received(Vec<Delivery>),
    Changed(bool),
    Deleted(bool),
    Refused,
}

#[derive(Clone, Default)]
struct Queue {
    sent: u64,
    messages: BTreeMap<u64, Message>,
    groups: HashMap<Rc<str>, Group>,
    /// The open groups, by their oldest messages.
    open: BTreeMap<u64, Rc<str>>,
    /// The messages in flight, by the ends of their timeouts.
    flights: BTreeSet<(u64, u64)>,
    accepted: VecDeque<(u64, Rc<str>)>,
    ids: HashMap<Rc<str>, (u64, u64)>,
}

impl Queue {
    fn forget_old(&mut self, moment: u64) {
        while self.accepted.front().is_some_and(|(sent, _)| sent + WINDOW <= moment) {
            let (_, id) = self.accepted.pop_front().unwrap();
            self.ids.remove(&id);
        }
    }

    fn send(&mut self, moment: u64, group: &str, id: &str, body: &str) -> u64 {
        self.forget_old(moment);
        if let Some((_, sequence)) = self.ids.get(id) {
            return *sequence;
        }
        self.sent += 1;
        let (group, id): (Rc<str>, Rc<str>) = (group.into(), id.into());
        self.ids.insert(id.clone(), (moment, self.sent));
        self.accepted.push_back((moment, id));
        let own = self.groups.entry(group.clone()).or_default();
        if own.numbers.is_empty() {
            self.open.insert(self.sent, group.clone());
        }
        own.numbers.push_back(self.sent);
        let message = Message { group, body: body.into(), handings: 0, handed_at: 0, until: 0 };
        self.messages.insert(self.sent, message);
        self.sent
    }

    /// One message of the group isn't in flight any more.
    fn land(&mut self, group: &Rc<str>) {
        let own = self.groups.get_mut(group).unwrap();
        own.in_flight -= 1;
        if own.in_flight == 0 {
            if let Some(first) = own.numbers.front() {
                self.open.insert(*first, group.clone());
            }
        }
    }

    fn land_all(&mut self, moment: u64) {
        while let Some((until, sequence)) = self.flights.first().copied() {
            if moment < until {
                return;
            }
            self.flights.pop_first();
            let group = self.messages[&sequence].group.clone();
            self.land(&group);
        }
    }

    fn receive(&mut self, moment: u64, size: usize, end: u64) -> Vec<Delivery> {
        self.land_all(moment);
        let mut deliveries = Vec::with_capacity(size);
        while deliveries.len() < size {
            let Some((_, group)) = self.open.pop_first() else { break };
            let own = self.groups.get_mut(&group).unwrap();
            for sequence in own.numbers.iter().take(size - deliveries.len()) {
                let message = self.messages.get_mut(sequence).unwrap();
                message.handings += 1;
                message.handed_at = moment;
                message.until = end;
                self.flights.insert((end, *sequence));
                own.in_flight += 1;
                deliveries.push(Delivery {
                    sequence: *sequence,
                    handing: message.handings,
                    _group: message.group.clone(),
                    _body: message.body.clone(),
                });
            }
        }
        deliveries
    }

    fn change(&mut self, moment: u64, delivery: &Delivery, end: u64) -> bool {
        self.land_all(moment);
        let Some(message) = self.messages.get_mut(&delivery.sequence) else { return false };
        if message.handings != delivery.handing || message.until <= moment || message.handed_at + 43_200_000 < end {
            return false;
        }
        self.flights.remove(&(message.until, delivery.sequence));
        message.until = end;
        self.flights.insert((end, delivery.sequence));
        true
    }

    fn delete(&mut self, delivery: &Delivery) -> bool {
        let Some(message) = self.messages.get(&delivery.sequence) else { return false };
        if message.handings != delivery.handing {
            return false;
        }
        let (group, until) = (message.group.clone(), message.until);
        self.messages.remove(&delivery.sequence);
        let own = self.groups.get_mut(&group).unwrap();
        let was_first = own.numbers.front() == Some(&delivery.sequence);
        let place = own.numbers.iter().position(|sequence| *sequence == delivery.sequence).unwrap();
        own.numbers.remove(place);
        if self.flights.remove(&(until, delivery.sequence)) {
            self.land(&group);
        } else if was_first && self.open.remove(&delivery.sequence).is_some() {
            if let Some(first) = self.groups[&group].numbers.front() {
                self.open.insert(*first, group.clone());
            }
        }
        if self.groups[&group].numbers.is_empty() {
            self.groups.remove(&group);
        }
        true
    }

    fn counts(&self, moment: u64) -> (u64, u64) {
        let in_flight = self.flights.range((moment + 1, 0)..).count() as u64;
        (self.messages.len() as u64 - in_flight, in_flight)
    }
}

#[derive(Clone, Default)]
struct Store {
    count: u64,
    last: u64,
    clients: HashMap<u32, (u64, Reply)>,
    queues: HashMap<Rc<str>, Queue>,
}

impl Store {
    fn apply(&mut self, moment: u64, request: Request) -> Reply {
        assert!(self.last <= moment);
        self.count += 1;
        self.last = moment;
        if let Some((number, reply)) = self.clients.get(&request.client) {
            if request.number <= *number {
                return if request.number == *number { reply.clone() } else { Reply::Refused };
            }
        }
        let reply = self.fresh(moment, &request.queue, request.ask);
        self.clients.insert(request.client, (request.number, reply.clone()));
        reply
    }

    fn fresh(&mut self, moment: u64, name: &Rc<str>, ask: Ask) -> Reply {
        if let Ask::Create = ask {
            self.queues.entry(name.clone()).or_default();
            return Reply::Created;
        }
        let Some(queue) = self.queues.get_mut(name) else { return Reply::Refused };
        match ask {
            Ask::Create => Reply::Created,
            Ask::Send { group, id, body } => Reply::Sent(queue.send(moment, &group, &id, body)),
            Ask::Receive { size } => Reply::Received(queue.receive(moment, size, moment + 30_000)),
            Ask::Change { delivery, seconds } => Reply::Changed(queue.change(moment, &delivery, moment + 1000 * seconds)),
            Ask::Delete { delivery } => Reply::Deleted(queue.delete(&delivery)),
        }
    }

    fn counts(&self, name: &str) -> (u64, u64) {
        self.queues[name].counts(self.last)
    }
}

/// A store with one queue, and the requests of one client. Its calls aren't inlined, so that `bench/store` can count the
/// instructions of each.
struct Bench {
    store: Store,
    name: Rc<str>,
}

impl Bench {
    fn apply(&mut self, moment: u64, ask: Ask) -> Reply {
        let number = self.store.count + 1;
        let queue = self.name.clone();
        self.store.apply(moment, Request { client: 1, number, queue, ask })
    }

    #[inline(never)]
    fn send(&mut self, moment: u64, number: u64, groups: u64) {
        let (group, id) = (format!("g{}", number % groups), format!("d{number}"));
        let body = "a body of thirty-two bytes, or so";
        self.apply(moment, Ask::Send { group, id, body });
    }

    #[inline(never)]
    fn receive(&mut self, moment: u64) -> Vec<Delivery> {
        match self.apply(moment, Ask::Receive { size: 10 }) {
            Reply::Received(deliveries) => deliveries,
            _ => panic!("no messages"),
        }
    }

    #[inline(never)]
    fn change(&mut self, moment: u64, delivery: &Delivery) {
        self.apply(moment, Ask::Change { delivery: delivery.clone(), seconds: 60 });
    }

    #[inline(never)]
    fn delete(&mut self, moment: u64, delivery: &Delivery) {
        self.apply(moment, Ask::Delete { delivery: delivery.clone() });
    }

    #[inline(never)]
    fn count(&self) -> u64 {
        (0..COUNTS).map(|_| std::hint::black_box(&self.store).counts("q.fifo").0).sum()
    }

    #[inline(never)]
    fn copy(&self) -> Store {
        self.store.clone()
    }
}

fn each(start: Instant, calls: u64) -> u64 {
    start.elapsed().as_nanos() as u64 / calls.max(1)
}

fn run(messages: u64, groups: u64) {
    let mut bench = Bench { store: Store::default(), name: "q.fifo".into() };
    bench.apply(0, Ask::Create);
    let start = Instant::now();
    for number in 0..messages {
        bench.send(number * SENDING / messages, number, groups);
    }
    let send = each(start, messages);
    let start = Instant::now();
    let copy = bench.copy();
    let copied = each(start, messages);
    drop(copy);
    let (mut receive, mut change, mut delete, mut calls, mut handed) = (0, 0, 0, 0, 0);
    for number in 0..RECEIVES.min(messages / 20) {
        let moment = SENDING + number;
        let start = Instant::now();
        let deliveries = bench.receive(moment);
        receive += each(start, 1);
        let start = Instant::now();
        for delivery in &deliveries {
            bench.change(moment, delivery);
        }
        change += each(start, 1);
        let start = Instant::now();
        for delivery in &deliveries {
            bench.delete(moment, delivery);
        }
        delete += each(start, 1);
        calls += 1;
        handed += deliveries.len() as u64;
    }
    let (receive, change, delete) = (receive / calls.max(1), change / handed.max(1), delete / handed.max(1));
    bench.receive(SENDING + RECEIVES);
    let start = Instant::now();
    let sum = bench.count();
    let count = each(start, COUNTS);
    std::hint::black_box(sum);
    println!("{messages} messages {groups} groups: send {send} receive {receive} change {change} delete {delete} count {count} copy {copied} each");
}

fn main() {
    for line in std::io::stdin().lock().lines() {
        let line = line.unwrap();
        let (messages, groups) = line.split_once(' ').expect("two numbers");
        run(messages.parse().unwrap(), groups.parse().unwrap());
    }
}
