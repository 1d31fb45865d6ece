//! A ring and a channel in plain Rust, to measure our links and inboxes against. The ring has the design of `rtrb`: a
//! place in a ring of slots for each end, each kept by its end and read by the other only when the own copy says full or
//! empty. The channel is `std::sync::mpsc::sync_channel`, which is built on the list and array channels of
//! `crossbeam-channel`. It reads the same lines as `cq_bench links` and writes the same ones.
use std::cell::UnsafeCell;
use std::io::BufRead;
use std::sync::atomic::{AtomicUsize, Ordering};
use std::sync::mpsc::{sync_channel, TryRecvError, TrySendError};
use std::sync::Arc;
use std::thread;
use std::time::Instant;

/// An index that has its cache line for itself.
#[repr(align(128))]
struct Apart(AtomicUsize);

struct Ring {
    slots: Box<[UnsafeCell<u64>]>,
    head: Apart,
    tail: Apart,
}

// Each slot is written by the putting end while it is free, and read by the taking end while it is full.
unsafe impl Sync for Ring {}

struct Putter {
    ring: Arc<Ring>,
    head: usize,
    tail: usize,
}

struct Taker {
    ring: Arc<Ring>,
    head: usize,
    tail: usize,
}

/// The place behind this one, of twice as many places as there are slots.
fn behind(place: usize, slots: usize) -> usize {
    if place + 1 == 2 * slots { 0 } else { place + 1 }
}

fn slot(place: usize, slots: usize) -> usize {
    if place < slots { place } else { place - slots }
}

fn waiting(head: usize, tail: usize, slots: usize) -> usize {
    if head <= tail { tail - head } else { tail + 2 * slots - head }
}

impl Putter {
    fn put(&mut self, item: u64) -> Result<(), u64> {
        let slots = self.ring.slots.len();
        if waiting(self.head, self.tail, slots) == slots {
            self.head = self.ring.head.0.load(Ordering::Acquire);
            if waiting(self.head, self.tail, slots) == slots {
                return Err(item);
            }
        }
        unsafe { *self.ring.slots[slot(self.tail, slots)].get() = item };
        self.tail = behind(self.tail, slots);
        self.ring.tail.0.store(self.tail, Ordering::Release);
        Ok(())
    }
}

impl Taker {
    fn take(&mut self) -> Option<u64> {
        let slots = self.ring.slots.len();
        if self.head == self.tail {
            self.tail = self.ring.tail.0.load(Ordering::Acquire);
            if self.head == self.tail {
                return None;
            }
        }
        let item = unsafe { *self.ring.slots[slot(self.head, slots)].get() };
        self.head = behind(self.head, slots);
        self.ring.head.0.store(self.head, Ordering::Release);
        Some(item)
    }
}

fn ring(places: usize) -> (Putter, Taker) {
    let slots = (0..places).map(|_| UnsafeCell::new(0)).collect();
    let ring = Arc::new(Ring { slots, head: Apart(AtomicUsize::new(0)), tail: Apart(AtomicUsize::new(0)) });
    (Putter { ring: ring.clone(), head: 0, tail: 0 }, Taker { ring, head: 0, tail: 0 })
}

fn link_time(places: usize, count: u64) -> u64 {
    let (mut putter, mut taker) = ring(places);
    let start = Instant::now();
    thread::scope(|scope| {
        scope.spawn(move || {
            let mut next = 0;
            while next < count {
                match putter.put(next) {
                    Ok(()) => next += 1,
                    Err(_) => thread::yield_now(),
                }
            }
        });
        let mut next = 0;
        while next < count {
            match taker.take() {
                Some(item) => {
                    assert_eq!(item, next);
                    next += 1;
                }
                None => thread::yield_now(),
            }
        }
    });
    start.elapsed().as_nanos() as u64 / count
}

/// A request of the size of ours, with a name that is shared.
struct Request {
    client: u32,
    number: u64,
    queue: Arc<str>,
    _room: [u64; 6],
}

fn inbox_time(places: usize, count: u64) -> u64 {
    let (sender, receiver) = sync_channel(places);
    let queue: Arc<str> = "q.fifo".into();
    let start = Instant::now();
    thread::scope(|scope| {
        scope.spawn(move || {
            let mut next = 0;
            while next < count {
                let request = Request { client: 1, number: next, queue: queue.clone(), _room: [0; 6] };
                match sender.try_send(request) {
                    Ok(()) => next += 1,
                    Err(TrySendError::Full(_)) => thread::yield_now(),
                    Err(TrySendError::Disconnected(_)) => return,
                }
            }
        });
        let mut next = 0;
        while next < count {
            match receiver.try_recv() {
                Ok(request) => {
                    assert!(request.client == 1 && request.number == next && !request.queue.is_empty());
                    next += 1;
                }
                Err(TryRecvError::Empty) => thread::yield_now(),
                Err(TryRecvError::Disconnected) => panic!("a request is missing"),
            }
        }
    });
    start.elapsed().as_nanos() as u64 / count
}

fn main() {
    for line in std::io::stdin().lock().lines() {
        let line = line.unwrap();
        let (places, count) = line.split_once(' ').unwrap();
        let (places, count) = (places.parse().unwrap(), count.parse().unwrap());
        let (link, inbox) = (link_time(places, count), inbox_time(places, count));
        println!("{places} places {count} items: link {link} inbox {inbox} each");
    }
}
