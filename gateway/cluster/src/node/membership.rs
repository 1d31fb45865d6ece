//! What a node says and reads in etcd. Without etcd the node goes on. That its cluster is another one now ends it.

use std::collections::BTreeSet;
use std::sync::Arc;
use std::time::{Duration, Instant};

use anyhow::{Context, Result};
use bytes::Bytes;
use tokio::time::{sleep, timeout};

use crate::clock::since_start;
use crate::contact::Contact;
use crate::etcd::{Guard, KeyValue, Operation, SOON};
use crate::records::{self, last_number, Beat, Chain, Piece, Registration, Replaced};
use crate::{lock, memory};

use super::{Event, Report, Shared, FIRST};

/// So often a node beats.
const BEAT: Duration = Duration::from_millis(500);

/// A look that comes a little early beats as well.
const EARLY: Duration = Duration::from_millis(50);

/// Between two looks, however much changes.
const SHORTEST: Duration = Duration::from_millis(10);

/// So many messages for the master go with one transaction.
const MOST_LETTERS: usize = 32;

/// So many registrations are asked for by one transaction.
const MOST_REGISTRATIONS: usize = 16;

/// What one task knows of etcd.
struct Membership {
    node: Arc<Shared>,
    joins: bool,
    /// The number of the last beat.
    beat: u64,
    /// When it was written, whatever came of that.
    beaten: Option<Instant>,
    /// The last look failed, so the next one writes nothing: where etcd takes nothing, or takes long for it, its log is read still.
    only_reads: bool,
    /// Whether this look writes something.
    writes: bool,
    /// What was written last has come to nothing, for all that is known.
    is_unwritten: bool,
    /// Whether the last look asked the master to do without this server.
    is_condemned: bool,
    /// The number of the next message of the master.
    next_order: u64,
    /// How many lines the log had.
    line: u64,
    chain: Option<Chain>,
    contact: Contact,
}

/// Beats and reads, until another incarnation stands under the cluster's name.
pub async fn keep(node: Arc<Shared>, joins: bool) -> Replaced {
    let keys = node.cluster.keys.clone();
    tokio::spawn(node.cluster.etcd.clone().watch(keys.master(), node.look.clone()));
    let look = node.look.clone();
    let mut membership = Membership {
        node,
        joins,
        beat: 0,
        beaten: None,
        only_reads: false,
        writes: false,
        is_unwritten: false,
        is_condemned: false,
        next_order: 1,
        line: 0,
        chain: None,
        contact: Contact::default(),
    };
    loop {
        let begun = since_start();
        match membership.look().await {
            Ok(is_more) => {
                membership.node.suspension.looked(begun, true);
                membership.went_well();
                if !is_more {
                    let rest = membership.beaten.map_or(BEAT, |beaten| BEAT.saturating_sub(beaten.elapsed()));
                    let _ = timeout(rest.max(SHORTEST), look.notified()).await;
                }
                sleep(SHORTEST).await;
            }
            Err(error) => {
                let error = match error.downcast::<Replaced>() {
                    Ok(replaced) => return replaced,
                    Err(error) => error,
                };
                membership.node.suspension.looked(begun, false);
                membership.failed(&error);
                sleep(Duration::from_millis(100)).await;
            }
        }
    }
}

impl Membership {
    fn went_well(&mut self) {
        self.only_reads = false;
        self.is_unwritten &= !self.writes;
        if !self.is_unwritten && self.contact.regain() {
            tracing::info!("in contact with etcd again");
        }
    }

    fn failed(&mut self, error: &anyhow::Error) {
        self.only_reads = true;
        self.is_unwritten |= self.writes;
        if self.contact.lose(format!("{error:#}")) {
            tracing::warn!("no contact with etcd, and all goes on as it is: {error:#}");
        }
    }

    /// One transaction. Says whether there is more to do at once.
    async fn look(&mut self) -> Result<bool> {
        let node = self.node.clone();
        let keys = &node.cluster.keys;
        let unknown = self.unknown();
        let mut reads = vec![
            Operation::all(&keys.all_detected()),
            Operation::Get(keys.chain()),
            keys.orders_from(node.id, self.next_order),
            Operation::Get(keys.cluster.clone()),
        ];
        reads.extend(unknown.iter().map(|server| Operation::Get(keys.node(*server))));
        // The head's gateway refuses by what all others say.
        let is_head = lock(&node.report).standing.is_head;
        reads.extend(is_head.then(|| Operation::all(&keys.beats())));
        let (letters, writes) = if self.only_reads { Default::default() } else { self.writes() };
        self.writes = !writes.is_empty();
        let guards = [node.cluster.guard(), Guard::IsAbsent(keys.detected(node.id))];
        let all = [reads.clone(), writes].concat();
        let outcome = node.cluster.etcd.transact(&guards, &all, &reads).await?;
        let mut read = outcome.read.into_iter();
        let mut next = || read.next().context("etcd answers with too little");
        let (detected, chain, orders, settings) = (next()?, next()?, next()?, next()?);
        node.cluster.test(settings.first())?;
        let registrations = unknown.iter().map(|server| Ok((*server, next()?))).collect::<Result<Vec<_>>>()?;
        let beats = if is_head { next()? } else { Vec::new() };
        let chain: Chain = records::value(chain.first().context("the cluster has no chain")?)?;
        anyhow::ensure!(
            chain.line >= self.line,
            "its log has {} lines, and {} were there before",
            chain.line,
            self.line
        );
        if outcome.succeeded {
            self.wrote(letters);
        }
        self.line = chain.line;
        for (server, found) in registrations {
            if let Some(registration) = found.first().map(records::value::<Registration>).transpose()? {
                lock(&node.registrations).insert(server, registration);
            }
        }
        *lock(&node.short_of_disk) = short_of_disk(&beats)?;
        let orders = self.new_orders(&orders)?;
        self.chain = Some(chain.clone());
        let detected = detected.iter().filter_map(|entry| last_number(&entry.key)).collect();
        node.tell(Event::Read { detected, chain, orders });
        // Of others that were asked for in vain it is asked at the next beat.
        let is_new = |server: &u32| !unknown.contains(server);
        Ok(!lock(&node.letters).is_empty() || self.unknown().iter().any(is_new))
    }

    /// Servers of the chain, and others to which there are links, whose addresses aren't known. Of a cluster that was recovered
    /// each node has to know what its first one says, which may be gone.
    fn unknown(&self) -> Vec<u32> {
        let mut servers: BTreeSet<u32> = lock(&self.node.linked).clone();
        servers.extend(self.node.cluster.settings.recovered.as_ref().map(|_| FIRST));
        if let Some(chain) = &self.chain {
            servers.extend(chain.members.iter().chain(&chain.joiner));
        }
        let known = lock(&self.node.registrations);
        servers.into_iter().filter(|server| !known.contains_key(server)).take(MOST_REGISTRATIONS).collect()
    }

    /// What is written, and the number of the last message for the master in it.
    fn writes(&mut self) -> (Option<u64>, Vec<Operation>) {
        let keys = &self.node.cluster.keys;
        let mut writes = Vec::new();
        let report = lock(&self.node.report).clone();
        let is_news = report.condemned.is_some() && !self.is_condemned;
        self.is_condemned = report.condemned.is_some();
        if is_news || self.beaten.map_or(true, |beaten| beaten.elapsed() + EARLY >= BEAT) {
            self.beaten = Some(Instant::now());
            self.beat += 1;
            writes.push(Operation::Put(keys.beat(self.node.id), records::text(&self.next_beat(&report))));
            if let Some(why) = report.condemned {
                writes.push(Operation::Put(keys.condemned(self.node.id), why.into()));
            }
        }
        let late = report.late_joiner.map(|server| keys.condemned(server));
        writes.extend(late.map(|key| Operation::Put(key, "too much waits for it".into())));
        let waiting: Vec<(u64, Bytes)> = lock(&self.node.letters).iter().take(MOST_LETTERS).cloned().collect();
        let last = waiting.last().map(|(number, _)| *number);
        writes.extend(
            waiting
                .into_iter()
                .map(|(number, piece)| Operation::Put(keys.letter(self.node.id, number), records::text(&Piece(piece)))),
        );
        (last, writes)
    }

    fn next_beat(&self, report: &Report) -> Beat {
        let (standing, gateway) = (&report.standing, &report.gateway);
        let head = self.chain.as_ref().and_then(|chain| chain.members.first());
        let slowest = Some(self.node.cluster.etcd.slowest()).filter(|slowest| *slowest > SOON).unwrap_or_default();
        Beat {
            number: self.beat,
            joins: self.joins,
            count: standing.count,
            acked: standing.acked,
            is_head: standing.is_head,
            is_acting: standing.is_acting,
            is_full: standing.is_full,
            took: self.next_order - 1,
            hears: report.hears.clone(),
            clients: report.clients,
            fronts: self.node.fronts.count(),
            memory: memory::used_by(self.node.child),
            witnesses: head.and_then(|head| self.node.fronts.witnesses(*head)),
            gateway: gateway.phase,
            readiness: lock(&self.node.readiness).clone(),
            failing: gateway.failing.clone(),
            reading: gateway.reading,
            condemned: report.condemned.map(Into::into),
            disk: *lock(&self.node.disk),
            slowest: slowest.as_millis() as u64,
        }
    }

    fn wrote(&mut self, last: Option<u64>) {
        let mut letters = lock(&self.node.letters);
        while last.is_some_and(|last| letters.front().is_some_and(|(number, _)| *number <= last)) {
            letters.pop_front();
        }
    }

    /// The messages of the master that weren't read before, in order.
    fn new_orders(&mut self, found: &[KeyValue]) -> Result<Vec<(u64, Bytes)>> {
        let mut orders = Vec::new();
        let mut next = self.next_order;
        for entry in found {
            if last_number(&entry.key) == Some(next) {
                let Piece(piece) = records::value(entry)?;
                orders.push((next, piece));
                next += 1;
            }
        }
        self.next_order = next;
        Ok(orders)
    }
}

/// The servers whose disks have too little room, by their beats.
fn short_of_disk(beats: &[KeyValue]) -> Result<BTreeSet<u32>> {
    let mut short = BTreeSet::new();
    for entry in beats {
        let beat: Beat = records::value(entry)?;
        let server: Option<u32> = last_number(&entry.key);
        short.extend(server.filter(|_| beat.disk.is_some_and(|disk| disk.is_short())));
    }
    Ok(short)
}
