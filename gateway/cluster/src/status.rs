//! How a cluster is: what `hobbychair cluster status` says.

use std::collections::{BTreeMap, BTreeSet};
use std::fmt::Write;
use std::time::{Duration, Instant};

use anyhow::{Context, Result};
use serde::Serialize;
use tokio::time::sleep;

use crate::condition::Condition;
use crate::decision::View;
use crate::etcd::{KeyValue, Operation};
use crate::memory::Size;
use crate::records::{
    self, last_number, Beat, Chain, Cluster, Disk, Failing, GatewayPhase, JournalKind, Line, Readiness, Registration,
};
use crate::roster::Roster;
use crate::silence::{self, Silence};

/// Beats are looked at for so long.
const LOOK: Duration = Duration::from_millis(1200);

/// What is said of a server, for people.
const COLUMNS: usize = 15;

/// One server.
#[derive(Debug, Serialize)]
struct ServerStatus {
    number: u32,
    address: Option<String>,
    role: &'static str,
    /// How many entries it has, as it said by its last beat.
    count: u64,
    /// How many it lacks of those that the head has.
    lag: u64,
    /// Whether its beat changed while this was looked at.
    beats: bool,
    hears: Vec<u32>,
    is_full: bool,
    is_acting: bool,
    is_condemned: bool,
    /// Why its node asks for that, if it does.
    fault: Option<String>,
    clients: usize,
    /// How many fronts were in contact with it at its last beat.
    fronts: usize,
    /// How many of them reached the port of its gateway, if any said so.
    fronts_at_gateway: Option<usize>,
    /// So many bytes its process had in memory at its last beat.
    memory_bytes: u64,
    /// What messages may use there, by the count of the gateway that acts.
    memory_bound_bytes: u64,
    /// Whether it keeps a journal, and when that is on the disk.
    journal: Option<JournalKind>,
    /// What the journal's disk had at its last beat, and is to keep in reserve.
    disk: Option<Disk>,
    /// How far its gateway is, by its last beat.
    gateway: Option<GatewayPhase>,
    /// Whether a gateway would begin there; nothing where it has none.
    gateway_is_ready: Option<bool>,
    /// Why its gateway doesn't stand ready, or ends again and again.
    gateway_fault: Option<String>,
}

/// A whole cluster.
#[derive(Debug, Serialize)]
pub struct Status {
    cluster: String,
    incarnation: String,
    /// How many lines the master's log has.
    line: u64,
    is_ready: bool,
    servers: Vec<ServerStatus>,
    detected: Vec<u32>,
    /// Why the chain waits, if it does.
    waits: Option<String>,
    /// How etcd is, as this process sees it, and how long nodes waited for it.
    etcd: Condition,
}

/// What is read at once.
struct StatusLook {
    chain: Chain,
    beats: BTreeMap<u32, (i64, Beat)>,
    registrations: BTreeMap<u32, Registration>,
    condemned: BTreeSet<u32>,
    detected: Vec<u32>,
}

/// Looks at a cluster twice, so that it sees who beats.
pub async fn look(cluster: &Cluster) -> Result<Status> {
    let begun = Instant::now();
    let mut silence = Silence::default();
    let first = read_at(cluster, begun, &mut silence).await?;
    sleep(LOOK / 2).await;
    read_at(cluster, begun, &mut silence).await?;
    sleep(LOOK / 2).await;
    let last = read_at(cluster, begun, &mut silence).await?;
    let beating = |server: &u32| {
        let revision = |look: &StatusLook| look.beats.get(server).map(|(revision, _)| *revision);
        revision(&last).is_some() && revision(&last) != revision(&first)
    };
    let roster = roster(cluster, &last.chain);
    let view = View {
        keys: &cluster.keys,
        roster: &roster,
        silence: &silence,
        now: begun.elapsed(),
        letters: &[],
        condemned: &last.condemned,
    };
    // The master undoes what a node asks for in vain, which asks again with each beat.
    let fault = |server: &u32| last.beats.get(server).and_then(|(_, beat)| beat.condemned.clone());
    let lost = |server: &u32| !beating(server) || last.condemned.contains(server) || fault(server).is_some();
    let why = roster.line_of_servers().filter(lost).find_map(|server| Some((server, view.why_kept(server)?)));
    let waits = why.map(|(server, why)| match fault(&server) {
        Some(fault) if beating(&server) => format!("server {server} is condemned ({fault}), and {why}"),
        _ => format!("server {server} doesn't beat or is condemned, and {why}"),
    });
    let waits = waits.or_else(|| why_unserved(&view));
    let said = last.beats.iter().filter(|(server, _)| beating(server)).map(|(_, (_, beat))| beat.slowest);
    let slowest = said.max().unwrap_or(0);
    Ok(Status {
        // What it says of alarms may be kept from whoever looks.
        etcd: Condition::of(&cluster.etcd).await.unwrap_or_default().or_slower(slowest),
        cluster: cluster.name.clone(),
        incarnation: cluster.settings.incarnation.clone(),
        line: last.chain.line,
        is_ready: last.chain.is_ready,
        servers: servers(&last, beating),
        detected: last.detected.clone(),
        waits,
    })
}

/// Why a head is there that doesn't serve, if it is.
fn why_unserved(view: &View) -> Option<String> {
    let (head, fault) = view.silence.unserving_now(view.roster, view.now)?;
    // One look doesn't show since when a gateway stands ready.
    let why = view.why_unserved(head, &fault, |_| true);
    let why = why.unwrap_or("it is given up once that lasts, and no sooner than a minute behind another one");
    Some(format!("the gateway of server {head} {fault}, and {why}"))
}

fn servers(look: &StatusLook, beats: impl Fn(&u32) -> bool) -> Vec<ServerStatus> {
    let chain = &look.chain;
    let count_of = |server: &u32| look.beats.get(server).map_or(0, |(_, beat)| beat.count);
    let most = chain.members.first().map_or(0, count_of);
    let wish = look.beats.iter().filter(|(server, (_, beat))| beat.joins && !chain.used.contains(server));
    let all = chain.members.iter().chain(&chain.joiner).copied().chain(wish.map(|(server, _)| *server));
    let server = |number: u32| {
        let beat = look.beats.get(&number).map(|(_, beat)| beat.clone()).unwrap_or_default();
        ServerStatus {
            number,
            address: look.registrations.get(&number).map(|registration| registration.address.to_string()),
            role: role(chain, number),
            count: beat.count,
            lag: most.saturating_sub(beat.count),
            beats: beats(&number),
            hears: beat.hears,
            is_full: chain.full.contains(&number),
            is_acting: beat.is_acting,
            is_condemned: look.condemned.contains(&number) || beat.condemned.is_some(),
            fault: beat.condemned,
            clients: beat.clients,
            fronts: beat.fronts,
            fronts_at_gateway: beat.witnesses.map(|said| said.reach_this),
            memory_bytes: beat.memory,
            memory_bound_bytes: look.registrations.get(&number).map_or(0, |registration| registration.memory),
            journal: look.registrations.get(&number).and_then(|registration| registration.journal),
            disk: beat.disk,
            gateway: beat.gateway,
            gateway_is_ready: beat.readiness.as_ref().map(|readiness| *readiness == Readiness::Ready),
            gateway_fault: fault_of_gateway(beat.readiness, beat.failing),
        }
    };
    all.map(server).collect()
}

/// What its own options say counts more than how it ended.
fn fault_of_gateway(readiness: Option<Readiness>, failing: Option<Failing>) -> Option<String> {
    match (readiness, failing) {
        (Some(Readiness::Unready(why)), _) => Some(why),
        (_, Some(Failing { times, why })) => Some(format!("{times} in a row ended early, the last one: {why}")),
        (_, None) => None,
    }
}

fn role(chain: &Chain, server: u32) -> &'static str {
    let is_first = chain.members.first() == Some(&server);
    let is_last = chain.members.last() == Some(&server);
    match (is_first, is_last) {
        (true, true) => "only",
        (true, false) => "head",
        (false, true) => "tail",
        (false, false) if chain.members.contains(&server) => "middle",
        (false, false) if chain.joiner == Some(server) => "joins",
        (false, false) => "waits",
    }
}

/// The chain as the log has it, made of what stands of it in etcd.
fn roster(cluster: &Cluster, chain: &Chain) -> Roster {
    let mut roster = Roster::of_first_chain(cluster.settings.servers);
    roster.take_over(chain);
    roster
}

fn beats_of(look: &StatusLook) -> Vec<(u32, i64, Beat)> {
    look.beats.iter().map(|(server, (revision, beat))| (*server, *revision, beat.clone())).collect()
}

/// Reads, and notes who beats.
async fn read_at(cluster: &Cluster, begun: Instant, silence: &mut Silence) -> Result<StatusLook> {
    let began = begun.elapsed();
    let look = read(cluster).await?;
    let beats = silence::BeatsLook { beats: beats_of(&look), began, slowest: cluster.etcd.slowest() };
    silence.look(beats, &roster(cluster, &look.chain));
    Ok(look)
}

async fn read(cluster: &Cluster) -> Result<StatusLook> {
    let keys = &cluster.keys;
    let operations = [
        Operation::Get(keys.chain()),
        Operation::all(&keys.beats()),
        Operation::all(&keys.nodes()),
        Operation::all(&keys.all_condemned()),
        Operation::all(&keys.all_detected()),
    ];
    let [chain, beats, nodes, condemned, detected]: [Vec<KeyValue>; 5] =
        cluster.read(&operations).await?.try_into().ok().context("etcd answers with too little")?;
    let numbers =
        |entries: &[KeyValue]| entries.iter().filter_map(|entry| last_number(&entry.key)).collect::<Vec<u32>>();
    let mut look = StatusLook {
        chain: records::value(chain.first().context("the cluster has no chain")?)?,
        beats: BTreeMap::new(),
        registrations: BTreeMap::new(),
        condemned: numbers(&condemned).into_iter().collect(),
        detected: numbers(&detected),
    };
    for entry in beats {
        if let Some(server) = last_number(&entry.key) {
            look.beats.insert(server, (entry.revision, records::value(&entry)?));
        }
    }
    for entry in nodes {
        if let Some(server) = last_number(&entry.key) {
            look.registrations.insert(server, records::value(&entry)?);
        }
    }
    Ok(look)
}

/// The lines of the master's log, as texts of JSON.
pub async fn log(cluster: &Cluster) -> Result<Vec<String>> {
    let mut lines: Vec<String> = Vec::new();
    loop {
        let next = cluster.keys.lines_from(lines.len() as u64 + 1, 500);
        let read = cluster.etcd.transact(&[cluster.guard()], &[next], &[]).await?.read;
        let found: Vec<KeyValue> = read.into_iter().flatten().collect();
        if found.is_empty() {
            return Ok(lines);
        }
        for entry in &found {
            lines.push(records::text(&records::value::<Line>(entry)?));
        }
    }
}

impl Status {
    /// How many servers beat.
    pub fn beating(&self) -> usize {
        self.servers.iter().filter(|server| server.beats).count()
    }

    /// Whether a server acts.
    pub fn is_answering(&self) -> bool {
        self.servers.iter().any(|server| server.is_acting)
    }

    /// In columns, for people.
    pub fn columns(&self) -> String {
        let mut out = String::new();
        let _ = writeln!(out, "cluster {} {}, line {} of the log", self.cluster, self.incarnation, self.line);
        let head = [
            "server", "address", "role", "count", "lag", "beats", "hears", "full", "acts", "fronts", "reach", "memory",
            "journal", "disk", "gateway",
        ];
        let head = head.map(String::from);
        let rows: Vec<[String; COLUMNS]> = std::iter::once(head).chain(self.servers.iter().map(row)).collect();
        let width = |column: usize| rows.iter().map(|row| row[column].len()).max().unwrap_or(0);
        let widths: Vec<usize> = (0..COLUMNS).map(width).collect();
        for row in &rows {
            let cells: Vec<String> = row.iter().zip(&widths).map(|(cell, width)| format!("{cell:width$}")).collect();
            let _ = writeln!(out, "{}", cells.join("  ").trim_end());
        }
        for server in &self.servers {
            if let Some(why) = &server.gateway_fault {
                let _ = writeln!(out, "the gateway of server {} doesn't stand ready: {why}", server.number);
            }
        }
        if !self.is_ready {
            let _ = writeln!(out, "the last member doesn't act yet");
        }
        if let Some(why) = &self.waits {
            let _ = writeln!(out, "the chain waits: {why}");
        }
        for trouble in self.etcd.troubles() {
            let _ = writeln!(out, "{trouble}");
        }
        out
    }
}

fn row(server: &ServerStatus) -> [String; COLUMNS] {
    let yes = |is: bool| if is { "yes" } else { "no" }.to_string();
    let hears: Vec<String> = server.hears.iter().map(ToString::to_string).collect();
    [
        server.number.to_string(),
        server.address.clone().unwrap_or_else(|| "-".into()),
        server.role.into(),
        server.count.to_string(),
        server.lag.to_string(),
        if server.is_condemned { "condemned".into() } else { yes(server.beats) },
        hears.join(","),
        yes(server.is_full),
        yes(server.is_acting),
        server.fronts.to_string(),
        server.fronts_at_gateway.map_or_else(|| "-".into(), |count| count.to_string()),
        format!("{}/{}", Size(server.memory_bytes), Size(server.memory_bound_bytes)),
        match server.journal {
            Some(JournalKind::Durable) => "durable".into(),
            Some(JournalKind::Buffered) => "buffered".into(),
            None => "-".into(),
        },
        match &server.disk {
            Some(disk) => format!("{}/{}", Size(disk.free), Size(disk.reserve)),
            None => "-".into(),
        },
        match (server.gateway, server.gateway_is_ready) {
            (Some(GatewayPhase::Acts), _) => "acts".into(),
            (Some(GatewayPhase::Begins), _) => "begins".into(),
            (None, Some(true)) => "ready".into(),
            (None, Some(false)) => "unready".into(),
            (None, None) => "-".into(),
        },
    ]
}

#[cfg(test)]
mod tests {
    use super::*;

    #[test]
    fn roles_are_those_of_the_chain() {
        let chain =
            Chain { line: 1, members: vec![2, 4, 3], joiner: Some(5), is_ready: true, full: vec![], used: vec![1] };
        assert_eq!([2, 4, 3, 5, 6].map(|server| role(&chain, server)), ["head", "middle", "tail", "joins", "waits"]);
        let alone = Chain { members: vec![2], ..chain };
        assert_eq!(role(&alone, 2), "only");
    }

    #[test]
    fn a_gateways_fault_is_what_is_wrong_with_its_options_or_else_how_it_ended() {
        let failing = || Some(Failing { times: 3, why: "it ended with status 1".into() });
        let unready = Some(Readiness::Unready("no keys".into()));
        assert_eq!(fault_of_gateway(unready, failing()).unwrap(), "no keys");
        let ended = fault_of_gateway(Some(Readiness::Ready), failing()).unwrap();
        assert_eq!(ended, "3 in a row ended early, the last one: it ended with status 1");
        assert_eq!(fault_of_gateway(Some(Readiness::Ready), None), None);
    }
}
