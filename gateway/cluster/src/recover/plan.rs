//! Which journal is taken, and what may be lost by that.

use std::collections::{BTreeMap, BTreeSet};
use std::path::PathBuf;

use anyhow::{bail, Context, Result};

use crate::journal::{self, Found, JournalFolder, Unusable};
use crate::records::Chain;
use crate::say;

/// The journals that were given, by incarnation and server.
#[derive(Default)]
pub struct Sources {
    found: BTreeMap<(String, u32), Found>,
    unusable: BTreeMap<(String, u32), Unusable>,
}

impl Sources {
    /// Reads all journals in these folders. One that is there twice is an error, and so is one that a process has.
    pub fn read(folders: &[PathBuf]) -> Result<Sources> {
        let mut sources = Sources::default();
        for path in folders {
            let folders = journal::find(path)?;
            if folders.is_empty() {
                bail!("there are no journals of nodes in {}", path.display());
            }
            folders.iter().try_for_each(|folder| sources.add(folder))?;
        }
        Ok(sources)
    }

    fn add(&mut self, folder: &JournalFolder) -> Result<()> {
        let key = JournalFolder::named(&folder.0).context("a journal has no name")?;
        if folder.is_in_use() {
            bail!("{} is in use: stop its node first", folder.0.display());
        }
        if self.found.contains_key(&key) || self.unusable.contains_key(&key) {
            bail!("the journal of server {} of incarnation {} was given twice", key.1, key.0);
        }
        match Found::read(folder) {
            Ok(found) => drop(self.found.insert(key, found)),
            Err(why) => drop(self.unusable.insert(key, why)),
        }
        Ok(())
    }

    /// The incarnation that no other one follows. Of one whose journals can't be read nobody knows which one that follows.
    fn newest(&self, cluster: &str) -> Result<String> {
        let of_cluster: Vec<&Found> = self.found.values().filter(|found| found.head.cluster == cluster).collect();
        let read = of_cluster.iter().map(|found| found.head.incarnation.as_str());
        let unread = self.unusable.keys().map(|(incarnation, _)| incarnation.as_str());
        let mut newest: BTreeSet<&str> = read.chain(unread).collect();
        newest.retain(|one| of_cluster.iter().all(|found| found.head.follows.as_deref() != Some(*one)));
        match newest.into_iter().collect::<Vec<_>>().as_slice() {
            [one] if !of_cluster.is_empty() => Ok((*one).into()),
            [] | [_] => bail!("there is no journal of cluster {cluster} that can be read{}", self.reasons()),
            several => {
                let several = several.join(" and ");
                bail!("there are journals of the incarnations {several}: say --incarnation{}", self.reasons())
            }
        }
    }

    fn reasons(&self) -> String {
        self.unusable.values().map(|why| format!("; {why}")).collect()
    }
}

/// What is to be taken.
pub struct Plan {
    pub incarnation: String,
    chain: Chain,
    /// Whether etcd has the master's log.
    is_log_there: bool,
    /// The journals of that incarnation that can be read, by their servers.
    journals: BTreeMap<u32, Found>,
    taken: u32,
    /// Why something may be lost.
    pub problems: Vec<String>,
}

impl Plan {
    /// Makes it of the journals and of what etcd says: the incarnation, and the chain.
    pub fn make(
        cluster: &str,
        sources: Sources,
        in_etcd: Option<(String, Chain)>,
        incarnation: Option<&str>,
    ) -> Result<Plan> {
        let incarnation = match (&in_etcd, incarnation) {
            (Some((there, _)), Some(wanted)) if there != wanted => {
                bail!("etcd says that the cluster is of incarnation {there}, and not {wanted}")
            }
            (Some((there, _)), _) => there.clone(),
            (None, Some(wanted)) => wanted.into(),
            (None, None) => sources.newest(cluster)?,
        };
        let reasons = sources.reasons();
        let is_of_it = |of: &str| of == incarnation;
        let journals: BTreeMap<u32, Found> = sources
            .found
            .into_iter()
            .filter(|((of, _), _)| is_of_it(of))
            .map(|((_, server), found)| (server, found))
            .collect();
        let unusable: BTreeMap<u32, Unusable> = sources
            .unusable
            .into_iter()
            .filter(|((of, _), _)| is_of_it(of))
            .map(|((_, server), why)| (server, why))
            .collect();
        let is_log_there = in_etcd.is_some();
        let chain = last_chain(&journals, in_etcd.map(|(_, chain)| chain));
        let Some(chain) = chain else {
            bail!("there is no journal of incarnation {incarnation} that can be read{reasons}")
        };
        if let Some(found) = journals.values().find(|found| found.head.cluster != cluster) {
            bail!("{} is of cluster {}", found.folder.0.display(), found.head.cluster);
        }
        let mut plan = Plan { incarnation, chain, is_log_there, journals, taken: 0, problems: Vec::new() };
        plan.look_at_members(&unusable);
        plan.look_at_losses();
        plan.choose()?;
        plan.compare()?;
        Ok(plan)
    }

    /// The journal that is taken.
    pub fn taken(&self) -> &Found {
        &self.journals[&self.taken]
    }

    pub fn chain_has_certificates(&self) -> bool {
        self.taken().head.has_certificates
    }

    /// All servers of the last chain have to be there: whoever is missing may know of a later one.
    fn look_at_members(&mut self, unusable: &BTreeMap<u32, Unusable>) {
        for server in self.chain.servers().collect::<Vec<_>>() {
            let what = match (self.is_full(server), self.chain.joiner == Some(server)) {
                (true, _) => "which had all that was acknowledged",
                (false, true) => "which joined",
                (false, false) => "which wasn't known to have all that was acknowledged",
            };
            match (self.journals.get(&server).map(|found| &found.damage), unusable.get(&server)) {
                (Some(None), _) => {}
                (Some(Some(damage)), _) => self.problems.push(format!("server {server}, {what}: {damage}")),
                (None, Some(why)) => self.problems.push(format!("server {server}, {what}: {why}")),
                (None, None) => {
                    let more = if self.is_log_there { "" } else { ", and it may know of a later chain" };
                    self.problems.push(format!("the journal of server {server}, {what}, is missing{more}"));
                }
            }
        }
    }

    /// Whoever knows of a detection behind the last chain knows of a line that no journal has.
    fn look_at_losses(&mut self) {
        for (server, found) in &self.journals {
            if let Some(gone) = self.chain.servers().find(|member| found.known.gone.contains(member)) {
                self.problems.push(format!(
                    "server {server} knew that server {gone} was given up, so there was a later chain than that of line {}",
                    self.chain.line
                ));
            }
        }
    }

    fn is_full(&self, server: u32) -> bool {
        self.chain.members.contains(&server) && self.chain.full.contains(&server)
    }

    /// The longest of those that had everything.
    fn choose(&mut self) -> Result<()> {
        let longest = |of: &dyn Fn(u32) -> bool| {
            let those = self.journals.iter().filter(|(server, _)| of(**server));
            those.max_by_key(|(server, found)| (found.count, std::cmp::Reverse(**server))).map(|(server, _)| *server)
        };
        let full = longest(&|server| self.is_full(server));
        let other = longest(&|server| self.chain.has_place(server));
        self.taken = match (full, other) {
            (Some(server), _) => server,
            (None, Some(server)) => {
                self.problems.push(format!(
                    "no journal is there of a server that had all that was acknowledged: all that server {server} lacks is lost"
                ));
                server
            }
            (None, None) => bail!("there is nothing to recover: {}", self.problems.join("; ")),
        };
        Ok(())
    }

    /// The others of those that had everything have a front of what is taken.
    fn compare(&mut self) -> Result<()> {
        let taken = self.taken();
        let mut problems = Vec::new();
        for (server, found) in self.journals.iter().filter(|(server, _)| self.is_full(**server)) {
            if let Some(place) = first_difference(taken, found)? {
                problems.push(format!(
                    "the journals of servers {} and {server} differ from entry {place} on, and those of server {server} are lost",
                    self.taken
                ));
            }
        }
        self.problems.extend(problems);
        Ok(())
    }

    pub fn say(&self) {
        let source = if self.is_log_there { "etcd" } else { "the newest journal" };
        say(&format!(
            "incarnation {}, line {} of the log by {source}: {}",
            self.incarnation,
            self.chain.line,
            said(&self.chain)
        ));
        for (server, found) in &self.journals {
            let role = match self.chain.has_place(*server) {
                true if self.is_full(*server) => "full",
                true => "not full",
                false => "not in the last chain",
            };
            let torn = match (found.torn, &found.damage) {
                (_, Some(_)) => ", damaged".into(),
                (0, None) => String::new(),
                (bytes, None) => format!(", with {bytes} bytes at its end that weren't written whole"),
            };
            let durable = if found.head.is_durable { "durable" } else { "not durable" };
            let path = found.folder.0.display();
            say(&format!("server {server}: {} entries, {role}, {durable}{torn}: {path}", found.count));
        }
        for problem in &self.problems {
            say(&format!("something may be lost: {problem}"));
        }
        say(&format!("taken: {} entries of server {}", self.taken().count, self.taken));
    }
}

fn said(chain: &Chain) -> String {
    let list = |servers: &[u32]| servers.iter().map(ToString::to_string).collect::<Vec<_>>().join(", ");
    let joiner = chain.joiner.map(|server| format!(", and {server} joined")).unwrap_or_default();
    format!("servers {}{joiner}; full: {}", list(&chain.members), list(&chain.full))
}

/// The chain behind the newest line that anybody knows.
fn last_chain(journals: &BTreeMap<u32, Found>, in_etcd: Option<Chain>) -> Option<Chain> {
    let known = journals.values().filter_map(|found| found.known.chain.clone());
    let first = journals.values().next().map(|found| Chain::first(found.head.servers));
    known.chain(in_etcd).chain(first).max_by_key(|chain| chain.line)
}

/// The first place at which both have an entry, and not the same.
fn first_difference(one: &Found, other: &Found) -> Result<Option<u64>> {
    let from = one.base.max(other.base) + 1;
    let (mut ones, mut others) = (one.entries(from), other.entries(from));
    for place in from..=one.count.min(other.count) {
        if ones.next()? != others.next()? {
            return Ok(Some(place));
        }
    }
    Ok(None)
}

#[cfg(test)]
mod tests;
