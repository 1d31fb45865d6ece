//! A candidate for the master. It leads nobody: it reads the log, and appends the next line where no other candidate has
//! done so first. So any number of them run side by side.

use std::collections::BTreeSet;
use std::sync::Arc;
use std::time::{Duration, Instant};

use anyhow::{bail, Context, Result};
use bytes::Bytes;
use hobbychair_bytes::commands::{Command, Party, Place, Response, NO_MEMORY};
use tokio::sync::mpsc::{unbounded_channel, UnboundedReceiver};
use tokio::sync::Notify;
use tokio::time::{sleep, timeout};

use crate::child::{Child, ChildEvent};
use crate::compaction;
use crate::condition;
use crate::contact::Contact;
use crate::decision::{Decision, Letter, View};
use crate::etcd::{EtcdError, Guard, KeyValue, Operation};
use crate::records::{self, last_number, server_and_number, Beat, Cluster, Line, Piece};
use crate::roster::Roster;
use crate::silence::{BeatsLook, Silence};

/// A candidate looks so often, and whenever something may have changed.
const ROUND: Duration = Duration::from_millis(500);

/// Behind a failed transaction it waits, so that another candidate is ahead for a while.
const STEP_BACK: Duration = Duration::from_millis(60);

/// So many lines are read at once.
const LINES: u32 = 500;

/// So long a candidate waits where `cq master` finds no memory.
const MEMORY: Duration = Duration::from_millis(100);

/// So long `cq master` may take to answer.
const CHILD_PATIENCE: Duration = Duration::from_secs(30);

/// A message that `cq master` puts for a server.
#[derive(Clone, Debug)]
struct MasterMessage {
    server: u32,
    number: u64,
    piece: Bytes,
}

/// `cq master`, fed with the log.
struct MasterCore {
    program: String,
    servers: u32,
    child: Child,
    told: UnboundedReceiver<ChildEvent>,
}

impl MasterCore {
    fn start(program: &str, servers: u32) -> Result<MasterCore> {
        let (tell, told) = unbounded_channel();
        let words = ["master".to_string(), "--servers".into(), servers.to_string()];
        let child = Child::start(program, &words, move |one| drop(tell.send(one)))?;
        Ok(MasterCore { program: program.into(), servers, child, told })
    }

    /// The same from its start, fed with these lines.
    async fn begin_anew(&mut self, lines: &[Line]) -> Result<()> {
        *self = MasterCore::start(&self.program, self.servers)?;
        for line in lines {
            while let Err(code) = self.feed(line).await? {
                await_memory(code).await?;
            }
        }
        Ok(())
    }

    /// What is put behind a line, or the number of its refusal.
    async fn feed(&mut self, line: &Line) -> Result<Result<Vec<MasterMessage>, u32>> {
        let (command, gone) = match line {
            Line::Detect { server, .. } => (Command::Detect(*server), Some(*server)),
            Line::Join { server } => (Command::Join(*server), None),
            Line::Take { server, number, piece: Piece(piece) } => {
                let place = Place { number: *number, index: 0 };
                (Command::Take { from: Party::Server(*server), place, piece: piece.clone() }, None)
            }
        };
        let mut orders = match self.ask(command).await? {
            Ok(orders) => orders,
            Err(code) => return Ok(Err(code)),
        };
        if let Some(server) = gone {
            // The detection has happened: this belongs to it.
            orders.extend(loop {
                match self.ask(Command::Gone(server)).await? {
                    Ok(orders) => break orders,
                    Err(code) => await_memory(code).await?,
                }
            });
        }
        Ok(Ok(orders))
    }

    /// What the command comes to, with all that is put behind it. Where it is refused nothing has happened.
    async fn ask(&mut self, command: Command) -> Result<Result<Vec<MasterMessage>, u32>> {
        self.child.give(command.frame());
        let mut orders = Vec::new();
        let mut waits = BTreeSet::new();
        let mut asked = None;
        loop {
            match (self.next(&mut orders, &mut waits).await?, asked) {
                (AnswerProgress::Some, _) => continue,
                (AnswerProgress::All, _) => asked = waits.pop_first(),
                (AnswerProgress::Refused(code), None) => return Ok(Err(code)),
                // The command has happened, and what waits is asked for again.
                (AnswerProgress::Refused(code), Some(_)) => await_memory(code).await?,
            }
            match asked {
                Some(party) => self.child.give(Command::More(party).frame()),
                None => return Ok(Ok(orders)),
            }
        }
    }

    async fn next(&mut self, orders: &mut Vec<MasterMessage>, waits: &mut BTreeSet<Party>) -> Result<AnswerProgress> {
        let told = timeout(CHILD_PATIENCE, self.told.recv()).await.context("cq master doesn't answer")?;
        let responses = match told {
            Some(ChildEvent::Responses(responses)) => responses,
            Some(ChildEvent::Ended(why)) => bail!("cq master is gone: {why}"),
            None => bail!("cq master is gone"),
        };
        let mut heard = AnswerProgress::Some;
        for response in responses {
            match response {
                Response::Put { to: Party::Server(server), place, piece } => {
                    orders.push(MasterMessage { server, number: place.number, piece });
                }
                Response::Waiting(party) => drop(waits.insert(party)),
                Response::Refused(code) | Response::Unread(code) => heard = AnswerProgress::Refused(code),
                response if response.is_last() => heard = AnswerProgress::All,
                _ => {}
            }
        }
        Ok(heard)
    }
}

/// What was heard of an answer.
enum AnswerProgress {
    Some,
    All,
    Refused(u32),
}

/// What was refused for want of memory is asked for again after a while; nothing else is.
async fn await_memory(code: u32) -> Result<()> {
    if code != NO_MEMORY {
        bail!("cq master refuses a line of the log by {code}");
    }
    tracing::warn!("cq master finds no memory");
    sleep(MEMORY).await;
    Ok(())
}

/// What was read in one round.
struct Round {
    lines: Vec<Line>,
    beats: Vec<(u32, i64, Beat)>,
    letters: Vec<Letter>,
    condemned: BTreeSet<u32>,
}

/// One candidate.
pub struct MasterCandidate {
    cluster: Cluster,
    core: MasterCore,
    roster: Roster,
    lines: Vec<Line>,
    /// A line that `cq master` was fed with and of which isn't known whether it is in the log, with what it put.
    open: Option<(Line, Vec<MasterMessage>)>,
    silence: Silence,
    begun: Instant,
    why: Option<String>,
    contact: Contact,
    /// The same of what this candidate writes.
    writing: Contact,
    /// Servers whose next message `cq master` can't read.
    unreadable: BTreeSet<u32>,
}

/// Runs a candidate until its cluster is another one, or it fails.
pub async fn run(cluster: Cluster, program: &str, compaction: compaction::CompactionSettings) -> Result<()> {
    let cluster = cluster.for_long();
    let look = Arc::new(Notify::new());
    tokio::spawn(condition::watch(cluster.etcd.clone(), Arc::default()));
    tokio::spawn(compaction::keep(cluster.clone(), compaction));
    tokio::spawn(cluster.etcd.clone().watch(cluster.keys.master(), look.clone()));
    let servers = cluster.settings.servers;
    let mut master = MasterCandidate {
        core: MasterCore::start(program, servers)?,
        cluster,
        roster: Roster::of_first_chain(servers),
        lines: Vec::new(),
        open: None,
        silence: Silence::default(),
        begun: Instant::now(),
        why: None,
        contact: Contact::default(),
        writing: Contact::default(),
        unreadable: BTreeSet::new(),
    };
    tracing::info!(cluster = %master.cluster.name, "a candidate for the master begins");
    loop {
        let is_more = master.round().await?;
        if !is_more {
            let _ = timeout(ROUND, look.notified()).await;
        }
    }
}

impl MasterCandidate {
    /// Reads, and appends a line at most. Says whether there may be more to do at once.
    async fn round(&mut self) -> Result<bool> {
        let began = self.begun.elapsed();
        let round = match self.read().await? {
            Ok(round) => round,
            Err(error) => {
                if self.contact.lose(error.to_string()) {
                    tracing::warn!(%error, "no contact with etcd");
                }
                sleep(Duration::from_millis(100)).await;
                return Ok(true);
            }
        };
        if self.contact.regain() {
            tracing::info!("in contact with etcd again");
        }
        let is_behind = round.lines.len() >= LINES as usize;
        for line in round.lines {
            self.hear(line).await?;
        }
        if is_behind {
            return Ok(true);
        }
        let mut letters = round.letters;
        letters.retain(|letter| !self.unreadable.contains(&letter.server));
        let look = BeatsLook { beats: round.beats, began, slowest: self.cluster.etcd.slowest() };
        self.silence.look(look, &self.roster);
        let view = View {
            keys: &self.cluster.keys,
            roster: &self.roster,
            silence: &self.silence,
            now: self.begun.elapsed(),
            letters: &letters,
            condemned: &round.condemned,
        };
        let (decision, why) = view.decide();
        self.say(why);
        match decision {
            Decision::Append { line, guards, also } => self.append(line, guards, also).await,
            Decision::Spare(server) => {
                tracing::warn!(server, "a server that is condemned isn't given up");
                let undo = [Operation::delete(&self.cluster.keys.condemned(server))];
                // Where it isn't undone now it is tried again.
                let _ = self.cluster.etcd.transact(&[self.cluster.guard()], &undo, &[]).await;
                Ok(false)
            }
            Decision::Nothing => Ok(false),
        }
    }

    fn say(&mut self, why: Option<String>) {
        if why != self.why {
            match &why {
                Some(why) => tracing::warn!("the chain waits: {why}"),
                None => tracing::info!("the chain doesn't wait any more"),
            }
        }
        self.why = why;
    }

    /// An outer error is the end of this candidate.
    async fn read(&self) -> Result<Result<Round, EtcdError>> {
        let keys = &self.cluster.keys;
        let operations = [
            keys.lines_from(self.roster.line + 1, LINES),
            Operation::all(&keys.letters()),
            Operation::all(&keys.beats()),
            Operation::all(&keys.all_condemned()),
            Operation::Get(keys.chain()),
        ];
        let read = match self.cluster.read(&operations).await {
            Ok(read) => read,
            // What other error there is ends it.
            Err(error) => return error.downcast::<EtcdError>().map(Err),
        };
        let [lines, letters, beats, condemned, chain]: [Vec<KeyValue>; 5] =
            read.try_into().ok().context("etcd answers with too little")?;
        let line = chain.first().map(records::value::<records::Chain>).transpose()?.map_or(0, |chain| chain.line);
        if line < self.roster.line {
            let said = format!("its log has {line} lines, and {} were there before", self.roster.line);
            return Ok(Err(EtcdError::Refused(said)));
        }
        Ok(Ok(Round {
            lines: lines.iter().map(records::value).collect::<Result<_>>()?,
            beats: beats.iter().filter_map(beat).collect(),
            letters: in_order(letters),
            condemned: condemned.iter().filter_map(|entry| last_number(&entry.key)).collect(),
        }))
    }

    /// The next line of the log is this one.
    async fn hear(&mut self, line: Line) -> Result<()> {
        let orders = loop {
            match self.orders_behind(&line).await? {
                Ok(orders) => break orders,
                Err(code) => await_memory(code).await?,
            }
        };
        let before = self.roster.in_words();
        self.roster.feed(&line, orders.iter().map(|order| (order.server, order.number)));
        self.tell(&line, &before);
        if let Line::Detect { unserved: true, .. } = line {
            self.silence.head_was_given_up();
        }
        self.lines.push(line);
        Ok(())
    }

    /// Tells the log what a line did to the chain, which was this one before. Its bytes are for a closer look.
    fn tell(&self, line: &Line, before: &str) {
        let (number, chain) = (self.roster.line, self.roster.in_words());
        match line {
            Line::Detect { server, .. } => tracing::info!(line = number, server, "given up; the chain is {chain}"),
            Line::Join { server } => tracing::info!(line = number, server, "told to join; the chain is {chain}"),
            Line::Take { server, .. } if chain != before => {
                tracing::info!(line = number, server, "a member now; the chain is {chain}");
            }
            Line::Take { server, number: message, .. } => {
                tracing::info!(line = number, server, message, "a message for the master is taken");
            }
        }
        tracing::debug!(line = number, "{}", records::text(line));
    }

    /// What `cq master` puts behind a line that may become the next one, or the number of its refusal.
    async fn orders_behind(&mut self, line: &Line) -> Result<Result<Vec<MasterMessage>, u32>> {
        match self.open.take() {
            Some((open, orders)) if open == *line => return Ok(Ok(orders)),
            Some(_) => self.core.begin_anew(&self.lines).await?,
            None => {}
        }
        self.core.feed(line).await
    }

    async fn append(&mut self, line: Line, mut guards: Vec<Guard>, also: Vec<Operation>) -> Result<bool> {
        let orders = match self.orders_behind(&line).await? {
            Ok(orders) => orders,
            Err(code) => {
                tracing::error!(code, "cq master refuses {}", records::text(&line));
                if let (Line::Take { server, .. }, true) = (&line, code != NO_MEMORY) {
                    self.unreadable.insert(*server);
                }
                return Ok(false);
            }
        };
        let mut roster = self.roster.clone();
        roster.feed(&line, orders.iter().map(|order| (order.server, order.number)));
        let keys = &self.cluster.keys;
        guards.extend([self.cluster.guard(), Guard::IsAbsent(keys.line(roster.line))]);
        let mut operations = vec![
            Operation::Put(keys.line(roster.line), records::text(&line)),
            Operation::Put(keys.chain(), records::text(&roster.chain())),
        ];
        operations.extend(orders.iter().map(|order| {
            Operation::Put(keys.order(order.server, order.number), records::text(&Piece(order.piece.clone())))
        }));
        operations.extend(also);
        self.open = Some((line, orders));
        let written = self.cluster.etcd.transact(&guards, &operations, &[]).await;
        if let Err(error) = &written {
            if self.writing.lose(error.to_string()) {
                tracing::warn!(%error, "a line isn't appended");
            }
        } else if self.writing.regain() {
            tracing::info!("lines are appended again");
        }
        let has_written = written.is_ok_and(|outcome| outcome.succeeded);
        match self.open.clone() {
            Some((line, _)) if has_written => self.hear(line).await?,
            // The next read says what is there.
            _ => sleep(STEP_BACK).await,
        }
        Ok(true)
    }
}

fn beat(entry: &KeyValue) -> Option<(u32, i64, Beat)> {
    let beat = records::value(entry).map_err(|error| tracing::warn!("{error:#}")).ok()?;
    Some((last_number(&entry.key)?, entry.revision, beat))
}

fn in_order(mut letters: Vec<KeyValue>) -> Vec<Letter> {
    letters.sort_by_key(|entry| entry.revision);
    let letter = |entry: &KeyValue| {
        let Piece(piece) = records::value(entry).map_err(|error| tracing::warn!("{error:#}")).ok()?;
        let (server, number) = server_and_number(&entry.key)?;
        Some(Letter { server, number, piece })
    };
    letters.iter().filter_map(letter).collect()
}
