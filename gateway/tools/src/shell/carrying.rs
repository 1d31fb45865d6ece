//! Requests that are carried through the chain to their answers.

use std::collections::HashMap;

use anyhow::Result;
use serde_json::{json, Value};

use super::groups::Groups;
use super::session::{Outcome, Session};
use super::view;
use super::words::Word;
use crate::watch::{Party, Reply, Way};

/// A request takes so long by the clock.
const REQUEST_MILLISECONDS: u64 = 1_000;

/// More messages than that are never on their way for what one word does.
const MOST_MOVES: usize = 100_000;

/// The last request.
struct Request {
    client: u32,
    number: u64,
    ask: Value,
}

/// A session, and who asks what there.
pub struct Carrier {
    session: Session,
    /// In milliseconds.
    clock: u64,
    client: u32,
    /// The last number of each client.
    numbers: HashMap<u32, u64>,
    last: Option<Request>,
    /// The queue that was named last.
    queue: Option<String>,
    /// All queues that were made, in order.
    queues: Vec<String>,
    groups: Groups,
    tag: u64,
    /// Messages move by a word alone.
    is_by_steps: bool,
}

impl Carrier {
    pub fn start(program: &str, servers: u8) -> Result<Carrier> {
        Ok(Carrier {
            session: Session::start(program, servers)?,
            clock: 0,
            client: 1,
            numbers: HashMap::new(),
            last: None,
            queue: None,
            queues: Vec::new(),
            groups: Groups::default(),
            tag: 0,
            is_by_steps: false,
        })
    }

    /// Does what the word says, and tells what came of it.
    pub fn obey(&mut self, word: &Word) -> Result<String> {
        match word {
            Word::Ask(ask) => self.ask(ask.clone()),
            Word::Count { queue } => self.count(queue),
            Word::Again => self.again(),
            Word::As { client } => {
                self.client = *client;
                Ok(format!("client {client} asks from now on"))
            }
            Word::Crash { server } => self.event("crash", *server, "has crashed"),
            Word::Detect { server } => self.event("detect", *server, "is known to have crashed"),
            Word::Join { server } => self.event("join", *server, "joins"),
            Word::Step => self.step(),
            Word::Go => self.go(),
            Word::Wait { seconds } => {
                self.clock += seconds * 1_000;
                Ok(format!("{seconds} s later"))
            }
            Word::Show => self.show(),
            Word::Save { file } => Ok(self.save(file)),
            Word::Help | Word::Quit => Ok(String::new()),
        }
    }

    /// The queue of an ask that names none is the one that was named last.
    fn complete(&mut self, mut ask: Value) -> std::result::Result<Value, String> {
        match (ask["queue"].as_str(), &self.queue) {
            (Some(queue), _) => self.queue = Some(queue.into()),
            (None, Some(queue)) => ask["queue"] = json!(queue),
            (None, None) => return Err("no queue was named yet: name it behind the receipt".into()),
        }
        Ok(ask)
    }

    fn ask(&mut self, ask: Value) -> Result<String> {
        let ask = match self.complete(ask) {
            Ok(ask) => ask,
            Err(why) => return Ok(why),
        };
        let number = self.numbers.entry(self.client).or_default();
        *number += 1;
        let request = Request { client: self.client, number: *number, ask };
        let told = self.arrive(&request)?;
        self.last = Some(request);
        Ok(told)
    }

    fn again(&mut self) -> Result<String> {
        let Some(request) = self.last.take() else {
            return Ok("nothing was asked yet".into());
        };
        let told = self.arrive(&request)?;
        self.last = Some(request);
        Ok(told)
    }

    /// The request reaches the head, and is carried on.
    fn arrive(&mut self, request: &Request) -> Result<String> {
        let Some(head) = self.session.shown.head() else {
            return Ok(format!("no server is the head: {}", self.advice()));
        };
        self.clock += REQUEST_MILLISECONDS;
        let Request { client, number, ask } = request;
        let line =
            json!({"op": "arrive", "at": head, "clock": self.clock, "client": client, "number": number, "ask": ask});
        if let Outcome::Refused(name) = self.session.run(&line)? {
            return Ok(view::refused(&name));
        }
        let queue = ask["queue"].as_str().unwrap_or_default();
        self.groups.ask(*client, *number, self.clock, ask);
        if ask["kind"] == "create" && !self.queues.iter().any(|known| known == queue) {
            self.queues.push(queue.into());
        }
        if self.is_by_steps {
            return Ok(format!("it is at server {head}; `step` moves one message"));
        }
        let answers = self.carry()?;
        Ok(match answers.iter().find(|answer| (answer.client, answer.number) == (*client, Some(*number))) {
            Some(_) => view::answers(&answers),
            None => format!("{}no answer yet: {}", view::earlier(&answers), self.advice()),
        })
    }

    /// What can be done where messages don't get on.
    fn advice(&self) -> String {
        let shown = &self.session.shown;
        let lost = shown.chain.iter().chain(&shown.joins).find(|id| shown.is_down(Party::Server(**id)));
        match lost {
            Some(id) => format!("server {id} has crashed, and the master doesn't know; `detect {id}` tells it"),
            None => "`again` asks once more".into(),
        }
    }

    /// Counts the messages of a queue. It changes nothing, and isn't saved.
    fn counts(&mut self, queue: &str) -> Result<Option<Outcome>> {
        let Some(tail) = self.session.shown.tail() else { return Ok(None) };
        if self.session.shown.way(Party::Server(tail), Party::Clients).is_some() {
            return Ok(None);
        }
        self.tag += 1;
        let ask = json!({"op": "ask", "at": tail, "client": self.client, "tag": self.tag, "queue": queue});
        if let refused @ Outcome::Refused(_) = self.session.ask(&ask.to_string())? {
            return Ok(Some(refused));
        }
        let put = json!({"op": "put", "from": tail, "to": "clients"});
        self.session.ask(&put.to_string()).map(Some)
    }

    fn count(&mut self, queue: &str) -> Result<String> {
        Ok(match self.counts(queue)? {
            Some(Outcome::Answer(answer)) => view::answer(&answer),
            Some(Outcome::Refused(name)) => view::refused(&name),
            Some(Outcome::Nothing) => "there is no answer".into(),
            None if self.session.shown.tail().is_some() => "answers wait for the clients: `go` moves them first".into(),
            None => format!("no server answers: {}", self.advice()),
        })
    }

    /// A crash, a detection or a join, and all that it brings about.
    fn event(&mut self, op: &str, server: u32, done: &str) -> Result<String> {
        let outcome = self.session.run(&json!({ "op": op, "server": server }))?;
        if let Outcome::Refused(name) = outcome {
            return Ok(view::refused(&name));
        }
        if self.is_by_steps {
            return Ok(format!("server {server} {done}"));
        }
        let answers = self.carry()?;
        Ok(format!("{}server {server} {done}\n{}", view::earlier(&answers), view::chain(&self.session.shown)))
    }

    /// The next line that moves a message: what stands in a link before what waits, as the ways are listed.
    fn next_move(&self) -> Option<(&'static str, Party, Party)> {
        let shown = &self.session.shown;
        let may_take = |way: &&Way| way.stands > 0 && !shown.is_down(way.to);
        let may_put = |way: &&Way| way.waits > 0 && !shown.is_down(way.from);
        let take = shown.ways.iter().find(may_take).map(|way| ("take", way.from, way.to));
        take.or_else(|| shown.ways.iter().find(may_put).map(|way| ("put", way.from, way.to)))
    }

    /// One message moves, if one can: what moved, and the answer that it is.
    fn move_one(&mut self) -> Result<Option<(String, Option<Reply>)>> {
        let Some((op, from, to)) = self.next_move() else { return Ok(None) };
        let waiting = self.session.shown.way(from, to).and_then(|way| way.next.as_ref()).map(ToString::to_string);
        let outcome = self.session.run(&json!({"op": op, "from": from.value(), "to": to.value()}))?;
        let what = waiting.filter(|_| op == "put").unwrap_or_else(|| "a message".into());
        let says = match op {
            "put" => format!("{from} puts {what} for {to}"),
            _ => format!("{to} takes {what} of {from}"),
        };
        match outcome {
            Outcome::Answer(answer) => {
                self.groups.hear(&answer);
                Ok(Some((says, Some(answer))))
            }
            Outcome::Nothing => Ok(Some((says, None))),
            Outcome::Refused(name) => anyhow::bail!("{says}: {name}"),
        }
    }

    /// All that can move does, and the answers are told.
    fn carry(&mut self) -> Result<Vec<Reply>> {
        let mut answers = Vec::new();
        for _ in 0..MOST_MOVES {
            match self.move_one()? {
                Some((_, answer)) => answers.extend(answer),
                None => return Ok(answers),
            }
        }
        anyhow::bail!("the messages of the chain don't come to an end")
    }

    fn step(&mut self) -> Result<String> {
        let begins = !std::mem::replace(&mut self.is_by_steps, true);
        let front = if begins { "From now on messages move by `step` and `go` alone.\n" } else { "" };
        Ok(match self.move_one()? {
            Some((says, Some(answer))) => format!("{front}{says}\n{}", view::answer(&answer)),
            Some((says, None)) => format!("{front}{says}"),
            None => format!("{front}nothing can move"),
        })
    }

    fn go(&mut self) -> Result<String> {
        self.is_by_steps = false;
        let answers = self.carry()?;
        Ok(if answers.is_empty() { "nothing is on its way any more".into() } else { view::answers(&answers) })
    }

    fn show(&mut self) -> Result<String> {
        let mut told = view::whole(&self.session.shown);
        for queue in self.queues.clone() {
            if let Some(Outcome::Answer(answer)) = self.counts(&queue)? {
                told.push_str(&format!("\n{queue}: {}", view::reply(&answer.reply)));
                told.push_str(&view::groups(&self.groups.of(&queue)));
            }
        }
        Ok(told)
    }

    fn save(&self, file: &str) -> String {
        let text: String = self.session.script.iter().map(|line| format!("{line}\n")).collect();
        match std::fs::write(file, text) {
            Ok(()) => format!("{file} has {} lines", self.session.script.len()),
            Err(error) => format!("{file} can't be written: {error}"),
        }
    }
}
