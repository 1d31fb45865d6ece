//! What a picture has: lanes, arrows, marks and rows.

use std::collections::{BTreeSet, HashMap, VecDeque};

use serde_json::Value;

use super::events::Event;
use super::run::{Run, RunStep};
use crate::watch::{Party, Reply, Shown, ShownServer};

/// Whose line of time it is, in the order in which they stand.
#[derive(Clone, Copy, Debug, PartialEq, Eq, PartialOrd, Ord, Hash)]
pub enum Actor {
    Client(u32),
    Server(u32),
    Master,
}

impl Actor {
    pub fn name(self) -> String {
        match self {
            Actor::Client(id) => format!("client {id}"),
            Actor::Server(id) => format!("server {id}"),
            Actor::Master => "master".into(),
        }
    }
}

/// A line of time.
pub struct Lane {
    pub actor: Actor,
    /// The row from which on there is one; 0 is before the first.
    pub begins: usize,
    /// The row at which a server crashes.
    pub crashes: Option<usize>,
    /// What it is at first.
    pub roles: Vec<&'static str>,
}

#[derive(Clone, Copy, Debug, PartialEq, Eq)]
pub enum Carried {
    /// From a client.
    Request,
    /// Between servers.
    Message,
    /// To or from the master.
    Order,
    /// To a client.
    Answer,
}

/// What goes from one lane to another.
pub struct Arrow {
    pub from: usize,
    pub to: usize,
    pub carried: Carried,
    pub label: String,
    pub begins: usize,
    /// None: it was never taken.
    pub ends: Option<usize>,
    pub is_refused: bool,
}

#[derive(Clone, Copy, Debug, PartialEq, Eq)]
pub enum Kind {
    Crash,
    /// What a server becomes.
    Role,
    /// What the master does by itself.
    Note,
    Refusal,
}

pub struct Mark {
    pub lane: usize,
    pub row: usize,
    pub kind: Kind,
    pub text: String,
}

/// One event.
pub struct Row {
    /// The number of its line.
    pub line: usize,
    /// What happens, in a sentence.
    pub says: String,
}

#[derive(Default)]
pub struct Scene {
    pub lanes: Vec<Lane>,
    pub arrows: Vec<Arrow>,
    pub marks: Vec<Mark>,
    /// The first one is row 1.
    pub rows: Vec<Row>,
}

/// What a reply says, in few words.
fn reply_words(reply: &Value) -> String {
    let text = |key: &str| reply[key].as_str().unwrap_or_default().to_owned();
    match reply["kind"].as_str().unwrap_or_default() {
        "sent" => format!("sent as {}", reply["sequence"]),
        "received" => {
            let bodies: Vec<String> =
                reply["messages"].as_array().into_iter().flatten().map(|message| message["body"].to_string()).collect();
            if bodies.is_empty() {
                "received nothing".into()
            } else {
                format!("received {}", bodies.join(", "))
            }
        }
        "deleted" if reply["removed"] == false => "nothing to delete".into(),
        "counts" => format!("{} visible, {} in flight", reply["visible"], reply["in_flight"]),
        "refused" => text("name"),
        kind => kind.into(),
    }
}

fn answer_words(answer: &Reply) -> String {
    format!("{}, length {}", reply_words(&answer.reply), answer.length)
}

fn roles_of(server: &ShownServer) -> Vec<&'static str> {
    let roles = [(server.head, "head"), (server.acts, "tail")];
    roles.into_iter().filter(|(is_so, _)| *is_so).map(|(_, role)| role).collect()
}

/// What became of a server.
fn changes(old: &ShownServer, new: &ShownServer) -> Vec<&'static str> {
    if new.down {
        return Vec::new();
    }
    let changes = [
        (!old.head && new.head, "head"),
        (old.head && !new.head, "no more head"),
        (!old.acts && new.acts, "tail"),
        (old.acts && !new.acts, "no more tail"),
    ];
    changes.into_iter().filter(|(is_so, _)| *is_so).map(|(_, change)| change).collect()
}

/// All that have a line of time: clients that ask, servers that ever were, and the master.
fn actors(run: &Run) -> Vec<Actor> {
    let mut actors = BTreeSet::from([Actor::Master]);
    for step in &run.steps {
        if let Event::Comes { client, .. } = step.event {
            actors.insert(Actor::Client(client));
        }
        if let Some(answer) = &step.answer {
            actors.insert(Actor::Client(answer.client));
        }
        actors.extend(named(&step.event).into_iter().map(Actor::Server));
    }
    let last = run.steps.last().map_or(&run.before, |step| &step.after);
    actors.extend(last.servers.iter().map(|server| Actor::Server(server.id)));
    actors.into_iter().collect()
}

/// The servers that an event names.
fn named(event: &Event) -> Vec<u32> {
    let server = |party: &Party| match party {
        Party::Server(id) => Some(*id),
        _ => None,
    };
    match event {
        Event::Comes { at, .. } => vec![*at],
        Event::Put { from, to } | Event::Take { from, to } => [from, to].into_iter().filter_map(server).collect(),
        Event::Crash { server } | Event::Detect { server } | Event::Join { server } => vec![*server],
    }
}

/// A message that stands in a link: its arrow, and its label.
type InLink = (usize, String);

/// A scene that grows row by row.
struct Growing {
    scene: Scene,
    places: HashMap<Actor, usize>,
    links: HashMap<(Party, Party), VecDeque<InLink>>,
}

impl Growing {
    fn of(run: &Run) -> Growing {
        let actors = actors(run);
        let places = actors.iter().enumerate().map(|(place, actor)| (*actor, place)).collect();
        let lanes = actors.iter().map(|actor| lane(*actor, run)).collect();
        Growing { scene: Scene { lanes, ..Scene::default() }, places, links: HashMap::new() }
    }

    fn row(&self) -> usize {
        self.scene.rows.len() + 1
    }

    fn lane(&self, actor: Actor) -> usize {
        self.places.get(&actor).copied().unwrap_or_default()
    }

    /// The lane of a party; of the clients the one whose answer it is.
    fn lane_of(&self, party: Party, client: u32) -> usize {
        self.lane(match party {
            Party::Clients => Actor::Client(client),
            Party::Server(id) => Actor::Server(id),
            Party::Master => Actor::Master,
        })
    }

    fn mark(&mut self, lane: usize, kind: Kind, text: impl Into<String>) {
        let row = self.row();
        self.scene.marks.push(Mark { lane, row, kind, text: text.into() });
    }

    /// An arrow from this row on.
    fn arrow(&mut self, from: usize, to: usize, carried: Carried, label: &str) -> usize {
        let begins = self.row();
        self.scene.arrows.push(Arrow { from, to, carried, label: label.into(), begins, ends: None, is_refused: false });
        self.scene.arrows.len() - 1
    }

    /// The same, which ends in this row.
    fn level_arrow(&mut self, from: usize, to: usize, carried: Carried, label: &str) -> usize {
        let place = self.arrow(from, to, carried, label);
        self.scene.arrows[place].ends = Some(self.row());
        place
    }

    fn comes(&mut self, step: &RunStep, client: u32, at: u32, what: &str) -> String {
        let (from, to) = (self.lane(Actor::Client(client)), self.lane(Actor::Server(at)));
        let label = match &step.refused {
            Some(name) => format!("{what}: {name}"),
            None => what.into(),
        };
        let place = self.level_arrow(from, to, Carried::Request, &label);
        self.scene.arrows[place].is_refused = step.refused.is_some();
        format!("client {client} asks server {at}: {what}")
    }

    fn put(&mut self, before: &Shown, step: &RunStep, from: Party, to: Party) -> String {
        let client = step.answer.as_ref().map_or(0, |answer| answer.client);
        let sender = self.lane_of(from, client);
        if let Some(name) = &step.refused {
            self.mark(sender, Kind::Refusal, name.clone());
            return format!("{from} puts nothing for {to}");
        }
        if let Some(answer) = &step.answer {
            let words = answer_words(answer);
            self.level_arrow(sender, self.lane(Actor::Client(client)), Carried::Answer, &words);
            return format!("{from} answers client {client}: {words}");
        }
        let waiting = before.way(from, to).and_then(|way| way.next.as_ref());
        let label = waiting.map_or_else(|| "a message".into(), ToString::to_string);
        let is_order = from == Party::Master || to == Party::Master;
        let carried = if is_order { Carried::Order } else { Carried::Message };
        let arrow = self.arrow(sender, self.lane_of(to, 0), carried, &label);
        self.links.entry((from, to)).or_default().push_back((arrow, label.clone()));
        format!("{from} puts {label} for {to}")
    }

    fn take(&mut self, step: &RunStep, from: Party, to: Party) -> String {
        if let Some(name) = &step.refused {
            self.mark(self.lane_of(to, 0), Kind::Refusal, name.clone());
            return format!("{to} takes nothing of {from}");
        }
        let Some((arrow, label)) = self.links.get_mut(&(from, to)).and_then(VecDeque::pop_front) else {
            return format!("{to} takes a message of {from}");
        };
        self.scene.arrows[arrow].ends = Some(self.row());
        format!("{to} takes {label} of {from}")
    }

    /// An event of one server, or of the master on its own.
    fn by_itself(&mut self, step: &RunStep, lane: Actor, (kind, text): (Kind, String), says: String) -> String {
        let lane = self.lane(lane);
        match &step.refused {
            Some(name) => self.mark(lane, Kind::Refusal, format!("{text}: {name}")),
            None => {
                self.mark(lane, kind, text);
                if kind == Kind::Crash {
                    self.scene.lanes[lane].crashes = Some(self.row());
                }
            }
        }
        says
    }

    fn event(&mut self, before: &Shown, step: &RunStep) -> String {
        match &step.event {
            Event::Comes { client, at, what } => self.comes(step, *client, *at, what),
            Event::Put { from, to } => self.put(before, step, *from, *to),
            Event::Take { from, to } => self.take(step, *from, *to),
            Event::Crash { server } => {
                let mark = (Kind::Crash, "crash".into());
                self.by_itself(step, Actor::Server(*server), mark, format!("server {server} crashes"))
            }
            Event::Detect { server } => {
                let mark = (Kind::Note, format!("detects {server}"));
                let says = format!("the master detects that server {server} has crashed");
                self.by_itself(step, Actor::Master, mark, says)
            }
            Event::Join { server } => {
                let mark = (Kind::Note, format!("lets {server} join"));
                self.by_itself(step, Actor::Master, mark, format!("server {server} joins"))
            }
        }
    }

    /// Marks what servers become in this row.
    fn mark_roles(&mut self, before: &Shown, after: &Shown) -> String {
        let mut said = String::new();
        for new in &after.servers {
            let Some(old) = before.server(new.id) else { continue };
            let changes = changes(old, new).join(", ");
            if !changes.is_empty() {
                said.push_str(&format!("; server {} is {changes}", new.id));
                self.mark(self.lane(Actor::Server(new.id)), Kind::Role, changes);
            }
        }
        said
    }

    fn step(&mut self, before: &Shown, step: &RunStep) {
        let mut says = self.event(before, step);
        if let Some(name) = &step.refused {
            says.push_str(&format!(" (refused: {name})"));
        }
        says.push_str(&self.mark_roles(before, &step.after));
        self.scene.rows.push(Row { line: step.line, says });
    }
}

/// The lane of an actor, with nothing on it.
fn lane(actor: Actor, run: &Run) -> Lane {
    let Actor::Server(id) = actor else {
        return Lane { actor, begins: 0, crashes: None, roles: Vec::new() };
    };
    let roles = run.before.server(id).map(roles_of).unwrap_or_default();
    let is_first = run.before.server(id).is_some();
    let joins = run.steps.iter().position(|step| step.after.server(id).is_some()).map(|index| index + 1);
    // One that never was has no line.
    let begins = if is_first { 0 } else { joins.unwrap_or(usize::MAX) };
    Lane { actor, begins, crashes: None, roles }
}

impl Scene {
    pub fn of(run: &Run) -> Scene {
        let mut growing = Growing::of(run);
        let mut before = &run.before;
        for step in &run.steps {
            growing.step(before, step);
            before = &step.after;
        }
        growing.scene
    }
}
