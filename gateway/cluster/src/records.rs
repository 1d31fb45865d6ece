//! What stands in etcd: the keys of a cluster, and their values in JSON.

use std::net::SocketAddr;
use std::sync::Arc;

use anyhow::{anyhow, bail, Context, Result};
use bytes::Bytes;
use serde::{Deserialize, Serialize};
use thiserror::Error;

use crate::etcd::{behind, Etcd, Guard, KeyValue, Operation};
use crate::identity::{Fingerprint, Identity};

/// The version of all that is here, and of what gateways have in the store.
pub const VERSION: u32 = 2;

/// With what the keys of all clusters begin.
pub const OF_ALL: &str = "hobbychair/";

/// No name of a cluster is longer.
const LONGEST_NAME_BYTES: usize = 64;

/// What makes a cluster.
#[derive(Clone, Debug, PartialEq, Eq, Serialize, Deserialize)]
pub struct ClusterSettings {
    pub version: u32,
    /// Made at random with the cluster. Each transaction and each handshake is about it.
    pub incarnation: String,
    /// How many servers its first chain has.
    pub servers: u32,
    /// Whether all of its processes have certificates.
    #[serde(default, skip_serializing_if = "is_false")]
    pub has_certificates: bool,
    /// With what server 1 begins, where the cluster was recovered.
    #[serde(default, skip_serializing_if = "Option::is_none")]
    pub recovered: Option<Recovered>,
}

/// From where a cluster was recovered.
#[derive(Clone, Debug, PartialEq, Eq, Serialize, Deserialize)]
pub struct Recovered {
    /// The incarnation before.
    pub incarnation: String,
    /// How many entries its store is made of.
    pub count: u64,
}

/// Whether a field says nothing, so that it isn't written.
fn is_false(flag: &bool) -> bool {
    !flag
}

/// The chain behind a line of the master's log.
#[derive(Clone, Debug, PartialEq, Eq, Serialize, Deserialize)]
pub struct Chain {
    pub line: u64,
    pub members: Vec<u32>,
    pub joiner: Option<u32>,
    /// Whether the last member is known to act.
    pub is_ready: bool,
    /// The members that are known to be full, by the log.
    pub full: Vec<u32>,
    /// All servers that are or were members or joiners.
    pub used: Vec<u32>,
}

impl Chain {
    /// The first chain of a cluster, of so many servers.
    pub fn first(servers: u32) -> Chain {
        let members: Vec<u32> = (1..=servers).collect();
        let (full, used) = (members.clone(), members.clone());
        Chain { line: 0, members, joiner: None, is_ready: true, full, used }
    }

    /// The members, and the one that joins.
    pub fn servers(&self) -> impl Iterator<Item = u32> + '_ {
        self.members.iter().copied().chain(self.joiner)
    }

    /// Whether that server is a member, or the one that joins.
    pub fn has_place(&self, server: u32) -> bool {
        self.servers().any(|one| one == server)
    }

    /// The members that stand before that server: all, where it is none.
    pub fn before(&self, server: u32) -> &[u32] {
        let place = self.members.iter().position(|member| *member == server);
        &self.members[..place.unwrap_or(self.members.len())]
    }
}

/// A line of the master's log.
#[derive(Clone, Debug, PartialEq, Eq, Serialize, Deserialize)]
#[serde(rename_all = "snake_case")]
pub enum Line {
    Detect {
        server: u32,
        /// It was the head, and its gateway didn't serve. All candidates know by this when that happened last.
        #[serde(default, skip_serializing_if = "is_false")]
        unserved: bool,
    },
    Join {
        server: u32,
    },
    /// A message of a server is taken.
    Take {
        server: u32,
        number: u64,
        piece: Piece,
    },
}

impl Line {
    /// A server is given up, for something else than its gateway.
    pub fn detect(server: u32) -> Line {
        Line::Detect { server, unserved: false }
    }
}

/// The bytes of a message, which stand in JSON by base64.
#[derive(Clone, Debug, PartialEq, Eq, Serialize, Deserialize)]
#[serde(try_from = "String", into = "String")]
pub struct Piece(pub Bytes);

impl TryFrom<String> for Piece {
    type Error = base64::DecodeError;

    fn try_from(text: String) -> Result<Piece, base64::DecodeError> {
        Ok(Piece(base64::decode(text)?.into()))
    }
}

impl From<Piece> for String {
    fn from(piece: Piece) -> String {
        base64::encode(&piece.0)
    }
}

/// Why the master is asked to do without a server whose disk hangs.
pub const DISK_HANGS: &str = "its disk doesn't end a write";

/// What a node says of itself each half second.
#[derive(Clone, Debug, Default, PartialEq, Eq, Serialize, Deserialize)]
pub struct Beat {
    /// Raised by each beat.
    pub number: u64,
    /// Whether it wants to join.
    pub joins: bool,
    pub count: u64,
    pub acked: u64,
    pub is_head: bool,
    pub is_acting: bool,
    pub is_full: bool,
    /// So many messages of the master it has taken.
    pub took: u64,
    /// From whom something came by a link within the last second.
    pub hears: Vec<u32>,
    /// So many clients are connected.
    pub clients: usize,
    /// So many fronts are in contact.
    #[serde(default, skip_serializing_if = "is_none_of_them")]
    pub fronts: usize,
    /// So many bytes its server's process has in memory.
    #[serde(default)]
    pub memory: u64,
    /// What fronts in contact say of the ports of gateways, if they say something.
    #[serde(default, skip_serializing_if = "Option::is_none")]
    pub witnesses: Option<Witnesses>,
    /// How far the gateway beside it is, if it is the head and has one.
    #[serde(default, skip_serializing_if = "Option::is_none")]
    pub gateway: Option<GatewayPhase>,
    /// Whether a gateway would begin beside it, as far as that was tried.
    #[serde(default, skip_serializing_if = "Option::is_none")]
    pub readiness: Option<Readiness>,
    /// That gateways end beside it that have hardly served, if they do.
    #[serde(default, skip_serializing_if = "Option::is_none")]
    pub failing: Option<Failing>,
    /// While the head's gateway takes up the store: a number that changes as long as it moves on.
    #[serde(default, skip_serializing_if = "Option::is_none")]
    pub reading: Option<u64>,
    /// Why the master is asked to do without it, if it is.
    #[serde(default, skip_serializing_if = "Option::is_none")]
    pub condemned: Option<String>,
    /// The disk of its journal, if it keeps one.
    #[serde(default, skip_serializing_if = "Option::is_none")]
    pub disk: Option<Disk>,
    /// How long it waited for etcd lately, in milliseconds; 0 where that was no longer than is usual.
    #[serde(default, skip_serializing_if = "is_zero")]
    pub slowest: u64,
}

/// How much room a disk has, in bytes.
#[derive(Clone, Copy, Debug, PartialEq, Eq, Serialize, Deserialize)]
pub struct Disk {
    pub free: u64,
    /// With less than that sends and creations are refused.
    pub reserve: u64,
}

impl Disk {
    pub fn is_short(&self) -> bool {
        self.free < self.reserve
    }
}

/// What the fronts in contact with a node say of the ports of gateways: those that take the same server for the head as the node.
#[derive(Clone, Copy, Debug, PartialEq, Eq, Serialize, Deserialize)]
pub struct Witnesses {
    pub head: u32,
    /// So many reach the port of the head's gateway.
    pub reach_head: usize,
    /// So many reach the port of the gateway beside this node.
    pub reach_this: usize,
}

/// Whether a gateway would begin.
#[derive(Clone, Debug, PartialEq, Eq, Serialize, Deserialize)]
#[serde(rename_all = "snake_case")]
pub enum Readiness {
    /// Its options and files are good, and its port is kept for it.
    Ready,
    /// Something isn't, and this is what.
    Unready(String),
}

/// Gateways that ended, one after the other.
#[derive(Clone, Debug, PartialEq, Eq, Serialize, Deserialize)]
pub struct Failing {
    /// So many, since one served for a while.
    pub times: u32,
    /// How the last one ended.
    pub why: String,
}

/// How far the gateway is that a head's node has started.
#[derive(Clone, Copy, Debug, PartialEq, Eq, Serialize, Deserialize)]
#[serde(rename_all = "snake_case")]
pub enum GatewayPhase {
    /// It is being started, or takes up the store.
    Begins,
    /// It says that it serves.
    Acts,
}

/// A process that has a number.
#[derive(Clone, Debug, PartialEq, Eq, Serialize, Deserialize)]
pub struct Registration {
    /// Made at random by the process.
    pub nonce: String,
    pub address: SocketAddr,
    /// Where its gateway listens once its server is the head, if it has one.
    #[serde(default, skip_serializing_if = "Option::is_none")]
    pub gateway: Option<SocketAddr>,
    /// The certificate that it shows, and its gateway too, where there are certificates.
    #[serde(default, skip_serializing_if = "Option::is_none")]
    pub certificate: Option<Fingerprint>,
    /// Messages may use so many bytes there; 0 where it says nothing of that.
    #[serde(default, skip_serializing_if = "is_zero")]
    pub memory: u64,
    /// How it keeps a journal, if it does.
    #[serde(default, skip_serializing_if = "Option::is_none")]
    pub journal: Option<JournalKind>,
    /// Of the server with which a recovered cluster began: how long the cluster stood still.
    #[serde(default, skip_serializing_if = "Option::is_none")]
    pub paused: Option<Pause>,
}

/// Between which moments a cluster stood still that was recovered, in milliseconds of its time.
#[derive(Clone, Copy, Debug, PartialEq, Eq, Serialize, Deserialize)]
pub struct Pause {
    /// That of the last entry before.
    pub last: u64,
    /// When the chain went on.
    pub begun: u64,
}

/// When a journal is on the disk.
#[derive(Clone, Copy, Debug, PartialEq, Eq, Serialize, Deserialize)]
#[serde(rename_all = "snake_case")]
pub enum JournalKind {
    /// Some time after what rests on it has left.
    Buffered,
    /// Before.
    Durable,
}

fn is_none_of_them(count: &usize) -> bool {
    *count == 0
}

fn is_zero(number: &u64) -> bool {
    *number == 0
}

/// The keys of a cluster.
#[derive(Clone, Debug)]
pub struct Keys {
    /// The key of its settings.
    pub cluster: String,
    root: String,
}

impl Keys {
    fn new(name: &str, incarnation: &str) -> Keys {
        let cluster = format!("hobbychair/{name}/cluster");
        Keys { cluster, root: format!("hobbychair/{name}/{incarnation}") }
    }

    #[cfg(test)]
    pub fn for_tests() -> Keys {
        Keys::new("tested", "0")
    }

    /// Up to which revision etcd is compacted next, and since when that is known.
    pub fn compaction(&self) -> String {
        format!("{}/compaction", self.root)
    }

    /// The next number of a server.
    pub fn next(&self) -> String {
        format!("{}/next", self.root)
    }

    pub fn nodes(&self) -> String {
        format!("{}/node/", self.root)
    }

    pub fn node(&self, server: u32) -> String {
        format!("{}/node/{server:010}", self.root)
    }

    pub fn beats(&self) -> String {
        format!("{}/beat/", self.root)
    }

    pub fn beat(&self, server: u32) -> String {
        format!("{}/beat/{server:010}", self.root)
    }

    /// What is watched: all of the keys that follow.
    pub fn master(&self) -> String {
        format!("{}/master/", self.root)
    }

    pub fn chain(&self) -> String {
        format!("{}/master/chain", self.root)
    }

    pub fn line(&self, number: u64) -> String {
        format!("{}/master/log/{number:020}", self.root)
    }

    /// The lines from a number on, at most so many.
    pub fn lines_from(&self, number: u64, limit: u32) -> Operation {
        Operation::Range(self.line(number), behind(&format!("{}/master/log/", self.root)), limit)
    }

    /// Messages of servers to the master.
    pub fn letters(&self) -> String {
        format!("{}/master/in/", self.root)
    }

    pub fn letter(&self, server: u32, number: u64) -> String {
        format!("{}/master/in/{server:010}/{number:020}", self.root)
    }

    /// Takes away the letters of a server up to a number.
    pub fn without_letters(&self, server: u32, number: u64) -> Operation {
        Operation::DeleteRange(self.letter(server, 0), self.letter(server, number.saturating_add(1)))
    }

    /// A message of the master to a server.
    pub fn order(&self, server: u32, number: u64) -> String {
        format!("{}/master/out/{server:010}/{number:020}", self.root)
    }

    pub fn orders_from(&self, server: u32, number: u64) -> Operation {
        let end = behind(&format!("{}/master/out/{server:010}/", self.root));
        Operation::Range(self.order(server, number), end, 0)
    }

    pub fn all_detected(&self) -> String {
        format!("{}/master/detected/", self.root)
    }

    pub fn detected(&self, server: u32) -> String {
        format!("{}/master/detected/{server:010}", self.root)
    }

    pub fn all_condemned(&self) -> String {
        format!("{}/master/condemned/", self.root)
    }

    pub fn condemned(&self, server: u32) -> String {
        format!("{}/master/condemned/{server:010}", self.root)
    }
}

/// The number with which a key ends.
pub fn last_number<N: std::str::FromStr>(key: &str) -> Option<N> {
    key.rsplit('/').next()?.parse().ok()
}

/// The server and the number of a message with which a key ends.
pub fn server_and_number(key: &str) -> Option<(u32, u64)> {
    let mut parts = key.rsplit('/');
    let number = parts.next()?.parse().ok()?;
    Some((parts.next()?.parse().ok()?, number))
}

/// What a key says. A value that can't be read is an error: nobody else writes there.
pub fn value<T: for<'de> Deserialize<'de>>(entry: &KeyValue) -> Result<T> {
    serde_json::from_str(&entry.value).with_context(|| format!("{} has a value that can't be read", entry.key))
}

/// The text of a value.
pub fn text(value: &impl Serialize) -> String {
    // Nothing here has keys that aren't texts, so this doesn't fail.
    serde_json::to_string(value).unwrap_or_default()
}

/// Another incarnation stands under the cluster's name. Nothing that anybody acknowledges who belongs to the earlier one is in
/// that: whoever reads this acknowledges nothing any more, and ends.
#[derive(Debug, Error)]
#[error(
    "cluster {name} is another one now, of incarnation {incarnation}: {how}. This process is of an earlier one: start it again, \
     a node with --join"
)]
pub struct Replaced {
    name: String,
    incarnation: String,
    how: &'static str,
}

/// What is read of the settings of another incarnation, which may be of another version.
#[derive(Deserialize)]
struct OfAnother {
    incarnation: String,
    #[serde(default)]
    recovered: Option<serde_json::Value>,
}

/// A cluster that is there.
#[derive(Clone)]
pub struct Cluster {
    pub name: String,
    pub etcd: Etcd,
    pub settings: ClusterSettings,
    pub keys: Keys,
    /// What this process is known by, where there are certificates.
    pub identity: Option<Arc<Identity>>,
}

impl Cluster {
    /// Finds the cluster, or says that there is none.
    pub async fn find(name: &str, urls: &[String], identity: Option<Arc<Identity>>) -> Result<Cluster> {
        let etcd = Etcd::new(urls, identity.clone())?;
        let found = Cluster::find_any(name, etcd, identity).await?;
        found.ok_or_else(|| anyhow!("there is no cluster {name}: hobbychair cluster create makes one"))
    }

    /// The key of the settings of the cluster of that name.
    pub fn key(name: &str) -> String {
        Keys::new(name, "").cluster
    }

    /// Finds the cluster, if there is one.
    pub async fn find_any(name: &str, etcd: Etcd, identity: Option<Arc<Identity>>) -> Result<Option<Cluster>> {
        test_name(name)?;
        let read = etcd.transact(&[], &[Operation::Get(Cluster::key(name))], &[]).await?.read;
        let Some(found) = read.first().and_then(|found| found.first()) else { return Ok(None) };
        let settings: ClusterSettings = value(found)?;
        if settings.version != VERSION {
            bail!(
                "cluster {name} is of version {}, and this program of version {VERSION}. Before version 0.2.0 no cluster goes \
                 over from one build to another: docs/CLUSTER.md, \"To upgrade\", says how its messages get into a new one",
                settings.version
            );
        }
        match (settings.has_certificates, &identity) {
            (true, None) => bail!("cluster {name} has certificates: give --certificate, --key and --authority"),
            (false, Some(_)) => bail!("cluster {name} was created without certificates, and is used without them"),
            _ => {}
        }
        let keys = Keys::new(name, &settings.incarnation);
        Ok(Some(Cluster { name: name.into(), etcd, settings, keys, identity }))
    }

    /// Makes a cluster whose first chain has so many servers. Who has a certificate makes one whose processes all have some.
    pub async fn create(name: &str, urls: &[String], identity: Option<Arc<Identity>>, servers: u32) -> Result<Cluster> {
        let etcd = Etcd::new(urls, identity.clone())?;
        test_name(name)?;
        let has_certificates = identity.is_some();
        let settings = ClusterSettings {
            version: VERSION,
            incarnation: random_name(),
            servers,
            has_certificates,
            recovered: None,
        };
        let guard = Guard::IsAbsent(Cluster::key(name));
        match Cluster::put(name, etcd, settings, identity, &[guard]).await? {
            Some(cluster) => Ok(cluster),
            None => bail!("there is a cluster {name} already"),
        }
    }

    /// Makes a cluster with these settings, if the guards hold.
    pub async fn put(
        name: &str,
        etcd: Etcd,
        settings: ClusterSettings,
        identity: Option<Arc<Identity>>,
        guards: &[Guard],
    ) -> Result<Option<Cluster>> {
        let keys = Keys::new(name, &settings.incarnation);
        let put = [
            Operation::Put(keys.cluster.clone(), text(&settings)),
            Operation::Put(keys.next(), (settings.servers + 1).to_string()),
            Operation::Put(keys.chain(), text(&Chain::first(settings.servers))),
        ];
        let outcome = etcd.transact(guards, &put, &[Operation::Get(keys.cluster.clone())]).await?;
        // An earlier answer may have been lost on its way.
        let is_own = || outcome.read.iter().flatten().any(|found| found.value == text(&settings));
        let is_there = outcome.succeeded || is_own();
        Ok(is_there.then(|| Cluster { name: name.into(), etcd, settings, keys, identity }))
    }

    /// For who goes on for long: its log says where its certificate expires soon.
    pub fn for_long(self) -> Cluster {
        if let Some(identity) = self.identity.clone() {
            tokio::spawn(identity.tell_of_end());
        }
        self
    }

    /// That this cluster is still the one of its name.
    pub fn guard(&self) -> Guard {
        Guard::Is(self.keys.cluster.clone(), text(&self.settings))
    }

    /// What these read at one moment. An error where this cluster isn't the one of its name then, as [`Cluster::test`] has it.
    pub async fn read(&self, operations: &[Operation]) -> Result<Vec<Vec<KeyValue>>> {
        let otherwise = [Operation::Get(self.keys.cluster.clone())];
        let outcome = self.etcd.transact(&[self.guard()], operations, &otherwise).await?;
        if !outcome.succeeded {
            self.test(outcome.read.first().and_then(|found| found.first()))?;
            bail!("etcd answers with something else than it was asked");
        }
        Ok(outcome.read)
    }

    /// Whether this cluster is still the one of its name, by what stands there. Where another incarnation does, the error is
    /// [`Replaced`]. Any other error says nothing of that: of data that are gone etcd may be given a copy, and requests go on
    /// meanwhile as they do where etcd is away.
    pub fn test(&self, found: Option<&KeyValue>) -> Result<()> {
        let Some(found) = found else { bail!("etcd knows no cluster {} any more", self.name) };
        if found.value == text(&self.settings) {
            return Ok(());
        }
        let other: OfAnother = value(found)?;
        if other.incarnation == self.settings.incarnation {
            bail!("what etcd says of cluster {} was changed", self.name);
        }
        let how = if other.recovered.is_some() { "it was recovered" } else { "it was made anew" };
        Err(Replaced { name: self.name.clone(), incarnation: other.incarnation, how }.into())
    }
}

/// A name that is used once.
pub fn random_name() -> String {
    format!("{:016x}", rand::random::<u64>())
}

fn test_name(name: &str) -> Result<()> {
    let is_good = |letter: char| letter.is_ascii_alphanumeric() || letter == '-' || letter == '_';
    if name.is_empty() || name.len() > LONGEST_NAME_BYTES || !name.chars().all(is_good) {
        bail!(
            "{name:?} is no name of a cluster: that has 1 to {LONGEST_NAME_BYTES} letters, digits, hyphens and underscores"
        );
    }
    Ok(())
}

#[cfg(test)]
mod tests {
    use super::*;

    #[test]
    fn keys_stand_in_the_order_of_their_numbers() {
        let keys = Keys::new("c", "0");
        assert!(keys.line(9) < keys.line(10) && keys.letter(9, 9) < keys.letter(10, 1));
        assert_eq!(server_and_number(&keys.letter(7, 12)), Some((7, 12)));
        assert_eq!(last_number(&keys.detected(8)), Some(8u32));
        assert_eq!(last_number::<u32>("hobbychair/c/0/next"), None);
    }

    #[test]
    fn a_line_is_read_as_it_was_written() {
        let line = Line::Take { server: 3, number: 7, piece: Piece(Bytes::from_static(&[1, 11])) };
        assert_eq!(text(&line), r#"{"take":{"server":3,"number":7,"piece":"AQs="}}"#);
        assert_eq!(serde_json::from_str::<Line>(&text(&line)).unwrap(), line);
        assert!(serde_json::from_str::<Line>(r#"{"take":{"server":3,"number":7,"piece":"?"}}"#).is_err());
    }

    #[test]
    fn a_node_without_a_gateway_says_nothing_of_one() {
        let address = "127.0.0.1:7001".parse().unwrap();
        let nonce = "n".into();
        let (gateway, certificate, memory, journal, paused) = Default::default();
        let without = Registration { nonce, address, gateway, certificate, memory, journal, paused };
        assert_eq!(text(&without), r#"{"nonce":"n","address":"127.0.0.1:7001"}"#);
        let certificate = Some(Fingerprint::of(&rustls::Certificate(vec![])));
        let with = Registration { gateway: Some(address), certificate, ..without.clone() };
        assert!(text(&with).ends_with(r#"7852b855"}"#), "{}", text(&with));
        let first = Registration { paused: Some(Pause { last: 3, begun: 9 }), ..without.clone() };
        assert!(text(&first).ends_with(r#""paused":{"last":3,"begun":9}}"#), "{}", text(&first));
        for one in [without, with, first] {
            assert_eq!(serde_json::from_str::<Registration>(&text(&one)).unwrap(), one);
        }
        let beat = Beat { gateway: Some(GatewayPhase::Acts), ..Beat::default() };
        assert!(text(&beat).ends_with(r#""gateway":"acts"}"#) && !text(&Beat::default()).contains("gateway"));
        assert_eq!(serde_json::from_str::<Beat>(&text(&Beat::default())).unwrap(), Beat::default());
    }

    #[test]
    fn another_incarnation_is_told_from_settings_that_are_gone() {
        let settings = ClusterSettings {
            version: VERSION,
            incarnation: "a".into(),
            servers: 3,
            has_certificates: false,
            recovered: None,
        };
        let etcd = Etcd::new(&["http://127.0.0.1:1".into()], None).unwrap();
        let (name, keys) = ("c".to_string(), Keys::new("c", "a"));
        let cluster = Cluster { name, etcd, settings: settings.clone(), keys, identity: None };
        let read = |value: &str| {
            let found = KeyValue { key: cluster.keys.cluster.clone(), value: value.into(), revision: 1 };
            cluster.test(Some(&found)).map_err(|error| (error.is::<Replaced>(), error.to_string()))
        };
        assert_eq!(read(&text(&settings)), Ok(()));
        let recovered = Some(Recovered { incarnation: "a".into(), count: 7 });
        let (is_replaced, said) =
            read(&text(&ClusterSettings { incarnation: "b".into(), recovered, ..settings.clone() })).unwrap_err();
        assert!(
            is_replaced && said.starts_with("cluster c is another one now, of incarnation b: it was recovered."),
            "{said}"
        );
        // Of a version of which nothing else is known.
        let (is_replaced, said) = read(r#"{"version":9,"incarnation":"b","x":1}"#).unwrap_err();
        assert!(is_replaced && said.contains("it was made anew"), "{said}");
        let changed = read(&text(&ClusterSettings { servers: 2, ..settings })).unwrap_err();
        assert_eq!(changed, (false, "what etcd says of cluster c was changed".into()));
        assert!(!read("{").unwrap_err().0 && !read("{}").unwrap_err().0);
        let absent = cluster.test(None).unwrap_err();
        assert!(!absent.is::<Replaced>() && absent.to_string() == "etcd knows no cluster c any more");
    }

    #[test]
    fn a_beat_says_of_a_gateway_what_there_is_to_say() {
        let (witnesses, readiness) =
            (Some(Witnesses { head: 1, reach_head: 0, reach_this: 2 }), Some(Readiness::Ready));
        let failing = Some(Failing { times: 3, why: "it ended with status 1".into() });
        let beat = Beat { witnesses, readiness, failing, reading: Some(7), ..Beat::default() };
        let said = r#""witnesses":{"head":1,"reach_head":0,"reach_this":2},"readiness":"ready","failing":{"times":3,"why":"it ended with status 1"},"reading":7}"#;
        assert!(text(&beat).ends_with(said), "{}", text(&beat));
        let unready = Beat { readiness: Some(Readiness::Unready("no keys".into())), ..Beat::default() };
        assert!(text(&unready).ends_with(r#""readiness":{"unready":"no keys"}}"#), "{}", text(&unready));
        for one in [beat, unready] {
            assert_eq!(serde_json::from_str::<Beat>(&text(&one)).unwrap(), one);
        }
    }

    #[test]
    fn a_line_says_of_a_head_that_its_gateway_did_not_serve() {
        assert_eq!(text(&Line::detect(3)), r#"{"detect":{"server":3}}"#);
        let unserved = Line::Detect { server: 3, unserved: true };
        assert_eq!(text(&unserved), r#"{"detect":{"server":3,"unserved":true}}"#);
        for line in [Line::detect(3), unserved] {
            assert_eq!(serde_json::from_str::<Line>(&text(&line)).unwrap(), line);
        }
    }

    #[test]
    fn names_are_tested() {
        assert!(test_name("one-2_B").is_ok());
        for name in ["", "a/b", "é", &"x".repeat(65)] {
            assert!(test_name(name).is_err(), "{name}");
        }
    }
}
