//! Where the gateway is that acts: the one beside the chain's head, as etcd says.

use std::collections::btree_map::{BTreeMap, Entry};
use std::net::SocketAddr;
use std::sync::{Arc, Mutex};
use std::time::Duration;

use anyhow::{Context, Result};
use tokio::sync::{watch, Notify};
use tokio::time::{sleep, timeout};

use crate::clock::since_start;
use crate::condition::{self, Condition};
use crate::contact::Contact;
use crate::etcd::Operation;
use crate::identity::{Fingerprint, Identity};
use crate::lock;
use crate::records::{self, Chain, Cluster, Registration, Replaced};
use crate::suspension::Suspension;
use crate::wire::About;
use crate::witness::{Reach, Witness};

/// So often etcd is looked at where nothing calls for it.
const ROUND: Duration = Duration::from_millis(500);

/// Between two looks, however much changes.
const SHORTEST: Duration = Duration::from_millis(10);

/// A gateway that acts, or will once it has begun.
#[derive(Clone, Copy, Debug, PartialEq, Eq)]
pub struct Acting {
    /// The head's number.
    pub server: u32,
    pub address: SocketAddr,
    /// The certificate that it shows, where there are certificates.
    pub certificate: Option<Fingerprint>,
}

/// Follows which gateway acts. Where etcd is away, it stays the one that was known last.
#[derive(Clone)]
pub struct Follower {
    acting: watch::Receiver<Option<Acting>>,
    look: Arc<Notify>,
    suspension: Arc<Suspension>,
    /// Why nothing is passed on any more.
    ended: watch::Receiver<Option<String>>,
    reach: Arc<Reach>,
    /// Why there is no contact with etcd, if there is none.
    away: Arc<Mutex<Option<String>>>,
    condition: Arc<Mutex<Condition>>,
}

/// What the task that follows tells.
struct ActingSenders {
    acting: watch::Sender<Option<Acting>>,
    ended: watch::Sender<Option<String>>,
}

impl Follower {
    /// Finds the cluster, and follows it from then on. All its servers are told, by pings, that somebody is in contact with them. An
    /// error says why it isn't found.
    pub async fn begin(name: &str, urls: &[String], identity: Option<Arc<Identity>>) -> Result<Follower> {
        let cluster = Cluster::find(name, urls, identity).await?.for_long();
        let ((tell_acting, acting), (tell_end, ended)) = (watch::channel(None), watch::channel(None));
        let look = Arc::new(Notify::new());
        let suspension = Arc::new(Suspension::new(look.clone()));
        let (reach, away, condition): (_, _, Arc<Mutex<Condition>>) = Default::default();
        tokio::spawn(condition::watch(cluster.etcd.clone(), condition.clone()));
        let follower = Follower { acting, look, suspension, ended, reach, away, condition };
        let told = ActingSenders { acting: tell_acting, ended: tell_end };
        tokio::spawn(cluster.etcd.clone().watch(cluster.keys.chain(), follower.look.clone()));
        tokio::spawn(follower.suspension.clone().keep_noting());
        tokio::spawn(follow(cluster, told, follower.clone()));
        Ok(follower)
    }

    /// One that is told who acts by a test.
    pub fn for_tests() -> (watch::Sender<Option<Acting>>, Follower) {
        let ((sender, acting), (_, ended)) = (watch::channel(None), watch::channel(None));
        let (suspension, (look, reach, away, condition)) = (Arc::new(Suspension::never()), Default::default());
        (sender, Follower { acting, look, suspension, ended, reach, away, condition })
    }

    /// The gateway that acts; nothing before it is known, or where the head has none.
    pub fn acting(&self) -> Option<Acting> {
        *self.acting.borrow()
    }

    /// Waits until another one than this acts.
    pub async fn leaves(&self, known: Option<Acting>) {
        let mut acting = self.acting.clone();
        while *acting.borrow_and_update() == known {
            if acting.changed().await.is_err() {
                // Nobody follows any more.
                return std::future::pending().await;
            }
        }
    }

    /// Why etcd can't be looked at, where it can't.
    pub fn why_away(&self) -> Option<String> {
        lock(&self.away).clone()
    }

    /// How etcd is, as it was found some seconds ago.
    pub fn condition(&self) -> Condition {
        lock(&self.condition).clone()
    }

    /// The gateway of that server was heard: all servers are told that it is reached.
    pub fn hear(&self, server: u32) {
        self.reach.hear(server);
    }

    /// Has etcd looked at at once: the gateway that is known doesn't answer.
    pub fn look(&self) {
        self.look.notify_one();
    }

    /// Waits until an answer may be given to a client: at once, unless this process stood still and hasn't looked at etcd
    /// since. Where the cluster is another one now, that is never.
    pub async fn may_answer(&self) {
        self.suspension.pass().await;
    }

    /// Waits until the cluster is another one, and says so. No answer is given any more.
    pub async fn ends(&self) -> String {
        let mut ended = self.ended.clone();
        loop {
            if let Some(why) = ended.borrow_and_update().clone() {
                return why;
            }
            if ended.changed().await.is_err() {
                return std::future::pending().await;
            }
        }
    }
}

async fn follow(cluster: Cluster, told: ActingSenders, follower: Follower) {
    let mut known = BTreeMap::new();
    let mut contact = Contact::default();
    let about = About { cluster: cluster.name.clone(), incarnation: cluster.settings.incarnation.clone() };
    let mut witness = Witness::new(about, cluster.identity.clone(), follower.reach.clone());
    loop {
        let begun = since_start();
        let read = read(&cluster, &mut known).await;
        let has_read = read.is_ok();
        match read {
            Ok(found) => {
                follower.reach.know_head(found.map(|found| found.server));
                witness.ping(&known);
                *lock(&follower.away) = None;
                if contact.regain() {
                    tracing::info!("in contact with etcd again");
                }
                if *told.acting.borrow() != found {
                    tell_of(found);
                    told.acting.send_replace(found);
                }
            }
            Err(error) if error.is::<Replaced>() => {
                follower.suspension.end();
                told.ended.send_replace(Some(error.to_string()));
                return;
            }
            Err(error) => {
                *lock(&follower.away) = Some(format!("{error:#}"));
                if contact.lose(format!("{error:#}")) {
                    tracing::warn!("no contact with etcd, and requests go where they went: {error:#}");
                }
            }
        }
        follower.suspension.looked(begun, has_read);
        let _ = timeout(ROUND, follower.look.notified()).await;
        sleep(SHORTEST).await;
    }
}

fn tell_of(found: Option<Acting>) {
    match found {
        Some(Acting { server, address, .. }) => {
            tracing::info!(server, %address, "requests go to the gateway of the head")
        }
        None => tracing::warn!("the head has no gateway: requests wait for another head"),
    }
}

/// Who acts. Registrations of the chain's servers that were read once stay as they are.
async fn read(cluster: &Cluster, known: &mut BTreeMap<u32, Registration>) -> Result<Option<Acting>> {
    let chain: Chain = get(cluster, cluster.keys.chain()).await?.context("the cluster has no chain")?;
    let head = *chain.members.first().context("the chain has no members")?;
    known.retain(|server, _| chain.has_place(*server));
    for server in chain.servers() {
        if let Entry::Vacant(place) = known.entry(server) {
            if let Some(registration) = get(cluster, cluster.keys.node(server)).await? {
                place.insert(registration);
            }
        }
    }
    let Some(registration) = known.get(&head) else { return Ok(None) };
    let acting = |address| Acting { server: head, address, certificate: registration.certificate };
    Ok(registration.gateway.map(acting))
}

async fn get<T: for<'de> serde::Deserialize<'de>>(cluster: &Cluster, key: String) -> Result<Option<T>> {
    let read = cluster.read(&[Operation::Get(key)]).await?;
    read.first().and_then(|found| found.first()).map(records::value).transpose()
}
