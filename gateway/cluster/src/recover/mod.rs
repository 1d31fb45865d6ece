//! `hobbychair cluster recover`: after the loss of all servers that had everything, a new cluster is made of the journals
//! (docs/CLUSTER.md, "Recover").

mod plan;
mod processes;
mod replay;

use std::path::PathBuf;
use std::sync::Arc;
use std::time::Duration;

use anyhow::{bail, ensure, Result};
use tokio::time::{sleep_until, Instant};

use crate::etcd::{Etcd, Guard};
use crate::identity::Identity;
use crate::journal::{self, Head, JournalFolder, Known, VERSION};
use crate::records::{self, random_name, Cluster, Recovered};
use crate::say;

use self::plan::{Plan, Sources};
use self::processes::Processes;

/// So long beats are looked at before anybody is asked: a node beats twice in that.
const LOOK: Duration = Duration::from_millis(1200);

/// No recovery is done in a shorter time. A node that goes on beats within it; and one that doesn't since it stands still does so
/// for so long, but for a beat's period, that it knows of it ([`suspension::STILL_MILLISECONDS`](crate::suspension::STILL_MILLISECONDS)).
const SHORTEST: Duration = Duration::from_millis(2500);

/// What is asked for.
pub struct RecoverySettings {
    pub cluster: String,
    pub etcd: Vec<String>,
    pub identity: Option<Arc<Identity>>,
    /// Where the journals are that nodes left.
    pub from: Vec<PathBuf>,
    /// Where the journal of the new cluster's server is to be.
    pub journal: PathBuf,
    /// Which incarnation is wanted, where etcd doesn't say it.
    pub incarnation: Option<String>,
    pub is_forced: bool,
    pub is_dry: bool,
    /// Whoever asks knows that all processes of the cluster are stopped or cut off.
    pub is_fenced: bool,
    /// So long no node may beat otherwise.
    pub silence: Duration,
    /// The program cq.
    pub program: String,
}

/// Makes a new cluster of the journals. Nothing of these is changed. An error says why nothing was done.
pub async fn recover(wanted: &RecoverySettings) -> Result<()> {
    let begun = Instant::now();
    let etcd = Etcd::new(&wanted.etcd, wanted.identity.clone())?;
    let there = Cluster::find_any(&wanted.cluster, etcd.clone(), wanted.identity.clone()).await?;
    let known = match there {
        Some(cluster) => Some((find_stopped(wanted, &cluster).await?, cluster)),
        None => {
            say(&format!("etcd knows no cluster {}: the newest journal says how its chain was", wanted.cluster));
            ensure!(
                wanted.is_fenced || wanted.is_dry,
                "where its nodes, gateways and fronts are journals don't say, so nobody can be asked whether they go on. Once \
                 all are stopped or cut off, --fenced says so"
            );
            None
        }
    };
    let of_etcd =
        |(processes, cluster): &(Processes, Cluster)| (cluster.settings.incarnation.clone(), processes.chain.clone());
    let in_etcd = known.as_ref().map(of_etcd);
    let sources = Sources::read(&wanted.from)?;
    let plan = Plan::make(&wanted.cluster, sources, in_etcd, wanted.incarnation.as_deref())?;
    plan.say();
    if !plan.problems.is_empty() && !wanted.is_forced {
        bail!("nothing is done: something may be lost, as is said above. With --force it is done all the same");
    }
    if plan.chain_has_certificates() != wanted.identity.is_some() {
        let has =
            if wanted.identity.is_some() { "had none" } else { "had some: give --certificate, --key and --authority" };
        bail!("the processes of this cluster {has}");
    }
    if wanted.is_dry {
        say("nothing is done: this was a dry run");
        return Ok(());
    }
    let guards = match &known {
        Some((processes, cluster)) => [vec![cluster.guard()], processes.guards(cluster)].concat(),
        None => vec![Guard::IsAbsent(Cluster::key(&wanted.cluster))],
    };
    make(wanted, &plan, etcd, &guards, begun + SHORTEST).await
}

/// What etcd says of a cluster none of whose processes goes on, as far as that can be found out, or as whoever asks knows.
async fn find_stopped(wanted: &RecoverySettings, cluster: &Cluster) -> Result<Processes> {
    let processes = Processes::find(cluster).await?;
    processes.say();
    if wanted.is_fenced {
        return Ok(processes);
    }
    processes.test_silence(cluster, LOOK).await?;
    processes.test_answers(cluster).await?;
    if !wanted.is_dry {
        say(&format!("waiting for {} s, in which no node may beat", wanted.silence.as_secs()));
        processes.test_silence(cluster, wanted.silence).await?;
        processes.test_answers(cluster).await?;
    }
    Ok(processes)
}

/// Writes the journal of the new cluster's server, and then the cluster, not before that moment.
async fn make(wanted: &RecoverySettings, plan: &Plan, etcd: Etcd, guards: &[Guard], earliest: Instant) -> Result<()> {
    let taken = plan.taken();
    let recovered = Recovered { incarnation: plan.incarnation.clone(), count: taken.count };
    let settings = records::ClusterSettings {
        version: records::VERSION,
        incarnation: random_name(),
        servers: 1,
        has_certificates: wanted.identity.is_some(),
        recovered: Some(recovered),
    };
    journal::prepare(&wanted.journal)?;
    let folder = JournalFolder::of(&wanted.journal, &settings.incarnation, 1);
    folder.make()?;
    let head = Head {
        version: VERSION,
        cluster: wanted.cluster.clone(),
        incarnation: settings.incarnation.clone(),
        follows: Some(plan.incarnation.clone()),
        servers: 1,
        has_certificates: settings.has_certificates,
        is_durable: true,
        server: 1,
        count: taken.count,
        known: Known::default(),
    };
    replay::write(taken, &wanted.program, &folder, &head).await?;
    sleep_until(earliest).await;
    let made = Cluster::put(&wanted.cluster, etcd, settings, wanted.identity.clone(), guards).await?;
    let Some(cluster) = made else {
        bail!(
            "nothing is recovered: a node beat meanwhile, or the cluster in etcd was changed. {} is of no use",
            folder.0.display()
        );
    };
    say(&format!("cluster {} is there again, of incarnation {}", cluster.name, cluster.settings.incarnation));
    say(&format!(
        "its server 1 begins by: hobbychair node --first 1 --journal {}, and all others by --join",
        wanted.journal.display()
    ));
    Ok(())
}
