//! The commands `hobbychair node`, `master` and `cluster`.

use std::net::SocketAddr;
use std::path::PathBuf;
use std::time::Duration;

use anyhow::{bail, Result};
use clap::{ArgGroup, Args, Subcommand};

use crate::addresses::Place;
use crate::certificates;
use crate::compaction::{self, When};
use crate::identity::{IdentityFiles, Role};
use crate::memory::{usual_bound, Size};
use crate::node::{self, gateway, keeping, Beginning, End, Limits};
use crate::records::Cluster;
use crate::recover::{self, RecoverySettings};
use crate::roster::MOST_MEMBERS;
use crate::{master, say, status, up};

/// Which cluster a command is about.
#[derive(Args)]
pub struct Which {
    /// The name of the cluster
    #[arg(long, value_name = "NAME")]
    cluster: String,
    /// The members of etcd
    #[arg(long, value_name = "URL,..", value_delimiter = ',', required = true)]
    etcd: Vec<String>,
    #[command(flatten)]
    files: IdentityFiles,
}

impl Which {
    /// The cluster, for a process whose certificate has to be of one of these roles, or of any where none is said.
    async fn find(&self, roles: &[Role]) -> Result<Cluster> {
        Cluster::find(&self.cluster, &self.etcd, self.files.identity(&self.cluster, roles)?).await
    }
}

#[derive(Args)]
#[command(group(ArgGroup::new("beginning").required(true).args(["first", "join"])))]
pub struct NodeOptions {
    #[command(flatten)]
    which: Which,
    /// Where to listen to other nodes
    #[arg(long, value_name = "ADDRESS:PORT")]
    listen: SocketAddr,
    /// Where other nodes find this one [default: where it listens]
    #[arg(long, value_name = "HOST:PORT")]
    advertise: Option<String>,
    /// Begin as that server of the first chain
    #[arg(long, value_name = "N")]
    first: Option<u32>,
    /// Join the chain, with the next number
    #[arg(long)]
    join: bool,
    /// Where this node's gateway listens, once its server is the head [default: it has none]
    #[arg(long, value_name = "ADDRESS:PORT")]
    gateway: Option<SocketAddr>,
    /// Where fronts find the gateway [default: where it listens]
    #[arg(long, value_name = "HOST:PORT", requires = "gateway")]
    advertise_gateway: Option<String>,
    /// The gateway's file of options, as serve --config has it
    #[arg(long, value_name = "FILE", requires = "gateway")]
    gateway_config: Option<PathBuf>,
    /// What messages may use here, by the count of the gateway that acts [default: 40 % of this machine's memory]
    #[arg(long, value_name = "SIZE")]
    memory: Option<Size>,
    /// What may wait here for a server that joins
    #[arg(long, value_name = "SIZE", default_value = "256MiB")]
    joiner_memory: Size,
    /// Keep a journal of all entries in a folder of its own in this one [default: nothing is kept on disk]
    #[arg(long, value_name = "FOLDER")]
    journal: Option<PathBuf>,
    /// Let nothing leave before what it rests on is on the disk
    #[arg(long, requires = "journal")]
    durable: bool,
    /// How large what is behind the journal's last copy of the store gets before the next copy, or as large as that is
    #[arg(long, value_name = "SIZE", default_value = "256MiB", requires = "journal")]
    journal_size: Size,
    /// With less room than this on the journal's disk the cluster refuses sends and creations
    #[arg(long, value_name = "SIZE", default_value = "256MiB", requires = "journal")]
    journal_reserve: Size,
    /// The program cq [default: cq of the path]
    #[arg(long, value_name = "PROGRAM", env = "HOBBYCHAIR_CQ")]
    pub cq: Option<String>,
    /// A new file for all that the server is told and tells, for tests
    #[arg(long, value_name = "FILE", hide = true)]
    trace: Option<PathBuf>,
}

#[derive(Args)]
pub struct MasterOptions {
    #[command(flatten)]
    which: Which,
    /// Have etcd compacted by others: this candidate never has it forget what was overwritten
    #[arg(long)]
    no_compaction: bool,
    /// Compact etcd also where others have keys there
    #[arg(long, conflicts_with = "no_compaction")]
    compaction: bool,
    /// For how many seconds what was overwritten is kept, for tests
    #[arg(long, value_name = "SECONDS", default_value = "3600", hide = true)]
    compaction_kept: u64,
    /// The program cq [default: cq of the path]
    #[arg(long, value_name = "PROGRAM", env = "HOBBYCHAIR_CQ")]
    pub cq: Option<String>,
}

#[derive(Subcommand)]
pub enum ClusterCommand {
    /// Make a cluster in etcd, whose first chain has servers 1 to N
    Create {
        #[command(flatten)]
        which: Which,
        /// How many servers the first chain has
        #[arg(long, value_name = "N")]
        nodes: u32,
    },
    /// Say how a cluster is
    Status {
        #[command(flatten)]
        which: Which,
        /// For programs
        #[arg(long)]
        json: bool,
    },
    /// Write the lines of the master's log
    Log {
        #[command(flatten)]
        which: Which,
    },
    /// Make a new cluster of the journals of one whose servers are all gone
    Recover {
        #[command(flatten)]
        which: Which,
        /// Where journals are: a node's --journal, or a folder in it. All of the last chain are needed
        #[arg(long, value_name = "FOLDER", required = true)]
        from: Vec<PathBuf>,
        /// Where to write the journal of the new cluster's first server: the --journal of the node that begins as that
        #[arg(long, value_name = "FOLDER")]
        journal: PathBuf,
        /// Which incarnation to recover, where etcd doesn't know the cluster [default: the newest one]
        #[arg(long, value_name = "INCARNATION")]
        incarnation: Option<String>,
        /// Do it though something may be lost
        #[arg(long)]
        force: bool,
        /// All of its nodes, gateways and fronts are stopped, or cut off for good: wait for no silence, and ask nobody
        #[arg(long)]
        fenced: bool,
        /// How many seconds no node may beat before anything is done
        #[arg(long, value_name = "SECONDS", default_value = "60", conflicts_with = "fenced")]
        silence: u64,
        /// Say what would be taken, and change nothing
        #[arg(long)]
        dry_run: bool,
        /// The program cq [default: cq of the path]
        #[arg(long, value_name = "PROGRAM", env = "HOBBYCHAIR_CQ")]
        cq: Option<String>,
    },
    /// Make an authority, and with --role certificates that it has signed, by the program openssl
    Certificates(certificates::CertificateOptions),
    /// Start a whole cluster on this machine, to try it
    Up {
        /// How many nodes
        #[arg(long, value_name = "N", default_value = "3")]
        nodes: u32,
        /// A new folder for etcd and for what the processes say
        #[arg(long, value_name = "FOLDER")]
        folder: PathBuf,
        /// The gateways' file of options, as serve --config has it
        #[arg(long, value_name = "FILE")]
        gateway_config: Option<PathBuf>,
        /// Make certificates in the folder, and use them
        #[arg(long)]
        certificates: bool,
        /// The program cq [default: cq of the path]
        #[arg(long, value_name = "PROGRAM", env = "HOBBYCHAIR_CQ")]
        cq: Option<String>,
    },
}

impl ClusterCommand {
    /// Which program cq was given, where one is needed.
    pub fn cq(&self) -> Option<Option<String>> {
        match self {
            ClusterCommand::Up { cq, .. } | ClusterCommand::Recover { cq, .. } => Some(cq.clone()),
            _ => None,
        }
    }
}

/// What tasks do here is little each, and one wakes the next: on one thread they do it without the system's help.
fn runtime() -> Result<tokio::runtime::Runtime> {
    Ok(tokio::runtime::Builder::new_current_thread().enable_all().build()?)
}

/// Runs a node, with the program cq.
pub fn run_node(node: NodeOptions, program: String) -> Result<()> {
    let beginning = node.first.map_or(Beginning::Join, Beginning::First);
    let config = node.gateway_config;
    let advertise = node.advertise_gateway;
    let gateway = node.gateway.map(|listen| gateway::GatewaySettings { place: Place { listen, advertise }, config });
    let place = Place { listen: node.listen, advertise: node.advertise };
    let memory = node.memory.unwrap_or_else(usual_bound);
    let limits = Limits { memory: memory.0, joiner: node.joiner_memory.0 };
    let (is_durable, size, reserve) = (node.durable, node.journal_size.0, node.journal_reserve.0);
    let journal = node.journal.map(|folder| keeping::JournalSettings { folder, is_durable, size, reserve });
    let settings = node::NodeSettings { place, beginning, program, gateway, limits, journal, trace: node.trace };
    let runtime = runtime()?;
    let end = runtime.block_on(async { node::run(node.which.find(&[Role::Node]).await?, settings).await })?;
    runtime.shutdown_background();
    match end {
        End::Fault(why) => bail!("this node ends: {why}"),
        end => {
            tracing::warn!("this node ends: {end}");
            Ok(())
        }
    }
}

/// Runs a candidate for the master, with the program cq.
pub fn run_master(master: &MasterOptions, program: &str) -> Result<()> {
    let when = match (master.no_compaction, master.compaction) {
        (true, _) => When::Never,
        (false, true) => When::Always,
        (false, false) => When::Alone,
    };
    let compaction = compaction::CompactionSettings { when, kept: Duration::from_secs(master.compaction_kept) };
    runtime()?.block_on(async { master::run(master.which.find(&[Role::Master]).await?, program, compaction).await })
}

/// Does what is asked about a cluster. The program is there where one is needed.
pub fn run_cluster(asked: ClusterCommand, program: Option<String>) -> Result<()> {
    runtime()?.block_on(async {
        match asked {
            ClusterCommand::Create { which, nodes } => create(&which, nodes).await,
            ClusterCommand::Status { which, json } => {
                let status = status::look(&which.find(&[]).await?).await?;
                if json {
                    say(&serde_json::to_string(&status)?);
                } else {
                    say(status.columns().trim_end());
                }
                Ok(())
            }
            ClusterCommand::Log { which } => {
                status::log(&which.find(&[]).await?).await?.iter().for_each(|line| say(line));
                Ok(())
            }
            ClusterCommand::Recover { which, from, journal, incarnation, force, fenced, silence, dry_run, .. } => {
                let identity = which.files.identity(&which.cluster, &[])?;
                let program = program.unwrap_or_else(|| "cq".into());
                let (cluster, etcd) = (which.cluster, which.etcd);
                let (is_forced, is_dry, is_fenced) = (force, dry_run, fenced);
                let silence = Duration::from_secs(silence);
                recover::recover(&RecoverySettings {
                    cluster,
                    etcd,
                    identity,
                    from,
                    journal,
                    incarnation,
                    is_forced,
                    is_dry,
                    is_fenced,
                    silence,
                    program,
                })
                .await
            }
            ClusterCommand::Certificates(wanted) => {
                certificates::make(&wanted)?.iter().for_each(|line| say(line));
                Ok(())
            }
            ClusterCommand::Up { nodes, folder, gateway_config, certificates, .. } => {
                test_size(nodes)?;
                let program = program.unwrap_or_else(|| "cq".into());
                let settings = up::UpSettings { nodes, folder, program, gateway_config, certificates };
                up::up(&settings).await
            }
        }
    })
}

async fn create(which: &Which, nodes: u32) -> Result<()> {
    test_size(nodes)?;
    let identity = which.files.identity(&which.cluster, &[])?;
    let cluster = Cluster::create(&which.cluster, &which.etcd, identity, nodes).await?;
    say(&format!("cluster {} is there, of incarnation {}", cluster.name, cluster.settings.incarnation));
    say(&format!("its servers 1 to {nodes} begin by: hobbychair node --first N"));
    // The cluster is there, whatever comes of this.
    if let Ok(others) = compaction::count_others(&cluster.etcd).await {
        say(compaction::foretold(others));
    }
    Ok(())
}

fn test_size(nodes: u32) -> Result<()> {
    if nodes == 0 || nodes as usize > MOST_MEMBERS {
        bail!("a chain has 1 to {MOST_MEMBERS} servers");
    }
    Ok(())
}
