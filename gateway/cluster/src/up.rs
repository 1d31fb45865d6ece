//! `hobbychair cluster up`: a whole cluster on this machine, to try it.

use std::fs::{self, File};
use std::net::{Ipv4Addr, TcpListener};
use std::path::{Path, PathBuf};
use std::process::{Child, Command, Stdio};
use std::sync::Arc;
use std::time::{Duration, Instant};

use anyhow::{bail, Context, Result};
use hobbychair_bytes::processes::end_with_this_process;
use tokio::net::TcpStream;
use tokio::signal::unix::{signal, SignalKind};
use tokio::time::sleep;

use crate::certificates::{self, CertificateOptions};
use crate::identity::{Identity, IdentityFiles, Role};
use crate::memory::usual_bound;
use crate::records::Cluster;
use crate::{say, status};

/// What the cluster is called.
const NAME: &str = "try";

/// The folder of the journals in the cluster's own.
const JOURNALS: &str = "journals";

/// So long etcd may take to begin.
const ETCD: Duration = Duration::from_secs(20);

/// So long the nodes may take.
const NODES: Duration = Duration::from_secs(30);

/// So long the front may take.
const FRONT: Duration = Duration::from_secs(10);

/// A process of the cluster. It is ended with this one.
struct ClusterProcess {
    name: String,
    child: Child,
}

impl Drop for ClusterProcess {
    fn drop(&mut self) {
        // One that has ended already needs no end.
        let _ = self.child.kill();
        let _ = self.child.wait();
    }
}

/// What is to go up.
pub struct UpSettings {
    pub nodes: u32,
    /// For etcd, for what the processes say, and for certificates.
    pub folder: PathBuf,
    /// The program cq.
    pub program: String,
    pub gateway_config: Option<PathBuf>,
    /// Whether certificates are made and used.
    pub certificates: bool,
}

/// Starts etcd, two candidates for the master, so many nodes with gateways, and a front, in a folder, and runs until a signal
/// comes.
pub async fn up(settings: &UpSettings) -> Result<()> {
    let UpSettings { nodes, folder, program, gateway_config, .. } = settings;
    let mut interrupts = signal(SignalKind::interrupt())?;
    let mut terminations = signal(SignalKind::terminate())?;
    make_folder(folder)?;
    let shown = make_certificates(settings)?;
    let (clients, peers) = (free_port()?, free_port()?);
    let url = format!("{}://127.0.0.1:{clients}", if settings.certificates { "https" } else { "http" });
    let urls = [url.clone()];
    let mut processes = vec![start_etcd(folder, &url, peers, &shown)?];
    let identity = shown.files("master").identity(NAME, &[Role::Master])?;
    create(&urls, identity.as_ref(), *nodes).await?;
    let this = std::env::current_exe()?;
    let command = |words: &[&str], name: &str| {
        let mut command = Command::new(&this);
        command.args(words).args(["--cluster", NAME, "--etcd", &url]).args(shown.words(name));
        command
    };
    // All nodes share this machine.
    let memory = (usual_bound().0 / u64::from(*nodes)).max(1).to_string();
    for number in 1..=*nodes {
        let (name, first, gateway) = (node(number), number.to_string(), format!("127.0.0.1:{}", free_port()?));
        let words = ["node", "--listen", "127.0.0.1:0", "--first", &first, "--gateway", &gateway];
        let mut node = command(&words, &name);
        node.args(["--cq", program, "--memory", &memory]).arg("--journal").arg(folder.join(JOURNALS));
        if let Some(config) = gateway_config {
            node.arg("--gateway-config").arg(config);
        }
        processes.push(begin(node, folder, &name)?);
    }
    for number in 1..=2 {
        // This etcd compacts itself.
        let words = ["master", "--no-compaction", "--cq", program];
        processes.push(begin(command(&words, "master"), folder, &format!("master-{number}"))?);
    }
    let front = free_port()?;
    let words = ["front", "--host", "127.0.0.1", "--port", &front.to_string()];
    processes.push(begin(command(&words, "front"), folder, "front")?);
    let cluster = Cluster::find(NAME, &urls, identity).await?;
    tell_of(&cluster, *nodes, &url, folder, &shown, &mut processes).await?;
    wait_for(front, folder).await?;
    say(&format!("to send requests: http://127.0.0.1:{front}"));
    say("the cluster is up, until this is interrupted");
    let mut rounds = tokio::time::interval(Duration::from_millis(500));
    loop {
        tokio::select! {
            _ = interrupts.recv() => break,
            _ = terminations.recv() => break,
            _ = rounds.tick() => processes.retain_mut(goes_on),
        }
    }
    // The last ones first, so that nobody is taken for lost.
    while let Some(process) = processes.pop() {
        drop(process);
    }
    say("the cluster is down");
    Ok(())
}

fn node(number: u32) -> String {
    format!("node-{number}")
}

/// The certificates, where there are any.
struct Shown(Option<PathBuf>);

impl Shown {
    /// Those of a process.
    fn files(&self, name: &str) -> IdentityFiles {
        let file = |name: &str| self.0.as_ref().map(|folder| folder.join(name));
        IdentityFiles {
            certificate: file(&format!("{name}.pem")),
            key: file(&format!("{name}.key")),
            authority: file("authority.pem"),
        }
    }

    /// What a process is told of its own.
    fn words(&self, name: &str) -> Vec<String> {
        let IdentityFiles { certificate, key, authority } = self.files(name);
        let given = [("--certificate", certificate), ("--key", key), ("--authority", authority)];
        let words = |(option, file): (&str, Option<PathBuf>)| Some([option.to_string(), file?.display().to_string()]);
        given.into_iter().filter_map(words).flatten().collect()
    }

    /// Behind the words that a user is told.
    fn said(&self, name: &str) -> String {
        self.words(name).iter().map(|word| format!(" {word}")).collect()
    }
}

/// An authority, and a certificate for each process; for one node more, too.
fn make_certificates(settings: &UpSettings) -> Result<Shown> {
    if !settings.certificates {
        return Ok(Shown(None));
    }
    let folder = settings.folder.join("certificates");
    let wanted = |role: Option<Role>, name: Option<String>| {
        let address = if role == Some(Role::Etcd) { vec!["127.0.0.1".into()] } else { Vec::new() };
        let role = role.into_iter().collect();
        CertificateOptions { cluster: NAME.into(), folder: folder.clone(), role, name, address, days: None }
    };
    certificates::make(&wanted(None, None))?;
    for role in [Role::Etcd, Role::Master, Role::Front] {
        certificates::make(&wanted(Some(role), None))?;
    }
    for number in 1..=settings.nodes + 1 {
        certificates::make(&wanted(Some(Role::Node), Some(node(number))))?;
    }
    Ok(Shown(Some(folder)))
}

fn goes_on(process: &mut ClusterProcess) -> bool {
    match process.child.try_wait() {
        Ok(Some(status)) => {
            say(&format!("{} has ended ({status})", process.name));
            false
        }
        _ => true,
    }
}

/// A folder of its own: one that was used is never emptied.
fn make_folder(folder: &Path) -> Result<()> {
    fs::create_dir_all(folder).with_context(|| format!("{} can't be made", folder.display()))?;
    let is_empty =
        fs::read_dir(folder).with_context(|| format!("{} can't be read", folder.display()))?.next().is_none();
    if !is_empty {
        bail!(
            "{} was used before, and is left as it is: hobbychair cluster recover takes the journals in it. Give another folder",
            folder.display()
        );
    }
    Ok(())
}

fn free_port() -> Result<u16> {
    Ok(TcpListener::bind((Ipv4Addr::LOCALHOST, 0))?.local_addr()?.port())
}

fn start_etcd(folder: &Path, url: &str, peers: u16, shown: &Shown) -> Result<ClusterProcess> {
    let peer = format!("http://127.0.0.1:{peers}");
    let mut command = Command::new("etcd");
    command.arg("--data-dir").arg(folder.join("etcd")).args([
        "--name=one",
        &format!("--listen-client-urls={url}"),
        &format!("--advertise-client-urls={url}"),
        &format!("--listen-peer-urls={peer}"),
        &format!("--initial-advertise-peer-urls={peer}"),
        &format!("--initial-cluster=one={peer}"),
        "--auto-compaction-mode=periodic",
        "--auto-compaction-retention=1m",
        "--logger=zap",
        "--log-level=warn",
    ]);
    if let IdentityFiles { certificate: Some(certificate), key: Some(key), authority: Some(authority) } =
        shown.files("etcd")
    {
        command.arg("--cert-file").arg(certificate).arg("--key-file").arg(key);
        command.arg("--trusted-ca-file").arg(authority).arg("--client-cert-auth");
    }
    begin(command, folder, "etcd").context("etcd is Debian's package etcd-server")
}

/// Starts a process whose output goes to a file.
fn begin(mut command: Command, folder: &Path, name: &str) -> Result<ClusterProcess> {
    let path: PathBuf = folder.join(format!("{name}.log"));
    let log = File::create(&path).with_context(|| format!("{} can't be written", path.display()))?;
    command.stdin(Stdio::null()).stdout(log.try_clone()?).stderr(log);
    end_with_this_process(&mut command);
    let child = command.spawn().with_context(|| format!("{name} can't be started"))?;
    Ok(ClusterProcess { name: name.into(), child })
}

async fn create(urls: &[String], identity: Option<&Arc<Identity>>, nodes: u32) -> Result<()> {
    let begun = Instant::now();
    loop {
        match Cluster::create(NAME, urls, identity.cloned(), nodes).await {
            Ok(_) => return Ok(()),
            Err(error) if begun.elapsed() > ETCD => return Err(error.context("etcd doesn't begin")),
            Err(_) => sleep(Duration::from_millis(100)).await,
        }
    }
}

async fn tell_of(
    cluster: &Cluster,
    nodes: u32,
    url: &str,
    folder: &Path,
    shown: &Shown,
    processes: &mut [ClusterProcess],
) -> Result<()> {
    let begun = Instant::now();
    loop {
        for process in &mut *processes {
            if let Ok(Some(status)) = process.child.try_wait() {
                let log = folder.join(format!("{}.log", process.name));
                bail!("{} has ended ({status}): {} has what it said", process.name, log.display());
            }
        }
        let status = status::look(cluster).await?;
        if status.beating() >= nodes as usize && status.is_answering() {
            say(status.columns().trim_end());
            break;
        }
        if begun.elapsed() > NODES {
            bail!("the nodes don't begin: {} has what they say", folder.display());
        }
    }
    let files = shown.said("master");
    say(&format!("to look at it: hobbychair cluster status --cluster {NAME} --etcd {url}{files}"));
    let port = free_port()?;
    let files = shown.said(&node(nodes + 1));
    say(&format!(
        "to add a node: hobbychair node --cluster {NAME} --etcd {url} --listen 127.0.0.1:0 --gateway 127.0.0.1:{port} --journal {} --join{files}",
        folder.join(JOURNALS).display()
    ));
    Ok(())
}

/// Waits until something listens at the front's port.
async fn wait_for(front: u16, folder: &Path) -> Result<()> {
    let begun = Instant::now();
    while TcpStream::connect((Ipv4Addr::LOCALHOST, front)).await.is_err() {
        if begun.elapsed() > FRONT {
            bail!("the front doesn't begin: {} has what it says", folder.display());
        }
        sleep(Duration::from_millis(50)).await;
    }
    Ok(())
}

#[cfg(test)]
mod tests {
    use super::*;

    #[test]
    fn a_folder_that_was_used_is_left_alone() {
        let folder = std::env::temp_dir().join(format!("hobbychair-{}", crate::records::random_name()));
        make_folder(&folder).unwrap();
        make_folder(&folder).unwrap();
        fs::write(folder.join("one"), "kept").unwrap();
        assert!(make_folder(&folder).unwrap_err().to_string().contains("left as it is"));
        assert_eq!(fs::read_to_string(folder.join("one")).unwrap(), "kept");
        fs::remove_dir_all(folder).unwrap();
    }
}
