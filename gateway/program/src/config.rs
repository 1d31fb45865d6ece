//! What `serve` and `front` are told: by options, by variables of the environment, and by a file, in this order of rank.

use std::collections::BTreeMap;
use std::path::PathBuf;
use std::str::FromStr;

use anyhow::Result;
use clap::ValueEnum;
use hobbychair_cluster::memory::Size;
use hobbychair_tools::misuse::Misuse;
use serde::Deserialize;

/// The options that `serve` and `front` share. A file has the same names, and each option has a variable: `HOBBYCHAIR_` and its name.
#[derive(Clone, Debug, Default, clap::Args)]
pub struct CommonOptions {
    /// A file in TOML with these options by their names
    #[arg(long, value_name = "FILE", env = "HOBBYCHAIR_CONFIG")]
    pub config: Option<PathBuf>,
    /// The address to listen on [default: 127.0.0.1]
    #[arg(long, env = "HOBBYCHAIR_HOST")]
    pub host: Option<String>,
    /// The port; 0 is any free one [default: 9324]
    #[arg(long, env = "HOBBYCHAIR_PORT")]
    pub port: Option<u16>,
    /// On how many threads requests are served [default: half as many as there are processors]
    #[arg(long, value_name = "N", env = "HOBBYCHAIR_THREADS")]
    pub threads: Option<u32>,
    /// Refuse requests when those that are being served keep so many bytes [default: 256MiB]
    #[arg(long, value_name = "SIZE", env = "HOBBYCHAIR_REQUEST_MEMORY")]
    pub request_memory: Option<Size>,
    /// Let those in alone who sign with a key of this file
    #[arg(long, value_name = "FILE", env = "HOBBYCHAIR_CREDENTIALS")]
    pub credentials: Option<PathBuf>,
    /// Serve everybody, also on an address that others reach
    #[arg(long, num_args = 0..=1, default_missing_value = "true", require_equals = true, value_name = "BOOL", env = "HOBBYCHAIR_OPEN")]
    pub open: Option<bool>,
    /// How many connections are served at once [default: 10000]
    #[arg(long, value_name = "N", env = "HOBBYCHAIR_CONNECTIONS")]
    pub connections: Option<u32>,
    /// Tell operators /health and /metrics here: a port of 127.0.0.1, or HOST:PORT
    #[arg(long, value_name = "ADDRESS", env = "HOBBYCHAIR_ADMIN")]
    pub admin: Option<Address>,
    /// How lines of the log look [default: text]
    #[arg(long, value_name = "FORM", env = "HOBBYCHAIR_LOG")]
    pub log: Option<LogFormat>,
    /// What is logged; each request at debug [default: info]
    #[arg(long, value_name = "LEVEL", env = "HOBBYCHAIR_LOG_LEVEL")]
    pub log_level: Option<LogLevel>,
}

/// The options of `serve`.
#[derive(Clone, Debug, Default, clap::Args)]
pub struct GatewayOptions {
    #[command(flatten)]
    pub common: CommonOptions,
    /// The program cq [default: cq of the path]
    #[arg(long, value_name = "PROGRAM", env = "HOBBYCHAIR_CQ")]
    pub cq: Option<String>,
    /// After how many seconds without an answer cq is ended and started again [default: 30]
    #[arg(long, value_name = "SECONDS", env = "HOBBYCHAIR_CQ_TIMEOUT")]
    pub cq_timeout: Option<u32>,
    /// How many programs cq share the queues [default: 1]
    #[arg(long, value_name = "N", env = "HOBBYCHAIR_SHARDS")]
    pub shards: Option<u32>,
    /// Keep all on disk, in FILE.cq1 and so on, and start from it
    #[arg(long, value_name = "FILE", env = "HOBBYCHAIR_JOURNAL")]
    pub journal: Option<PathBuf>,
    /// How large the journal's files are made together [default: 256MiB for each program]
    #[arg(long, value_name = "SIZE", env = "HOBBYCHAIR_JOURNAL_SIZE")]
    pub journal_size: Option<Size>,
    /// Refuse sends when messages use so many bytes, as 512MiB
    #[arg(long, value_name = "SIZE", env = "HOBBYCHAIR_MEMORY")]
    pub memory: Option<Size>,
    /// Speak TLS, with this chain of certificates in PEM
    #[arg(long, value_name = "FILE", env = "HOBBYCHAIR_CERTIFICATE")]
    pub certificate: Option<PathBuf>,
    /// The private key of the certificate, in PEM
    #[arg(long, value_name = "FILE", env = "HOBBYCHAIR_KEY")]
    pub key: Option<PathBuf>,
    /// Under which address clients know the gateway, for the URLs of queues
    #[arg(long, env = "HOBBYCHAIR_URL")]
    pub url: Option<BaseUrl>,
    /// By which names clients without keys reach the gateway, beside addresses, localhost and that of --url; * for any
    #[arg(long, value_name = "NAME,..", value_delimiter = ',', env = "HOBBYCHAIR_ALLOWED_HOSTS")]
    pub allowed_hosts: Option<Vec<HostName>>,
    /// The account in URLs, 12 digits [default: 000000000000]
    #[arg(long, env = "HOBBYCHAIR_ACCOUNT")]
    pub account: Option<Account>,
    /// The region in ARNs [default: us-east-1]
    #[arg(long, env = "HOBBYCHAIR_REGION")]
    pub region: Option<Region>,
    /// How many long polls wait at once [default: nine tenths of the connections]
    #[arg(long, value_name = "N", env = "HOBBYCHAIR_POLLS")]
    pub polls: Option<u32>,
    /// Let queues be made again and purged again at once, for test suites
    #[arg(long, num_args = 0..=1, default_missing_value = "true", require_equals = true, value_name = "BOOL", env = "HOBBYCHAIR_NO_PAUSES")]
    pub no_pauses: Option<bool>,
    /// Show operators messages too, at /_aws/sqs/messages; each is kept in memory a second time
    #[arg(long, num_args = 0..=1, default_missing_value = "true", require_equals = true, value_name = "BOOL", env = "HOBBYCHAIR_PEEK")]
    pub peek: Option<bool>,
    /// A node starts this, and has the other end of standard input.
    #[arg(long, hide = true)]
    pub beside_node: bool,
    /// The number of a socket that listens, which a node shares.
    #[arg(long, hide = true, requires = "beside_node")]
    pub listener: Option<i32>,
    /// The cluster whose fronts alone are served, by the node's certificate.
    #[arg(long, hide = true, requires = "beside_node", requires = "fronts_authority")]
    pub fronts_of: Option<String>,
    /// The certificate of that cluster's authority, in PEM.
    #[arg(long, hide = true, requires = "fronts_of")]
    pub fronts_authority: Option<PathBuf>,
    /// It ends once it has read its options and files, and could listen: a node tries these again and again.
    #[arg(long, hide = true, requires = "beside_node")]
    pub only_prepare: bool,
    /// Addresses may be taken by a gateway that runs.
    #[arg(long, hide = true, requires = "only_prepare")]
    pub beside_another: bool,
    /// A file whose number is the clock, for tests.
    #[arg(long, hide = true)]
    pub clock_file: Option<PathBuf>,
    /// Queues that the file declares.
    #[arg(skip)]
    pub queues: Vec<DeclaredQueue>,
}

/// A queue that is created at the start, if it isn't there.
#[derive(Clone, Debug, PartialEq, Eq, Deserialize)]
#[serde(deny_unknown_fields)]
pub struct DeclaredQueue {
    pub name: String,
    #[serde(default)]
    pub attributes: BTreeMap<String, String>,
    #[serde(default)]
    pub tags: BTreeMap<String, String>,
}

#[derive(Clone, Copy, Debug, PartialEq, Eq, ValueEnum)]
pub enum LogFormat {
    Text,
    Json,
}

#[derive(Clone, Copy, Debug, PartialEq, Eq, ValueEnum)]
pub enum LogLevel {
    Error,
    Warn,
    Info,
    Debug,
}

/// What is logged, and how.
#[derive(Clone, Copy, Debug)]
pub struct LogSettings {
    pub format: LogFormat,
    pub level: LogLevel,
}

/// A port of this machine alone, or a host and a port.
#[derive(Clone, Debug, PartialEq, Eq)]
pub struct Address {
    pub host: String,
    pub port: u16,
}

impl FromStr for Address {
    type Err = String;

    fn from_str(text: &str) -> Result<Address, String> {
        let (host, port) = text.rsplit_once(':').unwrap_or((LOOPBACK, text));
        let port = port.parse().map_err(|_| format!("{text} is no address, as 9325 or 127.0.0.1:9325"))?;
        Ok(Address { host: host.into(), port })
    }
}

/// 12 digits.
#[derive(Clone, Debug, PartialEq, Eq)]
pub struct Account(pub String);

impl FromStr for Account {
    type Err = String;

    fn from_str(text: &str) -> Result<Account, String> {
        let is_account = text.len() == 12 && text.bytes().all(|byte| byte.is_ascii_digit());
        is_account.then(|| Account(text.into())).ok_or_else(|| "it is no account of 12 digits".into())
    }
}

/// 1 to 64 letters, digits and hyphens: it stands in ARNs between colons.
#[derive(Clone, Debug, PartialEq, Eq)]
pub struct Region(pub String);

impl FromStr for Region {
    type Err = String;

    fn from_str(text: &str) -> Result<Region, String> {
        let is_good = |byte: u8| byte.is_ascii_alphanumeric() || byte == b'-';
        let is_region = (1..=64).contains(&text.len()) && text.bytes().all(is_good);
        is_region.then(|| Region(text.into())).ok_or_else(|| "it is no region, as us-east-1".into())
    }
}

/// A scheme and an authority, and perhaps a path, with no slash at the end.
#[derive(Clone, Debug, PartialEq, Eq)]
pub struct BaseUrl(pub String);

impl FromStr for BaseUrl {
    type Err = String;

    fn from_str(text: &str) -> Result<BaseUrl, String> {
        let rest = text.strip_prefix("http://").or_else(|| text.strip_prefix("https://"));
        let is_good = |rest: &str| {
            let rest = rest.trim_end_matches('/');
            !rest.is_empty() && rest.bytes().all(|byte| byte.is_ascii_graphic() && !b"?#\"<>".contains(&byte))
        };
        match rest {
            Some(rest) if is_good(rest) => Ok(BaseUrl(text.trim_end_matches('/').into())),
            _ => Err(format!("{text} is no URL, as https://queues.example.com")),
        }
    }
}

/// The name of a host without a port, or `*`.
#[derive(Clone, Debug, PartialEq, Eq)]
pub struct HostName(pub String);

impl FromStr for HostName {
    type Err = String;

    fn from_str(text: &str) -> Result<HostName, String> {
        let is_good = |byte: u8| byte.is_ascii_alphanumeric() || b".-_".contains(&byte);
        let is_name = !text.is_empty() && text.len() <= 253 && text.bytes().all(is_good);
        let named = (text == "*" || is_name).then(|| HostName(text.into()));
        named.ok_or_else(|| format!("{text} is no name of a host, without a port, and not *"))
    }
}

/// Who says no host is reached by this one.
const LOOPBACK: &str = "127.0.0.1";
const PORT: u16 = 9324;
const CONNECTIONS: u32 = 10_000;
/// The most connections, and the most long polls.
pub const MOST_CONNECTIONS: u32 = 1_000_000;
pub const MOST_THREADS: u32 = 256;
const REQUEST_MEMORY_BYTES: u64 = 256 << 20;
/// The longest request and the answer to it have to find room.
const LEAST_REQUEST_MEMORY_BYTES: usize = 64 << 20;

impl CommonOptions {
    /// What is logged, and how.
    pub fn log(&self) -> LogSettings {
        LogSettings { format: self.log.unwrap_or(LogFormat::Text), level: self.log_level.unwrap_or(LogLevel::Info) }
    }

    /// The threads that serve. The other processors are left to the programs cq and to the system: more threads serve
    /// fewer requests.
    pub fn threads(&self) -> Result<usize> {
        let processors = std::thread::available_parallelism().map_or(1, std::num::NonZeroUsize::get);
        match self.threads {
            Some(threads) => Ok(between("threads", threads, 1, MOST_THREADS)? as usize),
            None => Ok((processors / 2).max(1)),
        }
    }

    /// The address to listen on.
    pub fn host(&self) -> String {
        self.host.clone().unwrap_or_else(|| LOOPBACK.into())
    }

    /// The port to listen on.
    pub fn port(&self) -> u16 {
        self.port.unwrap_or(PORT)
    }

    /// Whether everybody is served, also from other machines.
    pub fn is_open(&self) -> bool {
        self.open.unwrap_or(false)
    }

    /// How many connections are served at once.
    pub fn connections(&self) -> Result<u32> {
        between("connections", self.connections.unwrap_or(CONNECTIONS), 1, MOST_CONNECTIONS)
    }

    /// How many bytes all requests may keep that are being served.
    pub fn request_memory(&self) -> Result<usize> {
        let bytes = self.request_memory.map_or(REQUEST_MEMORY_BYTES, |size| size.0);
        match usize::try_from(bytes) {
            Ok(bytes) if bytes >= LEAST_REQUEST_MEMORY_BYTES => Ok(bytes),
            _ => Err(Misuse("request-memory must be 64MiB or more".into()).into()),
        }
    }
}

/// Refuses a number that is out of range.
pub fn between(name: &str, number: u32, least: u32, most: u32) -> Result<u32> {
    if !(least..=most).contains(&number) {
        return Err(Misuse(format!("{name} must be {least} to {most}")).into());
    }
    Ok(number)
}

/// A file and that of its key, which are given together or not at all.
pub fn pair(first: &Option<PathBuf>, key: &Option<PathBuf>, what: &str) -> Result<Option<(PathBuf, PathBuf)>> {
    match (first.clone(), key.clone()) {
        (Some(first), Some(key)) => Ok(Some((first, key))),
        (None, None) => Ok(None),
        _ => Err(Misuse(format!("{what} and its key are given together")).into()),
    }
}

#[cfg(test)]
mod tests {
    use super::*;

    #[test]
    fn addresses() {
        let address = |host: &str, port| Ok(Address { host: host.into(), port });
        assert_eq!("9325".parse(), address("127.0.0.1", 9325));
        assert_eq!("0.0.0.0:80".parse(), address("0.0.0.0", 80));
        assert_eq!("[::1]:0".parse(), address("[::1]", 0));
        for bad in ["", "host", "host:", "1:70000"] {
            assert!(bad.parse::<Address>().is_err(), "{bad}");
        }
    }

    #[test]
    fn urls() {
        assert_eq!("https://q.example.com/".parse(), Ok(BaseUrl("https://q.example.com".into())));
        for bad in ["", "q.example.com", "ftp://q", "http://", "http://a?b", "http://a b"] {
            assert!(bad.parse::<BaseUrl>().is_err(), "{bad}");
        }
    }
}
