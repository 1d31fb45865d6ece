//! What a gateway is started with, by what it was told.

use std::time::Duration;

use anyhow::Result;
use hobbychair_cluster::identity::IdentityFiles;
use hobbychair_cluster::memory::Size;
use hobbychair_store::backend::{Keeper, Programs};
use hobbychair_store::journal::Files;
use hobbychair_tables::shards::Shards;
use hobbychair_tools::misuse::Misuse;

use crate::actions::{Owner, Pauses};
use crate::config::{between, pair, GatewayOptions, MOST_CONNECTIONS};
use crate::serve::GatewaySettings;

const ACCOUNT: &str = "000000000000";
const REGION: &str = "us-east-1";
const CQ_TIMEOUT_SECONDS: u32 = 30;
const LONGEST_CQ_TIMEOUT_SECONDS: u32 = 3_600;

/// What cq takes. In less than that its store may find no space beside the entries that led to it.
const LEAST_KEPT_MEBIBYTES: u64 = 96;
const MOST_KEPT_MEBIBYTES: u64 = 1 << 20;
/// What a file has before its regions (docs/JOURNAL.md).
const KEPT_HEAD_MEBIBYTES: u64 = 1;

impl GatewayOptions {
    /// What a gateway is started with. `program` finds the program cq by what was said of it.
    pub fn settings(self, program: impl FnOnce(Option<String>) -> Result<String>) -> Result<GatewaySettings> {
        let shown = pair(&self.certificate, &self.key, "a certificate")?;
        let (certificate, members) = match (shown, self.fronts_of.clone(), self.fronts_authority.clone()) {
            (certificate, None, None) => (certificate, None),
            (Some((certificate, key)), Some(cluster), authority @ Some(_)) => {
                let files = IdentityFiles { certificate: Some(certificate), key: Some(key), authority };
                (None, Some((cluster, files)))
            }
            _ => return Err(Misuse("fronts are shown a certificate, and theirs is of an authority".into()).into()),
        };
        if self.beside_node && (self.journal.is_some() || self.shards.is_some()) {
            return Err(Misuse("a gateway beside a node has no journal and no shards of its own".into()).into());
        }
        if self.journal_size.is_some() && self.journal.is_none() {
            return Err(Misuse("a size of the journal is given, and no journal".into()).into());
        }
        let peek = self.peek.unwrap_or(false);
        if peek && self.common.admin.is_none() {
            return Err(Misuse(
                "messages are to be shown by peek, and there is no address of operators (admin)".into(),
            )
            .into());
        }
        let connections = self.common.connections()?;
        let polls = between("polls", self.polls.unwrap_or(connections - connections / 10), 1, MOST_CONNECTIONS)?;
        Ok(GatewaySettings {
            host: self.common.host(),
            port: self.common.port(),
            keeper: self.keeper(program)?,
            listener: self.listener,
            only_prepares: self.only_prepare,
            beside_another: self.beside_another,
            memory: self.memory.map(|size| size.0),
            request_memory: self.common.request_memory()?,
            open: self.common.is_open(),
            credentials: self.common.credentials,
            certificate,
            members,
            url: self.url.map(|url| url.0),
            allowed_hosts: self.allowed_hosts.unwrap_or_default().into_iter().map(|name| name.0).collect(),
            owner: Owner {
                account: self.account.map_or_else(|| ACCOUNT.into(), |account| account.0),
                region: self.region.map_or_else(|| REGION.into(), |region| region.0),
            },
            connections,
            polls,
            pauses: if self.no_pauses.unwrap_or(false) { Pauses::None } else { Pauses::AsSqs },
            admin: self.common.admin,
            peek,
            queues: self.queues,
            clock_file: self.clock_file,
        })
    }

    /// What is to keep the store.
    fn keeper(&self, program: impl FnOnce(Option<String>) -> Result<String>) -> Result<Keeper> {
        let seconds = self.cq_timeout.unwrap_or(CQ_TIMEOUT_SECONDS);
        let seconds = between("cq-timeout", seconds, 1, LONGEST_CQ_TIMEOUT_SECONDS)?;
        let patience = Duration::from_secs(u64::from(seconds));
        let shards = match self.shards {
            None => Shards::ONE,
            Some(count) => Shards::new(count).ok_or_else(|| Misuse("shards must be 1 to 16".into()))?,
        };
        if self.beside_node {
            return Ok(Keeper::Chain);
        }
        let journal = match self.journal.clone() {
            Some(path) => Some(Files::new(path, shards, size_of_each(self.journal_size, shards)?)),
            None => None,
        };
        Ok(Keeper::Programs(Programs { program: program(self.cq.clone())?, patience, shards, journal }))
    }
}

/// How large each program makes its journal, in MiB, where they are so large together: so much for regions, and what is before them.
fn size_of_each(size: Option<Size>, shards: Shards) -> Result<Option<u64>> {
    let Some(Size(bytes)) = size else { return Ok(None) };
    let each = (bytes / u64::from(shards.count())) >> 20;
    if !(LEAST_KEPT_MEBIBYTES..=MOST_KEPT_MEBIBYTES).contains(&each) {
        let why = format!(
            "journal-size must be {LEAST_KEPT_MEBIBYTES}MiB or more for each program, and {MOST_KEPT_MEBIBYTES}MiB or less"
        );
        return Err(Misuse(why).into());
    }
    Ok(Some((each + KEPT_HEAD_MEBIBYTES).min(MOST_KEPT_MEBIBYTES)))
}

#[cfg(test)]
mod tests {
    use std::path::PathBuf;

    use clap::{Args, FromArgMatches};
    use hobbychair_store::cq::Making;

    use super::*;
    use crate::config::{Account, Region, MOST_THREADS};
    use crate::options_file::OptionsFile;

    /// What the options make with which a file goes on.
    fn of_file(words: &[&str], text: &str) -> Result<GatewayOptions> {
        let command = || GatewayOptions::augment_args(clap::Command::new("serve").no_binary_name(true));
        let file = OptionsFile::of(text, &command(), |name| format!("{name} is unknown")).map_err(Misuse)?;
        let given = command().try_get_matches_from(words)?;
        let words = words.iter().map(|word| word.to_string()).chain(file.words(&given));
        let mut options = GatewayOptions::from_arg_matches(&command().try_get_matches_from(words)?)?;
        options.queues = file.queues;
        Ok(options)
    }

    fn settings(options: GatewayOptions) -> Result<GatewaySettings> {
        options.settings(|named| Ok(named.unwrap_or_else(|| "cq".into())))
    }

    /// How the program at this place makes its file.
    fn making(settings: &GatewaySettings, place: usize) -> Making {
        match &settings.keeper {
            Keeper::Programs(Programs { journal: Some(files), .. }) => files.fresh(place).making,
            other => panic!("{other:?}"),
        }
    }

    #[test]
    fn a_file_gives_what_the_options_leave_out() {
        let text = "host = \"::1\"\nport = 1\nmemory = \"1MiB\"\njournal-size = \"96MiB\"\njournal = \"j\"\nadmin = 9325\nopen = true\n\
                    [[queue]]\nname = \"a.fifo\"\nattributes = { FifoQueue = \"true\" }\n[[queue]]\nname = \"b.fifo\"\n";
        let settings = settings(of_file(&["--port", "2"], text).unwrap()).unwrap();
        assert_eq!((settings.host.as_str(), settings.port, settings.open), ("::1", 2, true));
        assert_eq!((settings.memory, making(&settings, 0)), (Some(1 << 20), Making::OfSize(Some(97))));
        assert_eq!(settings.admin, Some("9325".parse().unwrap()));
        assert_eq!((settings.connections, settings.polls), (10_000, 9_000));
        let names: Vec<_> = settings.queues.iter().map(|queue| queue.name.as_str()).collect();
        assert_eq!(names, ["a.fifo", "b.fifo"]);
    }

    #[test]
    fn a_gateway_beside_a_node_shows_the_nodes_certificate_to_fronts() {
        let file = |name: &str| Some(PathBuf::from(name));
        let alone = GatewayOptions { certificate: file("c"), key: file("k"), ..GatewayOptions::default() };
        let (fronts_of, fronts_authority) = (Some("c".into()), file("a"));
        let beside = GatewayOptions { beside_node: true, fronts_of, fronts_authority, ..alone.clone() };
        let told = settings(beside.clone()).unwrap();
        let (cluster, files) = told.members.unwrap();
        assert_eq!((cluster.as_str(), files.authority, told.certificate), ("c", file("a"), None));
        // Another one shows its certificate to all clients, and has no authority.
        let told = settings(alone.clone()).unwrap();
        assert!(told.members.is_none() && told.certificate == Some(("c".into(), "k".into())));
        let shows_nothing = GatewayOptions { certificate: None, key: None, ..beside.clone() };
        let trusts_nobody = GatewayOptions { fronts_authority: None, ..beside.clone() };
        let halves = [GatewayOptions { key: None, ..alone }, GatewayOptions { key: None, ..beside }];
        for bad in halves.into_iter().chain([shows_nothing, trusts_nobody]) {
            assert!(settings(bad).unwrap_err().is::<Misuse>());
        }
    }

    #[test]
    fn the_example_is_read_with_each_of_its_lines() {
        let example = include_str!("../../../packaging/hobbychair.toml");
        assert!(of_file(&[], example).unwrap().queues.is_empty());
        let whole: Vec<_> = example
            .lines()
            .map(|line| line.strip_prefix('#').filter(|rest| !rest.starts_with(' ')).unwrap_or(line))
            .collect();
        let options = of_file(&["--journal", "journal"], &whole.join("\n")).unwrap();
        assert_eq!(options.queues.len(), 1);
        assert_eq!(options.account, Some(Account("000000000000".into())));
        let settings = settings(options).unwrap();
        assert_eq!((settings.host.as_str(), settings.port), ("127.0.0.1", 9324));
    }

    #[test]
    fn what_cannot_be_meant_is_refused() {
        let given = GatewayOptions::default;
        let alone = GatewayOptions { key: Some("k".into()), ..given() };
        let mut none = given();
        none.common.connections = Some(0);
        let size = GatewayOptions { journal_size: Some(Size(1)), ..given() };
        let many = GatewayOptions { shards: Some(17), ..given() };
        let mut little = given();
        little.common.request_memory = Some(Size(1 << 20));
        let peek = GatewayOptions { peek: Some(true), ..given() };
        let (journal, shards) = (Some(PathBuf::from("a")), Some(2));
        let small = GatewayOptions { journal, shards, journal_size: Some(Size(191 << 20)), ..given() };
        let kept = GatewayOptions { journal_size: Some(Size(192 << 20)), ..small.clone() };
        assert_eq!(making(&settings(kept).unwrap(), 1), Making::OfSize(Some(97)));
        for bad in [alone, none, size, small, many, little, peek] {
            assert!(settings(bad).unwrap_err().is::<Misuse>());
        }
        for bad in [0, MOST_THREADS + 1, u32::MAX] {
            let mut threads = given();
            threads.common.threads = Some(bad);
            assert!(threads.common.threads().unwrap_err().is::<Misuse>());
            let timeout = GatewayOptions { cq_timeout: Some(bad.wrapping_mul(100)), ..given() };
            assert!(settings(timeout).unwrap_err().is::<Misuse>());
        }
        let polls = GatewayOptions { polls: Some(u32::MAX), ..given() };
        assert!(settings(polls).unwrap_err().is::<Misuse>());
        for bad in ["", "us east", "a:b", "ü", &"x".repeat(65)] {
            assert!(bad.parse::<Region>().is_err(), "{bad}");
        }
        assert!(given().common.threads().unwrap() >= 1);
    }
}
