//! What `hobbychair front` is told, and what a front is started with by that.

use std::path::PathBuf;

use anyhow::Result;
use clap::Args;
use hobbychair_cluster::identity::IdentityFiles;
use hobbychair_tools::misuse::Misuse;

use super::FrontSettings;
use crate::config::{pair, CommonOptions};

/// The options of `front`.
#[derive(Args, Clone, Debug, Default)]
pub struct FrontOptions {
    /// The name of the cluster
    #[arg(long, value_name = "NAME", env = "HOBBYCHAIR_CLUSTER")]
    pub cluster: Option<String>,
    /// The members of the cluster's etcd
    #[arg(long, value_name = "URL,..", value_delimiter = ',', env = "HOBBYCHAIR_ETCD")]
    pub etcd: Option<Vec<String>>,
    /// What the front shows to the cluster, where the cluster has certificates: a certificate in PEM
    #[arg(long, value_name = "FILE", env = "HOBBYCHAIR_CERTIFICATE")]
    pub certificate: Option<PathBuf>,
    /// The private key of that, in PEM
    #[arg(long, value_name = "FILE", env = "HOBBYCHAIR_KEY")]
    pub key: Option<PathBuf>,
    /// The certificate of the cluster's authority, in PEM
    #[arg(long, value_name = "FILE", env = "HOBBYCHAIR_AUTHORITY")]
    pub authority: Option<PathBuf>,
    /// Speak TLS to clients, with this chain of certificates in PEM
    #[arg(long, value_name = "FILE", env = "HOBBYCHAIR_TLS_CERTIFICATE")]
    pub tls_certificate: Option<PathBuf>,
    /// The private key of that chain, in PEM
    #[arg(long, value_name = "FILE", env = "HOBBYCHAIR_TLS_KEY")]
    pub tls_key: Option<PathBuf>,
    #[command(flatten)]
    pub common: CommonOptions,
}

impl FrontOptions {
    /// What a front is started with.
    pub fn settings(self) -> Result<FrontSettings> {
        let (Some(cluster), Some(etcd)) = (self.cluster, self.etcd) else {
            let why = "a front is told which cluster it is of: --cluster and --etcd are given together";
            return Err(Misuse(why.into()).into());
        };
        let files = IdentityFiles { certificate: self.certificate, key: self.key, authority: self.authority };
        if [&files.certificate, &files.key, &files.authority].into_iter().flatten().count() % 3 != 0 {
            let why = "a front's certificate, its key and the cluster's authority are given together";
            return Err(Misuse(why.into()).into());
        }
        Ok(FrontSettings {
            cluster,
            etcd,
            files,
            tls: pair(&self.tls_certificate, &self.tls_key, "a certificate for TLS")?,
            host: self.common.host(),
            port: self.common.port(),
            open: self.common.is_open(),
            connections: self.common.connections()?,
            request_memory: self.common.request_memory()?,
            credentials: self.common.credentials,
            admin: self.common.admin,
        })
    }
}

#[cfg(test)]
mod tests {
    use super::*;

    fn options() -> FrontOptions {
        let etcd = Some(vec!["http://127.0.0.1:2379".into()]);
        FrontOptions { cluster: Some("c".into()), etcd, ..FrontOptions::default() }
    }

    fn with_files(options: FrontOptions) -> FrontOptions {
        let file = |name: &str| Some(PathBuf::from(name));
        FrontOptions { certificate: file("c"), key: file("k"), authority: file("a"), ..options }
    }

    #[test]
    fn a_front_is_told_which_cluster_it_is_of() {
        let front = options().settings().unwrap();
        assert_eq!(
            (front.cluster.as_str(), front.etcd.len(), front.host.as_str(), front.port),
            ("c", 1, "127.0.0.1", 9324)
        );
        assert_eq!((front.open, front.connections, front.request_memory), (false, 10_000, 256 << 20));
        assert!(front.files.certificate.is_none() && front.tls.is_none());
        for bad in [FrontOptions { cluster: None, ..options() }, FrontOptions { etcd: None, ..options() }] {
            assert!(bad.settings().unwrap_err().is::<Misuse>());
        }
    }

    #[test]
    fn its_certificates_are_given_whole() {
        let shown = with_files(options()).settings().unwrap().files;
        assert!(shown.certificate.is_some() && shown.key.is_some() && shown.authority.is_some());
        let lacks = |change: fn(&mut FrontOptions)| {
            let mut options = with_files(options());
            options.tls_certificate = Some("t".into());
            options.tls_key = Some("u".into());
            assert!(options.clone().settings().is_ok());
            change(&mut options);
            options.settings().unwrap_err().is::<Misuse>()
        };
        assert!(lacks(|options| options.authority = None) && lacks(|options| options.key = None));
        assert!(lacks(|options| options.certificate = None));
        assert!(lacks(|options| options.tls_certificate = None) && lacks(|options| options.tls_key = None));
    }

    #[test]
    fn what_cannot_be_meant_is_refused() {
        let refuses = |change: fn(&mut CommonOptions)| {
            let mut options = options();
            change(&mut options.common);
            options.settings().unwrap_err().is::<Misuse>()
        };
        assert!(refuses(|common| common.connections = Some(0)));
        assert!(refuses(|common| common.request_memory = Some("1MiB".parse().unwrap())));
    }
}
