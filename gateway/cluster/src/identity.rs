//! What a process of a cluster is known by, and knows others by: its certificate and the cluster's authority.
//!
//! What a certificate is for stands in it as a name, `ROLE.CLUSTER.hobbychair.internal`, which TLS verifies as it does any
//! other: so one of another cluster, or of another role, isn't taken. Which process of a role it is of, its fingerprint says,
//! which stands beside the number of a server in etcd.

mod bounds;

use std::fmt;
use std::io;
use std::path::PathBuf;
use std::sync::Arc;
use std::time::{Duration, SystemTime};

use anyhow::{anyhow, bail, Result};
use clap::{Args, ValueEnum};
use rustls::client::{NoClientSessionStorage, ResolvesClientCert};
use rustls::server::{ClientHello, NoServerSessionStorage, ResolvesServerCert};
use rustls::sign::CertifiedKey;
use rustls::{Certificate, ClientConfig, RootCertStore, ServerConfig, ServerName, SignatureScheme};
use serde::{Deserialize, Serialize};
use sha2::{Digest, Sha256};
use tokio::net::TcpStream;
use tokio::time::sleep;
use tokio_rustls::{client, server, TlsAcceptor, TlsConnector};
use webpki::{DnsNameRef, EndEntityCert, SignatureAlgorithm, Time, TrustAnchor};

use crate::pem::{certified_key, Pem};

/// Behind the cluster's name. This domain is nobody's.
pub const DOMAIN: &str = "hobbychair.internal";

/// A part of a name of hosts isn't longer.
const LONGEST_LABEL_BYTES: usize = 63;

const DAY: Duration = Duration::from_secs(24 * 60 * 60);

/// An end that comes in this time is told of.
const SOON: Duration = Duration::from_secs(14 * DAY.as_secs());

/// What a certificate is for.
#[derive(Clone, Copy, Debug, PartialEq, Eq, ValueEnum)]
pub enum Role {
    /// A node, and the gateway beside it
    Node,
    /// A candidate for the master
    Master,
    /// A front
    Front,
    /// A member of etcd
    Etcd,
}

impl Role {
    /// The name that stands in certificates of this role.
    pub fn name(self, cluster: &str) -> String {
        format!("{self}.{cluster}.{DOMAIN}")
    }
}

impl fmt::Display for Role {
    fn fmt(&self, out: &mut fmt::Formatter<'_>) -> fmt::Result {
        out.write_str(match self {
            Role::Node => "node",
            Role::Master => "master",
            Role::Front => "front",
            Role::Etcd => "etcd",
        })
    }
}

/// The SHA-256 of a certificate. As a text it has 64 digits.
#[derive(Clone, Copy, PartialEq, Eq, Serialize, Deserialize)]
#[serde(try_from = "String", into = "String")]
pub struct Fingerprint([u8; 32]);

impl Fingerprint {
    pub fn of(certificate: &Certificate) -> Fingerprint {
        Fingerprint(Sha256::digest(&certificate.0).into())
    }
}

impl fmt::Display for Fingerprint {
    fn fmt(&self, out: &mut fmt::Formatter<'_>) -> fmt::Result {
        self.0.iter().try_for_each(|byte| write!(out, "{byte:02x}"))
    }
}

impl fmt::Debug for Fingerprint {
    fn fmt(&self, out: &mut fmt::Formatter<'_>) -> fmt::Result {
        write!(out, "{self}")
    }
}

impl From<Fingerprint> for String {
    fn from(fingerprint: Fingerprint) -> String {
        fingerprint.to_string()
    }
}

impl TryFrom<String> for Fingerprint {
    type Error = String;

    fn try_from(text: String) -> Result<Fingerprint, String> {
        let mut bytes = [0; 32];
        let is_good = text.len() == 64 && text.bytes().all(|digit| digit.is_ascii_hexdigit());
        for (place, byte) in bytes.iter_mut().enumerate().filter(|_| is_good) {
            *byte = u8::from_str_radix(&text[2 * place..2 * place + 2], 16).map_err(|error| error.to_string())?;
        }
        is_good.then_some(Fingerprint(bytes)).ok_or_else(|| format!("{text} is no fingerprint"))
    }
}

/// The files that make an identity; none where there are no certificates.
#[derive(Args, Clone, Debug, Default)]
pub struct IdentityFiles {
    /// The certificate of this process, in PEM
    #[arg(long, value_name = "FILE", requires = "key", requires = "authority")]
    pub certificate: Option<PathBuf>,
    /// The private key of the certificate, in PEM
    #[arg(long, value_name = "FILE", requires = "certificate")]
    pub key: Option<PathBuf>,
    /// The certificate of the cluster's authority, in PEM
    #[arg(long, value_name = "FILE", requires = "certificate")]
    pub authority: Option<PathBuf>,
}

impl IdentityFiles {
    /// What they make for that cluster, if there are any. The certificate has to be of one of these roles; of any role where
    /// none is said.
    pub fn identity(&self, cluster: &str, roles: &[Role]) -> Result<Option<Arc<Identity>>> {
        let (certificate, key, authority) = match (&self.certificate, &self.key, &self.authority) {
            (Some(certificate), Some(key), Some(authority)) => (certificate, key, authority),
            (None, None, None) => return Ok(None),
            _ => bail!("a certificate, its key and the cluster's authority are given together"),
        };
        let pems =
            Pems { certificate: Pem::read(certificate)?, key: Pem::read(key)?, authority: Pem::read(authority)? };
        let identity = Identity::new(cluster, pems)?;
        identity.test_own(roles).map_err(|why| anyhow!("{}: {why}", certificate.display()))?;
        Ok(Some(Arc::new(identity)))
    }
}

/// What the files of an identity had when they were read.
#[derive(Clone)]
pub struct Pems {
    pub certificate: Pem,
    pub key: Pem,
    pub authority: Pem,
}

/// What a process is known by, and knows others by. It stays as it was read: a process whose certificate is to be another one
/// is started anew.
pub struct Identity {
    cluster: String,
    own: Arc<CertifiedKey>,
    /// The certificates of the authority.
    authority: Vec<Certificate>,
    client: Arc<ClientConfig>,
    server: Arc<ServerConfig>,
    pub pems: Pems,
}

/// Who is at the other end, by its certificate, which the authority has signed.
#[derive(Clone, Debug)]
pub struct PeerCertificate {
    certificate: Certificate,
    cluster: String,
}

/// The one certificate that is shown.
struct Own(Arc<CertifiedKey>);

impl ResolvesServerCert for Own {
    fn resolve(&self, _: ClientHello<'_>) -> Option<Arc<CertifiedKey>> {
        Some(self.0.clone())
    }
}

impl ResolvesClientCert for Own {
    fn resolve(&self, _: &[&[u8]], _: &[SignatureScheme]) -> Option<Arc<CertifiedKey>> {
        Some(self.0.clone())
    }

    fn has_certs(&self) -> bool {
        true
    }
}

impl Identity {
    fn new(cluster: &str, pems: Pems) -> Result<Identity> {
        test_cluster(cluster)?;
        let own = Arc::new(certified_key(&pems.certificate, &pems.key)?);
        let authority = pems.authority.certificates()?;
        let mut roots = RootCertStore::empty();
        for certificate in &authority {
            roots.add(certificate).map_err(|error| anyhow!("the authority's certificate can't be used: {error}"))?;
        }
        // Each connection is verified by itself: none goes on from an earlier one.
        let client = ClientConfig::builder().with_safe_defaults();
        let client = client.with_custom_certificate_verifier(bounds::Servers::of(roots.clone()));
        let mut client = client.with_client_cert_resolver(Arc::new(Own(own.clone())));
        client.session_storage = Arc::new(NoClientSessionStorage {});
        let server = ServerConfig::builder().with_safe_defaults();
        let server = server.with_client_cert_verifier(bounds::Clients::of(roots));
        let mut server = server.with_cert_resolver(Arc::new(Own(own.clone())));
        server.session_storage = Arc::new(NoServerSessionStorage {});
        let (client, server) = (Arc::new(client), Arc::new(server));
        Ok(Identity { cluster: cluster.into(), own, authority, client, server, pems })
    }

    /// Whether others would take the own certificate: better said at the start than by each of them.
    fn test_own(&self, roles: &[Role]) -> Result<()> {
        let (first, others) = self.own.cert.split_first().ok_or_else(|| anyhow!("it isn't there"))?;
        if let Some(why) = bounds::refusal(first, others) {
            bail!("others would refuse it: {why}");
        }
        let own = self.peer(first);
        self.verify_own(SystemTime::now(), own.is(Role::Node)).map_err(said_of_own)?;
        if roles.is_empty() || roles.iter().any(|role| own.is(*role)) {
            return Ok(());
        }
        let names: Vec<String> = roles.iter().map(|role| role.name(&self.cluster)).collect();
        bail!("it isn't for this: it lacks the name {}", names.join(" or "))
    }

    /// Whether others take the own certificate at a moment, as a client's, and a server's too.
    fn verify_own(&self, moment: SystemTime, is_server: bool) -> Result<(), webpki::Error> {
        let chain: Vec<&[u8]> = self.own.cert.iter().map(|one| one.0.as_slice()).collect();
        let (own, between) = chain.split_first().ok_or(webpki::Error::BadDer)?;
        let own = EndEntityCert::try_from(*own)?;
        let anchors = self.authority.iter().map(|one| TrustAnchor::try_from_cert_der(&one.0));
        let anchors = anchors.collect::<Result<Vec<_>, _>>()?;
        let moment = Time::try_from(moment).map_err(|_| webpki::Error::BadDerTime)?;
        if is_server {
            let anchors = webpki::TlsServerTrustAnchors(&anchors);
            own.verify_is_valid_tls_server_cert(ALGORITHMS, &anchors, between, moment)?;
        }
        own.verify_is_valid_tls_client_cert(ALGORITHMS, &webpki::TlsClientTrustAnchors(&anchors), between, moment)
    }

    /// Whether the own certificate has expired so much later.
    fn has_expired_in(&self, time: Duration) -> bool {
        self.verify_own(SystemTime::now() + time, false) == Err(webpki::Error::CertExpired)
    }

    /// Logs it once a day, for good, where the own certificate expires soon: a process is to be started with another one.
    pub async fn tell_of_end(self: Arc<Identity>) {
        loop {
            if self.has_expired_in(Duration::ZERO) {
                tracing::error!("this process's certificate has expired: no connection comes about any more");
            } else if self.has_expired_in(SOON) {
                tracing::warn!("this process's certificate expires within {} days", SOON.as_secs() / DAY.as_secs());
            }
            sleep(DAY).await;
        }
    }

    fn peer(&self, certificate: &Certificate) -> PeerCertificate {
        PeerCertificate { certificate: certificate.clone(), cluster: self.cluster.clone() }
    }

    /// By which others know the own certificate.
    pub fn fingerprint(&self) -> Fingerprint {
        Fingerprint::of(&self.own.cert[0])
    }

    /// Speaks TLS to one of that role, by a connection that was made. Where a fingerprint is wanted, it is verified before
    /// anything is said.
    pub async fn connect(
        &self,
        stream: TcpStream,
        role: Role,
        wanted: Option<Fingerprint>,
    ) -> io::Result<client::TlsStream<TcpStream>> {
        let name =
            ServerName::try_from(role.name(&self.cluster).as_str()).map_err(|error| refused(error.to_string()))?;
        let stream = TlsConnector::from(self.client.clone()).connect(name, stream).await.map_err(said)?;
        let shown = stream.get_ref().1.peer_certificates().and_then(<[Certificate]>::first).map(Fingerprint::of);
        if wanted.is_some() && shown != wanted {
            return Err(refused("it shows another certificate than was registered".into()));
        }
        Ok(stream)
    }

    /// Speaks TLS to whoever made the connection, and has a certificate of the authority.
    pub async fn accept(&self, stream: TcpStream) -> io::Result<(server::TlsStream<TcpStream>, PeerCertificate)> {
        let stream = TlsAcceptor::from(self.server.clone()).accept(stream).await.map_err(said)?;
        let shown = stream.get_ref().1.peer_certificates().and_then(<[Certificate]>::first);
        let peer = shown.map(|certificate| self.peer(certificate));
        Ok((stream, peer.ok_or_else(|| refused("it shows no certificate".into()))?))
    }
}

impl PeerCertificate {
    /// Whether the certificate is one of that role, of the cluster.
    pub fn is(&self, role: Role) -> bool {
        let name = role.name(&self.cluster);
        let (own, name) = (EndEntityCert::try_from(&self.certificate.0[..]), DnsNameRef::try_from_ascii_str(&name));
        own.is_ok_and(|own| name.is_ok_and(|name| own.verify_is_valid_for_dns_name(name).is_ok()))
    }

    /// Nothing where it is one of these roles, or else why it is refused.
    pub fn test(&self, roles: &[Role]) -> Result<(), String> {
        if roles.iter().any(|role| self.is(*role)) {
            return Ok(());
        }
        let roles: Vec<String> = roles.iter().map(ToString::to_string).collect();
        Err(format!("its certificate is none of a {} of cluster {}", roles.join(" or a "), self.cluster))
    }

    pub fn fingerprint(&self) -> Fingerprint {
        Fingerprint::of(&self.certificate)
    }
}

/// A cluster's name is a part of names of hosts, where large letters are like small ones.
pub fn test_cluster(name: &str) -> Result<()> {
    let is_good = |letter: char| letter.is_ascii_lowercase() || letter.is_ascii_digit() || letter == '-';
    let has_ends = !name.starts_with('-') && !name.ends_with('-');
    if name.is_empty() || name.len() > LONGEST_LABEL_BYTES || !has_ends || !name.chars().all(is_good) {
        bail!(
            "{name:?} is no name of a cluster with certificates: that has 1 to {LONGEST_LABEL_BYTES} small letters, digits and \
             hyphens, and no hyphen at an end"
        );
    }
    Ok(())
}

fn refused(why: String) -> io::Error {
    io::Error::new(io::ErrorKind::InvalidData, why)
}

fn said_of_own(error: webpki::Error) -> anyhow::Error {
    match error {
        webpki::Error::CertExpired => anyhow!("it has expired"),
        webpki::Error::CertNotValidYet => anyhow!("it isn't valid yet"),
        webpki::Error::UnknownIssuer => anyhow!("the authority hasn't signed it"),
        error => anyhow!("it isn't valid: {error}"),
    }
}

/// Why no TLS came about. The end of the connection stays what it was.
fn said(error: io::Error) -> io::Error {
    use rustls::Error;
    let why = match error.get_ref().and_then(|inner| inner.downcast_ref::<Error>()) {
        None => return error,
        Some(Error::NoCertificatesPresented) => "it shows no certificate".into(),
        Some(Error::InvalidCertificateSignature) => "its certificate is of another authority".into(),
        Some(Error::InvalidCertificateData(what)) => said_of_certificate(what),
        Some(Error::AlertReceived(alert)) => format!("the other end ends TLS: {alert:?}"),
        Some(Error::CorruptMessage) => "it doesn't speak TLS".into(),
        Some(other) => format!("no TLS comes about: {other}"),
    };
    refused(why)
}

fn said_of_certificate(what: &str) -> String {
    let known = [
        ("CertExpired", "its certificate has expired"),
        ("CertNotValidYet", "its certificate isn't valid yet"),
        ("CertNotValidForName", "its certificate is of another role or of another cluster"),
        ("UnknownIssuer", "its certificate is of another authority"),
    ];
    let found = known.into_iter().find(|(error, _)| what.ends_with(error));
    found.map_or_else(|| format!("its certificate isn't taken: {what}"), |(_, said)| said.into())
}

/// All that are supported.
static ALGORITHMS: &[&SignatureAlgorithm] = &[
    &webpki::ECDSA_P256_SHA256,
    &webpki::ECDSA_P256_SHA384,
    &webpki::ECDSA_P384_SHA256,
    &webpki::ECDSA_P384_SHA384,
    &webpki::ED25519,
    &webpki::RSA_PKCS1_2048_8192_SHA256,
    &webpki::RSA_PKCS1_2048_8192_SHA384,
    &webpki::RSA_PKCS1_2048_8192_SHA512,
    &webpki::RSA_PKCS1_3072_8192_SHA384,
];

#[cfg(test)]
mod tests;
