//! The certificate by which clients know the server, which can be read again while they come.

use std::fmt;
use std::path::{Path, PathBuf};
use std::sync::{Arc, PoisonError, RwLock};

use anyhow::Result;
use hobbychair_cluster::pem::{certified_key, Pem};
use rustls::server::{ClientHello, ResolvesServerCert};
use rustls::sign::CertifiedKey;
use rustls::ServerConfig;
use tokio_rustls::TlsAcceptor;

/// What TLS calls HTTP/1.1 (RFC 7301, "TLS Application-Layer Protocol Negotiation (ALPN) Protocol IDs").
const HTTP_1_1: &[u8] = b"http/1.1";

/// A certificate with its key, in two files that can be read again.
pub struct Certificate {
    certificate: PathBuf,
    key: PathBuf,
    current: Arc<CurrentCertificate>,
    config: Arc<ServerConfig>,
}

/// What new connections are shown.
struct CurrentCertificate(RwLock<Arc<CertifiedKey>>);

impl Certificate {
    /// Reads a chain of certificates, the server's own first, and its key ([`certified_key`]), both in PEM. An error is one
    /// line that names the file and what is wrong.
    pub fn read(certificate: &Path, key: &Path) -> Result<Certificate> {
        let current = Arc::new(CurrentCertificate(RwLock::new(Arc::new(read_both(certificate, key)?))));
        let config = ServerConfig::builder().with_safe_defaults().with_no_client_auth();
        let mut config = config.with_cert_resolver(current.clone());
        config.alpn_protocols = vec![HTTP_1_1.into()];
        Ok(Certificate { certificate: certificate.into(), key: key.into(), current, config: Arc::new(config) })
    }

    /// The same, where two files are named.
    pub fn read_named(files: &Option<(PathBuf, PathBuf)>) -> Result<Option<Arc<Certificate>>> {
        let Some((certificate, key)) = files else { return Ok(None) };
        Ok(Some(Arc::new(Certificate::read(certificate, key)?)))
    }

    /// Reads both files again, for connections that are made from now on. On an error the old certificate stays.
    pub fn read_again(&self) -> Result<()> {
        let read = Arc::new(read_both(&self.certificate, &self.key)?);
        *self.current.0.write().unwrap_or_else(PoisonError::into_inner) = read;
        Ok(())
    }

    /// Accepts connections by TLS 1.2 and 1.3, for HTTP/1.1 alone, with the certificate that was read last.
    pub fn acceptor(&self) -> TlsAcceptor {
        self.config.clone().into()
    }
}

impl fmt::Debug for Certificate {
    fn fmt(&self, formatter: &mut fmt::Formatter<'_>) -> fmt::Result {
        formatter.debug_struct("Certificate").field("certificate", &self.certificate).finish_non_exhaustive()
    }
}

impl ResolvesServerCert for CurrentCertificate {
    fn resolve(&self, _: ClientHello<'_>) -> Option<Arc<CertifiedKey>> {
        Some(self.0.read().unwrap_or_else(PoisonError::into_inner).clone())
    }
}

fn read_both(certificate: &Path, key: &Path) -> Result<CertifiedKey> {
    certified_key(&Pem::read(certificate)?, &Pem::read(key)?)
}

#[cfg(test)]
mod tests {
    use std::fs;
    use std::io::Cursor;

    use rustls::{ClientConfig, ProtocolVersion, RootCertStore, ServerName, SupportedProtocolVersion};
    use rustls_pemfile::Item;
    use tokio::io::{AsyncReadExt, AsyncWriteExt};
    use tokio_rustls::TlsConnector;

    use super::*;

    /// Certificates with a key, and the forms of the key (`tests/lib/tls/make_certificates.sh`).
    const PAIRS: [(&str, &str); 6] = [
        ("rsa.pem", "rsa.key"),
        ("rsa.pem", "rsa.pkcs1.key"),
        ("p256.pem", "p256.key"),
        ("p256.pem", "p256.sec1.key"),
        ("p384.pem", "p384.key"),
        ("ed25519.pem", "ed25519.key"),
    ];

    fn committed(name: &str) -> PathBuf {
        Path::new(env!("CARGO_MANIFEST_DIR")).join("../tests/lib/tls").join(name)
    }

    fn read(certificate: &str, key: &str) -> Result<Certificate> {
        Certificate::read(&committed(certificate), &committed(key))
    }

    /// The bytes of the first section of a committed file.
    fn der(name: &str) -> Vec<u8> {
        match rustls_pemfile::read_one(&mut Cursor::new(fs::read(committed(name)).unwrap())) {
            Ok(Some(Item::X509Certificate(bytes))) => bytes,
            other => panic!("{name}: {other:?}"),
        }
    }

    /// A folder of this test alone, with copies of committed files as `certificate` and `key`.
    struct Copies(PathBuf);

    impl Copies {
        fn of(certificate: &str, key: &str) -> Copies {
            let folder = std::env::temp_dir().join(format!("hobbychair-{}", uuid::Uuid::new_v4()));
            fs::create_dir(&folder).unwrap();
            let copies = Copies(folder);
            copies.put(certificate, key);
            copies
        }

        fn put(&self, certificate: &str, key: &str) {
            fs::copy(committed(certificate), self.certificate()).unwrap();
            fs::copy(committed(key), self.key()).unwrap();
        }

        fn certificate(&self) -> PathBuf {
            self.0.join("certificate")
        }

        fn key(&self) -> PathBuf {
            self.0.join("key")
        }

        fn read(&self) -> Result<Certificate> {
            Certificate::read(&self.certificate(), &self.key())
        }
    }

    impl Drop for Copies {
        fn drop(&mut self) {
            let _ = fs::remove_dir_all(&self.0);
        }
    }

    /// What a client saw of a connection.
    #[derive(Debug, PartialEq)]
    struct SeenConnection {
        certificate: Vec<u8>,
        protocol: Option<Vec<u8>>,
        version: ProtocolVersion,
    }

    async fn connect(
        acceptor: TlsAcceptor,
        versions: &[&'static SupportedProtocolVersion],
        protocols: &[&[u8]],
    ) -> std::io::Result<SeenConnection> {
        let mut roots = RootCertStore::empty();
        roots.add(&rustls::Certificate(der("authority.pem"))).unwrap();
        let config = ClientConfig::builder().with_safe_default_cipher_suites().with_safe_default_kx_groups();
        let config = config.with_protocol_versions(versions).unwrap().with_root_certificates(roots);
        let mut config = config.with_no_client_auth();
        config.alpn_protocols = protocols.iter().map(|protocol| protocol.to_vec()).collect();
        let (near, far) = tokio::io::duplex(1 << 16);
        let echo = tokio::spawn(async move {
            let mut stream = acceptor.accept(far).await?;
            let mut bytes = [0; 5];
            stream.read_exact(&mut bytes).await?;
            stream.write_all(&bytes).await?;
            stream.flush().await
        });
        let name = ServerName::try_from("localhost").unwrap();
        let mut stream = TlsConnector::from(Arc::new(config)).connect(name, near).await?;
        stream.write_all(b"hello").await?;
        stream.flush().await?;
        let mut bytes = [0; 5];
        stream.read_exact(&mut bytes).await?;
        assert_eq!(&bytes, b"hello");
        echo.await.unwrap()?;
        let (_, connection) = stream.get_ref();
        Ok(SeenConnection {
            certificate: connection.peer_certificates().unwrap()[0].0.clone(),
            protocol: connection.alpn_protocol().map(<[u8]>::to_vec),
            version: connection.protocol_version().unwrap(),
        })
    }

    #[tokio::test]
    async fn clients_connect_with_any_kind_of_key() {
        for (certificate, key) in PAIRS {
            let acceptor = read(certificate, key).unwrap().acceptor();
            for (version, expected) in [
                (&rustls::version::TLS12, ProtocolVersion::TLSv1_2),
                (&rustls::version::TLS13, ProtocolVersion::TLSv1_3),
            ] {
                let seen = connect(acceptor.clone(), &[version], &[b"h2", b"http/1.1"]).await.unwrap();
                let protocol = Some(b"http/1.1".to_vec());
                assert_eq!(
                    seen,
                    SeenConnection { certificate: der(certificate), protocol, version: expected },
                    "{key}"
                );
            }
        }
    }

    #[tokio::test]
    async fn clients_that_name_no_protocol_connect_and_those_of_http_2_alone_do_not() {
        let acceptor = read("p256.pem", "p256.key").unwrap().acceptor();
        assert_eq!(connect(acceptor.clone(), rustls::ALL_VERSIONS, &[]).await.unwrap().protocol, None);
        assert!(connect(acceptor, rustls::ALL_VERSIONS, &[b"h2"]).await.is_err());
    }

    #[tokio::test]
    async fn an_acceptor_follows_what_is_read_again() {
        let copies = Copies::of("rsa.pem", "rsa.key");
        let certificate = copies.read().unwrap();
        let acceptor = certificate.acceptor();
        let shown = || async { connect(acceptor.clone(), rustls::ALL_VERSIONS, &[]).await.unwrap().certificate };
        assert_eq!(shown().await, der("rsa.pem"));
        copies.put("p256.pem", "rsa.key");
        certificate.read_again().unwrap_err();
        assert_eq!(shown().await, der("rsa.pem"));
        copies.put("p256.pem", "p256.key");
        assert_eq!(shown().await, der("rsa.pem"));
        certificate.read_again().unwrap();
        assert_eq!(shown().await, der("p256.pem"));
        fs::remove_file(copies.key()).unwrap();
        certificate.read_again().unwrap_err();
        assert_eq!(shown().await, der("p256.pem"));
    }

    #[test]
    fn a_key_of_another_certificate_is_refused() {
        for (certificate, _) in PAIRS {
            for (other, key) in PAIRS.into_iter().filter(|(other, _)| *other != certificate) {
                let error = read(certificate, key).unwrap_err().to_string();
                assert!(error.contains("is not the key of"), "{certificate} {other} {key}: {error}");
            }
        }
    }

    #[test]
    fn a_key_of_the_same_kind_is_refused() {
        let copies = Copies::of("p256.pem", "p256.key");
        // The authority's certificate has a key on P-256 too.
        let error = Certificate::read(&committed("authority.pem"), &copies.key()).unwrap_err().to_string();
        assert!(error.contains("is not the key of"), "{error}");
    }

    #[test]
    fn faults_name_their_file_and_show_no_key() {
        let copies = Copies::of("p256.pem", "p256.key");
        let key = fs::read_to_string(copies.key()).unwrap();
        let cases: [(&str, &str); 7] = [
            ("", "key: it has no private key"),
            ("not PEM at all", "key: it has no private key"),
            (&key.replace("PRIVATE", "ENCRYPTED PRIVATE"), "key: it has no private key, or an encrypted one"),
            (&format!("{key}{key}"), "key: it has more than one private key"),
            (&key.replace("MIGH", "MIG?"), "key: it is not good PEM"),
            (&key.replace("MIGH", "MIGI"), "key: its private key is damaged or not of a kind"),
            (&key.replace("PRIVATE KEY", "CERTIFICATE"), "key: it has no private key"),
        ];
        for (text, message) in cases {
            assert_ne!(text, key);
            fs::write(copies.key(), text).unwrap();
            let error = copies.read().unwrap_err().to_string();
            assert!(error.contains(message), "{error}");
            assert!(!error.contains("MIG"), "{error}");
        }
    }

    #[test]
    fn faults_of_certificates_name_their_file() {
        let copies = Copies::of("p256.pem", "p256.key");
        let certificate = fs::read_to_string(copies.certificate()).unwrap();
        for (text, message) in [
            ("", "certificate: it has no certificate"),
            ("\0\u{1}", "certificate: it has no certificate"),
            (&fs::read_to_string(copies.key()).unwrap(), "certificate: it has no certificate"),
            (&certificate.replacen("MII", "MIJ", 1), "certificate: its first certificate can't be read"),
            (&certificate.replacen("MII", "M?I", 1), "certificate: it is not good PEM"),
        ] {
            fs::write(copies.certificate(), text).unwrap();
            let error = copies.read().unwrap_err().to_string();
            assert!(error.contains(message), "{error}");
        }
        fs::remove_file(copies.certificate()).unwrap();
        assert!(copies.read().unwrap_err().to_string().contains("certificate: No such file"));
    }

    #[test]
    fn nothing_of_a_key_is_shown() {
        let shown = format!("{:?}", read("p256.pem", "p256.key").unwrap());
        assert!(shown.starts_with("Certificate") && shown.len() < 300, "{shown}");
    }
}
