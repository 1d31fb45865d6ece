//! Certificates and keys in files of PEM.

use std::fs;
use std::path::{Path, PathBuf};
use std::sync::Arc;

use anyhow::{anyhow, bail, Result};
use rustls::sign::{any_supported_type, CertifiedKey, SigningKey};
use rustls::{Certificate, PrivateKey, SignatureScheme};
use rustls_pemfile::Item;
use webpki::{EndEntityCert, SignatureAlgorithm};

/// A file in PEM. What stands around its sections is passed over.
#[derive(Clone)]
pub struct Pem {
    path: PathBuf,
    text: Vec<u8>,
}

impl Pem {
    /// Reads the file. An error is one line that names it, as all errors here are.
    pub fn read(path: &Path) -> Result<Pem> {
        let text = fs::read(path).map_err(|error| anyhow!("{}: {error}", path.display()))?;
        Ok(Pem { path: path.into(), text })
    }

    /// The bytes of the file.
    pub fn text(&self) -> &[u8] {
        &self.text
    }

    /// Its certificates, at least one.
    pub fn certificates(&self) -> Result<Vec<Certificate>> {
        let found: Vec<_> = self.items()?.into_iter().filter_map(certificate_of).collect();
        if found.is_empty() {
            bail!("{}: it has no certificate", self.path.display());
        }
        Ok(found)
    }

    fn items(&self) -> Result<Vec<Item>> {
        // The reason could show a piece of a key.
        rustls_pemfile::read_all(&mut self.text.as_slice())
            .map_err(|_| anyhow!("{}: it is not good PEM", self.path.display()))
    }

    fn signing_key(&self) -> Result<Arc<dyn SigningKey>> {
        let path = self.path.display();
        let keys: Vec<PrivateKey> = self.items()?.into_iter().filter_map(key_of).collect();
        match keys.as_slice() {
            [] => bail!("{path}: it has no private key, or an encrypted one"),
            [key] => any_supported_type(key).map_err(|_| {
                let kinds = "RSA of 2048 to 4096 bits, ECDSA on P-256 or P-384, or Ed25519";
                anyhow!("{path}: its private key is damaged or not of a kind that is supported ({kinds})")
            }),
            _ => bail!("{path}: it has more than one private key"),
        }
    }
}

/// A chain of certificates, the own one first, and its key. The key is RSA of 2048 to 4096 bits, ECDSA on P-256 or P-384, or
/// Ed25519, in PKCS#8, PKCS#1 or SEC1, and not encrypted. A key that isn't the certificate's is an error.
pub fn certified_key(certificate: &Pem, key: &Pem) -> Result<CertifiedKey> {
    let chain = certificate.certificates()?;
    let path = certificate.path.display();
    let own = EndEntityCert::try_from(chain[0].0.as_slice())
        .map_err(|error| anyhow!("{path}: its first certificate can't be read: {error}"))?;
    let signing = key.signing_key()?;
    if !is_key_of(signing.as_ref(), &own) {
        bail!("{} is not the key of {path}", key.path.display());
    }
    Ok(CertifiedKey::new(chain, signing))
}

fn certificate_of(item: Item) -> Option<Certificate> {
    match item {
        Item::X509Certificate(bytes) => Some(Certificate(bytes)),
        _ => None,
    }
}

fn key_of(item: Item) -> Option<PrivateKey> {
    match item {
        Item::RSAKey(bytes) | Item::PKCS8Key(bytes) | Item::ECKey(bytes) => Some(PrivateKey(bytes)),
        _ => None,
    }
}

/// Whether what a key signs is verified by a certificate.
fn is_key_of(key: &dyn SigningKey, certificate: &EndEntityCert<'_>) -> bool {
    const TEXT: &[u8] = b"whose key is this";
    SCHEMES.iter().any(|(scheme, algorithm)| {
        let signature = key.choose_scheme(&[*scheme]).and_then(|signer| signer.sign(TEXT).ok());
        signature.is_some_and(|signature| certificate.verify_signature(algorithm, TEXT, &signature).is_ok())
    })
}

/// One scheme of signatures for each kind of key, and how it is verified.
const SCHEMES: [(SignatureScheme, &SignatureAlgorithm); 4] = [
    (SignatureScheme::RSA_PKCS1_SHA256, &webpki::RSA_PKCS1_2048_8192_SHA256),
    (SignatureScheme::ECDSA_NISTP256_SHA256, &webpki::ECDSA_P256_SHA256),
    (SignatureScheme::ECDSA_NISTP384_SHA384, &webpki::ECDSA_P384_SHA384),
    (SignatureScheme::ED25519, &webpki::ED25519),
];
