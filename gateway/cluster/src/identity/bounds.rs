//! What is looked at of the certificates that somebody shows, before any of them is verified.
//!
//! Whoever reaches a port shows what he likes, and it's verified before he is known. webpki 0.22.0 tries each way from a
//! certificate over those that come with it to the authority's, so that the time grows with the factorial of their number
//! (RUSTSEC-2023-0052). On each way it compares all names with all constraints on names, ahead of any signature; and what it
//! takes for constraints isn't what the standard has (RFC 5280, 4.2.1.10), so that no good certificate has some. A node has one
//! thread: nobody else is heard meanwhile. So what is too much is refused by its number and its bytes alone.

use std::sync::Arc;
use std::time::SystemTime;

use memchr::memmem;
use rustls::client::{ServerCertVerified, ServerCertVerifier, WebPkiVerifier};
use rustls::server::{AllowAnyAuthenticatedClient, ClientCertVerified, ClientCertVerifier};
use rustls::{Certificate, DistinguishedNames, Error, RootCertStore, ServerName};

/// A certificate comes with so many others at most: those between it and the authority's.
const MOST_OTHERS: usize = 2;

/// All of them have so many bytes at most. Three with RSA keys of 4096 bits have some 5,000.
const MOST_BYTES: usize = 16 << 10;

/// The name of constraints on names, as it stands in a certificate (RFC 5280, 4.2.1.10).
const CONSTRAINTS: &[u8] = &[6, 3, 0x55, 0x1d, 0x1e];

/// Why nobody looks at a certificate that comes with these others, if nobody does.
pub fn refusal(own: &Certificate, others: &[Certificate]) -> Option<String> {
    let bytes: usize = [own].into_iter().chain(others).map(|one| one.0.len()).sum();
    if others.len() > MOST_OTHERS {
        return Some(format!("it comes with {} others, and at most {MOST_OTHERS} are looked at", others.len()));
    }
    if bytes > MOST_BYTES {
        return Some(format!("it and its others have {bytes} bytes, and at most {MOST_BYTES} are looked at"));
    }
    let has_constraints = |one: &Certificate| memmem::find(&one.0, CONSTRAINTS).is_some();
    others.iter().any(has_constraints).then(|| "one that comes with it constrains names, which isn't supported".into())
}

fn test(own: &Certificate, others: &[Certificate]) -> Result<(), Error> {
    refusal(own, others).map_or(Ok(()), |why| Err(Error::InvalidCertificateData(why)))
}

/// Takes clients whose certificates these authorities have signed.
pub struct Clients(Arc<dyn ClientCertVerifier>);

impl Clients {
    pub fn of(roots: RootCertStore) -> Arc<Clients> {
        Arc::new(Clients(AllowAnyAuthenticatedClient::new(roots)))
    }
}

impl ClientCertVerifier for Clients {
    fn offer_client_auth(&self) -> bool {
        self.0.offer_client_auth()
    }

    fn client_auth_mandatory(&self) -> Option<bool> {
        self.0.client_auth_mandatory()
    }

    fn client_auth_root_subjects(&self) -> Option<DistinguishedNames> {
        self.0.client_auth_root_subjects()
    }

    fn verify_client_cert(
        &self,
        own: &Certificate,
        others: &[Certificate],
        now: SystemTime,
    ) -> Result<ClientCertVerified, Error> {
        test(own, others)?;
        self.0.verify_client_cert(own, others, now)
    }
}

/// Takes servers whose certificates these authorities have signed.
pub struct Servers(WebPkiVerifier);

impl Servers {
    pub fn of(roots: RootCertStore) -> Arc<Servers> {
        Arc::new(Servers(WebPkiVerifier::new(roots, None)))
    }
}

impl ServerCertVerifier for Servers {
    fn verify_server_cert(
        &self,
        own: &Certificate,
        others: &[Certificate],
        name: &ServerName,
        timestamps: &mut dyn Iterator<Item = &[u8]>,
        ocsp: &[u8],
        now: SystemTime,
    ) -> Result<ServerCertVerified, Error> {
        test(own, others)?;
        self.0.verify_server_cert(own, others, name, timestamps, ocsp, now)
    }

    fn request_scts(&self) -> bool {
        self.0.request_scts()
    }
}
