//! The signature over a canonical request (IAM User Guide, "Create a signed AWS API request").

use hmac::{Hmac, Mac};
use hobbychair_bytes::digits::{bytes_of_hex, hex};
use sha2::{Digest, Sha256};

use super::claim::{Claim, Scope, ALGORITHM};
use super::file::Secret;

/// A key that is made of a secret for one day, region and service.
#[derive(Clone)]
pub struct SigningKey([u8; 32]);

impl SigningKey {
    pub fn derive(secret: &Secret, scope: &Scope) -> SigningKey {
        let start = [b"AWS4", secret.as_bytes()].concat();
        let parts = [&scope.day, &scope.region, &scope.service, &scope.terminator];
        let key = parts.iter().fold(start, |key, part| hmac(&key, part.as_bytes()).finalize().into_bytes().to_vec());
        let mut bytes = [0; 32];
        bytes.copy_from_slice(&key);
        SigningKey(bytes)
    }

    /// Whether a signature of 64 hex digits in lower case is right. Takes the same time wherever it is wrong.
    pub fn is_right(&self, text: &str, signature: &str) -> bool {
        let is_right = |bytes: Vec<u8>| hmac(&self.0, text.as_bytes()).verify_slice(&bytes).is_ok();
        bytes_of_hex(signature).is_some_and(is_right)
    }
}

/// The text over which a signature is made.
pub fn string_to_sign(claim: &Claim, canonical: &[u8]) -> String {
    let Scope { day, region, service, terminator } = &claim.scope;
    let hash = hex(&Sha256::digest(canonical));
    format!("{ALGORITHM}\n{}\n{day}/{region}/{service}/{terminator}\n{hash}", claim.moment)
}

fn hmac(key: &[u8], data: &[u8]) -> Hmac<Sha256> {
    let mut mac = Hmac::<Sha256>::new_from_slice(key).expect("a key may have any length");
    mac.update(data);
    mac
}
