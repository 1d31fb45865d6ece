//! Copies of messages that are moved: how one is known from what clients send, and which messages have one.

use std::collections::HashSet;
use std::sync::{Mutex, MutexGuard, PoisonError};

use hmac::{Hmac, Mac};
use hobbychair_bytes::digits::{bytes_of_hex, hex};
use sha2::Sha256;
use uuid::Uuid;

use hobbychair_sqs::handles::Origin;

/// A deduplication id that says of which message a send is the copy. What makes it known from those of clients is made with
/// a secret of the program that has the copy.
#[derive(Clone, Debug, PartialEq, Eq)]
pub struct CopyId {
    origin: Origin,
    seal: Vec<u8>,
}

const COPY: &str = "copy-";
const SEAL_BYTES: usize = 16;

impl CopyId {
    fn seal(origin: Origin, secret: Uuid) -> Hmac<Sha256> {
        let mut mac = Hmac::<Sha256>::new_from_slice(secret.as_bytes()).expect("a key may have any length");
        mac.update(&origin.mark.to_be_bytes());
        mac.update(&origin.sequence.to_be_bytes());
        mac
    }

    /// The id of the copy of this message.
    pub fn text(origin: Origin, secret: Uuid) -> String {
        let seal = CopyId::seal(origin, secret).finalize().into_bytes();
        format!("{COPY}{:016x}{:016x}{}", origin.mark, origin.sequence, hex(&seal[..SEAL_BYTES]))
    }

    /// Reads an id that has this form.
    pub fn read(id: &str) -> Option<CopyId> {
        let bytes = bytes_of_hex(id.strip_prefix(COPY)?)?;
        let number = |place: usize| bytes.get(place..place + 8)?.try_into().map(u64::from_be_bytes).ok();
        let origin = Origin { mark: number(0)?, sequence: number(8)? };
        let seal = bytes.get(16..).filter(|seal| seal.len() == SEAL_BYTES)?.into();
        Some(CopyId { origin, seal })
    }

    /// What it is a copy of, if it was made with this secret.
    pub fn origin(&self, secret: Uuid) -> Option<Origin> {
        let seal = CopyId::seal(self.origin, secret);
        seal.verify_truncated_left(&self.seal).is_ok().then_some(self.origin)
    }
}

/// Messages that have a copy, and that may not be deleted yet.
#[derive(Default)]
pub struct Copies(Mutex<HashSet<Origin>>);

impl Copies {
    fn origins(&self) -> MutexGuard<'_, HashSet<Origin>> {
        self.0.lock().unwrap_or_else(PoisonError::into_inner)
    }

    /// The copy is there.
    pub fn mark_copied(&self, origin: Origin) {
        self.origins().insert(origin);
    }

    /// Whether it has a copy.
    pub fn has(&self, origin: Origin) -> bool {
        self.origins().contains(&origin)
    }

    /// What it is of isn't there any more.
    pub fn forget(&self, origin: Origin) {
        self.origins().remove(&origin);
    }

    /// Takes out all of them.
    pub fn take_all(&self) -> Vec<Origin> {
        self.origins().drain().collect()
    }
}

#[cfg(test)]
mod tests {
    use hobbychair_sqs::texts::DedupId;

    use super::*;

    #[test]
    fn the_id_of_a_copy_says_of_what_it_is_one_and_no_client_can_make_it() {
        let (origin, secret) = (Origin { mark: u64::MAX - 1, sequence: 12 }, Uuid::from_u128(7));
        let text = CopyId::text(origin, secret);
        assert!(DedupId::parse(&text).is_ok_and(|id| id.call_key().is_none()));
        let read = CopyId::read(&text).unwrap();
        assert_eq!((read.origin(secret), read.origin(Uuid::from_u128(8))), (Some(origin), None));
        let other = CopyId::text(Origin { sequence: 13, ..origin }, secret);
        let forged = format!("{}{}", &other[..37], &text[37..]);
        assert_eq!(CopyId::read(&forged).unwrap().origin(secret), None);
        for bad in [&text[..text.len() - 2], &text[5..], "copy-", "copy-00", &text.to_uppercase()] {
            assert_eq!(CopyId::read(bad), None, "{bad}");
        }
    }
}
