//! The receipt handles that clients see, and the marks of queues that stand in them.

use std::hash::Hasher;

use hobbychair_bytes::values::Receipt;
use serde::{Deserialize, Serialize};
use siphasher::sip::SipHasher24;
use uuid::Uuid;

use crate::errors::SqsError;

/// The mark of a queue: random, and another one for each creation of a name.
#[derive(Clone, Copy, Debug, PartialEq, Eq, Hash, PartialOrd, Ord)]
pub struct Mark(pub u64);

/// Which message a copy is of: the mark of its queue, and its sequence number there.
#[derive(Clone, Copy, Debug, PartialEq, Eq, Hash, Serialize, Deserialize)]
pub struct Origin {
    pub mark: u64,
    pub sequence: u64,
}

/// What a handle says: which queue, which handing, and when it was, in milliseconds.
///
/// The moment tells a handing from one that a put-back journal doesn't know and that had the same numbers.
#[derive(Clone, Copy, Debug, PartialEq, Eq)]
pub struct Handle {
    pub mark: Mark,
    /// The message's sequence number, and which handing of it this is: both above 0.
    pub sequence: u64,
    pub ordinal: u64,
    pub moment: u64,
}

/// By this a gateway knows the handles that it has given out, or one that served these queues before it. Clients don't know it, so
/// they can make none.
#[derive(Clone, Copy, PartialEq, Eq)]
pub struct HandleKey([u8; 16]);

impl HandleKey {
    /// The key that follows from a secret.
    pub fn of(secret: Uuid) -> HandleKey {
        HandleKey(secret.into_bytes())
    }

    /// SipHash-2-4.
    fn check(&self, numbers: &[u8]) -> [u8; 8] {
        let mut hasher = SipHasher24::new_with_key(&self.0);
        hasher.write(numbers);
        hasher.finish().to_be_bytes()
    }
}

/// A handle has so many numbers and a check, which is as long as one.
const NUMBERS: usize = 4;
const CHECKED_BYTES: usize = 8 * NUMBERS;
const BYTES: usize = CHECKED_BYTES + 8;
const LENGTH_CHARACTERS: usize = (8 * BYTES).div_ceil(6);

impl Handle {
    /// The handle of a handing, of the queue of this mark, at this moment.
    pub fn new(mark: Mark, receipt: Receipt, moment: u64) -> Handle {
        let Receipt { sequence, ordinal, .. } = receipt;
        Handle { mark, sequence, ordinal, moment }
    }

    /// The receipt that it stands for, where its queue is this one of its name in the store.
    pub fn receipt(&self, incarnation: u64) -> Receipt {
        Receipt { incarnation, sequence: self.sequence, ordinal: self.ordinal }
    }

    /// The handle as clients see it: four numbers and a check of them by the key, in URL-safe base64.
    ///
    /// The moment is first, so that a handle begins with `A`: the AWS CLI takes one that begins with `-` for an option.
    pub fn outward(&self, key: &HandleKey) -> String {
        let mut bytes = [0; BYTES];
        let numbers = [self.moment, self.mark.0, self.sequence, self.ordinal];
        for (place, number) in numbers.iter().enumerate() {
            bytes[8 * place..8 * place + 8].copy_from_slice(&number.to_be_bytes());
        }
        let check = key.check(&bytes[..CHECKED_BYTES]);
        bytes[CHECKED_BYTES..].copy_from_slice(&check);
        base64::encode_config(bytes, base64::URL_SAFE_NO_PAD)
    }

    /// Reads a handle; any text that `outward` doesn't give with this key is refused.
    pub fn read(text: &str, key: &HandleKey) -> Result<Handle, SqsError> {
        let invalid = SqsError::ReceiptHandleIsInvalid;
        let mut bytes = [0; BYTES];
        // One text alone of this length stands for as many bytes.
        let is_read = text.len() == LENGTH_CHARACTERS
            && base64::decode_config_slice(text, base64::URL_SAFE_NO_PAD, &mut bytes) == Ok(BYTES);
        if !is_read || key.check(&bytes[..CHECKED_BYTES]) != bytes[CHECKED_BYTES..] {
            return Err(invalid);
        }
        let number = |place: usize| {
            let mut own = [0; 8];
            own.copy_from_slice(&bytes[8 * place..8 * place + 8]);
            u64::from_be_bytes(own)
        };
        let (sequence, ordinal) = (number(2), number(3));
        let handle = Handle { mark: Mark(number(1)), sequence, ordinal, moment: number(0) };
        (sequence > 0 && ordinal > 0).then_some(handle).ok_or(invalid)
    }
}

#[cfg(test)]
mod tests {
    use super::*;

    use hobbychair_bytes::seeded::{check, edits, spoilt};

    const KEY: HandleKey = HandleKey([7; 16]);
    const RECEIPT: Receipt = Receipt { incarnation: 4, sequence: 7, ordinal: 2 };

    #[test]
    fn a_handle_that_was_changed_is_none() {
        let text = Handle::new(Mark(5), RECEIPT, 1_700_000_000_000).outward(&KEY);
        check(5000, edits(), |edits| {
            let spoilt = spoilt(text.as_bytes(), &edits);
            let spoilt = String::from_utf8_lossy(&spoilt);
            assert!(spoilt == text || Handle::read(&spoilt, &KEY).is_err(), "{spoilt}");
            Ok(())
        });
    }

    #[test]
    fn no_handle_begins_like_an_option_of_a_command_line() {
        for mark in 0..5000_u64 {
            let receipt = Receipt { sequence: mark + 1, ..RECEIPT };
            let text = Handle::new(Mark(mark << 50), receipt, 1_700_000_000_000 + mark).outward(&KEY);
            assert!(text.starts_with('A'), "{text}");
        }
    }

    #[test]
    fn handles_come_back_and_spoilt_ones_do_not() {
        let handle = Handle::new(Mark(u64::MAX - 5), RECEIPT, 1_700_000_000_000);
        let text = handle.outward(&KEY);
        assert_eq!((Handle::read(&text, &KEY), text.len()), (Ok(handle), LENGTH_CHARACTERS));
        assert_eq!(handle.receipt(RECEIPT.incarnation), RECEIPT);
        let spoilt = [
            String::new(),
            "x".into(),
            "1-1-1".into(),
            format!("ä{text}"),
            text[..text.len() - 1].to_string(),
            format!("{text}A"),
            format!("{text}=="),
            format!("{}=", &text[..text.len() - 1]),
            text.to_uppercase(),
        ];
        for bad in spoilt {
            assert_eq!(Handle::read(&bad, &KEY), Err(SqsError::ReceiptHandleIsInvalid), "{bad}");
        }
        // The last sign has bits that say nothing.
        let signs = b"ABCDEFGHIJKLMNOPQRSTUVWXYZabcdefghijklmnopqrstuvwxyz0123456789-_";
        let with_last = |sign: &u8| format!("{}{}", &text[..text.len() - 1], *sign as char);
        assert_eq!(signs.iter().filter(|sign| Handle::read(&with_last(sign), &KEY).is_ok()).count(), 1);
    }

    #[test]
    fn who_has_no_key_makes_no_handle_of_those_that_he_was_given() {
        let handle = Handle::new(Mark(5), RECEIPT, 1_700_000_000_000);
        let next = Handle { sequence: 8, ordinal: 1, ..handle };
        let (given, wanted) = (handle.outward(&KEY), next.outward(&KEY));
        let bytes = |text: &str| base64::decode_config(text, base64::URL_SAFE_NO_PAD).unwrap();
        let forged = |check: &[u8]| {
            let forged = [&bytes(&wanted)[..CHECKED_BYTES], check].concat();
            Handle::read(&base64::encode_config(forged, base64::URL_SAFE_NO_PAD), &KEY)
        };
        assert_eq!(forged(&bytes(&wanted)[CHECKED_BYTES..]), Ok(next));
        // Neither the check of another handle, nor one that needs no key, nor that of another key.
        let sum = crc32fast::hash(&bytes(&wanted)[..CHECKED_BYTES]).to_be_bytes();
        let other = bytes(&next.outward(&HandleKey([8; 16])));
        for check in
            [&bytes(&given)[CHECKED_BYTES..], &sum, &[&sum[..], &sum].concat(), &[0; 8], &other[CHECKED_BYTES..]]
        {
            assert_eq!(forged(check), Err(SqsError::ReceiptHandleIsInvalid));
        }
    }

    #[test]
    fn the_check_is_that_of_siphash_2_4() {
        // The first and the last of the vectors of its authors: of no bytes, and of 0 to 62.
        let key = HandleKey(std::array::from_fn(|place| place as u8));
        let bytes: Vec<u8> = (0..63).collect();
        assert_eq!(key.check(&[]), 0x726f_db47_dd0e_0e31_u64.to_be_bytes());
        assert_eq!(key.check(&bytes), 0x958a_324c_eb06_4572_u64.to_be_bytes());
    }
}
