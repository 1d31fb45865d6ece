//! The MD5s that clients compare.

use hobbychair_bytes::digits::hex;
use md5::{Digest, Md5};

use crate::envelope::MessageAttributes;

/// `MD5OfBody` and `MD5OfMessageBody`: over the bytes of UTF-8, in hex.
pub fn md5_of_text(text: &str) -> String {
    hex(&Md5::digest(text.as_bytes()))
}

/// `MD5OfMessageAttributes`: over the attributes in order of their names
/// (Developer Guide, "Calculating the MD5 message digest for message attributes").
pub fn md5_of_attributes(attributes: &MessageAttributes) -> String {
    let mut digest = Md5::new();
    for (name, value) in attributes {
        update_counted(&mut digest, name.as_bytes());
        update_counted(&mut digest, value.data_type().as_bytes());
        digest.update([if value.is_binary() { 2 } else { 1 }]);
        update_counted(&mut digest, value.data());
    }
    hex(&digest.finalize())
}

fn update_counted(digest: &mut Md5, data: &[u8]) {
    // A part is bounded by the size of a request, far below 4 GiB.
    digest.update((data.len() as u32).to_be_bytes());
    digest.update(data);
}

#[cfg(test)]
mod tests {
    use super::*;
    use crate::envelope::AttributeValue;

    #[test]
    fn digests_of_bodies_and_attributes() {
        assert_eq!(md5_of_text("hello"), "5d41402abc4b2a76b9719d911017c592");
        let value = AttributeValue::new("a", "String", Some("x"), None).unwrap();
        let attributes = MessageAttributes::from([("a".to_string(), value)]);
        let expected = md5_of_parts(b"\0\0\0\x01a\0\0\0\x06String\x01\0\0\0\x01x");
        assert_eq!(md5_of_attributes(&attributes), expected);
    }

    fn md5_of_parts(bytes: &[u8]) -> String {
        hex(&Md5::digest(bytes))
    }
}
