//! The tokens by which lists of queues go on.

use crate::errors::SqsError;

/// The bytes of a checksum behind the name.
const CHECK_BYTES: usize = 4;

/// The token of a list that goes on behind this name. It never begins with `-`, which the AWS CLI takes for an option: names have
/// letters, numbers, hyphens and underscores, of which none stands first so.
pub fn token_behind(name: &str) -> String {
    let check = crc32fast::hash(name.as_bytes()).to_be_bytes();
    base64::encode_config([name.as_bytes(), &check].concat(), base64::URL_SAFE_NO_PAD)
}

/// The name behind which a list goes on: none for an empty text. Any other text that no list gave is refused.
pub fn name_before(token: &str) -> Result<String, SqsError> {
    if token.is_empty() {
        return Ok(String::new());
    }
    let decoded = base64::decode_config(token, base64::URL_SAFE_NO_PAD).unwrap_or_default();
    let name = decoded.len().checked_sub(CHECK_BYTES).and_then(|length| std::str::from_utf8(&decoded[..length]).ok());
    let found = name.filter(|name| !name.is_empty() && token_behind(name) == token).map(str::to_owned);
    found.ok_or_else(|| SqsError::InvalidParameterValue(format!("Value {token} for parameter NextToken is invalid.")))
}

#[cfg(test)]
mod tests {
    use super::*;

    #[test]
    fn tokens_say_where_a_list_goes_on_and_no_other_text_does() {
        for name in ["a", "q.fifo", "-", "_", "Z9", &"n".repeat(80)] {
            let token = token_behind(name);
            assert_eq!(name_before(&token).as_deref(), Ok(name));
            assert!(!token.starts_with('-'), "{token}");
        }
        let token = token_behind("queue");
        let spoilt =
            [&token[1..], &token[..token.len() - 1], &format!("{token}="), "queue", "é", "AAAA", "AAAAAA", "AAAAAAAA"];
        assert!(spoilt.iter().all(|text| name_before(text).is_err()));
        assert_eq!(name_before("").as_deref(), Ok(""));
    }
}
