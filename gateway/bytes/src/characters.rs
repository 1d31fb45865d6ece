//! Which characters texts may have, and how those are written that terminals would obey.

/// Whether a text has 1 to 128 bytes from `!` to `~`.
pub fn is_short_and_printable(text: &str) -> bool {
    (1..=128).contains(&text.len()) && text.bytes().all(|byte| (0x21..=0x7e).contains(&byte))
}

/// Whether XML can say this text (Extensible Markup Language 1.0, `Char`). Takes time in proportion to it.
pub fn is_of_xml(text: &str) -> bool {
    // Most texts are of these bytes alone. To look at all of them takes less time than to look for the first other one.
    let is_plain = |byte: u8| matches!(byte, b'\t' | b'\n' | b'\r' | 0x20..=0x7f);
    text.bytes().fold(true, |all, byte| all & is_plain(byte)) || text.chars().all(is_xml_character)
}

/// Whether XML can say this character.
pub fn is_xml_character(character: char) -> bool {
    matches!(character, '\t' | '\n' | '\r' | ' '..='\u{fffd}' | '\u{10000}'..)
}

/// The text with no control character but line feeds: what a file or a client said may stand in it, and
/// does nothing to a terminal. The escapes are those of JSON.
pub fn escaped(text: &str) -> String {
    let mut escaped = String::with_capacity(text.len());
    for character in text.chars() {
        match character {
            '\n' => escaped.push(character),
            _ => push_escaped(&mut escaped, character),
        }
    }
    escaped
}

/// Appends a character, and in the place of a control character its escape of JSON.
pub fn push_escaped(text: &mut String, character: char) {
    if character.is_control() {
        text.push_str(&format!("\\u{:04x}", u32::from(character)));
    } else {
        text.push(character);
    }
}

#[cfg(test)]
mod tests {
    use super::*;

    #[test]
    fn a_terminal_is_told_nothing_but_text() {
        assert_eq!(
            escaped("unknown field `\x1b[2J\x1b]0;owned\x07é`\nline 2\x7f\u{9b}"),
            "unknown field `\\u001b[2J\\u001b]0;owned\\u0007é`\nline 2\\u007f\\u009b"
        );
    }
}
