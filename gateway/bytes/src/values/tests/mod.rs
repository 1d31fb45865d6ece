mod asks;
mod replies;
mod stores;

/// What the program that tries bytes was asked, and what it said.
const ASKED: &str = include_str!(concat!(env!("CARGO_MANIFEST_DIR"), "/../../crates/cq_check_wire/stdin"));
const SAID: &str = include_str!(concat!(env!("CARGO_MANIFEST_DIR"), "/../../crates/cq_check_wire/stdout"));

/// The bytes of hexadecimal digits, between which there may be spaces.
fn bytes_of(digits: &str) -> Vec<u8> {
    let digits = digits.replace(' ', "");
    let byte = |place| u8::from_str_radix(&digits[place..place + 2], 16).unwrap();
    (0..digits.len()).step_by(2).map(byte).collect()
}

/// What the program wrote of this kind: the bytes, and the words for them.
fn said_of(kind: &str) -> Vec<(Vec<u8>, &'static str)> {
    let pairs = SAID.lines().filter_map(|line| line.split_once(' '));
    let told = pairs.filter_map(|(digits, words)| Some((digits, words.strip_prefix(kind)?.strip_prefix(' ')?)));
    told.map(|(digits, words)| (bytes_of(digits), words)).collect()
}
