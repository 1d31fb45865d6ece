//! What a message has beside its body, and the envelope in which all of it stands in the store.

use std::collections::BTreeMap;
use std::sync::Arc;

use hobbychair_bytes::characters::is_xml_character;
use hobbychair_bytes::moment::Moment;
use hobbychair_bytes::values::STORE_LIMIT_BYTES;
use md5::{Digest, Md5};
use serde::{Deserialize, Serialize, Serializer};
use uuid::Uuid;

use crate::errors::SqsError;
use crate::handles::{Mark, Origin};
use crate::texts::{test_characters, Body, DedupId, GroupId, QueueName};

/// The one message system attribute that a send may carry (API Reference, SendMessage, `MessageSystemAttributes`).
pub const TRACE_HEADER: &str = "AWSTraceHeader";

/// The most attributes that a message can have.
pub const MOST_ATTRIBUTES: usize = 10;

/// The attributes of a message by their names.
pub type MessageAttributes = BTreeMap<String, AttributeValue>;

/// The value of a message attribute (API Reference, `MessageAttributeValue`).
#[derive(Clone, Debug, PartialEq, Eq, Serialize, Deserialize)]
pub struct AttributeValue {
    #[serde(rename = "DataType")]
    data_type: String,
    #[serde(flatten)]
    content: Content,
}

#[derive(Clone, Debug, PartialEq, Eq, Serialize, Deserialize)]
enum Content {
    #[serde(rename = "StringValue")]
    Text(String),
    #[serde(rename = "BinaryValue", with = "as_base64")]
    Binary(Vec<u8>),
}

mod as_base64 {
    use serde::{Deserialize, Deserializer, Serializer};

    pub fn serialize<S: Serializer>(data: &[u8], serializer: S) -> Result<S::Ok, S::Error> {
        serializer.serialize_str(&base64::encode(data))
    }

    pub fn deserialize<'de, D: Deserializer<'de>>(deserializer: D) -> Result<Vec<u8>, D::Error> {
        let text = String::deserialize(deserializer)?;
        base64::decode(text).map_err(serde::de::Error::custom)
    }
}

impl AttributeValue {
    /// The value of the attribute `name`: a type (`String`, `Number` or `Binary`, with a label of up to 256 bytes in
    /// all), and the text or the base64 that goes with it. A wrong one is `InvalidParameterValue`.
    pub fn new(
        name: &str,
        data_type: &str,
        text: Option<&str>,
        binary: Option<&str>,
    ) -> Result<AttributeValue, SqsError> {
        let wrong = |message: String| Err(SqsError::InvalidParameterValue(message));
        if data_type.is_empty() {
            return wrong(format!("The message attribute '{name}' must contain non-empty message attribute type."));
        }
        let kind = data_type.split_once('.').map_or(data_type, |(kind, _)| kind);
        let is_known = matches!(kind, "String" | "Number" | "Binary");
        let is_text = data_type.chars().all(|character| character >= ' ' && is_xml_character(character));
        if !is_known || data_type.len() > 256 || !is_text {
            return wrong(format!(
                "The type of message attribute '{name}' is invalid. You must use only the following supported type \
                 prefixes: Binary, Number, String."
            ));
        }
        let content = if kind == "Binary" {
            match base64::decode(binary.unwrap_or_default()) {
                Ok(data) => Content::Binary(data),
                Err(_) => return wrong(format!("The value of message attribute '{name}' is no base64.")),
            }
        } else {
            let text = text.unwrap_or_default();
            test_characters(text)?;
            if kind == "Number" && !text.is_empty() {
                match Number::parse(text) {
                    None => return wrong(format!("Can't cast the value of message attribute '{name}' to a number.")),
                    Some(number) if !number.is_in_range() => {
                        return wrong(format!(
                            "The number in message attribute '{name}' has more than 38 digits, or is out of range."
                        ))
                    }
                    Some(_) => {}
                }
            }
            Content::Text(text.into())
        };
        let value = AttributeValue { data_type: data_type.into(), content };
        if value.data().is_empty() {
            return wrong(format!(
                "The message attribute '{name}' must contain non-empty message attribute value for type '{data_type}'."
            ));
        }
        Ok(value)
    }

    /// The type, with its label.
    pub fn data_type(&self) -> &str {
        &self.data_type
    }

    /// The bytes of the value: what a binary one stands for, or UTF-8.
    pub fn data(&self) -> &[u8] {
        match &self.content {
            Content::Text(text) => text.as_bytes(),
            Content::Binary(data) => data,
        }
    }

    /// Whether it is bytes, and no text.
    pub fn is_binary(&self) -> bool {
        matches!(self.content, Content::Binary(_))
    }

    /// The text of a value that isn't binary.
    pub fn text(&self) -> Option<&str> {
        match &self.content {
            Content::Text(text) => Some(text),
            Content::Binary(_) => None,
        }
    }

    /// What it counts, in bytes: its type and its value.
    pub fn size(&self) -> usize {
        self.data_type.len() + self.data().len()
    }
}

/// The most digits of a number, without zeros before and behind them, and where its first digit may stand: numbers are
/// from 10^-128 to below 10^127 (Developer Guide, "Amazon SQS message attributes").
const MOST_DIGITS: usize = 38;
const PLACES: std::ops::RangeInclusive<i64> = -128..=126;

/// A decimal number.
struct Number {
    /// How many digits it has, without zeros before and behind them.
    digits: usize,
    /// The power of ten of the first of them.
    place: i64,
}

impl Number {
    /// Reads a number with a sign, a point and an exponent, each of which may be missing.
    fn parse(text: &str) -> Option<Number> {
        let is_digits = |text: &str| text.bytes().all(|byte| byte.is_ascii_digit());
        let unsigned = text.strip_prefix(['+', '-']).unwrap_or(text);
        let (mantissa, exponent) = unsigned.split_once(['e', 'E']).unwrap_or((unsigned, "0"));
        let (whole, part) = mantissa.split_once('.').unwrap_or((mantissa, ""));
        let has_mantissa = is_digits(whole) && is_digits(part) && !(whole.is_empty() && part.is_empty());
        let power = exponent.strip_prefix(['+', '-']).unwrap_or(exponent);
        if !has_mantissa || power.is_empty() || !is_digits(power) {
            return None;
        }
        let digits = format!("{whole}{part}");
        let zeros = digits.len() - digits.trim_start_matches('0').len();
        // An exponent with more digits than the type has is out of range in any case.
        let power = power.parse().unwrap_or(i64::from(u32::MAX)).min(i64::from(u32::MAX));
        let power = if exponent.starts_with('-') { -power } else { power };
        let place = power + whole.len() as i64 - 1 - zeros as i64;
        Some(Number { digits: digits.trim_matches('0').len(), place })
    }

    fn is_in_range(&self) -> bool {
        self.digits == 0 || (self.digits <= MOST_DIGITS && PLACES.contains(&self.place))
    }
}

/// Refuses a name that no message attribute may have (Developer Guide, "Amazon SQS message attributes").
pub fn test_attribute_name(name: &str) -> Result<(), SqsError> {
    let lower = name.to_ascii_lowercase();
    let is_good_byte = |byte: u8| byte.is_ascii_alphanumeric() || b"_.-".contains(&byte);
    let is_good = (1..=256).contains(&name.len())
        && name.bytes().all(is_good_byte)
        && !lower.starts_with("aws.")
        && !lower.starts_with("amazon.")
        && !name.starts_with('.')
        && !name.ends_with('.')
        && !name.contains("..");
    is_good
        .then_some(())
        .ok_or_else(|| SqsError::InvalidParameterValue(format!("The message attribute name '{name}' is invalid.")))
}

/// What the attributes of a message count, in bytes: names, types and values.
pub fn size_of_attributes(attributes: &MessageAttributes) -> usize {
    attributes.iter().map(|(name, value)| name.len() + value.size()).sum()
}

/// The metadata of a message: all beside its body and its place, and in a FIFO queue beside its group.
#[derive(Clone, Debug, Default, PartialEq, Eq, Serialize, Deserialize)]
pub struct Metadata {
    /// The MessageId, where it isn't made of the message's place: of one that was moved or delayed. It stands first, where `own_id`
    /// finds it.
    #[serde(default, skip_serializing_if = "Option::is_none")]
    pub id: Option<Uuid>,
    /// Of a copy: which message it is one of. It stands first, or second behind the id, where `EnvelopeHead` looks.
    #[serde(default, skip_serializing_if = "Option::is_none")]
    pub of: Option<Origin>,
    /// When it was sent, in milliseconds.
    pub sent: u64,
    /// Of one that is delayed: when it is due.
    #[serde(default, skip_serializing_if = "Option::is_none")]
    pub due: Option<Moment>,
    /// The deduplication id that clients see, of a FIFO queue.
    #[serde(default, skip_serializing_if = "Option::is_none")]
    pub dedup: Option<DedupId>,
    /// The group that the sender named, of a standard queue. In the store each of its messages is a group by itself.
    #[serde(default, skip_serializing_if = "Option::is_none")]
    pub group: Option<GroupId>,
    /// Who sent it, by the access key, where signatures were looked at.
    #[serde(default, skip_serializing_if = "Option::is_none")]
    pub sender: Option<String>,
    #[serde(default, skip_serializing_if = "BTreeMap::is_empty")]
    pub attributes: MessageAttributes,
    /// The trace header, where there is one.
    #[serde(default, skip_serializing_if = "Option::is_none")]
    pub trace: Option<AttributeValue>,
    /// The queue from which it was moved here, where it was.
    #[serde(default, skip_serializing_if = "Option::is_none")]
    pub source: Option<QueueName>,
}

impl Metadata {
    /// The MessageId, if the message has this place.
    pub fn id_at(&self, mark: Mark, sequence: u64) -> Uuid {
        self.id.unwrap_or_else(|| message_id(mark, sequence))
    }
}

/// A message as it goes into the store in place of its body: the metadata as one line of JSON, and behind it the body. What is too
/// long for the store is put in parts before it is sent, and a line goes in its place.
#[derive(Clone, Debug, PartialEq, Eq)]
pub struct Envelope(String);

impl From<String> for Envelope {
    fn from(text: String) -> Envelope {
        Envelope(text)
    }
}

impl Envelope {
    /// The envelope of a message.
    pub fn new(metadata: &Metadata, body: &Body) -> Result<Envelope, serde_json::Error> {
        let mut text = serde_json::to_string(metadata)?;
        text.reserve_exact(1 + body.as_str().len());
        text.push('\n');
        text.push_str(body.as_str());
        Ok(Envelope(text))
    }

    /// Has it say that it was sent at this moment. Before what it says of that no client's text stands.
    pub fn stamp(&mut self, moment: Moment) {
        const NAME: &str = "\"sent\":";
        let text = &mut self.0;
        let Some(start) = text.find(NAME).map(|place| place + NAME.len()) else { return };
        let digits = text[start..].bytes().take_while(u8::is_ascii_digit).count();
        if text[start..start + digits].parse() != Ok(moment) {
            text.replace_range(start..start + digits, &moment.to_string());
        }
    }

    /// All of it.
    pub fn text(&self) -> &str {
        &self.0
    }

    /// All of it, without a copy.
    pub fn into_text(self) -> String {
        self.0
    }

    /// Whether the store takes no text so long.
    pub fn is_too_long(&self) -> bool {
        self.0.len() > STORE_LIMIT_BYTES
    }

    /// How many bytes it has.
    pub fn bytes(&self) -> u64 {
        self.0.len() as u64
    }
}

/// The metadata of a message and its body, read from its whole envelope. None if the text is no envelope.
pub fn read_envelope(whole: &str) -> Option<(Metadata, &str)> {
    let (metadata, body) = whole.split_once('\n')?;
    Some((serde_json::from_str(metadata).ok()?, body))
}

/// The body of a message, in the memory of its envelope.
#[derive(Clone, Debug)]
pub struct EnvelopeBody {
    envelope: Arc<str>,
    start: usize,
}

impl EnvelopeBody {
    /// The metadata and the body of an envelope. None if the text is none.
    pub fn read(whole: &Arc<str>) -> Option<(Metadata, EnvelopeBody)> {
        let (metadata, body) = read_envelope(whole)?;
        let start = whole.len() - body.len();
        Some((metadata, EnvelopeBody { envelope: whole.clone(), start }))
    }

    /// The text of the body.
    pub fn as_str(&self) -> &str {
        &self.envelope[self.start..]
    }
}

impl PartialEq for EnvelopeBody {
    fn eq(&self, other: &EnvelopeBody) -> bool {
        self.as_str() == other.as_str()
    }
}

impl Eq for EnvelopeBody {}

impl Serialize for EnvelopeBody {
    fn serialize<S: Serializer>(&self, serializer: S) -> Result<S::Ok, S::Error> {
        serializer.serialize_str(self.as_str())
    }
}

#[cfg(test)]
impl From<&str> for EnvelopeBody {
    fn from(body: &str) -> EnvelopeBody {
        EnvelopeBody { envelope: body.into(), start: 0 }
    }
}

/// The metadata that the tables need, and that a move changes. Of a message whose envelope is too long for the store this
/// is all that the store has in its place, and the envelope stands in parts.
#[derive(Clone, Debug, Default, PartialEq, Eq, Serialize, Deserialize)]
pub struct EnvelopeHead {
    /// The number of the queue that has the parts. It stands first, where `has_parts` looks.
    #[serde(default, skip_serializing_if = "Option::is_none")]
    pub parts: Option<u64>,
    /// How many bytes the parts have.
    #[serde(default, skip_serializing_if = "Option::is_none")]
    pub bytes: Option<u64>,
    #[serde(default, skip_serializing_if = "Option::is_none")]
    pub id: Option<Uuid>,
    #[serde(default, skip_serializing_if = "Option::is_none")]
    pub of: Option<Origin>,
    pub sent: Moment,
    #[serde(default, skip_serializing_if = "Option::is_none")]
    pub due: Option<Moment>,
    /// Of a dead letter.
    #[serde(default, skip_serializing_if = "Option::is_none")]
    pub source: Option<QueueName>,
}

impl EnvelopeHead {
    /// The head of an envelope, whole or not. Takes time in proportion to its first line.
    pub fn of(envelope: &str) -> Option<EnvelopeHead> {
        let line = envelope.split('\n').next()?;
        match plain_moment(line) {
            Some(sent) => Some(EnvelopeHead { sent, ..EnvelopeHead::default() }),
            None => serde_json::from_str(line).ok(),
        }
    }

    /// The head of an envelope that stands in parts, if it does.
    pub fn of_parts(envelope: &str) -> Option<EnvelopeHead> {
        has_parts(envelope).then(|| EnvelopeHead::of(envelope)).flatten()
    }

    /// What the store has in the place of a message whose envelope of so many bytes stands in these parts.
    pub fn in_place(self, number: u64, bytes: usize) -> Result<Envelope, serde_json::Error> {
        EnvelopeHead { parts: Some(number), bytes: Some(bytes as u64), ..self }.as_line()
    }

    /// The same where the parts are there already.
    pub fn as_line(&self) -> Result<Envelope, serde_json::Error> {
        Ok(Envelope(serde_json::to_string(self)?))
    }

    /// The envelope that stands in parts, with what this head says. None if it is none.
    pub fn over(&self, whole: &str) -> Option<String> {
        let (metadata, body) = read_envelope(whole)?;
        let EnvelopeHead { id, of, sent, due, source, .. } = self.clone();
        let metadata = Metadata { id, of, sent, due, source, ..metadata };
        Some(serde_json::to_string(&metadata).ok()? + "\n" + body)
    }
}

/// The moment of most metadata: what says when it was sent, and then at most some short texts that the tables don't need. None
/// of all else.
fn plain_moment(line: &str) -> Option<Moment> {
    const NOT_NEEDED: [&str; 3] = [",\"dedup\":\"", ",\"group\":\"", ",\"sender\":\""];
    let rest = line.strip_prefix("{\"sent\":")?;
    let digits = rest.bytes().take_while(u8::is_ascii_digit).count();
    let (moment, mut rest) = rest.split_at(digits);
    if moment.starts_with('0') {
        return None;
    }
    for name in NOT_NEEDED {
        if let Some(text) = rest.strip_prefix(name) {
            // What JSON doesn't take as it is ends it, too.
            let end = text.find(|one: char| one == '"' || one == '\\' || one.is_ascii_control())?;
            rest = text[end..].strip_prefix('"')?;
        }
    }
    (rest == "}").then(|| moment.parse().ok()).flatten()
}

/// Whether an envelope stands in parts.
pub fn has_parts(envelope: &str) -> bool {
    envelope.starts_with("{\"parts\":")
}

/// The parts of a text, none of them longer than the store takes.
pub fn parts_of(text: &str) -> Vec<&str> {
    let (mut parts, mut rest) = (Vec::new(), text);
    while rest.len() > STORE_LIMIT_BYTES {
        let end = (0..=STORE_LIMIT_BYTES).rev().find(|end| rest.is_char_boundary(*end)).unwrap_or(0);
        let (part, behind) = rest.split_at(end);
        parts.push(part);
        rest = behind;
    }
    parts.push(rest);
    parts
}

/// The id that stands in an envelope, whole or not, if one does: then it stands first. Takes the same time for each.
pub fn own_id(envelope: &str) -> Option<Uuid> {
    const ID_CHARACTERS: usize = uuid::fmt::Hyphenated::LENGTH;
    if let Some(head) = EnvelopeHead::of_parts(envelope) {
        return head.id;
    }
    envelope.strip_prefix("{\"id\":\"")?.get(..ID_CHARACTERS)?.parse().ok()
}

/// The MessageId of the message with this sequence number in the queue of this mark, where none stands in its envelope.
///
/// No two messages have the same two numbers. A mark is 64 random bits, which each creation of a queue draws anew, also
/// under the name of one that was removed. In a queue numbers begin at 1 and none is given twice. The store answers a
/// repeat of a send with the first one's number, so the repeat is told the first one's id, and nobody has to keep ids. (A
/// journal that was put back from a copy gives the numbers of what the copy lacks once more, and the ids with them.)
///
/// The digest gives it the look of a random id. No client chooses what goes into it, and it hides nothing that a
/// receipt handle doesn't say. So it is MD5, the quickest one at hand.
pub fn message_id(mark: Mark, sequence: u64) -> Uuid {
    let place = (u128::from(mark.0) << 64) | u128::from(sequence);
    let digest = Md5::digest(place.to_be_bytes());
    uuid::Builder::from_random_bytes(digest.into()).into_uuid()
}

#[cfg(test)]
mod tests {
    use std::collections::BTreeSet;

    use super::*;

    fn metadata() -> Metadata {
        Metadata { sent: 1_700_000_000_000, dedup: DedupId::parse("d").ok(), ..Metadata::default() }
    }

    #[test]
    fn plain_metadata_is_read_as_json_is() {
        let group = GroupId::parse("g").ok();
        let plain = Metadata { group, sender: Some("AKIA".into()), ..metadata() };
        let quoted = Metadata { dedup: DedupId::parse("a\"b\\c").ok(), ..metadata() };
        let moved = Metadata { source: QueueName::parse("s"), ..metadata() };
        let mut lines: Vec<String> = [metadata(), plain, quoted, moved, Metadata::default()]
            .iter()
            .map(|metadata| serde_json::to_string(metadata).unwrap())
            .collect();
        assert!(lines[..2].iter().all(|line| plain_moment(line) == Some(1_700_000_000_000)));
        assert!(lines[2..].iter().all(|line| plain_moment(line).is_none()));
        // A moment with zeros before it, or none, or too large a one, texts in another order, and what is no JSON.
        let others = [
            r#"{"sent":007}"#,
            r#"{"sent":}"#,
            r#"{"sent":99999999999999999999}"#,
            r#"{"sent":7,"sender":"s","dedup":"d"}"#,
            r#"{"sent":7,"dedup":"d","due":9}"#,
            r#"{"sent":7,"dedup":"d""#,
            r#"{"sent":7,"dedup":"d"}x"#,
            r#"{"sent":7,"dedup":"d","dedup":"e"}"#,
            "{\"sent\":7,\"dedup\":\"a\tb\"}",
            r#"{"sent":7}"#,
        ];
        lines.extend(others.map(String::from));
        for line in lines {
            assert_eq!(EnvelopeHead::of(&line), serde_json::from_str(&line).ok(), "{line}");
        }
    }

    #[test]
    fn numbers() {
        for good in ["0", "-1.5e3", "+.5", "5.", "1E+9", "00"] {
            assert!(Number::parse(good).is_some(), "{good}");
        }
        for bad in ["", "one", "1e", ".", "+", "1.2.3", "0x1", "--1", "1e--2", " 1"] {
            assert!(Number::parse(bad).is_none(), "{bad}");
        }
    }

    #[test]
    fn numbers_have_38_digits() {
        let nines = "9".repeat(38);
        for good in [
            &nines,
            &format!("-00{nines}000"),
            &format!("0.00{nines}"),
            "1e126",
            "-1e-128",
            "0e999999999999999999999",
            "0.1e127",
        ] {
            assert!(Number::parse(good).unwrap().is_in_range(), "{good}");
        }
        for bad in [
            &format!("{nines}9"),
            &format!("1.{nines}"),
            "1e127",
            "10e126",
            "1e-129",
            "0.1e-128",
            "1e99999999999999999999",
        ] {
            assert!(!Number::parse(bad).unwrap().is_in_range(), "{bad}");
        }
    }

    #[test]
    fn values_of_attributes() {
        assert!(AttributeValue::new("a", "Binary", None, Some("AAE=")).is_ok());
        for (kind, text, binary) in [
            ("", Some("x"), None),
            ("Text", Some("x"), None),
            ("Strings", Some("x"), None),
            ("Number", Some("one"), None),
            ("Binary", Some("x"), None),
            ("Binary", None, Some("?")),
            ("String", None, None),
            ("String", Some("\0"), None),
            ("String.\u{fffe}", Some("x"), None),
            ("Number.a\u{ffff}", Some("1"), None),
            ("Binary.\n", None, Some("AAE=")),
            ("Binary.\u{ffff}", None, Some("AAE=")),
            ("String.\t", Some("x"), None),
        ] {
            assert!(AttributeValue::new("a", kind, text, binary).is_err(), "{kind} {text:?} {binary:?}");
        }
        for bad in ["", "AWS.a", "amazon.b", ".a", "a.", "a..b", "a b", "ä", &"x".repeat(257)] {
            assert!(test_attribute_name(bad).is_err(), "{bad}");
        }
    }

    #[test]
    fn an_envelope_comes_back() {
        let mut metadata = metadata();
        let value = AttributeValue::new("a", "Binary.x", None, Some("AP8=")).unwrap();
        metadata.attributes.insert("a".into(), value);
        metadata.trace = Some(AttributeValue::new("t", "String", Some("Root=1"), None).unwrap());
        for id in [None, Some(Uuid::from_u128(7))] {
            let metadata = Metadata { id, ..metadata.clone() };
            let envelope = Envelope::new(&metadata, &Body::parse("one\ntwo").unwrap()).unwrap();
            assert_eq!(read_envelope(envelope.text()), Some((metadata.clone(), "one\ntwo")));
            assert_eq!(EnvelopeBody::read(&envelope.text().into()), Some((metadata.clone(), "one\ntwo".into())));
            let head = EnvelopeHead { id, sent: metadata.sent, ..EnvelopeHead::default() };
            assert_eq!((EnvelopeHead::of(envelope.text()), own_id(envelope.text())), (Some(head), id));
        }
        assert_eq!(read_envelope("hello"), None);
    }

    #[test]
    fn an_envelope_says_when_it_was_asked_for() {
        let body = Body::parse("a \"sent\":5 b").unwrap();
        let group = GroupId::parse("\"sent\":7").ok();
        for id in [None, Some(Uuid::from_u128(7))] {
            let own = Metadata { id, group: group.clone(), ..metadata() };
            for sent in [own.sent, 9, 1_700_000_000_001] {
                let mut envelope = Envelope::new(&own, &body).unwrap();
                envelope.stamp(sent);
                let read = read_envelope(envelope.text());
                assert_eq!(read, Some((Metadata { sent, ..own.clone() }, body.as_str())));
                let mut line = EnvelopeHead::of(envelope.text()).unwrap().in_place(12, 300_000).unwrap();
                line.stamp(8);
                assert_eq!(EnvelopeHead::of(line.text()).unwrap().sent, 8);
            }
        }
    }

    #[test]
    fn an_envelope_above_the_stores_limit_is_too_long() {
        let of = |length: usize| Envelope::from("x".repeat(length));
        assert!(!of(STORE_LIMIT_BYTES).is_too_long() && of(STORE_LIMIT_BYTES + 1).is_too_long());
    }

    #[test]
    fn a_line_stands_for_an_envelope_in_parts_and_says_what_a_move_changes() {
        let body = Body::parse(&"ü\n".repeat(STORE_LIMIT_BYTES)).unwrap();
        let own = Metadata { id: Some(Uuid::from_u128(7)), ..metadata() };
        let whole = Envelope::new(&own, &body).unwrap().into_text();
        let head = EnvelopeHead::of(&whole).unwrap();
        let line = head.in_place(12, whole.len()).unwrap();
        assert_eq!((line.text().len() < 200, read_envelope(line.text())), (true, None));
        assert!(has_parts(line.text()) && !has_parts(&whole) && EnvelopeHead::of_parts(&whole).is_none());
        let read = EnvelopeHead::of_parts(line.text()).unwrap();
        assert_eq!((read.parts, read.bytes), (Some(12), Some(whole.len() as u64)));
        assert_eq!(read.over(&whole).unwrap(), whole);
        assert_eq!(own_id(line.text()), own.id);
        // A copy of it names the same parts.
        let (of, source) = (Some(Origin { mark: 1, sequence: 2 }), QueueName::parse("q.fifo"));
        let copy = EnvelopeHead { id: None, of, sent: 9, source: source.clone(), ..read };
        let line = copy.as_line().unwrap();
        assert_eq!(own_id(line.text()), None);
        let moved = EnvelopeHead::of_parts(line.text()).unwrap().over(&whole).unwrap();
        let (metadata, text) = read_envelope(&moved).unwrap();
        assert_eq!((metadata, text), (Metadata { id: None, of, sent: 9, source, ..own }, body.as_str()));
        assert_eq!(read.over("no envelope"), None);
    }

    #[test]
    fn parts_are_no_longer_than_the_store_takes_and_break_no_character() {
        for (unit, count) in [
            ("x", STORE_LIMIT_BYTES),
            ("x", STORE_LIMIT_BYTES + 1),
            ("ü", STORE_LIMIT_BYTES),
            ("aü", STORE_LIMIT_BYTES),
            ("😀", 300_000),
        ] {
            let text = unit.repeat(count);
            let parts = parts_of(&text);
            assert_eq!(parts.concat(), text);
            assert!(parts.iter().all(|part| (1..=STORE_LIMIT_BYTES).contains(&part.len())));
            assert!(parts.len() <= 1 + text.len() / (STORE_LIMIT_BYTES - 3));
        }
    }

    #[test]
    fn ids_are_digests_of_places_in_the_form_of_random_ones() {
        // hashlib.md5(mark.to_bytes(8, "big") + sequence.to_bytes(8, "big")).hexdigest(), with the bits of version 4
        let known = [
            (1, 2, "f014c44f-99b5-4616-afc8-52fea57caceb"),
            (1, 3, "7d3d1d27-964f-4da8-a560-b347010716ee"),
            (2, 2, "a78c2aac-4503-4497-a702-f650e0aac24e"),
        ];
        for (mark, sequence, text) in known {
            let id = message_id(Mark(mark), sequence);
            assert_eq!((id.to_string().as_str(), id.get_version_num()), (text, 4));
            assert_eq!(metadata().id_at(Mark(mark), sequence), id);
        }
        let own = Some(Uuid::from_u128(7));
        assert_eq!(Metadata { id: own, ..metadata() }.id_at(Mark(1), 2), Uuid::from_u128(7));
        let marks = [0, 1, u64::MAX];
        let of_queue = |mark| (1..=1000).map(move |sequence| message_id(Mark(mark), sequence));
        let ids: BTreeSet<_> = marks.into_iter().flat_map(of_queue).collect();
        assert_eq!(ids.len(), 3000);
    }
}
