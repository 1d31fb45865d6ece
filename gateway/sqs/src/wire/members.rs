//! The members of a request, read by their names and tested for their kinds.
//!
//! In the query form all values are texts, also where they are numbers.

use std::collections::HashSet;

use super::value::{Map, Value};
use crate::envelope::{test_attribute_name, AttributeValue, MessageAttributes, MOST_ATTRIBUTES, TRACE_HEADER};
use crate::errors::SqsError;

/// The members of one request, of one entry of a batch, or of a structure.
#[derive(Clone, Copy)]
pub struct Members<'m, 'a>(pub &'m Map<'a>);

/// The longest text in a list: the key of a tag has 128 characters of up to four bytes each, and the name of a message
/// attribute 256 bytes, with a star behind it.
const LONGEST_NAME_BYTES: usize = 512;

fn wrong(message: String) -> SqsError {
    SqsError::InvalidParameterValue(message)
}

/// A map in which a name stands twice.
fn stands_twice(map: &str, name: &str) -> SqsError {
    wrong(format!("{map} has {name} twice."))
}

/// A value of another kind than its member has.
fn wrong_kind(message: String) -> SqsError {
    SqsError::Serialization(message)
}

impl<'m, 'a> Members<'m, 'a> {
    pub fn has(&self, name: &str) -> bool {
        self.0.get(name).is_some()
    }

    pub fn text(&self, name: &str) -> Result<Option<&'m str>, SqsError> {
        match self.0.get(name) {
            None => Ok(None),
            Some(Value::Text(text)) => Ok(Some(text)),
            Some(_) => Err(wrong_kind(format!("{name} must be a string."))),
        }
    }

    /// A text that must be there and not empty.
    pub fn required_text(&self, name: &str) -> Result<&'m str, SqsError> {
        let text = self.text(name)?.filter(|text| !text.is_empty());
        text.ok_or_else(|| SqsError::MissingParameter(name.into()))
    }

    /// A text that must not be there, since queues of this kind have none.
    pub fn absent_text(&self, name: &str) -> Result<Option<&'m str>, SqsError> {
        match self.text(name)? {
            Some(text) => Err(SqsError::not_of_this_kind(name, text)),
            None => Ok(None),
        }
    }

    /// A whole number from `least` to `most`.
    pub fn number(&self, name: &str, least: i64, most: i64) -> Result<Option<u32>, SqsError> {
        let (number, shown) = match self.0.get(name) {
            None => return Ok(None),
            Some(Value::Integer(number)) => (Some(*number), number.to_string()),
            Some(Value::Text(text)) => (digits(text), text.to_string()),
            Some(Value::OtherNumber) => (None, "of this kind".into()),
            Some(_) => return Err(wrong_kind(format!("{name} must be a number."))),
        };
        let good = number.filter(|number| (least..=most).contains(number));
        let good = good.and_then(|number| u32::try_from(number).ok());
        good.map(Some).ok_or_else(|| SqsError::out_of_range(&shown, name, least, most))
    }

    /// A list of texts, `most` at most and each with at most [`LONGEST_NAME_BYTES`] bytes; none where it is missing.
    pub fn texts(&self, name: &str, most: usize) -> Result<Vec<String>, SqsError> {
        let not_texts = || wrong_kind(format!("{name} must be a list of strings."));
        match self.0.get(name) {
            None => Ok(Vec::new()),
            Some(Value::List(list)) if list.len() > most => {
                Err(wrong(format!("{name} has at most {most} parts. You have sent {}.", list.len())))
            }
            Some(Value::List(list)) => list
                .iter()
                .map(|value| match value {
                    Value::Text(text) if text.len() > LONGEST_NAME_BYTES => {
                        Err(wrong(format!("A part of {name} has at most {LONGEST_NAME_BYTES} bytes.")))
                    }
                    Value::Text(text) => Ok(text.to_string()),
                    _ => Err(not_texts()),
                })
                .collect(),
            Some(_) => Err(not_texts()),
        }
    }

    /// A map of texts, in which no name stands twice. Clients also give whole numbers and truth values there, and mean
    /// their texts.
    pub fn texts_by_name(&self, name: &str) -> Result<Vec<(String, String)>, SqsError> {
        let not_texts = || wrong_kind(format!("{name} must be a map of strings."));
        let map = match self.0.get(name) {
            None => return Ok(Vec::new()),
            Some(Value::Map(map)) => map,
            Some(_) => return Err(not_texts()),
        };
        let (mut pairs, mut names) = (Vec::with_capacity(map.0.len()), HashSet::new());
        for (key, value) in &map.0 {
            if !names.insert(key) {
                return Err(stands_twice(name, key));
            }
            let text = match value {
                Value::Text(text) => text.to_string(),
                Value::Integer(number) => number.to_string(),
                Value::Flag(flag) => flag.to_string(),
                _ => return Err(not_texts()),
            };
            pairs.push((key.to_string(), text));
        }
        Ok(pairs)
    }

    /// The entries of a batch, as they came.
    pub fn entries(&self) -> Result<Vec<Members<'m, 'a>>, SqsError> {
        let not_entries = || wrong_kind("Entries must be a list of entries.".into());
        match self.0.get("Entries") {
            None => Ok(Vec::new()),
            Some(Value::List(list)) => list
                .iter()
                .map(|value| match value {
                    Value::Map(map) => Ok(Members(map)),
                    _ => Err(not_entries()),
                })
                .collect(),
            Some(_) => Err(not_entries()),
        }
    }

    /// `MessageAttributes`, each tested. No name stands there twice.
    pub fn message_attributes(&self) -> Result<MessageAttributes, SqsError> {
        let mut found = MessageAttributes::new();
        let structures = self.structures("MessageAttributes")?;
        if structures.len() > MOST_ATTRIBUTES {
            return Err(wrong(format!(
                "Number of message attributes [{}] exceeds the allowed maximum [{MOST_ATTRIBUTES}].",
                structures.len()
            )));
        }
        for (name, members) in structures {
            test_attribute_name(name)?;
            if found.insert(name.into(), members.attribute_value(name)?).is_some() {
                return Err(stands_twice("MessageAttributes", name));
            }
        }
        Ok(found)
    }

    /// The one message system attribute that there is, which stands there once.
    pub fn trace_header(&self) -> Result<Option<AttributeValue>, SqsError> {
        let mut trace = None;
        for (name, members) in self.structures("MessageSystemAttributes")? {
            if name != TRACE_HEADER {
                return Err(wrong(format!("Message system attribute name {name} is invalid.")));
            }
            let value = members.attribute_value(name)?;
            if value.data_type() != "String" {
                return Err(wrong(format!("The type of message system attribute {name} must be String.")));
            }
            if trace.replace(value).is_some() {
                return Err(stands_twice("MessageSystemAttributes", name));
            }
        }
        Ok(trace)
    }

    fn attribute_value(&self, name: &str) -> Result<AttributeValue, SqsError> {
        // The second names are those of the query form.
        if ["StringListValues", "BinaryListValues", "StringListValue", "BinaryListValue"]
            .iter()
            .any(|list| self.has(list))
        {
            let message = "Message attribute list values in SendMessage operation are not supported.";
            return Err(SqsError::UnsupportedOperation(message.into()));
        }
        let (data_type, text, binary) = (self.text("DataType")?, self.text("StringValue")?, self.text("BinaryValue")?);
        if text.is_some() && binary.is_some() {
            return Err(wrong(format!("Message attribute {name} has a StringValue and a BinaryValue.")));
        }
        AttributeValue::new(name, data_type.unwrap_or_default(), text, binary)
    }

    fn structures(&self, name: &str) -> Result<Vec<(&'m str, Members<'m, 'a>)>, SqsError> {
        let not_structures = || wrong_kind(format!("{name} must be a map of structures."));
        match self.0.get(name) {
            None => Ok(Vec::new()),
            Some(Value::Map(map)) => map
                .0
                .iter()
                .map(|(key, value)| match value {
                    Value::Map(map) => Ok((key.as_ref(), Members(map))),
                    _ => Err(not_structures()),
                })
                .collect(),
            Some(_) => Err(not_structures()),
        }
    }
}

fn digits(text: &str) -> Option<i64> {
    let unsigned = text.strip_prefix('-').unwrap_or(text);
    let is_digits = (1..=19).contains(&unsigned.len()) && unsigned.bytes().all(|byte| byte.is_ascii_digit());
    text.parse().ok().filter(|_| is_digits)
}
