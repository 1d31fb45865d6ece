//! The values that requests are made of, in either protocol.

use std::borrow::Cow;
use std::cell::Cell;
use std::fmt;

use serde::de::{Deserialize, DeserializeSeed, Deserializer, MapAccess, SeqAccess, Visitor};

/// A value of a request. Texts are borrowed from it where they stand in it as they are.
#[derive(Clone, Debug, PartialEq)]
pub enum Value<'a> {
    Null,
    Flag(bool),
    Integer(i64),
    /// A number that is no whole one, or beyond 64 bits.
    OtherNumber,
    Text(Cow<'a, str>),
    List(Vec<Value<'a>>),
    Map(Map<'a>),
}

/// Names and values in the order in which they came; of a name that came twice the last value counts.
#[derive(Clone, Debug, Default, PartialEq)]
pub struct Map<'a>(pub Vec<(Cow<'a, str>, Value<'a>)>);

impl<'a> Map<'a> {
    /// The value under a name, unless it is null. Takes time in proportion to the number of names.
    pub fn get(&self, name: &str) -> Option<&Value<'a>> {
        let found = self.0.iter().rev().find(|(key, _)| key == name);
        found.map(|(_, value)| value).filter(|value| **value != Value::Null)
    }
}

/// The most values of a request. A full batch of messages with ten attributes each has fewer than 900, names of members
/// among them.
pub const MOST_VALUES: usize = 2_000;

impl<'de> Deserialize<'de> for Value<'de> {
    /// Reads a value with all that is in it, [`MOST_VALUES`] at most: each takes many times the bytes that it may have
    /// in the request.
    fn deserialize<D: Deserializer<'de>>(deserializer: D) -> Result<Value<'de>, D::Error> {
        Values { left: &Cell::new(MOST_VALUES) }.deserialize(deserializer)
    }
}

/// Reads values as long as some are left.
#[derive(Clone, Copy)]
struct Values<'c> {
    left: &'c Cell<usize>,
}

impl<'de> DeserializeSeed<'de> for Values<'_> {
    type Value = Value<'de>;

    fn deserialize<D: Deserializer<'de>>(self, deserializer: D) -> Result<Value<'de>, D::Error> {
        match self.left.get().checked_sub(1) {
            Some(left) => self.left.set(left),
            None => return Err(serde::de::Error::custom(format!("it has more than {MOST_VALUES} values"))),
        }
        deserializer.deserialize_any(self)
    }
}

impl<'de> Visitor<'de> for Values<'_> {
    type Value = Value<'de>;

    fn expecting(&self, formatter: &mut fmt::Formatter<'_>) -> fmt::Result {
        formatter.write_str("a value")
    }

    fn visit_unit<E>(self) -> Result<Value<'de>, E> {
        Ok(Value::Null)
    }

    fn visit_bool<E>(self, flag: bool) -> Result<Value<'de>, E> {
        Ok(Value::Flag(flag))
    }

    fn visit_i64<E>(self, number: i64) -> Result<Value<'de>, E> {
        Ok(Value::Integer(number))
    }

    fn visit_u64<E>(self, number: u64) -> Result<Value<'de>, E> {
        Ok(number.try_into().map_or(Value::OtherNumber, Value::Integer))
    }

    fn visit_f64<E>(self, _: f64) -> Result<Value<'de>, E> {
        Ok(Value::OtherNumber)
    }

    fn visit_borrowed_str<E>(self, text: &'de str) -> Result<Value<'de>, E> {
        Ok(Value::Text(Cow::Borrowed(text)))
    }

    fn visit_str<E>(self, text: &str) -> Result<Value<'de>, E> {
        Ok(Value::Text(Cow::Owned(text.into())))
    }

    fn visit_seq<A: SeqAccess<'de>>(self, mut values: A) -> Result<Value<'de>, A::Error> {
        let mut list = Vec::new();
        while let Some(value) = values.next_element_seed(self)? {
            list.push(value);
        }
        Ok(Value::List(list))
    }

    fn visit_map<A: MapAccess<'de>>(self, mut pairs: A) -> Result<Value<'de>, A::Error> {
        let mut map = Vec::new();
        while let Some((name, value)) = pairs.next_entry_seed(Names(self), self)? {
            map.push((name, value));
        }
        Ok(Value::Map(Map(map)))
    }
}

/// Reads names in maps, borrowed where they can be.
struct Names<'c>(Values<'c>);

impl<'de> DeserializeSeed<'de> for Names<'_> {
    type Value = Cow<'de, str>;

    fn deserialize<D: Deserializer<'de>>(self, deserializer: D) -> Result<Cow<'de, str>, D::Error> {
        match self.0.deserialize(deserializer)? {
            Value::Text(text) => Ok(text),
            _ => Err(serde::de::Error::custom("a name is a text")),
        }
    }
}

#[cfg(test)]
mod tests {
    use super::*;

    #[test]
    fn values_of_all_kinds() {
        let text = r#"{"a":[null,true,-1,1.5,18446744073709551615,"x\n"],"a":1,"b":"y"}"#;
        let Value::Map(map) = serde_json::from_str(text).unwrap() else { panic!() };
        assert_eq!(map.get("a"), Some(&Value::Integer(1)));
        assert!(matches!(map.get("b"), Some(Value::Text(Cow::Borrowed("y")))));
        let expected = vec![
            Value::Null,
            Value::Flag(true),
            Value::Integer(-1),
            Value::OtherNumber,
            Value::OtherNumber,
            Value::Text("x\n".into()),
        ];
        assert_eq!(map.0[0].1, Value::List(expected));
    }

    #[test]
    fn values_have_a_bound_that_names_and_lists_in_lists_count_for() {
        let is_read = |text: &str| serde_json::from_str::<Value>(text).is_ok();
        let list = |count: usize| format!("[{}1]", "1,".repeat(count - 1));
        assert!(is_read(&list(MOST_VALUES - 1)) && !is_read(&list(MOST_VALUES)));
        let lists = |count: usize| format!("[{}[]]", "[],".repeat(count - 1));
        assert!(is_read(&lists(MOST_VALUES - 1)) && !is_read(&lists(MOST_VALUES)));
        let map = |count: usize| format!("{{{}\"a\":1}}", "\"a\":1,".repeat(count - 1));
        assert!(is_read(&map(MOST_VALUES / 2 - 1)) && !is_read(&map(MOST_VALUES / 2)));
    }
}
