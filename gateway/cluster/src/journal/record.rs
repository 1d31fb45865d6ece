//! What stands in a frame of a journal.

use std::collections::BTreeSet;

use bytes::Bytes;
use hobbychair_bytes::parts::{Malformed, Parts, Reader};
use serde::{Deserialize, Serialize};

use crate::records::{self, Chain};

/// The version of all that is here, and of what gateways have in the store.
pub const VERSION: u32 = 2;

/// What a part of a journal begins with.
#[derive(Clone, Debug, PartialEq, Eq, Serialize, Deserialize)]
pub struct Head {
    pub version: u32,
    pub cluster: String,
    pub incarnation: String,
    /// The incarnation that was recovered to make this one.
    #[serde(default, skip_serializing_if = "Option::is_none")]
    pub follows: Option<String>,
    /// How many servers the first chain has.
    pub servers: u32,
    /// Whether all processes of the cluster have certificates.
    #[serde(default)]
    pub has_certificates: bool,
    /// Whether nothing left the node before it was on the disk.
    #[serde(default)]
    pub is_durable: bool,
    /// Whose journal it is.
    pub server: u32,
    /// How many entries there are ahead of the part; of a store, how many it is made of.
    pub count: u64,
    /// What was known of the master's log by then.
    pub known: Known,
}

/// What a node knows of the master's log.
#[derive(Clone, Debug, Default, PartialEq, Eq, Serialize, Deserialize)]
pub struct Known {
    /// The chain behind the last line that it has read.
    pub chain: Option<Chain>,
    /// All servers that it knows to be detected.
    pub gone: BTreeSet<u32>,
}

/// An entry of the list.
#[derive(Clone, Debug, PartialEq, Eq)]
pub struct Entry {
    /// In milliseconds.
    pub moment: u64,
    /// As it is written (docs/WIRE.md).
    pub request: Bytes,
}

#[derive(Clone, Debug, PartialEq, Eq)]
pub enum Record {
    Head(Head),
    Entry(Entry),
    Known(Known),
    /// The next chunk of a store (docs/WIRE.md, "A store").
    Chunk(Bytes),
    /// The store is whole.
    End,
}

impl Record {
    /// Appends the record's bytes.
    pub fn write(&self, out: &mut Vec<u8>) {
        match self {
            Record::Head(head) => {
                out.push(0);
                out.run(records::text(head).as_bytes());
            }
            Record::Entry(Entry { moment, request }) => {
                out.push(1);
                out.number64(*moment);
                out.run(request);
            }
            Record::Known(known) => {
                out.push(2);
                out.run(records::text(known).as_bytes());
            }
            Record::Chunk(chunk) => {
                out.push(3);
                out.run(chunk);
            }
            Record::End => out.push(4),
        }
    }

    /// Reads all records of a frame.
    pub fn read_all(payload: Bytes) -> Result<Vec<Record>, Malformed> {
        let mut reader = Reader::of(payload);
        let mut records = Vec::new();
        while !reader.is_empty() {
            records.push(Record::read(&mut reader)?);
        }
        Ok(records)
    }

    fn read(reader: &mut Reader) -> Result<Record, Malformed> {
        Ok(match reader.byte()? {
            0 => Record::Head(json(reader)?),
            1 => Record::Entry(Entry { moment: reader.number64()?, request: reader.run()? }),
            2 => Record::Known(json(reader)?),
            3 => Record::Chunk(reader.run()?),
            4 => Record::End,
            _ => return Err(Malformed("its kind is none of a journal's records")),
        })
    }
}

fn json<T: for<'de> Deserialize<'de>>(reader: &mut Reader) -> Result<T, Malformed> {
    serde_json::from_slice(&reader.run()?).map_err(|_| Malformed("a record isn't what its kind says"))
}
