//! Reads the bytes of a store, chunk by chunk (`docs/WIRE.md`, "A store").
//!
//! Each part is told as soon as it is read, and nothing of it is kept but what later parts are tested by: names, ids,
//! clients, and digests of bodies.

use std::collections::HashSet;

use super::parts::{next_part, Digest, Mention};
use super::reader::ValueReader;
use super::{Fault, Part, QueuePart};
use crate::moment::Moment;

/// A reader of one store. After a fault it reads nothing more.
#[derive(Default)]
pub struct StoreReader {
    start: Option<Start>,
    is_whole: bool,
    clients: HashSet<u32>,
    /// The bodies that kept replies have mentioned.
    bodies: HashSet<Digest>,
    names: HashSet<Box<str>>,
    /// The last one, whose messages and accepted sends may follow.
    name: Option<Name>,
}

#[derive(Clone, Copy)]
struct Start {
    entries: u64,
    last: Moment,
}

struct Name {
    name: Box<str>,
    creations: u64,
    queue: Option<QueuePart>,
    last_message: u64,
    /// The ids of its accepted sends, and the moment of the last one.
    ids: HashSet<Box<str>>,
    last_accepted: Moment,
}

fn fits(does: bool) -> Result<(), Fault> {
    does.then_some(()).ok_or(Fault::BadNumber)
}

impl StoreReader {
    /// Reads a chunk, and tells its parts in their order. Those before a fault are told, too.
    pub fn feed<'a>(&mut self, chunk: &'a [u8], mut on_part: impl FnMut(Part<'a>)) -> Result<(), Fault> {
        let mut bytes = ValueReader::of_whole(chunk)?;
        let mut mentions = Vec::new();
        while !bytes.is_empty() {
            let part = next_part(&mut bytes, &mut mentions)?;
            self.place(&part, &mut mentions)?;
            on_part(part);
        }
        Ok(())
    }

    /// Refuses a store that has no end.
    pub fn end(&self) -> Result<(), Fault> {
        self.is_whole.then_some(()).ok_or(Fault::Truncated)
    }

    /// Refuses a part that can't be next.
    fn place(&mut self, part: &Part<'_>, mentions: &mut Vec<Mention>) -> Result<(), Fault> {
        let start = match (part, self.start) {
            (Part::Start { entries, last }, None) => {
                self.start = Some(Start { entries: *entries, last: *last });
                return Ok(());
            }
            (Part::Start { .. }, Some(_)) | (_, None) => return Err(Fault::BadTag),
            _ if self.is_whole => return Err(Fault::BadTag),
            (_, Some(start)) => start,
        };
        match part {
            Part::Start { .. } => Ok(()),
            Part::Client { client, .. } => self.place_client(*client, mentions),
            Part::Name { name, creations, queue, .. } => {
                self.close(start)?;
                let (last_message, ids, last_accepted) = (0, HashSet::new(), 0);
                let (name, creations, queue) = ((*name).into(), *creations, *queue);
                self.name = Some(Name { name, creations, queue, last_message, ids, last_accepted });
                Ok(())
            }
            Part::Message { sequence, handings, .. } => {
                let (name, queue) = self.living()?;
                if !name.ids.is_empty() {
                    return Err(Fault::BadTag);
                }
                let is_next = *sequence > name.last_message && *sequence <= queue.sent;
                fits(is_next && *handings <= queue.uses)?;
                name.last_message = *sequence;
                Ok(())
            }
            Part::Accepted { id, moment, .. } => {
                let (name, queue) = self.living()?;
                let is_in_order = *moment >= name.last_accepted && *moment <= queue.last;
                fits(is_in_order && (name.ids.len() as u64) < queue.sent)?;
                name.last_accepted = *moment;
                fits(name.ids.insert((*id).into()))
            }
            Part::End => {
                self.close(start)?;
                self.is_whole = true;
                Ok(())
            }
        }
    }

    fn place_client(&mut self, client: u32, mentions: &mut Vec<Mention>) -> Result<(), Fault> {
        if self.name.is_some() {
            return Err(Fault::BadTag);
        }
        fits(self.clients.insert(client))?;
        for mention in mentions.drain(..) {
            match mention {
                Mention::First(body) => fits(self.bodies.insert(body))?,
                Mention::Again(number) => fits(number < self.bodies.len() as u64)?,
            }
        }
        Ok(())
    }

    /// The last name and its queue, if it lives.
    fn living(&mut self) -> Result<(&mut Name, QueuePart), Fault> {
        let name = self.name.as_mut().ok_or(Fault::BadTag)?;
        let queue = name.queue.ok_or(Fault::BadTag)?;
        Ok((name, queue))
    }

    /// Nothing comes behind the last name any more. Only now it is tested.
    fn close(&mut self, start: Start) -> Result<(), Fault> {
        let Some(Name { name, creations, queue, .. }) = self.name.take() else { return Ok(()) };
        let is_queue_good = queue.map_or(true, |queue| queue.uses <= start.entries && queue.last <= start.last);
        fits(creations <= start.entries && is_queue_good)?;
        fits(self.names.insert(name))
    }
}
