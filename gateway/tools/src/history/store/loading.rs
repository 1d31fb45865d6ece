//! A store that begins with what stands for earlier requests: it is made of its bytes (`docs/WIRE.md`, "A store").

use hobbychair_bytes::values::{Fault, Part, StoreReader};

use super::queue::{Loaded, StoreQueue};
use super::{LastReply, NameRecord, Store};

/// A store that isn't whole yet.
#[derive(Default)]
pub struct Loading {
    reader: StoreReader,
    made: Made,
}

#[derive(Default)]
struct Made {
    store: Store,
    /// The moment of its last request.
    last: u64,
    /// The name to whose queue messages and accepted sends belong.
    name: String,
}

impl Loading {
    /// Takes up the next chunk. After a fault it is of no use any more.
    pub fn feed(&mut self, chunk: &[u8]) -> Result<(), Fault> {
        let made = &mut self.made;
        self.reader.feed(chunk, |part| made.take(part))
    }

    /// The store, whose kept replies aren't known; a fault where it lacks something.
    pub fn end(self) -> Result<Store, Fault> {
        self.reader.end()?;
        Ok(self.made.store)
    }
}

impl Made {
    /// Takes up a part that can be next.
    fn take(&mut self, part: Part<'_>) {
        match part {
            Part::Start { last, .. } => self.last = last,
            Part::Client { client, number, .. } => {
                drop(self.store.clients.insert(client, LastReply { number, reply: None }))
            }
            Part::Name { name, creations, removed, queue } => {
                self.name = name.into();
                let queue = queue.as_ref().map(StoreQueue::of);
                self.store.names.insert(name.into(), NameRecord { creations, removed, queue });
            }
            Part::Message { sequence, group, body, handings, handed, until } => {
                let (last, message) = (self.last, Loaded { body, handings, handed, until });
                if let Some(queue) = self.queue() {
                    queue.load(sequence, group, message, last);
                }
            }
            Part::Accepted { id, moment, sequence } => {
                if let Some(queue) = self.queue() {
                    queue.accept(id.into(), moment, sequence);
                }
            }
            Part::End => {}
        }
    }

    fn queue(&mut self) -> Option<&mut StoreQueue> {
        self.store.names.get_mut(&self.name)?.queue.as_mut()
    }
}
