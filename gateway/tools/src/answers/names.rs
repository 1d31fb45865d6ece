//! Which incarnation of a queue a message was sent to: the store's answer to a send doesn't say.

use std::collections::HashMap;

use hobbychair_bytes::values::{Part, StoreReply, StoreRequest};

/// The queues of a store that live, behind the answers so far.
#[derive(Default)]
pub struct Names {
    incarnations: HashMap<String, u64>,
    clients: HashMap<u32, LastRequest>,
}

/// The largest number of a client, and the incarnation to which it went.
struct LastRequest {
    number: u64,
    incarnation: u64,
}

impl Names {
    /// Notes a part of the store with which the file begins.
    pub fn load(&mut self, part: &Part<'_>) {
        match part {
            // Of which incarnation its message was isn't told there.
            Part::Client { client, number, .. } => {
                self.clients.insert(*client, LastRequest { number: *number, incarnation: 0 });
            }
            Part::Name { name, queue: Some(queue), .. } => {
                self.incarnations.insert(name.to_string(), queue.incarnation);
            }
            _ => {}
        }
    }

    /// The incarnation to which a request went that was answered so: of a repeat that of the first one. 0: it went to none, or that isn't
    /// known.
    pub fn incarnation(&mut self, request: &StoreRequest, reply: &StoreReply) -> u64 {
        if let Some(last) = self.clients.get(&request.client).filter(|last| request.number <= last.number) {
            return last.incarnation;
        }
        let incarnation = self.incarnations.get(&request.queue).copied().unwrap_or(0);
        match reply {
            StoreReply::Created(created) => drop(self.incarnations.insert(request.queue.clone(), *created)),
            StoreReply::Removed => drop(self.incarnations.remove(&request.queue)),
            _ => {}
        }
        self.clients.insert(request.client, LastRequest { number: request.number, incarnation });
        incarnation
    }
}

#[cfg(test)]
mod tests {
    use super::*;

    use hobbychair_bytes::values::StoreAsk;

    #[test]
    fn a_send_goes_to_the_incarnation_that_lives_and_a_repeat_to_that_of_the_first() {
        let mut names = Names::default();
        let mut of = |client: u32, number: u64, reply: StoreReply| {
            names.incarnation(&StoreRequest { client, number, queue: "q.fifo".into(), ask: StoreAsk::Remove }, &reply)
        };
        of(1, 1, StoreReply::Created(1));
        assert_eq!(of(1, 2, StoreReply::Sent(1)), 1);
        of(2, 3, StoreReply::Removed);
        of(2, 4, StoreReply::Created(2));
        assert_eq!((of(3, 5, StoreReply::Sent(1)), of(1, 2, StoreReply::Sent(1))), (2, 1));
        // A repeated creation brings nothing back.
        of(2, 6, StoreReply::Removed);
        of(1, 1, StoreReply::Created(1));
        assert_eq!(of(3, 7, StoreReply::Refused(1)), 0);
    }
}
