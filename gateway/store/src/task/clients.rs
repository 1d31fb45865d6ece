//! The clients by which the program is asked. Asks that are with the program at the same time have different ones.

/// There are so many, from 1 on.
pub(super) const CLIENTS: u32 = 256;

/// So many of them read the parts of messages, and nothing else: the program keeps the last reply to each client.
const READERS: u32 = 8;

/// Those that are free.
pub(super) struct Clients {
    ordinary: Vec<u32>,
    readers: Vec<u32>,
}

impl Clients {
    /// All are free.
    pub(super) fn new() -> Clients {
        Clients { ordinary: (READERS + 1..=CLIENTS).rev().collect(), readers: (1..=READERS).collect() }
    }

    pub(super) fn has(&self, is_reader: bool) -> bool {
        !if is_reader { &self.readers } else { &self.ordinary }.is_empty()
    }

    /// How many there are for all but reads.
    pub(super) fn count(&self) -> usize {
        self.ordinary.len()
    }

    pub(super) fn take(&mut self, is_reader: bool) -> Option<u32> {
        if is_reader {
            self.readers.pop()
        } else {
            self.ordinary.pop()
        }
    }

    pub(super) fn give_back(&mut self, client: u32) {
        if client <= READERS {
            self.readers.push(client);
        } else {
            self.ordinary.push(client);
        }
    }
}

#[cfg(test)]
mod tests {
    use super::*;

    #[test]
    fn readers_are_few_and_no_one_else() {
        let mut clients = Clients::new();
        let readers: Vec<_> = std::iter::from_fn(|| clients.take(true)).collect();
        let others: Vec<_> = std::iter::from_fn(|| clients.take(false)).collect();
        assert_eq!((readers.len(), others.len(), clients.has(true), clients.has(false)), (8, 248, false, false));
        assert!(readers.iter().all(|reader| !others.contains(reader)));
        readers.iter().for_each(|reader| clients.give_back(*reader));
        assert_eq!((clients.count(), clients.take(false)), (0, None));
        clients.give_back(others[0]);
        assert_eq!(clients.take(false), Some(others[0]));
    }
}
