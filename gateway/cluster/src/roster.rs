//! What the master's log says of the chain (docs/CHAIN.md, "The master").
//!
//! The process `cq master` keeps the master, and says whom it tells what. What it knows of the chain it tells nobody, so
//! the same rules stand here, of the chain alone.

use std::collections::{BTreeMap, BTreeSet};

use hobbychair_bytes::messages::Message;

use crate::records::{Chain, Line};

/// No chain has more members.
pub const MOST_MEMBERS: usize = 8;

/// The chain behind the lines of the log so far.
#[derive(Clone, Debug, PartialEq, Eq)]
pub struct Roster {
    /// The first chain had servers 1 to this one.
    size: u32,
    /// So many lines were fed.
    pub line: u64,
    pub members: Vec<u32>,
    pub joiner: Option<u32>,
    was_told: bool,
    is_ready: bool,
    used: BTreeSet<u32>,
    detected: BTreeSet<u32>,
    /// Servers that have said that they are ready.
    have_acted: BTreeSet<u32>,
    /// The number of the last message that was taken from a server.
    taken: BTreeMap<u32, u64>,
    /// The number of the last message for a server.
    told: BTreeMap<u32, u64>,
}

impl Roster {
    pub fn of_first_chain(size: u32) -> Roster {
        Roster {
            size,
            line: 0,
            members: (1..=size).collect(),
            joiner: None,
            was_told: true,
            is_ready: true,
            used: (1..=size).collect(),
            detected: BTreeSet::new(),
            have_acted: BTreeSet::new(),
            taken: BTreeMap::new(),
            told: BTreeMap::new(),
        }
    }

    /// Goes on from a chain as it stands in etcd. Of messages nothing is known then.
    pub fn take_over(&mut self, chain: &Chain) {
        self.line = chain.line;
        self.members = chain.members.clone();
        self.joiner = chain.joiner;
        self.is_ready = chain.is_ready;
        self.used = chain.used.iter().copied().collect();
        self.have_acted = chain.full.iter().copied().collect();
    }

    /// Feeds the next line. Behind it the master has put messages for servers, with these numbers.
    pub fn feed(&mut self, line: &Line, orders: impl IntoIterator<Item = (u32, u64)>) {
        self.line += 1;
        match line {
            Line::Detect { server, .. } => self.detect(*server),
            Line::Join { server } => {
                self.used.insert(*server);
                self.joiner = Some(*server);
            }
            Line::Take { server, number, piece } => {
                self.taken.insert(*server, *number);
                // What can't be read is none of these.
                self.take(*server, Message::read(&piece.0).unwrap_or(Message::Other));
            }
        }
        self.told.extend(orders);
    }

    fn detect(&mut self, server: u32) {
        self.detected.insert(server);
        if self.joiner == Some(server) {
            self.joiner = None;
            return;
        }
        let was_last = self.members.last() == Some(&server);
        let was_head = self.members.first() == Some(&server);
        self.members.retain(|member| *member != server);
        if was_last && !was_head {
            self.was_told = true;
            self.is_ready = false;
            self.joiner = None;
        }
    }

    fn take(&mut self, server: u32, message: Message) {
        let last = self.members.last().copied();
        match message {
            Message::Adopted { successor } if last == Some(successor) => self.was_told = true,
            Message::Ready => {
                self.have_acted.insert(server);
                if last == Some(server) {
                    self.is_ready = true;
                }
            }
            Message::Caught { predecessor } if self.joiner == Some(server) && last == Some(predecessor) => {
                self.members.push(server);
                self.joiner = None;
                self.was_told = false;
                self.is_ready = false;
            }
            _ => {}
        }
    }

    /// The joiner, and then the members.
    pub fn line_of_servers(&self) -> impl Iterator<Item = u32> + '_ {
        self.joiner.into_iter().chain(self.members.iter().copied())
    }

    /// Whether a member has all that was acknowledged, as far as the log says.
    pub fn is_known_full(&self, server: u32) -> bool {
        self.members.contains(&server) && (server <= self.size || self.have_acted.contains(&server))
    }

    pub fn known_full(&self) -> Vec<u32> {
        self.members.iter().copied().filter(|member| self.is_known_full(*member)).collect()
    }

    pub fn is_detected(&self, server: u32) -> bool {
        self.detected.contains(&server)
    }

    /// Whether the master takes a server that was never in the chain.
    pub fn may_join(&self, server: u32) -> bool {
        self.is_ready && self.joiner.is_none() && self.members.len() < MOST_MEMBERS && !self.used.contains(&server)
    }

    /// The number of the next message that the master takes from a server.
    pub fn next_of(&self, server: u32) -> u64 {
        self.taken.get(&server).map_or(1, |taken| taken + 1)
    }

    /// How many messages the master has put for a server.
    pub fn orders_for(&self, server: u32) -> u64 {
        self.told.get(&server).copied().unwrap_or(0)
    }

    /// The members from head to tail, and who joins, for people.
    pub fn in_words(&self) -> String {
        let members: Vec<_> = self.members.iter().map(u32::to_string).collect();
        let joins = self.joiner.map_or_else(String::new, |joiner| format!(", and {joiner} joins"));
        format!("{}{joins}", members.join(", "))
    }

    pub fn chain(&self) -> Chain {
        Chain {
            line: self.line,
            members: self.members.clone(),
            joiner: self.joiner,
            is_ready: self.is_ready,
            full: self.known_full(),
            used: self.used.iter().copied().collect(),
        }
    }
}

#[cfg(test)]
mod tests {
    use bytes::Bytes;
    use hobbychair_bytes::parts::{frame, Parts};

    use super::*;
    use crate::records::Piece;

    fn take(server: u32, number: u64, kind: u8, about: Option<u32>) -> Line {
        let piece = frame(kind, |out| about.into_iter().for_each(|server| out.number32(server)));
        Line::Take { server, number, piece: Piece(Bytes::from(piece).slice(4..)) }
    }

    #[test]
    fn a_server_joins_in_two_phases() {
        let mut roster = Roster::of_first_chain(3);
        assert!(roster.may_join(4) && !roster.may_join(3));
        roster.feed(&Line::Join { server: 4 }, [(4, 1)]);
        assert!(!roster.may_join(5) && roster.orders_for(4) == 1);
        assert_eq!(roster.in_words(), "1, 2, 3, and 4 joins");
        roster.feed(&take(4, 1, 10, Some(2)), []);
        assert_eq!(roster.joiner, Some(4), "it says so of another predecessor");
        roster.feed(&take(4, 2, 10, Some(3)), [(3, 1)]);
        assert_eq!((&roster.members[..], roster.joiner, roster.is_ready), (&[1, 2, 3, 4][..], None, false));
        assert_eq!((roster.known_full(), &roster.in_words()[..]), (vec![1, 2, 3], "1, 2, 3, 4"));
        roster.feed(&take(3, 1, 9, Some(4)), [(4, 2)]);
        roster.feed(&take(4, 3, 11, None), []);
        assert_eq!(roster.known_full(), [1, 2, 3, 4]);
        assert!(roster.is_ready && roster.next_of(4) == 4 && roster.next_of(1) == 1 && roster.line == 5);
    }

    #[test]
    fn a_lost_tail_drops_the_joiner() {
        let mut roster = Roster::of_first_chain(2);
        roster.feed(&Line::Join { server: 3 }, []);
        roster.feed(&Line::detect(2), []);
        assert_eq!((&roster.members[..], roster.joiner, roster.is_ready), (&[1][..], None, false));
        assert!(roster.chain().used.contains(&3) && !roster.is_known_full(3) && roster.is_detected(2));
        roster.feed(&take(1, 1, 11, None), []);
        assert!(roster.may_join(4) && !roster.may_join(3));
    }

    #[test]
    fn a_lost_joiner_changes_nothing_else() {
        let mut roster = Roster::of_first_chain(2);
        let before = roster.chain();
        roster.feed(&Line::Join { server: 3 }, []);
        roster.feed(&Line::detect(3), []);
        let behind = roster.chain();
        assert_eq!((behind.members, behind.joiner, behind.is_ready), (before.members, None, true));
    }
}
