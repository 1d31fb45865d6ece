//! Messages from one party that the server was given, and hasn't taken yet.

use std::collections::VecDeque;

use bytes::Bytes;

use hobbychair_bytes::commands::{Command, Party, Place, BEGIN_AGAIN, NOT_NEXT, UNREADABLE};
use hobbychair_bytes::messages::Message;

/// The pieces of one party. They are given ahead; those that were refused are given again, in order, and so are all
/// behind them.
pub struct Inbox {
    from: Party,
    /// All pieces of messages that weren't taken.
    pieces: VecDeque<(Place, Bytes)>,
    /// So many of the pieces were given.
    given: usize,
    /// So many takes weren't answered.
    open: usize,
    /// From which place on pieces are given again, once nothing is open.
    again: Option<Place>,
    is_broken: bool,
}

/// What came of a take.
#[derive(Debug, PartialEq, Eq)]
pub enum Taken {
    Yes,
    /// It is given again once there may be memory.
    Later,
    /// What comes from this party is no message: nothing of it is given any more.
    Broken(u32),
}

impl Inbox {
    pub fn new(from: Party) -> Inbox {
        Inbox { from, pieces: VecDeque::new(), given: 0, open: 0, again: None, is_broken: false }
    }

    /// A piece has come.
    pub fn push(&mut self, place: Place, piece: Bytes) {
        if !self.is_broken {
            self.pieces.push_back((place, piece));
        }
    }

    /// The next piece for the server, if it may be given now.
    pub fn next(&mut self) -> Option<(Place, Command)> {
        if self.again.is_some() || self.is_broken {
            return None;
        }
        let (place, piece) = self.pieces.get(self.given)?;
        self.given += 1;
        self.open += 1;
        Some((*place, Command::Take { from: self.from, place: *place, piece: piece.clone() }))
    }

    /// The chunks of a snapshot, all of whose pieces were given.
    pub fn chunks(&self, number: u64) -> Vec<Bytes> {
        let of_message = self.pieces.iter().filter(|(place, _)| place.number == number);
        of_message.filter_map(|(_, piece)| Message::chunk_of(piece)).collect()
    }

    /// The server has taken the piece, or refused it with a number.
    pub fn answered(&mut self, place: Place, refused: Option<u32>) -> Taken {
        self.open = self.open.saturating_sub(1);
        match refused {
            None => {
                self.took(place);
                Taken::Yes
            }
            Some(NOT_NEXT) if self.again.is_some() || self.is_broken => Taken::Later,
            Some(BEGIN_AGAIN) => self.give_again(Place { index: 0, ..place }),
            Some(code) if code == NOT_NEXT || UNREADABLE.contains(&code) => {
                self.is_broken = true;
                self.pieces.clear();
                self.given = 0;
                Taken::Broken(code)
            }
            // There was no memory, or an end that no list comes to.
            Some(_) => self.give_again(place),
        }
    }

    fn give_again(&mut self, place: Place) -> Taken {
        self.again = Some(self.again.map_or(place, |again| again.min(place)));
        Taken::Later
    }

    /// Whether pieces wait for memory.
    pub fn waits(&self) -> bool {
        self.again.is_some() && self.open == 0
    }

    /// There may be memory again.
    pub fn begin_again(&mut self) {
        if self.waits() {
            if let Some(again) = self.again.take() {
                self.given = self.pieces.partition_point(|(place, _)| *place < again);
            }
        }
    }

    /// Forgets a message that is whole.
    fn took(&mut self, place: Place) {
        let is_whole =
            self.pieces.iter().find(|(one, _)| *one == place).is_some_and(|(_, piece)| Message::ends_with(piece));
        while is_whole && self.pieces.front().is_some_and(|(first, _)| *first <= place) {
            self.pieces.pop_front();
            self.given = self.given.saturating_sub(1);
        }
    }
}

#[cfg(test)]
mod tests {
    use hobbychair_bytes::commands::NO_MEMORY;

    use super::*;

    const CHUNK: &[u8] = &[1, 1, 7];
    const LAST: &[u8] = &[1, 13];
    const WHOLE: &[u8] = &[1, 3];

    fn inbox(pieces: &[(u64, u64, &'static [u8])]) -> Inbox {
        let mut inbox = Inbox::new(Party::Server(2));
        for (number, index, piece) in pieces {
            inbox.push(Place { number: *number, index: *index }, Bytes::from_static(piece));
        }
        inbox
    }

    fn given(inbox: &mut Inbox) -> Vec<(u64, u64)> {
        std::iter::from_fn(|| inbox.next()).map(|(place, _)| (place.number, place.index)).collect()
    }

    fn answer(inbox: &mut Inbox, number: u64, index: u64, refused: Option<u32>) -> Taken {
        inbox.answered(Place { number, index }, refused)
    }

    #[test]
    fn what_was_refused_is_given_again_with_all_behind_it() {
        let mut inbox = inbox(&[(1, 0, WHOLE), (2, 0, WHOLE), (3, 0, WHOLE)]);
        assert_eq!(given(&mut inbox), [(1, 0), (2, 0), (3, 0)]);
        assert_eq!(answer(&mut inbox, 1, 0, None), Taken::Yes);
        assert_eq!(answer(&mut inbox, 2, 0, Some(NO_MEMORY)), Taken::Later);
        inbox.push(Place { number: 4, index: 0 }, Bytes::from_static(WHOLE));
        inbox.begin_again();
        assert_eq!(given(&mut inbox), [], "the third one isn't answered yet");
        assert_eq!(answer(&mut inbox, 3, 0, Some(NOT_NEXT)), Taken::Later);
        assert!(inbox.waits());
        inbox.begin_again();
        assert_eq!(given(&mut inbox), [(2, 0), (3, 0), (4, 0)]);
    }

    #[test]
    fn pieces_are_kept_until_their_message_is_taken() {
        let mut inbox = inbox(&[(1, 0, CHUNK), (1, 1, CHUNK), (1, 2, LAST), (2, 0, WHOLE)]);
        assert_eq!(given(&mut inbox).len(), 4);
        answer(&mut inbox, 1, 0, None);
        answer(&mut inbox, 1, 1, Some(BEGIN_AGAIN));
        answer(&mut inbox, 1, 2, Some(NOT_NEXT));
        answer(&mut inbox, 2, 0, Some(NOT_NEXT));
        inbox.begin_again();
        assert_eq!(given(&mut inbox), [(1, 0), (1, 1), (1, 2), (2, 0)]);
        for (number, index) in [(1, 0), (1, 1), (1, 2)] {
            answer(&mut inbox, number, index, None);
        }
        assert_eq!(inbox.pieces.len(), 1);
        answer(&mut inbox, 2, 0, None);
        assert!(inbox.pieces.is_empty() && inbox.given == 0 && !inbox.waits());
    }

    #[test]
    fn what_is_no_message_ends_the_link() {
        let mut inbox = inbox(&[(1, 0, WHOLE), (2, 0, WHOLE)]);
        given(&mut inbox);
        assert_eq!(answer(&mut inbox, 1, 0, Some(92)), Taken::Broken(92));
        assert_eq!(answer(&mut inbox, 2, 0, Some(NOT_NEXT)), Taken::Later);
        inbox.push(Place { number: 3, index: 0 }, Bytes::from_static(WHOLE));
        assert_eq!(given(&mut inbox), []);
    }
}
