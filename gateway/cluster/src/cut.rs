//! Which links carry nothing, as one candidate for the master sees it, and who is given up for it. It is a guess, too.
//!
//! Beats go by etcd, so two servers can beat whose link carries nothing, and then the chain stands still. Of its two ends
//! the one is given up that stands in contact with fewer others: so a server whose network fails, one way or both, doesn't
//! have the others thrown out one by one.

use std::collections::BTreeMap;
use std::time::Duration;

use crate::roster::Roster;

/// Two servers that beat, of which one hasn't heard the other for so long, are cut off from each other.
const CUT: Duration = Duration::from_secs(2);

/// Who doesn't hear whom, and since when.
#[derive(Debug, Default)]
pub struct Unheard {
    since: BTreeMap<(u32, u32), Duration>,
}

/// Two servers that need each other and are cut off, the one that comes earlier in the chain first.
#[derive(Clone, Copy, Debug, PartialEq, Eq)]
pub struct Cut {
    pub first: u32,
    pub second: u32,
}

impl Unheard {
    /// Notes who hears whom at this time of contact. `hears` says nothing of a server that doesn't beat, or of which isn't known
    /// whether it does.
    pub fn look(&mut self, roster: &Roster, contact: Duration, hears: impl Fn(u32, u32) -> Option<bool>) {
        let servers: Vec<u32> = roster.line_of_servers().collect();
        let pairs = servers.iter().flat_map(|one| servers.iter().map(move |other| (*one, *other)));
        let unheard = pairs.filter(|(one, other)| one != other && hears(*one, *other) == Some(false));
        self.since = unheard.map(|pair| (pair, self.since.get(&pair).copied().unwrap_or(contact))).collect();
    }

    /// All begin anew.
    pub fn begin_anew(&mut self, contact: Duration) {
        self.since.values_mut().for_each(|since| *since = contact);
    }

    /// Whoever needs each other and has been cut off for long.
    pub fn cuts(&self, roster: &Roster, contact: Duration) -> Vec<Cut> {
        let is_old = |one: u32, other: u32| {
            self.since.get(&(one, other)).is_some_and(|since| contact.saturating_sub(*since) > CUT)
        };
        let is_cut = |cut: &Cut| is_old(cut.first, cut.second) || is_old(cut.second, cut.first);
        neighbours(roster).into_iter().filter(is_cut).collect()
    }
}

/// Servers that need each other: requests and entries go from one to the next, and answers from the last to the first.
fn neighbours(roster: &Roster) -> Vec<Cut> {
    let members = &roster.members;
    let mut pairs: Vec<Cut> = members.windows(2).map(|pair| Cut { first: pair[0], second: pair[1] }).collect();
    if let (Some(first), Some(second)) = (members.first(), members.last()) {
        if members.len() > 2 {
            pairs.push(Cut { first: *first, second: *second });
        }
        pairs.extend(roster.joiner.map(|joiner| Cut { first: *second, second: joiner }));
    }
    pairs
}

impl Cut {
    /// Its ends, the one first that is to be given up: the one that joins, or that is in contact with fewer, each hearing the
    /// other, or the later one.
    pub fn ends(&self, roster: &Roster, hears: impl Fn(u32, u32) -> Option<bool>) -> [u32; 2] {
        let Cut { first, second } = *self;
        let contacts = |server: u32| {
            let others = roster.members.iter().copied().filter(|member| *member != server);
            others.filter(|member| hears(*member, server).zip(hears(server, *member)) == Some((true, true))).count()
        };
        if roster.joiner != Some(second) && contacts(first) < contacts(second) {
            [first, second]
        } else {
            [second, first]
        }
    }
}

#[cfg(test)]
mod tests {
    use super::*;

    const HALF: Duration = Duration::from_millis(500);

    /// Looks twice a second for so long, where these hear nothing of each other.
    fn look(unheard: &mut Unheard, roster: &Roster, from: u32, count: u32, deaf: &[(u32, u32)]) -> Duration {
        let mut contact = HALF * from;
        for _ in 0..count {
            contact += HALF;
            unheard.look(roster, contact, |one, other| Some(!deaf.contains(&(one, other))));
        }
        contact
    }

    #[test]
    fn neighbours_are_cut_off_after_two_seconds_and_others_never() {
        let roster = Roster::of_first_chain(4);
        let mut unheard = Unheard::default();
        let deaf = [(2, 3), (1, 3), (3, 1), (4, 1)];
        let contact = look(&mut unheard, &roster, 0, 5, &deaf);
        assert_eq!(unheard.cuts(&roster, contact), []);
        let contact = look(&mut unheard, &roster, 5, 1, &deaf);
        assert_eq!(unheard.cuts(&roster, contact), [Cut { first: 2, second: 3 }, Cut { first: 1, second: 4 }]);
        // One that is heard again begins anew.
        let contact = look(&mut unheard, &roster, 6, 1, &deaf[1..]);
        assert_eq!(unheard.cuts(&roster, contact), [Cut { first: 1, second: 4 }]);
        unheard.begin_anew(contact);
        assert_eq!(unheard.cuts(&roster, contact), []);
    }

    #[test]
    fn nothing_is_said_of_who_does_not_beat() {
        let roster = Roster::of_first_chain(2);
        let mut unheard = Unheard::default();
        for half in 1..10 {
            unheard.look(&roster, HALF * half, |one, _| (one == 1).then_some(true));
        }
        assert_eq!(unheard.cuts(&roster, HALF * 9), []);
    }

    #[test]
    fn who_is_in_contact_with_fewer_is_given_up_or_the_later_one_or_who_joins() {
        let mut roster = Roster::of_first_chain(3);
        let cut = Cut { first: 1, second: 2 };
        assert_eq!(cut.ends(&roster, |_, _| Some(true)), [2, 1]);
        assert_eq!(cut.ends(&roster, |_, server| Some(server != 1)), [1, 2], "nobody hears it");
        assert_eq!(cut.ends(&roster, |server, _| Some(server != 1)), [1, 2], "it hears nobody");
        assert_eq!(cut.ends(&roster, |server, _| Some(server != 2)), [2, 1]);
        assert_eq!(cut.ends(&roster, |_, server| (server != 2).then_some(true)), [2, 1]);
        roster.joiner = Some(4);
        let cut = Cut { first: 3, second: 4 };
        assert_eq!(cut.ends(&roster, |_, server| Some(server != 3)), [4, 3]);
    }
}
