//! The next line of the master's log, as a candidate sees it.

use std::collections::BTreeSet;
use std::time::Duration;

use bytes::Bytes;

use crate::cut::Cut;
use crate::etcd::{Guard, Operation};
use crate::records::{Keys, Line, Piece};
use crate::roster::Roster;
use crate::serving::Fault;
use crate::silence::Silence;

/// So many members are left at least where heads are given up for their gateways.
const LEAST_LEFT: usize = 2;

/// Why no second head is given up for its gateway.
const TOO_SOON: &str = "another head was given up for its gateway less than a minute ago";

/// A message of a server that waits for the master.
#[derive(Clone, Debug)]
pub struct Letter {
    pub server: u32,
    pub number: u64,
    pub piece: Bytes,
}

/// What a candidate does next.
#[derive(Debug, PartialEq, Eq)]
pub enum Decision {
    /// A line is appended if these guards hold, and this is done with it.
    Append {
        line: Line,
        guards: Vec<Guard>,
        also: Vec<Operation>,
    },
    /// A server was condemned, and can't be given up.
    Spare(u32),
    Nothing,
}

/// What a candidate knows.
pub struct View<'v> {
    pub keys: &'v Keys,
    pub roster: &'v Roster,
    pub silence: &'v Silence,
    pub now: Duration,
    /// In the order in which they came.
    pub letters: &'v [Letter],
    pub condemned: &'v BTreeSet<u32>,
}

impl View<'_> {
    /// What to do next, and why nothing is done about a server that is lost.
    pub fn decide(&self) -> (Decision, Option<String>) {
        if let Some(decision) = self.take() {
            return (decision, None);
        }
        let (lost, why) = self.detect();
        let decision = lost.or_else(|| self.join()).or_else(|| self.spare()).unwrap_or(Decision::Nothing);
        (decision, why)
    }

    fn take(&self) -> Option<Decision> {
        let is_next = |letter: &&Letter| {
            letter.number == self.roster.next_of(letter.server) && !self.roster.is_detected(letter.server)
        };
        self.letters.iter().find(is_next).map(|Letter { server, number, piece }| Decision::Append {
            line: Line::Take { server: *server, number: *number, piece: Piece(piece.clone()) },
            guards: vec![Guard::IsPresent(self.keys.letter(*server, *number))],
            also: vec![self.keys.without_letters(*server, *number)],
        })
    }

    /// The first server in the line that is lost and can be given up, or one that is cut off from another.
    fn detect(&self) -> (Option<Decision>, Option<String>) {
        let mut why = None;
        for server in self.roster.line_of_servers() {
            let is_condemned = self.condemned.contains(&server);
            let is_silent = self.silence.is_silent(server, self.roster, self.now);
            if !is_condemned && !is_silent {
                continue;
            }
            let may_hang = || (!is_silent).then(|| self.why_waited_for(server)).flatten();
            if let Some(reason) = self.why_kept(server).or_else(may_hang) {
                let is = if is_condemned { "condemned" } else { "silent" };
                why = Some(format!("server {server} is {is}, and {reason}"));
                continue;
            }
            let guard = if is_condemned {
                Guard::IsPresent(self.keys.condemned(server))
            } else {
                Guard::IsOfRevision(self.keys.beat(server), self.silence.revision(server))
            };
            if is_condemned {
                tracing::warn!(server, "a server is condemned: it is given up");
            } else {
                let silent_for = self.silence.silent_for(server).as_secs_f64();
                tracing::warn!(server, "a server hasn't beaten for {silent_for:.1} s: it is given up");
            }
            return (Some(self.detection(server, vec![guard])), why);
        }
        let (cut_off, why_cut_off_kept) = self.detect_cut_off();
        if cut_off.is_some() {
            return (cut_off, why);
        }
        let (unserving, why_unserving_kept) = self.detect_unserving();
        (unserving, why.or(why_cut_off_kept).or(why_unserving_kept))
    }

    /// One end of a link that carries nothing, though both ends beat.
    fn detect_cut_off(&self) -> (Option<Decision>, Option<String>) {
        let mut why = None;
        for (Cut { first, second }, ends) in self.silence.cut_off(self.roster, self.now) {
            if let Some(server) = ends.into_iter().find(|end| self.why_kept(*end).is_none()) {
                tracing::warn!(server, "servers {first} and {second} beat and don't hear each other");
                return (Some(self.detection(server, Vec::new())), None);
            }
            let reason = self.why_kept(ends[0]).unwrap_or_default();
            why = Some(format!("servers {first} and {second} don't hear each other, and {reason}"));
        }
        (None, why)
    }

    /// A head whose gateway doesn't serve.
    fn detect_unserving(&self) -> (Option<Decision>, Option<String>) {
        let Some((head, fault)) = self.silence.unserving(self.roster, self.now) else { return (None, None) };
        let is_too_soon = || self.silence.was_head_given_up().then_some(TOO_SOON);
        let why = self.why_unserved(head, &fault, |member| self.silence.is_ready(member));
        if let Some(why) = why.or_else(is_too_soon) {
            return (None, Some(format!("the gateway of server {head} {fault}, and {why}")));
        }
        tracing::warn!(server = head, "the gateway of the head {fault}: the head is given up");
        (Some(self.detection_of(Line::Detect { server: head, unserved: true }, head, Vec::new())), None)
    }

    /// Why a head isn't given up though its gateway doesn't serve: the gateway of another full member has to stand ready. What
    /// stands before that one would have to go, too, and behind that two members have to be left. `is_ready`: whether a gateway
    /// has stood ready for long, where it does so.
    pub fn why_unserved(&self, head: u32, fault: &Fault, is_ready: impl Fn(u32) -> bool) -> Option<&'static str> {
        if let Some(why) = self.why_kept(head) {
            return Some(why);
        }
        let would_serve = |server: &u32| {
            let is_other = *server != head && self.roster.is_known_full(*server);
            is_other && is_ready(*server) && self.silence.would_serve(*server, head, fault, self.now)
        };
        match self.roster.members.iter().position(would_serve) {
            None if *fault == Fault::Unreached => Some("no front reaches that of another member that stands ready"),
            None => Some("no other member's stands ready, or has for long"),
            Some(place) if self.roster.members.len() - place >= LEAST_LEFT => None,
            Some(1) => Some("without it one member would be left"),
            Some(_) => Some("without it and those behind it whose gateways don't stand ready one member would be left"),
        }
    }

    fn detection(&self, server: u32, guards: Vec<Guard>) -> Decision {
        self.detection_of(Line::detect(server), server, guards)
    }

    /// By this line a server is given up.
    fn detection_of(&self, line: Line, server: u32, guards: Vec<Guard>) -> Decision {
        let number = self.roster.line + 1;
        let also = vec![
            Operation::Put(self.keys.detected(server), number.to_string()),
            Operation::delete(&self.keys.beat(server)),
            Operation::delete(&self.keys.condemned(server)),
            self.keys.without_letters(server, u64::MAX - 1),
        ];
        Decision::Append { line, guards, also }
    }

    /// Why a server isn't given up though it seems to be lost: another member has to have all that was acknowledged, and
    /// to beat.
    pub fn why_kept(&self, server: u32) -> Option<&'static str> {
        if self.roster.joiner == Some(server) {
            return None;
        }
        let others = self.others(server);
        if others.is_empty() {
            return Some("no other member is known to have all that was acknowledged");
        }
        let is_any_fresh = others.iter().any(|other| self.silence.is_fresh(*other, self.now));
        (!is_any_fresh).then_some("no other member that has all that was acknowledged beats")
    }

    /// Why a server that beats isn't given up for its disk: where those of all others hang as well, nothing is won by that.
    fn why_waited_for(&self, server: u32) -> Option<&'static str> {
        let hangs = |server: &u32| self.silence.disk_hangs(*server);
        let others = self.others(server).into_iter().filter(|other| self.silence.is_fresh(*other, self.now));
        let hang_all = hangs(&server) && others.into_iter().all(|other| hangs(&other));
        hang_all.then_some("the disk of no other member ends a write either")
    }

    /// The other members that are known to have all that was acknowledged.
    fn others(&self, server: u32) -> Vec<u32> {
        self.roster.known_full().into_iter().filter(|other| *other != server).collect()
    }

    /// Whoever is condemned now isn't given up, or isn't in the chain.
    fn spare(&self) -> Option<Decision> {
        self.condemned.first().copied().map(Decision::Spare)
    }

    fn join(&self) -> Option<Decision> {
        let may_join = |server: &u32| {
            self.roster.may_join(*server)
                && self.silence.is_fresh(*server, self.now)
                && !self.condemned.contains(server)
        };
        self.silence.wish_to_join().find(may_join).map(|server| Decision::Append {
            line: Line::Join { server },
            guards: vec![Guard::IsOfRevision(self.keys.beat(server), self.silence.revision(server))],
            also: Vec::new(),
        })
    }
}

#[cfg(test)]
mod tests {
    use std::collections::BTreeMap;

    use super::*;
    use crate::records::{Beat, Failing, GatewayPhase, Readiness, Witnesses, DISK_HANGS};
    use crate::silence::BeatsLook;

    const HALF: Duration = Duration::from_millis(500);

    /// A candidate that has looked at two or three servers for a while.
    struct Candidate {
        roster: Roster,
        silence: Silence,
        now: Duration,
        revision: i64,
        letters: Vec<Letter>,
        condemned: BTreeSet<u32>,
        /// Who doesn't hear whom.
        deaf: Vec<(u32, u32)>,
        /// What servers say of their gateways.
        said: BTreeMap<u32, Beat>,
        /// Whose disk hangs.
        hanging: Vec<u32>,
    }

    impl Candidate {
        fn new(size: u32) -> Candidate {
            let roster = Roster::of_first_chain(size);
            let (letters, condemned, silence) = (Vec::new(), BTreeSet::new(), Silence::default());
            let (deaf, said, hanging) = (Vec::new(), BTreeMap::new(), Vec::new());
            Candidate { roster, silence, now: Duration::ZERO, revision: 0, letters, condemned, deaf, said, hanging }
        }

        /// So many looks, at each of which these servers have beaten; the others have beaten before.
        fn look(&mut self, count: u32, beat: &[u32], others: &[u32], joins: Option<u32>) {
            for _ in 0..count {
                self.now += HALF;
                self.revision += 1;
                let beats =
                    beat.iter().map(|server| (*server, self.revision)).chain(others.iter().map(|server| (*server, 1)));
                let hears =
                    |server: u32| beat.iter().copied().filter(|other| !self.deaf.contains(&(server, *other))).collect();
                let with_beat = |(server, revision)| {
                    let condemned = self.hanging.contains(&server).then(|| DISK_HANGS.into());
                    let said = self.said.get(&server).cloned().unwrap_or_default();
                    (server, revision, Beat { joins: joins == Some(server), hears: hears(server), condemned, ..said })
                };
                let beats = beats.map(with_beat).collect();
                self.silence.look(BeatsLook { beats, began: self.now, slowest: Duration::ZERO }, &self.roster);
            }
        }

        fn decide(&self) -> (Decision, Option<String>) {
            let keys = Keys::for_tests();
            let view = View {
                keys: &keys,
                roster: &self.roster,
                silence: &self.silence,
                now: self.now,
                letters: &self.letters,
                condemned: &self.condemned,
            };
            view.decide()
        }

        fn line(&self) -> Option<Line> {
            match self.decide().0 {
                Decision::Append { line, .. } => Some(line),
                _ => None,
            }
        }
    }

    #[test]
    fn a_silent_server_is_detected_under_the_guard_of_its_beat() {
        let mut candidate = Candidate::new(3);
        candidate.look(4, &[1, 3], &[2], None);
        assert_eq!(candidate.line(), None);
        candidate.look(3, &[1, 3], &[2], None);
        let (decision, why) = candidate.decide();
        let Decision::Append { line, guards, .. } = decision else { panic!("{decision:?}") };
        assert_eq!((line, why), (Line::detect(2), None));
        assert_eq!(guards, [Guard::IsOfRevision(Keys::for_tests().beat(2), 1)]);
    }

    #[test]
    fn the_last_one_that_is_known_to_be_full_is_kept() {
        let mut candidate = Candidate::new(1);
        candidate.roster.feed(&Line::Join { server: 2 }, []);
        candidate.roster.members.push(2);
        candidate.roster.joiner = None;
        candidate.look(8, &[2], &[1], None);
        let (decision, why) = candidate.decide();
        assert_eq!(decision, Decision::Nothing);
        assert!(why.unwrap().contains("server 1 is silent, and no other member is known to have all"));
        candidate.condemned.insert(1);
        assert_eq!(candidate.decide().0, Decision::Spare(1));
    }

    #[test]
    fn nobody_is_detected_where_no_other_full_one_beats() {
        let mut candidate = Candidate::new(2);
        candidate.look(3, &[1, 2], &[], None);
        candidate.condemned.insert(1);
        candidate.now += 3 * HALF;
        let (decision, why) = candidate.decide();
        assert_eq!(decision, Decision::Spare(1));
        assert!(why.unwrap().contains("server 1 is condemned, and no other member that has all"));
        candidate.look(2, &[1, 2], &[], None);
        assert_eq!(candidate.line(), Some(Line::detect(1)));
    }

    #[test]
    fn nobody_is_given_up_for_a_disk_that_hangs_where_all_others_hang_too() {
        let mut candidate = Candidate::new(3);
        candidate.hanging = vec![1, 2, 3];
        candidate.condemned = [1, 2, 3].into();
        candidate.look(3, &[1, 2, 3], &[], None);
        let (decision, why) = candidate.decide();
        assert_eq!(decision, Decision::Spare(1));
        assert!(why.unwrap().contains("the disk of no other member ends a write either"));
        candidate.hanging = vec![1, 2];
        candidate.condemned = [1, 2].into();
        candidate.look(1, &[1, 2, 3], &[], None);
        assert_eq!(candidate.line(), Some(Line::detect(1)));
        // One that is condemned for something else is given up all the same, and so is one that is silent.
        candidate.hanging = vec![2, 3];
        candidate.condemned = [1].into();
        candidate.look(1, &[1, 2, 3], &[], None);
        assert_eq!(candidate.line(), Some(Line::detect(1)));
        candidate.hanging = vec![1, 2, 3];
        candidate.condemned.clear();
        candidate.look(6, &[2, 3], &[1], None);
        assert_eq!(candidate.line(), Some(Line::detect(1)));
    }

    #[test]
    fn messages_are_taken_by_their_numbers_and_none_of_a_detected_server() {
        let mut candidate = Candidate::new(2);
        let letter = |server, number| Letter { server, number, piece: Bytes::from_static(&[1, 11]) };
        candidate.letters = vec![letter(2, 2), letter(1, 1)];
        assert!(matches!(candidate.line(), Some(Line::Take { server: 1, number: 1, .. })));
        candidate.roster.feed(&Line::detect(1), []);
        assert_eq!(candidate.line(), None);
        candidate.letters.push(letter(2, 1));
        assert!(matches!(candidate.line(), Some(Line::Take { server: 2, number: 1, .. })));
    }

    #[test]
    fn a_fresh_server_that_wants_to_joins_and_a_used_number_does_not() {
        let mut candidate = Candidate::new(1);
        candidate.look(1, &[1, 2], &[], Some(2));
        assert_eq!(candidate.line(), None, "it was only found");
        candidate.look(1, &[1, 2], &[], Some(2));
        assert_eq!(candidate.line(), Some(Line::Join { server: 2 }));
        candidate.roster.feed(&Line::Join { server: 2 }, []);
        assert_eq!(candidate.line(), None);
        candidate.roster.feed(&Line::detect(2), []);
        assert_eq!(candidate.line(), None);
    }

    #[test]
    fn a_server_that_condemned_itself_before_it_could_join_is_spared() {
        let mut candidate = Candidate::new(1);
        candidate.look(2, &[1, 2], &[], Some(2));
        candidate.condemned.insert(2);
        assert_eq!(candidate.decide().0, Decision::Spare(2));
    }

    #[test]
    fn a_joiner_that_is_silent_is_let_go_whoever_else_is_there() {
        let mut candidate = Candidate::new(1);
        candidate.look(2, &[1, 2], &[], Some(2));
        candidate.roster.feed(&Line::Join { server: 2 }, []);
        candidate.look(6, &[1], &[2], None);
        assert_eq!(candidate.line(), Some(Line::detect(2)));
    }

    #[test]
    fn of_two_that_do_not_hear_each_other_the_one_is_given_up_that_has_fewer_contacts() {
        let mut candidate = Candidate::new(3);
        candidate.look(2, &[1, 2, 3], &[], None);
        candidate.deaf = vec![(2, 1), (3, 1)];
        candidate.look(5, &[1, 2, 3], &[], None);
        assert_eq!(candidate.line(), None);
        candidate.look(1, &[1, 2, 3], &[], None);
        assert_eq!(candidate.line(), Some(Line::detect(1)));
        candidate.deaf = vec![(2, 1), (1, 2)];
        candidate.look(1, &[1, 2, 3], &[], None);
        assert_eq!(candidate.line(), Some(Line::detect(2)), "both have one contact, so it is the later one");
        candidate.deaf.clear();
        candidate.look(1, &[1, 2, 3], &[], None);
        assert_eq!(candidate.line(), None);
    }

    /// The gateways of these stand ready, and that of the head ends again and again.
    fn failing(candidate: &mut Candidate, ready: &[u32]) {
        let readiness = Some(Readiness::Ready);
        candidate.said =
            ready.iter().map(|server| (*server, Beat { readiness: readiness.clone(), ..Beat::default() })).collect();
        let head = candidate.roster.members[0];
        let failing = Some(Failing { times: 2, why: "no keys".into() });
        let said = Beat { gateway: Some(GatewayPhase::Begins), readiness, failing, ..Beat::default() };
        candidate.said.insert(head, said);
    }

    /// Looks for so many seconds, in which all of the chain beat, and gateways of the head end.
    fn look_for(candidate: &mut Candidate, seconds: u32) {
        for _ in 0..2 * seconds {
            let head = candidate.roster.members[0];
            if let Some(failing) = candidate.said.get_mut(&head).and_then(|said| said.failing.as_mut()) {
                failing.times += 1;
            }
            let members = candidate.roster.members.clone();
            candidate.look(1, &members, &[], None);
        }
    }

    const UNSERVED: Line = Line::Detect { server: 1, unserved: true };

    #[test]
    fn a_head_whose_gateway_cannot_begin_is_given_up_where_that_of_the_next_one_stands_ready() {
        let mut candidate = Candidate::new(3);
        failing(&mut candidate, &[2]);
        look_for(&mut candidate, 10);
        assert_eq!(candidate.line(), None);
        look_for(&mut candidate, 2);
        let (decision, why) = candidate.decide();
        let Decision::Append { line, also, .. } = decision else { panic!("{decision:?}") };
        assert_eq!((line, why), (UNSERVED, None));
        assert!(also.contains(&Operation::Put(Keys::for_tests().detected(1), "1".into())));
        // One that serves stays.
        candidate.said.get_mut(&1).unwrap().gateway = Some(GatewayPhase::Acts);
        look_for(&mut candidate, 1);
        assert_eq!(candidate.decide(), (Decision::Nothing, None));
    }

    /// Why a candidate that has looked for so long does nothing.
    fn kept(candidate: &mut Candidate, seconds: u32) -> String {
        look_for(candidate, seconds);
        let (decision, why) = candidate.decide();
        assert_eq!(decision, Decision::Nothing);
        why.unwrap()
    }

    #[test]
    fn nobody_is_given_up_where_no_other_gateway_stands_ready() {
        let mut candidate = Candidate::new(3);
        failing(&mut candidate, &[]);
        let why = kept(&mut candidate, 30);
        assert_eq!(
            why,
            "the gateway of server 1 can't begin (no keys), and no other member's stands ready, or has for long"
        );
        let unready = Some(Readiness::Unready("no keys".into()));
        candidate.said.insert(2, Beat { readiness: unready, ..Beat::default() });
        assert!(kept(&mut candidate, 30).ends_with("no other member's stands ready, or has for long"));
    }

    #[test]
    fn where_what_was_wrong_at_all_is_mended_the_head_has_ten_seconds_to_begin() {
        let mut candidate = Candidate::new(3);
        failing(&mut candidate, &[]);
        assert!(kept(&mut candidate, 30).contains("no other member's stands ready"));
        let ready = Beat { readiness: Some(Readiness::Ready), ..Beat::default() };
        candidate.said.extend([(2, ready.clone()), (3, ready)]);
        assert!(kept(&mut candidate, 10).contains("no other member's stands ready"));
        look_for(&mut candidate, 1);
        assert_eq!(candidate.line(), Some(UNSERVED));
        candidate.said.get_mut(&1).unwrap().failing = None;
        look_for(&mut candidate, 1);
        assert_eq!(candidate.decide(), (Decision::Nothing, None));
    }

    #[test]
    fn no_chain_gets_shorter_than_two_by_gateways() {
        let mut two = Candidate::new(2);
        failing(&mut two, &[2]);
        assert!(kept(&mut two, 120).contains("without it one member would be left"));
        // The next one couldn't serve, and without that one, too, one would be left.
        let mut three = Candidate::new(3);
        failing(&mut three, &[3]);
        assert!(kept(&mut three, 120).contains("whose gateways don't stand ready"));
        // Of four the second one goes behind the first.
        let mut four = Candidate::new(4);
        failing(&mut four, &[3]);
        look_for(&mut four, 12);
        assert_eq!(four.line(), Some(UNSERVED));
    }

    #[test]
    fn no_two_heads_are_given_up_for_their_gateways_within_a_minute() {
        let mut candidate = Candidate::new(5);
        failing(&mut candidate, &[2, 3, 4]);
        look_for(&mut candidate, 12);
        assert_eq!(candidate.line(), Some(UNSERVED));
        // It is this candidate that appends it, or another one.
        candidate.roster.feed(&UNSERVED, []);
        candidate.silence.head_was_given_up();
        failing(&mut candidate, &[3, 4]);
        assert!(kept(&mut candidate, 58).contains("less than a minute ago"));
        look_for(&mut candidate, 3);
        assert_eq!(candidate.line(), Some(Line::Detect { server: 2, unserved: true }));
        // One that begins now has read of it in the log, and doesn't know when that was.
        let mut young = Candidate::new(5);
        young.roster.feed(&UNSERVED, []);
        young.silence.head_was_given_up();
        failing(&mut young, &[3, 4]);
        assert!(kept(&mut young, 59).contains("less than a minute ago"));
        // A head that is silent is given up all the same.
        young.look(6, &[3, 4, 5], &[2], None);
        assert_eq!(young.line(), Some(Line::detect(2)));
    }

    #[test]
    fn a_head_that_reads_a_large_store_is_slow_and_one_that_stands_still_is_given_up() {
        let mut candidate = Candidate::new(3);
        failing(&mut candidate, &[2]);
        for far in 0..60 {
            let head = candidate.said.get_mut(&1).unwrap();
            (head.failing, head.reading) = (None, Some(far));
            look_for(&mut candidate, 1);
            assert_eq!(candidate.line(), None);
        }
        look_for(&mut candidate, 11);
        assert_eq!(candidate.line(), Some(UNSERVED));
    }

    #[test]
    fn a_head_whose_gateway_no_front_reaches_is_given_up_unless_it_is_the_last_full_one() {
        let mut candidate = Candidate::new(3);
        failing(&mut candidate, &[2, 3]);
        candidate.said.get_mut(&1).unwrap().failing = None;
        look_for(&mut candidate, 11);
        for (server, reach_this) in [(1, 0), (2, 1), (3, 0)] {
            let said = candidate.said.get_mut(&server).unwrap();
            said.witnesses = Some(Witnesses { head: 1, reach_head: 0, reach_this });
        }
        candidate.look(7, &[1, 2, 3], &[], None);
        assert_eq!(candidate.line(), None);
        candidate.look(1, &[1, 2, 3], &[], None);
        assert_eq!(candidate.line(), Some(UNSERVED));
        // The one that a front reaches doesn't stand ready, or isn't full.
        candidate.said.get_mut(&2).unwrap().readiness = None;
        assert!(kept(&mut candidate, 5).contains("no front reaches that of another member that stands ready"));
        candidate.said.get_mut(&1).unwrap().witnesses = Some(Witnesses { head: 1, reach_head: 1, reach_this: 1 });
        look_for(&mut candidate, 1);
        assert_eq!(candidate.decide(), (Decision::Nothing, None));
        let mut last = Candidate::new(1);
        last.roster.members = vec![1, 2, 3];
        last.said = candidate.said;
        last.said.get_mut(&1).unwrap().witnesses = Some(Witnesses { head: 1, reach_head: 0, reach_this: 0 });
        look_for(&mut last, 12);
        assert_eq!(last.decide(), (Decision::Nothing, None));
    }

    #[test]
    fn where_the_one_with_fewer_contacts_is_the_last_full_one_the_other_end_is_given_up() {
        let mut candidate = Candidate::new(1);
        candidate.roster.members = vec![1, 2, 3];
        candidate.deaf = vec![(2, 1), (3, 1)];
        candidate.look(8, &[1, 2, 3], &[], None);
        assert_eq!(candidate.line(), Some(Line::detect(2)));
    }

    #[test]
    fn one_that_joins_goes_where_it_hears_nothing() {
        let mut candidate = Candidate::new(1);
        candidate.look(2, &[1, 2], &[], Some(2));
        candidate.roster.feed(&Line::Join { server: 2 }, []);
        candidate.deaf = vec![(2, 1)];
        candidate.look(8, &[1, 2], &[], None);
        assert_eq!(candidate.line(), Some(Line::detect(2)));
    }
}
