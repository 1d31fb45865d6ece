//! Who is silent, as one candidate for the master sees it. It is a guess: a wrong one costs time, and nothing else.
//!
//! Times are those of a clock of the candidate's own, in which its own pauses don't count where it says so.

use std::collections::BTreeMap;
use std::time::Duration;

use crate::cut::{Cut, Unheard};
use crate::etcd::LONGEST;
use crate::records::{Beat, DISK_HANGS};
use crate::roster::Roster;
use crate::serving::{self, Fault, Serving};

/// A server whose beat hasn't changed for so long of contact with etcd is silent.
pub const SILENT: Duration = Duration::from_secs(2);

/// A server whose beat was seen to change within this time is fresh. It is shorter than the time of silence by more than
/// a beat's period.
pub const FRESH: Duration = Duration::from_secs(1);

/// The time of silence of a server that has never beaten, and of one that others still hear.
pub const PATIENCE: Duration = Duration::from_secs(10);

/// Without a read for so long, and the slowest round trip, there was no contact, and the time doesn't count.
const BREAK: Duration = Duration::from_secs(1);

/// A round trip of etcd that takes no longer changes nothing.
const USUAL: Duration = Duration::from_millis(250);

/// What is fresh is so for as many times longer as round trips take longer than usual. A beat may be a round trip behind the one
/// before, as may what a read shows of it, and the next read comes a round trip and half a second later.
const FRESH_BY: u32 = 3;

/// The same of what is silent. It grows by more, by a beat's period and what a read may show of it: where all beats stop none is
/// fresh before one is silent.
const SILENT_BY: u32 = 5;

/// A read of all beats, with their revisions. What it shows may be as old as when it began.
pub struct BeatsLook {
    pub beats: Vec<(u32, i64, Beat)>,
    pub began: Duration,
    /// How long whoever looks has waited for etcd lately, this read too.
    pub slowest: Duration,
}

#[derive(Clone, Debug)]
struct Seen {
    revision: i64,
    beat: Beat,
    /// When it was seen to change, by the time of contact.
    changed: Duration,
    /// When it was seen to change, by the clock; nothing if it was only found.
    fresh: Option<Duration>,
}

/// What one candidate has seen of all beats.
#[derive(Debug, Default)]
pub struct Silence {
    /// The time of contact so far.
    contact: Duration,
    /// When the last read began.
    last: Option<Duration>,
    /// By how much the slowest round trip lately was longer than is usual, here or at a server of the chain.
    excess: Duration,
    seen: BTreeMap<u32, Seen>,
    /// Servers that have never beaten: since when they are looked for, by the time of contact.
    missing: BTreeMap<u32, Duration>,
    unheard: Unheard,
    serving: Serving,
}

impl Silence {
    /// Notes a read of all beats.
    pub fn look(&mut self, look: BeatsLook, roster: &Roster) {
        let BeatsLook { beats, began, slowest } = look;
        let gap = self.last.map_or(Duration::ZERO, |last| began.saturating_sub(last));
        // The read before may have taken that long.
        let was_in_contact = gap <= BREAK + slowest.min(LONGEST);
        if was_in_contact {
            self.contact += gap;
        }
        self.last = Some(began);
        self.excess = excess(slowest, &beats, roster);
        let was_any_fresh = roster.members.iter().any(|member| self.is_fresh(*member, began));
        self.seen.retain(|server, _| beats.iter().any(|(one, _, _)| one == server));
        for (server, revision, beat) in beats {
            let known = self.seen.get(&server);
            if known.is_some_and(|known| known.revision == revision) {
                continue;
            }
            // Of what changed while nobody looked isn't known when.
            let fresh = known.filter(|_| was_in_contact).map(|_| began);
            self.seen.insert(server, Seen { revision, beat, changed: self.contact, fresh });
        }
        for server in roster.line_of_servers() {
            self.missing.entry(server).or_insert(self.contact);
        }
        self.missing.retain(|server, _| roster.line_of_servers().any(|one| one == *server));
        let mut unheard = std::mem::take(&mut self.unheard);
        unheard.look(roster, self.contact, |one, other| self.hears(one, other, roster, began));
        self.unheard = unheard;
        let mut serving = std::mem::take(&mut self.serving);
        serving.look(roster, self.contact, |server| self.said(server, roster, began));
        self.serving = serving;
        if !was_any_fresh {
            // All were silent: who comes back first has no advantage.
            self.begin_anew();
        }
    }

    fn begin_anew(&mut self) {
        let contact = self.contact;
        self.seen.values_mut().for_each(|seen| seen.changed = contact);
        self.missing.values_mut().for_each(|since| *since = contact);
        self.unheard.begin_anew(contact);
        self.serving.begin_anew(contact);
    }

    /// What is known of a server that beats.
    fn beating(&self, server: u32, roster: &Roster, now: Duration) -> Option<&Seen> {
        self.seen.get(&server).filter(|seen| seen.fresh.is_some() && !self.is_silent(server, roster, now))
    }

    /// Whether a server hears another one, where both beat.
    fn hears(&self, server: u32, other: u32, roster: &Roster, now: Duration) -> Option<bool> {
        let beats = |one| self.beating(one, roster, now);
        beats(server).zip(beats(other)).map(|(seen, _)| seen.beat.hears.contains(&other))
    }

    /// Servers that need each other, beat, and don't hear each other, with the end first that is to be given up.
    pub fn cut_off(&self, roster: &Roster, now: Duration) -> Vec<(Cut, [u32; 2])> {
        let cuts = self.unheard.cuts(roster, self.settled());
        cuts.into_iter().map(|cut| (cut, cut.ends(roster, |one, other| self.hears(one, other, roster, now)))).collect()
    }

    /// The last beat of a server that beats.
    fn said(&self, server: u32, roster: &Roster, now: Duration) -> Option<&Beat> {
        self.beating(server, roster, now).map(|seen| &seen.beat)
    }

    /// The head, where it beats and hasn't served for long, and why.
    pub fn unserving(&self, roster: &Roster, now: Duration) -> Option<(u32, Fault)> {
        let head = *roster.members.first()?;
        let said = self.said(head, roster, now)?;
        Some((head, self.serving.fault(head, said, self.contact, self.grace())?))
    }

    /// The same for who looks for a moment alone: the head doesn't serve now.
    pub fn unserving_now(&self, roster: &Roster, now: Duration) -> Option<(u32, Fault)> {
        serving::fault_at_once(roster, |server| self.said(server, roster, now))
    }

    /// Whether the gateway of a member has stood ready for long.
    pub fn is_ready(&self, member: u32) -> bool {
        self.serving.is_ready(member, self.settled())
    }

    /// Whether the gateway of a server that is fresh would serve in the place of a head with that fault.
    pub fn would_serve(&self, server: u32, head: u32, fault: &Fault, now: Duration) -> bool {
        let seen = self.seen.get(&server).filter(|_| self.is_fresh(server, now));
        seen.is_some_and(|seen| serving::would_serve(head, fault, &seen.beat))
    }

    /// The log says that a head was given up for its gateway.
    pub fn head_was_given_up(&mut self) {
        self.serving.head_was_given_up(self.contact);
    }

    /// Whether that was less than a minute ago.
    pub fn was_head_given_up(&self) -> bool {
        self.serving.is_too_soon(self.contact)
    }

    pub fn is_fresh(&self, server: u32, now: Duration) -> bool {
        let fresh = self.seen.get(&server).and_then(|seen| seen.fresh);
        fresh.is_some_and(|fresh| now.saturating_sub(fresh) <= FRESH + FRESH_BY * self.excess)
    }

    /// By how much everything takes longer that is seen by beats.
    fn grace(&self) -> Duration {
        SILENT_BY * self.excess
    }

    /// What was so by then, by the time of contact, was so for as long as is usual.
    fn settled(&self) -> Duration {
        self.contact.saturating_sub(self.grace())
    }

    pub fn is_silent(&self, server: u32, roster: &Roster, now: Duration) -> bool {
        let Some(seen) = self.seen.get(&server) else {
            let since = self.missing.get(&server).copied().unwrap_or(self.contact);
            return self.settled().saturating_sub(since) > PATIENCE;
        };
        let patience = if self.is_only_cut_off(server, seen, roster, now) { PATIENCE } else { SILENT };
        self.settled().saturating_sub(seen.changed) > patience
    }

    /// How long a server hasn't beaten, by the time of contact with etcd.
    pub fn silent_for(&self, server: u32) -> Duration {
        let changed = self.seen.get(&server).map(|seen| seen.changed);
        let since = changed.or_else(|| self.missing.get(&server).copied()).unwrap_or(self.contact);
        self.contact.saturating_sub(since)
    }

    /// Another member that beats hears it, and no message of the master waits for it: it only doesn't reach etcd.
    fn is_only_cut_off(&self, server: u32, seen: &Seen, roster: &Roster, now: Duration) -> bool {
        let hears_it = |member: u32| self.seen.get(&member).is_some_and(|other| other.beat.hears.contains(&server));
        let others = roster.members.iter().copied().filter(|member| *member != server);
        roster.orders_for(server) <= seen.beat.took
            && others.into_iter().any(|other| self.is_fresh(other, now) && hears_it(other))
    }

    /// Whether a server says that its disk hangs.
    pub fn disk_hangs(&self, server: u32) -> bool {
        self.seen.get(&server).is_some_and(|seen| seen.beat.condemned.as_deref() == Some(DISK_HANGS))
    }

    /// The revision of a server's beat; 0 if it was never there.
    pub fn revision(&self, server: u32) -> i64 {
        self.seen.get(&server).map_or(0, |seen| seen.revision)
    }

    /// The servers that want to join, by their numbers.
    pub fn wish_to_join(&self) -> impl Iterator<Item = u32> + '_ {
        self.seen.iter().filter(|(_, seen)| seen.beat.joins).map(|(server, _)| *server)
    }
}

/// For how long of contact with etcd a beat may stay as it is, where the slowest round trip takes this.
pub fn patience(slowest: Duration) -> Duration {
    SILENT + SILENT_BY * beyond_usual(slowest)
}

fn beyond_usual(slowest: Duration) -> Duration {
    slowest.min(LONGEST).saturating_sub(USUAL)
}

/// By how much the slowest round trip is longer than is usual: the candidate's own, or what a server of the chain says of its own.
fn excess(own: Duration, beats: &[(u32, i64, Beat)], roster: &Roster) -> Duration {
    let of_chain = beats.iter().filter(|(server, ..)| roster.line_of_servers().any(|one| one == *server));
    let said = of_chain.map(|(_, _, beat)| beat.slowest).max().unwrap_or(0);
    beyond_usual(own.max(Duration::from_millis(said)))
}

#[cfg(test)]
mod tests {
    use super::*;
    use crate::records::Line;

    /// A candidate that looks each half second at the beats of three servers.
    struct Looks {
        silence: Silence,
        roster: Roster,
        beats: BTreeMap<u32, (i64, Beat)>,
        now: Duration,
        slowest: Duration,
    }

    const HALF: Duration = Duration::from_millis(500);

    impl Looks {
        fn new() -> Looks {
            let roster = Roster::of_first_chain(3);
            let (silence, beats, now, slowest) = Default::default();
            Looks { silence, roster, beats, now, slowest }
        }

        fn beat(&mut self, servers: &[u32]) {
            for server in servers {
                self.beats.entry(*server).or_default().0 += 1;
            }
        }

        /// So many looks, before each of which these servers beat.
        fn look(&mut self, count: u32, servers: &[u32]) {
            for _ in 0..count {
                self.beat(servers);
                self.now += HALF;
                let beats = self.beats.iter().map(|(server, (revision, beat))| (*server, *revision, beat.clone()));
                let look = BeatsLook { beats: beats.collect(), began: self.now, slowest: self.slowest };
                self.silence.look(look, &self.roster);
            }
        }

        fn silent(&self) -> Vec<u32> {
            let servers = self.roster.line_of_servers();
            servers.filter(|server| self.silence.is_silent(*server, &self.roster, self.now)).collect()
        }

        fn fresh(&self) -> Vec<u32> {
            self.roster.line_of_servers().filter(|server| self.silence.is_fresh(*server, self.now)).collect()
        }
    }

    #[test]
    fn one_that_stops_is_silent_after_two_seconds() {
        let mut looks = Looks::new();
        looks.look(4, &[1, 2, 3]);
        looks.look(4, &[1, 3]);
        assert_eq!(looks.silent(), [0u32; 0]);
        looks.look(1, &[1, 3]);
        assert_eq!((looks.silent(), looks.fresh()), (vec![2], vec![1, 3]));
    }

    #[test]
    fn one_that_never_beats_has_ten_seconds() {
        let mut looks = Looks::new();
        looks.look(20, &[1, 3]);
        assert_eq!(looks.silent(), [0u32; 0]);
        looks.look(3, &[1, 3]);
        assert_eq!(looks.silent(), [2]);
        assert_eq!(looks.silence.revision(2), 0);
    }

    #[test]
    fn where_all_were_stopped_nobody_has_an_advantage() {
        let mut looks = Looks::new();
        looks.look(4, &[1, 2, 3]);
        looks.look(10, &[]);
        assert_eq!(looks.fresh(), [0u32; 0]);
        // One awakes half a second before the others.
        looks.look(1, &[2]);
        assert_eq!(looks.silent(), [0u32; 0]);
        looks.look(4, &[1, 2, 3]);
        assert_eq!(looks.silent(), [0u32; 0]);
    }

    #[test]
    fn time_without_contact_does_not_count() {
        let mut looks = Looks::new();
        looks.look(4, &[1, 2, 3]);
        looks.look(2, &[1, 3]);
        looks.now += Duration::from_secs(6);
        looks.look(1, &[1, 3]);
        assert_eq!(looks.silent(), [0u32; 0]);
        looks.look(6, &[1, 3]);
        assert_eq!(looks.silent(), [2]);
    }

    #[test]
    fn one_that_is_heard_has_ten_seconds_unless_the_master_waits_for_it() {
        let mut looks = Looks::new();
        looks.look(4, &[1, 2, 3]);
        looks.beats.entry(3).or_default().1.hears = vec![2];
        looks.look(19, &[1, 3]);
        assert_eq!(looks.silent(), [0u32; 0]);
        looks.roster.feed(&Line::Join { server: 9 }, [(2, 1)]);
        assert_eq!(looks.silent(), [2]);
        looks.beats.entry(2).or_default().1.took = 1;
        looks.look(1, &[1, 2, 3]);
        assert_eq!(looks.silent(), [0u32; 0]);
    }

    #[test]
    fn what_changed_while_nobody_looked_is_not_fresh() {
        let mut looks = Looks::new();
        looks.look(4, &[1, 2, 3]);
        looks.now += Duration::from_secs(1);
        looks.look(1, &[1, 2, 3]);
        assert_eq!(looks.fresh(), [0u32; 0]);
        looks.look(1, &[1, 3]);
        assert_eq!(looks.fresh(), [1, 3]);
    }

    #[test]
    fn what_is_found_is_not_fresh() {
        let mut looks = Looks::new();
        looks.look(1, &[1, 2, 3]);
        assert_eq!(looks.fresh(), [0u32; 0]);
        looks.look(1, &[1]);
        assert_eq!(looks.fresh(), [1]);
    }

    /// A candidate and nodes for all of whom a round trip takes the same time. Nodes beat each half second, or as fast as they are
    /// answered.
    struct Slow {
        looks: Looks,
        trip: Duration,
        /// When the next beats come.
        next: [Duration; 3],
    }

    impl Slow {
        fn new(milliseconds: u64) -> Slow {
            let trip = Duration::from_millis(milliseconds);
            let next = [0, 1, 2].map(|server| trip.max(HALF) * server / 3);
            Slow { looks: Looks { slowest: trip, ..Looks::new() }, trip, next }
        }

        /// One read of the candidate. By turns it shows what is there when it begins and when it ends, which is the worst.
        fn read(&mut self, round: u32, is_lost: impl Fn(u32) -> bool) {
            let began = self.looks.now + HALF;
            let shown = if round % 2 == 0 { began } else { began + self.trip };
            for (server, next) in (1..=3).zip(&mut self.next).filter(|(_, next)| **next <= shown) {
                while *next <= shown {
                    *next += self.trip.max(HALF);
                }
                self.looks.beat(if is_lost(server) { &[] } else { std::slice::from_ref(&server) });
            }
            self.looks.look(1, &[]);
            self.looks.now = began + self.trip;
        }
    }

    #[test]
    fn where_round_trips_are_slow_nobody_is_wrongly_silent() {
        for milliseconds in [5, 200, 400, 460, 1000, 2000, 3000] {
            let mut slow = Slow::new(milliseconds);
            for round in 0..100 {
                slow.read(round, |_| false);
                assert_eq!(slow.looks.silent(), [0u32; 0], "{milliseconds} ms, round {round}");
            }
        }
    }

    #[test]
    fn where_round_trips_are_slow_a_loss_is_noticed_within_half_a_minute() {
        for milliseconds in [5, 200, 400, 460, 1000, 2000, 3000] {
            let mut slow = Slow::new(milliseconds);
            (0..40).for_each(|round| slow.read(round, |_| false));
            let begun = slow.looks.now;
            let is_noticed = |round| {
                slow.read(round, |server| server == 2);
                slow.looks.silent() == [2] && !slow.looks.fresh().is_empty()
            };
            assert!((40..100).any(is_noticed), "{milliseconds} ms");
            assert!(slow.looks.now - begun < Duration::from_secs(30), "{milliseconds} ms");
        }
    }

    #[test]
    fn what_a_server_says_of_its_own_round_trips_counts_too() {
        let mut looks = Looks::new();
        looks.look(4, &[1, 2, 3]);
        looks.beats.get_mut(&3).unwrap().1.slowest = 1400;
        looks.look(15, &[1, 3]);
        assert_eq!((patience(Duration::from_millis(1400)), looks.silent()), (Duration::from_millis(7750), vec![]));
        looks.look(1, &[1, 3]);
        assert_eq!(looks.silent(), [2]);
        // More than an answer is waited for counts for no more.
        looks.beats.get_mut(&3).unwrap().1.slowest = 1_000_000;
        looks.look(1, &[1, 3]);
        assert_eq!(looks.silence.grace(), Duration::from_millis(13750));
    }
}
