//! A head whose gateway doesn't serve, as one candidate for the master sees it. It is a guess, too.
//!
//! A gateway that reads a large store is slow and not broken, and one that waits for the chain's answers isn't at fault. So what
//! counts are gateways that end again and again, one that doesn't move on in taking up the store, and a port that no front
//! reaches.

use std::collections::BTreeMap;
use std::fmt;
use std::time::Duration;

use crate::records::{Beat, GatewayPhase, Readiness, Witnesses};
use crate::roster::Roster;

/// A gateway that ends again and again has so long, and one that doesn't move on. And so long has another one to stand ready: where
/// what was wrong at all servers is mended, the head's begins within this time.
const PATIENCE: Duration = Duration::from_secs(10);

/// So many gateways that ended in a row are no accident.
const LEAST_ENDS: u32 = 2;

/// A port that no front has reached for so long is cut off from all clients.
const UNREACHED: Duration = Duration::from_secs(3);

/// So long a candidate waits behind a head that was given up for its gateway. What one gateway fails of may be at fault for the
/// next one, too.
const APART: Duration = Duration::from_secs(60);

/// Why a head doesn't serve.
#[derive(Clone, Debug, PartialEq, Eq)]
pub enum Fault {
    /// Its gateways end again and again, the last one in this way.
    Fails(String),
    /// Its gateway doesn't move on in taking up the store.
    StandsStill,
    /// No front reaches the port of its gateway, and one reaches another one's.
    Unreached,
}

impl fmt::Display for Fault {
    fn fmt(&self, out: &mut fmt::Formatter<'_>) -> fmt::Result {
        match self {
            Fault::Fails(why) => write!(out, "can't begin ({why})"),
            Fault::StandsStill => out.write_str("doesn't move on in reading the store"),
            Fault::Unreached => out.write_str("is reached by no front, and another one's is"),
        }
    }
}

/// A row of gateways that ended.
#[derive(Clone, Copy, Debug)]
struct Row {
    times: u32,
    /// Since when there is one.
    since: Duration,
    /// When it got longer.
    grown: Duration,
}

/// What one candidate has seen of heads that don't serve. All moments are those of its time of contact.
#[derive(Debug, Default)]
pub struct Serving {
    /// By servers, since the next head's gateway may be started before that is the head.
    rows: BTreeMap<u32, Row>,
    /// How far the head's gateway is, and since when.
    reading: Option<(u32, u64, Duration)>,
    unreached: Option<(u32, Duration)>,
    /// Since when the gateways of members stand ready.
    ready: BTreeMap<u32, Duration>,
    /// When this candidate heard that a head was given up for its gateway.
    given_up: Option<Duration>,
}

impl Serving {
    /// Notes what servers say at this time of contact. `beats` has nothing of a server that doesn't beat, or of which isn't known
    /// whether it does. Of one that is condemned, as for a disk that hangs, other rules decide.
    pub fn look<'b>(&mut self, roster: &Roster, contact: Duration, beats: impl Fn(u32) -> Option<&'b Beat>) {
        let beats = |server| beats(server).filter(|beat| beat.condemned.is_none());
        self.rows = roster
            .members
            .iter()
            .filter_map(|member| Some((*member, next_row(self.rows.get(member), beats(*member)?, contact)?)))
            .collect();
        let is_ready = |member: &u32| beats(*member).is_some_and(stands_ready);
        let since = |member| (member, self.ready.get(&member).copied().unwrap_or(contact));
        self.ready = roster.members.iter().copied().filter(is_ready).map(since).collect();
        let head = roster.members.first().copied();
        let reading = head.and_then(|head| Some((head, beats(head)?.reading?)));
        self.reading = reading.map(|(head, far)| match self.reading {
            Some((known, before, since)) if (known, before) == (head, far) => (head, far, since),
            _ => (head, far, contact),
        });
        let unreached = head.filter(|head| beats(*head).is_some() && is_unreached(*head, roster, &beats));
        self.unreached = unreached.map(|head| match self.unreached {
            Some((known, since)) if known == head => (head, since),
            _ => (head, contact),
        });
    }

    /// All begins anew but the time since a head was given up.
    pub fn begin_anew(&mut self, contact: Duration) {
        self.rows.clear();
        self.ready.clear();
        self.reading = self.reading.map(|(head, far, _)| (head, far, contact));
        self.unreached = self.unreached.map(|(head, _)| (head, contact));
    }

    /// The log says that a head was given up for its gateway.
    pub fn head_was_given_up(&mut self, contact: Duration) {
        self.given_up = Some(contact);
    }

    /// Whether another head was given up for its gateway not long ago. A candidate that has read of it in an old log doesn't know
    /// when that was, so it counts from its own start.
    pub fn is_too_soon(&self, contact: Duration) -> bool {
        self.given_up.is_some_and(|moment| contact.saturating_sub(moment) <= APART)
    }

    /// Whether the gateway of a member has stood ready for long.
    pub fn is_ready(&self, member: u32, contact: Duration) -> bool {
        self.ready.get(&member).is_some_and(|since| contact.saturating_sub(*since) > PATIENCE)
    }

    /// Why the head hasn't served for long, if it hasn't, by what it says now. What it says may come late by the grace.
    pub fn fault(&self, head: u32, said: &Beat, contact: Duration, grace: Duration) -> Option<Fault> {
        let is_old = |since: Duration, patience| contact.saturating_sub(since) > patience + grace;
        let has_grown = |row: &Row| contact.saturating_sub(row.grown) <= PATIENCE;
        let row = self.rows.get(&head).filter(|row| is_old(row.since, PATIENCE) && has_grown(row));
        let fails = row.and_then(|_| failure(said));
        let stands = self.reading.filter(|(known, _, since)| *known == head && is_old(*since, PATIENCE));
        let unreached = self.unreached.filter(|(known, since)| *known == head && is_old(*since, UNREACHED));
        fails.or(stands.map(|_| Fault::StandsStill)).or(unreached.map(|_| Fault::Unreached))
    }
}

/// What is known of a server's row behind this beat.
fn next_row(known: Option<&Row>, beat: &Beat, contact: Duration) -> Option<Row> {
    let times = beat.failing.as_ref()?.times;
    Some(match known {
        Some(row) if row.times == times => *row,
        Some(row) if row.times < times => Row { times, grown: contact, ..*row },
        // One has served in between.
        _ => Row { times, since: contact, grown: contact },
    })
}

/// That gateways end there again and again, by one beat. What a trial of its options said tells more than how one ended.
fn failure(beat: &Beat) -> Option<Fault> {
    let failing = beat.failing.as_ref().filter(|failing| failing.times >= LEAST_ENDS)?;
    let why = match &beat.readiness {
        Some(Readiness::Unready(why)) => why,
        _ => &failing.why,
    };
    (beat.gateway != Some(GatewayPhase::Acts)).then(|| Fault::Fails(why.clone()))
}

/// Whether no front reaches the port of the head's gateway, and one reaches that of a server that may take its place. So that one
/// doesn't reach the head's.
fn is_unreached<'b>(head: u32, roster: &Roster, beats: &impl Fn(u32) -> Option<&'b Beat>) -> bool {
    let said = |server: u32| witnesses(head, beats(server)?);
    let reaches_head = |server: u32| said(server).is_some_and(|said| said.reach_head > 0);
    let is_reached = |server: &u32| *server != head && said(*server).is_some_and(|said| said.reach_this > 0);
    !roster.line_of_servers().any(reaches_head) && roster.known_full().iter().any(is_reached)
}

/// What a server says of fronts, where these are about that head.
fn witnesses(head: u32, beat: &Beat) -> Option<Witnesses> {
    beat.witnesses.filter(|said| said.head == head)
}

/// Why the head doesn't serve, as one look shows it. That a gateway doesn't move on is seen by looking for longer.
pub fn fault_at_once<'b>(roster: &Roster, beats: impl Fn(u32) -> Option<&'b Beat>) -> Option<(u32, Fault)> {
    let head = *roster.members.first()?;
    let fault = failure(beats(head)?).or_else(|| is_unreached(head, roster, &beats).then_some(Fault::Unreached));
    Some((head, fault?))
}

/// Whether the gateway of a server that says this stands ready.
fn stands_ready(beat: &Beat) -> bool {
    beat.readiness == Some(Readiness::Ready) && beat.failing.is_none() && beat.condemned.is_none()
}

/// Whether the gateway of a server that says this would serve in the place of a head with that fault.
pub fn would_serve(head: u32, fault: &Fault, beat: &Beat) -> bool {
    let is_reached = match (witnesses(head, beat), fault) {
        (Some(said), _) => said.reach_this > 0,
        // Nobody knows whether fronts would reach it.
        (None, fault) => *fault != Fault::Unreached,
    };
    stands_ready(beat) && is_reached
}

#[cfg(test)]
mod tests {
    use super::*;
    use crate::records::{Failing, DISK_HANGS};

    const HALF: Duration = Duration::from_millis(500);

    /// A candidate that looks twice a second at three servers, of which the first one is the head.
    struct Looks {
        serving: Serving,
        roster: Roster,
        beats: BTreeMap<u32, Beat>,
        contact: Duration,
    }

    impl Looks {
        fn new() -> Looks {
            let beats = (1..=3).map(|server| (server, Beat::default())).collect();
            Looks { serving: Serving::default(), roster: Roster::of_first_chain(3), beats, contact: Duration::ZERO }
        }

        /// So many seconds of looks, before each of which this happens to the head's beat.
        fn look(&mut self, seconds: u32, mut before: impl FnMut(&mut Beat)) {
            for _ in 0..2 * seconds {
                before(self.beats.get_mut(&1).unwrap());
                self.contact += HALF;
                let beats = &self.beats;
                self.serving.look(&self.roster, self.contact, |server| beats.get(&server));
            }
        }

        fn fault(&self) -> Option<Fault> {
            self.serving.fault(1, &self.beats[&1], self.contact, Duration::ZERO)
        }
    }

    fn failing(times: u32) -> Option<Failing> {
        Some(Failing { times, why: "no keys".into() })
    }

    fn said(head: u32, reach_head: usize, reach_this: usize) -> Option<Witnesses> {
        Some(Witnesses { head, reach_head, reach_this })
    }

    /// The head serves.
    fn acts(beat: &mut Beat) {
        (beat.gateway, beat.failing, beat.reading) = (Some(GatewayPhase::Acts), None, None);
    }

    #[test]
    fn gateways_that_end_again_and_again_for_ten_seconds_are_a_fault() {
        let mut looks = Looks::new();
        looks.look(5, acts);
        looks.look(10, |beat| {
            let times = beat.failing.as_ref().map_or(1, |failing| failing.times + 1);
            (beat.gateway, beat.failing) = (Some(GatewayPhase::Begins), failing(times));
        });
        assert_eq!(looks.fault(), None);
        looks.look(1, |_| {});
        assert_eq!(looks.fault(), Some(Fault::Fails("no keys".into())));
        // One that serves at this moment is none.
        looks.beats.get_mut(&1).unwrap().gateway = Some(GatewayPhase::Acts);
        assert_eq!(looks.fault(), None);
        // Behind one that has served for a while all begins anew.
        looks.look(1, acts);
        looks.look(9, |beat| (beat.gateway, beat.failing) = (Some(GatewayPhase::Begins), failing(2)));
        assert_eq!(looks.fault(), None);
    }

    #[test]
    fn one_that_ended_by_accident_and_one_that_goes_on_behind_two_that_ended_are_no_fault() {
        let mut looks = Looks::new();
        looks.look(30, |beat| (beat.gateway, beat.failing) = (Some(GatewayPhase::Begins), failing(1)));
        assert_eq!(looks.fault(), None);
        let mut far = 0;
        looks.look(60, |beat| {
            far += 1;
            (beat.failing, beat.reading) = (failing(2), Some(far));
            // The row got longer ten seconds ago at most.
        });
        assert_eq!(looks.fault(), None, "the third one reads");
    }

    #[test]
    fn one_that_ends_each_eight_seconds_and_never_serves_is_a_fault() {
        let mut looks = Looks::new();
        let (mut half, mut ends) = (0, 0);
        let mut step = |beat: &mut Beat| {
            half += 1;
            if half % 16 == 0 {
                ends += 1;
                beat.failing = failing(ends);
            }
            (beat.gateway, beat.reading) = (Some(GatewayPhase::Begins), Some(half));
        };
        looks.look(18, &mut step);
        assert_eq!(looks.fault(), None);
        looks.look(1, &mut step);
        assert_eq!(looks.fault(), Some(Fault::Fails("no keys".into())));
    }

    #[test]
    fn what_a_trial_says_tells_more_than_how_a_gateway_ended() {
        let (gateway, failing) = (Some(GatewayPhase::Begins), failing(LEAST_ENDS));
        let unready = Some(Readiness::Unready("keys.toml has none".into()));
        let beat = Beat { gateway, failing, readiness: unready, ..Looks::new().beats[&1].clone() };
        assert_eq!(failure(&beat), Some(Fault::Fails("keys.toml has none".into())));
        let beat = Beat { readiness: Some(Readiness::Ready), ..beat };
        assert_eq!(failure(&beat), Some(Fault::Fails("no keys".into())));
    }

    #[test]
    fn the_row_of_the_next_head_counts_from_before_it_is_the_head() {
        let mut looks = Looks::new();
        looks.beats.get_mut(&2).unwrap().failing = failing(1);
        looks.look(8, acts);
        looks.roster.members.remove(0);
        looks.beats.get_mut(&2).unwrap().failing = failing(5);
        looks.look(3, acts);
        assert_eq!(
            looks.serving.fault(2, &looks.beats[&2], looks.contact, Duration::ZERO),
            Some(Fault::Fails("no keys".into()))
        );
    }

    #[test]
    fn one_that_reads_is_slow_as_long_as_it_moves_on_and_then_a_fault() {
        let mut looks = Looks::new();
        let mut half = 0;
        looks.look(120, |beat| {
            half += 1;
            // It moves on once in nine seconds.
            (beat.gateway, beat.reading) = (Some(GatewayPhase::Begins), Some(half / 18));
        });
        assert_eq!(looks.fault(), None);
        looks.look(11, |_| {});
        assert_eq!(looks.fault(), Some(Fault::StandsStill));
        // It waits for answers of the chain.
        looks.look(30, |beat| beat.reading = None);
        assert_eq!(looks.fault(), None);
        looks.look(11, |beat| beat.reading = Some(0));
        looks.serving.begin_anew(looks.contact);
        assert_eq!(looks.fault(), None);
    }

    #[test]
    fn a_gateway_that_waits_for_a_disk_that_hangs_is_no_fault() {
        let mut looks = Looks::new();
        looks.look(30, |beat| {
            (beat.gateway, beat.reading) = (Some(GatewayPhase::Begins), Some(7));
            beat.condemned = Some(DISK_HANGS.into());
        });
        assert_eq!(looks.fault(), None);
        looks.look(10, |beat| beat.condemned = None);
        assert_eq!(looks.fault(), None);
        looks.look(1, |_| {});
        assert_eq!(looks.fault(), Some(Fault::StandsStill));
    }

    #[test]
    fn nothing_is_known_of_a_head_that_does_not_beat() {
        let mut looks = Looks::new();
        looks.look(20, |beat| (beat.gateway, beat.reading) = (Some(GatewayPhase::Begins), Some(7)));
        assert_eq!(looks.fault(), Some(Fault::StandsStill));
        let said = looks.beats.remove(&1).unwrap();
        looks.contact += HALF;
        looks.serving.look(&looks.roster, looks.contact, |server| looks.beats.get(&server));
        assert_eq!(looks.serving.fault(1, &said, looks.contact, Duration::ZERO), None);
    }

    /// For so many seconds fronts say this to each of the three servers.
    fn hear(looks: &mut Looks, seconds: u32, told: [Option<Witnesses>; 3]) {
        for (server, told) in (1..=3).zip(told) {
            looks.beats.get_mut(&server).unwrap().witnesses = told;
        }
        looks.look(seconds, acts);
    }

    #[test]
    fn a_port_that_no_front_reaches_for_three_seconds_is_a_fault_where_one_reaches_another() {
        let mut looks = Looks::new();
        let unreached = [said(1, 0, 0), said(1, 0, 1), said(1, 0, 0)];
        hear(&mut looks, 3, unreached);
        assert_eq!(looks.fault(), None);
        hear(&mut looks, 1, [said(1, 0, 0), said(1, 0, 0), said(1, 0, 1)]);
        assert_eq!(looks.fault(), Some(Fault::Unreached));
        // It is reached for a moment, as where a firewall opens and closes.
        for _ in 0..10 {
            hear(&mut looks, 1, [said(1, 1, 1), said(1, 1, 1), said(1, 1, 1)]);
            hear(&mut looks, 3, unreached);
            assert_eq!(looks.fault(), None);
        }
        looks.serving.begin_anew(looks.contact);
        hear(&mut looks, 3, unreached);
        assert_eq!(looks.fault(), None);
    }

    #[test]
    fn a_port_counts_as_reached_where_any_front_says_so_to_any_server() {
        let mut looks = Looks::new();
        for told in [
            // There are no fronts, or they say nothing of gateways.
            [None; 3],
            // One reaches the head's, and another one doesn't.
            [said(1, 1, 1), said(1, 0, 1), said(1, 0, 1)],
            // The head's node isn't reached, and its gateway is.
            [None, said(1, 1, 1), said(1, 1, 1)],
            // A front that is cut off itself reaches nobody's.
            [said(1, 0, 0); 3],
            // They take another one for the head.
            [said(3, 0, 0), said(3, 1, 1), said(3, 1, 1)],
        ] {
            hear(&mut looks, 30, told);
            assert_eq!(looks.fault(), None, "{told:?}");
        }
        // Two that disagree about others: neither reaches the head's.
        hear(&mut looks, 4, [said(1, 0, 0), said(1, 0, 1), said(1, 0, 1)]);
        assert_eq!(looks.fault(), Some(Fault::Unreached));
        // It is about another head from now on.
        looks.roster.members.remove(0);
        hear(&mut looks, 3, [None, said(2, 0, 0), said(2, 0, 1)]);
        assert_eq!(looks.serving.fault(2, &looks.beats[&2], looks.contact, Duration::ZERO), None);
    }

    #[test]
    fn a_gateway_stands_ready_for_long_where_it_has_done_so_for_ten_seconds() {
        let mut looks = Looks::new();
        let ready = Beat { readiness: Some(Readiness::Ready), ..Beat::default() };
        let is_ready = |looks: &Looks| looks.serving.is_ready(2, looks.contact);
        looks.look(20, acts);
        assert!(!is_ready(&looks));
        looks.beats.insert(2, ready.clone());
        looks.look(10, acts);
        assert!(!is_ready(&looks));
        looks.look(1, acts);
        assert!(is_ready(&looks));
        // It was spoilt and mended.
        looks.beats.insert(2, Beat { readiness: Some(Readiness::Unready("no keys".into())), ..ready.clone() });
        looks.look(1, acts);
        looks.beats.insert(2, ready);
        looks.look(10, acts);
        assert!(!is_ready(&looks));
    }

    #[test]
    fn a_minute_counts_from_when_a_candidate_hears_of_it() {
        let mut serving = Serving::default();
        assert!(!serving.is_too_soon(Duration::ZERO));
        serving.head_was_given_up(Duration::from_secs(5));
        assert!(serving.is_too_soon(Duration::from_secs(65)) && !serving.is_too_soon(Duration::from_secs(66)));
        serving.begin_anew(Duration::from_secs(60));
        assert!(!serving.is_too_soon(Duration::from_secs(66)));
    }

    #[test]
    fn only_one_that_was_tried_and_that_fronts_reach_would_serve() {
        let ready = Beat { readiness: Some(Readiness::Ready), ..Beat::default() };
        let [fails, unreached] = [Fault::Fails("no keys".into()), Fault::Unreached];
        assert!(would_serve(1, &fails, &ready) && !would_serve(1, &unreached, &ready));
        let reached = Beat { witnesses: said(1, 0, 1), ..ready.clone() };
        assert!(would_serve(1, &fails, &reached) && would_serve(1, &unreached, &reached));
        for bad in [
            Beat::default(),
            Beat { readiness: Some(Readiness::Unready("no keys".into())), ..ready.clone() },
            Beat { failing: failing(1), ..ready.clone() },
            Beat { condemned: Some(DISK_HANGS.into()), ..ready.clone() },
            Beat { witnesses: said(1, 0, 0), ..ready },
        ] {
            assert!(!would_serve(1, &fails, &bad) && !would_serve(1, &unreached, &bad), "{bad:?}");
        }
    }

    #[test]
    fn what_one_look_shows_is_said_at_once() {
        let mut looks = Looks::new();
        let at_once = |looks: &Looks| fault_at_once(&looks.roster, |server| looks.beats.get(&server));
        assert_eq!(at_once(&looks), None);
        hear(&mut looks, 1, [said(1, 0, 0), said(1, 0, 1), None]);
        assert_eq!(at_once(&looks), Some((1, Fault::Unreached)));
        looks.look(1, |beat| (beat.gateway, beat.failing) = (Some(GatewayPhase::Begins), failing(2)));
        assert_eq!(at_once(&looks), Some((1, Fault::Fails("no keys".into()))));
    }
}
