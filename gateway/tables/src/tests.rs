//! The tables beside a store by its rules (`docs/QUEUES.md`), and a plain list that has delays by itself.

use std::collections::BTreeMap;
use std::collections::BTreeSet;

use hobbychair_bytes::moment::Moment;
use hobbychair_bytes::seeded::check;
use hobbychair_bytes::values::{Delivery, Receipt, StoreReply};
use hobbychair_sqs::attributes::{GivenAttributes, QueueAttributes};
use hobbychair_sqs::envelope::Envelope;
use hobbychair_sqs::texts::{DedupId, GroupId, QueueKind, QueueName};
use proptest::prelude::*;
use proptest::sample::Index;
use proptest::test_runner::TestCaseResult;

use crate::ask::{Ask, Cause, Changer, Outcome, Reach, TableChange};
use crate::book::{Entry, QueueEntry};
use crate::jumps::Jumps;
use crate::state::State;
use crate::store_name::StoreName;

#[derive(Clone, Debug)]
struct ListedMessage {
    group: &'static str,
    sent: Moment,
    until: Moment,
    count: u64,
}

/// The messages that aren't deleted, by their sequence numbers. Of delays the store knows nothing; the list does.
#[derive(Default)]
struct List {
    messages: BTreeMap<u64, ListedMessage>,
    sent: u64,
    delay: u64,
}

impl List {
    fn closed(&self, now: Moment) -> BTreeSet<&'static str> {
        self.messages.values().filter(|message| message.until > now).map(|message| message.group).collect()
    }

    /// The messages of open groups, in the order in which the store hands them out.
    fn in_turn(&self, now: Moment) -> Vec<u64> {
        let closed = self.closed(now);
        let mut groups: Vec<(&str, Vec<u64>)> = Vec::new();
        for (sequence, message) in self.messages.iter().filter(|(_, message)| !closed.contains(message.group)) {
            match groups.iter_mut().find(|(group, _)| *group == message.group) {
                Some((_, sequences)) => sequences.push(*sequence),
                None => groups.push((message.group, vec![*sequence])),
            }
        }
        groups.into_iter().flat_map(|(_, sequences)| sequences).collect()
    }

    fn is_due(&self, sequence: u64, now: Moment) -> bool {
        self.messages[&sequence].sent + self.delay <= now
    }

    fn hand(&mut self, size: usize, visibility: u32, now: Moment) -> Vec<Delivery> {
        let mut given = Vec::new();
        for sequence in self.in_turn(now).into_iter().take(size) {
            let message = self.messages.get_mut(&sequence).unwrap();
            message.count += 1;
            message.until = now + 1000 * u64::from(visibility);
            let receipt = Receipt { incarnation: 1, sequence, ordinal: message.count };
            given.push(Delivery { receipt, group: message.group.into(), body: "b".into() });
        }
        given
    }
}

#[derive(Clone, Debug)]
enum Step {
    Wait(u64),
    Send(&'static str),
    Receive {
        size: u8,
        visibility: u32,
    },
    Delete(Index),
    Change(Index, u32),
    Delay(u32),
    /// The gateway takes messages that are too old, or those up to one of them, and deletes them.
    Sweep(usize),
    TakeUpTo(Index, usize),
    ForgetGroups,
}

fn steps() -> impl Strategy<Value = Vec<Step>> {
    use proptest::sample::select;
    let step = prop_oneof![
        3 => select(vec![1u64, 999, 1000, 5000, 20_000, 60_000, 200_000]).prop_map(Step::Wait),
        4 => select(vec!["a", "b", "c"]).prop_map(Step::Send),
        4 => (select(vec![1u8, 2, 10]), select(vec![0u32, 10, 30, 300]))
            .prop_map(|(size, visibility)| Step::Receive { size, visibility }),
        2 => any::<Index>().prop_map(Step::Delete),
        1 => (any::<Index>(), select(vec![0u32, 30])).prop_map(|(place, visibility)| Step::Change(place, visibility)),
        1 => select(vec![0u32, 10, 100, 900]).prop_map(Step::Delay),
        1 => select(vec![1usize, 3, 10]).prop_map(Step::Sweep),
        1 => (any::<Index>(), select(vec![1usize, 3, 10])).prop_map(|(place, most)| Step::TakeUpTo(place, most)),
        1 => Just(Step::ForgetGroups),
    ];
    proptest::collection::vec(step, 1..80)
}

struct Both {
    list: List,
    state: State,
    now: Moment,
    kind: QueueKind,
}

/// In the store each message of a standard queue has a group of its own.
const GROUPS: [&str; 9] = ["1", "2", "3", "4", "5", "6", "7", "8", "9"];

/// Messages are kept so long.
const PERIOD_MILLISECONDS: u64 = 100_000;

const START: Moment = 1_700_000_000_000;

fn state_at_start(kind: QueueKind) -> State {
    let given = [("MessageRetentionPeriod".to_string(), (PERIOD_MILLISECONDS / 1000).to_string())];
    let attributes = QueueAttributes::for_creation(kind, &GivenAttributes::read(kind, &given).unwrap()).unwrap();
    let name = QueueName::parse(if kind == QueueKind::Fifo { "q.fifo" } else { "q" }).unwrap();
    State::new(&QueueEntry::new(StoreName(1), name, 1, attributes, BTreeMap::new(), START))
}

impl Both {
    fn new(kind: QueueKind) -> Both {
        Both { list: List::default(), state: state_at_start(kind), now: START, kind }
    }

    fn apply_reply(&mut self, ask: &Ask, reply: StoreReply) -> Outcome {
        self.state.apply_reply(ask, reply, self.now, &Jumps::default()).unwrap().outcome
    }

    fn send(&mut self, group: &'static str) {
        self.list.sent += 1;
        let sequence = self.list.sent;
        let own_groups = || GROUPS.iter().find(|group| self.list.messages.values().all(|other| other.group != **group));
        let group = match self.kind {
            QueueKind::Fifo => group,
            QueueKind::Standard => own_groups().copied().unwrap_or("many"),
        };
        if group == "many" {
            self.list.sent -= 1;
            return;
        }
        self.list.messages.insert(sequence, ListedMessage { group, sent: self.now, until: 0, count: 0 });
        let envelope = Envelope::from(format!("{{\"sent\":{}}}\nb", self.now));
        let (group, dedup) = (GroupId::parse(group).unwrap(), DedupId::parse("d").unwrap());
        self.apply_reply(&Ask::Send { group, dedup, envelope, cause: Cause::Client }, StoreReply::Sent(sequence));
    }

    /// Asks as a receive does that is to hand out only what is due.
    fn receive(&mut self, size: u8, visibility: u32) -> TestCaseResult {
        let (closed, in_turn) = (self.list.closed(self.now), self.list.in_turn(self.now));
        let mut got = Vec::new();
        loop {
            let due = self.state.next_due(usize::from(size) - got.len(), self.now);
            if due.is_empty() {
                break;
            }
            let given = self.list.hand(due.len(), visibility, self.now);
            let (size, reach) = (due.len() as u8, Reach::Due(due));
            let asked = Ask::Receive { size, visibility, attempt: None, most: None, reach };
            let Outcome::Received { handed, set_aside, .. } = self.apply_reply(&asked, StoreReply::Received(given))
            else {
                panic!()
            };
            let mut handed: Vec<_> = handed.into_iter().chain(set_aside.into_iter().map(|(one, _)| one)).collect();
            handed.sort_unstable_by_key(|one| one.receipt.sequence);
            let is_last = handed.is_empty() || visibility == 0;
            got.extend(handed);
            if is_last {
                break;
            }
        }
        for handed in &got {
            let (sequence, message) = (handed.receipt.sequence, &self.list.messages[&handed.receipt.sequence]);
            prop_assert!(self.list.is_due(sequence, self.now), "{sequence} isn't due");
            prop_assert!(!closed.contains(message.group), "{sequence} is of a closed group");
            prop_assert_eq!(handed.receipt.ordinal, message.count);
        }
        for group in GROUPS.into_iter().chain(["a", "b", "c"]) {
            let of_group = |sequence: &u64| self.list.messages[sequence].group == group;
            let mine: Vec<_> = got.iter().map(|handed| handed.receipt.sequence).filter(of_group).collect();
            let front: Vec<_> = in_turn.iter().copied().filter(of_group).take(mine.len()).collect();
            prop_assert_eq!(mine, front);
        }
        let is_any_due = in_turn.iter().any(|sequence| self.list.is_due(*sequence, self.now));
        prop_assert_eq!(got.is_empty(), !is_any_due);
        Ok(())
    }

    /// Hands messages to the gateway that were found to be next ones, and deletes them. What the store hands out is those,
    /// and nothing is next then that is wanted and wasn't found.
    fn take(&mut self, found: Vec<u64>, most: usize, is_wanted: impl Fn(&List, u64) -> bool) -> TestCaseResult {
        let in_turn = self.list.in_turn(self.now).into_iter();
        let wanted: Vec<_> = in_turn.take_while(|sequence| is_wanted(&self.list, *sequence)).take(most).collect();
        prop_assert_eq!(&found, &wanted);
        prop_assert_eq!(self.state.count_next_among(&found, self.now), found.len());
        if found.is_empty() {
            return Ok(());
        }
        let given = self.list.hand(found.len(), 0, self.now);
        let (size, reach) = (found.len() as u8, Reach::Own(found.clone()));
        let asked = Ask::Receive { size, visibility: 0, attempt: None, most: None, reach };
        let Outcome::Received { handed, set_aside, .. } = self.apply_reply(&asked, StoreReply::Received(given)) else {
            panic!()
        };
        prop_assert!(set_aside.is_empty(), "{set_aside:?}");
        let taken: Vec<_> = handed.iter().map(|handed| handed.receipt.sequence).collect();
        prop_assert_eq!(taken, found);
        for handed in handed {
            self.list.messages.remove(&handed.receipt.sequence);
            let ask = Ask::Delete { receipt: handed.receipt, by_client: false };
            self.apply_reply(&ask, StoreReply::Deleted(true));
        }
        Ok(())
    }

    fn some_handed(&self, place: &Index) -> Option<Receipt> {
        let handed: Vec<_> = self.list.messages.iter().filter(|(_, message)| message.count > 0).collect();
        let (sequence, message) = (!handed.is_empty()).then(|| handed[place.index(handed.len())])?;
        Some(Receipt { incarnation: 1, sequence: *sequence, ordinal: message.count })
    }

    fn step(&mut self, step: &Step) -> TestCaseResult {
        match step {
            Step::Wait(time) => self.now += time,
            Step::Send(group) => self.send(group),
            Step::Receive { size, visibility } => self.receive(*size, *visibility)?,
            Step::Delete(place) => {
                if let Some(receipt) = self.some_handed(place) {
                    self.list.messages.remove(&receipt.sequence);
                    self.apply_reply(&Ask::Delete { receipt, by_client: false }, StoreReply::Deleted(true));
                }
            }
            Step::Change(place, visibility) => {
                let found = self.some_handed(place);
                let message = found.and_then(|receipt| self.list.messages.get_mut(&receipt.sequence));
                if let (Some(receipt), Some(message)) = (found, message.filter(|message| message.until > self.now)) {
                    message.until = self.now + 1000 * u64::from(*visibility);
                    self.apply_reply(
                        &Ask::ChangeVisibility { receipt, visibility: *visibility, by: Changer::Client },
                        StoreReply::Changed,
                    );
                }
            }
            Step::Sweep(most) => {
                let old = self.state.next_old(*most, &Jumps::default(), self.now);
                let horizon = self.now - PERIOD_MILLISECONDS;
                self.take(old, *most, |list, sequence| list.messages[&sequence].sent <= horizon)?;
            }
            Step::TakeUpTo(place, most) => {
                let last = place.index(self.list.sent as usize + 1) as u64;
                let next = self.state.next_up_to(last, *most, self.now);
                self.take(next, *most, |_, sequence| sequence <= last)?;
            }
            Step::ForgetGroups => self.state.forget_groups(self.now + 60_000),
            Step::Delay(_) if self.kind == QueueKind::Standard => {}
            Step::Delay(seconds) => {
                self.list.delay = 1000 * u64::from(*seconds);
                let given =
                    GivenAttributes::read(QueueKind::Fifo, &[("DelaySeconds".into(), seconds.to_string())]).unwrap();
                if let Some(Entry::Queue(entry)) = self.state.entry_after(&TableChange::Attributes(given), 0, self.now)
                {
                    self.state.said(&entry, 1, 0);
                }
            }
        }
        Ok(())
    }

    fn compare(&mut self) -> TestCaseResult {
        let now = self.now;
        let delayed: Vec<_> = self.list.messages.values().filter(|one| one.sent + self.list.delay > now).collect();
        let first = delayed.first().map(|message| message.sent + self.list.delay);
        prop_assert_eq!(self.state.next_due_moment(now), first);
        let visible = delayed.iter().filter(|message| message.until <= now).count();
        prop_assert_eq!(self.state.count_delayed(now), visible as u64);
        Ok(())
    }
}

#[test]
fn what_is_handed_out_is_that_of_a_list_with_delays() {
    check(3000, steps(), |steps| {
        for kind in [QueueKind::Fifo, QueueKind::Standard] {
            let mut both = Both::new(kind);
            for step in &steps {
                both.step(step)?;
                both.compare()?;
            }
        }
        Ok(())
    });
}

#[test]
fn names_of_the_store_come_back() {
    let names = [
        (StoreName(7), "7.fifo", None, None),
        (StoreName::of_parts(7), "b7.fifo", Some(7), None),
        (StoreName(7).of_delays(), "7d.fifo", None, Some(StoreName(7))),
        (StoreName::of_book(7), "book7.fifo", None, None),
    ];
    for (name, text, parts, main) in names {
        assert_eq!((name.to_string().as_str(), StoreName::parse(text)), (text, Some(name)));
        assert_eq!((name.parts(), name.main()), (parts, main), "{text}");
    }
    for bad in [
        "b.fifo",
        "b07.fifo",
        "7",
        "bb7.fifo",
        "9223372036854775815.fifo",
        "b9223372036854775815.fifo",
        "-7.fifo",
        "d.fifo",
        "07d.fifo",
        "b7d.fifo",
        "7dd.fifo",
        "4611686018427387911.fifo",
        "4611686018427387911d.fifo",
        "2305843009213693959.fifo",
        "book.fifo",
        "book07.fifo",
        "book7d.fifo",
    ] {
        assert_eq!(StoreName::parse(bad), None, "{bad}");
    }
}
