//! Names by which queues and books stand or stood in the stores. A store never forgets a name, so those of what is gone are used
//! again.

use std::collections::{BTreeMap, HashMap, VecDeque};
use std::sync::atomic::{AtomicU64, Ordering};
use std::sync::{Arc, Mutex, MutexGuard, PoisonError, Weak};

use hobbychair_bytes::moment::Moment;

use crate::state::WINDOW_MILLISECONDS;
use crate::store_name::StoreName;

/// So long a name isn't free after its queue was removed, in milliseconds
/// (API Reference, CreateQueue, `QueueDeletedRecently`).
pub const REMOVAL_PAUSE_MILLISECONDS: u64 = 60_000;

/// So long after it went a name isn't used again, in milliseconds: the minute for which the store refuses it, and the five minutes
/// for which ids count.
pub const REUSE_PAUSE_MILLISECONDS: u64 = REMOVAL_PAUSE_MILLISECONDS + WINDOW_MILLISECONDS;

/// As long as somebody has it, a name of the store isn't used again.
pub type InUse = Arc<()>;

#[derive(Debug, Default)]
struct Name {
    /// How many queues of this name there have been.
    creations: u64,
    is_there: bool,
    /// By whom the last of them, or the name, is still in use.
    in_use: Weak<()>,
    /// Since when it waits, if it does.
    waits: Option<Moment>,
}

/// The names of one program.
#[derive(Debug, Default)]
struct OfProgram {
    names: HashMap<StoreName, Name>,
    /// How many of them are gone.
    gone: u64,
    /// Names of queues that are gone, with what was delayed of them, and when they went or were found in use the last time, in
    /// the order of these moments. What a name doesn't say itself counts no more.
    waiting: VecDeque<(Moment, StoreName)>,
    /// The same of books.
    waiting_books: VecDeque<(Moment, StoreName)>,
    /// Names that were found at a start wait from this moment on.
    found_before: Moment,
}

impl OfProgram {
    fn is_there(&self, name: StoreName) -> bool {
        self.names.get(&name).is_some_and(|name| name.is_there)
    }

    fn is_in_use(&self, name: StoreName) -> bool {
        self.names.get(&name).is_some_and(|name| name.is_there || name.in_use.strong_count() > 0)
    }

    fn waiting(&mut self, is_book: bool) -> &mut VecDeque<(Moment, StoreName)> {
        if is_book {
            &mut self.waiting_books
        } else {
            &mut self.waiting
        }
    }

    /// The name of a queue or a book waits, where neither that nor what is delayed of it is there.
    fn wait(&mut self, name: StoreName, since: Moment) {
        if self.is_there(name) || self.is_there(name.of_delays()) {
            return;
        }
        if let Some(known) = self.names.get_mut(&name) {
            known.waits = Some(since);
            self.waiting(name.book().is_some()).push_back((since, name));
        }
    }

    fn take(&mut self, is_book: bool, now: Moment) -> Option<StoreName> {
        let (since, name) = *self.waiting(is_book).front()?;
        if since.max(self.found_before) + REUSE_PAUSE_MILLISECONDS > now {
            return None;
        }
        self.waiting(is_book).pop_front();
        let known = self.names.get_mut(&name).filter(|known| known.waits == Some(since))?;
        known.waits = None;
        if self.is_in_use(name) || self.is_in_use(name.of_delays()) {
            self.wait(name, now);
            return None;
        }
        Some(name)
    }
}

/// Names of queues and books, by the places of the programs. Those of parts aren't among them.
#[derive(Debug, Default)]
pub struct Names {
    programs: Mutex<BTreeMap<usize, OfProgram>>,
    /// How many are gone of all programs.
    all_gone: AtomicU64,
}

impl Names {
    fn programs(&self) -> MutexGuard<'_, BTreeMap<usize, OfProgram>> {
        self.programs.lock().unwrap_or_else(PoisonError::into_inner)
    }

    /// Takes up the names that a store has had: how often each was created, and when it went, if it isn't there. Of none of them
    /// anything was known.
    pub fn find(&self, place: usize, names: impl IntoIterator<Item = (StoreName, u64, Option<Moment>)>) {
        let mut programs = self.programs();
        let own = programs.entry(place).or_default();
        let mut went: BTreeMap<StoreName, Moment> = BTreeMap::new();
        for (name, creations, gone) in names {
            own.names.insert(name, Name { creations, is_there: gone.is_none(), ..Name::default() });
            self.add_gone(own, u64::from(gone.is_some()));
            let latest = went.entry(name.main().unwrap_or(name)).or_default();
            *latest = gone.unwrap_or(0).max(*latest);
        }
        let mut went: Vec<_> = went.into_iter().map(|(name, moment)| (moment, name)).collect();
        went.sort_unstable();
        went.into_iter().for_each(|(moment, name)| own.wait(name, moment));
    }

    /// What was found at a start waits as if it had gone at this moment: somebody before may have requests on their way.
    pub fn wait_from(&self, moment: Moment) {
        self.programs().values_mut().for_each(|own| own.found_before = moment);
    }

    /// The store has made a queue of this name, the `incarnation`th. False if it has had another one than was known: then nobody
    /// knows what it has.
    pub fn created(&self, place: usize, name: StoreName, incarnation: u64, in_use: Weak<()>) -> bool {
        let mut programs = self.programs();
        let own = programs.entry(place).or_default();
        let is_new = !own.names.contains_key(&name);
        let created = Name { creations: incarnation, is_there: true, in_use, waits: None };
        let before = own.names.insert(name, created).unwrap_or_default();
        if !is_new && !before.is_there {
            own.gone -= 1;
            self.all_gone.fetch_sub(1, Ordering::Relaxed);
        }
        !before.is_there && incarnation == before.creations + 1
    }

    /// A queue that was found goes by this name.
    pub fn use_by(&self, place: usize, name: StoreName, in_use: &InUse) {
        if let Some(found) = self.programs().entry(place).or_default().names.get_mut(&name) {
            found.in_use = Arc::downgrade(in_use);
        }
    }

    /// Keeps a name from being used again.
    pub fn keep(&self, place: usize, name: StoreName) -> InUse {
        let mut programs = self.programs();
        let Some(found) = programs.entry(place).or_default().names.get_mut(&name) else { return InUse::default() };
        found.in_use.upgrade().unwrap_or_else(|| {
            let in_use = InUse::default();
            found.in_use = Arc::downgrade(&in_use);
            in_use
        })
    }

    /// The queue of this name went at this moment. Moments never fall.
    pub fn removed(&self, place: usize, name: StoreName, moment: Moment) {
        let mut programs = self.programs();
        let own = programs.entry(place).or_default();
        let known = own.names.entry(name).or_default();
        // A name whose creation nobody saw was created once at least.
        known.creations = known.creations.max(1);
        known.is_there = false;
        self.add_gone(own, 1);
        own.wait(name.main().unwrap_or(name), moment);
    }

    /// The name of a queue of the program at this place that is free at this moment, and won't be given again. The one that went
    /// first is looked at alone: where it is in use, it waits behind all others.
    pub fn take(&self, place: usize, now: Moment) -> Option<StoreName> {
        self.programs().get_mut(&place)?.take(false, now)
    }

    /// The same of a book.
    pub fn take_book(&self, place: usize, now: Moment) -> Option<StoreName> {
        self.programs().get_mut(&place)?.take(true, now)
    }

    /// Nothing came of the creation of a queue of this name. It waits once more.
    pub fn give_back(&self, place: usize, name: StoreName, now: Moment) {
        self.programs().entry(place).or_default().wait(name, now);
    }

    /// Whether the store of the program at this place has never had this name.
    pub fn is_new(&self, place: usize, name: StoreName) -> bool {
        self.programs().get(&place).map_or(true, |own| !own.names.contains_key(&name))
    }

    /// How many names are gone of the program at this place.
    pub fn gone(&self, place: usize) -> u64 {
        self.programs().get(&place).map_or(0, |own| own.gone)
    }

    fn add_gone(&self, own: &mut OfProgram, count: u64) {
        own.gone += count;
        self.all_gone.fetch_add(count, Ordering::Relaxed);
    }

    /// How many are gone of all programs. O(1), since each send asks.
    pub fn all_gone(&self) -> u64 {
        self.all_gone.load(Ordering::Relaxed)
    }

    /// All that is known of them.
    #[cfg(test)]
    pub fn told(&self) -> Vec<String> {
        let programs = self.programs();
        let of_program = |(place, own): (&usize, &OfProgram)| {
            let mut names: Vec<_> = own.names.iter().collect();
            names.sort_unstable_by_key(|(name, _)| **name);
            let names: Vec<_> =
                names.iter().map(|(name, own)| (name.to_string(), own.creations, own.is_there)).collect();
            let mut waiting: Vec<_> = own.waiting.iter().chain(&own.waiting_books).collect();
            waiting.sort_unstable();
            format!("{place}: {names:?} {} {waiting:?}", own.gone)
        };
        programs.iter().filter(|(_, own)| !own.names.is_empty()).map(of_program).collect()
    }
}

#[cfg(test)]
mod tests {
    use super::*;

    const QUEUE: StoreName = StoreName(5);
    const OTHER: StoreName = StoreName(6);

    fn created(names: &Names, name: StoreName, incarnation: u64) -> InUse {
        let in_use = InUse::default();
        assert!(names.created(0, name, incarnation, Arc::downgrade(&in_use)));
        in_use
    }

    #[test]
    fn a_name_is_used_again_once_its_pause_is_over_and_the_one_that_went_first_comes_first() {
        let names = Names::default();
        drop([created(&names, OTHER, 1), created(&names, QUEUE, 1)]);
        names.removed(0, QUEUE, 1000);
        names.removed(0, OTHER, 1001);
        assert_eq!(
            (names.gone(0), names.take(0, 999 + REUSE_PAUSE_MILLISECONDS), names.take(1, u64::MAX)),
            (2, None, None)
        );
        assert_eq!(names.take(0, 1000 + REUSE_PAUSE_MILLISECONDS), Some(QUEUE));
        assert_eq!((names.take(0, 1000 + REUSE_PAUSE_MILLISECONDS), names.gone(0)), (None, 2));
        // It counts as gone until it is there, and then no more.
        assert!(!names.is_new(0, QUEUE) && names.is_new(0, StoreName(7)) && names.is_new(1, QUEUE));
        created(&names, QUEUE, 2);
        assert_eq!((names.gone(0), names.all_gone()), (1, 1));
        assert_eq!(names.take(0, 1001 + REUSE_PAUSE_MILLISECONDS), Some(OTHER));
        assert_eq!(names.take(0, u64::MAX), None);
    }

    #[test]
    fn a_name_that_somebody_has_waits_behind_all_others() {
        let names = Names::default();
        let (in_use, _) = (created(&names, QUEUE, 1), created(&names, OTHER, 1));
        names.removed(0, QUEUE, 1000);
        names.removed(0, OTHER, 1000);
        let now = 1000 + REUSE_PAUSE_MILLISECONDS;
        assert_eq!((names.take(0, now), names.take(0, now)), (None, Some(OTHER)));
        drop(in_use);
        assert_eq!(
            (names.take(0, now + REUSE_PAUSE_MILLISECONDS - 1), names.take(0, now + REUSE_PAUSE_MILLISECONDS)),
            (None, Some(QUEUE))
        );
        // Who is about to remove it once more has it, too.
        names.give_back(0, QUEUE, now);
        let kept = names.keep(0, QUEUE);
        assert_eq!(names.take(0, now + REUSE_PAUSE_MILLISECONDS), None);
        drop(kept);
        assert_eq!(names.take(0, now + 2 * REUSE_PAUSE_MILLISECONDS), Some(QUEUE));
    }

    #[test]
    fn a_name_is_free_when_what_is_delayed_is_gone_too() {
        let names = Names::default();
        let in_use = [created(&names, QUEUE, 1), created(&names, QUEUE.of_delays(), 1)];
        names.removed(0, QUEUE, 1000);
        assert_eq!(names.take(0, u64::MAX), None);
        names.removed(0, QUEUE.of_delays(), 2000);
        let [main, delays] = in_use;
        drop(main);
        // Somebody has what was delayed.
        assert_eq!(
            (names.take(0, 1999 + REUSE_PAUSE_MILLISECONDS), names.take(0, 2000 + REUSE_PAUSE_MILLISECONDS)),
            (None, None)
        );
        drop(delays);
        assert_eq!((names.take(0, 2000 + 2 * REUSE_PAUSE_MILLISECONDS), names.gone(0)), (Some(QUEUE), 2));
        created(&names, QUEUE, 2);
        created(&names, QUEUE.of_delays(), 2);
        assert_eq!(names.gone(0), 0);
    }

    #[test]
    fn what_a_start_finds_waits_from_when_it_went() {
        let names = Names::default();
        let delays = QUEUE.of_delays();
        let found = [
            (StoreName(4), 1, Some(900)),
            (QUEUE, 3, Some(700)),
            (delays, 2, Some(1000)),
            (OTHER, 1, Some(800)),
            (StoreName(7), 1, None),
            (StoreName(8), 1, Some(1)),
            (StoreName(8).of_delays(), 1, None),
            (StoreName::of_book(1), 1, Some(1)),
        ];
        names.find(0, found);
        assert_eq!((names.gone(0), names.take(0, 799 + REUSE_PAUSE_MILLISECONDS)), (6, None));
        let taken: Vec<_> = (0..4).map(|_| names.take(0, 1000 + REUSE_PAUSE_MILLISECONDS)).collect();
        assert_eq!(taken, [Some(OTHER), Some(StoreName(4)), Some(QUEUE), None]);
        let books = [
            names.take_book(0, REUSE_PAUSE_MILLISECONDS),
            names.take_book(0, 1 + REUSE_PAUSE_MILLISECONDS),
            names.take_book(0, u64::MAX),
        ];
        assert_eq!(books, [None, Some(StoreName::of_book(1)), None]);
        assert!(names.created(0, QUEUE, 4, Weak::new()) && names.created(0, delays, 3, Weak::new()));
    }

    #[test]
    fn what_a_gateway_beside_a_node_finds_waits_from_its_start() {
        let names = Names::default();
        names.find(0, [(QUEUE, 1, Some(700))]);
        names.wait_from(5000);
        assert_eq!(
            (names.take(0, 4999 + REUSE_PAUSE_MILLISECONDS), names.take(0, 5000 + REUSE_PAUSE_MILLISECONDS)),
            (None, Some(QUEUE))
        );
    }

    #[test]
    fn a_queue_that_nobody_knew_of_is_none_of_this_gateway() {
        let names = Names::default();
        created(&names, QUEUE, 1);
        assert!(!names.created(0, QUEUE, 1, Weak::new()), "it is there");
        names.removed(0, QUEUE, 1000);
        assert!(!names.created(0, QUEUE, 1, Weak::new()), "the store had it all the time");
        names.removed(0, QUEUE, 1000);
        assert!(!names.created(0, QUEUE, 4, Weak::new()), "somebody else has made some");
        // A creation of which nothing came.
        names.removed(0, QUEUE, 2000);
        assert_eq!(names.gone(0), 1);
    }

    #[test]
    fn a_name_whose_queue_is_there_does_not_wait() {
        let names = Names::default();
        created(&names, QUEUE, 1);
        names.give_back(0, QUEUE, 0);
        names.give_back(0, OTHER, 0);
        assert_eq!(names.take(0, u64::MAX), None);
    }

    #[test]
    fn a_name_that_waits_twice_is_given_once_and_the_last_time_counts() {
        let names = Names::default();
        created(&names, QUEUE, 1);
        names.removed(0, QUEUE, 1000);
        names.give_back(0, QUEUE, 1000);
        names.give_back(0, QUEUE, 2000);
        let taken: Vec<_> = (0..4).map(|_| names.take(0, 1999 + REUSE_PAUSE_MILLISECONDS)).collect();
        assert_eq!(taken, [None; 4]);
        assert_eq!((names.take(0, 2000 + REUSE_PAUSE_MILLISECONDS), names.take(0, u64::MAX)), (Some(QUEUE), None));
    }
}
