//! When delayed messages are due.

use std::collections::{BTreeMap, HashMap};
use std::sync::{Arc, Mutex, MutexGuard, PoisonError, Weak};

use hobbychair_bytes::moment::Moment;
use hobbychair_sqs::handles::Mark;
use tokio::sync::Notify;

use crate::clock::Clock;
use crate::queue::Queue;

/// When messages are due, and of which queues: the first of each.
#[derive(Default)]
pub struct Alarms {
    /// By their moments, and by the marks of the queues.
    alarms: Mutex<BTreeMap<(Moment, Mark), Weak<Queue>>>,
    /// Told when one is set that is before all others.
    earlier: Notify,
}

impl Alarms {
    fn alarms(&self) -> MutexGuard<'_, BTreeMap<(Moment, Mark), Weak<Queue>>> {
        self.alarms.lock().unwrap_or_else(PoisonError::into_inner)
    }

    /// Sets the alarm for the first delayed message of the queue, if none before it is set.
    pub fn set_next(&self, queue: &Arc<Queue>) {
        let next = queue.state().next_alarm();
        if let Some(moment) = next {
            self.set(moment, queue);
        }
    }

    /// Sets the alarm for this moment.
    pub fn set(&self, moment: Moment, queue: &Arc<Queue>) {
        let mut alarms = self.alarms();
        alarms.insert((moment, queue.mark), Arc::downgrade(queue));
        if alarms.keys().next() == Some(&(moment, queue.mark)) {
            self.earlier.notify_one();
        }
    }

    /// Takes out what has come by now, and tells the queues that are there still.
    pub fn take(&self, now: Moment) -> Vec<Arc<Queue>> {
        let mut alarms = self.alarms();
        let later = alarms.split_off(&(now + 1, Mark(0)));
        let come = std::mem::replace(&mut *alarms, later);
        let queues = come.into_values().filter_map(|queue| queue.upgrade()).map(|queue| (queue.mark, queue));
        queues.collect::<HashMap<_, _>>().into_values().collect()
    }

    /// Waits until the first alarm comes, or until one is set that is before it.
    pub async fn wait(&self, clock: &Clock) {
        let comes = async {
            let first = self.alarms().keys().next().map(|(moment, _)| *moment);
            match first {
                Some(first) => clock.wait_until(first).await,
                None => std::future::pending().await,
            }
        };
        tokio::select! {
            () = comes => {}
            () = self.earlier.notified() => {}
        }
    }
}
