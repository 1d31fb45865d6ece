//! What the tasks of a store share with each other, with what keeps it, and with those who ask.

use std::sync::Arc;

use hobbychair_tables::clock::Clock;
use hobbychair_tables::queues::Queues;

use crate::admission::Admission;
use crate::figures::Counters;

/// The tables, the clock, the bound of memory and the counters of a store. Copies are of the same.
#[derive(Clone)]
pub struct Shared {
    pub(crate) queues: Arc<Queues>,
    pub(crate) clock: Arc<Clock>,
    pub(crate) admission: Arc<Admission>,
    pub(crate) counters: Arc<Counters>,
}

impl Shared {
    /// What a store has that begins with these tables. `memory`: the bound of memory in bytes, if there is one.
    pub fn new(queues: Arc<Queues>, clock: Arc<Clock>, memory: Option<u64>) -> Shared {
        let admission = Arc::new(Admission::new(queues.clone(), memory));
        Shared { queues, clock, admission, counters: Arc::default() }
    }
}
