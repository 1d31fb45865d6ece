//! Fronts that are in contact with this node. They are witnesses: a head whose gateway none reaches answers nobody.

use std::collections::BTreeMap;
use std::io;
use std::sync::Mutex;
use std::time::{Duration, Instant};

use hobbychair_bytes::parts::Frames;
use tokio::time::timeout;

use super::connections::{next_connection, other, read};
use super::Shared;
use crate::lock;
use crate::records::Witnesses;
use crate::transport::{self, Reading, Writing};
use crate::wire::Frame;

/// So many fronts may be there.
pub const MOST_FRONTS: usize = 256;

/// A front that was heard within this time is in contact.
const CONTACT: Duration = Duration::from_secs(1);

/// A front's connection on which nothing comes for so long is closed.
const QUIET: Duration = Duration::from_secs(2);

/// What a front says of gateways' ports.
#[derive(Clone, Copy)]
struct FrontReach {
    head: u32,
    reaches_head: bool,
    reaches_this: bool,
}

/// When each front was heard last, and what it said, by the number of its connection.
#[derive(Default)]
pub struct Fronts {
    heard: Mutex<BTreeMap<u64, (Instant, Option<FrontReach>)>>,
}

impl Fronts {
    /// How many are in contact.
    pub fn count(&self) -> usize {
        lock(&self.heard).values().filter(|(heard, _)| heard.elapsed() <= CONTACT).count()
    }

    /// What those in contact say who take this server for the head, if there are any.
    pub fn witnesses(&self, head: u32) -> Option<Witnesses> {
        let heard = lock(&self.heard);
        let in_contact = heard.values().filter(|(heard, _)| heard.elapsed() <= CONTACT);
        let said: Vec<FrontReach> = in_contact.filter_map(|(_, said)| said.filter(|said| said.head == head)).collect();
        let count = |is_reached: fn(&FrontReach) -> bool| said.iter().filter(|said| is_reached(said)).count();
        let (reach_head, reach_this) = (count(|said| said.reaches_head), count(|said| said.reaches_this));
        (!said.is_empty()).then_some(Witnesses { head, reach_head, reach_this })
    }

    fn hear(&self, front: u64, said: Option<FrontReach>) {
        lock(&self.heard).insert(front, (Instant::now(), said));
    }
}

/// Answers the pings of a front, until none comes for long.
pub async fn serve(node: &Shared, mut reading: Frames<Reading>, mut writing: Writing) -> io::Result<()> {
    let front = next_connection();
    let ended = answer(node, front, &mut reading, &mut writing).await;
    lock(&node.fronts.heard).remove(&front);
    match ended {
        Err(error) if error.kind() == io::ErrorKind::InvalidData => Err(error),
        ended => {
            tracing::debug!(front, ?ended, "a front is gone");
            Ok(())
        }
    }
}

async fn answer(node: &Shared, front: u64, reading: &mut Frames<Reading>, writing: &mut Writing) -> io::Result<()> {
    loop {
        let said = match read(timeout(QUIET, reading.next()).await??)? {
            Frame::Ping { .. } => None,
            Frame::Reach { head, reaches_head, reaches_this } => Some(FrontReach { head, reaches_head, reaches_this }),
            _ => return Err(other("a frame came that doesn't belong to a front")),
        };
        node.fronts.hear(front, said);
        timeout(QUIET, transport::write(writing, &Frame::Ping { time: node.now() }.bytes())).await??;
    }
}

#[cfg(test)]
mod tests {
    use super::*;

    #[test]
    fn what_fronts_say_counts_where_they_are_in_contact_and_mean_the_same_head() {
        let fronts = Fronts::default();
        let say = |front, head, reaches_head, reaches_this| {
            fronts.hear(front, Some(FrontReach { head, reaches_head, reaches_this }));
        };
        fronts.hear(1, None);
        assert_eq!((fronts.count(), fronts.witnesses(3)), (1, None));
        say(2, 3, true, false);
        say(3, 3, true, true);
        say(4, 5, false, true);
        assert_eq!(fronts.witnesses(3), Some(Witnesses { head: 3, reach_head: 2, reach_this: 1 }));
        assert_eq!(fronts.witnesses(5), Some(Witnesses { head: 5, reach_head: 0, reach_this: 1 }));
        assert_eq!((fronts.count(), fronts.witnesses(4)), (4, None));
        // It says something else, and others are silent for long.
        for (heard, _) in lock(&fronts.heard).values_mut() {
            *heard = heard.checked_sub(2 * CONTACT).unwrap();
        }
        say(3, 3, false, true);
        assert_eq!(fronts.witnesses(3), Some(Witnesses { head: 3, reach_head: 0, reach_this: 1 }));
        assert_eq!((fronts.count(), fronts.witnesses(5)), (1, None));
    }
}
