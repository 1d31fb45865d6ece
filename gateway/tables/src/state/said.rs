//! What the book says of a queue.

use std::collections::BTreeMap;

use hobbychair_bytes::moment::Moment;
use hobbychair_sqs::attributes::QueueAttributes;

use super::{delay_of_all, State};
use crate::ask::TableChange;
use crate::book::{Entry, Purging, QueueEntry, Removal};
use crate::limits::QUEUE_BYTES;
use crate::tasks::{self, MoveTask};

/// What an entry changed.
#[derive(Clone, Copy, Debug, Default, PartialEq, Eq)]
pub struct EntryEffect {
    /// Something that can open a group.
    pub has_opened: bool,
    /// Which messages are being deleted.
    pub purging: Option<Option<Purging>>,
}

impl State {
    /// What the book has to say once this has changed, at this moment; none where nothing changes. `delayed_up_to` is the
    /// last message of the queue beside this one.
    pub fn entry_after(&self, change: &TableChange, delayed_up_to: u64, moment: Moment) -> Option<Entry> {
        let mut entry = self.entry.clone();
        match change {
            TableChange::Created => {
                (entry.created, entry.modified) = (moment, moment);
                return Some(Entry::Queue(entry));
            }
            TableChange::Attributes(given) => {
                let given = entry.attributes.news_of(given);
                if !given.is_empty() {
                    let by_group = entry.attributes.dedups_by_group();
                    entry.attributes.set(&given);
                    entry.modified = moment;
                    if entry.attributes.dedups_by_group() != by_group {
                        entry.rescoped = Some(moment);
                    }
                }
            }
            TableChange::Tag(tags) => entry.tags.extend(tags.clone()),
            TableChange::Untag(keys) => entry.tags.retain(|key, _| !keys.contains(key)),
            TableChange::Purging(last) => {
                (entry.purged, entry.purging) = (Some(moment), Some(Purging { up_to: *last, delayed_up_to }));
            }
            TableChange::Purged => (entry.purged, entry.purging) = (Some(moment), None),
            // What is said last counts, also where nothing before it stands there any more.
            TableChange::Task(task) => {
                return Some(Entry::Task(entry.mark, tasks::merged(&self.tasks, task)));
            }
            TableChange::Removed => {
                return Some(Entry::Removed(Removal { name: entry.name, mark: entry.mark, at: moment }));
            }
            TableChange::Again(None) => return Some(Entry::Queue(entry)),
            TableChange::Again(Some(id)) => {
                let task = self.tasks.iter().find(|task| task.id == *id)?;
                return Some(Entry::Task(entry.mark, task.clone()));
            }
        }
        (entry != self.entry).then_some(Entry::Queue(entry))
    }

    /// The book of this number says how the queue stands, by an entry of this size.
    pub fn said(&mut self, entry: &QueueEntry, book: u64, size: u64) -> EntryEffect {
        let before = std::mem::replace(&mut self.entry, entry.clone());
        (self.said_in, self.entry_size) = (book, size);
        let said = EntryEffect {
            has_opened: before.attributes != entry.attributes,
            purging: (before.purging != entry.purging).then_some(entry.purging),
        };
        if said.has_opened {
            self.redrive = entry.attributes.redrive();
            self.set_delay(delay_of_all(self.kind, &entry.attributes));
        }
        self.own_bytes = bytes_of_queue(&entry.attributes, &entry.tags);
        said
    }

    /// The book of this number says how a task stands, by an entry of this size.
    pub fn said_of_task(&mut self, task: &MoveTask, book: u64, size: u64) {
        tasks::merge(&mut self.tasks, task);
        self.tasks_said_in.insert(task.id, (book, size));
        let tasks = &self.tasks;
        self.tasks_said_in.retain(|id, _| tasks.iter().any(|task| task.id == *id));
    }

    /// The last task has moved one more message.
    pub fn count_moved(&mut self) {
        if let Some(task) = self.tasks.last_mut() {
            task.moved += 1;
        }
    }

    /// What the book of this number doesn't say yet.
    pub fn unsaid_in(&self, book: u64) -> Vec<TableChange> {
        let is_unsaid = |task: &&MoveTask| self.tasks_said_in.get(&task.id).map_or(true, |(own, _)| *own != book);
        let tasks = self.tasks.iter().filter(is_unsaid).map(|task| TableChange::Again(Some(task.id)));
        tasks.chain((self.said_in != book).then_some(TableChange::Again(None))).collect()
    }

    /// What the entries take of memory that count of the queue, in bytes.
    pub fn size_of_entries(&self) -> u64 {
        let of_tasks = self.tasks_said_in.values().map(|(_, size)| *size);
        of_tasks.chain([self.entry_size]).sum()
    }

    /// Of a queue beside one that is being purged: which of its messages are being deleted, if any still are.
    pub fn purge_with(&mut self, purging: Option<Purging>) {
        self.entry.purging = purging.map(|main| Purging { up_to: main.delayed_up_to, delayed_up_to: 0 });
        if let Some(last) = self.purging() {
            self.due.remove_up_to(last);
        }
    }

    /// The last of the messages that are being deleted, if a purge has begun.
    pub fn purging(&self) -> Option<u64> {
        self.entry.purging.map(|purging| purging.up_to)
    }

    /// What the queue takes of memory without its messages, in bytes.
    pub fn own_bytes(&self) -> u64 {
        self.own_bytes
    }

    /// By how many bytes an entry makes the queue larger without its messages, and how large it is then.
    pub fn growth(&self, entry: &QueueEntry) -> (u64, u64) {
        let whole = bytes_of_queue(&entry.attributes, &entry.tags);
        (whole.saturating_sub(self.own_bytes), whole)
    }
}

/// What a queue takes of memory without its messages, in bytes.
pub fn bytes_of_queue(attributes: &QueueAttributes, tags: &BTreeMap<String, String>) -> u64 {
    let of_attributes = attributes.iter().map(|(name, value)| name.len() + value.len());
    let of_tags = tags.iter().map(|(key, value)| key.len() + value.len());
    QUEUE_BYTES + of_attributes.chain(of_tags).sum::<usize>() as u64
}
