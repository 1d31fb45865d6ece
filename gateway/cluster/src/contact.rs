//! Whether a process is in contact with etcd, and what it tells of that.

use std::collections::BTreeSet;

/// So many reasons are told until contact is there again.
const MOST_TOLD: usize = 16;

/// What was told since contact was lost. At first it counts as there.
#[derive(Debug, Default)]
pub struct Contact {
    told: BTreeSet<String>,
}

impl Contact {
    /// There is none, and this is why. Says whether that is to be told: each reason is, once.
    pub fn lose(&mut self, why: String) -> bool {
        self.told.len() < MOST_TOLD && self.told.insert(why)
    }

    /// It is there. Says whether that is to be told.
    pub fn regain(&mut self) -> bool {
        !std::mem::take(&mut self.told).is_empty()
    }
}

#[cfg(test)]
mod tests {
    use super::*;

    #[test]
    fn each_reason_is_told_once_until_contact_is_there_again() {
        let mut contact = Contact::default();
        assert!(!contact.regain());
        let told = |contact: &mut Contact| ["a", "a", "b", "a"].map(|why| contact.lose(why.into()));
        assert_eq!(told(&mut contact), [true, false, true, false]);
        assert!(contact.regain() && !contact.regain());
        assert_eq!(told(&mut contact), [true, false, true, false]);
    }

    #[test]
    fn reasons_without_end_take_no_memory() {
        let mut contact = Contact::default();
        assert_eq!((0..1000).filter(|number: &u32| contact.lose(number.to_string())).count(), MOST_TOLD);
        assert!(contact.regain());
    }
}
