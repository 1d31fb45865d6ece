//! How etcd is: what is told of it to whoever looks, in logs and in metrics.

use std::collections::BTreeSet;
use std::sync::{Arc, Mutex};
use std::time::Duration;

use serde::Serialize;
use tokio::time::sleep;

use crate::etcd::{Etcd, EtcdError, REMEDY, SOON};
use crate::lock;
use crate::silence::patience;

/// So often etcd is asked. It is no longer than what is slow is known for.
const ROUND: Duration = Duration::from_secs(5);

/// How etcd is, as one process sees it.
#[derive(Clone, Debug, Default, PartialEq, Eq, Serialize)]
pub struct Condition {
    /// The names of its alarms, as NOSPACE.
    pub alarms: BTreeSet<String>,
    /// How long the slowest answer took lately, in milliseconds.
    pub slowest_milliseconds: u64,
}

impl Condition {
    /// Asks for it.
    pub async fn of(etcd: &Etcd) -> Result<Condition, EtcdError> {
        let alarms = etcd.alarms().await?;
        Ok(Condition { alarms, slowest_milliseconds: etcd.slowest().as_millis() as u64 })
    }

    /// The same, where somebody else has waited so many milliseconds.
    pub fn or_slower(self, milliseconds: u64) -> Condition {
        Condition { slowest_milliseconds: self.slowest_milliseconds.max(milliseconds), ..self }
    }

    fn is_slow(&self) -> bool {
        Duration::from_millis(self.slowest_milliseconds) > SOON
    }

    /// What is wrong, a sentence each.
    pub fn troubles(&self) -> Vec<String> {
        let alarms = self.alarms.iter().map(|alarm| match alarm.as_str() {
            "NOSPACE" => format!(
                "etcd has the alarm NOSPACE (database space exceeded): it takes no writes, so nobody beats, and no loss is \
                 noticed. {REMEDY}"
            ),
            "CORRUPT" => {
                "etcd has the alarm CORRUPT: its members' data differ, and it takes no requests. Its documentation says what to do"
                    .into()
            }
            other => format!("etcd has the alarm {other}"),
        });
        let (waited, silent) = (Duration::from_millis(self.slowest_milliseconds), self.patience());
        let slow = format!(
            "etcd is slow: an answer took {:.1} s lately, so a server is silent after {:.1} s",
            waited.as_secs_f32(),
            silent.as_secs_f32()
        );
        alarms.chain(self.is_slow().then_some(slow)).collect()
    }

    fn patience(&self) -> Duration {
        patience(Duration::from_millis(self.slowest_milliseconds))
    }

    /// What is told anew where it changes. By how much etcd is slow changes all the time.
    fn kind(&self) -> (BTreeSet<String>, bool) {
        (self.alarms.clone(), self.is_slow())
    }
}

/// Asks again and again, keeps what was found, and logs what has changed. What isn't answered changes nothing: why there is no
/// contact is told elsewhere.
pub async fn watch(etcd: Etcd, known: Arc<Mutex<Condition>>) {
    loop {
        if let Ok(condition) = Condition::of(&etcd).await {
            let before = std::mem::replace(&mut *lock(&known), condition.clone());
            if before.kind() != condition.kind() {
                tell(&condition);
            }
        }
        sleep(ROUND).await;
    }
}

fn tell(condition: &Condition) {
    let troubles = condition.troubles();
    troubles.iter().for_each(|trouble| tracing::warn!("{trouble}"));
    if troubles.is_empty() {
        tracing::info!("etcd has no alarm and isn't slow any more");
    }
}

#[cfg(test)]
mod tests {
    use super::*;

    #[test]
    fn alarms_and_slowness_are_told_in_words() {
        let condition = |alarms: &[&str], slowest_milliseconds| Condition {
            alarms: alarms.iter().map(ToString::to_string).collect(),
            slowest_milliseconds,
        };
        assert!(condition(&[], 400).troubles().is_empty());
        let [full, slow] = &condition(&["NOSPACE"], 1400).troubles()[..] else { panic!("two are told") };
        assert!(full.contains("database space exceeded") && full.contains("etcdctl alarm disarm"), "{full}");
        assert_eq!(slow, "etcd is slow: an answer took 1.4 s lately, so a server is silent after 7.8 s");
        let corrupt = condition(&["CORRUPT", "OTHER"], 0).troubles();
        assert!(corrupt[0].contains("data differ") && corrupt[1] == "etcd has the alarm OTHER");
        assert_eq!(condition(&[], 500).kind(), condition(&[], 900).kind());
        assert_eq!(condition(&[], 3).or_slower(900), condition(&[], 900));
    }
}
