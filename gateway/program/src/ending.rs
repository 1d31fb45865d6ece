//! The signals that announce the end, of which all that waits is told.

use std::time::Duration;

use anyhow::{Context, Result};
use tokio::signal::unix::{signal, Signal, SignalKind};
use tokio::sync::watch;
use tokio::task::JoinHandle;
use tokio::time::timeout;

/// So long a signal waits for open requests.
const LAST_ANSWERS: Duration = Duration::from_secs(8);

/// Tells all who hold an [`Ending`] that the end has come.
pub struct End(watch::Sender<bool>);

/// Waits for the end. Copies wait for the same.
#[derive(Clone)]
pub struct Ending(watch::Receiver<bool>);

impl End {
    pub fn new() -> (End, Ending) {
        let (sender, receiver) = watch::channel(false);
        (End(sender), Ending(receiver))
    }

    pub fn announce(&self) {
        self.0.send_replace(true);
    }

    /// Announces the end, and waits for what is served until then, as long as that may take.
    pub async fn wait_for(self, served: JoinHandle<()>) {
        tracing::info!("ending");
        self.announce();
        if timeout(LAST_ANSWERS, served).await.is_err() {
            tracing::warn!("some requests were cut off");
        }
    }
}

impl Ending {
    pub fn has_come(&self) -> bool {
        *self.0.borrow()
    }

    /// Waits until the end has come. It has come, too, where nobody is left who could tell of it.
    pub async fn comes(&mut self) {
        while !*self.0.borrow_and_update() {
            if self.0.changed().await.is_err() {
                return;
            }
        }
    }
}

/// The signals that are listened to.
pub struct Signals {
    interrupt: Signal,
    terminate: Signal,
    hangup: Signal,
}

impl Signals {
    /// From now on they don't end the process by themselves.
    pub fn new() -> Result<Signals> {
        let of = |kind| signal(kind).context("signals can't be listened to");
        Ok(Signals {
            interrupt: of(SignalKind::interrupt())?,
            terminate: of(SignalKind::terminate())?,
            hangup: of(SignalKind::hangup())?,
        })
    }

    /// Waits for a signal that ends the process; at each SIGHUP files are read again.
    pub async fn wait_for_end(&mut self, read_again: impl Fn()) {
        loop {
            tokio::select! {
                _ = self.interrupt.recv() => return,
                _ = self.terminate.recv() => return,
                _ = self.hangup.recv() => read_again(),
            }
        }
    }
}

#[cfg(test)]
mod tests {
    use super::*;

    #[tokio::test]
    async fn whoever_comes_late_is_told_too() {
        let (end, mut early) = End::new();
        let mut late = early.clone();
        let waiting = tokio::spawn(async move { early.comes().await });
        assert!(!late.has_come());
        end.announce();
        waiting.await.unwrap();
        late.comes().await;
        assert!(late.has_come());
    }
}
