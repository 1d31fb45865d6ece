//! Whether a client that asked for something is still there.

use std::os::unix::io::RawFd;
use std::sync::atomic::{AtomicUsize, Ordering};
use std::sync::{Arc, Mutex, MutexGuard, PoisonError};

use rustix::fd::BorrowedFd;
use rustix::io::{poll, PollFd, PollFlags};
use tokio::sync::Notify;

/// Counts the requests that wait for one answer: the first one, and its repeats.
#[derive(Clone, Debug, Default)]
pub struct Presence(Arc<Count>);

#[derive(Debug, Default)]
struct Count {
    present: AtomicUsize,
    /// The sockets of those that have one of their own.
    sockets: Mutex<Sockets>,
    /// Told when the last one goes.
    left: Notify,
}

/// Most often there is one.
#[derive(Debug, Default)]
struct Sockets {
    first: Option<RawFd>,
    others: Vec<RawFd>,
}

impl Sockets {
    fn add(&mut self, socket: RawFd) {
        match self.first {
            None => self.first = Some(socket),
            Some(_) => self.others.push(socket),
        }
    }

    fn remove(&mut self, socket: RawFd) {
        if self.first == Some(socket) {
            self.first = self.others.pop();
        } else if let Some(place) = self.others.iter().position(|one| *one == socket) {
            self.others.swap_remove(place);
        }
    }

    fn all(&self) -> impl Iterator<Item = RawFd> + '_ {
        self.first.into_iter().chain(self.others.iter().copied())
    }
}

impl Count {
    fn sockets(&self) -> MutexGuard<'_, Sockets> {
        self.sockets.lock().unwrap_or_else(PoisonError::into_inner)
    }
}

impl Presence {
    /// One more request waits, as long as what this gives is kept. Where its connection has this socket alone, that is asked whether
    /// the client has gone.
    pub fn enter(&self, socket: Option<RawFd>) -> Present {
        self.0.present.fetch_add(1, Ordering::Relaxed);
        socket.into_iter().for_each(|socket| self.0.sockets().add(socket));
        Present { count: self.0.clone(), socket }
    }

    /// Whether all have gone by now, also where their connections haven't noticed it yet. Asks the system, once for each.
    pub fn has_left(&self) -> bool {
        let sockets = self.0.sockets();
        sockets.all().count() == self.0.present.load(Ordering::Relaxed) && sockets.all().all(is_hung_up)
    }

    /// Whether no request waits any more.
    pub fn is_gone(&self) -> bool {
        self.0.present.load(Ordering::Relaxed) == 0
    }

    /// Waits until nobody is there. One task may wait.
    pub async fn leaves(&self) {
        while !self.is_gone() {
            self.0.left.notified().await;
        }
    }
}

/// A request that waits. It is dropped when its client goes.
#[derive(Debug)]
pub struct Present {
    count: Arc<Count>,
    socket: Option<RawFd>,
}

impl Drop for Present {
    fn drop(&mut self) {
        if let Some(socket) = self.socket {
            self.count.sockets().remove(socket);
        }
        if self.count.present.fetch_sub(1, Ordering::Relaxed) == 1 {
            // Whoever begins to wait only now is told, too.
            self.count.left.notify_one();
        }
    }
}

/// Whether the other side sends no more, be there unread bytes or not.
pub fn is_hung_up(socket: RawFd) -> bool {
    // SAFETY: whoever asks is a part of the connection, which owns the socket. Where it ends at this very moment, the number may be
    // that of no socket by now, or of another one: nothing is done with it but this question, which any socket may be asked.
    let socket = unsafe { BorrowedFd::borrow_raw(socket) };
    let mut asked = [PollFd::from_borrowed_fd(socket, PollFlags::RDHUP)];
    let gone = PollFlags::RDHUP | PollFlags::HUP | PollFlags::ERR;
    poll(&mut asked, 0).is_ok() && asked[0].revents().intersects(gone)
}

#[cfg(test)]
mod tests {
    use super::*;

    use std::io::Write;
    use std::os::unix::io::AsRawFd;
    use std::os::unix::net::UnixStream;

    #[tokio::test]
    async fn the_last_one_to_go_is_told_of() {
        let presence = Presence::default();
        let (first, second) = (presence.enter(None), presence.enter(None));
        let waiting = tokio::spawn({
            let presence = presence.clone();
            async move { presence.leaves().await }
        });
        drop(first);
        tokio::task::yield_now().await;
        assert!(!waiting.is_finished() && !presence.is_gone());
        drop(second);
        waiting.await.unwrap();
        presence.leaves().await;
    }

    #[test]
    fn who_has_gone_is_known_before_the_connection_notices_it() {
        let (first, second) = (UnixStream::pair().unwrap(), UnixStream::pair().unwrap());
        let presence = Presence::default();
        let _first = presence.enter(Some(first.0.as_raw_fd()));
        let repeat = presence.enter(Some(second.0.as_raw_fd()));
        assert!(!presence.has_left());
        // It has sent more than its request, which nobody has read.
        (&first.1).write_all(b"x").unwrap();
        drop(first.1);
        assert!(!presence.has_left(), "one that repeats it is there");
        drop(repeat);
        assert!(presence.has_left() && !presence.is_gone());
        let by_others = presence.enter(None);
        assert!(!presence.has_left(), "of that one nothing is known");
        drop(by_others);
        assert!(presence.has_left());
    }
}
