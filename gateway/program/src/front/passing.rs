//! Passes a request on, again and again where that is needed.
//!
//! A request is asked at the gateway that acts, and again at the next one where no answer comes. All tries have the same call
//! and the same end, so that a gateway that wakes up late asks the store for nothing that was answered otherwise.

use std::sync::Arc;
use std::time::Duration;

use bytes::{Bytes, BytesMut};
use hobbychair_cluster::acting::{Acting, Follower};
use hobbychair_cluster::identity::{Identity, Role};
use hobbychair_cluster::transport::Connector;
use hobbychair_sqs::errors::SqsError;
use hobbychair_tables::budget::Share;
use hyper::body::HttpBody;
use hyper::{Body, Client, Request, Response, StatusCode, Uri};
use thiserror::Error;
use tokio::sync::Mutex;
use tokio::time::{sleep, sleep_until, timeout, Instant};

use super::contact::Contact;
use super::headers::{as_answered, room_needed, time_of, Asked, Try};
use super::operators::Figures;
use super::streams::Streams;
use super::times::{milliseconds, Times};
use crate::calls::LONGEST_BODY_BYTES;

/// A request is asked again until so long after it came.
const ASKING: Duration = Duration::from_secs(20);

/// A gateway has so long to answer, which is longer than the longest poll.
const LONGEST_TRY: Duration = Duration::from_secs(25);

/// Between two tries at one gateway.
const PAUSE: Duration = Duration::from_millis(50);

/// So often the gateway that acts is looked at, whether anybody asks or not.
const PING: Duration = Duration::from_millis(300);

/// A gateway that was heard within this time is reached.
const LATELY: Duration = Duration::from_secs(1);

/// A connection to a gateway comes about in this time.
const CONNECTING: Duration = Duration::from_secs(1);

/// A gateway has so long to tell the time.
const TELLING: Duration = Duration::from_secs(2);

/// A connection that isn't used for so long is closed.
const IDLE: Duration = Duration::from_secs(30);

/// No answer is longer: ten messages in JSON have less.
pub const LONGEST_ANSWER_BYTES: usize = 64 << 20;

/// A receive is passed on with room for so many bytes of its answer at first.
const FIRST_ROOM_BYTES: usize = 16 << 10;

/// Why a try came to nothing.
#[derive(Debug, Error)]
pub enum Failed {
    #[error("{0}")]
    Connection(#[from] hyper::Error),
    #[error("{0}")]
    NoConnection(Box<dyn std::error::Error + Send + Sync>),
    #[error("no connection to it could be opened")]
    Unopened,
    #[error("its connection has ended")]
    Ended,
    #[error("it answers nothing")]
    Silent,
    #[error("it tells no time, so it isn't a gateway that acts")]
    NoTime,
    #[error("another one acts")]
    Changed,
    #[error("its answer is too long")]
    TooLong,
    #[error("there is no room for its answer")]
    NoRoom,
    #[error("the request can't be written")]
    Unwritable,
}

/// What a try is told.
#[derive(Clone, Copy)]
struct Wanted {
    until: Instant,
    is_again: bool,
    /// For how many bytes of a receive's answer room is kept.
    room: Option<usize>,
}

/// Room for the answer to a request, beside its own bytes. A receive has it before it is passed on: what it was handed is hidden from
/// all others, so its answer isn't refused. Others are refused where it lacks.
struct AnswerRoom<'s> {
    share: &'s Share,
    /// The bytes of the request.
    asked: usize,
    /// What is kept for a receive's answer.
    kept: Option<usize>,
}

impl AnswerRoom<'_> {
    /// Keeps room for so many bytes of a receive's answer.
    fn keep(&mut self, bytes: usize) -> Result<(), SqsError> {
        if !self.share.try_set(self.asked.saturating_add(bytes)) {
            return Err(SqsError::ServiceUnavailable("Too many requests are being served.".into()));
        }
        self.kept = Some(bytes);
        Ok(())
    }

    /// Whether there is room for so many bytes of the answer. Those of a receive that go beyond what is kept count all the same:
    /// escapes have made them more than was reckoned with.
    fn has(&self, bytes: usize) -> bool {
        match self.kept {
            Some(kept) if bytes <= kept => true,
            Some(_) => {
                self.share.set(self.asked + bytes);
                true
            }
            None => self.share.try_set(self.asked + bytes),
        }
    }

    /// The answer is there.
    fn is_answered(&self, bytes: usize) {
        if self.kept.is_some() {
            self.share.set(self.asked + bytes);
        }
    }
}

/// Passes requests on to whichever gateway acts.
pub struct Passing {
    follower: Follower,
    streams: Streams,
    client: Client<Connector, Body>,
    times: Arc<Times>,
    figures: Arc<Figures>,
    contact: Arc<Contact>,
    /// Held by the one who asks for the time.
    asking: Mutex<()>,
}

impl Passing {
    /// Where there are certificates, a gateway is asked only if it shows the one that its node has registered.
    pub fn new(
        follower: Follower,
        identity: Option<Arc<Identity>>,
        figures: Arc<Figures>,
        contact: Arc<Contact>,
    ) -> Passing {
        let known = follower.clone();
        let connector = Connector::new(identity, Role::Node, CONNECTING).to_registered(move |uri| {
            known.acting().filter(|acting| is_at(uri, acting)).map(|acting| acting.certificate)
        });
        let times = Arc::new(Times::default());
        let streams = Streams::new(connector.clone(), times.clone());
        // What a client doesn't say of the host, nobody says in its place.
        let client = Client::builder().set_host(false).pool_idle_timeout(IDLE).build(connector);
        Passing { follower, streams, client, times, figures, contact, asking: Mutex::default() }
    }

    /// Keeps a connection of calls to the gateway that acts, for good, so that it is known whether that answers where nobody asks
    /// for anything.
    pub async fn keep_contact(self: Arc<Passing>) {
        loop {
            if let Some(acting) = self.follower.acting() {
                let heard = tokio::select! {
                    heard = self.ping(acting) => heard,
                    () = self.follower.leaves(Some(acting)) => Err(Failed::Changed),
                };
                match heard {
                    Ok(heard) => self.goes_well(acting, heard),
                    Err(why) => self.fails(&why),
                }
            }
            sleep(PING).await;
        }
    }

    /// When that gateway was heard last. One without calls is asked for the time.
    async fn ping(&self, acting: Acting) -> Result<Instant, Failed> {
        if let Some(stream) = self.streams.to(acting).await? {
            return Ok(stream.heard());
        }
        let request = Asked::of_time().at(acting.address, None).ok_or(Failed::Unwritable)?;
        timeout(TELLING, self.exchange(acting, request, |_| true)).await.map_err(|_| Failed::Silent)??;
        Ok(Instant::now())
    }

    fn goes_well(&self, acting: Acting, heard: Instant) {
        self.contact.goes_well(heard);
        if heard.elapsed() < LATELY {
            self.follower.hear(acting.server);
        }
    }

    /// Notes a try that came to nothing, where that is for the gateway or the way to it.
    fn fails(&self, why: &Failed) {
        match why {
            Failed::Changed | Failed::NoRoom | Failed::TooLong | Failed::Unwritable => {}
            why => self.contact.fails(Instant::now(), why),
        }
    }

    /// The answer of a gateway that acts, to a request that came at that moment.
    /// Its bytes count by this share, beside those of the request. `receives`: it asks for messages.
    pub async fn pass(
        &self,
        asked: &Arc<Asked>,
        receives: bool,
        arrived: Instant,
        share: &Share,
    ) -> Result<Response<Bytes>, SqsError> {
        let last = arrived + ASKING;
        let until = last + LONGEST_TRY;
        let mut is_again = false;
        let mut room = AnswerRoom { share, asked: asked.bytes(), kept: None };
        if receives {
            room.keep(FIRST_ROOM_BYTES)?;
        }
        loop {
            let acting = self.follower.acting();
            if let Some(acting) = acting {
                let tried = self.try_at(acting, asked, &room, Wanted { until, is_again, room: room.kept }).await;
                match tried {
                    Ok(response) => {
                        self.goes_well(acting, Instant::now());
                        let is_more = |needed: &usize| room.kept.is_some_and(|kept| *needed > kept);
                        if let Some(needed) = room_needed(&response).filter(is_more) {
                            room.keep(needed)?;
                            continue;
                        }
                        room.is_answered(response.body().len());
                        self.follower.may_answer().await;
                        return Ok(as_answered(response, asked.is_head()));
                    }
                    Err(Failed::NoRoom) => {
                        return Err(SqsError::ServiceUnavailable("Too many requests are being served.".into()))
                    }
                    Err(why) => {
                        self.fails(&why);
                        tracing::debug!(server = acting.server, "a request is to be asked again: {why}");
                    }
                }
                is_again = true;
                self.figures.is_asked_again();
                self.follower.look();
            }
            let again = if acting.is_some() { Instant::now() + PAUSE } else { last };
            tokio::select! {
                () = sleep_until(again.min(last)) => {}
                () = self.follower.leaves(acting) => {}
            }
            if Instant::now() >= last {
                return Err(SqsError::ServiceUnavailable("No gateway of the cluster has answered.".into()));
            }
        }
    }

    /// One try, which is given up where another gateway acts.
    async fn try_at(
        &self,
        acting: Acting,
        asked: &Arc<Asked>,
        room: &AnswerRoom<'_>,
        wanted: Wanted,
    ) -> Result<Response<Bytes>, Failed> {
        tokio::select! {
            biased;
            answered = self.ask(acting, asked, room, wanted) => answered,
            () = self.follower.leaves(Some(acting)) => Err(Failed::Changed),
        }
    }

    async fn ask(
        &self,
        acting: Acting,
        asked: &Arc<Asked>,
        room: &AnswerRoom<'_>,
        Wanted { until, is_again, room: kept }: Wanted,
    ) -> Result<Response<Bytes>, Failed> {
        let stream = if asked.bytes() <= LONGEST_BODY_BYTES { self.streams.to(acting).await? } else { None };
        let until = self.until(acting, until).await?;
        let tried = Try { until, is_again, room: kept };
        let has_room = |bytes| room.has(bytes);
        let answered = async {
            match stream {
                Some(stream) => self.learn_time(acting, stream.ask(asked, tried.said(), has_room).await?),
                None => {
                    let request = asked.at(acting.address, Some(tried)).ok_or(Failed::Unwritable)?;
                    self.exchange(acting, request, has_room).await
                }
            }
        };
        timeout(LONGEST_TRY, answered).await.map_err(|_| Failed::Silent)?
    }

    /// The moment until which an answer is wanted, in the cluster's time. It is never later than meant.
    async fn until(&self, acting: Acting, wanted: Instant) -> Result<u64, Failed> {
        if self.times.of(acting.server, Instant::now()).is_none() {
            self.ask_for_time(acting).await?;
        }
        let now = Instant::now();
        let time = self.times.of(acting.server, now).ok_or(Failed::NoTime)?;
        Ok(time.saturating_add(milliseconds(wanted.saturating_duration_since(now))))
    }

    /// Of many who want to know the time one asks.
    async fn ask_for_time(&self, acting: Acting) -> Result<(), Failed> {
        let _asking = self.asking.lock().await;
        if self.times.of(acting.server, Instant::now()).is_none() {
            let request = Asked::of_time().at(acting.address, None).ok_or(Failed::Unwritable)?;
            timeout(TELLING, self.exchange(acting, request, |_| true)).await.map_err(|_| Failed::Silent)??;
        }
        Ok(())
    }

    fn learn_time<B>(&self, acting: Acting, response: Response<B>) -> Result<Response<B>, Failed> {
        match time_of(&response) {
            Some(time) => self.times.learn(acting.server, time, Instant::now()),
            // Its store is gone, so that it knows of no time any more.
            None if response.status() == StatusCode::SERVICE_UNAVAILABLE => return Err(Failed::NoTime),
            None => {}
        }
        Ok(response)
    }

    /// Asks once, and learns the time of the answer. There has to be room for what was read of it.
    async fn exchange(
        &self,
        acting: Acting,
        request: Request<Body>,
        has_room: impl Fn(usize) -> bool,
    ) -> Result<Response<Bytes>, Failed> {
        let response = self.learn_time(acting, self.client.request(request).await?)?;
        let (head, mut body) = response.into_parts();
        let mut whole = BytesMut::new();
        while let Some(piece) = body.data().await {
            whole.extend_from_slice(&piece?);
            if whole.len() > LONGEST_ANSWER_BYTES {
                return Err(Failed::TooLong);
            }
            if !has_room(whole.len()) {
                return Err(Failed::NoRoom);
            }
        }
        Ok(Response::from_parts(head, whole.freeze()))
    }
}

/// Whether that gateway is the one at an address.
fn is_at(uri: &Uri, acting: &Acting) -> bool {
    uri.authority().is_some_and(|authority| authority.as_str() == acting.address.to_string())
}

#[cfg(test)]
mod tests;
