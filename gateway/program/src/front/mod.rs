//! A front of a cluster: it passes requests on to the gateway that acts, and keeps no state (docs/CLUSTER.md, "Fronts").

mod contact;
mod headers;
mod operators;
mod options;
mod passing;
mod streams;
mod testing;
mod times;

use std::io;
use std::path::PathBuf;
use std::sync::Arc;

use anyhow::{Context, Result};
use bytes::Bytes;
use hobbychair_cluster::acting::Follower;
use hobbychair_cluster::identity::{IdentityFiles, Role};
use hobbychair_sqs::action::Action;
use hobbychair_sqs::errors::SqsError;
use hobbychair_tables::budget::{Budget, Share};
use hyper::header::{HeaderValue, CONNECTION};
use hyper::{Body, Request, Response};
use tokio::time::Instant;
use uuid::Uuid;

use self::contact::Contact;
use self::headers::{Asked, Came};
use self::operators::{Figures, Operators};
pub use self::options::FrontOptions;
use self::passing::Passing;
use self::testing::Testing;
use crate::config::Address;
use crate::door::{converse, is_of_this_machine, listen, test_near};
use crate::door::{Certificate, Door, Guest, Places, Progress, Protection, LONGEST_REQUEST};
use crate::ending::{End, Signals};
use crate::http::{bodies, protocol_of, refused, to_be_written};
use crate::operators::admin::serve_operators;
use crate::serve::{listen_for_operators, notify_supervisor, read_again, say};

/// What a front is told at its start.
#[derive(Clone, Debug)]
pub struct FrontSettings {
    pub cluster: String,
    /// The members of etcd.
    pub etcd: Vec<String>,
    /// Its certificate, where the cluster has some.
    pub files: IdentityFiles,
    /// The file of keys with which requests have to be signed; none where the gateway that acts alone asks for them.
    pub credentials: Option<PathBuf>,
    /// A chain of certificates that clients are shown, and its key, where they speak TLS.
    pub tls: Option<(PathBuf, PathBuf)>,
    pub host: String,
    pub port: u16,
    /// Everybody is served also from other machines.
    pub open: bool,
    pub connections: u32,
    /// So many bytes may be kept by all requests that are being passed on.
    pub request_memory: usize,
    /// Where operators are told how it is.
    pub admin: Option<Address>,
}

/// Passes requests on until a signal comes. An error says why it couldn't begin.
pub async fn serve(settings: FrontSettings) -> Result<()> {
    let mut signals = Signals::new()?;
    let certificate = Certificate::read_named(&settings.tls)?;
    let testing = Testing::new(settings.credentials.as_deref())?;
    let (host, port) = (&settings.host, settings.port);
    let listener = listen(host, port).with_context(|| format!("can't listen on {host}:{port}"))?;
    let local = listener.local_addr()?;
    if !settings.open && testing.keys().is_none() {
        test_near(host, local)?;
    }
    let places = Places::for_front(settings.connections)?;
    let figures = Arc::new(Figures::new()?);
    let operators = settings.admin.as_ref().map(listen_for_operators).transpose()?;
    let identity = settings.files.identity(&settings.cluster, &[Role::Front, Role::Node])?;
    let follower = Follower::begin(&settings.cluster, &settings.etcd, identity.clone()).await?;
    let contact = Arc::new(Contact::default());
    if let Some(listener) = operators {
        let told = Operators { figures: figures.clone(), follower: follower.clone(), contact: contact.clone() };
        let answer = move |request| std::future::ready((told.answer(&request), None));
        tokio::spawn(serve_operators(listener, places.operators, answer));
    }
    let passing = Arc::new(Passing::new(follower.clone(), identity, figures.clone(), contact));
    tokio::spawn(passing.clone().keep_contact());
    let scheme = if certificate.is_some() { "https" } else { "http" };
    let budget = Budget::new(settings.request_memory);
    let front = Arc::new(Front { testing: testing.clone(), passing, figures, budget });
    let (end, ending) = End::new();
    let door = Door::new(Protection::by(certificate.clone()), places.served);
    let mut served = tokio::spawn(door.serve(listener, ending, move |guest| front.clone().welcome(guest)));
    notify_supervisor(sd_notify::NotifyState::Ready);
    say(&format!("listening on {scheme}://{local}"));
    tokio::select! {
        () = signals.wait_for_end(|| read_again(testing.keys(), &certificate)) => {}
        why = follower.ends() => anyhow::bail!("this front ends: {why}"),
        ended = &mut served => anyhow::bail!("the server ended: {ended:?}"),
    }
    notify_supervisor(sd_notify::NotifyState::Stopping);
    end.wait_for(served).await;
    Ok(())
}

/// What all connections share.
struct Front {
    testing: Testing,
    passing: Arc<Passing>,
    figures: Arc<Figures>,
    budget: Budget,
}

/// What the requests of one connection share, one after the other.
struct Visit {
    front: Arc<Front>,
    progress: Progress,
    share: Arc<Share>,
    came: Came,
}

impl Front {
    /// Answers all that comes over a connection.
    async fn welcome(self: Arc<Front>, guest: Guest) {
        let Guest { stream, socket, peer, mut ending, .. } = guest;
        let came = Came { is_near: is_of_this_machine(peer.ip()), by_tls: stream.is_tls() };
        let progress = Progress::new(LONGEST_REQUEST).of_socket(socket);
        let share = Arc::new(self.budget.share());
        let visit = Arc::new(Visit { front: self, progress: progress.clone(), share, came });
        let answer = move |request| visit.clone().handle(request);
        if let Err(error) = converse(stream, &progress, &mut ending, None, answer).await {
            tracing::debug!("a connection ended: {error}");
        }
    }
}

impl Visit {
    /// Answers a request. Where its client goes, what is asked for is given up.
    async fn handle(self: Arc<Visit>, request: Request<Body>) -> io::Result<Response<Body>> {
        let (arrived, _open) = (Instant::now(), self.front.figures.passes());
        let mut response = tokio::select! {
            biased;
            response = self.answer(request) => response,
            () = self.progress.leaves() => return Err(io::ErrorKind::ConnectionAborted.into()),
        };
        self.front.figures.answered(response.status(), arrived.elapsed());
        if self.progress.answers(response.body().len() as u64) {
            response.headers_mut().insert(CONNECTION, HeaderValue::from_static("close"));
        }
        Ok(to_be_written(response, &self.share))
    }

    async fn answer(&self, request: Request<Body>) -> Response<Bytes> {
        let arrived = Instant::now();
        let (head, body) = request.into_parts();
        let protocol = protocol_of(&head.headers);
        let body = match bodies::read(body, &self.share, self.progress.deadline(arrived)).await {
            Ok(body) => body,
            Err(error) => return refused(protocol, &error, Uuid::new_v4(), true),
        };
        self.progress.is_read();
        let receives = match self.front.testing.test(&head, &body) {
            Ok(action) => action == Action::ReceiveMessage,
            Err(unread) => return unread.response(protocol, Uuid::new_v4()),
        };
        let passed = match Asked::of(head, body, self.came) {
            Some(asked) => self.front.passing.pass(&Arc::new(asked), receives, arrived, &self.share).await,
            None => Err(SqsError::InvalidParameterValue("A front can't pass this request on.".into())),
        };
        passed.unwrap_or_else(|error| refused(protocol, &error, Uuid::new_v4(), false))
    }
}
