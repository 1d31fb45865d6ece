//! Makes the store of a journal: a server is given all of it, and tells the store.

use std::collections::VecDeque;

use anyhow::{bail, ensure, Context, Result};
use bytes::Bytes;
use hobbychair_bytes::commands::{Command, Response, Standing};
use tokio::sync::mpsc::{unbounded_channel, UnboundedReceiver};

use crate::child::{Child, ChildEvent};
use crate::journal::{self, Found, Head, JournalFolder};

/// So many requests are on their way to the server.
const MOST_OPEN: usize = 512;

/// A server that is the only one of its chain.
struct ReplayServer {
    child: Child,
    told: UnboundedReceiver<ChildEvent>,
    responses: VecDeque<Response>,
}

/// Writes the store of a journal as the first part of another one.
pub async fn write(found: &Found, program: &str, folder: &JournalFolder, head: &Head) -> Result<()> {
    let mut server = ReplayServer::start(program, found.store.is_some())?;
    let begun = server.load(found).await?;
    ensure!(begun.count == found.base, "cq server has {} entries, and the copy is made of {}", begun.count, found.base);
    let standing = server.replay(found, begun).await?;
    ensure!(
        (standing.count, standing.last) == (found.count, found.last),
        "cq server has {} entries, the last of moment {}, and the journal {} and {}",
        standing.count,
        standing.last,
        found.count,
        found.last
    );
    let mut store = journal::NewStore::begin(folder, 1, head)?;
    while let Some(chunk) = server.next_chunk(found.count).await? {
        store.add(chunk)?;
    }
    store.end(folder)?;
    Ok(())
}

impl ReplayServer {
    fn start(program: &str, has_store: bool) -> Result<ReplayServer> {
        let mut words: Vec<String> = ["server", "--id", "1", "--first", "1"].map(String::from).to_vec();
        words.extend(has_store.then(|| "--load".into()));
        let (tell, told) = unbounded_channel();
        let child = Child::start(program, &words, move |one| drop(tell.send(one)))?;
        Ok(ReplayServer { child, told, responses: VecDeque::new() })
    }

    fn give(&self, command: &Command) {
        self.child.give(command.frame());
    }

    async fn next(&mut self) -> Result<Response> {
        loop {
            if let Some(response) = self.responses.pop_front() {
                return Ok(response);
            }
            match self.told.recv().await.context("cq server is gone")? {
                ChildEvent::Responses(responses) => self.responses.extend(responses),
                ChildEvent::Ended(why) => bail!("cq server is gone: {why}"),
            }
        }
    }

    /// The end of the next answer.
    async fn answer(&mut self) -> Result<Response> {
        loop {
            let response = self.next().await?;
            if response.is_last() {
                return Ok(response);
            }
        }
    }

    async fn standing(&mut self) -> Result<Standing> {
        match self.answer().await? {
            Response::Done(standing) => Ok(standing),
            Response::Refused(code) | Response::Unread(code) => bail!("cq server refuses what it is given, by {code}"),
            other => bail!("cq server answers {other:?}"),
        }
    }

    /// Gives it the store with which the journal begins, if it does.
    async fn load(&mut self, found: &Found) -> Result<Standing> {
        if found.store.is_none() {
            return Ok(Standing::default());
        }
        let mut chunks = found.chunks()?;
        while let Some(chunk) = chunks.next()? {
            self.give(&Command::Load(chunk));
            let answer = self.answer().await?;
            ensure!(answer == Response::Heard, "cq server doesn't take the copy of the store: {answer:?}");
        }
        self.give(&Command::Load(Bytes::new()));
        self.standing().await
    }

    /// Gives it all entries. Says where it stands then.
    async fn replay(&mut self, found: &Found, begun: Standing) -> Result<Standing> {
        let mut entries = found.entries(1);
        let (mut standing, mut open) = (begun, 0);
        loop {
            let next = entries.next()?;
            let is_over = next.is_none();
            if let Some(entry) = next {
                self.give(&Command::Arrive { stream: 1, clock: entry.moment, request: entry.request });
                open += 1;
            }
            while open >= MOST_OPEN || (is_over && open > 0) {
                standing = self.standing().await?;
                open -= 1;
            }
            if is_over {
                return Ok(standing);
            }
        }
    }

    /// The next chunk of its store; none behind the last.
    async fn next_chunk(&mut self, count: u64) -> Result<Option<Bytes>> {
        self.give(&Command::Save);
        let response = self.next().await?;
        let Response::Saved { count: of, chunk } = response else { bail!("cq server tells no store: {response:?}") };
        ensure!(of == count, "cq server tells a store of {of} entries, and not of {count}");
        self.standing().await?;
        Ok((!chunk.is_empty()).then_some(chunk))
    }
}
