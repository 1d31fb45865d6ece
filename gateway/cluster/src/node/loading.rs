//! A server that begins with a store (docs/PROCESSES.md, "Copies").

use anyhow::{bail, Context, Result};
use bytes::Bytes;
use hobbychair_bytes::commands::{Command, Response, Standing};
use tokio::sync::mpsc::UnboundedReceiver;

use super::Event;
use crate::child::{Child, ChildEvent};
use crate::journal::Found;

/// Gives the server the store of a journal, before it is given anything else. Says where it stands then.
pub async fn load(child: &Child, heard: &mut UnboundedReceiver<Event>, found: &Found) -> Result<Standing> {
    let mut chunks = found.chunks()?;
    while let Some(chunk) = chunks.next()? {
        if give(child, heard, chunk).await?.is_some() {
            bail!("cq server has the store before its end");
        }
    }
    let standing = give(child, heard, Bytes::new()).await?.context("cq server doesn't say that it has the store")?;
    if standing.count != found.base {
        bail!("cq server has {} entries, and the store is made of {}", standing.count, found.base);
    }
    tracing::info!(count = standing.count, "the server begins with the store that was recovered");
    Ok(standing)
}

/// Gives one chunk, and waits for the answer: where the server stands, if the store is whole.
async fn give(child: &Child, heard: &mut UnboundedReceiver<Event>, chunk: Bytes) -> Result<Option<Standing>> {
    child.give(Command::Load(chunk).frame());
    while let Some(event) = heard.recv().await {
        match event {
            Event::Told(ChildEvent::Responses(responses)) => match responses.as_slice() {
                [Response::Heard] => return Ok(None),
                [Response::Done(standing)] => return Ok(Some(*standing)),
                other => bail!("cq server doesn't take the store: it tells {other:?}"),
            },
            Event::Told(ChildEvent::Ended(why)) => bail!("cq server doesn't take the store: {why}"),
            _ => {}
        }
    }
    bail!("nothing happens any more")
}
