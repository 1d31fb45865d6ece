//! Connections to the nodes of all other servers of the chain: answers come from the one that acts.

use std::io;
use std::sync::Arc;
use std::time::Duration;

use hobbychair_bytes::parts::{Frames, FRAME_LIMIT_BYTES};
use tokio::io::{AsyncRead, AsyncWrite};
use tokio::sync::mpsc::{unbounded_channel, UnboundedReceiver};
use tokio::time::{sleep, timeout};

use super::super::connections::{next_connection, other, read};
use super::super::{Event, Shared};
use super::{Happening, PeerEvent, CLIENTS};
use crate::records::Registration;
use crate::transport;
use crate::wire::Frame;

/// So long a connection may take to begin.
const CONNECTING: Duration = Duration::from_secs(1);

/// So long it takes until the next try.
const PAUSE: Duration = Duration::from_millis(50);

/// A node says each half second where its server stands. One of which nothing comes for so long isn't heard any more.
const QUIET: Duration = Duration::from_secs(2);

/// Who takes no query for so long loses its connection.
const WRITING: Duration = Duration::from_secs(2);

/// Keeps a connection to a server's node until nobody wants it any more.
pub async fn listen(server: u32, node: Arc<Shared>) {
    let mut said = String::new();
    loop {
        if let Some(registration) = node.registration(server) {
            let connection = next_connection();
            let (was_heard, error) = hear(server, connection, &registration, &node).await;
            // It is tried again and again, and a reason is told once.
            let why = error.to_string();
            if was_heard || why != said {
                tracing::info!(server, %error, "answers of a server aren't heard");
            }
            said = why;
            tell(&node, server, connection, PeerEvent::Ended);
        }
        sleep(PAUSE).await;
    }
}

fn tell(node: &Shared, server: u32, connection: u64, heard: PeerEvent) {
    node.tell(Event::Gateway(Happening::Heard { server, connection, heard }));
}

/// Hears what comes over one connection, until that ends. Says whether there was one, and why it ended.
async fn hear(server: u32, connection: u64, registration: &Registration, node: &Shared) -> (bool, io::Error) {
    let mut is_heard = false;
    let ended: io::Result<()> = async {
        let connecting = transport::connect(node.cluster.identity.as_deref(), registration);
        let (reading, mut writing) = timeout(CONNECTING, connecting).await??;
        let greeting = Frame::Client { about: node.about(), first: *CLIENTS.start(), last: *CLIENTS.end() };
        timeout(CONNECTING, transport::write(&mut writing, &greeting.bytes())).await??;
        is_heard = true;
        let (asks, asked) = unbounded_channel();
        tell(node, server, connection, PeerEvent::Begins(asks));
        tokio::select! {
            ended = read_all(reading, server, connection, node) => ended,
            ended = write_all(writing, asked) => ended,
        }
    }
    .await;
    (is_heard, ended.err().unwrap_or_else(|| other("nobody wants it any more")))
}

async fn read_all(from: impl AsyncRead + Unpin, server: u32, connection: u64, node: &Shared) -> io::Result<()> {
    let mut frames = Frames::new(from, FRAME_LIMIT_BYTES);
    loop {
        let frame = read(timeout(QUIET, frames.next()).await??)?;
        match &frame {
            Frame::Standing { server: said, .. } if *said != server => return Err(other("it is another server")),
            Frame::Standing { .. } | Frame::Answer { .. } | Frame::Refused { .. } => {}
            Frame::Away { why } => return Err(other(why)),
            _ => return Err(other("a frame came that isn't for a client")),
        }
        tell(node, server, connection, PeerEvent::Frame(frame));
    }
}

async fn write_all(mut to: impl AsyncWrite + Unpin, mut asked: UnboundedReceiver<Frame>) -> io::Result<()> {
    while let Some(frame) = asked.recv().await {
        timeout(WRITING, transport::write(&mut to, &frame.bytes())).await??;
    }
    Ok(())
}
