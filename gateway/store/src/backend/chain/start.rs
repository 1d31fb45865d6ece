//! Takes up what a node tells at the start of the gateway beside it: the time, and the store of the head.

use std::os::unix::io::AsFd;
use std::sync::atomic::{AtomicU64, Ordering};
use std::sync::Arc;

use hobbychair_bytes::moment::Moment;
use hobbychair_bytes::parts::{Cutter, Malformed, FRAME_LIMIT_BYTES};
use hobbychair_bytes::pipe::{FromGateway, FromNode};
use hobbychair_tables::clock::Clock;
use hobbychair_tables::image::ImageError;
use hobbychair_tables::shards::{Shard, Shards};
use thiserror::Error;
use tokio::io::AsyncWriteExt;
use tokio::net::UnixStream;
use tokio::task::JoinHandle;

use super::ChainBackend;
use crate::backend::start::{go_on_from, Started, StartedPipe, Take};
use crate::backend::Backend;
use crate::cq::{Cq, CqError};
use crate::shared::Shared;

/// Why a node's store can't be worked with.
#[derive(Debug, Error)]
pub enum BesideNodeError {
    #[error("standard input is no socket: hobbychair node starts this")]
    NoSocket,
    #[error(transparent)]
    Cq(#[from] CqError),
    #[error("the node and this gateway don't understand each other: {0}")]
    Malformed(#[from] Malformed),
    #[error("the store of the head: {0}")]
    Image(ImageError),
    #[error(
        "the store of the head is of another build: {0}. Before version 0.2.0 no cluster goes over from one build to another: \
         docs/CLUSTER.md, \"To upgrade\", says how its messages get into a new one"
    )]
    OtherForm(ImageError),
    #[error("the tables couldn't be made")]
    Failed,
}

impl From<ImageError> for BesideNodeError {
    fn from(why: ImageError) -> BesideNodeError {
        match why {
            ImageError::OtherForm(_) => BesideNodeError::OtherForm(why),
            _ => BesideNodeError::Image(why),
        }
    }
}

/// What is known of a node at the start.
struct NodeStart {
    /// Its server's number, or 0 as long as that isn't known to be the head.
    server: u32,
    /// The moments of the last entry before the chain stood still and was recovered, and when it went on; nothing where it
    /// wasn't.
    paused: Option<(Moment, Moment)>,
    /// What was read of it already.
    incoming: Cutter,
}

/// Takes up the store that the node at the other end of standard input tells, as far as the head has it. All of that will be in the
/// chain's list as long as this head lives.
pub(in crate::backend) async fn start(shared: &Shared) -> Result<Started, BesideNodeError> {
    let Shared { clock, queues, .. } = shared;
    let far = Arc::new(AtomicU64::new(0));
    let mut image = queues.new_image().counted_by(far.clone());
    let mut bytes = 0;
    let mut take = |chunk: &[u8]| {
        if bytes == 0 {
            tracing::info!("the store begins");
        }
        bytes += chunk.len();
        image.feed(chunk)
    };
    let socket = socket().map_err(|_| BesideNodeError::NoSocket)?;
    let (mut pipe, mut node) = take_up_from(socket, clock, &far, &mut take).await?;
    tracing::info!(bytes, "the store is told");
    let (last, largest) = (image.last(), image.largest_number());
    // It takes a second for some hundred thousand messages.
    let making = tokio::task::spawn_blocking({
        let queues = queues.clone();
        move || {
            let made = queues.take_up(Shard::ONLY, image);
            tracing::info!("the tables are made");
            made
        }
    });
    wait_for(making, &mut pipe, &mut node, (clock, &far)).await??;
    go_on_from(clock, last);
    queues.names().wait_from(clock.now());
    let NodeStart { server, paused, incoming } = node;
    let backend = Backend::Chain(ChainBackend::new(largest, server, shared.clone()));
    let pipes = vec![StartedPipe { pipe, backend, incoming }];
    Ok(Started { shards: Shards::ONE, pipes, paused, requests: 0, lock: None })
}

fn socket() -> std::io::Result<UnixStream> {
    let socket = std::os::unix::net::UnixStream::from(std::io::stdin().as_fd().try_clone_to_owned()?);
    // Anything else has no such address.
    socket.local_addr()?;
    socket.set_nonblocking(true)?;
    UnixStream::from_std(socket)
}

/// Waits for work that takes long, and until the node's server is the head. The node is told meanwhile that this gateway
/// works, and how far it is. Nothing was asked by then.
async fn wait_for<T>(
    work: JoinHandle<T>,
    cq: &mut Cq,
    node: &mut NodeStart,
    (clock, far): (&Clock, &AtomicU64),
) -> Result<T, BesideNodeError> {
    tokio::pin!(work);
    let mut done = None;
    while done.is_none() || node.server == 0 {
        tokio::select! {
            made = &mut work, if done.is_none() => done = Some(made.map_err(|_| BesideNodeError::Failed)?),
            told = next(cq, &mut node.incoming) => match told? {
                FromNode::Time { time, since_start } => say_alive(cq, (clock, far), time, since_start).await?,
                FromNode::Stored { server } => node.server = server,
                // It is about nothing that this gateway asked, or comes again.
                _ => {}
            },
        }
    }
    done.ok_or(BesideNodeError::Failed)
}

async fn say_alive(
    cq: &mut Cq,
    (clock, far): (&Clock, &AtomicU64),
    time: u64,
    since_start: u64,
) -> Result<(), CqError> {
    clock.follow(time, since_start);
    let alive = FromGateway::Alive { time, far: far.load(Ordering::Relaxed), serves: false }.bytes();
    cq.input.write_all(&alive).await.map_err(|_| CqError::NodeGone)
}

async fn take_up_from(
    socket: UnixStream,
    clock: &Clock,
    far: &AtomicU64,
    take: &mut Take<'_>,
) -> Result<(Cq, NodeStart), BesideNodeError> {
    let (mut cq, mut cutter) = (Cq::of_node(socket), Cutter::default());
    let mut paused = None;
    loop {
        match next(&mut cq, &mut cutter).await? {
            FromNode::Time { time, since_start } => say_alive(&mut cq, (clock, far), time, since_start).await?,
            FromNode::Chunk { chunk } if chunk.is_empty() => {
                return Ok((cq, NodeStart { server: 0, paused, incoming: cutter }))
            }
            FromNode::Chunk { chunk } => take(&chunk)?,
            FromNode::Paused { last, begun } => paused = Some((last, begun)),
            // They are about what an earlier gateway asked.
            FromNode::Answer { .. } | FromNode::Acts | FromNode::Refused { .. } | FromNode::Room { .. } => {}
            FromNode::Stored { .. } => return Err(Malformed("the store isn't whole").into()),
        }
    }
}

async fn next(cq: &mut Cq, cutter: &mut Cutter) -> Result<FromNode, BesideNodeError> {
    loop {
        if let Some(frame) = cutter.next(FRAME_LIMIT_BYTES)? {
            return Ok(FromNode::read(frame)?);
        }
        cq.read(&mut cutter.buffer).await?;
    }
}

#[cfg(test)]
mod tests {
    use super::*;

    use std::time::Duration;

    use hobbychair_bytes::parts::Frames;

    #[tokio::test]
    async fn the_node_is_told_that_the_gateway_works_while_its_tables_are_made() {
        let (gateway, node) = UnixStream::pair().unwrap();
        let (clock, mut start) = (Clock::new(), NodeStart { server: 0, paused: None, incoming: Default::default() });
        let (reading, mut writing) = node.into_split();
        let mut reading = Frames::new(reading, FRAME_LIMIT_BYTES);
        let (done, is_done) = std::sync::mpsc::channel::<()>();
        let far = AtomicU64::new(7);
        let work = tokio::task::spawn_blocking(move || is_done.recv().is_ok());
        let node = async {
            for time in [7, 8] {
                writing.write_all(&FromNode::Time { time, since_start: 0 }.bytes()).await.unwrap();
                writing.write_all(&FromNode::Acts.bytes()).await.unwrap();
                let heard = tokio::time::timeout(Duration::from_secs(10), reading.next()).await.unwrap().unwrap();
                assert_eq!(FromGateway::read(heard), Ok(FromGateway::Alive { time, far: time, serves: false }));
                // It gets further.
                far.store(time + 1, Ordering::Relaxed);
            }
            done.send(()).unwrap();
            // Its server isn't the head yet, and the time is told on.
            writing.write_all(&FromNode::Time { time: 9, since_start: 0 }.bytes()).await.unwrap();
            let heard = tokio::time::timeout(Duration::from_secs(10), reading.next()).await.unwrap().unwrap();
            assert_eq!(FromGateway::read(heard), Ok(FromGateway::Alive { time: 9, far: 9, serves: false }));
            writing.write_all(&FromNode::Stored { server: 3 }.bytes()).await.unwrap();
        };
        let mut cq = Cq::of_node(gateway);
        let (made, ()) = tokio::join!(wait_for(work, &mut cq, &mut start, (&clock, &far)), node);
        assert!(made.unwrap() && start.server == 3);
    }

    #[tokio::test]
    async fn a_node_that_becomes_the_head_while_tables_are_made_waits_for_them() {
        let (gateway, mut node) = UnixStream::pair().unwrap();
        let (clock, mut start) = (Clock::new(), NodeStart { server: 0, paused: None, incoming: Default::default() });
        let (done, is_done) = std::sync::mpsc::channel::<()>();
        let work = tokio::task::spawn_blocking(move || is_done.recv().is_ok());
        node.write_all(&FromNode::Stored { server: 2 }.bytes()).await.unwrap();
        let mut cq = Cq::of_node(gateway);
        let far = AtomicU64::new(0);
        let (made, ()) = tokio::join!(wait_for(work, &mut cq, &mut start, (&clock, &far)), async {
            tokio::time::sleep(Duration::from_millis(20)).await;
            done.send(()).unwrap();
        });
        assert!(made.unwrap() && start.server == 2);
    }

    #[tokio::test]
    async fn a_store_that_ends_without_its_last_chunk_is_none() {
        let (gateway, mut node) = UnixStream::pair().unwrap();
        node.write_all(&FromNode::Stored { server: 1 }.bytes()).await.unwrap();
        assert!(take_up_from(gateway, &Clock::new(), &AtomicU64::new(0), &mut |_| Ok(())).await.is_err());
    }

    #[tokio::test]
    async fn that_the_chain_stood_still_is_told_ahead_of_the_store() {
        let (gateway, mut node) = UnixStream::pair().unwrap();
        let paused = FromNode::Paused { last: 5, begun: 9 };
        for told in [FromNode::Time { time: 9, since_start: 0 }, paused, FromNode::Chunk { chunk: Default::default() }]
        {
            node.write_all(&told.bytes()).await.unwrap();
        }
        let (_cq, start) = take_up_from(gateway, &Clock::new(), &AtomicU64::new(0), &mut |_| Ok(())).await.unwrap();
        assert_eq!((start.server, start.paused), (0, Some((5, 9))));
    }
}
