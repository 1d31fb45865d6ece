//! Whether a gateway would begin beside a node, tried again and again: what its options name may be spoilt behind the node's start.

use std::sync::Arc;
use std::time::Duration;

use tokio::time::timeout;

use super::super::Shared;
use super::port::Port;
use super::process;
use crate::lock;
use crate::records::Readiness;

/// So often it is tried, and whenever a gateway has ended.
const PAUSE: Duration = Duration::from_secs(5);

/// So many bytes of a reason go into a beat.
const LONGEST_REASON_BYTES: usize = 200;

/// Tries for good, behind the trial of the node's start. What comes of it goes into beats.
pub async fn keep(node: Arc<Shared>, port: Arc<Port>) {
    loop {
        let _ = timeout(PAUSE, node.gateway_ended.notified()).await;
        let is_one_there = lock(&node.report).keeps_gateway;
        let found = match process::test(&node.cluster, &port, is_one_there).await {
            Ok(()) => Readiness::Ready,
            Err(said) => Readiness::Unready(reason(&said)),
        };
        let known = lock(&node.readiness).replace(found.clone());
        match &found {
            Readiness::Unready(why) if known.as_ref() != Some(&found) => {
                tracing::warn!("a gateway wouldn't begin beside this node: {why}");
            }
            Readiness::Ready if matches!(known, Some(Readiness::Unready(_))) => {
                tracing::info!("a gateway would begin beside this node again");
            }
            Readiness::Ready | Readiness::Unready(_) => {}
        }
    }
}

/// The last line of what a gateway said that ended, as far as that is short.
fn reason(said: &str) -> String {
    let last = said.lines().map(str::trim).rfind(|line| !line.is_empty()).unwrap_or("it says nothing");
    cut(last.strip_prefix("hobbychair: ").unwrap_or(last))
}

/// Its front that isn't too long for a beat.
pub fn cut(text: &str) -> String {
    match (0..=LONGEST_REASON_BYTES).rev().find(|end| text.is_char_boundary(*end)) {
        Some(end) if end < text.len() => format!("{}..", &text[..end]),
        _ => text.into(),
    }
}

#[cfg(test)]
mod tests {
    use super::*;

    #[test]
    fn a_reason_is_the_last_line_and_short() {
        assert_eq!(reason("a warning\nhobbychair: no keys\n\n"), "no keys");
        assert_eq!(reason(""), "it says nothing");
        let long = "é".repeat(150);
        assert_eq!(cut(&long), format!("{}..", "é".repeat(100)));
        assert_eq!((cut("short"), cut("").as_str()), ("short".into(), ""));
        assert_eq!(cut(&"x".repeat(LONGEST_REASON_BYTES)).len(), LONGEST_REASON_BYTES);
    }
}
