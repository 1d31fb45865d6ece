//! What is said of a request for which a program's journal has no room.

use hobbychair_sqs::errors::SqsError;
use hobbychair_tables::ask::{Ask, Cause, Changer, PartsAsk, PartsCause};

/// What is told of a request for which a program's journal has no room. `adds`: it adds something that stays.
pub(crate) fn refusal_for_room(adds: bool) -> SqsError {
    let message = "The journal is full.".into();
    if adds {
        SqsError::OverLimit(message)
    } else {
        SqsError::ServiceUnavailable(message)
    }
}

/// Whether a client asked for it, and it does something that nobody wants once that client waits no more.
pub(crate) fn is_for_client(ask: &Ask) -> bool {
    match ask {
        Ask::Receive { reach, .. } => reach.is_for_client(),
        Ask::Delete { by_client, .. } => *by_client,
        Ask::ChangeVisibility { by, .. } => *by == Changer::Client,
        other => adds(other),
    }
}

/// Whether it adds something that stays, and that a client asked for.
pub(crate) fn adds(ask: &Ask) -> bool {
    match ask {
        Ask::Create { store, bytes, .. } => *bytes > 0 && store.main().is_none(),
        Ask::Send { cause, .. } => *cause == Cause::Client,
        Ask::Parts { ask: PartsAsk::Create(cause) | PartsAsk::Add(cause, ..), .. } => *cause == PartsCause::Client,
        _ => false,
    }
}
