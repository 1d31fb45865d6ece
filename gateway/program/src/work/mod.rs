//! What the gateway does with messages beside answering: it hands them out and waits for more (`deliveries`, `polling`), moves those
//! that are due or dead (`delays`, `moves`, `move_tasks`), deletes those that are too old or purged (`retention`, `purges`), has long
//! ones in parts (`parts`), and begins books anew (`book`).

pub mod book;
pub mod delays;
pub mod deliveries;
pub mod move_tasks;
pub mod moves;
pub mod parts;
pub mod polling;
pub mod purges;
pub mod retention;
