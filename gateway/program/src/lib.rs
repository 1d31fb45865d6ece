//! The program `hobbychair`: the protocol of Amazon SQS (API 2012-11-05) in front of `cq`, which keeps FIFO queues and is proved.
//!
//! A connection is accepted (`door`), a request is read (`http`), its action (`actions`) becomes asks of the store, and what has to be
//! done beside answers is seen to (`work`). A front (`front`) passes requests on instead; `operators` are told how it goes. All other crates are below this one.

mod actions;
mod calls;
pub mod command_line;
mod config;
mod door;
mod ending;
mod front;
mod http;
mod log;
mod metrics;
mod operators;
mod options_file;
mod repeats;
mod serve;
mod settings;
mod work;
