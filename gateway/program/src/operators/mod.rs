//! What operators are told: health and figures (`admin`), and messages, where they may see them (`peek`).

pub mod admin;
pub mod peek;
