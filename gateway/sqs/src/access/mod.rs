//! Who may come in: signatures of version 4 are verified by a file of keys.
//!
//! A request says who signed it, when, and what of it was signed (`claim`). That part is brought into its canonical
//! form (`canonical`, `query`), and the signature over it (`signature`) is compared with the one that came.
//! What a key may do stands in the same file (`keys`, `identity`).

mod canonical;
mod claim;
mod file;
mod identity;
mod keys;
mod query;
mod signature;
mod timestamp;

pub use identity::Identity;
pub use keys::Keys;

/// What of a request was signed, as it came.
#[derive(Clone, Copy, Debug)]
pub struct Signable<'a> {
    pub method: &'a str,
    /// The path of the URL, not decoded.
    pub path: &'a str,
    /// The query string of the URL without its question mark, not decoded; empty if there is none.
    pub query: &'a str,
    pub headers: &'a hyper::HeaderMap,
    pub body: &'a [u8],
}

#[cfg(test)]
mod tests;
