//! Moments, as stores, journals and messages have them.

/// A moment, in milliseconds since 1970.
pub type Moment = u64;
