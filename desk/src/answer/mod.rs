//! What the judge's numbers mean, in the house's names.

pub mod record;
pub mod sentence;
pub mod why;

mod reason;

/// Number, a, b, c.
pub type Answer = [u32; 4];
