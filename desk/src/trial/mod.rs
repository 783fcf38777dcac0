//! Generated cases and plain answers for them, to try the rest out with: the unit
//! tests use them, and the program agree.

pub mod brute;
pub mod generate;
