//! Tests over generated cases; none needs the proved library.

mod anything;
mod docs;
mod explanations;
mod round_trip;
mod sentences;
