//! Makes inputs: by hand from drafts, or at random but repeatable.

pub mod damage;
pub mod draft;
pub mod events;
pub mod extreme;
pub mod jobs;
pub mod load;
pub mod order;
pub mod plan_end;
pub mod random;
pub mod rng;
pub mod slow;
