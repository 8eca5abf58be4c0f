//! What the gate sees to beside `rt ci`: the functions of the crates and which serve which, the edits that must be refused and where they were, and the
//! page of contracts.

pub mod edits;
pub mod jobs;
pub mod layers;
pub mod page;
pub mod refusals;
pub mod relations;
pub mod sources;
