//! Constraint texts, tables and data texts: an independent implementation of the rule book's five jobs
//! (compile, check, merge, judge, name) and of the meaning that is read from two texts alone.
#![forbid(unsafe_code)]

pub mod api;
mod bytes;
mod calendar;
mod compile;
mod constraint;
mod data;
pub mod decisions;
mod durations;
pub mod examples;
mod faults;
pub mod generator;
mod intervals;
mod judge;
mod limits;
mod meaning;
mod merge;
mod name;
mod numbers;
mod patterns;
mod table;
mod tokens;
pub mod vectors;
mod words;

pub use compile::compile;
pub use faults::Fault;
pub use judge::judge;
pub use meaning::meaning;
pub use merge::merge;
pub use name::name;

/// Checks a table.
pub fn check(table: &[u8]) -> api::CheckAnswer {
    match table::Table::read(table) {
        Ok(_) => api::CheckAnswer::Passed,
        Err(fault) => api::CheckAnswer::Refused { number: fault.number, place: fault.place },
    }
}

/// Every fault of a constraint text that the reading met, the answer first.
pub fn text_faults(text: &[u8]) -> Vec<Fault> {
    constraint::faults(text)
}

/// Every fault of a data text that the reading met, the answer first.
pub fn data_faults(data: &[u8]) -> Vec<Fault> {
    data::faults(data)
}
