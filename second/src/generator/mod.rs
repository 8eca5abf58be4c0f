//! Random cases for the five jobs, a shrinker, and the law of the merges as a test.
//!
//! `Maker::new(seed)` makes cases: `maker.compile(i)`, `check`, `merge`, `judge`, `name` and `list`
//! each give case `i` of the seed, the same every time and on its own. `shrink` makes a failing case
//! small; `law::Bench` runs list cases against a set of jobs.

mod broken;
mod calendar;
mod cases;
mod counts;
mod damage;
mod data;
mod handmade;
pub mod law;
pub mod leaves;
pub mod lines;
mod random;
pub mod rules;
mod shape;
pub mod shapes;
pub mod show;
mod shrink;
pub mod single;
mod spelling;
mod tables;
mod tokens;
mod unrolled;

pub use cases::{
    clean_data, clean_shape, data_text, filling, table_length, CheckCase, CompileCase, JudgeCase, ListCase, MadeText,
    Maker, MergeCase, NameCase, Other, Room, Step, LONGEST_TABLE,
};
pub use counts::{Counts, Job};
pub use random::Random;
pub use shape::{Attribute, Object, Value};
pub use shrink::{shrink, smaller_bytes, smaller_table, Candidates, Smaller};
pub use tables::{mixed, table_of, Order, Record, Table};

#[cfg(test)]
mod tests;
