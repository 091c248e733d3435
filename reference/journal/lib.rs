//! A second evaluator of journals, written from the rules alone.

pub mod answer;
pub mod ask;
pub mod book;
pub mod bytes;
pub mod calls;
pub mod cells;
pub mod comparing;
pub mod policy;
pub mod query;
pub mod refusal;
pub mod rows;
pub mod session;
pub mod view;

pub mod batch;
pub mod counts;
pub mod damage;
pub mod generate;
pub mod program;
pub mod queries;
pub mod random;
pub mod shrink;
pub mod words;

#[cfg(test)]
mod tests;
