//! The crate against the runner, which is written from documents 01 and 02 alone:
//! runs, lent words in every condition, and the programs of the examples.

mod lent;
mod programs;
mod run;
mod words;
