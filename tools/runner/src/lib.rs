//! A reference runner for the warrant register, written from documents 01 and 02
//! alone. It aims to be plainly right: every module follows one section of the
//! documents, and arithmetic is exact.
#![warn(missing_docs)]

pub mod assemble;
pub mod block;
pub mod bytes;
pub mod cells;
pub mod code;
pub mod console;
pub mod coverage;
pub mod emit;
pub mod examples;
pub mod execute;
pub mod generate;
pub mod inspect;
pub mod key;
pub mod lent;
pub mod limits;
pub mod literal;
pub mod machine;
pub mod refusal;
pub mod rng;
pub mod serial;
pub mod sets;
pub mod sheet;
pub mod vectors;
