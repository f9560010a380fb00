//! The warrant register for Rust programs. The functions behind this crate are
//! written and proved in Rattle: each answers and leaves what a definition says,
//! for every value of its arguments. This crate lends them memory of the right
//! kind and turns their numbers into types; it decides nothing itself.
//!
//! ```no_run
//! # fn main() -> Result<(), Box<dyn std::error::Error>> {
//! let block = std::fs::read("block.bin")?;
//! let mut run = zumbiqa::Run::open(&block, 3)?;
//! run.begin(0, 0)?;
//! while run.held(0).is_some() {
//!     run.step(0)?;
//! }
//! # Ok(())
//! # }
//! ```
#![warn(missing_docs)]
#![deny(unsafe_code)]

mod answer;
#[allow(unsafe_code)]
mod ffi;
pub mod raw;
mod run;

pub use answer::{Answer, Fault, Refusal};
pub use run::{Outcome, Receipt, Run, State};
