//! The desk of a member: writes blocks and reads them, and says in words what
//! the register does with a block and a list of moves. What is true of a block
//! or a run is asked of the runner's library; this crate puts it into words.
#![warn(missing_docs)]

mod assembly;
pub mod cli;
mod commands;
pub mod disassemble;
pub mod explain;
mod files;
pub mod inspect;
pub mod markup;
pub mod next;
pub mod page;
mod records;
pub mod refused;
pub mod schedule;
pub mod sheet;
pub mod svg;
mod tasks;
pub mod trace;
pub mod waits;
pub mod words;
