//! A block's sizes and waiting rows as text.

use std::fmt::Write;

use crate::console::refused_block;
use crate::limits::MAX_WORKERS;
use crate::machine::{open, Opened};

/// The text for a block opened for 8 workers: its `e` line, or its `n` line and
/// one `w` line for each call.
pub fn inspect(block: &[u8]) -> String {
    match open(block, MAX_WORKERS) {
        Ok(opened) => sizes(&opened) + &rows(&opened),
        Err(refusal) => refused_block(refusal),
    }
}

fn sizes(opened: &Opened) -> String {
    let block = &opened.block;
    let (functions, cells) = (block.functions.len(), block.opening.len());
    format!(
        "n {functions} {cells} {} {}\n",
        block.calls.len(),
        opened.keys
    )
}

fn rows(opened: &Opened) -> String {
    let mut text = String::new();
    for (call, row) in opened.rows.iter().enumerate() {
        write!(text, "w {call}").expect("a string takes all text");
        for earlier in row {
            write!(text, " {earlier}").expect("a string takes all text");
        }
        text.push('\n');
    }
    text
}
