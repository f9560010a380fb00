//! The desk's library and program.

mod disassembler;
mod endings;
mod explaining;
mod inspecting;
mod lines;
mod next_day;
mod program;
mod readme;
mod refusals;
mod room;
mod rules;
mod usage;

use runner::assemble::assemble;
use runner::examples::example;
use runner::generate::{large_cases, small_cases, Case};

/// The bytes of a block's text.
fn block(text: &str) -> Vec<u8> {
    assemble(text).expect("the text is a block's")
}

/// Block P of document 01.
fn block_p() -> Vec<u8> {
    example("p").expect("P is an example").block()
}

/// Generated cases, small and large, good and damaged.
fn cases() -> Vec<Case> {
    let mut cases = small_cases(7, 660);
    cases.extend(large_cases(7, 9));
    cases
}
