//! The sentences of documents 01 and 02 as tests.

mod account_0;
mod assembler;
mod console;
mod damaged_waits;
mod edges;
mod errors;
mod examples;
mod fuel;
mod generator;
mod instructions;
mod lent;
mod moves;
mod order;
mod paper;
mod properties;
mod refusals;
mod sheet;
mod tally;
mod vectors;
mod waits;
mod zero_divisor;

use runner::assemble::assemble;
use runner::console::register;
use runner::limits::MAX_WORKERS;
use runner::machine::{open, Machine, Opened};
use runner::sheet::write;

/// The bytes of a block's text.
fn block(text: &str) -> Vec<u8> {
    assemble(text).expect("the text is a block's")
}

/// A good block's text, opened for 8 workers.
fn opened(text: &str) -> Opened {
    open(&block(text), MAX_WORKERS).expect("the block is good")
}

/// The number and offset with which 8 workers' block is refused.
fn refusal(bytes: &[u8]) -> (u16, usize) {
    let refusal = open(bytes, MAX_WORKERS).expect_err("the block is not good");
    (refusal.fault.number(), refusal.offset)
}

/// What REGISTER prints if each call of a text is run to its end on worker 0.
fn serially(text: &str) -> String {
    let bytes = block(text);
    let opened = open(&bytes, MAX_WORKERS).expect("the block is good");
    let mut lines = String::new();
    for (call, ended) in runner::serial::run(&opened).ended.iter().enumerate() {
        lines += &format!("b 0 {call}\n");
        lines += &"s 0\n".repeat(ended.steps);
    }
    register(&bytes, lines.as_bytes())
}

/// The closing sheet of a run at its end.
fn sheet_of(machine: &Machine) -> Vec<u8> {
    let mut output = vec![0; runner::limits::MAX_SHEET_BYTES];
    let length = write(machine, &mut output).expect("the run is at its end");
    output.truncate(length);
    output
}
