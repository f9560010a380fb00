//! What stands in a block and what happens in a run, in words.

mod block;
mod code;
mod ending;
mod fields;
mod keys;
mod line;
mod moves;

pub use block::refused_block;
pub use code::{broken_rules, instruction};
use ending::{receipt, LastStep};
pub use fields::{call_faults, cell_faults, function_faults};
pub use line::{fault as line_fault, LineFault};
pub use moves::{play, unfinished, Played, Remark};

use runner::block::Block;
use runner::key::Key;
use runner::limits::FIRST_CONTRACT;
use runner::machine::Opened;

/// A call: who calls which contract's function with which value, arguments and
/// fuel.
pub fn call(block: &Block, call: usize) -> String {
    let chosen = &block.calls[call];
    let (sender, value) = (chosen.sender.address(), chosen.value);
    let function = function(chosen.contract.address(), chosen.function);
    let arguments = chosen.arguments.map(|argument| argument.to_string());
    let known = match block.function(chosen) {
        Some(_) => "",
        None => ", which is not in the block",
    };
    format!(
        "account {sender} calls {function}{known}, with value {value}, arguments {} and fuel {}",
        arguments.join(" "),
        chosen.fuel
    )
}

/// The outcome of a number.
pub fn outcome(outcome: u16) -> &'static str {
    match outcome {
        0 => "done",
        1 => "unknown function",
        2 => "the sender's balance is below the value",
        3 => "thrown",
        4 => "a result outside 64 signed bits",
        5 => "a payment that cannot be made",
        6 => "a divisor of zero",
        7 => "out of fuel",
        _ => "no outcome",
    }
}

/// A function by contract and number.
pub fn function(contract: u16, number: u16) -> String {
    format!("function {number} of contract {contract}")
}

/// An account or a contract by its address.
pub fn holder(address: u16) -> String {
    let kind = if address < FIRST_CONTRACT {
        "account"
    } else {
        "contract"
    };
    format!("{kind} {address}")
}

/// The cell of a key.
pub fn key(key: &Key) -> String {
    let holder = holder(key.address);
    if *key == Key::balance(key.address) {
        format!("balance of {holder}")
    } else {
        format!("field {} [{}, {}] of {holder}", key.field, key.a, key.b)
    }
}

/// The kind of a record by its number.
pub fn kind(number: u16) -> &'static str {
    match number {
        1 => "function",
        2 => "opening cell",
        3 => "call",
        4 => "end",
        5 => "receipt",
        _ => "no kind",
    }
}

/// How many functions, opening cells, calls and keys a block has.
pub fn sizes(opened: &Opened) -> String {
    let block = &opened.block;
    let sizes = [
        count(block.functions.len(), "function"),
        count(block.opening.len(), "opening cell"),
        count(block.calls.len(), "call"),
        count(opened.keys, "key"),
    ];
    sizes.join(", ")
}

/// So many of a thing: `1 call`, `3 calls`.
pub fn count(number: usize, thing: &str) -> String {
    let plural = if number == 1 { "" } else { "s" };
    format!("{number} {thing}{plural}")
}

/// Bytes in two hexadecimal digits each.
pub fn hexadecimal(bytes: &[u8]) -> String {
    let digits: Vec<String> = bytes.iter().map(|byte| format!("{byte:02x}")).collect();
    digits.join(" ")
}
