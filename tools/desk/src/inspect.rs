//! A block in words: its sizes against their limits, its functions, and each
//! call with its sets and the earlier calls that it waits for.

use runner::block::{Block, Function};
use runner::key::Key;
use runner::limits::{
    MAX_BALANCE_SUM, MAX_BLOCK_BYTES, MAX_CALLS, MAX_CALL_KEYS, MAX_CELLS, MAX_FUNCTIONS,
    MAX_INSTRUCTIONS, MAX_KEYS,
};
use runner::machine::Opened;
use runner::sets::{KeySet, Sets};

use crate::refused::{open, Refused};
use crate::words;

/// The text for a block, or why it is refused.
pub fn inspect(bytes: &[u8]) -> Result<String, Refused> {
    let opened = open(bytes)?;
    let mut lines = sizes(bytes.len(), &opened);
    lines.push(String::new());
    lines.extend(opened.block.functions.iter().map(function));
    for call in 0..opened.block.calls.len() {
        lines.push(String::new());
        lines.extend(call_lines(&opened, call));
    }
    Ok(lines.join("\n") + "\n")
}

fn sizes(bytes: usize, opened: &Opened) -> Vec<String> {
    let block = &opened.block;
    let sizes = [
        (bytes, MAX_BLOCK_BYTES, "bytes"),
        (block.functions.len(), MAX_FUNCTIONS, "functions"),
        (block.opening.len(), MAX_CELLS, "opening cells"),
        (block.calls.len(), MAX_CALLS, "calls"),
        (opened.keys, MAX_KEYS, "keys in opening and sets together"),
    ];
    let sizes = sizes.map(|(size, limit, thing)| format!("{size} of {limit} {thing}"));
    let sum = balance_sum(block);
    let balances = format!("{sum} of {MAX_BALANCE_SUM} in opening balances");
    sizes.into_iter().chain([balances]).collect()
}

fn balance_sum(block: &Block) -> i128 {
    let balances = block.opening.iter().filter(|(key, _)| key.is_balance());
    balances.map(|(_, value)| i128::from(*value)).sum()
}

fn function(function: &Function) -> String {
    let name = words::function(function.contract.address(), function.number);
    let length = function.code.len();
    format!("{name}: {length} of {MAX_INSTRUCTIONS} instructions")
}

fn call_lines(opened: &Opened, call: usize) -> Vec<String> {
    let sets = &opened.sets[call];
    let keys = sets.accesses.keys().len();
    let mut lines = vec![
        format!("call {call}: {}", words::call(&opened.block, call)),
        format!("  {keys} of {MAX_CALL_KEYS} keys"),
        format!("  reads {}", key_list(&sets.reads)),
        format!("  writes {}", key_list(&sets.writes)),
    ];
    if opened.rows[call].is_empty() {
        lines.push("  waits for no call".to_string());
    }
    for &earlier in &opened.rows[call] {
        lines.push(format!("  waits for call {earlier}"));
        lines.extend(conflicts(opened, earlier, call));
    }
    lines
}

fn key_list(set: &KeySet) -> String {
    let keys: Vec<String> = set.keys().iter().map(words::key).collect();
    if keys.is_empty() {
        "nothing".to_string()
    } else {
        keys.join("; ")
    }
}

/// The keys for which a call waits for an earlier one, and who does what.
fn conflicts(opened: &Opened, earlier: usize, later: usize) -> Vec<String> {
    let (first, second) = (&opened.sets[earlier], &opened.sets[later]);
    let meets = |key: &&Key| {
        let both = second.accesses.contains(key);
        both && (first.writes.contains(key) || second.writes.contains(key))
    };
    let words = |key: &Key| {
        let (first, second) = (does(first, key), does(second, key));
        let key = words::key(key);
        format!("    {key}: call {earlier} {first} it, call {later} {second} it")
    };
    let keys = first.accesses.keys().iter();
    keys.filter(meets).map(words).collect()
}

/// What a call does with a key of its sets.
fn does(sets: &Sets, key: &Key) -> &'static str {
    match (sets.reads.contains(key), sets.writes.contains(key)) {
        (true, true) => "reads and writes",
        (true, false) => "reads",
        _ => "writes",
    }
}
