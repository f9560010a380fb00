//! Blocks at the limits and beyond them.

use super::code::aim_forward;
use super::draft::Draft;
use crate::code::{op, Parts};
use crate::emit::CallFields;
use crate::key::Key;
use crate::limits::{
    COMMON_FUEL, FIRST_CONTRACT, MAX_BLOCK_BYTES, MAX_CALLS, MAX_CALL_KEYS, MAX_CELLS,
    MAX_FUNCTIONS, MAX_KEYS,
};
use crate::rng::Rng;

/// The one contract that large blocks call.
const CONTRACT: u16 = FIRST_CONTRACT;
/// Accounts 0 to 39 open with a balance.
const ACCOUNTS: u16 = 40;
/// Values of the index a; 24 fields with these and the accounts are 1,024 keys.
const INDICES: u32 = ((MAX_KEYS - ACCOUNTS as usize) / MAX_CALL_KEYS) as u32;
/// What each account opens with.
const BALANCE: i64 = 1_000_000;
/// Instructions of each function: 64 functions, one of them shorter by one, 1,024
/// cells and 256 calls fit.
const INSTRUCTIONS: usize = 61;
/// How many functions are shorter by one.
const SHORTER: usize = 1;
/// Instructions of each function of the block of exactly the largest size.
const FULL_BLOCK_INSTRUCTIONS: usize = 62;
/// Calls of that block.
const FULL_BLOCK_CALLS: usize = 253;
/// How many of its functions are shorter by one.
const FULL_BLOCK_SHORTER: usize = 51;

/// What a large block is for.
#[derive(Clone, Copy, Debug, PartialEq, Eq)]
pub enum Large {
    /// 256 calls of 24 keys, 1,024 keys, few conflicts.
    Apart,
    /// The same sizes, each call with a value, so that all calls conflict.
    Crowded,
    /// Exactly 65,536 bytes.
    Full,
    /// 65,537 bytes (1).
    TooLong,
    /// 65 functions (7).
    Functions,
    /// 1,025 cells (7).
    Cells,
    /// 257 calls (7).
    Calls,
    /// 1,025 keys (12).
    Keys,
}

/// All of them.
pub const LARGES: [Large; 8] = [
    Large::Apart,
    Large::Crowded,
    Large::Full,
    Large::TooLong,
    Large::Functions,
    Large::Cells,
    Large::Calls,
    Large::Keys,
];

/// The bytes of a large block.
pub fn block(rng: &mut Rng, large: Large) -> Vec<u8> {
    match large {
        Large::Apart => limits(rng, 0).bytes(),
        Large::Crowded => limits(rng, 1).bytes(),
        Large::Full => full(rng).bytes(),
        Large::TooLong => too_long(rng),
        Large::Functions => {
            let mut draft = sized(rng, 24, 1, 0);
            draft.functions.insert((u16::MAX, 0), Vec::new());
            draft.bytes()
        }
        Large::Cells => {
            let mut draft = sized(rng, 24, 1, 0);
            draft.cells.insert(Key::balance(u16::MAX), 1);
            draft.bytes()
        }
        Large::Calls => sized(rng, 24, MAX_CALLS + 1, 0).bytes(),
        Large::Keys => {
            let mut draft = sized(rng, 24, MAX_CALLS, 0);
            let call = rng.below(MAX_CALLS);
            draft.calls[call].arguments = [INDICES; 4];
            draft.bytes()
        }
    }
}

/// 64 functions and 1,024 cells, with so many instructions, calls and value.
fn sized(rng: &mut Rng, instructions: usize, calls: usize, value: i64) -> Draft {
    let mut draft = Draft::default();
    let balance_keys = if value > 0 { 2 } else { 0 };
    let fields = MAX_CALL_KEYS - balance_keys;
    for number in 0..MAX_FUNCTIONS {
        let code = code(rng, instructions, fields);
        draft.functions.insert((CONTRACT, number as u16), code);
    }
    add_cells(rng, &mut draft, fields, value);
    draft.calls = (0..calls).map(|_| call(rng, value)).collect();
    draft
}

/// All numbers at their limits, with a value of each call.
fn limits(rng: &mut Rng, value: i64) -> Draft {
    let mut draft = sized(rng, INSTRUCTIONS, MAX_CALLS, value);
    shorten(&mut draft, SHORTER);
    draft
}

fn full(rng: &mut Rng) -> Draft {
    let mut draft = sized(rng, FULL_BLOCK_INSTRUCTIONS, FULL_BLOCK_CALLS, 0);
    shorten(&mut draft, FULL_BLOCK_SHORTER);
    draft
}

/// So many of the last functions lose one instruction that uses no cell. Jumps
/// over it stay jumps over the others.
fn shorten(draft: &mut Draft, functions: usize) {
    for code in draft.functions.values_mut().rev().take(functions) {
        let uses_no_cell = |parts: &Parts| parts.op != op::GET && parts.op != op::PUT;
        if let Some(lost) = code.iter().rposition(uses_no_cell) {
            code.remove(lost);
            let jumps = code.iter_mut().filter(|parts| parts.op == op::JLT);
            for jump in jumps.filter(|jump| jump.w as usize > lost) {
                jump.w -= 1;
            }
        }
    }
}

fn too_long(rng: &mut Rng) -> Vec<u8> {
    let mut bytes = full(rng).bytes();
    bytes.resize(MAX_BLOCK_BYTES + 1, 0);
    bytes
}

/// The balances of the accounts and of the contract if calls have a value, the
/// cells that calls use, and others up to 1,024.
fn add_cells(rng: &mut Rng, draft: &mut Draft, fields: usize, value: i64) {
    let balances = (0..ACCOUNTS).map(|account| (Key::balance(account), BALANCE));
    draft.cells.extend(balances);
    if value > 0 {
        draft.cells.insert(Key::balance(CONTRACT), BALANCE);
    }
    for field in 1..=fields {
        for a in 0..INDICES {
            draft
                .cells
                .insert(cell(field, a), rng.between(1, 1_000) as i64);
        }
    }
    let others = (0..).map(|a| (cell(MAX_CALL_KEYS + 1, a), 1));
    draft
        .cells
        .extend(others.take(MAX_CELLS - draft.cells.len()));
}

/// The key of a cell of the contract.
fn cell(field: usize, a: u32) -> Key {
    Key {
        address: CONTRACT,
        field: field as u16,
        a,
        b: 0,
    }
}

/// A call with indices of the opening's cells.
fn call(rng: &mut Rng, value: i64) -> CallFields {
    CallFields {
        sender: rng.below(ACCOUNTS.into()) as u16,
        contract: CONTRACT,
        function: rng.below(MAX_FUNCTIONS) as u16,
        value,
        arguments: std::array::from_fn(|_| rng.below(INDICES as usize) as u32),
        fuel: COMMON_FUEL,
    }
}

/// Code that uses one cell of each field, and calculates between.
fn code(rng: &mut Rng, instructions: usize, fields: usize) -> Vec<Parts> {
    let sources: Vec<u8> = (0..=fields).map(|_| rng.between(1, 4) as u8).collect();
    let access = |rng: &mut Rng, field: usize| Parts {
        op: rng.pick(&[op::GET, op::GET, op::PUT]),
        x: rng.below(8) as u8,
        y: sources[field],
        z: 0,
        w: field as u32,
    };
    let mut code: Vec<Parts> = (1..=fields).map(|field| access(rng, field)).collect();
    while code.len() < instructions {
        let more = if rng.chance(40) {
            let field = rng.between(1, fields);
            access(rng, field)
        } else {
            calculation(rng)
        };
        code.push(more);
    }
    shuffle(rng, &mut code);
    aim_forward(rng, &mut code);
    code
}

/// An instruction on registers only.
fn calculation(rng: &mut Rng) -> Parts {
    let op = rng.pick(&[
        op::SET,
        op::ARG,
        op::ADD,
        op::SUB,
        op::ADD,
        op::SUB,
        op::JLT,
    ]);
    let (x, y, z) = (rng.below(8) as u8, rng.below(8) as u8, rng.below(8) as u8);
    let (y, z, w) = match op {
        op::SET => (0, 0, rng.below(1_000) as u32),
        op::ARG => (1 + y % 4, 0, 0),
        op::JLT => (y, 0, 0),
        _ => (y, z, 0),
    };
    Parts { op, x, y, z, w }
}

fn shuffle(rng: &mut Rng, code: &mut [Parts]) {
    for last in (1..code.len()).rev() {
        code.swap(last, rng.below(last + 1));
    }
}
