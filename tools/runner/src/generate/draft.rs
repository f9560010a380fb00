//! Random small blocks that the reader accepts, as lists of records.

use std::collections::{BTreeMap, BTreeSet};

use super::code::{code, Style, EDGE_FIELDS, FIELD_POOL};
use crate::code::{op, Parts, SOURCE_CONSTANT};
use crate::emit::{self, CallFields};
use crate::key::Key;
use crate::limits::{COMMON_FUEL, MAX_BALANCE_SUM, MAX_WORKERS};
use crate::machine::open;
use crate::rng::Rng;
use crate::serial;

/// Senders and targets of payments.
const ACCOUNT_POOL: [u16; 4] = [0, 5, 7, 32_767];
/// Called contracts.
const CONTRACT_POOL: [u16; 3] = [32_768, 40_000, 65_535];
/// Function numbers of the records.
const FUNCTION_POOL: [u16; 4] = [0, 1, 2, 65_535];
/// A function number that no record has.
const UNKNOWN_FUNCTION: u16 = 3;
/// Arguments: indices, accounts, a contract, numbers that name an account only
/// in their lower half, and the largest.
const ARGUMENT_POOL: [u32; 11] = [0, 1, 2, 3, 5, 7, 32_767, 32_768, 65_536, 65_541, u32::MAX];
/// Indices of opening cells.
const INDEX_POOL: [u32; 6] = [0, 0, 0, 1, 5, 7];
/// Values at the edge of 64 signed bits.
const EDGE_POOL: [i64; 4] = [i64::MAX, i64::MIN, i64::MIN + 1, 1 << 62];
/// Values of opening cells that are no balance.
const VALUE_POOL: [i64; 10] = [
    1,
    -1,
    2,
    7,
    -7,
    i64::MAX,
    i64::MIN,
    i64::MIN + 1,
    1 << 62,
    -(1 << 62),
];

/// What random blocks are like. Sizes are from the first to the second.
#[derive(Clone, Copy, Debug)]
pub struct Shape {
    /// What code is made of.
    pub style: Style,
    /// Functions.
    pub functions: (usize, usize),
    /// Instructions of a function.
    pub instructions: (usize, usize),
    /// Calls.
    pub calls: (usize, usize),
    /// Of 100 calls, how many have a value.
    pub values: usize,
    /// Most bytes of the block.
    pub bytes: usize,
    /// Most steps of all calls together where jumps go in all directions and fuel
    /// is short; without it jumps go forward and no fuel runs out.
    pub loops: Option<usize>,
}

/// Small blocks of all instructions.
pub const MIXED: Shape = Shape {
    style: Style::Mixed,
    functions: (1, 3),
    instructions: (2, 8),
    calls: (1, 5),
    values: 50,
    bytes: 290,
    loops: Some(45),
};
/// Small blocks of calculations with edge operands.
pub const CALCULATING: Shape = Shape {
    style: Style::Calculating,
    functions: (1, 3),
    instructions: (4, 8),
    calls: (2, 4),
    values: 0,
    ..MIXED
};
/// Small blocks whose calls often conflict.
pub const TOUCHING: Shape = Shape {
    style: Style::Touching,
    functions: (2, 4),
    instructions: (1, 2),
    calls: (3, 5),
    values: 10,
    ..MIXED
};
/// Small blocks of payments.
pub const PAYING: Shape = Shape {
    style: Style::Paying,
    functions: (1, 3),
    instructions: (2, 4),
    calls: (2, 4),
    ..MIXED
};

/// Most steps of a block's calls where only the serial run makes many of them.
const LONG_LOOPS: usize = 1_000;

impl Shape {
    /// The same with longer loops.
    pub fn long(self) -> Shape {
        Shape {
            loops: Some(LONG_LOOPS),
            ..self
        }
    }
}

/// The fields of a block's records.
#[derive(Clone, Debug, Default)]
pub struct Draft {
    /// Code by contract and function number.
    pub functions: BTreeMap<(u16, u16), Vec<Parts>>,
    /// Opening cells.
    pub cells: BTreeMap<Key, i64>,
    /// Calls.
    pub calls: Vec<CallFields>,
}

impl Draft {
    /// The records one by one, with the end.
    pub fn records(&self) -> Vec<Vec<u8>> {
        let mut records = Vec::new();
        for ((contract, number), code) in &self.functions {
            records.push(written(|out| emit::function(out, *contract, *number, code)));
        }
        for (key, value) in &self.cells {
            records.push(written(|out| emit::cell(out, key, *value)));
        }
        for call in &self.calls {
            records.push(written(|out| emit::call(out, call)));
        }
        records.push(written(emit::end));
        records
    }

    /// The block's bytes.
    pub fn bytes(&self) -> Vec<u8> {
        self.records().concat()
    }

    /// A random block of a shape.
    pub fn random(rng: &mut Rng, shape: Shape) -> Draft {
        loop {
            let draft = Draft::unlimited(rng, shape);
            let bytes = draft.bytes();
            if bytes.len() <= shape.bytes && shape.loops.is_none_or(|most| steps(&bytes) <= most) {
                return draft;
            }
        }
    }

    fn unlimited(rng: &mut Rng, shape: Shape) -> Draft {
        let mut draft = Draft::default();
        let contracts = random_contracts(rng, shape);
        let accounts = [rng.pick(&ACCOUNT_POOL), rng.pick(&ACCOUNT_POOL)];
        draft.add_functions(rng, shape, &contracts);
        draft.add_balances(rng, &accounts, &contracts);
        match shape.style {
            Style::Calculating => draft.add_edges(rng, contracts[0]),
            _ => draft.add_fields(rng, &contracts),
        }
        for _ in 0..rng.between(shape.calls.0, shape.calls.1) {
            let call = draft.random_call(rng, shape, &accounts);
            draft.calls.push(call);
        }
        draft
    }

    fn add_functions(&mut self, rng: &mut Rng, shape: Shape, contracts: &[u16]) {
        for _ in 0..rng.between(shape.functions.0, shape.functions.1) {
            let name = (rng.pick(contracts), rng.pick(&FUNCTION_POOL));
            let length = if rng.chance(5) {
                rng.below(2)
            } else {
                rng.between(shape.instructions.0, shape.instructions.1)
            };
            self.functions
                .insert(name, code(rng, length, shape.style, shape.loops.is_some()));
        }
    }

    /// Adds balances whose sum stays in range; seldom up to the edge.
    fn add_balances(&mut self, rng: &mut Rng, accounts: &[u16], contracts: &[u16]) {
        let mut owners = BTreeSet::new();
        owners.extend(accounts.iter().copied().filter(|_| rng.chance(80)));
        owners.extend(contracts.iter().copied().filter(|_| rng.chance(50)));
        let mut left = MAX_BALANCE_SUM as i64;
        for owner in owners {
            let balance = if rng.chance(5) {
                left
            } else {
                left.min(rng.between(1, 5) as i64)
            };
            if balance > 0 {
                self.cells.insert(Key::balance(owner), balance);
                left -= balance;
            }
        }
    }

    fn add_fields(&mut self, rng: &mut Rng, contracts: &[u16]) {
        for _ in 0..rng.weighted(&[3, 4, 2]) {
            let key = Key {
                address: rng.pick(contracts),
                field: rng.pick(&FIELD_POOL),
                a: rng.pick(&INDEX_POOL),
                b: rng.pick(&INDEX_POOL),
            };
            self.cells.insert(key, rng.pick(&VALUE_POOL));
        }
    }

    /// Adds the cells that calculations load, with values at the edge.
    fn add_edges(&mut self, rng: &mut Rng, contract: u16) {
        for field in EDGE_FIELDS {
            let key = Key {
                field,
                ..Key::balance(contract)
            };
            self.cells.insert(key, rng.pick(&EDGE_POOL));
        }
    }

    /// A call; sometimes equal to the one before.
    fn random_call(&self, rng: &mut Rng, shape: Shape, accounts: &[u16]) -> CallFields {
        match self.calls.last() {
            Some(before) if rng.chance(15) => *before,
            _ => self.fresh_call(rng, shape, accounts),
        }
    }

    fn fresh_call(&self, rng: &mut Rng, shape: Shape, accounts: &[u16]) -> CallFields {
        let names: Vec<(u16, u16)> = self.functions.keys().copied().collect();
        let (contract, function) = match rng.below(20) {
            0 => (rng.pick(&names).0, UNKNOWN_FUNCTION),
            1 => (rng.pick(&CONTRACT_POOL), rng.pick(&FUNCTION_POOL)),
            _ => rng.pick(&names),
        };
        let sender = rng.pick(accounts);
        let has_value = rng.chance(shape.values);
        CallFields {
            sender,
            contract,
            function,
            value: if has_value {
                self.random_value(rng, sender)
            } else {
                0
            },
            arguments: std::array::from_fn(|_| rng.pick(&ARGUMENT_POOL)),
            fuel: match shape.loops {
                Some(_) => self.random_fuel(rng, (contract, function)),
                None => COMMON_FUEL,
            },
        }
    }

    /// Mostly about as much fuel as the function has instructions, else a little,
    /// that of old blocks, or more than any code has instructions.
    fn random_fuel(&self, rng: &mut Rng, function: (u16, u16)) -> u16 {
        let length = self.functions.get(&function).map_or(0, Vec::len);
        let fuel = match rng.weighted(&[7, 7, 4, 1]) {
            0 => (length + rng.below(4)).saturating_sub(1).max(1),
            1 => rng.between(1, 20),
            2 => COMMON_FUEL.into(),
            _ => rng.pick(&[65, 100, 255, 256, 400, 65_535]),
        };
        fuel as u16
    }

    /// A small value, one around the sender's opening balance, or the largest.
    fn random_value(&self, rng: &mut Rng, sender: u16) -> i64 {
        let opening = self.cells.get(&Key::balance(sender));
        let balance = opening.copied().unwrap_or(0);
        match rng.weighted(&[6, 2, 1, 1]) {
            0 => rng.between(1, 2) as i64,
            1 => balance,
            2 => balance.saturating_add(1),
            _ => i64::MAX,
        }
    }

    /// A block whose first call has exactly so many keys in its sets: the
    /// cells of its code, and both balances if it has a value.
    pub fn with_keys(rng: &mut Rng, keys: usize) -> Draft {
        let (contract, sender) = (rng.pick(&CONTRACT_POOL), rng.pick(&ACCOUNT_POOL));
        let value = rng.below(3) as i64;
        let cells = if value > 0 { keys - 2 } else { keys };
        let mut draft = Draft::default();
        draft.functions.insert((contract, 0), accesses(rng, cells));
        draft.cells.insert(Key::balance(sender), 2);
        let call = CallFields {
            sender,
            contract,
            function: 0,
            value,
            arguments: [rng.pick(&ARGUMENT_POOL), 0, 0, 0],
            fuel: rng.pick(&[cells, cells, cells - 1, 64]) as u16,
        };
        draft.calls.push(call);
        draft
    }
}

/// One access of each of so many cells: each constant index is used once.
fn accesses(rng: &mut Rng, cells: usize) -> Vec<Parts> {
    let field = rng.pick(&FIELD_POOL);
    let access = |constant: usize| Parts {
        op: rng.pick(&[op::GET, op::PUT]),
        x: rng.below(8) as u8,
        y: rng.pick(&[SOURCE_CONSTANT, 1]),
        z: SOURCE_CONSTANT,
        w: (constant as u32) << 16 | u32::from(field),
    };
    (0..cells).map(access).collect()
}

/// The contracts with functions: one to two, only one if its cells matter.
fn random_contracts(rng: &mut Rng, shape: Shape) -> [u16; 2] {
    let first = rng.pick(&CONTRACT_POOL);
    match shape.style {
        Style::Mixed | Style::Paying => [first, rng.pick(&CONTRACT_POOL)],
        Style::Calculating | Style::Touching => [first, first],
    }
}

/// The steps of a block's calls in the serial run; none if it is refused.
fn steps(bytes: &[u8]) -> usize {
    open(bytes, MAX_WORKERS).map_or(0, |opened| {
        let ended = serial::run(&opened).ended;
        ended.iter().map(|call| call.steps).sum()
    })
}

fn written(write: impl FnOnce(&mut Vec<u8>)) -> Vec<u8> {
    let mut record = Vec::new();
    write(&mut record);
    record
}
