//! Random code that keeps the rules.

use crate::code::{op, Parts, SOURCE_CONSTANT, SOURCE_SENDER, SOURCE_ZERO};
use crate::rng::Rng;

/// Few registers, so that instructions meet each other's results.
const REGISTER_POOL: [u8; 7] = [0, 0, 1, 1, 2, 3, 7];
/// Constants of SET.
const SET_POOL: [i32; 12] = [-7, -2, -1, 0, 1, 1, 2, 2, 3, 7, i32::MAX, i32::MIN];
/// Small operands of calculations.
const OPERAND_POOL: [i32; 8] = [-7, -2, -1, -1, 0, 1, 2, 7];
/// Amounts of PAY that SET gives.
const AMOUNT_POOL: [i32; 7] = [-1, -1, 0, 1, 1, 2, 3];
/// Fields of GET and PUT; cells of the opening use the same.
pub const FIELD_POOL: [u16; 6] = [1, 1, 1, 2, 2, 65_535];
/// Fields whose cells at index 0, 0 open with values at the edge.
pub const EDGE_FIELDS: [u16; 2] = [1, 2];
/// Constants of sources: accounts, indices and a contract address.
const CONSTANT_POOL: [u16; 7] = [0, 1, 5, 7, 32_767, 32_768, 65_535];

/// What code is mostly made of.
#[derive(Clone, Copy, Debug, PartialEq, Eq)]
pub enum Style {
    /// All instructions.
    Mixed,
    /// Results of edge operands, each stored.
    Calculating,
    /// Accesses of few cells, so that calls conflict in all ways.
    Touching,
    /// Payments to all targets.
    Paying,
}

/// Code of a length, sometimes with THROW as its last instruction; its jumps go
/// in all directions or forward.
pub fn code(rng: &mut Rng, length: usize, style: Style, loops: bool) -> Vec<Parts> {
    let mut code = Vec::new();
    while code.len() < length {
        match style {
            Style::Mixed => add_phrase(rng, &mut code),
            Style::Calculating => add_stored_result(rng, &mut code),
            Style::Touching => code.push(touch(rng)),
            Style::Paying => add_payment(rng, &mut code),
        }
    }
    code.truncate(length);
    if let Some(last) = code.last_mut().filter(|_| rng.chance(15)) {
        *last = plain(op::THROW, 0);
    }
    if loops {
        aim_anywhere(rng, &mut code);
    } else {
        aim_forward(rng, &mut code);
    }
    code
}

/// Adds one to three instructions that make sense together.
fn add_phrase(rng: &mut Rng, code: &mut Vec<Parts>) {
    match rng.weighted(&[4, 4, 3, 4, 3, 2, 1]) {
        0 => add_calculation(rng, code),
        1 => code.push(cell_access(rng, op::PUT)),
        2 => {
            let x = rng.pick(&REGISTER_POOL);
            code.push(load(rng, x));
        }
        3 => add_payment(rng, code),
        4 => code.push(jump(rng)),
        5 => code.push(Parts::default()),
        _ => code.push(plain(op::THROW, 0)),
    }
}

/// Adds four instructions: two operands, a calculation or a comparison of them,
/// and a store of the result or of the first operand.
fn add_stored_result(rng: &mut Rng, code: &mut Vec<Parts>) {
    let (first, second, result) = (1, 2, 3);
    code.push(load_edge(rng, first));
    code.push(load_edge(rng, second));
    let (op, x, y, z) = match rng.weighted(&[2, 2, 2, 5, 1, 5]) {
        0 => (op::ADD, result, first, second),
        1 => (op::SUB, result, first, second),
        2 => (op::MUL, result, first, second),
        3 => (op::DIV, result, first, second),
        4 => (op::JEQ, first, second, 0),
        _ => (op::JLT, first, second, 0),
    };
    let compares = op == op::JEQ || op == op::JLT;
    code.push(Parts { op, x, y, z, w: 0 });
    code.push(Parts {
        w: rng.between(3, 9) as u32,
        ..plain(op::PUT, if compares { first } else { result })
    });
}

/// Loads a small constant or a cell that opens with a value at the edge.
fn load_edge(rng: &mut Rng, x: u8) -> Parts {
    if rng.chance(60) {
        return set(x, rng.pick(&OPERAND_POOL));
    }
    Parts {
        w: u32::from(rng.pick(&EDGE_FIELDS)),
        ..plain(op::GET, x)
    }
}

/// One access of a balance or of one of two cells.
fn touch(rng: &mut Rng) -> Parts {
    let field = u32::from(rng.pick(&EDGE_FIELDS));
    match rng.weighted(&[3, 3, 2, 2]) {
        0 => Parts {
            w: field,
            ..plain(op::GET, 0)
        },
        1 => Parts {
            w: field,
            ..plain(op::PUT, 1)
        },
        2 => plain(op::BAL, 0),
        _ => payment(rng, 7),
    }
}

/// Loads two operands and calculates with them.
fn add_calculation(rng: &mut Rng, code: &mut Vec<Parts>) {
    let (y, z) = (rng.pick(&REGISTER_POOL), rng.pick(&REGISTER_POOL));
    code.push(load(rng, y));
    code.push(load(rng, z));
    code.push(Parts {
        op: rng.pick(&[op::ADD, op::SUB, op::MUL, op::DIV]),
        x: rng.pick(&REGISTER_POOL),
        y,
        z,
        w: 0,
    });
}

/// Loads an amount and pays it.
fn add_payment(rng: &mut Rng, code: &mut Vec<Parts>) {
    let x = rng.pick(&REGISTER_POOL);
    code.push(match rng.below(4) {
        0 => plain(op::VALUE, x),
        1 => plain(op::BAL, x),
        _ => set(x, rng.pick(&AMOUNT_POOL)),
    });
    code.push(payment(rng, x));
}

/// PAY of a register to a random target.
fn payment(rng: &mut Rng, x: u8) -> Parts {
    let y = source(rng);
    Parts {
        y,
        w: constant(rng, y == SOURCE_CONSTANT),
        ..plain(op::PAY, x)
    }
}

/// An instruction that sets register x.
fn load(rng: &mut Rng, x: u8) -> Parts {
    match rng.weighted(&[4, 2, 2, 1, 1, 4]) {
        0 => set(x, rng.pick(&SET_POOL)),
        1 => Parts {
            y: rng.between(1, 4) as u8,
            ..plain(op::ARG, x)
        },
        2 => plain(op::SENDER, x),
        3 => plain(op::VALUE, x),
        4 => plain(op::BAL, x),
        _ => Parts {
            x,
            ..cell_access(rng, op::GET)
        },
    }
}

fn set(x: u8, value: i32) -> Parts {
    Parts {
        w: value as u32,
        ..plain(op::SET, x)
    }
}

/// An instruction with only part x.
fn plain(op: u8, x: u8) -> Parts {
    Parts {
        op,
        x,
        ..Parts::default()
    }
}

/// GET or PUT of a random cell.
fn cell_access(rng: &mut Rng, op: u8) -> Parts {
    let (y, z) = (source(rng), source(rng));
    let has_constant = y == SOURCE_CONSTANT || z == SOURCE_CONSTANT;
    Parts {
        op,
        x: rng.pick(&REGISTER_POOL),
        y,
        z,
        w: constant(rng, has_constant) | u32::from(rng.pick(&FIELD_POOL)),
    }
}

fn source(rng: &mut Rng) -> u8 {
    match rng.weighted(&[6, 4, 2, 3]) {
        0 => SOURCE_ZERO,
        1 => rng.pick(&[1, 1, 1, 2, 3, 4]),
        2 => SOURCE_SENDER,
        _ => SOURCE_CONSTANT,
    }
}

/// The upper half of w: a constant if a source wants one, else zero.
fn constant(rng: &mut Rng, wanted: bool) -> u32 {
    if wanted {
        u32::from(rng.pick(&CONSTANT_POOL)) << 16
    } else {
        0
    }
}

/// A jump that is still to be aimed.
fn jump(rng: &mut Rng) -> Parts {
    Parts {
        op: rng.pick(&[op::JEQ, op::JLT]),
        x: rng.pick(&REGISTER_POOL),
        y: rng.pick(&REGISTER_POOL),
        ..Parts::default()
    }
}

/// Gives every jump a target behind it, at most the code's length: mostly over
/// one instruction.
pub fn aim_forward(rng: &mut Rng, code: &mut [Parts]) {
    for (index, to, _) in jumps(code) {
        *to = forward(rng, index);
    }
    keep_in_code(code);
}

/// Gives every jump a target: half of them forward, the others to an instruction
/// before, to the own index, to the code's length, or anywhere.
fn aim_anywhere(rng: &mut Rng, code: &mut [Parts]) {
    for (index, to, length) in jumps(code) {
        *to = match rng.weighted(&[10, 5, 1, 2, 2]) {
            0 => forward(rng, index),
            1 => rng.below(index + 1) as u32,
            2 => index as u32,
            3 => length as u32,
            _ => rng.below(length + 1) as u32,
        };
    }
    keep_in_code(code);
}

/// Each jump: its index, its target, and the code's length.
fn jumps(code: &mut [Parts]) -> impl Iterator<Item = (usize, &mut u32, usize)> {
    let length = code.len();
    code.iter_mut()
        .enumerate()
        .filter(|(_, parts)| parts.op == op::JEQ || parts.op == op::JLT)
        .map(move |(index, parts)| (index, &mut parts.w, length))
}

/// A target behind an index: mostly over one instruction.
fn forward(rng: &mut Rng, index: usize) -> u32 {
    let further = if rng.chance(60) { 2 } else { rng.between(1, 4) };
    (index + further) as u32
}

/// Targets past the code's length become the length.
fn keep_in_code(code: &mut [Parts]) {
    for (_, to, length) in jumps(code) {
        *to = (*to).min(length as u32);
    }
}
