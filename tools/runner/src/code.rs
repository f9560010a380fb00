//! Instructions: their eight bytes, the rules of code (refusal 10) and the
//! decoded form.

use crate::bytes::u32_at;
use crate::limits::{ARGUMENTS, BALANCE_FIELD, INSTRUCTION_BYTES, REGISTERS};

/// The sixteen opcodes.
pub mod op {
    /// Ends the call.
    pub const STOP: u8 = 0;
    /// Aborts the call.
    pub const THROW: u8 = 1;
    /// Sets a register to a constant.
    pub const SET: u8 = 2;
    /// Loads an argument.
    pub const ARG: u8 = 3;
    /// Loads the sender's address.
    pub const SENDER: u8 = 4;
    /// Loads the call's value.
    pub const VALUE: u8 = 5;
    /// Adds.
    pub const ADD: u8 = 6;
    /// Subtracts.
    pub const SUB: u8 = 7;
    /// Multiplies.
    pub const MUL: u8 = 8;
    /// Divides, rounding toward minus infinity.
    pub const DIV: u8 = 9;
    /// Loads a cell of the called contract.
    pub const GET: u8 = 10;
    /// Stores into a cell of the called contract.
    pub const PUT: u8 = 11;
    /// Loads the contract's own balance.
    pub const BAL: u8 = 12;
    /// Pays an amount to an account.
    pub const PAY: u8 = 13;
    /// Jumps if two registers are equal.
    pub const JEQ: u8 = 14;
    /// Jumps if one register is below the other.
    pub const JLT: u8 = 15;
}

/// The opcodes' names in lower case, by number.
pub const MNEMONICS: [&str; 16] = [
    "stop", "throw", "set", "arg", "sender", "value", "add", "sub", "mul", "div", "get", "put",
    "bal", "pay", "jeq", "jlt",
];

/// Source number of zero.
pub const SOURCE_ZERO: u8 = 0;
/// Source number of the sender; 1 to 4 are the arguments.
pub const SOURCE_SENDER: u8 = 5;
/// Source number of the constant w div 65536.
pub const SOURCE_CONSTANT: u8 = 6;

/// The parts of an instruction as they stand in a block, valid or not.
#[derive(Clone, Copy, Debug, Default, PartialEq, Eq)]
pub struct Parts {
    /// Opcode.
    pub op: u8,
    /// Byte x.
    pub x: u8,
    /// Byte y.
    pub y: u8,
    /// Byte z.
    pub z: u8,
    /// The 32-bit part.
    pub w: u32,
}

impl Parts {
    /// The parts in the first eight bytes of a slice.
    pub fn read(bytes: &[u8]) -> Parts {
        Parts {
            op: bytes[0],
            x: bytes[1],
            y: bytes[2],
            z: bytes[3],
            w: u32_at(bytes, 4),
        }
    }

    /// The eight bytes in a block.
    pub fn to_bytes(self) -> [u8; INSTRUCTION_BYTES] {
        let [w0, w1, w2, w3] = self.w.to_le_bytes();
        [self.op, self.x, self.y, self.z, w0, w1, w2, w3]
    }

    /// w mod 65536.
    pub fn low(self) -> u16 {
        (self.w & 0xffff) as u16
    }

    /// w div 65536.
    pub fn high(self) -> u16 {
        (self.w >> 16) as u16
    }
}

/// Where an unsigned 32-bit operand comes from.
#[derive(Clone, Copy, Debug, PartialEq, Eq)]
pub enum Source {
    /// The number 0.
    Zero,
    /// An argument, by index from 0.
    Argument(usize),
    /// The sender's address.
    Sender,
    /// A constant of the instruction.
    Constant(u16),
}

/// The cell that GET or PUT uses, in the called contract.
#[derive(Clone, Copy, Debug, PartialEq, Eq)]
pub struct CellName {
    /// Field number, not 0.
    pub field: u16,
    /// Source of the first index.
    pub a: Source,
    /// Source of the second index.
    pub b: Source,
}

/// The four arithmetic operations.
#[derive(Clone, Copy, Debug, PartialEq, Eq)]
pub enum Operation {
    /// Sum.
    Add,
    /// Difference.
    Sub,
    /// Product.
    Mul,
    /// Quotient toward minus infinity.
    Div,
}

/// The tests of the two jumps.
#[derive(Clone, Copy, Debug, PartialEq, Eq)]
pub enum Test {
    /// x = y.
    Equal,
    /// x < y.
    Less,
}

/// An instruction that keeps every rule of code. Registers are by number.
#[derive(Clone, Copy, Debug, PartialEq, Eq)]
#[allow(missing_docs)]
pub enum Instruction {
    Stop,
    Throw,
    Set {
        x: usize,
        value: i32,
    },
    Argument {
        x: usize,
        index: usize,
    },
    Sender {
        x: usize,
    },
    Value {
        x: usize,
    },
    Arithmetic {
        operation: Operation,
        x: usize,
        y: usize,
        z: usize,
    },
    Get {
        x: usize,
        cell: CellName,
    },
    Put {
        x: usize,
        cell: CellName,
    },
    Balance {
        x: usize,
    },
    Pay {
        x: usize,
        target: Source,
    },
    Jump {
        test: Test,
        x: usize,
        y: usize,
        to: usize,
    },
}

impl Instruction {
    /// The opcode.
    pub fn op(&self) -> u8 {
        match self {
            Instruction::Stop => op::STOP,
            Instruction::Throw => op::THROW,
            Instruction::Set { .. } => op::SET,
            Instruction::Argument { .. } => op::ARG,
            Instruction::Sender { .. } => op::SENDER,
            Instruction::Value { .. } => op::VALUE,
            Instruction::Arithmetic { operation, .. } => match operation {
                Operation::Add => op::ADD,
                Operation::Sub => op::SUB,
                Operation::Mul => op::MUL,
                Operation::Div => op::DIV,
            },
            Instruction::Get { .. } => op::GET,
            Instruction::Put { .. } => op::PUT,
            Instruction::Balance { .. } => op::BAL,
            Instruction::Pay { .. } => op::PAY,
            Instruction::Jump { test, .. } => match test {
                Test::Equal => op::JEQ,
                Test::Less => op::JLT,
            },
        }
    }
}

/// An instruction of a code of the given length, or `None` if its parts break a
/// rule.
pub fn decode(parts: Parts, length: usize) -> Option<Instruction> {
    let Parts { op, x, y, z, w } = parts;
    Some(match op {
        op::STOP => {
            unused(&[x, y, z], w)?;
            Instruction::Stop
        }
        op::THROW => {
            unused(&[x, y, z], w)?;
            Instruction::Throw
        }
        op::SET => {
            unused(&[y, z], 0)?;
            Instruction::Set {
                x: register(x)?,
                value: w as i32,
            }
        }
        op::ARG => {
            unused(&[z], w)?;
            Instruction::Argument {
                x: register(x)?,
                index: argument(y)?,
            }
        }
        op::SENDER => {
            unused(&[y, z], w)?;
            Instruction::Sender { x: register(x)? }
        }
        op::VALUE => {
            unused(&[y, z], w)?;
            Instruction::Value { x: register(x)? }
        }
        op::ADD => arithmetic(Operation::Add, parts)?,
        op::SUB => arithmetic(Operation::Sub, parts)?,
        op::MUL => arithmetic(Operation::Mul, parts)?,
        op::DIV => arithmetic(Operation::Div, parts)?,
        op::GET => Instruction::Get {
            x: register(x)?,
            cell: cell_name(parts)?,
        },
        op::PUT => Instruction::Put {
            x: register(x)?,
            cell: cell_name(parts)?,
        },
        op::BAL => {
            unused(&[y, z], w)?;
            Instruction::Balance { x: register(x)? }
        }
        op::PAY => pay(parts)?,
        op::JEQ => jump(Test::Equal, parts, length)?,
        op::JLT => jump(Test::Less, parts, length)?,
        _ => return None,
    })
}

fn arithmetic(operation: Operation, parts: Parts) -> Option<Instruction> {
    unused(&[], parts.w)?;
    Some(Instruction::Arithmetic {
        operation,
        x: register(parts.x)?,
        y: register(parts.y)?,
        z: register(parts.z)?,
    })
}

fn cell_name(parts: Parts) -> Option<CellName> {
    let (a, b) = (source(parts.y, parts)?, source(parts.z, parts)?);
    if parts.low() == BALANCE_FIELD {
        return None;
    }
    if parts.y != SOURCE_CONSTANT && parts.z != SOURCE_CONSTANT {
        unused(&[], parts.high().into())?;
    }
    Some(CellName {
        field: parts.low(),
        a,
        b,
    })
}

fn pay(parts: Parts) -> Option<Instruction> {
    unused(&[parts.z], parts.low().into())?;
    if parts.y != SOURCE_CONSTANT {
        unused(&[], parts.high().into())?;
    }
    Some(Instruction::Pay {
        x: register(parts.x)?,
        target: source(parts.y, parts)?,
    })
}

/// Jumps go to any instruction, also to their own index, or to the code's length.
fn jump(test: Test, parts: Parts, length: usize) -> Option<Instruction> {
    unused(&[parts.z], 0)?;
    let to = parts.w as usize;
    (to <= length).then_some(Instruction::Jump {
        test,
        x: register(parts.x)?,
        y: register(parts.y)?,
        to,
    })
}

fn register(number: u8) -> Option<usize> {
    let number = usize::from(number);
    (number < REGISTERS).then_some(number)
}

/// The index of an argument that is numbered from 1.
fn argument(number: u8) -> Option<usize> {
    let index = usize::from(number).checked_sub(1)?;
    (index < ARGUMENTS).then_some(index)
}

fn source(number: u8, parts: Parts) -> Option<Source> {
    match number {
        SOURCE_ZERO => Some(Source::Zero),
        SOURCE_SENDER => Some(Source::Sender),
        SOURCE_CONSTANT => Some(Source::Constant(parts.high())),
        _ => argument(number).map(Source::Argument),
    }
}

/// Unused parts are zero.
fn unused(bytes: &[u8], w: u32) -> Option<()> {
    (w == 0 && bytes.iter().all(|byte| *byte == 0)).then_some(())
}
