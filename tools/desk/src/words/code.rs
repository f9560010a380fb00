//! Instructions in words, and the rules of code that one breaks.

use runner::code::{
    op, CellName, Instruction, Operation, Parts, Source, Test, MNEMONICS, SOURCE_CONSTANT,
};
use runner::limits::{ARGUMENTS, BALANCE_FIELD, REGISTERS};

/// What an instruction does.
pub fn instruction(instruction: &Instruction) -> String {
    match *instruction {
        Instruction::Stop => "ends the call".to_string(),
        Instruction::Throw => "aborts the call".to_string(),
        Instruction::Set { x, value } => format!("sets r{x} to {value}"),
        Instruction::Argument { x, index } => format!("sets r{x} to argument {}", index + 1),
        Instruction::Sender { x } => format!("sets r{x} to the sender's address"),
        Instruction::Value { x } => format!("sets r{x} to the call's value"),
        Instruction::Arithmetic { operation, x, y, z } => {
            format!("sets r{x} to r{y} {} r{z}", sign(operation))
        }
        Instruction::Get { x, cell } => format!("sets r{x} to {}", cell_name(cell)),
        Instruction::Put { x, cell } => format!("stores r{x} in {}", cell_name(cell)),
        Instruction::Balance { x } => format!("sets r{x} to the contract's balance"),
        Instruction::Pay { x, target } => format!("pays r{x} to {}", target_words(target)),
        Instruction::Jump { test, x, y, to } => {
            let sign = match test {
                Test::Equal => "=",
                Test::Less => "<",
            };
            format!("goes to {to} if r{x} {sign} r{y}")
        }
    }
}

/// The sign of an operation; a division rounds down.
pub(super) fn sign(operation: Operation) -> &'static str {
    match operation {
        Operation::Add => "+",
        Operation::Sub => "-",
        Operation::Mul => "*",
        Operation::Div => "/",
    }
}

fn cell_name(cell: CellName) -> String {
    let (a, b) = (source(cell.a), source(cell.b));
    format!("field {} [{a}, {b}]", cell.field)
}

fn source(source: Source) -> String {
    match source {
        Source::Zero => "0".to_string(),
        Source::Argument(index) => format!("argument {}", index + 1),
        Source::Sender => "the sender".to_string(),
        Source::Constant(constant) => constant.to_string(),
    }
}

fn target_words(target: Source) -> String {
    match target {
        Source::Zero | Source::Constant(_) => format!("account {}", source(target)),
        Source::Argument(_) => format!("the account in {}", source(target)),
        Source::Sender => source(target),
    }
}

/// What a byte of an instruction is.
#[derive(Clone, Copy)]
enum Use {
    Unused,
    Register,
    Argument,
    Source,
}

/// The rules that an instruction of a code of some length breaks. There are none of
/// an instruction that the reader accepts.
pub fn broken_rules(parts: Parts, length: usize) -> Vec<String> {
    let Parts { op, x, y, z, .. } = parts;
    if usize::from(op) >= MNEMONICS.len() {
        return vec![format!("op {op}: there are 0 to {}", MNEMONICS.len() - 1)];
    }
    let bytes = [("x", x), ("y", y), ("z", z)];
    let named = bytes.into_iter().zip(uses(op));
    let broken = named.filter_map(|((name, byte), used)| byte_rule(name, byte, used));
    broken.chain(word_rules(parts, length)).collect()
}

/// What x, y and z are.
fn uses(op: u8) -> [Use; 3] {
    match op {
        op::STOP | op::THROW => [Use::Unused; 3],
        op::SET | op::SENDER | op::VALUE | op::BAL => [Use::Register, Use::Unused, Use::Unused],
        op::ARG => [Use::Register, Use::Argument, Use::Unused],
        op::GET | op::PUT => [Use::Register, Use::Source, Use::Source],
        op::PAY => [Use::Register, Use::Source, Use::Unused],
        op::JEQ | op::JLT => [Use::Register, Use::Register, Use::Unused],
        _ => [Use::Register; 3],
    }
}

fn byte_rule(name: &str, byte: u8, used: Use) -> Option<String> {
    let number = usize::from(byte);
    let (good, rule) = match used {
        Use::Unused => (number == 0, "it is unused, so it is 0"),
        Use::Register => (number < REGISTERS, "registers are 0 to 7"),
        Use::Argument => ((1..=ARGUMENTS).contains(&number), "arguments are 1 to 4"),
        Use::Source => (byte <= SOURCE_CONSTANT, "sources are 0 to 6"),
    };
    (!good).then(|| format!("{name} is {byte}: {rule}"))
}

/// The rules that the part w breaks.
fn word_rules(parts: Parts, length: usize) -> Vec<String> {
    let Parts { op, y, z, w, .. } = parts;
    match op {
        op::SET => Vec::new(),
        op::GET | op::PUT => {
            let balance = parts.low() == BALANCE_FIELD;
            let field = balance.then(|| "the field is 0, which is the balance".to_string());
            let unused = unused_constant(parts, &[y, z]);
            field.into_iter().chain(unused).collect()
        }
        op::PAY => {
            let low = unused("w mod 65536", parts.low().into());
            low.into_iter()
                .chain(unused_constant(parts, &[y]))
                .collect()
        }
        op::JEQ | op::JLT => jump_rule(w as usize, length).into_iter().collect(),
        _ => unused("w", w).into_iter().collect(),
    }
}

fn unused(name: &str, part: u32) -> Option<String> {
    (part != 0).then(|| format!("{name} is {part}: it is unused, so it is 0"))
}

/// The constant is zero if no source is it.
fn unused_constant(parts: Parts, sources: &[u8]) -> Option<String> {
    let constant = parts.high();
    let wrong = constant != 0 && !sources.contains(&SOURCE_CONSTANT);
    wrong.then(|| format!("w div 65536 is {constant}: no source is 6, so it is 0"))
}

fn jump_rule(to: usize, length: usize) -> Option<String> {
    (to > length).then(|| format!("it goes to {to}: the code's length is {length}"))
}
