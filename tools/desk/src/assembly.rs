//! Instructions in the assembler's form.

use runner::code::{op, Parts, MNEMONICS, SOURCE_CONSTANT, SOURCE_SENDER, SOURCE_ZERO};
use runner::limits::ARGUMENTS;

/// An instruction as a line. Of one that breaks a rule it is what can be said:
/// a register that is none is `r8`, a source that is none `source9`.
pub fn line(parts: Parts) -> String {
    line_to(parts, &parts.w.to_string())
}

/// An instruction as a line, with the target that a jump names.
pub fn line_to(parts: Parts, target: &str) -> String {
    let Parts { op, x, y, z, w } = parts;
    let Some(name) = MNEMONICS.get(usize::from(op)) else {
        return word(parts);
    };
    match op {
        op::STOP | op::THROW => name.to_string(),
        op::SET => format!("{name} r{x} {}", w as i32),
        op::ARG => format!("{name} r{x} arg{y}"),
        op::SENDER | op::VALUE | op::BAL => format!("{name} r{x}"),
        op::ADD | op::SUB | op::MUL | op::DIV => format!("{name} r{x} r{y} r{z}"),
        op::GET | op::PUT => {
            let (a, b) = (source(y, parts), source(z, parts));
            format!("{name} r{x} {} {a} {b}", parts.low())
        }
        op::PAY => format!("{name} r{x} {}", source(y, parts)),
        _ => format!("{name} r{x} r{y} {target}"),
    }
}

/// An instruction as its five parts, which assembles whatever they are.
pub fn word(parts: Parts) -> String {
    let Parts { op, x, y, z, w } = parts;
    format!("word {op} {x} {y} {z} {w}")
}

fn source(number: u8, parts: Parts) -> String {
    match number {
        SOURCE_ZERO => "zero".to_string(),
        SOURCE_SENDER => "sender".to_string(),
        SOURCE_CONSTANT => format!("const {}", parts.high()),
        _ if usize::from(number) <= ARGUMENTS => format!("arg{number}"),
        _ => format!("source{number}"),
    }
}
